// The independent Rust implementations behind C functions.
mod reader;
use independent::Timing;

/// # Safety
/// The pointers and lengths must be those of live buffers that do not overlap.
#[no_mangle]
pub unsafe extern "C" fn run_rust(image: *const u8, n: usize, results: *mut i64, results_len: usize, arcs: *mut u32, arcs_len: usize) -> u32 {
    let image = std::slice::from_raw_parts(image, n);
    let results = std::slice::from_raw_parts_mut(results, results_len);
    let arcs = std::slice::from_raw_parts_mut(arcs, arcs_len);
    match independent::timing(image, results, arcs) {
        Ok(Timing::Timed { .. }) => 0,
        Ok(Timing::Growing { .. }) => 1,
        Err(_) => 2,
    }
}

/// # Safety
/// The same.
#[no_mangle]
pub unsafe extern "C" fn run_rust_text(text: *const u8, n: usize, image: *mut u8, image_len: usize) -> u32 {
    reader::image_from_text(std::slice::from_raw_parts(text, n), std::slice::from_raw_parts_mut(image, image_len)).unwrap_or(0)
}
