//! For cargo: links the library's archive, whose path is in NEELUKUDAM_ARCHIVE. The script `run` does without cargo.
fn main() {
    println!("cargo:rerun-if-env-changed=NEELUKUDAM_ARCHIVE");
    if let Ok(archive) = std::env::var("NEELUKUDAM_ARCHIVE") {
        println!("cargo:rerun-if-changed={archive}");
        println!("cargo:rustc-link-arg-bins={archive}");
    }
}
