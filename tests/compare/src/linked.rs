//! The library's C interface, as safe calls.
//!
//! Each call copies what it lends into a larger piece of memory, with guards on both sides. After the call the guards and the image, or the
//! text, must be as before. This is the only place with `unsafe`.

use crate::independent::{Numbers, Refusal, Timing, Way};

/// Refusal 0 is a good image with its numbers. Where it is refused, the last four are 0.
#[repr(C)]
#[derive(Clone, Copy, Debug, PartialEq, Eq)]
pub struct CheckAnswer {
    pub refusal: u32,
    pub record: u32,
    pub cycle: u32,
    pub phases: u32,
    pub synchronizers: u32,
    pub arcs: u32,
}

/// Arcs of a loop above 0 mean a growing loop. What does not apply is 0.
#[repr(C)]
#[derive(Clone, Copy, Debug, PartialEq, Eq)]
pub struct TimingAnswer {
    pub gain: i64,
    pub refusal: u32,
    pub record: u32,
    pub loop_arcs: u32,
    pub missed_setups: u32,
    pub missed_holds: u32,
}

/// What does not apply is 0.
#[repr(C)]
#[derive(Clone, Copy, Debug, PartialEq, Eq)]
pub struct PathAnswer {
    pub refusal: u32,
    pub record: u32,
    pub launch: u32,
    pub arcs: u32,
}

/// Refusal 0 is an image of so many bytes. What does not apply is 0.
#[repr(C)]
#[derive(Clone, Copy, Debug, PartialEq, Eq)]
pub struct TextAnswer {
    pub refusal: u32,
    pub record: u32,
    pub image_bytes: u32,
}

extern "C" {
    fn neelukudam_check(image: *const u8, image_len: usize) -> CheckAnswer;
    fn neelukudam_timing(
        image: *const u8,
        image_len: usize,
        results: *mut i64,
        results_len: usize,
        arcs: *mut u32,
        arcs_len: usize,
    ) -> TimingAnswer;
    fn neelukudam_path(image: *const u8, image_len: usize, synchronizer: u32, arcs: *mut u32, arcs_len: usize) -> PathAnswer;
    fn neelukudam_report(image: *const u8, image_len: usize, text: *mut u8, text_len: usize) -> usize;
    fn neelukudam_image_from_text(text: *const u8, text_len: usize, image: *mut u8, image_len: usize) -> TextAnswer;
}

// ---- The independent answers in the same shape. ----

impl From<Result<Numbers, Refusal>> for CheckAnswer {
    fn from(answer: Result<Numbers, Refusal>) -> Self {
        let none = CheckAnswer { refusal: 0, record: 0, cycle: 0, phases: 0, synchronizers: 0, arcs: 0 };
        match answer {
            Err(Refusal { number, record }) => CheckAnswer { refusal: number, record, ..none },
            Ok(Numbers { cycle, phases, synchronizers, arcs }) => CheckAnswer { cycle, phases, synchronizers, arcs, ..none },
        }
    }
}

impl From<Result<Timing, Refusal>> for TimingAnswer {
    fn from(answer: Result<Timing, Refusal>) -> Self {
        let none = TimingAnswer { gain: 0, refusal: 0, record: 0, loop_arcs: 0, missed_setups: 0, missed_holds: 0 };
        match answer {
            Err(Refusal { number, record }) => TimingAnswer { refusal: number, record, ..none },
            Ok(Timing::Growing { arcs, gain }) => TimingAnswer { gain, loop_arcs: arcs, ..none },
            Ok(Timing::Timed { missed_setups, missed_holds }) => TimingAnswer { missed_setups, missed_holds, ..none },
        }
    }
}

impl From<Result<Way, Refusal>> for PathAnswer {
    fn from(answer: Result<Way, Refusal>) -> Self {
        let none = PathAnswer { refusal: 0, record: 0, launch: 0, arcs: 0 };
        match answer {
            Err(Refusal { number, record }) => PathAnswer { refusal: number, record, ..none },
            Ok(Way { launch, arcs }) => PathAnswer { launch, arcs, ..none },
        }
    }
}

impl From<Result<u32, Refusal>> for TextAnswer {
    fn from(answer: Result<u32, Refusal>) -> Self {
        match answer {
            Err(Refusal { number, record }) => TextAnswer { refusal: number, record, image_bytes: 0 },
            Ok(image_bytes) => TextAnswer { refusal: 0, record: 0, image_bytes },
        }
    }
}

// ---- Lent memory with guards. ----

/// Places behind a lent part. Before it stand as many and up to seven more.
const GUARDS: usize = 24;

/// A copy of what is lent, between guards.
struct Guarded<T> {
    places: Vec<T>,
    from: usize,
    len: usize,
    guard: T,
}

impl<T: Copy + PartialEq> Guarded<T> {
    /// `odd` shifts the lent part, so that images start at odd addresses too.
    fn new(lent: &[T], guard: T, odd: usize) -> Self {
        let from = GUARDS + odd;
        let mut places = vec![guard; from + lent.len() + GUARDS];
        places[from..from + lent.len()].copy_from_slice(lent);
        Guarded { places, from, len: lent.len(), guard }
    }

    /// Part of the whole piece, so that the guards are a real part of the same memory.
    fn pointer(&mut self) -> *mut T {
        self.places[self.from..].as_mut_ptr()
    }

    /// What is in the lent part now. Err where a guard was overwritten.
    fn lent(&self, what: &str) -> Result<&[T], String> {
        let (before, rest) = self.places.split_at(self.from);
        let (lent, behind) = rest.split_at(self.len);
        if before.iter().any(|&place| place != self.guard) {
            return Err(format!("memory before the {what} was overwritten"));
        }
        if behind.iter().any(|&place| place != self.guard) {
            return Err(format!("memory behind the {what} was overwritten"));
        }
        Ok(lent)
    }
}

// ---- The calls. ----

const TEXT_GUARD: u8 = 0x5A;
const IMAGE_GUARD: u8 = 0xA6;
const ARC_GUARD: u32 = 0xC3C3_3C3C;
const RESULT_GUARD: i64 = 0x6996_9669_C33C_3CC3;

/// The linked library, and how often it was called.
#[derive(Default)]
pub struct Library {
    pub calls: u64,
}

impl Library {
    /// What a call only reads: an image or a text.
    fn lend(&mut self, bytes: &[u8]) -> Guarded<u8> {
        self.calls += 1;
        // Other bytes around it at every call, so that an answer cannot lean on them unseen.
        Guarded::new(bytes, (self.calls * 0x55) as u8, (self.calls % 8) as usize)
    }

    pub fn check(&mut self, image: &[u8]) -> Result<CheckAnswer, String> {
        let mut lent = self.lend(image);
        // SAFETY: the pointer has as many bytes as are said, and nothing else uses them meanwhile.
        let answer = unsafe { neelukudam_check(lent.pointer(), image.len()) };
        unchanged(&lent, "image", image)?;
        Ok(answer)
    }

    pub fn timing(&mut self, image: &[u8], results: &mut [i64], arcs: &mut [u32]) -> Result<TimingAnswer, String> {
        let mut lent = self.lend(image);
        let mut lent_results = Guarded::new(results, RESULT_GUARD, 0);
        let mut lent_arcs = Guarded::new(arcs, ARC_GUARD, (self.calls % 2) as usize);
        // SAFETY: each pointer has as many places as are said, aligned; the three do not overlap, and nothing else uses them meanwhile.
        let answer = unsafe {
            neelukudam_timing(lent.pointer(), image.len(), lent_results.pointer(), results.len(), lent_arcs.pointer(), arcs.len())
        };
        unchanged(&lent, "image", image)?;
        results.copy_from_slice(lent_results.lent("results")?);
        arcs.copy_from_slice(lent_arcs.lent("arcs")?);
        Ok(answer)
    }

    pub fn path(&mut self, image: &[u8], synchronizer: u32, arcs: &mut [u32]) -> Result<PathAnswer, String> {
        let mut lent = self.lend(image);
        let mut lent_arcs = Guarded::new(arcs, ARC_GUARD, (self.calls % 2) as usize);
        // SAFETY: as in timing.
        let answer = unsafe { neelukudam_path(lent.pointer(), image.len(), synchronizer, lent_arcs.pointer(), arcs.len()) };
        unchanged(&lent, "image", image)?;
        arcs.copy_from_slice(lent_arcs.lent("arcs")?);
        Ok(answer)
    }

    pub fn report(&mut self, image: &[u8], text: &mut [u8]) -> Result<usize, String> {
        let mut lent = self.lend(image);
        let mut lent_text = Guarded::new(text, TEXT_GUARD, (self.calls % 3) as usize);
        // SAFETY: as in timing.
        let length = unsafe { neelukudam_report(lent.pointer(), image.len(), lent_text.pointer(), text.len()) };
        unchanged(&lent, "image", image)?;
        text.copy_from_slice(lent_text.lent("text")?);
        Ok(length)
    }

    pub fn image_from_text(&mut self, text: &[u8], image: &mut [u8]) -> Result<TextAnswer, String> {
        let mut lent = self.lend(text);
        let mut lent_image = Guarded::new(image, IMAGE_GUARD, (self.calls % 5) as usize);
        // SAFETY: as in timing.
        let answer = unsafe { neelukudam_image_from_text(lent.pointer(), text.len(), lent_image.pointer(), image.len()) };
        unchanged(&lent, "text", text)?;
        image.copy_from_slice(lent_image.lent("image")?);
        Ok(answer)
    }
}

fn unchanged(lent: &Guarded<u8>, what: &str, before: &[u8]) -> Result<(), String> {
    if lent.lent(what)? != before {
        return Err(format!("the {what} was overwritten"));
    }
    Ok(())
}
