//! Holds every call of the linked library against the independent program, answers and buffers alike.
//!
//!     compare [SEED [PERCENT]]    the whole comparison, with this share of the circuits by chance
//!     compare SEED PERCENT K N    every N-th image of each part, from the K-th on, so that N processes do the whole together
//!     compare image HEX           all calls on one image
//!     compare text HEX            one text
//!
//! It stops at the first disagreement, prints it with the image or the text, and ends with status 1.
#![forbid(unsafe_code)]

use compare::images::{self, Expect, Plan, Random, Size};
use compare::independent::{self, Numbers, Timing, MARK, MOST_ARCS, MOST_PHASES, MOST_SYNCHRONIZERS};
use compare::known;
use compare::linked::{CheckAnswer, Library, PathAnswer, TimingAnswer};
use compare::texts::{self, Meant};
use compare::written::{self, MOST_DEPTH, MOST_TEXT_BYTES};
use std::collections::BTreeMap;
use std::fmt::Debug;
use std::time::Instant;

/// The seed of a run that is given none, here and in the script `run`.
const SEED: u64 = 0x6E65_656C_756B_7564;

/// The largest image there can be.
const MOST_IMAGE_BYTES: usize = 45_216;

/// Every kind of answer must be seen as often as this in a whole run.
const LEAST_SEEN: u64 = 20;

type Maker = fn(&mut Random, Size) -> (Plan, Expect);

/// Makers of circuits with their names.
const MAKERS: [(&str, Maker); 7] = [
    ("free", images::free),
    ("loose", images::loose),
    ("tight", images::tight),
    ("a tick more", images::tick_more),
    ("forward", images::forward),
    ("chain", images::chain),
    ("ring", images::ring),
];

/// How many circuits each maker makes of each size.
const SIZES: [(Size, u64); 4] = [(Size::Tiny, 400), (Size::Small, 300), (Size::Middle, 80), (Size::Greatest, 12)];

// What a run may never be without: see `Comparison::see_together` and `exchange`.
const TOGETHER: &str = "an arc between different phases that close together";
const AT_ENDS: &str = "such an arc between 0 and Tc";
const PAIRS: &str = "pairs";
const BETWEEN: &str = "with an arc between the two";
const GROWING: &str = "growing";

/// What a call of timing came to.
enum Found {
    Refused,
    Growing {
        gain: i64,
    },
    /// The library's results.
    Timed(Vec<i64>),
}

/// What the library's calls answer about one image, and what they leave in the buffers.
struct Answers {
    check: CheckAnswer,
    timing: TimingAnswer,
    results: Vec<i64>,
    arcs: Vec<u32>,
    paths: Vec<(PathAnswer, Vec<u32>)>,
    report: Vec<u8>,
}

struct Comparison {
    library: Library,
    /// What buffers hold before a call, and which of the possible calls are made.
    random: Random,
    images: u64,
    texts: u64,
    /// How often each answer came: the call, and the kind of answer.
    seen: BTreeMap<(&'static str, String), u64>,
    /// Where two phases were exchanged and a loop grows: how often the library showed the same ring.
    same_rings: u64,
    longest_path: u32,
    longest_loop: u32,
    /// In size, marks aside.
    greatest_number: i64,
    /// Bytes of the largest image that was made from a text.
    largest_made: usize,
}

fn same<T: PartialEq + Debug>(what: &str, linked: T, independent: T) -> Result<(), String> {
    if linked == independent {
        return Ok(());
    }
    Err(format!("{what}: the library has {linked:?}, the independent program has {independent:?}"))
}

/// Says the first place that differs, not the whole buffer.
fn same_places<T: PartialEq + Debug>(what: &str, linked: &[T], independent: &[T]) -> Result<(), String> {
    same(&format!("length of {what}"), linked.len(), independent.len())?;
    for (i, (linked, independent)) in linked.iter().zip(independent).enumerate() {
        same(&format!("{what}, place {i}"), linked, independent)?;
    }
    Ok(())
}

impl Comparison {
    fn new() -> Comparison {
        Comparison {
            library: Library::default(),
            random: Random::new(0),
            images: 0,
            texts: 0,
            seen: BTreeMap::new(),
            same_rings: 0,
            longest_path: 0,
            longest_loop: 0,
            greatest_number: 0,
            largest_made: 0,
        }
    }

    fn see(&mut self, call: &'static str, refusal: u32, otherwise: &str) {
        let kind = if refusal > 0 { format!("refused {refusal}") } else { otherwise.to_string() };
        *self.seen.entry((call, kind)).or_default() += 1;
    }

    /// Each kind that is shown.
    fn see_shown(&mut self, what: &'static str, kinds: &[(bool, &str)]) {
        for (_, kind) in kinds.iter().filter(|(shown, _)| *shown) {
            self.see(what, 0, kind);
        }
    }

    fn results_by_chance(&mut self, length: usize) -> Vec<i64> {
        (0..length).map(|_| self.random.draw() as i64).collect()
    }

    fn arcs_by_chance(&mut self, length: usize) -> Vec<u32> {
        (0..length).map(|_| self.random.draw() as u32).collect()
    }

    fn text_by_chance(&mut self, length: usize) -> Vec<u8> {
        (0..length).map(|_| self.random.draw() as u8).collect()
    }

    // ---- One call each. ----

    fn check(&mut self, image: &[u8]) -> Result<(), String> {
        let independent = independent::check(image);
        let linked = self.library.check(image)?;
        same("check", linked, independent.into())?;
        self.see("check", linked.refusal, "good");
        Ok(())
    }

    fn timing(&mut self, image: &[u8], results: usize, arcs: usize) -> Result<Found, String> {
        let results = self.results_by_chance(results);
        let arcs = self.arcs_by_chance(arcs);
        let name = format!("timing with {} results and {} arcs", results.len(), arcs.len());

        let (mut wanted_results, mut wanted_arcs) = (results.clone(), arcs.clone());
        let independent = independent::timing(image, &mut wanted_results, &mut wanted_arcs);
        let (mut linked_results, mut linked_arcs) = (results.clone(), arcs.clone());
        let linked = self.library.timing(image, &mut linked_results, &mut linked_arcs).map_err(|harm| format!("{name}: {harm}"))?;

        if let Ok(Timing::Growing { .. }) = independent {
            // Any growing ring may be shown. All else is fixed.
            let n = linked.loop_arcs;
            let growing = TimingAnswer::from(Ok(Timing::Growing { arcs: n, gain: linked.gain }));
            if n == 0 || n as usize > arcs.len() || linked != growing {
                return Err(format!("{name}: the library has {linked:?}, but a loop grows: {independent:?}"));
            }
            let (ring, rest) = linked_arcs.split_at(n as usize);
            independent::judge_ring(image, ring, linked.gain).map_err(|wrong| format!("{name}, ring {ring:?}: {wrong}"))?;
            same_places(&format!("{name}: arcs behind the ring"), rest, &arcs[n as usize..])?;
            same_places(&format!("{name}: results"), &linked_results, &results)?;
            self.longest_loop = self.longest_loop.max(n);
            self.see("timing", 0, "growing");
            return Ok(Found::Growing { gain: linked.gain });
        }
        same(&name, linked, independent.into())?;
        same_places(&format!("{name}: results"), &linked_results, &wanted_results)?;
        same_places(&format!("{name}: arcs"), &linked_arcs, &wanted_arcs)?;
        self.see("timing", linked.refusal, "timed");
        Ok(if linked.refusal > 0 { Found::Refused } else { Found::Timed(linked_results) })
    }

    fn path(&mut self, image: &[u8], synchronizer: u32, arcs: usize) -> Result<(), String> {
        let arcs = self.arcs_by_chance(arcs);
        let name = format!("path to {synchronizer} with {} arcs", arcs.len());
        let mut wanted = arcs.clone();
        let independent = independent::path(image, synchronizer, &mut wanted);
        let mut linked_arcs = arcs;
        let linked = self.library.path(image, synchronizer, &mut linked_arcs).map_err(|harm| format!("{name}: {harm}"))?;
        same(&name, linked, independent.into())?;
        same_places(&format!("{name}: arcs"), &linked_arcs, &wanted)?;
        self.see("path", linked.refusal, "found");
        self.longest_path = self.longest_path.max(linked.arcs);
        Ok(())
    }

    /// The report in buffers that are empty, one too short, just right and longer.
    fn report(&mut self, image: &[u8], growing: bool) -> Result<(), String> {
        let mut wanted = vec![0; independent::report(image, &mut [])];
        independent::report(image, &mut wanted);
        // The ring that the library shows may be another one, so its report may have another length.
        let length = if growing { self.library.report(image, &mut [])? } else { wanted.len() };
        if length == 0 || length > 1_000_000 {
            return Err(format!("report: the library gives length {length}"));
        }
        for room in [0, length - 1, length, length + 5] {
            let name = format!("report with {room} bytes");
            let before = self.text_by_chance(room);
            let mut text = before.clone();
            let given = self.library.report(image, &mut text).map_err(|harm| format!("{name}: {harm}"))?;
            same(&format!("{name}: length"), given, length)?;
            if room < length {
                same_places(&format!("{name}: text"), &text, &before)?;
            } else {
                let (text, rest) = text.split_at(length);
                same_places(&format!("{name}: text behind the report"), rest, &before[length..])?;
                if growing {
                    judge_loop_text(image, text).map_err(|wrong| format!("{name}: {wrong}"))?;
                } else {
                    same(&name, String::from_utf8_lossy(text), String::from_utf8_lossy(&wanted))?;
                }
            }
            let refusal = independent::check(image).err().map_or(0, |refusal| refusal.number);
            self.see("report", refusal, if growing { "loop" } else { "timed" });
        }
        Ok(())
    }

    // ---- All calls on an image. ----

    /// Gives what the image turned out to be, or None where it is refused.
    fn image(&mut self, image: &[u8]) -> Result<Option<Expect>, String> {
        self.images += 1;
        self.check(image)?;
        let found = match independent::check(image) {
            Err(_) => {
                self.refused(image)?;
                None
            }
            Ok(numbers) => Some(self.good(image, numbers)?),
        };
        self.report(image, found == Some(Expect::Growing))?;
        Ok(found)
    }

    /// An image that is refused whatever the buffers are.
    fn refused(&mut self, image: &[u8]) -> Result<(), String> {
        let some = self.random.between(1, 20) as usize;
        self.timing(image, 0, 0)?;
        self.timing(image, 6 * some, some)?;
        self.path(image, 0, 0)?;
        let synchronizer = self.random.between(0, 3);
        self.path(image, synchronizer, some)
    }

    fn good(&mut self, image: &[u8], numbers: Numbers) -> Result<Expect, String> {
        let synchronizers = numbers.synchronizers;
        let l = synchronizers as usize;
        let short = l.saturating_sub(1);
        let short_results = (6 * l).saturating_sub(1);
        let found = self.timing(image, 6 * l, l)?;
        self.see_circuit(numbers, &found);
        self.see_together(&Plan::of(image));
        for (results, arcs) in [(6 * l + 3, l + 2), (short_results, l), (6 * l, short), (short_results, short), (0, l), (6 * l, 0), (0, 0)]
        {
            self.timing(image, results, arcs)?;
        }

        for synchronizer in self.asked(synchronizers) {
            let more = self.random.pick(&[0, 0, 2]);
            self.path(image, synchronizer, l + more)?;
        }
        for (synchronizer, arcs) in [(0, short), (synchronizers, l), (synchronizers, short), (u32::MAX, l), (u32::MAX, l + 2)] {
            self.path(image, synchronizer, arcs)?;
        }
        Ok(if let Found::Growing { .. } = found { Expect::Growing } else { Expect::Timed })
    }

    /// Where paths are asked to: every synchronizer of a small circuit, some of a great one.
    fn asked(&mut self, synchronizers: u32) -> Vec<u32> {
        if synchronizers <= 12 {
            return (0..synchronizers).collect();
        }
        (0..4).map(|_| self.random.between(0, synchronizers - 1)).collect()
    }

    /// Counts what a circuit shows, so that a run in which something never came up is not taken for a good one.
    fn see_circuit(&mut self, numbers: Numbers, found: &Found) {
        let mut kinds = vec![
            (numbers.synchronizers == 0, "no synchronizers"),
            (numbers.arcs == 0, "no arcs"),
            (numbers.phases == MOST_PHASES, "16 phases"),
            (numbers.synchronizers == MOST_SYNCHRONIZERS, "512 synchronizers"),
            (numbers.arcs == MOST_ARCS, "2048 arcs"),
        ];
        match found {
            Found::Refused => (),
            Found::Growing { gain } => kinds.push((*gain == 1, "gain 1")),
            Found::Timed(results) => {
                let all = |field: usize| results.iter().skip(field).step_by(6).copied().filter(|&number| number != MARK);
                let cycle = i64::from(numbers.cycle);
                kinds.push((results.contains(&MARK), "marks"));
                kinds.push((all(1).any(|departure| departure > cycle), "departure above Tc"));
                kinds.push((all(2).any(|arrival| arrival < 0), "arrival below 0"));
                kinds.push((all(4).any(|slack| slack < 0), "hold missed"));
                kinds.push((all(5).any(|slack| slack < 0), "setup missed"));
                kinds.push((all(4).chain(all(5)).all(|slack| slack >= 0), "none missed"));
                kinds.push((all(4).any(|slack| slack == 0), "hold slack 0"));
                kinds.push((all(5).any(|slack| slack == 0), "setup slack 0"));
                let size = (0..6).flat_map(all).map(i64::abs).max().unwrap_or(0);
                self.greatest_number = self.greatest_number.max(size);
            }
        }
        self.see_shown("circuit", &kinds);
    }

    /// The same of phases that close together.
    fn see_together(&mut self, plan: &Plan) {
        let arcs = plan.arcs_together();
        let closing = |phase: u32| plan.phases[phase as usize][0];
        let closing_at = |time: u32| plan.phases.iter().filter(|phase| phase[0] == time).count();
        let kinds = [
            (!arcs.is_empty(), TOGETHER),
            (arcs.iter().any(|&[i, j]| closing(i) != closing(j)), AT_ENDS),
            (arcs.iter().any(|&[i, j]| arcs.contains(&[j, i])), "such arcs both ways"),
            (arcs.iter().any(|&[i, _]| closing_at(closing(i)) > 2), "such an arc, three close together"),
            (!arcs.is_empty() && closing_at(0) > 1 && closing_at(plan.cycle) > 1, "such an arc, several close at 0 and at Tc"),
        ];
        self.see_shown("circuit", &kinds);
    }

    // ---- Two phases exchanged. ----

    fn answers(&mut self, image: &[u8], results: &[i64], arcs: &[u32], asked: &[u32]) -> Result<Answers, String> {
        let (mut results, mut ring) = (results.to_vec(), arcs.to_vec());
        let timing = self.library.timing(image, &mut results, &mut ring)?;
        let mut paths = Vec::new();
        for &synchronizer in asked {
            let mut way = arcs.to_vec();
            paths.push((self.library.path(image, synchronizer, &mut way)?, way));
        }
        let mut report = vec![0; self.library.report(image, &mut [])?];
        self.library.report(image, &mut report)?;
        Ok(Answers { check: self.library.check(image)?, timing, results, arcs: ring, paths, report })
    }

    /// A circuit, and the same with a phase and the next one exchanged, which close at one time: the library must answer the same of
    /// both, and leave the same in the buffers. Only a growing ring may be another. Before that each is compared as all images are.
    fn exchange(&mut self, plan: &Plan, phase: u32) -> Result<Option<Expect>, String> {
        let images = [plan.image(), plan.exchanged(phase).image()];
        let found = self.image(&images[0])?;
        if self.image(&images[1])? != found {
            return Err("one of two circuits grows, the other, with two phases exchanged, does not".to_string());
        }
        let l = plan.synchronizers.len();
        let (results, arcs, asked) = (self.results_by_chance(6 * l + 3), self.arcs_by_chance(l + 2), self.asked(l as u32));
        let first = self.answers(&images[0], &results, &arcs, &asked)?;
        let second = self.answers(&images[1], &results, &arcs, &asked)?;
        let ring = first.timing == second.timing && first.arcs == second.arcs && first.report == second.report;
        let growing = found == Some(Expect::Growing);
        for (same, what) in [
            (first.check == second.check, "check"),
            (ring || growing, "timing or report"),
            (first.results == second.results, "results"),
            (first.paths == second.paths, "path"),
        ] {
            if !same {
                return Err(format!("{what}: not the same with phases {phase} and {} exchanged", phase + 1));
            }
        }
        if growing {
            for (image, answers) in images.iter().zip([first, second]) {
                let (ring, rest) = answers.arcs.split_at(answers.timing.loop_arcs as usize);
                independent::judge_ring(image, ring, answers.timing.gain)?;
                same_places("arcs behind the ring", rest, &arcs[ring.len()..])?;
                judge_loop_text(image, &answers.report)?;
            }
        }
        let between = plan.arcs_together().iter().any(|&[i, j]| i.min(j) == phase && i.max(j) == phase + 1);
        self.see_shown("exchanged", &[(true, PAIRS), (between, BETWEEN), (growing, GROWING)]);
        self.same_rings += u64::from(growing && ring);
        Ok(found)
    }

    // ---- A text. ----

    fn image_from_text(&mut self, text: &[u8], room: usize) -> Result<(), String> {
        let name = format!("image from text with {room} bytes");
        let before = self.text_by_chance(room);
        let mut wanted = before.clone();
        let independent = written::image_from_text(text, &mut wanted);
        let mut image = before;
        let linked = self.library.image_from_text(text, &mut image).map_err(|harm| format!("{name}: {harm}"))?;
        same(&name, linked, independent.into())?;
        same_places(&format!("{name}: image"), &image, &wanted)?;
        self.see("image from text", linked.refusal, "made");
        Ok(())
    }

    /// One text, in buffers that are empty, one too short, just right and longer; where it is refused, in an empty one and in some.
    fn text(&mut self, text: &[u8], meant: &Meant) -> Result<(), String> {
        self.texts += 1;
        let made = written::image_of(text);
        let independent = made.as_ref().map_err(|refusal| (refusal.number, refusal.record));
        match meant {
            Meant::Unknown => (),
            Meant::Image(image) => same("what the maker knows", Ok(image), independent)?,
            Meant::Refused(number, record) => same("what the maker knows", Err((*number, *record)), independent)?,
        }
        self.see_text(text, independent);
        let more = self.random.between(1, 300) as usize;
        let rooms = match &made {
            Ok(image) => vec![0, image.len() - 1, image.len(), image.len() + more],
            // Long texts get room for the largest image too.
            Err(_) if text.len() > 5_000 => vec![0, more, MOST_IMAGE_BYTES],
            Err(_) => vec![0, more],
        };
        for room in rooms {
            self.image_from_text(text, room)?;
        }
        Ok(())
    }

    /// Counts what a text shows, as `see_circuit` does for circuits.
    fn see_text(&mut self, text: &[u8], image: Result<&Vec<u8>, (u32, u32)>) {
        let has = |byte: u8| text.contains(&byte);
        let mut kinds = Vec::new();
        match image {
            Err((15, _)) if text.len() > MOST_TEXT_BYTES => kinds.push((true, "too long")),
            Err((15, 0)) => kinds.push((true, "line 0 at fault")),
            Err((15, _)) => kinds.push((true, "a later line at fault")),
            Err(_) => (),
            Ok(image) => {
                let numbers = independent::check(image).expect("an image that was made is good");
                let deep = [vec![b'('; MOST_DEPTH], b"1".to_vec()].concat();
                kinds.push((has(b'+'), "a sum"));
                kinds.push((has(b'|'), "branches"));
                kinds.push((has(b'('), "brackets"));
                kinds.push((text.windows(deep.len()).any(|part| part == deep), "16 deep"));
                kinds.push((text.windows(3).any(|part| part == b" 00"), "leading zeros"));
                kinds.push((text.len() == MOST_TEXT_BYTES, "32768 bytes"));
                kinds.push((numbers.phases == MOST_PHASES, "16 phases"));
                kinds.push((numbers.synchronizers == MOST_SYNCHRONIZERS, "512 synchronizers"));
                kinds.push((numbers.arcs == MOST_ARCS, "2048 arcs"));
                self.largest_made = self.largest_made.max(image.len());
            }
        }
        self.see_shown("text", &kinds);
    }

    // ---- Demand 3. ----

    /// Whether the narrowed circuit keeps inside the first one, by the library's own numbers.
    fn narrowing(&mut self, first: &Plan, second: &Plan) -> Result<(), String> {
        self.images += 2;
        let l = first.synchronizers.len();
        let (first, second) = match (self.timing(&first.image(), 6 * l, l)?, self.timing(&second.image(), 6 * l, l)?) {
            (Found::Timed(first), Found::Timed(second)) => (first, second),
            _ => return Err("narrowing: one of the two circuits is not timed".to_string()),
        };
        for (i, (wide, narrow)) in first.chunks(6).zip(second.chunks(6)).enumerate() {
            // Two departures, two arrivals, hold slack and setup slack. A mark stays a mark, and is not below zero.
            let inside =
                |early: usize, late: usize| wide[early] <= narrow[early] && narrow[early] <= narrow[late] && narrow[late] <= wide[late];
            let kept = |slack: usize| wide[slack] < 0 || narrow[slack] >= 0;
            let marks = |six: &[i64]| [2, 3, 4, 5].map(|field| six[field] == MARK);
            if !inside(0, 1) || !inside(2, 3) || !kept(4) || !kept(5) || marks(wide) != marks(narrow) {
                return Err(format!("narrowing, synchronizer {i}: {wide:?} became {narrow:?}"));
            }
        }
        Ok(())
    }
}

/// A loop's report must be the text of a ring that grows.
fn judge_loop_text(image: &[u8], text: &[u8]) -> Result<(), String> {
    let text = String::from_utf8_lossy(text);
    let wrong = || format!("{text:?} is no report of a loop");
    let mut words = text.split_ascii_whitespace();
    if words.next() != Some("loop") {
        return Err(wrong());
    }
    let count: usize = words.next().and_then(|word| word.parse().ok()).ok_or_else(wrong)?;
    let gain: i64 = words.next().and_then(|word| word.parse().ok()).ok_or_else(wrong)?;
    let ring: Vec<u32> = words.map(|word| word.parse().map_err(|_| wrong())).collect::<Result<_, _>>()?;
    // Printed again it must be the same, so that every space and every line feed counts.
    if count != ring.len() || independent::loop_text(&ring, gain) != text {
        return Err(wrong());
    }
    independent::judge_ring(image, &ring, gain)
}

// ---- The parts of the comparison. ----

/// Runs one part, and prints what it came to.
fn part(comparison: &mut Comparison, name: &str, work: impl FnOnce(&mut Comparison) -> Result<(), String>) -> Result<(), String> {
    let (images, texts, calls, since) = (comparison.images, comparison.texts, comparison.library.calls, Instant::now());
    work(comparison)?;
    let (images, texts, calls) = (comparison.images - images, comparison.texts - texts, comparison.library.calls - calls);
    let what = if texts > 0 { format!("{texts} texts") } else { format!("{images} images") };
    println!("{name}: {what}, {calls} calls, {:.1} s", since.elapsed().as_secs_f64());
    Ok(())
}

/// What is printed at a disagreement.
fn told<T>(outcome: Result<T, String>, kind: &str, seed: u64, images: &[&[u8]]) -> Result<T, String> {
    outcome.map_err(|what| {
        let images: Vec<String> = images.iter().map(|image| format!("image: {}", hex(image))).collect();
        format!("{what}\nkind: {kind}, seed of this image: {seed:#x}\n{}", images.join("\n"))
    })
}

/// The same for a text.
fn told_of_text(outcome: Result<(), String>, kind: &str, number: u64, text: &[u8]) -> Result<(), String> {
    outcome.map_err(|what| format!("{what}\nkind: {kind}, number {number}: {:?}\ntext: {}", String::from_utf8_lossy(text), hex(text)))
}

/// Which images of each part are compared here: every `of`-th, from number `first` on.
#[derive(Clone, Copy)]
struct Turn {
    first: u64,
    of: u64,
}

impl Turn {
    fn below(self, count: u64) -> impl Iterator<Item = u64> {
        (self.first..count).step_by(self.of as usize)
    }

    fn pick<T>(self, all: impl IntoIterator<Item = T>) -> impl Iterator<Item = T> {
        all.into_iter().skip(self.first as usize).step_by(self.of as usize)
    }
}

/// The seed of one image: from the run's seed, the kind and the number within it.
fn seed_of(seed: u64, kind: &str, number: u64) -> u64 {
    let kind = kind.bytes().fold(0, |sum: u64, byte| sum.wrapping_mul(0x100_0000_01B3) ^ u64::from(byte));
    Random::new(seed ^ Random::new(kind).draw()).draw() ^ Random::new(number).draw()
}

/// One in a hundred of the greatest size, more of the smaller ones.
fn by_number(number: u64) -> Size {
    match number % 100 {
        0 => Size::Greatest,
        1..=19 => Size::Middle,
        20..=79 => Size::Small,
        _ => Size::Tiny,
    }
}

/// Whether a circuit is what its maker knows of it.
fn as_known(found: Option<Expect>, expect: Expect) -> Result<(), String> {
    match (found, expect) {
        (None, _) => Err("a good image was refused".to_string()),
        (Some(_), Expect::Either) => Ok(()),
        (Some(found), expect) => same("what the maker knows", found, expect),
    }
}

fn compare(seed: u64, percent: u64, turn: Turn) -> Result<Comparison, String> {
    let share = |count: u64| (count * percent / 100).max(1);
    let mut comparison = Comparison::new();
    let c = &mut comparison;

    part(c, "known circuits", |c| {
        for (name, image) in turn.pick(known::all()) {
            told(c.image(&image), name, 0, &[&image])?;
        }
        Ok(())
    })?;

    part(c, "at the limits", |c| {
        for (name, image) in turn.pick(images::at_limits()) {
            told(c.image(&image), name, 0, &[&image])?;
            // The path that takes every arc of a ring comes back to one of these.
            if let Ok(Numbers { synchronizers, .. }) = independent::check(&image) {
                for synchronizer in [0, synchronizers.saturating_sub(1)] {
                    told(c.path(&image, synchronizer, synchronizers as usize), name, 0, &[&image])?;
                }
            }
        }
        Ok(())
    })?;

    for (size, count) in SIZES {
        for (name, maker) in MAKERS {
            let kind = format!("{name}, {size:?}").to_lowercase();
            part(c, &kind, |c| {
                for number in turn.below(share(count)) {
                    let seed = seed_of(seed, &kind, number);
                    c.random = Random::new(seed);
                    let (plan, expect) = maker(&mut c.random, size);
                    let image = plan.image();
                    let outcome = c.image(&image).and_then(|found| as_known(found, expect));
                    told(outcome, &kind, seed, &[&image])?;
                }
                Ok(())
            })?;
        }
    }

    // Damage of every byte and every length, done to known circuits and to small ones by chance.
    let mut whole = vec![known::p1(), known::p7(), known::p9(), known::p13(), known::p14()];
    for number in 0..4 {
        let mut random = Random::new(seed_of(seed, "whole", number));
        let maker = if number % 2 == 0 { images::tight } else { images::free };
        whole.push(maker(&mut random, Size::Tiny).0.image());
    }
    for (kind, damage) in [("one byte damaged", images::damaged as fn(&[u8]) -> Vec<Vec<u8>>), ("cut or longer", images::cut_or_longer)] {
        part(c, kind, |c| {
            for (number, image) in turn.pick(whole.iter().flat_map(|image| damage(image)).enumerate()) {
                let seed = seed_of(seed, kind, number as u64);
                c.random = Random::new(seed);
                told(c.image(&image), kind, seed, &[&image])?;
            }
            Ok(())
        })?;
    }

    part(c, "words edited", |c| {
        for number in turn.below(share(4_000)) {
            let seed = seed_of(seed, "words edited", number);
            c.random = Random::new(seed);
            let maker = c.random.pick(&MAKERS).1;
            let size = match number % 100 {
                0 => Size::Greatest,
                1..=9 => Size::Middle,
                10..=59 => Size::Small,
                _ => Size::Tiny,
            };
            let plan = maker(&mut c.random, size).0;
            let image = images::edited(&mut c.random, &plan);
            told(c.image(&image), "words edited", seed, &[&image])?;
        }
        Ok(())
    })?;

    part(c, "bytes by chance", |c| {
        for number in turn.below(share(3_000)) {
            let seed = seed_of(seed, "bytes by chance", number);
            c.random = Random::new(seed);
            let image = images::bytes(&mut c.random);
            told(c.image(&image), "bytes by chance", seed, &[&image])?;
        }
        Ok(())
    })?;

    part(c, "phases exchanged", |c| {
        let good = known::all().into_iter().chain(images::at_limits()).filter(|(_, image)| independent::check(image).is_ok());
        let pairs = good.map(|(name, image)| (name, Plan::of(&image))).filter(|(_, plan)| !plan.equal_neighbours().is_empty());
        c.random = Random::new(seed);
        for (name, plan) in turn.pick(pairs) {
            let phase = c.random.pick(&plan.equal_neighbours());
            told(c.exchange(&plan, phase), name, 0, &[&plan.image(), &plan.exchanged(phase).image()])?;
        }
        for number in turn.below(share(2_000)) {
            let seed = seed_of(seed, "phases exchanged", number);
            c.random = Random::new(seed);
            let size = by_number(number);
            // Some have no two phases that close together.
            let (plan, expect, phases) = loop {
                let (plan, expect) = c.random.pick(&MAKERS).1(&mut c.random, size);
                let phases = plan.equal_neighbours();
                if !phases.is_empty() {
                    break (plan, expect, phases);
                }
            };
            let phase = c.random.pick(&phases);
            let outcome = c.exchange(&plan, phase).and_then(|found| as_known(found, expect));
            told(outcome, "phases exchanged", seed, &[&plan.image(), &plan.exchanged(phase).image()])?;
        }
        Ok(())
    })?;

    part(c, "narrowing", |c| {
        for number in turn.below(share(3_000)) {
            let seed = seed_of(seed, "narrowing", number);
            c.random = Random::new(seed);
            let makers: [Maker; 4] = [images::loose, images::tight, images::forward, images::chain];
            let maker = c.random.pick(&makers);
            let size = by_number(number);
            let first = maker(&mut c.random, size).0;
            let second = first.narrowed(&mut c.random);
            told(c.narrowing(&first, &second), "narrowing", seed, &[&first.image(), &second.image()])?;
        }
        Ok(())
    })?;

    for (kind, all) in texts::parts(|kind, number| seed_of(seed, kind, number), share) {
        part(c, kind, |c| {
            for (number, written) in turn.pick((0..).zip(all)) {
                c.random = Random::new(seed_of(seed, kind, number));
                told_of_text(c.text(&written.text, &written.meant), kind, number, &written.text)?;
            }
            Ok(())
        })?;
    }

    Ok(comparison)
}

/// What circuits must have shown.
const CIRCUITS: [&str; 19] = [
    "no synchronizers",
    "no arcs",
    "16 phases",
    "512 synchronizers",
    "2048 arcs",
    "gain 1",
    "marks",
    "departure above Tc",
    "arrival below 0",
    "hold missed",
    "setup missed",
    "none missed",
    "hold slack 0",
    "setup slack 0",
    TOGETHER,
    AT_ENDS,
    "such arcs both ways",
    "such an arc, three close together",
    "such an arc, several close at 0 and at Tc",
];

/// What texts must have shown.
const TEXTS: [&str; 12] = [
    "line 0 at fault",
    "a later line at fault",
    "too long",
    "a sum",
    "branches",
    "brackets",
    "16 deep",
    "leading zeros",
    "32768 bytes",
    "16 phases",
    "512 synchronizers",
    "2048 arcs",
];

/// Prints how often each kind of answer came. Err where one came fewer times than `least`, or where one came that there is not.
fn table(comparison: &Comparison, least: u64) -> Result<(), String> {
    let refusals = |numbers: &[u32]| numbers.iter().map(|number| format!("refused {number}")).collect::<Vec<String>>();
    let image = [1, 2, 3, 4, 5, 6, 7, 8, 9];
    let kinds = [
        ("check", vec!["good"], refusals(&image)),
        ("timing", vec!["timed", "growing"], refusals(&[&image[..], &[10, 11]].concat())),
        ("path", vec!["found"], refusals(&[&image[..], &[11, 12, 13, 14]].concat())),
        ("report", vec!["timed", "loop"], refusals(&image)),
        ("image from text", vec!["made"], refusals(&[15, 3, 4, 6, 7, 8, 9, 16])),
        ("circuit", CIRCUITS.to_vec(), vec![]),
        ("exchanged", vec![PAIRS, BETWEEN, GROWING], vec![]),
        ("text", TEXTS.to_vec(), vec![]),
    ];
    println!("answers seen:");
    let mut seldom = Vec::new();
    let mut left = comparison.seen.clone();
    for (call, answers, refusals) in kinds {
        let mut line = format!("  {call}:");
        for kind in answers.into_iter().map(str::to_string).chain(refusals) {
            let count = left.remove(&(call, kind.clone())).unwrap_or(0);
            line += &format!(" {kind} {count},");
            if count < least {
                seldom.push(format!("{call} {kind}: {count}"));
            }
        }
        println!("{}", line.trim_end_matches(','));
    }
    println!(
        "longest path {} arcs, longest loop {} arcs, greatest number {}, largest image from a text {} bytes",
        comparison.longest_path, comparison.longest_loop, comparison.greatest_number, comparison.largest_made
    );
    if comparison.greatest_number >= 1 << 41 {
        return Err("a number is 2^41 or more in size".to_string());
    }
    if !seldom.is_empty() {
        return Err(format!("these answers were seen fewer than {least} times: {}", seldom.join("; ")));
    }
    match left.keys().next() {
        None => Ok(()),
        Some(kind) => Err(format!("there is no such answer: {kind:?}")),
    }
}

/// Prints what came of phases that close together. Where one process does all, none of it may be missing, whatever the share; of
/// several processes the script `run` asks that.
fn together(comparison: &Comparison, all: bool) -> Result<(), String> {
    let count = |call, kind: &str| comparison.seen.get(&(call, kind.to_string())).copied().unwrap_or(0);
    let (images, at_ends) = (count("circuit", TOGETHER), count("circuit", AT_ENDS));
    let [pairs, between, growing] = [PAIRS, BETWEEN, GROWING].map(|kind| count("exchanged", kind));
    println!(
        "together: {images} images with an arc between different phases that close together, {at_ends} of them between the two ends \
         of the cycle; {pairs} pairs of such phases exchanged, {between} {BETWEEN}, {growing} {GROWING}, {} of these with the same ring",
        comparison.same_rings
    );
    if all && [images, at_ends, pairs].contains(&0) {
        return Err("nothing was seen of phases that close together".to_string());
    }
    Ok(())
}

fn hex(bytes: &[u8]) -> String {
    bytes.iter().map(|byte| format!("{byte:02x}")).collect()
}

fn unhex(text: &str) -> Option<Vec<u8>> {
    let digits = text.chars().map(|digit| digit.to_digit(16)).collect::<Option<Vec<u32>>>()?;
    Some(digits.chunks(2).map(|pair| pair.iter().fold(0, |sum, digit| 16 * sum + digit) as u8).collect())
}

fn number(text: &str) -> Option<u64> {
    match text.strip_prefix("0x") {
        Some(digits) => u64::from_str_radix(digits, 16).ok(),
        None => text.parse().ok(),
    }
}

/// None where the arguments are not understood.
fn run(arguments: &[&str]) -> Option<Result<String, String>> {
    if let ["image", digits] = arguments {
        let image = unhex(digits)?;
        let mut comparison = Comparison::new();
        let outcome = told(comparison.image(&image), "given", 0, &[&image]);
        return Some(outcome.map(|_| format!("compare: {} calls agreed on 1 image", comparison.library.calls)));
    }
    if let ["text", digits] = arguments {
        let text = unhex(digits)?;
        let mut comparison = Comparison::new();
        let outcome = told_of_text(comparison.text(&text, &Meant::Unknown), "given", 0, &text);
        return Some(outcome.map(|_| format!("compare: {} calls agreed on 1 text", comparison.library.calls)));
    }
    let whole = Turn { first: 0, of: 1 };
    let (seed, percent, turn) = match arguments {
        [] => (SEED, 100, whole),
        [seed] => (number(seed)?, 100, whole),
        [seed, percent] => (number(seed)?, number(percent)?, whole),
        [seed, percent, first, of] => (number(seed)?, number(percent)?, Turn { first: number(first)?, of: number(of)?.max(1) }),
        _ => return None,
    };
    println!("seed {seed:#x}, {percent} percent of the circuits by chance");
    println!("independent program: {} numbers and texts of P1 to P15 are as known", known::test());
    let outcome = compare(seed, percent, turn).and_then(|comparison| {
        // A part of the circuits need not show everything; of several processes each must see its share.
        table(&comparison, if percent < 100 { 0 } else { (LEAST_SEEN + turn.of - 1) / turn.of })?;
        together(&comparison, turn.of == 1)?;
        Ok(format!("compare: {} calls agreed on {} images and {} texts", comparison.library.calls, comparison.images, comparison.texts))
    });
    Some(outcome.map_err(|what| format!("{what}\nrun's seed: {seed:#x}")))
}

fn main() {
    let arguments: Vec<String> = std::env::args().skip(1).collect();
    let arguments: Vec<&str> = arguments.iter().map(String::as_str).collect();
    let status = match run(&arguments) {
        Some(Ok(line)) => {
            println!("{line}");
            0
        }
        Some(Err(what)) => {
            println!("compare: FAILED\n{what}");
            1
        }
        None => {
            eprintln!("usage: compare [SEED [PERCENT [K N]]] | compare image HEX | compare text HEX");
            2
        }
    };
    std::process::exit(status);
}
