//! A written circuit in plain Rust: from a text to the image, without anything of the library.
//!
//! It was written from the rules alone, as docs/RULES.md restates them ("A written circuit"), and not from the library's code. A line is split into
//! its fields, a window is split at the signs outside all brackets into a tree, and only then the tree is given its meaning.
#![forbid(unsafe_code)]

use crate::images::Plan;
use crate::independent::{check, Refusal, LIMIT};

pub const MOST_TEXT_BYTES: usize = 32_768;
pub const MOST_DEPTH: usize = 16;
const MOST_DIGITS: usize = 10;

/// Writes the image to the front of the buffer and gives its length, or refuses and writes nothing.
pub fn image_from_text(text: &[u8], image: &mut [u8]) -> Result<u32, Refusal> {
    let made = image_of(text)?;
    if image.len() < made.len() {
        return Err(Refusal { number: 16, record: 0 });
    }
    image[..made.len()].copy_from_slice(&made);
    Ok(made.len() as u32)
}

/// The image of a text, whatever room there is for it.
pub fn image_of(text: &[u8]) -> Result<Vec<u8>, Refusal> {
    let image = plan_of(text)?.image();
    // Rules 3, 4 and 6 to 9 are those of the image. Its version and its layout are good by the way it was made.
    check(&image)?;
    Ok(image)
}

// ---- Refusal 15: the text and its lines. ----

/// What a line says. The kinds stand in the order in which lines may come.
enum Line {
    Cycle(u32),
    Phase([u32; 2]),
    Synchronizer([u32; 6]),
    Arc([u32; 4]),
}

impl Line {
    fn place(&self) -> usize {
        match self {
            Line::Cycle(_) => 0,
            Line::Phase(_) => 1,
            Line::Synchronizer(_) => 2,
            Line::Arc(_) => 3,
        }
    }
}

fn plan_of(text: &[u8]) -> Result<Plan, Refusal> {
    let at_fault = |line: usize| Refusal { number: 15, record: line as u32 };
    if text.len() > MOST_TEXT_BYTES || text.is_empty() {
        return Err(at_fault(0));
    }
    let mut plan = Plan { cycle: 0, phases: Vec::new(), synchronizers: Vec::new(), arcs: Vec::new() };
    let mut place = 0;
    for (number, line) in text.split_inclusive(|&byte| byte == b'\n').enumerate() {
        // Only the last line can lack its line feed.
        let line = line.strip_suffix(b"\n").and_then(line_of).ok_or_else(|| at_fault(number))?;
        // The cycle stands first, and only there. A line of a later kind closes the earlier ones.
        if (number == 0) != (line.place() == 0) || line.place() < place {
            return Err(at_fault(number));
        }
        place = line.place();
        match line {
            Line::Cycle(cycle) => plan.cycle = cycle,
            Line::Phase(record) => plan.phases.push(record),
            Line::Synchronizer(record) => plan.synchronizers.push(record),
            Line::Arc(record) => plan.arcs.push(record),
        }
    }
    Ok(plan)
}

fn line_of(line: &[u8]) -> Option<Line> {
    let fields: Vec<&[u8]> = line.split(|&byte| byte == b' ').collect();
    let synchronizer = |kind: u32, phase, setup, hold, delay| {
        let [least, greatest] = window_of(delay)?;
        Some(Line::Synchronizer([number_of(phase)?, kind, number_of(setup)?, number_of(hold)?, least, greatest]))
    };
    match fields[..] {
        [b"tc", cycle] => Some(Line::Cycle(number_of(cycle)?)),
        [b"phase", closing, active] => Some(Line::Phase([number_of(closing)?, number_of(active)?])),
        [b"latch", phase, setup, hold, delay] => synchronizer(0, phase, setup, hold, delay),
        [b"flop", phase, setup, hold, delay] => synchronizer(1, phase, setup, hold, delay),
        [b"arc", from, to, delay] => {
            let [least, greatest] = window_of(delay)?;
            Some(Line::Arc([number_of(from)?, number_of(to)?, least, greatest]))
        }
        _ => None,
    }
}

/// A number is 1 to 10 digits, and not above the limit.
fn number_of(field: &[u8]) -> Option<u32> {
    if field.is_empty() || field.len() > MOST_DIGITS || !field.iter().all(u8::is_ascii_digit) {
        return None;
    }
    let value = field.iter().fold(0, |sum: u64, digit| 10 * sum + u64::from(digit - b'0'));
    u32::try_from(value).ok().filter(|&value| value <= LIMIT)
}

// ---- Windows. ----

enum Tree {
    Atom(u32, u32),
    /// Atoms joined by `+`.
    Series(Vec<Tree>),
    /// Branches parted by `|`.
    Parallel(Vec<Tree>),
}

/// Both ends of a window, or None where it is none, or too deep, or reaches past the limit.
fn window_of(field: &[u8]) -> Option<[u32; 2]> {
    // Asked first: what is too deep is refused, whatever else it is.
    if deepest(field)? > MOST_DEPTH {
        return None;
    }
    let (low, high) = meaning(&expression(field)?);
    // The low end is never above the high one, and no part of a window reaches farther than the whole.
    if high > u64::from(LIMIT) {
        return None;
    }
    Some([low as u32, high as u32])
}

/// How deep brackets nest. None where they do not pair.
fn deepest(field: &[u8]) -> Option<usize> {
    let (mut open, mut most) = (0usize, 0);
    for byte in field {
        match byte {
            b'(' => open += 1,
            b')' => open = open.checked_sub(1)?,
            _ => (),
        }
        most = most.max(open);
    }
    Some(most).filter(|_| open == 0)
}

/// The parts between the signs that stand outside all brackets. None where brackets do not pair.
fn split_outside(field: &[u8], sign: u8) -> Option<Vec<&[u8]>> {
    let (mut parts, mut open, mut from) = (Vec::new(), 0usize, 0);
    for (at, &byte) in field.iter().enumerate() {
        match byte {
            b'(' => open += 1,
            b')' => open = open.checked_sub(1)?,
            _ if byte == sign && open == 0 => {
                parts.push(&field[from..at]);
                from = at + 1;
            }
            _ => (),
        }
    }
    parts.push(&field[from..]);
    Some(parts).filter(|_| open == 0)
}

fn expression(field: &[u8]) -> Option<Tree> {
    Some(Tree::Parallel(split_outside(field, b'|')?.into_iter().map(branch).collect::<Option<_>>()?))
}

fn branch(field: &[u8]) -> Option<Tree> {
    Some(Tree::Series(split_outside(field, b'+')?.into_iter().map(atom).collect::<Option<_>>()?))
}

fn atom(field: &[u8]) -> Option<Tree> {
    if let Some(inside) = field.strip_prefix(b"(").and_then(|rest| rest.strip_suffix(b")")) {
        return expression(inside);
    }
    let colon = field.iter().position(|&byte| byte == b':')?;
    let (low, high) = (number_of(&field[..colon])?, number_of(&field[colon + 1..])?);
    Some(Tree::Atom(low, high)).filter(|_| low <= high)
}

/// Sums stay far below 2^64: a text has room for some thousand atoms.
fn meaning(tree: &Tree) -> (u64, u64) {
    match tree {
        Tree::Atom(low, high) => (u64::from(*low), u64::from(*high)),
        Tree::Series(parts) => parts.iter().map(meaning).fold((0, 0), |sum, part| (sum.0 + part.0, sum.1 + part.1)),
        // There is at least one branch.
        Tree::Parallel(parts) => parts.iter().map(meaning).fold((u64::MAX, 0), |all, part| (all.0.min(part.0), all.1.max(part.1))),
    }
}
