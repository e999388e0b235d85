// From a text to the image, as a Rust program would do it that wants to be fast: one pass over the bytes, records appended as their lines come, one
// allocation. It was written from docs/RULES.md ("A written circuit"). It shares the rules of an image with tests/compare, and nothing else.
use independent::{check, Refusal};

const MOST_TEXT_BYTES: usize = 32_768;
const MOST_DEPTH: u32 = 16;
const LIMIT: u32 = 1_000_000_000;

struct Reader<'a> {
    text: &'a [u8],
    at: usize,
}

impl Reader<'_> {
    fn peek(&self) -> Option<u8> {
        self.text.get(self.at).copied()
    }

    fn word(&mut self, word: &[u8]) -> Option<()> {
        self.text[self.at..].starts_with(word).then(|| self.at += word.len())
    }

    fn sign(&mut self, sign: u8) -> Option<()> {
        (self.peek() == Some(sign)).then(|| self.at += 1)
    }

    fn number(&mut self) -> Option<u32> {
        let (from, mut value) = (self.at, 0u64);
        while let Some(digit) = self.peek().map(|byte| byte.wrapping_sub(b'0')).filter(|digit| *digit < 10) {
            value = 10 * value + u64::from(digit);
            self.at += 1;
            if self.at - from > 10 {
                return None;
            }
        }
        (self.at > from && value <= u64::from(LIMIT)).then_some(value as u32)
    }

    fn field(&mut self) -> Option<u32> {
        self.sign(b' ')?;
        self.number()
    }

    fn expression(&mut self, depth: u32) -> Option<(u32, u32)> {
        let mut all = self.branch(depth)?;
        while self.sign(b'|').is_some() {
            let (low, high) = self.branch(depth)?;
            all = (all.0.min(low), all.1.max(high));
        }
        Some(all)
    }

    fn branch(&mut self, depth: u32) -> Option<(u32, u32)> {
        let mut sum = self.atom(depth)?;
        while self.sign(b'+').is_some() {
            let (low, high) = self.atom(depth)?;
            sum = (sum.0 + low, sum.1 + high);
            // No part of a window reaches farther than the whole.
            if sum.1 > LIMIT {
                return None;
            }
        }
        Some(sum)
    }

    fn atom(&mut self, depth: u32) -> Option<(u32, u32)> {
        if self.sign(b'(').is_some() {
            if depth == MOST_DEPTH {
                return None;
            }
            let inside = self.expression(depth + 1)?;
            self.sign(b')')?;
            return Some(inside);
        }
        let low = self.number()?;
        self.sign(b':')?;
        let high = self.number()?;
        (low <= high).then_some((low, high))
    }

    fn window(&mut self) -> Option<[u32; 2]> {
        self.sign(b' ')?;
        let (low, high) = self.expression(0)?;
        Some([low, high])
    }

    // A line of a kind that may still come. The kinds that may are those from `kind` on.
    fn line(&mut self, kind: &mut usize, counts: &mut [u32; 3], image: &mut Vec<u8>) -> Option<()> {
        let mut put = |words: &[u32]| words.iter().for_each(|word| image.extend_from_slice(&word.to_le_bytes()));
        let new = match self.peek()? {
            b'p' => {
                self.word(b"phase")?;
                put(&[self.field()?, self.field()?]);
                0
            }
            first @ (b'l' | b'f') => {
                self.word(if first == b'l' { b"latch" } else { b"flop" })?;
                let (phase, setup, hold) = (self.field()?, self.field()?, self.field()?);
                let [least, greatest] = self.window()?;
                put(&[phase, u32::from(first == b'f'), setup, hold, least, greatest]);
                1
            }
            _ => {
                self.word(b"arc")?;
                let (from, to) = (self.field()?, self.field()?);
                let [least, greatest] = self.window()?;
                put(&[from, to, least, greatest]);
                2
            }
        };
        self.sign(b'\n')?;
        if new < *kind {
            return None;
        }
        *kind = new;
        counts[new] += 1;
        Some(())
    }
}

pub fn image_from_text(text: &[u8], image: &mut [u8]) -> Result<u32, Refusal> {
    let at_fault = |line: u32| Refusal { number: 15, record: line };
    if text.len() > MOST_TEXT_BYTES {
        return Err(at_fault(0));
    }
    let mut reader = Reader { text, at: 0 };
    let mut made = Vec::with_capacity(45_216);
    made.resize(32, 0);
    let cycle = reader.word(b"tc").and_then(|()| reader.field()).filter(|_| reader.sign(b'\n').is_some()).ok_or(at_fault(0))?;
    let (mut kind, mut counts, mut lines) = (0, [0; 3], 1);
    while reader.at < text.len() {
        reader.line(&mut kind, &mut counts, &mut made).ok_or(at_fault(lines))?;
        lines += 1;
    }
    let [k, l, m] = counts;
    for (place, word) in made.chunks_exact_mut(4).zip([1, cycle, k, l, m, 32, 32 + 8 * k, 32 + 8 * k + 24 * l]) {
        place.copy_from_slice(&u32::to_le_bytes(word));
    }
    check(&made)?;
    if image.len() < made.len() {
        return Err(Refusal { number: 16, record: 0 });
    }
    image[..made.len()].copy_from_slice(&made);
    Ok(made.len() as u32)
}
