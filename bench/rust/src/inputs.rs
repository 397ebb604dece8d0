//! Inputs, the same at each run.

use crate::script::{COMPARE, FIND, RawStep, Step};
use std::ops::Range;

/// Numbers that look random (SplitMix64).
pub struct Random(u64);

impl Random {
    pub fn new(seed: u64) -> Self {
        Random(seed)
    }

    pub fn next(&mut self) -> u64 {
        self.0 = self.0.wrapping_add(0x9e37_79b9_7f4a_7c15);
        let mut mixed = self.0;
        mixed = (mixed ^ (mixed >> 30)).wrapping_mul(0xbf58_476d_1ce4_e5b9);
        mixed = (mixed ^ (mixed >> 27)).wrapping_mul(0x94d0_49bb_1331_11eb);
        mixed ^ (mixed >> 31)
    }

    pub fn below(&mut self, bound: u64) -> u64 {
        self.next() % bound
    }

    pub fn pick<T: Copy>(&mut self, from: &[T]) -> T {
        from[self.below(from.len() as u64) as usize]
    }
}

/// A byte, and the number of a character, that stands in no input.
pub const ABSENT: u64 = 0;

/// About how many tokens a line has.
const LINE: u64 = 40;

/// Bytes of any value but 0, in lines.
pub fn bytes(length: usize) -> Vec<u8> {
    let mut random = Random::new(1);
    (0..length)
        .map(|_| match random.below(LINE) {
            0 => b'\n',
            _ => random.below(255) as u8 + 1,
        })
        .collect()
}

/// Words of ASCII letters, and about as many of other scripts, in lines.
pub fn mixed_text(length: usize) -> String {
    text(length, &[('a', 26), ('a', 26), ('à', 24), ('α', 25), ('а', 32), ('一', 20000), ('😀', 60)])
}

/// Words of ASCII letters, in lines.
pub fn ascii_text(length: usize) -> String {
    text(length, &[('a', 26)])
}

// Words, each of characters from one of the ranges, which are given by their first character and their size.
fn text(length: usize, scripts: &[(char, u32)]) -> String {
    let mut random = Random::new(2);
    let mut text = String::with_capacity(length + 64);
    while text.len() < length {
        let (first, size) = random.pick(scripts);
        for _ in 0..1 + random.below(9) {
            let number = u32::from(first) + random.below(u64::from(size)) as u32;
            text.push(char::from_u32(number).expect("the ranges hold characters alone"));
        }
        text.push(if random.below(LINE / 6) == 0 { '\n' } else { ' ' });
    }
    text
}

/// Words of many scripts, each a line.
pub fn short_lines(length: usize) -> String {
    let mut lines = mixed_text(length).replace(' ', "\n");
    lines.push_str("the last line");
    lines
}

/// A script that wanders through an input: calls of every kind but those that go over all of it.
pub fn script(length: usize) -> Vec<RawStep> {
    let mut random = Random::new(3);
    let mut marks = 0;
    (0..length)
        .map(|_| {
            let few = random.below(8) as usize;
            // One of the marks that were made last.
            let mark = marks - marks.min(1 + few);
            let step = match random.below(14) {
                0..3 => Step::Next,
                3 => Step::Peek,
                4..6 => Step::Take(few),
                6 => Step::Look(few),
                7 => Step::Eof,
                8 => Step::At(few),
                9 => Step::IsOffset(few),
                10 => Step::First(u64::from(b'\n'), u64::from(b'\n')),
                11 => Step::Since(mark),
                12 if few == 0 => Step::Reset(mark),
                _ => Step::Mark,
            };
            if let Step::Mark = step {
                marks += 1;
            }
            RawStep::from(step)
        })
        .collect()
}

/// A script that wanders in the same way, and compares and searches as often as it calls. The literals are parts of `NEEDLE`.
pub fn search_script(length: usize) -> Vec<RawStep> {
    let mut random = Random::new(5);
    script(length)
        .into_iter()
        .map(|call| {
            let (start, few) = (random.below(8) as usize, 1 + random.below(4) as usize);
            match random.below(4) {
                0 => RawStep::search(COMPARE, start, 4 * few),
                1 => RawStep::search(random.pick(&FIND), start, few),
                _ => call,
            }
        })
        .collect()
}

/// A script that goes through most of so many bytes, mostly by slices of many, and waits for no end: what it calls, compares and searches stands
/// near. The literals are parts of `NEEDLE`.
pub fn piece_script(steps: usize, length: usize) -> Vec<RawStep> {
    let mut random = Random::new(9);
    let most = (5 * length / steps) as u64;
    let mut marks = 0;
    (0..steps)
        .map(|_| {
            let (start, few) = (random.below(8) as usize, 1 + random.below(4) as usize);
            let mark = marks - marks.min(few);
            let step = match random.below(20) {
                0..9 => Step::Take(random.below(most) as usize),
                9..11 => Step::Next,
                11 => Step::Peek,
                12 => Step::At(few),
                13 => Step::IsOffset(few),
                14 => Step::First(u64::from(b'\n'), u64::from(b'\n')),
                15 => return RawStep::search(COMPARE, start, 4 * few),
                16..18 => return RawStep::search(FIND[0], start, few),
                18 if few == 1 => Step::Reset(mark),
                18 => Step::Since(mark),
                _ => Step::Mark,
            };
            if let Step::Mark = step {
                marks += 1;
            }
            RawStep::from(step)
        })
        .collect()
}

/// Lines of that width, their newlines among it.
pub fn lines_of(width: usize, length: usize) -> Vec<u8> {
    let mut random = Random::new(10);
    (0..length).map(|place| if place % width == width - 1 { b'\n' } else { b'a' + random.below(26) as u8 }).collect()
}

/// Numbers that look random, some of them twice.
pub fn keys(count: usize) -> Vec<u64> {
    let mut random = Random::new(6);
    (0..count).map(|_| random.below(1 << 20)).collect()
}

/// Numbers from one up to another, each written with so many characters.
pub fn numbers(count: usize, width: usize, range: Range<i64>) -> String {
    let mut random = Random::new(8);
    (0..count).map(|_| format!("{:0width$}", range.start + random.below((range.end - range.start) as u64) as i64)).collect()
}

/// A needle, which stands here and there in `seeded`, as do its parts. Text has no `:` and no `-`.
pub const NEEDLE: &str = "key: a needle of thirty-two byte";

/// Bytes with the needle here and there, about a line apart.
pub fn seeded(length: usize) -> Vec<u8> {
    let mut random = Random::new(4);
    let mut seeded = bytes(length);
    let mut at = 0;
    while at + NEEDLE.len() <= length {
        seeded[at..at + NEEDLE.len()].copy_from_slice(NEEDLE.as_bytes());
        at += NEEDLE.len() + random.below(2 * LINE) as usize;
    }
    seeded
}
