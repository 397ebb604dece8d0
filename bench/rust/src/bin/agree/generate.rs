//! Cases: all short ones, and some that look random.

use crate::case::{Case, Input};
use winnow_bench::inputs::Random;
use winnow_bench::script::Step;

/// Bytes that end and begin the ranges of UTF-8, leads and continuations, and some that never stand there.
pub const BYTES: [u8; 11] = [0x00, b'\n', b'a', 0x7f, 0x80, 0xa9, 0xbf, 0xc3, 0xe2, 0xf0, 0xff];

/// A newline and a letter, and bytes that end and begin the ranges of UTF-8: every part of a character is damaged somehow in four of them.
pub const DAMAGED: [u8; 11] = [0x00, b'\n', b'A', 0x80, 0xbf, 0xc2, 0xe0, 0xed, 0xf0, 0xf4, 0xff];

/// Characters of each width, the first and the last among them.
pub const CHARS: [char; 12] = ['\0', '\n', 'a', '\u{7f}', '\u{80}', 'é', '\u{7ff}', '\u{800}', '€', '\u{ffff}', '\u{10000}', '\u{10ffff}'];

/// No input is as long.
const HUGE: [usize; 3] = [1 << 32, usize::MAX - 1, usize::MAX];

/// Each input of up to three bytes or characters, with each short script.
pub fn short_cases() -> impl Iterator<Item = Case> {
    let bytes = words(&BYTES, 3).into_iter().map(Input::Bytes);
    let texts = words(&CHARS, 3).into_iter().map(|chars| Input::Text(chars.into_iter().collect()));
    let scripts = short_scripts();
    bytes.chain(texts).flat_map(move |input| {
        let case = move |(width, script): (usize, &Vec<Step>)| Case { input: input.clone(), script: script.clone(), width };
        scripts.iter().enumerate().map(case).collect::<Vec<_>>()
    })
}

/// All words of up to so many letters, the shortest first.
pub fn words<L: Copy>(letters: &[L], longest: usize) -> Vec<Vec<L>> {
    let mut all = vec![Vec::new()];
    let mut last = all.clone();
    for _ in 0..longest {
        last = last.iter().flat_map(|word| letters.iter().map(move |letter| [word.as_slice(), &[*letter]].concat())).collect();
        all.extend(last.iter().cloned());
    }
    all
}

/// A mark, a step or two that move, and then each call that moves nothing, with each argument that a short input tells apart.
pub fn short_scripts() -> Vec<Vec<Step>> {
    let offsets = || (0..14).chain(HUGE);
    let mut moves = vec![vec![], vec![Step::Next], vec![Step::Finish]];
    moves.extend(offsets().map(|offset| vec![Step::Take(offset)]));
    moves.extend(offsets().map(|offset| vec![Step::Next, Step::Take(offset)]));
    moves.extend((0..3).map(|mark| vec![Step::Next, Step::Mark, Step::Next, Step::Reset(mark)]));
    let mut looks = vec![Step::Peek, Step::PeekFinish, Step::Eof, Step::Each];
    looks.extend((0..5).chain(HUGE).map(Step::At));
    looks.extend(offsets().flat_map(|offset| [Step::Look(offset), Step::IsOffset(offset)]));
    looks.extend([0, 1, 2, usize::MAX].map(Step::Since));
    looks.extend(
        [(0, u64::MAX), (1, 0), (0, 9), (10, 10), (0x7f, 0x80), (0x80, u64::MAX), (0xe2, 0xffff)].map(|(first, last)| Step::First(first, last)),
    );
    moves.into_iter().map(|moves| [&[Step::Mark], moves.as_slice(), &looks].concat()).collect()
}

/// So many cases, the same ones at each call.
pub fn random_cases(count: usize) -> impl Iterator<Item = Case> {
    cases_from(7, count)
}

/// So many cases from a seed.
pub fn cases_from(seed: u64, count: usize) -> impl Iterator<Item = Case> {
    let mut random = Random::new(seed);
    (0..count).map(move |number| {
        let text = random_text(&mut random);
        let input = if number % 2 == 0 { Input::Text(text) } else { Input::Bytes(damaged(&mut random, text.into_bytes())) };
        let steps = 1 + random.below(24);
        let script = (0..steps).map(|_| random_step(&mut random)).collect();
        Case { input, script, width: random_offset(&mut random) }
    })
}

fn random_text(random: &mut Random) -> String {
    let length = random.below(40);
    (0..length).map(|_| random_char(random)).collect()
}

fn random_char(random: &mut Random) -> char {
    match random.below(4) {
        0 => random.pick(&CHARS),
        1 => char::from(random.below(128) as u8),
        2 => char::from_u32(random.below(0x800) as u32).unwrap_or('a'),
        _ => char::from_u32(random.below(0x11_0000) as u32).unwrap_or('€'),
    }
}

// Some bytes changed, left out or put in.
fn damaged(random: &mut Random, mut bytes: Vec<u8>) -> Vec<u8> {
    for _ in 0..random.below(4) {
        let at = random.below(bytes.len() as u64 + 1) as usize;
        let byte = random.pick(&BYTES);
        match random.below(3) {
            0 => bytes.insert(at, byte),
            1 => bytes.truncate(at),
            _ => bytes.get_mut(at).into_iter().for_each(|old| *old = byte),
        }
    }
    bytes
}

fn random_step(random: &mut Random) -> Step {
    let offset = random_offset(random);
    let mark = random.below(4) as usize;
    match random.below(18) {
        0..3 => Step::Next,
        3 => Step::Peek,
        4..6 => Step::Take(offset),
        6 => Step::Look(offset),
        7 if random.below(4) == 0 => Step::Finish,
        7 => Step::PeekFinish,
        8 => Step::Eof,
        9 => Step::At(offset),
        10 => Step::IsOffset(offset),
        11 => Step::First(random.below(0x100), random.below(0x100)),
        12 => Step::First(random.below(0x11_0000), u64::MAX),
        13 => Step::Each,
        14 => Step::Reset(mark),
        15 => Step::Since(mark),
        _ => Step::Mark,
    }
}

// Mostly small, so that many are valid.
fn random_offset(random: &mut Random) -> usize {
    match random.below(16) {
        0 => random.pick(&HUGE),
        1..4 => random.below(100) as usize,
        _ => random.below(9) as usize,
    }
}
