//! Searches, comparisons and sets: on every short input with every short needle, and on inputs that look random.

use crate::case::{Case, Input};
use crate::generate::{BYTES, CHARS, random_cases, words};
use winnow_bench::inputs::Random;
use winnow_bench::ours::Room;
use winnow_bench::{their_searches, their_sets};

/// Bounds of sets, in and past ASCII and Latin-1.
const BOUNDS: [u64; 14] = [0, 1, 9, 10, 0x30, 0x39, 0x61, 0x7a, 0x7f, 0x80, 0xe9, 0xff, 0x100, 0x10ffff];

/// Tokens past the bytes, one of them no character.
const TOKENS: [u64; 9] = [0x100, 0x3b1, 0x7ff, 0x800, 0xd800, 0xffff, 0x10000, 0x1f600, 0x10ffff];

/// How many searches were compared, or the first that differ.
pub fn compare_searches(room: &mut Room, random: usize) -> Result<usize, String> {
    let mut count = 0;
    let mut try_input = |input: &Input, needles: [&[u8]; 3]| {
        count += 1;
        if !differs(room, input, needles) {
            return Ok(());
        }
        let found = smallest(room, input, needles);
        Err(told(room, found))
    };
    // A few letters are enough here: two needles and the input share them.
    let needles = words(&BYTES[1..4], 2);
    for input in words(&[BYTES[1], BYTES[2], BYTES[5], BYTES[7]], 3) {
        let input = Input::Bytes(input);
        for a in &needles {
            for b in &needles {
                try_input(&input, [a, b, b"\xc3"])?;
                try_input(&input, [a, "é".as_bytes(), b])?;
            }
        }
    }
    let texts: Vec<String> = words(&CHARS[1..6], 2).into_iter().map(|word| word.into_iter().collect()).collect();
    for input in words(&CHARS[1..6], 3) {
        let input = Input::Text(input.into_iter().collect());
        for a in &texts {
            for b in &texts {
                try_input(&input, [a.as_bytes(), b.as_bytes(), "a".as_bytes()])?;
            }
        }
    }
    let mut numbers = Random::new(11);
    for Case { input, .. } in random_cases(random) {
        for _ in 0..4 {
            let needles = [(); 3].map(|()| random_needle(&mut numbers, &input));
            try_input(&input, [&needles[0], &needles[1], &needles[2]])?;
        }
    }
    // Long inputs, in which a hit is far.
    for _ in 0..random / 50 {
        let input = Input::Bytes((0..numbers.below(3000)).map(|_| numbers.pick(&BYTES[1..4])).collect());
        let needles = [(); 3].map(|()| long_needle(&mut numbers, &input));
        try_input(&input, [&needles[0], &needles[1], &needles[2]])?;
    }
    Ok(count)
}

/// How many tokens and sets were compared, or the first that differ.
pub fn compare_sets(room: &mut Room) -> Result<usize, String> {
    let mut count = 0;
    for token in (0..0x100).chain(TOKENS) {
        for low in BOUNDS {
            for high in BOUNDS {
                count += 1;
                let theirs = their_sets::tell_sets(token, (low, high));
                let ours = room.sets(token, low, high);
                if ours != Some(&theirs) {
                    return Err(format!("token {token:#x}, sets with {low:#x} and {high:#x}: ours {ours:?}, Rust {theirs:?}"));
                }
            }
        }
    }
    Ok(count)
}

fn theirs(input: &Input, needles: [&[u8]; 3]) -> Vec<u64> {
    match input {
        Input::Bytes(bytes) => their_searches::tell_byte_searches(bytes, needles),
        Input::Text(text) => their_searches::tell_text_searches(text, needles),
    }
}

fn ours<'r>(room: &'r mut Room, input: &Input, needles: [&[u8]; 3]) -> Option<&'r [u64]> {
    match input {
        Input::Bytes(bytes) => room.searches_bytes(bytes, needles),
        Input::Text(text) => room.searches_text(text, needles),
    }
}

fn differs(room: &mut Room, input: &Input, needles: [&[u8]; 3]) -> bool {
    ours(room, input, needles) != Some(&theirs(input, needles))
}

type Found = (Input, [Vec<u8>; 3]);

// Leaves out a byte of the input or of a needle at a time, as long as a difference stays.
fn smallest(room: &mut Room, input: &Input, needles: [&[u8]; 3]) -> Found {
    let mut found = (input.clone(), needles.map(<[u8]>::to_vec));
    while let Some(smaller) = smaller(&found).into_iter().find(|(input, [a, b, c])| differs(room, input, [a, b, c])) {
        found = smaller;
    }
    found
}

fn smaller((input, needles): &Found) -> Vec<Found> {
    let mut all = Vec::new();
    match input {
        Input::Bytes(bytes) => {
            all.extend((0..bytes.len()).map(|at| (Input::Bytes([&bytes[..at], &bytes[at + 1..]].concat()), needles.clone())));
        }
        Input::Text(text) => all.extend(text.char_indices().map(|(at, c)| {
            let shorter = [&text[..at], &text[at + c.len_utf8()..]].concat();
            (Input::Text(shorter), needles.clone())
        })),
    }
    for number in 0..3 {
        for at in 0..needles[number].len() {
            let mut needles = needles.clone();
            needles[number].remove(at);
            all.push((input.clone(), needles));
        }
    }
    all
}

fn told(room: &mut Room, (input, [a, b, c]): Found) -> String {
    let input_told = match &input {
        Input::Bytes(bytes) => format!("bytes {bytes:02x?}"),
        Input::Text(text) => format!("text {text:?}"),
    };
    let theirs = theirs(&input, [&a, &b, &c]);
    let ours = ours(room, &input, [&a, &b, &c]);
    format!("{input_told}, needles {a:02x?}, {b:02x?}, {c:02x?}: three numbers a form\nours {ours:?}\nRust {theirs:?}")
}

// From the input, or of a few letters, or empty.
fn random_needle(random: &mut Random, input: &Input) -> Vec<u8> {
    let bytes = match input {
        Input::Bytes(bytes) => bytes.as_slice(),
        Input::Text(text) => text.as_bytes(),
    };
    match random.below(8) {
        0 => Vec::new(),
        1 => random.pick(&CHARS).to_string().into_bytes(),
        2 => (0..1 + random.below(3)).map(|_| random.pick(&BYTES)).collect(),
        _ if bytes.is_empty() => vec![b'a'],
        _ => {
            let start = random.below(bytes.len() as u64) as usize;
            let end = start + random.below((bytes.len() - start) as u64 + 1) as usize;
            bytes[start..end.min(start + 6)].to_vec()
        }
    }
}

// Some twenty letters of the input, the last of which may be changed, or a few.
fn long_needle(random: &mut Random, input: &Input) -> Vec<u8> {
    let mut needle = random_needle(random, input);
    if let (Input::Bytes(bytes), true) = (input, random.below(2) == 0) {
        let start = random.below(bytes.len() as u64 + 1) as usize;
        needle = bytes[start..(start + 20).min(bytes.len())].to_vec();
        if random.below(2) == 0 {
            needle.push(b'!');
        }
    }
    needle
}
