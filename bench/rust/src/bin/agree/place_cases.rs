//! Parse errors, positions and spans: at every offset of every short input, of every damaged sequence of up to four bytes, alone and
//! between lines of text, and of inputs that look random.

use crate::case::{Case, Input};
use crate::generate::{CHARS, DAMAGED, random_cases, words};
use winnow_bench::ours::Room;
use winnow_bench::their_parse_errors as theirs;

/// Offsets behind the end.
const BEHIND: usize = 3;

/// How many offsets were compared, or the first that differs.
pub fn compare_places(room: &mut Room, random: usize) -> Result<usize, String> {
    let mut count = 0;
    let mut compare = |input: &Input| {
        count += width(input) + 1 + BEHIND;
        (0..=width(input) + BEHIND).try_for_each(|place| compare_place(room, input, place))
    };
    for word in words(&DAMAGED, 4) {
        compare(&Input::Bytes(word.clone()))?;
        compare(&Input::Bytes([b"a\n\xc3\xa9", word.as_slice(), b"\xe2\x82\xac\nb"].concat()))?;
    }
    for word in words(&CHARS, 3) {
        compare(&Input::Text(word.into_iter().collect()))?;
    }
    for Case { input, .. } in random_cases(random) {
        compare(&input)?;
    }
    Ok(count)
}

fn width(input: &Input) -> usize {
    match input {
        Input::Bytes(bytes) => bytes.len(),
        Input::Text(text) => text.len(),
    }
}

// A front that is none counts as an empty one, on both sides.
fn compare_place(room: &mut Room, input: &Input, place: usize) -> Result<(), String> {
    let (ours, theirs) = match input {
        Input::Bytes(bytes) => (room.failure_bytes(bytes, place), theirs::failure_bytes(bytes, place)),
        Input::Text(text) => (room.failure_text(text, place), theirs::failure_text(text, place)),
    };
    if ours != Some(&theirs) {
        return Err(format!("{}, a parse that fails at {place}:\nours {ours:?}\nRust {theirs:?}", told(input)));
    }
    let bytes = match input {
        Input::Bytes(bytes) => bytes.as_slice(),
        Input::Text(text) => text.as_bytes(),
    };
    let theirs = theirs::position(bytes, place);
    let ours = room.position(bytes, place);
    if ours != Some(&theirs) {
        return Err(format!("{}, the position of {place}: ours {ours:?}, Rust {theirs:?}", told(input)));
    }
    Ok(())
}

fn told(input: &Input) -> String {
    match input {
        Input::Bytes(bytes) => format!("bytes {bytes:02x?}"),
        Input::Text(text) => format!("text {text:?}"),
    }
}
