//! The texts of bytes with a text of their own: of each byte alone and between letters, of each two bytes, and of every damaged sequence of
//! up to four, alone and between characters.

use crate::generate::{DAMAGED, words};
use winnow_bench::ours::Room;
use winnow_bench::their_kinds;

/// How many inputs were compared, or the first difference.
pub fn compare_byte_texts(room: &mut Room) -> Result<usize, String> {
    let bytes = || 0..=u8::MAX;
    let one = bytes().flat_map(|byte| [vec![byte], vec![b'a', byte, b'z']]);
    let two = bytes().flat_map(|first| bytes().map(move |second| vec![first, second]));
    let damaged = words(&DAMAGED, 4).into_iter().flat_map(|word| [[b"\xc3\xa9", word.as_slice(), b"\xe2\x82\xac"].concat(), word]);
    let mut count = 0;
    for input in one.chain(two).chain(damaged) {
        count += 1;
        let ours = room.texts_kinds(&input, 1);
        let theirs = their_kinds::texts(&input, 1);
        if ours.as_ref() != Some(&theirs) {
            return Err(format!("the texts of {input:02x?}: ours {ours:?}, Rust {theirs:?}"));
        }
    }
    Ok(count)
}
