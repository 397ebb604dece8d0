//! The rows of accumulators, a million items each and a hundred thousand keys (`--short` and `--instructions` take fewer), and of
//! numbers that are read.

use crate::rows::{On, Row};
use winnow_bench::inputs::{ascii_text, bytes, keys, mixed_text, numbers};
use winnow_bench::{our_accumulators as ours, their_accumulators as theirs};

/// The items, and the numbers.
pub struct Gathered {
    items: usize,
    bytes: Vec<u8>,
    ascii: String,
    mixed: String,
    keys: Vec<u64>,
    /// Numbers of `u8`, `u32` and `i64`, with the width of each
    numbers: [(String, u64); 3],
}

impl Gathered {
    /// So many items, and a tenth as many keys.
    pub fn new(items: usize) -> Self {
        let written = |width, range| (numbers(items, width, range), width as u64);
        Gathered {
            items,
            bytes: bytes(8 * items),
            ascii: ascii_text(8 * items),
            mixed: mixed_text(4 * items),
            keys: keys(items / 10),
            numbers: [written(3, 0..256), written(8, 0..100_000_000), written(12, -10_000_000_000..10_000_000_000)],
        }
    }
}

/// Each accumulator.
pub fn accumulator_rows(gathered: &Gathered) -> Vec<Row<'_>> {
    let items = gathered.items;
    let on = |name| On { name, input: gathered.bytes.as_slice(), units: items, calls: 1 };
    let text = |name, input| On { name, input, units: items, calls: 1 };
    let keys = On { name: "numbers", input: gathered.keys.as_slice(), units: gathered.keys.len(), calls: 1 };
    let (bytes, slices) = (on("bytes"), on("slices of 8 bytes"));
    let (ascii, mixed) = (gathered.ascii.as_str(), gathered.mixed.as_str());
    let (chars, parts) = (text("characters of mixed text", mixed), text("slices of 8 ASCII characters", ascii));
    let (count, few) = (items as u64, gathered.keys.len() as u64);
    vec![
        bytes.row("accumulate into Vec", count, ours::vec, theirs::vec),
        slices.row("accumulate into Vec", count, ours::vec_slices, theirs::vec_slices),
        slices.row("accumulate into VecDeque", count, ours::queue_slices, theirs::queue_slices),
        chars.row("accumulate into String", count, ours::text_chars, theirs::text_chars),
        parts.row("accumulate into String", count, ours::text_parts, theirs::text_parts),
        parts.row("accumulate into Cow", count, ours::cow_parts, theirs::cow_parts),
        keys.row("accumulate into BTreeMap", few, ours::tree_map, theirs::tree_map),
        keys.row("accumulate into HashMap", few, ours::hash_map, theirs::hash_map),
        keys.row("accumulate into BTreeSet", few, ours::tree_set, theirs::tree_set),
        keys.row("accumulate into HashSet", few, ours::hash_set, theirs::hash_set),
    ]
}

/// Each number type, of bytes and of text.
pub fn reading_rows(gathered: &Gathered) -> Vec<Row<'_>> {
    let [(small, digits), (middle, more), (signed, most)] = &gathered.numbers;
    let items = gathered.items;
    let bytes = |numbers| On { name: "bytes", input: String::as_bytes(numbers), units: items, calls: 1 };
    let text = |numbers| On { name: "text", input: String::as_str(numbers), units: items, calls: 1 };
    vec![
        bytes(small).row("parse_slice of 3 as u8", *digits, ours::read_u8, theirs::read_all::<u8, &[u8]>),
        bytes(middle).row("parse_slice of 8 as u32", *more, ours::read_u32, theirs::read_all::<u32, &[u8]>),
        bytes(signed).row("parse_slice of 12 as i64", *most, ours::read_i64, theirs::read_all::<i64, &[u8]>),
        text(small).row("parse_slice of 3 as u8", *digits, ours::read_u8_text, theirs::read_all::<u8, &str>),
        text(middle).row("parse_slice of 8 as u32", *more, ours::read_u32_text, theirs::read_all::<u32, &str>),
        text(signed).row("parse_slice of 12 as i64", *most, ours::read_i64_text, theirs::read_all::<i64, &str>),
    ]
}
