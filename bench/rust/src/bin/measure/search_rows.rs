//! The rows of searches, comparisons and sets: near hits in bytes that hold the needle, far ones in a text that does not.

use crate::rows::{Inputs, On, Row};
use winnow_bench::inputs::NEEDLE;
use winnow_bench::{our_searches as ours, their_searches as theirs};

/// Every one of them on every input that is not empty.
pub fn search_rows(inputs: &Inputs) -> Vec<Row<'_>> {
    let mut rows = Vec::new();
    for (place, calls, seeded, bytes, ascii, mixed) in [
        ("in memory", 1, &inputs.seeded, &inputs.fewer_bytes, &inputs.ascii, &inputs.mixed),
        ("in cache", inputs.calls, &inputs.short_seeded, &inputs.short_bytes, &inputs.short_ascii, &inputs.short_mixed),
    ] {
        if seeded.is_empty() {
            continue;
        }
        rows.extend(near_rows(seeded, place, calls));
        rows.extend(far_rows(ascii, place, calls));
        rows.extend(byte_set_rows(bytes, place, calls));
        rows.extend(text_set_rows(ascii, "ASCII text", place, calls));
        rows.extend(text_set_rows(mixed, "mixed text", place, calls));
    }
    rows
}

// A search of the needles, of which the first has that length.
struct Search<I> {
    name: &'static str,
    needles: I,
    first: u64,
    ours: fn((I, I), u64) -> u64,
    theirs: fn((I, I), u64) -> u64,
}

impl<I: Copy> Search<I> {
    fn row<'i>(&self, input: I, units: usize, place: &'static str, calls: usize) -> Row<'i>
    where
        I: 'i,
    {
        On { name: place, input: (input, self.needles), units, calls }.row(self.name, self.first, self.ours, self.theirs)
    }
}

const BOTH: &[u8] = b"thirty-twokey:";
const FIRST: u64 = 10;

fn near_rows<'i>(seeded: &'i [u8], place: &'static str, calls: usize) -> Vec<Row<'i>> {
    let row = |name, needles, first, ours, theirs| Search { name, needles, first, ours, theirs }.row(seeded, seeded.len(), place, calls);
    let needle = NEEDLE.as_bytes();
    vec![
        row("find_slice of a byte, near", b"\n", 0, ours::take_byte, theirs::take_byte),
        row("find_slice of three bytes, near", b"\n\r\t", 0, ours::take_three_bytes, theirs::take_three_bytes),
        row("find_slice of 4 bytes, near", &needle[..4], 0, ours::take_needle, theirs::take_needle),
        row("find_slice of 32 bytes, near", needle, 0, ours::take_needle, theirs::take_needle),
        row("find_slice of two needles, near", BOTH, FIRST, ours::take_two_needles, theirs::take_two_needles),
        row("compare of 16 bytes at each place", &needle[..16], 0, ours::compare_each, theirs::compare_each),
    ]
}

fn far_rows<'i>(ascii: &'i str, place: &'static str, calls: usize) -> Vec<Row<'i>> {
    let bytes = ascii.as_bytes();
    let row = |name, needles, first, ours, theirs| Search { name, needles, first, ours, theirs }.row(bytes, bytes.len(), place, calls);
    let text = |name, needles, ours, theirs| Search { name, needles, first: 0, ours, theirs }.row(ascii, ascii.len(), place, calls);
    let needle = NEEDLE.as_bytes();
    vec![
        row("find_slice of a byte, far", b"\0", 0, ours::find_byte, theirs::find_byte),
        row("find_slice of three bytes, far", b"\0\x01\x02", 0, ours::find_three_bytes, theirs::find_three_bytes),
        row("find_slice of 4 bytes, far", &needle[..4], 0, ours::find_needle, theirs::find_needle),
        row("find_slice of 32 bytes, far", needle, 0, ours::find_needle, theirs::find_needle),
        row("find_slice of two needles, far", BOTH, FIRST, ours::find_two_needles, theirs::find_two_needles),
        text("find_slice of a text, near", "a", ours::take_needle_text, theirs::take_needle_text),
        text("find_slice of a text, far", &NEEDLE[..4], ours::find_needle_text, theirs::find_needle_text),
        text("compare of a text of 16 at each place", &NEEDLE[..16], ours::compare_each_text, theirs::compare_each),
    ]
}

fn byte_set_rows<'i>(input: &'i [u8], place: &'static str, calls: usize) -> Vec<Row<'i>> {
    let on = On { name: place, input, units: input.len(), calls };
    vec![
        on.row("offset_for a CharSet, near, bytes", 0, ours::take_char_set, theirs::take_near),
        on.row("offset_for a CharSet, far, bytes", 0, ours::find_char_set, theirs::find_far),
        on.row("offset_for ranges, near, bytes", 0, ours::take_ranges, theirs::take_near),
        on.row("offset_for ranges, far, bytes", 0, ours::find_ranges, theirs::find_far),
    ]
}

fn text_set_rows<'i>(input: &'i str, kind: &str, place: &'static str, calls: usize) -> Vec<Row<'i>> {
    let on = On { name: place, input, units: input.len(), calls };
    let row = |name: &str, ours, theirs| on.row(&format!("{name}, {kind}"), 0, ours, theirs);
    vec![
        row("offset_for a CharSet, near", ours::take_char_set_text, theirs::take_near),
        row("offset_for a CharSet, far", ours::find_char_set_text, theirs::find_far),
        row("offset_for ranges, near", ours::take_ranges_text, theirs::take_near),
        row("offset_for ranges, far", ours::find_ranges_text, theirs::find_far),
    ]
}
