//! The table of workloads. A new one is a line here, a generic function in `theirs`, and in `crates/winnow_bench` a generic function
//! and an export for each kind of stream, whose name `ours` lists.

use crate::accumulator_rows::{Gathered, accumulator_rows, reading_rows};
use crate::allocations::{self, Used};
use crate::bit_rows::bit_rows;
use crate::error_rows::error_rows;
use crate::piece_rows::{Pieces, piece_rows};
use crate::search_rows::search_rows;
use crate::tree_rows::tree_rows;
use std::hint::black_box;
use winnow::stream::LocatingSlice;
use winnow_bench::inputs::{ABSENT, NEEDLE, ascii_text, bytes, mixed_text, script, search_script, seeded, short_lines};
use winnow_bench::script::RawStep;
use winnow_bench::their_recovered::record;
use winnow_bench::their_wrappers::wrap;
use winnow_bench::{our_searches, ours, their_kinds, their_search_runs, theirs};

/// How long the inputs are, and how many calls over the small ones are timed as one.
pub struct Sizes {
    bytes_in_memory: usize,
    text_in_memory: usize,
    in_cache: usize,
    calls: usize,
    /// Items that are gathered.
    items: usize,
    /// Short lines, at whose end errors come.
    lines: usize,
    /// Bytes that come in pieces: of a script, of a step that waits at most, and of the long run.
    fed: [usize; 3],
}

impl Sizes {
    pub const WHOLE: Sizes = Sizes {
        bytes_in_memory: 64 << 20,
        text_in_memory: 16 << 20,
        in_cache: 256 << 10,
        calls: 16,
        items: 1_000_000,
        lines: 1 << 20,
        fed: [16 << 20, 1 << 20, 1 << 30],
    };
    pub const SHORT: Sizes = Sizes {
        bytes_in_memory: 8 << 20,
        text_in_memory: 4 << 20,
        in_cache: 256 << 10,
        calls: 8,
        items: 200_000,
        lines: 1 << 18,
        fed: [1 << 20, 1 << 18, 1 << 26],
    };
    pub const COUNTED: Sizes = Sizes {
        bytes_in_memory: 0,
        text_in_memory: 0,
        in_cache: 256 << 10,
        calls: 1,
        items: 20_000,
        lines: 1 << 16,
        fed: [1 << 18, 1 << 16, 1 << 22],
    };
}

pub struct Inputs {
    pub bytes: Vec<u8>,
    pub ascii: String,
    pub mixed: String,
    /// Bytes as long as the texts.
    pub fewer_bytes: Vec<u8>,
    pub short_bytes: Vec<u8>,
    pub short_ascii: String,
    pub short_mixed: String,
    script: Vec<RawStep>,
    search_script: Vec<RawStep>,
    pub gathered: Gathered,
    pub seeded: Vec<u8>,
    pub short_seeded: Vec<u8>,
    #[cfg_attr(not(winnow_hooks), expect(dead_code))]
    pub lines: String,
    pub pieces: Pieces,
    pub calls: usize,
}

impl Inputs {
    pub fn new(sizes: &Sizes) -> Self {
        Inputs {
            bytes: bytes(sizes.bytes_in_memory),
            ascii: ascii_text(sizes.text_in_memory),
            mixed: mixed_text(sizes.text_in_memory),
            fewer_bytes: bytes(sizes.text_in_memory),
            short_bytes: bytes(sizes.in_cache),
            short_ascii: ascii_text(sizes.in_cache),
            short_mixed: mixed_text(sizes.in_cache),
            seeded: seeded(sizes.bytes_in_memory),
            short_seeded: seeded(sizes.in_cache),
            script: script(10_000),
            search_script: search_script(10_000),
            gathered: Gathered::new(sizes.items),
            lines: short_lines(sizes.lines),
            pieces: Pieces::new(sizes.fed),
            calls: sizes.calls,
        }
    }
}

/// A workload on an input, over both sides.
pub struct Row<'i> {
    pub name: String,
    /// How many bytes, or steps, a call goes over.
    pub units: usize,
    /// How many calls are timed as one.
    pub calls: usize,
    /// Whether its units are bytes that come in pieces: a table of its own tells the time of each.
    pub is_fed: bool,
    ours: Box<dyn Fn() -> u64 + 'i>,
    theirs: Box<dyn Fn() -> u64 + 'i>,
}

impl<'i> Row<'i> {
    /// What one call of each side takes, ours first, or `None` where their answers differ.
    pub fn compare(&self) -> Option<[Used; 2]> {
        let (our_answer, ours) = allocations::during(&self.ours);
        let (their_answer, theirs) = allocations::during(&self.theirs);
        (our_answer == their_answer).then_some([ours, theirs])
    }

    /// The same row in the table of pieces.
    pub fn fed(self) -> Self {
        Row { is_fed: true, ..self }
    }

    pub fn call_ours(&self) {
        for _ in 0..self.calls {
            black_box((self.ours)());
        }
    }

    pub fn call_theirs(&self) {
        for _ in 0..self.calls {
            black_box((self.theirs)());
        }
    }
}

/// An input with its name.
#[derive(Clone, Copy)]
pub struct On<I> {
    pub name: &'static str,
    pub input: I,
    pub units: usize,
    pub calls: usize,
}

impl<I: Copy> On<I> {
    // The workload over both sides. Neither compiler sees the input or the number.
    pub fn row<'i>(self, name: &str, number: u64, ours: fn(I, u64) -> u64, theirs: fn(I, u64) -> u64) -> Row<'i>
    where
        I: 'i,
    {
        Row {
            name: format!("{name}: {}", self.name),
            units: self.units,
            calls: self.calls,
            is_fed: false,
            ours: Box::new(move || black_box(ours)(black_box(self.input), black_box(number))),
            theirs: Box::new(move || black_box(theirs)(black_box(self.input), black_box(number))),
        }
    }
}

/// Every workload on every input that is not empty.
pub fn rows(inputs: &Inputs) -> Vec<Row<'_>> {
    let mut rows = Vec::new();
    for (name, input, calls) in [("bytes in memory", &inputs.bytes, 1), ("bytes in cache", &inputs.short_bytes, inputs.calls)] {
        let units = input.len();
        if units > 0 {
            rows.extend(byte_rows(On { name, input: input.as_slice(), units, calls }));
        }
    }
    for (name, input, calls) in [
        ("ASCII text in memory", &inputs.ascii, 1),
        ("mixed text in memory", &inputs.mixed, 1),
        ("ASCII text in cache", &inputs.short_ascii, inputs.calls),
        ("mixed text in cache", &inputs.short_mixed, inputs.calls),
    ] {
        let units = input.len();
        if units > 0 {
            rows.extend(text_rows(On { name, input: input.as_str(), units, calls }));
            let on = On { name, input: input.as_bytes(), units, calls };
            rows.push(on.row("Display of BStr", ABSENT, winnow_bench::ours::display_bstr, their_kinds::display_bstr));
        }
    }
    rows.extend(run_rows(inputs));
    rows.extend(bit_rows(inputs));
    rows.extend(search_rows(inputs));
    rows.extend(error_rows(inputs));
    rows.extend(tree_rows(inputs));
    rows.extend(piece_rows(&inputs.pieces));
    rows.extend(accumulator_rows(&inputs.gathered));
    rows.extend(reading_rows(&inputs.gathered));
    rows
}

fn byte_rows(on: On<&[u8]>) -> Vec<Row<'_>> {
    use ours::bytes as ours;
    vec![
        on.row("next_token", ABSENT, ours::drain, theirs::drain),
        on.row("next_token, one wrapper", ABSENT, ours::drain_located, |input, number| theirs::drain(LocatingSlice::new(input), number)),
        on.row("next_token, three wrappers", ABSENT, ours::drain_wrapped, |input, number| theirs::drain(wrap(input), number)),
        on.row("next_token, where errors are recorded", ABSENT, ours::drain_recoverable, |input, number| theirs::drain(record(input), number)),
        on.row("peek_token, next_token", ABSENT, ours::peek_and_take, theirs::peek_and_take),
        on.row("iter_offsets", ABSENT, ours::sum_offsets, theirs::sum_offsets),
        on.row("checkpoint, two tokens, reset", ABSENT, ours::look_ahead, theirs::look_ahead),
        on.row("offset_at and next_slice of 1", 1, ours::take_all, theirs::take_all),
        on.row("offset_at and next_slice of 16", 16, ours::take_all, theirs::take_all),
        on.row("offset_at and next_slice of 16, one wrapper", 16, ours::take_all_located, |input, number| {
            theirs::take_all(LocatingSlice::new(input), number)
        }),
        on.row("offset_at and next_slice of 16, three wrappers", 16, ours::take_all_wrapped, |input, number| theirs::take_all(wrap(input), number)),
        on.row("offset_at and next_slice of 256", 256, ours::take_all, theirs::take_all),
        on.row("offset_for, near", u64::from(b'\n'), ours::take_parts, theirs::take_parts),
        on.row("offset_for, far", ABSENT, ours::find_token, theirs::find_token),
        on.row("next_token of BStr", ABSENT, winnow_bench::ours::drain_bstr, their_kinds::drain_bstr),
        on.row("next_token of Bytes", ABSENT, winnow_bench::ours::drain_plain_bytes, their_kinds::drain_plain_bytes),
        on.row("next_token of TokenSlice", ABSENT, winnow_bench::ours::drain_tokens, theirs::drain_tokens),
    ]
}

fn text_rows(on: On<&str>) -> Vec<Row<'_>> {
    use ours::text as ours;
    vec![
        on.row("next_token", ABSENT, ours::drain, theirs::drain),
        on.row("next_token, one wrapper", ABSENT, ours::drain_located, |input, number| theirs::drain(LocatingSlice::new(input), number)),
        on.row("next_token, three wrappers", ABSENT, ours::drain_wrapped, |input, number| theirs::drain(wrap(input), number)),
        on.row("next_token, where errors are recorded", ABSENT, ours::drain_recoverable, |input, number| theirs::drain(record(input), number)),
        on.row("peek_token, next_token", ABSENT, ours::peek_and_take, theirs::peek_and_take),
        on.row("iter_offsets", ABSENT, ours::sum_offsets, theirs::sum_offsets),
        on.row("checkpoint, two tokens, reset", ABSENT, ours::look_ahead, theirs::look_ahead),
        on.row("offset_at and next_slice of 1", 1, ours::take_all, theirs::take_all),
        on.row("offset_at and next_slice of 16", 16, ours::take_all, theirs::take_all),
        on.row("offset_at and next_slice of 16, one wrapper", 16, ours::take_all_located, |input, number| {
            theirs::take_all(LocatingSlice::new(input), number)
        }),
        on.row("offset_at and next_slice of 16, three wrappers", 16, ours::take_all_wrapped, |input, number| theirs::take_all(wrap(input), number)),
        on.row("offset_at and next_slice of 256", 256, ours::take_all, theirs::take_all),
        on.row("offset_at, far", u64::MAX, ours::offset_behind, theirs::offset_behind),
        on.row("offset_for, near", u64::from(b'\n'), ours::take_parts, theirs::take_parts),
        on.row("offset_for, far", ABSENT, ours::find_token, theirs::find_token),
    ]
}

// Rounds of one script of 10,000 steps.
fn run_rows(inputs: &Inputs) -> Vec<Row<'_>> {
    const ROUNDS: u64 = 20;
    let script = inputs.script.as_slice();
    let units = script.len() * ROUNDS as usize;
    let bytes = On { name: "bytes", input: (inputs.short_bytes.as_slice(), script), units, calls: 1 };
    let text = On { name: "mixed text", input: (inputs.short_mixed.as_str(), script), units, calls: 1 };
    let searched = (inputs.short_seeded.as_slice(), NEEDLE.as_bytes(), inputs.search_script.as_slice());
    let searched = On { name: "bytes", input: searched, units, calls: 1 };
    vec![
        bytes.row("run 10,000 steps", ROUNDS, ours::run_bytes, theirs::run_rounds),
        text.row("run 10,000 steps", ROUNDS, ours::run_text, theirs::run_rounds),
        searched.row("run_search 10,000 steps", ROUNDS, our_searches::run_search, their_search_runs::run_rounds),
    ]
}
