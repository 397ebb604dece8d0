//! The rows of bits: one by one, and by slices that begin and end inside bytes.

use crate::rows::{Inputs, On, Row};
use winnow_bench::{our_bits as ours, their_bits as theirs};

/// No bit has that number.
const NO_BIT: u64 = 2;

/// Every one of them on every input that is not empty. A unit is a byte.
pub fn bit_rows(inputs: &Inputs) -> Vec<Row<'_>> {
    let mut rows = Vec::new();
    for (name, input, calls) in [("bits in memory", &inputs.fewer_bytes, 1), ("bits in cache", &inputs.short_bytes, inputs.calls.div_ceil(4))] {
        let on = On { name, input: input.as_slice(), units: input.len(), calls };
        if on.units > 0 {
            rows.extend([
                on.row("next_token", NO_BIT, ours::drain, theirs::drain),
                on.row("iter_offsets", NO_BIT, ours::sum_offsets, theirs::sum_offsets),
                on.row("offset_at and next_slice of 3", 3, ours::take_all, theirs::take_all),
                on.row("offset_at and next_slice of 11", 11, ours::take_all, theirs::take_all),
            ]);
        }
    }
    rows
}
