//! The rows of errors: a thousand joined, and a thousand contexts pushed.

use crate::rows::{Inputs, On, Row};
use winnow_bench::{our_errors as ours, their_errors as theirs};

const COUNT: usize = 1000;

/// All of them, over the first bytes of an input.
pub fn error_rows(inputs: &Inputs) -> Vec<Row<'_>> {
    let input = &inputs.short_bytes[..COUNT];
    let on = On { name: "bytes", input, units: COUNT, calls: 100 * inputs.calls };
    vec![
        on.row("or of 1,000 modes of EmptyError", 0, ours::join_empty, theirs::join_empty),
        on.row("or of 1,000 modes of InputError", 0, ours::join_input, theirs::join_input),
        on.row("push of 1,000 contexts", 0, ours::push_contexts, theirs::push_contexts),
    ]
}
