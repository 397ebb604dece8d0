//! The rows of trees of errors, a thousand tokens each, and of parse errors at the end of short lines.

use crate::rows::{Inputs, On, Row};
use winnow_bench::{our_trees as ours, their_trees as theirs};

const COUNT: usize = 1000;

/// All of them, over the first bytes and characters of an input, and over lines.
pub fn tree_rows(inputs: &Inputs) -> Vec<Row<'_>> {
    let (bytes, text) = (&inputs.short_bytes[..COUNT], &inputs.short_ascii[..COUNT]);
    let few = On { name: "bytes", input: bytes, units: COUNT, calls: 10 * inputs.calls };
    let printed = On { name: "ASCII text", input: text, units: COUNT, calls: inputs.calls };
    let mut rows = vec![
        few.row("or of 1,000 trees", 0, ours::join_trees, theirs::join_trees),
        On { units: 2 * COUNT, ..few }.row("append and add_context, 1,000 each, on a tree", 0, ours::push_frames, theirs::push_frames),
        printed.row("text of a tree of 1,000 errors, made first", 0, ours::print_tree, theirs::print_tree),
    ];
    rows.extend(place_rows(inputs));
    rows
}

// Where the copy of the crate hands out what these call.
#[cfg(winnow_hooks)]
fn place_rows(inputs: &Inputs) -> Vec<Row<'_>> {
    use winnow_bench::their_parse_errors as theirs;
    let lines = inputs.lines.as_str();
    let end = lines.len() as u64;
    let text = On { name: "at the end of short lines", input: lines, units: lines.len(), calls: 1 };
    let bytes = On { name: "at the end of short lines", input: lines.as_bytes(), units: lines.len(), calls: 1 };
    let each = On { name: "short lines", ..bytes };
    vec![
        text.row("text of a ParseError", end, ours::print_failure, theirs::print_failure),
        bytes.row("translate_position", end, ours::weigh_position, theirs::weigh_position),
        each.row("char_span at each offset", 0, ours::weigh_spans, theirs::weigh_spans),
    ]
}

#[cfg(not(winnow_hooks))]
fn place_rows(_inputs: &Inputs) -> Vec<Row<'_>> {
    Vec::new()
}
