//! The Rust crate's parse errors, word for word as in `crates/winnow_bench_values`. The crate makes them inside, and keeps
//! `translate_position` to itself: this file is compiled where the copy of the crate hands both out, in a module `error::hooks`.

use crate::their_trees::behind;
use crate::theirs::{IsOffset, Weigh, mix, tell_bytes};
use winnow::error::hooks::{parse_error, translate_position};
use winnow::error::{EmptyError, ParseError};
use winnow::stream::{AsBStr, Stream};

// The error of a parse that fails behind the front of that width, or at the start where no front has it.
fn fail_at<I: Stream + IsOffset + Copy>(input: I, width: usize) -> ParseError<I, EmptyError> {
    parse_error(behind(input, width), input.checkpoint(), EmptyError)
}

/// What the error of a parse of bytes prints, its offset and its span.
pub fn failure_bytes(input: &[u8], width: usize) -> Vec<u64> {
    tell_failure(input, width)
}

/// What the error of a parse of a text prints, its offset and its span.
pub fn failure_text(input: &str, width: usize) -> Vec<u64> {
    tell_failure(input, width)
}

fn tell_failure<I: Stream + IsOffset + AsBStr + Copy>(input: I, width: usize) -> Vec<u64> {
    let mut told = Vec::new();
    let error = fail_at(input, width);
    tell_bytes(&mut told, error.to_string().as_bytes());
    let span = error.char_span();
    told.extend([error.offset() as u64, span.start as u64, span.end as u64]);
    told
}

/// The line and the column of an offset.
pub fn position(input: &[u8], index: usize) -> [u64; 2] {
    let (line, column) = translate_position(input, index);
    [line as u64, column as u64]
}

#[inline(never)]
pub fn weigh_position(input: &[u8], index: u64) -> u64 {
    let (line, column) = translate_position(input, index as usize);
    mix(line as u64, column as u64)
}

#[inline(never)]
pub fn print_failure(input: &str, width: u64) -> u64 {
    fail_at(input, width as usize).to_string().as_str().weigh()
}

#[inline(never)]
pub fn weigh_spans(input: &[u8], _number: u64) -> u64 {
    let mut sum = 0;
    for width in 0..input.len() {
        let span = fail_at(input, width).char_span();
        sum = mix(sum, mix(span.start as u64, span.end as u64));
    }
    sum
}
