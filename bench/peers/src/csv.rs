//! Comma-separated values: records of plain and quoted fields.

use crate::digest::{Depth, digest, join};
use nom::branch::alt;
use nom::bytes::complete::{is_not, tag, take_till};
use nom::combinator::{eof, map, not, value};
use nom::multi::{fold_many0, separated_list1};
use nom::sequence::{delimited, preceded, terminated};
use nom::{IResult, Parser};
use std::borrow::Cow;

type Answer<'i, O> = IResult<&'i [u8], O, ()>;

fn plain(input: &[u8]) -> Answer<'_, &[u8]> {
    take_till(|byte| matches!(byte, b'"' | b',' | b'\r' | b'\n'))(input)
}

fn owned(input: &[u8]) -> Answer<'_, Vec<u8>> {
    let chunk = alt((is_not("\""), value(b"\"".as_slice(), tag("\"\""))));
    let append = |mut field: Vec<u8>, chunk: &[u8]| {
        field.extend_from_slice(chunk);
        field
    };
    let quoted = delimited(tag("\""), fold_many0(chunk, Vec::new, append), tag("\""));
    alt((quoted, map(plain, <[u8]>::to_vec)))(input)
}

fn append<'i>(mut field: Cow<'i, [u8]>, chunk: &'i [u8]) -> Cow<'i, [u8]> {
    if field.is_empty() {
        return Cow::Borrowed(chunk);
    }
    field.to_mut().extend_from_slice(chunk);
    field
}

// A field that is copied only where a quote is doubled.
fn borrowed(input: &[u8]) -> Answer<'_, Cow<'_, [u8]>> {
    let chunk = alt((is_not("\""), value(b"\"".as_slice(), tag("\"\""))));
    let quoted = delimited(tag("\""), fold_many0(chunk, || Cow::Borrowed([].as_slice()), append), tag("\""));
    alt((quoted, map(plain, Cow::Borrowed)))(input)
}

fn record<'i, O>(field: impl Parser<&'i [u8], O, ()>) -> impl FnMut(&'i [u8]) -> Answer<'i, Vec<O>> {
    let line_end = alt((tag("\n"), tag("\r\n"), eof));
    preceded(not(eof), terminated(separated_list1(tag(","), field), line_end))
}

fn read<'i, O: AsRef<[u8]>>(input: &'i [u8], field: impl Parser<&'i [u8], O, ()>, depth: Depth) -> u64 {
    let mut record = record(field);
    let mut rest = input;
    let mut sum = 0;
    while let Ok((after, fields)) = record(rest) {
        let count = fields.len() as u64;
        let fields = fields.iter().fold(0, |sum, field| join(sum, digest(field.as_ref(), depth)));
        sum = join(sum, join(fields, count));
        rest = after;
    }
    join(sum, rest.len() as u64)
}

/// Reads records, each of them a list of fields of its own.
pub fn read_owned(input: &[u8], depth: Depth) -> u64 {
    read(input, owned, depth)
}

/// Reads records whose fields borrow from the input where they can.
pub fn read_borrowed(input: &[u8], depth: Depth) -> u64 {
    read(input, borrowed, depth)
}

/// Whether all of the input is records.
pub fn is_whole(input: &[u8]) -> bool {
    let mut record = record(borrowed);
    let mut rest = input;
    while let Ok((after, _)) = record(rest) {
        rest = after;
    }
    rest.is_empty()
}
