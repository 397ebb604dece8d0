//! The Rust crate's bytes with a text of their own: word for word the files `kinds.rt` of `crates/winnow_bench` and `crates/winnow_bench_agree`.

use crate::script::{Step, Told};
use crate::theirs::{self, IsOffset};
use std::cmp::Ordering;
use winnow::stream::{BStr, Bytes};

impl IsOffset for &BStr {
    fn is_offset(&self, offset: usize) -> bool {
        offset <= self.len()
    }
}

impl IsOffset for &Bytes {
    fn is_offset(&self, offset: usize) -> bool {
        offset <= self.len()
    }
}

/// Takes tokens of a `BStr`.
pub fn drain_bstr(input: &[u8], stop: u64) -> u64 {
    theirs::drain(BStr::new(input), stop)
}

/// Takes tokens of `Bytes`.
pub fn drain_plain_bytes(input: &[u8], stop: u64) -> u64 {
    theirs::drain(Bytes::new(input), stop)
}

/// The length of the text of a `BStr`.
pub fn display_bstr(input: &[u8], _number: u64) -> u64 {
    BStr::new(input).to_string().len() as u64
}

/// The answers of a script on a `BStr`, and on `Bytes`.
pub fn answers(input: &[u8], script: &[Step]) -> [Vec<Told>; 2] {
    [theirs::tell_run(BStr::new(input), script), theirs::tell_run(Bytes::new(input), script)]
}

/// The texts of both, and how their two parts compare.
pub fn texts(input: &[u8], width: usize) -> Vec<u64> {
    let mut told = Vec::new();
    let (text, bytes) = (BStr::new(input), Bytes::new(input));
    for text in [
        text.to_string(),
        format!("{text:?}"),
        format!("{text:#?}"),
        format!("{text:.2}"),
        format!("{text:9.1?}"),
        bytes.to_string(),
        format!("{bytes:?}"),
        format!("{bytes:9.1}"),
        format!("{bytes:X}"),
        format!("{bytes:x}"),
    ] {
        theirs::tell_bytes(&mut told, text.as_bytes());
    }
    let (front, rest) = input.split_at(width.min(input.len()));
    told.extend([BStr::new(front).cmp(BStr::new(rest)), Bytes::new(front).cmp(Bytes::new(rest))].map(order));
    told.extend([BStr::new(front) == BStr::new(rest), Bytes::new(front) == Bytes::new(rest)].map(u64::from));
    told
}

fn order(order: Ordering) -> u64 {
    match order {
        Ordering::Less => 0,
        Ordering::Equal => 1,
        Ordering::Greater => 2,
    }
}
