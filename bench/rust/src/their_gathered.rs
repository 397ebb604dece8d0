//! What ranges, readings and accumulators of the Rust crate answer, as `crates/winnow_bench_values` tells it.

use crate::their_accumulators::{Parts, Supply, gather};
use crate::theirs::tell_bytes;
use std::borrow::Cow;
use std::collections::{BTreeMap, BTreeSet, HashMap, HashSet, VecDeque};
use std::fmt::Display;
use std::ops::RangeBounds;
use std::str::{FromStr, from_utf8};
use winnow::stream::{ParseSlice, Range};

/// Which counts the range of a kind with these bounds contains, and its texts.
pub fn range(kind: u64, first: usize, second: usize) -> Vec<u64> {
    let range = match kind {
        0 => Range::from(first),
        1 => Range::from(first..second),
        2 => Range::from(first..=second),
        3 => Range::from(first..),
        4 => Range::from(..second),
        5 => Range::from(..=second),
        _ => Range::from(..),
    };
    let counts = (0..12).chain([usize::MAX - 1, usize::MAX]);
    let mut told: Vec<u64> = counts.map(|count| u64::from(range.contains(&count))).collect();
    tell_bytes(&mut told, format!("{range} {range:?}").as_bytes());
    told
}

/// What bytes read as at each type, and what they do as a text where they are one.
pub fn readings(input: &[u8]) -> Vec<u64> {
    let mut told = Vec::new();
    tell_reading::<u8>(&mut told, input);
    tell_reading::<u16>(&mut told, input);
    tell_reading::<u32>(&mut told, input);
    tell_reading::<u64>(&mut told, input);
    tell_reading::<u128>(&mut told, input);
    tell_reading::<usize>(&mut told, input);
    tell_reading::<i8>(&mut told, input);
    tell_reading::<i16>(&mut told, input);
    tell_reading::<i32>(&mut told, input);
    tell_reading::<i64>(&mut told, input);
    tell_reading::<i128>(&mut told, input);
    tell_reading::<isize>(&mut told, input);
    tell_reading::<bool>(&mut told, input);
    tell_reading::<char>(&mut told, input);
    told
}

fn tell_reading<R: FromStr + Display>(told: &mut Vec<u64>, input: &[u8]) {
    tell_value::<R>(told, input.parse_slice());
    if let Ok(text) = from_utf8(input) {
        tell_value::<R>(told, text.parse_slice());
    }
}

// 1 and the text of the value, or 0.
fn tell_value<V: Display>(told: &mut Vec<u64>, read: Option<V>) {
    told.push(u64::from(read.is_some()));
    if let Some(value) = read {
        tell_bytes(told, value.to_string().as_bytes());
    }
}

/// What the bytes give, and what their parts of so many tokens do.
pub fn gathered_bytes(input: &[u8], tokens: usize) -> Vec<u64> {
    let count = input.len();
    let parts = || Parts { rest: input, tokens };
    let () = gather::<(), u8, _>(input, count);
    let mut told = vec![gather::<usize, u8, _>(input, count) as u64];
    tell_bytes(&mut told, &gather::<Vec<u8>, u8, _>(input, count));
    tell_bytes(&mut told, &gather::<Vec<u8>, &[u8], _>(parts(), count));
    let queue = gather::<VecDeque<u8>, &[u8], _>(parts(), count);
    told.push(queue.len() as u64);
    told.extend(queue.iter().copied().map(u64::from));
    told
}

/// What the characters give, and what the parts of so many do: lent, owned, and in turn.
pub fn gathered_text(input: &str, tokens: usize) -> Vec<u64> {
    let mut told = Vec::new();
    let count = input.len();
    let parts = || Parts { rest: input, tokens };
    tell_bytes(&mut told, gather::<String, char, _>(input, count).as_bytes());
    tell_bytes(&mut told, gather::<String, &str, _>(parts(), count).as_bytes());
    tell_cow(&mut told, gather::<Cow<str>, char, _>(input, count));
    tell_cow(&mut told, gather::<Cow<str>, &str, _>(parts(), count));
    tell_bytes(&mut told, gather::<String, String, _>(Owned(parts()), count).as_bytes());
    tell_cow(&mut told, gather::<Cow<str>, String, _>(Owned(parts()), count));
    for is_lent in [false, true] {
        let mixed = || Mixed { parts: parts(), is_lent };
        tell_bytes(&mut told, gather::<String, Cow<str>, _>(mixed(), count).as_bytes());
        tell_cow(&mut told, gather::<Cow<str>, Cow<str>, _>(mixed(), count));
    }
    told
}

// Whether it is owned, and its text.
fn tell_cow(told: &mut Vec<u64>, cow: Cow<str>) {
    told.push(u64::from(matches!(cow, Cow::Owned(_))));
    tell_bytes(told, cow.as_bytes());
}

// Parts as texts of their own.
struct Owned<'i>(Parts<&'i str>);

impl Supply<String> for Owned<'_> {
    fn supply(&mut self) -> Option<String> {
        self.0.supply().map(str::to_owned)
    }
}

// Parts of which every other one is a text of its own.
struct Mixed<'i> {
    parts: Parts<&'i str>,
    is_lent: bool,
}

impl<'i> Supply<Cow<'i, str>> for Mixed<'i> {
    fn supply(&mut self) -> Option<Cow<'i, str>> {
        self.is_lent = !self.is_lent;
        let part = self.parts.supply()?;
        Some(if self.is_lent { Cow::Borrowed(part) } else { Cow::Owned(part.to_owned()) })
    }
}

/// What maps and sets hold: how many keys, and what each key below 16 has. A value is how many keys came so far.
pub fn gathered_keys(keys: &[u64]) -> Vec<u64> {
    let count = keys.len();
    let pairs = || Pairs { keys, count: 0 };
    let tree = gather::<BTreeMap<u64, u64>, (u64, u64), _>(pairs(), count);
    let hashed = gather::<HashMap<u64, u64>, (u64, u64), _>(pairs(), count);
    let ordered = gather::<BTreeSet<u64>, u64, _>(keys, count);
    let set = gather::<HashSet<u64>, u64, _>(keys, count);
    let mut told = vec![tree.len() as u64];
    told.extend((0..16).map(|key| tree.get(&key).copied().unwrap_or(u64::MAX)));
    told.push(hashed.len() as u64);
    told.extend((0..16).map(|key| hashed.get(&key).copied().unwrap_or(u64::MAX)));
    told.push(ordered.len() as u64);
    told.extend((0..16).map(|key| u64::from(ordered.contains(&key))));
    told.push(set.len() as u64);
    told.extend((0..16).map(|key| u64::from(set.contains(&key))));
    told
}

struct Pairs<'i> {
    keys: &'i [u64],
    count: u64,
}

impl Supply<(u64, u64)> for Pairs<'_> {
    fn supply(&mut self) -> Option<(u64, u64)> {
        let key = self.keys.supply()?;
        self.count += 1;
        Some((key, self.count))
    }
}
