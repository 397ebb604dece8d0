//! The accumulators and readings of the Rust crate, word for word as in `crates/winnow_bench`.

use crate::theirs::{Weigh, mix};
use std::borrow::Cow;
use std::collections::{BTreeMap, BTreeSet, HashMap, HashSet, VecDeque};
use winnow::stream::{Accumulate, ParseSlice, Stream};

/// The items that a loop gathers.
pub trait Supply<T> {
    fn supply(&mut self) -> Option<T>;
}

impl Supply<u8> for &[u8] {
    fn supply(&mut self) -> Option<u8> {
        self.next_token()
    }
}

impl Supply<char> for &str {
    fn supply(&mut self) -> Option<char> {
        self.next_token()
    }
}

impl Supply<u64> for &[u64] {
    fn supply(&mut self) -> Option<u64> {
        self.next_token()
    }
}

/// Each key is its own value.
impl Supply<(u64, u64)> for &[u64] {
    fn supply(&mut self) -> Option<(u64, u64)> {
        let key = self.next_token()?;
        Some((key, key))
    }
}

/// What remains, in parts of so many tokens.
pub struct Parts<S> {
    pub rest: S,
    pub tokens: usize,
}

impl<S: Stream> Supply<S::Slice> for Parts<S> {
    fn supply(&mut self) -> Option<S::Slice> {
        let offset = self.rest.offset_at(self.tokens).ok()?;
        Some(self.rest.next_slice(offset))
    }
}

/// Gathers so many items, or as many as there are.
#[inline(never)]
pub fn gather<A: Accumulate<T>, T, S: Supply<T>>(mut items: S, count: usize) -> A {
    let mut all = A::initial(Some(count));
    for _ in 0..count {
        let Some(item) = items.supply() else {
            break;
        };
        all.accumulate(item);
    }
    all
}

// How many tokens a part has.
const PART: usize = 8;

fn parts<S>(rest: S) -> Parts<S> {
    Parts { rest, tokens: PART }
}

pub fn vec(input: &[u8], count: u64) -> u64 {
    gather::<Vec<u8>, u8, _>(input, count as usize).as_slice().weigh()
}

pub fn vec_slices(input: &[u8], count: u64) -> u64 {
    gather::<Vec<u8>, &[u8], _>(parts(input), count as usize).as_slice().weigh()
}

pub fn queue_slices(input: &[u8], count: u64) -> u64 {
    let all = gather::<VecDeque<u8>, &[u8], _>(parts(input), count as usize);
    match all.front() {
        Some(first) => all.len() as u64 ^ u64::from(*first),
        None => 0,
    }
}

pub fn text_chars(input: &str, count: u64) -> u64 {
    gather::<String, char, _>(input, count as usize).as_str().weigh()
}

pub fn text_parts(input: &str, count: u64) -> u64 {
    gather::<String, &str, _>(parts(input), count as usize).as_str().weigh()
}

pub fn cow_parts(input: &str, count: u64) -> u64 {
    gather::<Cow<str>, &str, _>(parts(input), count as usize).as_ref().weigh()
}

// A key that may be there or not.
const KEY: u64 = 7;

pub fn tree_map(keys: &[u64], count: u64) -> u64 {
    let all = gather::<BTreeMap<u64, u64>, (u64, u64), _>(keys, count as usize);
    mix(all.len() as u64, all.get(&KEY).copied().unwrap_or(0))
}

pub fn hash_map(keys: &[u64], count: u64) -> u64 {
    let all = gather::<HashMap<u64, u64>, (u64, u64), _>(keys, count as usize);
    mix(all.len() as u64, all.get(&KEY).copied().unwrap_or(0))
}

pub fn tree_set(keys: &[u64], count: u64) -> u64 {
    let all = gather::<BTreeSet<u64>, u64, _>(keys, count as usize);
    mix(all.len() as u64, u64::from(all.contains(&KEY)))
}

pub fn hash_set(keys: &[u64], count: u64) -> u64 {
    let all = gather::<HashSet<u64>, u64, _>(keys, count as usize);
    mix(all.len() as u64, u64::from(all.contains(&KEY)))
}

/// A value as bits.
pub trait Value {
    fn value(&self) -> u64;
}

impl Value for u8 {
    fn value(&self) -> u64 {
        u64::from(*self)
    }
}

impl Value for u32 {
    fn value(&self) -> u64 {
        u64::from(*self)
    }
}

impl Value for i64 {
    fn value(&self) -> u64 {
        self.cast_unsigned()
    }
}

/// Reads so many pieces, or as many as there are, and sums up their values.
#[inline(never)]
fn read_pieces<R: Value, S: ParseSlice<R>, P: Supply<S>>(mut pieces: P, count: usize) -> u64 {
    let mut sum = 0;
    for _ in 0..count {
        let Some(piece) = pieces.supply() else {
            break;
        };
        let read: Option<R> = piece.parse_slice();
        if let Some(value) = read {
            sum = mix(sum, value.value());
        }
    }
    sum
}

/// Reads pieces of so many tokens.
pub fn read_all<R: Value, S: Stream<Slice: ParseSlice<R>>>(input: S, tokens: u64) -> u64 {
    let count = input.eof_offset();
    read_pieces::<R, S::Slice, _>(Parts { rest: input, tokens: tokens as usize }, count)
}
