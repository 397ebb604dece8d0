//! The searches, comparisons and sets over the Rust crate, word for word those of `crates/winnow_bench` and `crates/winnow_bench_values`.

use crate::theirs::{Weigh, mix};
use std::str::from_utf8;
use winnow::stream::{Compare, CompareResult, ContainsToken, FindSlice, Stream};

#[inline(never)]
pub fn take_hits<S: FindSlice<N> + Stream<Slice: Weigh>, N: Copy>(mut s: S, needle: N) -> u64 {
    let mut sum = 0;
    while let Some(hit) = s.find_slice(needle) {
        if hit.end == 0 {
            break;
        }
        sum = mix(sum, s.next_slice(hit.end).weigh());
    }
    sum
}

#[inline(never)]
pub fn find_hit<S: FindSlice<N>, N>(s: S, needle: N) -> u64 {
    match s.find_slice(needle) {
        Some(hit) => hit.end as u64,
        None => u64::MAX,
    }
}

pub fn take_byte((input, needles): (&[u8], &[u8]), _first: u64) -> u64 {
    take_hits(input, needles[0])
}

pub fn take_three_bytes((input, needles): (&[u8], &[u8]), _first: u64) -> u64 {
    take_hits(input, (needles[0], needles[1], needles[2]))
}

pub fn take_needle((input, needles): (&[u8], &[u8]), _first: u64) -> u64 {
    take_hits(input, needles)
}

pub fn take_two_needles((input, needles): (&[u8], &[u8]), first: u64) -> u64 {
    take_hits(input, needles.split_at(first as usize))
}

pub fn take_needle_text((input, needles): (&str, &str), _first: u64) -> u64 {
    take_hits(input, needles)
}

pub fn find_byte((input, needles): (&[u8], &[u8]), _first: u64) -> u64 {
    find_hit(input, needles[0])
}

pub fn find_three_bytes((input, needles): (&[u8], &[u8]), _first: u64) -> u64 {
    find_hit(input, (needles[0], needles[1], needles[2]))
}

pub fn find_needle((input, needles): (&[u8], &[u8]), _first: u64) -> u64 {
    find_hit(input, needles)
}

pub fn find_two_needles((input, needles): (&[u8], &[u8]), first: u64) -> u64 {
    find_hit(input, needles.split_at(first as usize))
}

pub fn find_needle_text((input, needles): (&str, &str), _first: u64) -> u64 {
    find_hit(input, needles)
}

#[inline(never)]
pub fn compare_each<S: Compare<L> + Stream, L: Copy>((mut s, literal): (S, L), _first: u64) -> u64 {
    let mut sum = 0;
    loop {
        sum = mix(sum, weigh_comparison(s.compare(literal)));
        if s.next_token().is_none() {
            return sum;
        }
    }
}

fn weigh_comparison(comparison: CompareResult) -> u64 {
    match comparison {
        CompareResult::Ok(width) => width as u64,
        CompareResult::Incomplete => 1,
        CompareResult::Error => 2,
    }
}

#[inline(never)]
fn take_sets<S: Stream<Slice: Weigh>, C: ContainsToken<S::Token>>(mut s: S, ends: C) -> u64 {
    let mut sum = 0;
    while let Some(offset) = s.offset_for(|token| ends.contains_token(token)) {
        sum = mix(sum, s.next_slice(offset).weigh());
        let Some(_end) = s.next_token() else {
            break;
        };
    }
    sum
}

#[inline(never)]
fn find_set<S: Stream, C: ContainsToken<S::Token>>(s: S, wanted: C) -> u64 {
    s.offset_for(|token| wanted.contains_token(token)).unwrap_or(usize::MAX) as u64
}

/// Takes the slices that a character ends which stands here and there.
pub fn take_near<S: Stream<Token: winnow::stream::AsChar + Clone, Slice: Weigh>>(s: S, _number: u64) -> u64 {
    take_sets(s, ('\n'..='\n', '0'..='9', 'α'..='ω'))
}

/// Seeks characters that stand in no input.
pub fn find_far<S: Stream<Token: winnow::stream::AsChar + Clone>>(s: S, _number: u64) -> u64 {
    find_set(s, ('\0'..='\0', '\u{e000}'..='\u{f8ff}', '\u{100000}'..='\u{10ffff}'))
}

/// What every form of a comparison and of a search answers of bytes, as our library tells it.
pub fn tell_byte_searches(s: &[u8], [a, b, c]: [&[u8]; 3]) -> Vec<u64> {
    let mut told = Vec::new();
    tell_comparison(&mut told, &s, a);
    tell_hit(&mut told, &s, a);
    tell_hit(&mut told, &s, (a,));
    tell_hit(&mut told, &s, (a, b));
    tell_hit(&mut told, &s, (a, b, c));
    // The needles as data, which the crate does not have.
    tell_hit(&mut told, &s, (a,));
    tell_hit(&mut told, &s, (a, b));
    tell_hit(&mut told, &s, (a, b, c));
    tell_arrays(&mut told, s, a);
    if let (Some(a), Some(b), Some(c)) = (a.first(), b.first(), c.first()) {
        tell_comparison(&mut told, &s, *a);
        tell_hits(&mut told, &s, *a, *b, *c);
    }
    if let (Ok(a), Ok(b), Ok(c)) = (from_utf8(a), from_utf8(b), from_utf8(c)) {
        tell_comparison(&mut told, &s, a);
        tell_hits(&mut told, &s, a, b, c);
        if let (Some(a), Some(b), Some(c)) = (a.chars().next(), b.chars().next(), c.chars().next()) {
            tell_comparison(&mut told, &s, a);
            tell_hits(&mut told, &s, a, b, c);
        }
    }
    told
}

/// What every form of a comparison and of a search answers of a text, as our library tells it.
pub fn tell_text_searches(s: &str, [a, b, c]: [&[u8]; 3]) -> Vec<u64> {
    let mut told = Vec::new();
    if let (Ok(a), Ok(b), Ok(c)) = (from_utf8(a), from_utf8(b), from_utf8(c)) {
        tell_comparison(&mut told, &s, a);
        tell_hits(&mut told, &s, a, b, c);
        tell_hit(&mut told, &s, (a,));
        tell_hit(&mut told, &s, (a, b));
        tell_hit(&mut told, &s, (a, b, c));
        if let (Some(a), Some(b), Some(c)) = (a.chars().next(), b.chars().next(), c.chars().next()) {
            tell_comparison(&mut told, &s, a);
            tell_hits(&mut told, &s, a, b, c);
        }
    }
    told
}

fn tell_arrays(told: &mut Vec<u64>, s: &[u8], literal: &[u8]) {
    match *literal {
        [] => tell_array(told, s, []),
        [a] => tell_array(told, s, [a]),
        [a, b] => tell_array(told, s, [a, b]),
        [a, b, c, ..] => tell_array(told, s, [a, b, c]),
    }
}

fn tell_array<const LEN: usize>(told: &mut Vec<u64>, s: &[u8], literal: [u8; LEN]) {
    tell_comparison(told, &s, literal);
    tell_comparison(told, &s, &literal);
}

fn tell_hits<S, N: Copy>(told: &mut Vec<u64>, s: &S, a: N, b: N, c: N)
where
    S: FindSlice<N> + FindSlice<(N,)> + FindSlice<(N, N)> + FindSlice<(N, N, N)>,
{
    tell_hit(told, s, a);
    tell_hit(told, s, (a,));
    tell_hit(told, s, (a, b));
    tell_hit(told, s, (a, b, c));
}

fn tell_comparison<S: Compare<L>, L>(told: &mut Vec<u64>, s: &S, literal: L) {
    told.extend(match s.compare(literal) {
        CompareResult::Ok(width) => [0, width as u64, 0],
        CompareResult::Incomplete => [1, 0, 0],
        CompareResult::Error => [2, 0, 0],
    });
}

fn tell_hit<S: FindSlice<N>, N>(told: &mut Vec<u64>, s: &S, needle: N) {
    told.extend(match s.find_slice(needle) {
        Some(hit) => [3, hit.start as u64, hit.end as u64],
        None => [4, 0, 0],
    });
}
