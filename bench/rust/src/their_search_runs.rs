//! Scripts that also compare and search, over the Rust crate: by hand, for it has no such call.

use crate::script::{RawStep, SearchAnswer, SearchStep, ToldSearch};
use crate::theirs::{IsOffset, Number, Weigh, answer, mix, tell_answer, weigh_answer};
use winnow::stream::{Compare, CompareResult, FindSlice, Stream};

/// A stream that compares with a literal and finds up to three of them.
pub trait Searched<L>: Stream + Clone + IsOffset + Compare<L> + FindSlice<L> + FindSlice<(L, L)> + FindSlice<(L, L, L)> {}

impl<'n, S> Searched<&'n [u8]> for S where
    S: Stream
        + Clone
        + IsOffset
        + Compare<&'n [u8]>
        + FindSlice<&'n [u8]>
        + FindSlice<(&'n [u8], &'n [u8])>
        + FindSlice<(&'n [u8], &'n [u8], &'n [u8])>
{
}

impl<'n, S> Searched<&'n str> for S where
    S: Stream + Clone + IsOffset + Compare<&'n str> + FindSlice<&'n str> + FindSlice<(&'n str, &'n str)> + FindSlice<(&'n str, &'n str, &'n str)>
{
}

fn run<S: Searched<L> + Stream<Token: Number>, L: Copy>(s: &mut S, script: &[SearchStep<L>]) -> Vec<SearchAnswer<S::Token, S::Slice>> {
    let mut marks = Vec::new();
    let mut answers = Vec::with_capacity(script.len());
    for step in script {
        answers.push(match step {
            SearchStep::Call(call) => SearchAnswer::Call(answer(s, &mut marks, call)),
            SearchStep::Compare(literal) => SearchAnswer::Compared(s.compare(*literal)),
            SearchStep::One(a) => SearchAnswer::Hit(s.find_slice(*a)),
            SearchStep::Two(a, b) => SearchAnswer::Hit(s.find_slice((*a, *b))),
            SearchStep::Three(a, b, c) => SearchAnswer::Hit(s.find_slice((*a, *b, *c))),
        });
    }
    answers
}

/// Runs a script so many times from one place, and sums up its answers.
#[inline(never)]
pub fn run_rounds((mut s, literals, script): (&[u8], &[u8], &[RawStep]), rounds: u64) -> u64 {
    let mut steps = Vec::with_capacity(script.len());
    steps.extend(script.iter().filter_map(|raw| raw.search_step(literals)));
    let mut sum = 0;
    for _ in 0..rounds {
        let start = s.checkpoint();
        let answers = run(&mut s, &steps);
        s.reset(&start);
        sum = mix(sum, weigh_all(&answers));
    }
    sum
}

fn weigh_all<T: Number, S: Weigh>(answers: &[SearchAnswer<T, S>]) -> u64 {
    answers.iter().fold(0, |sum, answer| mix(sum, weigh_search(answer)))
}

fn weigh_search<T: Number, S: Weigh>(answer: &SearchAnswer<T, S>) -> u64 {
    match answer {
        SearchAnswer::Call(answer) => weigh_answer(answer),
        SearchAnswer::Compared(CompareResult::Ok(width)) => *width as u64,
        SearchAnswer::Compared(CompareResult::Incomplete) => 9,
        SearchAnswer::Compared(CompareResult::Error) => 10,
        SearchAnswer::Hit(Some(hit)) => mix(hit.start as u64, hit.end as u64),
        SearchAnswer::Hit(None) => 11,
    }
}

/// The answers of a script, with tokens as numbers and slices copied.
pub fn tell_run<S: Searched<L> + Stream<Token: Number, Slice: Weigh>, L: Copy>(mut s: S, script: &[SearchStep<L>]) -> Vec<ToldSearch> {
    let tell = |answer| match answer {
        SearchAnswer::Call(answer) => SearchAnswer::Call(tell_answer(answer)),
        SearchAnswer::Compared(comparison) => SearchAnswer::Compared(comparison),
        SearchAnswer::Hit(hit) => SearchAnswer::Hit(hit),
    };
    run(&mut s, script).into_iter().map(tell).collect()
}
