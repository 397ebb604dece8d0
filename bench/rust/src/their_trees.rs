//! The Rust crate's trees of errors, word for word as in `crates/winnow_bench_values`.

use crate::script::RawStep;
use crate::their_errors::Cause;
use crate::theirs::{IsOffset, Weigh, mix, tell_bytes};
use std::fmt::Display;
use winnow::error::{AddContext, FromExternalError, ParserError, StrContext, TreeError, TreeErrorFrame};
use winnow::stream::{BStr, Stream};

type Tree<I> = TreeError<I, StrContext>;

// Causes and labels.
const WORDS: [&str; 4] = ["number", "", "two\nlines, the second long", "é€😀"];

fn word(number: u64) -> &'static str {
    WORDS[(number % WORDS.len() as u64) as usize]
}

/// The text of each tree that steps over bytes leave, and of its parts by themselves.
pub fn trees_bytes(input: &[u8], steps: &[RawStep]) -> Vec<u64> {
    tell_trees(BStr::new(input), steps)
}

/// The text of each tree that steps over a text leave, and of its parts by themselves.
pub fn trees_text(input: &str, steps: &[RawStep]) -> Vec<u64> {
    tell_trees(input, steps)
}

fn tell_trees<I: Stream + IsOffset + Copy + Display>(input: I, steps: &[RawStep]) -> Vec<u64> {
    let mut told = Vec::new();
    let mut stack = Vec::new();
    for step in steps {
        apply(&mut stack, input, step);
    }
    for tree in &stack {
        tell_bytes(&mut told, tree.to_string().as_bytes());
        tell_parts(&mut told, tree);
    }
    told
}

// The texts of a base and of frames, not of what lies deeper.
fn tell_parts<I: Display>(told: &mut Vec<u64>, tree: &Tree<I>) {
    match tree {
        TreeError::Base(base) => tell_bytes(told, base.to_string().as_bytes()),
        TreeError::Stack { base: _, stack } => stack.iter().for_each(|frame| match frame {
            TreeErrorFrame::Kind(base) => tell_bytes(told, base.to_string().as_bytes()),
            TreeErrorFrame::Context(about) => tell_bytes(told, about.to_string().as_bytes()),
        }),
        TreeError::Alt(_) => {}
    }
}

fn apply<I: Stream + IsOffset + Copy>(stack: &mut Vec<Tree<I>>, input: I, step: &RawStep) {
    let (kind, width, number) = step.numbers();
    let rest = behind(input, width as usize);
    if kind < 2 {
        stack.push(if kind == 0 {
            <Tree<I> as ParserError<I>>::from_input(&rest)
        } else {
            <Tree<I> as FromExternalError<I, Cause>>::from_external_error(&rest, Cause(word(number).to_owned()))
        });
        return;
    }
    let Some(last) = stack.pop() else {
        return;
    };
    let start = rest.checkpoint();
    let error = match kind {
        2 => <Tree<I> as ParserError<I>>::append(last, &input, &start),
        3 => last.add_context(&input, &start, StrContext::Label(word(number))),
        _ => match stack.pop() {
            Some(first) => <Tree<I> as ParserError<I>>::or(first, last),
            None => last,
        },
    };
    stack.push(error);
}

/// What remains behind the front of that width, or all of it where no front has it.
pub fn behind<I: Stream + IsOffset + Copy>(input: I, width: usize) -> I {
    let mut rest = input;
    if rest.is_offset(width) {
        let _front = rest.next_slice(width);
    }
    rest
}

#[inline(never)]
pub fn join_trees(input: &[u8], _number: u64) -> u64 {
    weigh_tree(&join_all(input))
}

#[inline(never)]
pub fn push_frames(input: &[u8], _number: u64) -> u64 {
    weigh_tree(&push_all(input))
}

#[inline(never)]
pub fn print_tree(input: &str, _number: u64) -> u64 {
    join_all(input).to_string().as_str().weigh()
}

// Joins an error at each token by `or`, from the left.
fn join_all<I: Stream + Copy>(input: I) -> Tree<I> {
    let mut rest = input;
    let mut all = <Tree<I> as ParserError<I>>::from_input(&rest);
    while rest.next_token().is_some() {
        let next = <Tree<I> as ParserError<I>>::from_input(&rest);
        all = <Tree<I> as ParserError<I>>::or(all, next);
    }
    all
}

// Tells an error at each token that a parser failed because of it, and what was being read.
fn push_all<I: Stream + Copy>(input: I) -> Tree<I> {
    let mut rest = input;
    let mut all = <Tree<I> as ParserError<I>>::from_input(&rest);
    while rest.next_token().is_some() {
        let start = rest.checkpoint();
        all = <Tree<I> as ParserError<I>>::append(all, &input, &start);
        all = all.add_context(&input, &start, StrContext::Label("line"));
    }
    all
}

// Each entry and each frame with its input.
fn weigh_tree<I: Weigh>(tree: &Tree<I>) -> u64 {
    match tree {
        TreeError::Base(base) => base.input.weigh(),
        TreeError::Stack { base: _, stack } => stack.iter().fold(0, |sum, frame| mix(sum, weigh_frame(frame))),
        TreeError::Alt(entries) => entries.iter().fold(0, |sum, entry| mix(sum, weigh_entry(entry))),
    }
}

fn weigh_entry<I: Weigh>(entry: &Tree<I>) -> u64 {
    match entry {
        TreeError::Base(base) => base.input.weigh(),
        TreeError::Stack { .. } => 1,
        TreeError::Alt(_) => 2,
    }
}

fn weigh_frame<I: Weigh>(frame: &TreeErrorFrame<I, StrContext>) -> u64 {
    match frame {
        TreeErrorFrame::Kind(base) => base.input.weigh(),
        TreeErrorFrame::Context(about) => mix(3, about.input.weigh()),
    }
}
