//! The errors of the Rust crate, word for word as in `crates/winnow_bench` and `crates/winnow_bench_values`.

use crate::theirs::{Number, Weigh, mix};
use std::error::Error;
use std::fmt;
use winnow::error::{ContextError, EmptyError, ErrMode, FromExternalError, InputError, Needed, ParserError, StrContext, StrContextValue};
use winnow::stream::Stream;

trait WeighError {
    fn weigh(&self) -> u64;
}

impl WeighError for EmptyError {
    fn weigh(&self) -> u64 {
        1
    }
}

impl WeighError for InputError<&[u8]> {
    fn weigh(&self) -> u64 {
        self.input.weigh()
    }
}

#[inline(never)]
pub fn join_empty(mut input: &[u8], _number: u64) -> u64 {
    weigh_mode(&join_all::<&[u8], EmptyError>(&mut input))
}

#[inline(never)]
pub fn join_input<'i>(mut input: &'i [u8], _number: u64) -> u64 {
    weigh_mode(&join_all::<&'i [u8], InputError<&'i [u8]>>(&mut input))
}

// Joins an error at each token by `or`, from the left. The token says in which mode it comes.
fn join_all<S: Stream<Token: Number>, E: ParserError<S>>(s: &mut S) -> ErrMode<E> {
    let mut all = ErrMode::Backtrack(E::from_input(s));
    while let Some(token) = s.next_token() {
        let next = mode_of_token(token.number(), E::from_input(s));
        all = <ErrMode<E> as ParserError<S>>::or(all, next);
    }
    all
}

fn mode_of_token<E>(number: u64, error: E) -> ErrMode<E> {
    match number {
        0 => ErrMode::Incomplete(Needed::Unknown),
        1..=250 => ErrMode::Backtrack(error),
        _ => ErrMode::Cut(error),
    }
}

fn weigh_mode<E: WeighError>(mode: &ErrMode<E>) -> u64 {
    match mode {
        ErrMode::Incomplete(_) => 2,
        ErrMode::Backtrack(error) => mix(3, error.weigh()),
        ErrMode::Cut(error) => mix(4, error.weigh()),
    }
}

#[inline(never)]
pub fn push_contexts(input: &[u8], _number: u64) -> u64 {
    let mut error = ContextError::new();
    for byte in input {
        let value = StrContextValue::CharLiteral(char::from(*byte));
        error.push(StrContext::Expected(value));
    }
    let mut sum = 0;
    for context in error.context() {
        sum = mix(sum, weigh_context(context));
    }
    sum
}

fn weigh_context(context: &StrContext) -> u64 {
    match context {
        StrContext::Expected(StrContextValue::CharLiteral(c)) => c.number(),
        StrContext::Expected(_) => 1,
        _ => 2,
    }
}

/// Labels, literals and descriptions.
const TEXTS: [&str; 5] = ["number", "", "a `b`", "\n", "é€😀"];

/// How many contexts are no characters.
pub const NAMED: u64 = 15;

fn mode_of<E>(kind: u64, needed: usize, error: E) -> ErrMode<E> {
    match kind {
        0 => ErrMode::Incomplete(Needed::new(needed)),
        1 => ErrMode::Backtrack(error),
        _ => ErrMode::Cut(error),
    }
}

/// A mode with an empty error, and with a number.
pub fn mode_text(kind: u64, number: u64) -> String {
    format!("{}, {}, {}", mode_of(kind, number as usize, EmptyError), mode_of(kind, number as usize, number), EmptyError)
}

/// Which of two modes `or` keeps.
pub fn or_text(first: u64, second: u64) -> String {
    let first = mode_of(first, 1, InputError::at("first"));
    let second = mode_of(second, 2, InputError::at("second"));
    <ErrMode<InputError<&str>> as ParserError<&str>>::or(first, second).to_string()
}

/// An error at an input.
pub fn input_text(input: &str) -> String {
    InputError::at(input).to_string()
}

/// A context and its value, by their number.
pub fn context_text(number: u64) -> String {
    match context_of(number) {
        Some(StrContext::Expected(value)) => format!("{}, {value}", StrContext::Expected(value.clone())),
        Some(context) => context.to_string(),
        None => "nothing".to_owned(),
    }
}

// Of five texts each, labels, literals and descriptions; then characters.
fn context_of(number: u64) -> Option<StrContext> {
    let text = TEXTS[(number % 5) as usize];
    Some(match number / 5 {
        0 => StrContext::Label(text),
        1 => StrContext::Expected(StrContextValue::StringLiteral(text)),
        2 => StrContext::Expected(StrContextValue::Description(text)),
        _ => StrContext::Expected(StrContextValue::CharLiteral(char::from_u32(u32::try_from(number - NAMED).ok()?)?)),
    })
}

/// An error with contexts, and with a cause where one is given.
pub fn explanation_text(contexts: &[u64], cause: Option<&str>) -> String {
    let mut error: ContextError<StrContext> = match cause {
        Some(cause) => FromExternalError::from_external_error(&"", Cause(cause.to_owned())),
        None => ContextError::new(),
    };
    for context in contexts.iter().filter_map(|number| context_of(*number)) {
        error.push(context);
    }
    error.to_string()
}

/// Another's error, of which our library holds the text.
#[derive(Debug)]
pub struct Cause(pub String);

impl fmt::Display for Cause {
    fn fmt(&self, f: &mut fmt::Formatter<'_>) -> fmt::Result {
        f.write_str(&self.0)
    }
}

impl Error for Cause {}
