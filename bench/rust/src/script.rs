//! Scripts of calls and their answers, as both sides know them.

use std::ops::Range;
use winnow::stream::{CompareResult, Needed};

/// A call. Offsets, counts and marks are numbers, and `First` names the tokens whose numbers lie between two.
#[derive(Clone, Copy, Debug)]
pub enum Step {
    Next,
    Peek,
    Take(usize),
    Look(usize),
    Finish,
    PeekFinish,
    Eof,
    At(usize),
    IsOffset(usize),
    First(u64, u64),
    Each,
    Mark,
    Reset(usize),
    Since(usize),
}

/// A step as it crosses the border: its number in the order of `Step`, and its numbers.
#[derive(Clone, Copy, Debug)]
#[repr(C)]
pub struct RawStep {
    kind: u64,
    first: u64,
    second: u64,
}

impl From<Step> for RawStep {
    fn from(step: Step) -> RawStep {
        let (kind, first, second) = match step {
            Step::Next => (0, 0, 0),
            Step::Peek => (1, 0, 0),
            Step::Take(offset) => (2, offset as u64, 0),
            Step::Look(offset) => (3, offset as u64, 0),
            Step::Finish => (4, 0, 0),
            Step::PeekFinish => (5, 0, 0),
            Step::Eof => (6, 0, 0),
            Step::At(tokens) => (7, tokens as u64, 0),
            Step::IsOffset(offset) => (8, offset as u64, 0),
            Step::First(first, last) => (9, first, last),
            Step::Each => (10, 0, 0),
            Step::Mark => (11, 0, 0),
            Step::Reset(mark) => (12, mark as u64, 0),
            Step::Since(mark) => (13, mark as u64, 0),
        };
        RawStep { kind, first, second }
    }
}

impl RawStep {
    /// Its number, and its numbers.
    pub fn numbers(&self) -> (u64, u64, u64) {
        (self.kind, self.first, self.second)
    }

    /// The step, or `None` where the number is of none.
    pub fn step(&self) -> Option<Step> {
        let number = self.first as usize;
        Some(match self.kind {
            0 => Step::Next,
            1 => Step::Peek,
            2 => Step::Take(number),
            3 => Step::Look(number),
            4 => Step::Finish,
            5 => Step::PeekFinish,
            6 => Step::Eof,
            7 => Step::At(number),
            8 => Step::IsOffset(number),
            9 => Step::First(self.first, self.second),
            10 => Step::Each,
            11 => Step::Mark,
            12 => Step::Reset(number),
            13 => Step::Since(number),
            _ => return None,
        })
    }
}

/// What a call answers: a token `T`, a slice `S`, or a number.
#[derive(Clone, Debug, PartialEq, Eq)]
pub enum Answer<T, S> {
    Token(Option<T>),
    Slice(S),
    Offset(usize),
    At(Result<usize, Needed>),
    Flag(bool),
    First(Option<usize>),
    Items(Vec<(usize, T)>),
    Marked(usize),
    Done,
    BadOffset,
    NoMark,
    LaterMark,
}

/// A step of a script that also compares and searches.
#[derive(Clone, Copy, Debug)]
pub enum SearchStep<L> {
    Call(Step),
    Compare(L),
    One(L),
    Two(L, L),
    Three(L, L, L),
}

/// A part of a literal, by its bounds.
pub trait Cut: Copy {
    fn cut(self, start: usize, end: usize) -> Option<Self>;
}

impl Cut for &[u8] {
    fn cut(self, start: usize, end: usize) -> Option<Self> {
        self.get(start..end)
    }
}

impl Cut for &str {
    fn cut(self, start: usize, end: usize) -> Option<Self> {
        self.get(start..end)
    }
}

/// The numbers of the steps that compare and that search, behind those of `Step`.
pub const COMPARE: u64 = 14;
pub const FIND: [u64; 3] = [15, 16, 17];
/// Those that search two and three needles of one length.
pub const FIND_AS_LONG: [u64; 2] = [18, 19];

impl RawStep {
    /// A step by its number and its numbers.
    pub fn new(kind: u64, first: u64, second: u64) -> RawStep {
        RawStep { kind, first, second }
    }

    /// A step that compares or searches: its number, and where its first literal begins and how long it is.
    pub fn search(kind: u64, start: usize, length: usize) -> RawStep {
        RawStep { kind, first: start as u64, second: length as u64 }
    }

    /// The step, or `None` where the number is of none. A further needle stands behind the one before it, and is one longer, or as long.
    pub fn search_step<L: Cut>(&self, all: L) -> Option<SearchStep<L>> {
        if let Some(step) = self.step() {
            return Some(SearchStep::Call(step));
        }
        let more = usize::from(!FIND_AS_LONG.contains(&self.kind));
        let (start, length) = (self.first as usize, self.second as usize);
        let first = all.cut(start, start + length);
        let (start, length) = (start + length, length + more);
        let second = all.cut(start, start + length);
        let (start, length) = (start + length, length + more);
        let third = all.cut(start, start + length);
        Some(match self.kind {
            COMPARE => SearchStep::Compare(first?),
            15 => SearchStep::One(first?),
            16 | 18 => SearchStep::Two(first?, second?),
            17 | 19 => SearchStep::Three(first?, second?, third?),
            _ => return None,
        })
    }
}

/// What a step answers, of a call or of a further step.
#[derive(Debug, PartialEq, Eq)]
pub enum SearchAnswer<T, S> {
    Call(Answer<T, S>),
    Compared(CompareResult),
    Hit(Option<Range<usize>>),
}

/// The same, with tokens as numbers and slices copied.
pub type ToldSearch = SearchAnswer<u64, Vec<u8>>;

/// Reads the rows of numbers in which our library hands out the answers of such a script; `None` where a row is none.
pub fn read_search_answers(told: &[u64]) -> Option<Vec<ToldSearch>> {
    let mut numbers = told.iter().copied();
    let mut answers = Vec::new();
    while let Some(kind) = numbers.next() {
        answers.push(match kind {
            12 => SearchAnswer::Compared(match (numbers.next()?, numbers.next()?) {
                (0, width) => CompareResult::Ok(width as usize),
                (1, _) => CompareResult::Incomplete,
                _ => CompareResult::Error,
            }),
            13 => SearchAnswer::Hit(match numbers.next()? {
                0 => None,
                _ => Some(numbers.next()? as usize..numbers.next()? as usize),
            }),
            _ => SearchAnswer::Call(read_answer(kind, &mut numbers)?),
        });
    }
    Some(answers)
}

/// An answer whose tokens are numbers and whose slices are copied.
pub type Told = Answer<u64, Vec<u8>>;

/// Reads the rows of numbers in which our library hands out answers; `None` where a row is none.
pub fn read_answers(told: &[u64]) -> Option<Vec<Told>> {
    let mut numbers = told.iter().copied();
    let mut answers = Vec::new();
    while let Some(kind) = numbers.next() {
        answers.push(read_answer(kind, &mut numbers)?);
    }
    Some(answers)
}

/// An answer whose slices and items are places.
pub type PlacedAnswer<T> = SearchAnswer<T, Range<usize>>;

fn read_answer(kind: u64, numbers: &mut impl Iterator<Item = u64>) -> Option<Told> {
    Some(match kind {
        0 => Answer::Token(read_option(numbers)?),
        1 => Answer::Slice(read_bytes(numbers)?),
        2 => Answer::Offset(numbers.next()? as usize),
        3 => Answer::At(match (numbers.next()?, numbers.next()?) {
            (0, missing) => Err(Needed::new(missing as usize)),
            (_, offset) => Ok(offset as usize),
        }),
        4 => Answer::Flag(numbers.next()? != 0),
        5 => Answer::First(read_option(numbers)?.map(|offset| offset as usize)),
        6 => {
            let count = numbers.next()?;
            Answer::Items((0..count).map(|_| Some((numbers.next()? as usize, numbers.next()?))).collect::<Option<_>>()?)
        }
        7 => Answer::Marked(numbers.next()? as usize),
        8 => Answer::Done,
        9 => Answer::BadOffset,
        10 => Answer::NoMark,
        11 => Answer::LaterMark,
        _ => return None,
    })
}

fn read_option(numbers: &mut impl Iterator<Item = u64>) -> Option<Option<u64>> {
    match numbers.next()? {
        0 => Some(None),
        _ => Some(Some(numbers.next()?)),
    }
}

fn read_bytes(numbers: &mut impl Iterator<Item = u64>) -> Option<Vec<u8>> {
    let length = numbers.next()?;
    (0..length).map(|_| Some(numbers.next()? as u8)).collect()
}
