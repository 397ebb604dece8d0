//! Scripts over pieces by the Rust crate: by hand, as its users write it over `Partial`. What came is kept in a buffer, and a step that
//! lacks input is tried again from the cursor when the next piece is there.

use crate::script::{Answer, Cut, PlacedAnswer, RawStep, SearchAnswer, SearchStep, Step};
use crate::their_search_runs::Searched;
use crate::theirs::{IsOffset, Number, mix};
use std::mem::replace;
use std::ops::Range;
use winnow::stream::{CompareResult, Partial, Stream, StreamIsPartial};

impl<I: StreamIsPartial + IsOffset> IsOffset for Partial<I> {
    fn is_offset(&self, offset: usize) -> bool {
        (**self).is_offset(offset)
    }
}

/// A kind of input: how a stream is had from the bytes that are kept.
pub trait Kind<'k>: Cut + AsRef<[u8]> + Stream<Token: Number> {
    type Kept<'a>: Stream<Token = Self::Token> + StreamIsPartial + Searched<Self>
    where
        'k: 'a;

    /// The stream of bytes that came as pieces of this kind.
    fn over<'a>(kept: &'a [u8]) -> Self::Kept<'a>
    where
        'k: 'a;
}

impl<'k> Kind<'k> for &'k [u8] {
    type Kept<'a>
        = Partial<&'a [u8]>
    where
        'k: 'a;

    fn over<'a>(kept: &'a [u8]) -> Partial<&'a [u8]>
    where
        'k: 'a,
    {
        Partial::new(kept)
    }
}

impl<'k> Kind<'k> for &'k str {
    type Kept<'a>
        = Partial<&'a str>
    where
        'k: 'a;

    fn over<'a>(kept: &'a [u8]) -> Partial<&'a str>
    where
        'k: 'a,
    {
        // Whole characters alone are pushed and let go, so it is a text at no cost, as a `String` would be.
        Partial::new(unsafe { std::str::from_utf8_unchecked(kept) })
    }
}

/// How far a script has come.
pub struct Fed<'s, 'k, L: Kind<'k>> {
    script: &'s [SearchStep<L>],
    pub answers: Vec<PlacedAnswer<<L as Stream>::Token>>,
    marks: Vec<usize>,
    /// The first of them
    first_mark: usize,
    place: usize,
    /// Where what is kept begins
    base: usize,
    kept: Vec<u8>,
    marker: std::marker::PhantomData<&'k ()>,
}

impl<'s, 'k, L: Kind<'k>> Fed<'s, 'k, L> {
    pub fn new(script: &'s [SearchStep<L>]) -> Self {
        let answers = Vec::with_capacity(script.len());
        Fed { script, answers, marks: Vec::new(), first_mark: usize::MAX, place: 0, base: 0, kept: Vec::new(), marker: std::marker::PhantomData }
    }

    /// Takes a piece, and answers what it can. What stands before the cursor and before every mark is let go.
    pub fn feed(&mut self, piece: &[u8]) {
        if self.is_done() {
            self.base += piece.len();
            return;
        }
        self.kept.extend_from_slice(piece);
        self.answer(false);
        let least = self.first_mark.min(self.place);
        self.kept.drain(..least - self.base);
        self.base = least;
    }

    /// Answers the rest, and hands out all answers and the final place.
    pub fn end(mut self) -> (Vec<PlacedAnswer<<L as Stream>::Token>>, usize) {
        self.answer(true);
        (self.answers, self.place)
    }

    fn answer(&mut self, ends: bool) {
        while let Some(step) = self.script.get(self.answers.len()) {
            let input = &self.kept[self.place - self.base..];
            let mut s = L::over(input);
            if ends {
                let _more = s.complete();
            }
            let width = s.eof_offset();
            let Some(answer) = settle(&mut s, input, self.place, &self.marks, step) else {
                return;
            };
            self.place += width - s.eof_offset();
            match (&answer, step) {
                (SearchAnswer::Call(Answer::Marked(_)), _) => {
                    self.marks.push(self.place);
                    self.first_mark = self.first_mark.min(self.place);
                }
                (SearchAnswer::Call(Answer::Done), SearchStep::Call(Step::Reset(mark))) => self.place = self.marks[*mark],
                _ => {}
            }
            self.answers.push(answer);
        }
    }

    // The least of the cursor's place and of the marks that the steps left name, and the end where none is left.
    fn reachable(&self) -> usize {
        let left = &self.script[self.answers.len()..];
        let named = |step: &SearchStep<L>| match step {
            SearchStep::Call(Step::Reset(mark) | Step::Since(mark)) => self.marks.get(*mark).copied(),
            _ => None,
        };
        if left.is_empty() { self.fed() } else { left.iter().filter_map(named).fold(self.place, usize::min) }
    }

    fn is_done(&self) -> bool {
        self.answers.len() == self.script.len()
    }

    fn fed(&self) -> usize {
        self.base + self.kept.len()
    }
}

// The answer of a step on what remains, or `None` where more input could change it.
fn settle<L: Copy + AsRef<[u8]>, S>(s: &mut S, input: &[u8], place: usize, marks: &[usize], step: &SearchStep<L>) -> Option<PlacedAnswer<S::Token>>
where
    S: Searched<L> + Stream<Token: Number> + StreamIsPartial,
{
    let may_change = s.is_partial();
    let hit = |found: Option<Range<usize>>, needles: &[L]| match &found {
        Some(hit) if may_change && may_move(input, needles, hit.start) => None,
        None if may_change => None,
        _ => Some(SearchAnswer::Hit(found)),
    };
    match step {
        SearchStep::Call(call) => settle_call(s, place, marks, call).map(SearchAnswer::Call),
        SearchStep::Compare(literal) => match s.compare(*literal) {
            CompareResult::Incomplete if may_change => None,
            comparison => Some(SearchAnswer::Compared(comparison)),
        },
        SearchStep::One(a) => hit(s.find_slice(*a), &[*a]),
        SearchStep::Two(a, b) => hit(s.find_slice((*a, *b)), &[*a, *b]),
        SearchStep::Three(a, b, c) => hit(s.find_slice((*a, *b, *c)), &[*a, *b, *c]),
    }
}

// Whether a needle that the input ends inside begins before the hit, or at it and is listed before the one that stands there.
fn may_move<L: AsRef<[u8]>>(input: &[u8], needles: &[L], hit: usize) -> bool {
    let needles = || needles.iter().map(L::as_ref);
    let longest = needles().map(<[u8]>::len).max().unwrap_or(0);
    if needles().all(|needle| needle.len() == longest) || needles().any(<[u8]>::is_empty) {
        return false;
    }
    let ends_inside = |at: usize| move |needle: &[u8]| input.len() - at < needle.len() && needle.starts_with(&input[at..]);
    (input.len().saturating_sub(longest)..hit).any(|at| needles().any(ends_inside(at)))
        || needles().take_while(|needle| !input[hit..].starts_with(needle)).any(ends_inside(hit))
}

fn settle_call<S>(s: &mut S, place: usize, marks: &[usize], call: &Step) -> Option<Answer<S::Token, Range<usize>>>
where
    S: Stream<Token: Number> + StreamIsPartial + IsOffset,
{
    let may_change = s.is_partial();
    let left = s.eof_offset();
    let range = |width: usize| place..place + width;
    Some(match *call {
        Step::Next | Step::Peek if left == 0 && may_change => return None,
        Step::Take(width) | Step::Look(width) | Step::IsOffset(width) if left < width && may_change => return None,
        Step::Finish | Step::PeekFinish | Step::Eof | Step::Each if may_change => return None,
        Step::Next => Answer::Token(s.next_token()),
        Step::Peek => Answer::Token(s.peek_token()),
        Step::Take(width) | Step::Look(width) if !s.is_offset(width) => Answer::BadOffset,
        Step::Take(width) => {
            s.next_slice(width);
            Answer::Slice(range(width))
        }
        Step::Look(width) => Answer::Slice(range(width)),
        Step::Finish => {
            s.finish();
            Answer::Slice(range(left))
        }
        Step::PeekFinish | Step::Each => Answer::Slice(range(left)),
        Step::Eof => Answer::Offset(left),
        Step::At(tokens) => match s.offset_at(tokens) {
            Err(_) if may_change => return None,
            answer => Answer::At(answer),
        },
        Step::IsOffset(width) => Answer::Flag(s.is_offset(width)),
        Step::First(first, last) => match s.offset_for(|token| (first..=last).contains(&token.number())) {
            None if may_change => return None,
            answer => Answer::First(answer),
        },
        Step::Mark => Answer::Marked(marks.len()),
        Step::Reset(mark) if mark < marks.len() => Answer::Done,
        Step::Since(mark) if mark < marks.len() && marks[mark] > place => Answer::LaterMark,
        Step::Since(mark) if mark < marks.len() => Answer::Offset(place - marks[mark]),
        Step::Reset(_) | Step::Since(_) => Answer::NoMark,
    })
}

fn weigh_answers<T: Number>(answers: &[PlacedAnswer<T>]) -> u64 {
    answers.iter().fold(0, |sum, answer| mix(sum, weigh_answer(answer)))
}

fn weigh_answer<T: Number>(answer: &PlacedAnswer<T>) -> u64 {
    match answer {
        SearchAnswer::Call(Answer::Token(Some(token))) => token.number(),
        SearchAnswer::Call(Answer::Token(None)) => 1,
        SearchAnswer::Call(Answer::Slice(range)) => mix(range.start as u64, range.end as u64),
        SearchAnswer::Call(Answer::Offset(offset) | Answer::At(Ok(offset)) | Answer::First(Some(offset))) => *offset as u64,
        SearchAnswer::Call(Answer::At(Err(_))) => 2,
        SearchAnswer::Call(Answer::First(None)) => 3,
        SearchAnswer::Call(Answer::Flag(flag)) => u64::from(*flag),
        SearchAnswer::Call(Answer::Items(_)) => 4,
        SearchAnswer::Call(Answer::Marked(number)) => *number as u64,
        SearchAnswer::Call(Answer::Done) => 5,
        SearchAnswer::Call(Answer::BadOffset) => 6,
        SearchAnswer::Call(Answer::NoMark) => 7,
        SearchAnswer::Call(Answer::LaterMark) => 8,
        SearchAnswer::Compared(CompareResult::Ok(width)) => *width as u64,
        SearchAnswer::Compared(CompareResult::Incomplete) => 9,
        SearchAnswer::Compared(CompareResult::Error) => 10,
        SearchAnswer::Hit(Some(hit)) => mix(hit.start as u64, hit.end as u64),
        SearchAnswer::Hit(None) => 11,
    }
}

fn steps_in<L: Cut>(script: &[RawStep], all: L) -> Vec<SearchStep<L>> {
    let mut steps = Vec::with_capacity(script.len());
    steps.extend(script.iter().filter_map(|raw| raw.search_step(all)));
    steps
}

/// A script over bytes in pieces of that length.
#[inline(never)]
pub fn feed_bytes((input, literals, script): (&[u8], &[u8], &[RawStep]), piece: u64) -> u64 {
    let steps = steps_in(script, literals);
    let mut fed = Fed::new(&steps);
    for piece in input.chunks(piece as usize) {
        fed.feed(piece);
    }
    weigh_answers(&fed.end().0)
}

/// A script over a text in pieces that end at the cuts.
#[inline(never)]
pub fn feed_text((input, literals, script, cuts): (&str, &str, &[RawStep], &[u64]), _number: u64) -> u64 {
    let steps = steps_in(script, literals);
    let mut fed = Fed::new(&steps);
    let mut start = 0;
    for cut in cuts {
        if let Some(piece) = input.get(start..*cut as usize) {
            fed.feed(piece.as_bytes());
            start = *cut as usize;
        }
    }
    weigh_answers(&fed.end().0)
}

/// A script after the other over so many pieces of that length, parts of what is made.
#[inline(never)]
pub fn feed_lines((made, literals, script, length): (&[u8], &[u8], &[RawStep], u64), pieces: u64) -> u64 {
    let steps = steps_in(script, literals);
    let length = length as usize;
    let period = made.len() - length;
    let mut fed = Fed::new(&steps);
    let mut sum = 0;
    for number in 0..pieces as usize {
        let start = number * length % period;
        sum = mix(sum, feed_on(&mut fed, &steps, &made[start..start + length]));
    }
    mix(sum, weigh_answers(&fed.end().0))
}

// Feeds a piece, and what a script leaves of it to the next one: the sum of the answers of those that end.
fn feed_on<'s, 'k>(fed: &mut Fed<'s, 'k, &'k [u8]>, steps: &'s [SearchStep<&'k [u8]>], piece: &[u8]) -> u64 {
    let mut rest = piece;
    let mut sum = 0;
    for _ in 0..piece.len() {
        fed.feed(rest);
        if !fed.is_done() {
            break;
        }
        let width = fed.fed();
        let (answers, place) = replace(fed, Fed::new(steps)).end();
        sum = mix(sum, weigh_answers(&answers));
        rest = &rest[rest.len() - (width - place)..];
    }
    sum
}

/// What a script over pieces tells.
pub struct Out<T> {
    /// After each piece, how many answers are out, and how many bytes a later step can still reach
    pub after: Vec<(usize, usize)>,
    pub answers: Vec<PlacedAnswer<T>>,
    pub place: usize,
}

/// A script over pieces that end at the cuts.
pub fn out_after<'k, L: Kind<'k>>(input: L, script: &[SearchStep<L>], cuts: &[u64]) -> Out<L::Token> {
    let mut fed = Fed::new(script);
    let mut start = 0;
    let mut after = Vec::new();
    for cut in cuts {
        fed.feed(&input.as_ref()[start..*cut as usize]);
        start = *cut as usize;
        after.push((fed.answers.len(), fed.fed() - fed.reachable()));
    }
    let (answers, place) = fed.end();
    Out { after, answers, place }
}
