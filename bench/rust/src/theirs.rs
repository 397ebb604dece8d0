//! The workloads over the Rust crate, word for word those of `crates/winnow_bench` and `crates/winnow_bench_agree`.

use crate::script::{Answer, RawStep, Step, Told};
use winnow::stream::{AsBStr, Compare, CompareResult, Needed, Offset, SliceLen, Stream, StreamIsPartial, TokenSlice, UpdateSlice};

/// A token as a number.
pub trait Number {
    fn number(&self) -> u64;
}

impl Number for u8 {
    fn number(&self) -> u64 {
        u64::from(*self)
    }
}

impl Number for &u8 {
    fn number(&self) -> u64 {
        u64::from(**self)
    }
}

impl Number for char {
    fn number(&self) -> u64 {
        u64::from(u32::from(*self))
    }
}

/// A slice as a number, of which it must be read; and its bytes.
pub trait Weigh {
    fn weigh(&self) -> u64;
    fn to_bytes(&self) -> Vec<u8>;
}

impl Weigh for &[u8] {
    fn weigh(&self) -> u64 {
        match self.first() {
            Some(first) => self.len() as u64 ^ u64::from(*first),
            None => 0,
        }
    }

    fn to_bytes(&self) -> Vec<u8> {
        self.to_vec()
    }
}

impl Weigh for &str {
    fn weigh(&self) -> u64 {
        self.as_bytes().weigh()
    }

    fn to_bytes(&self) -> Vec<u8> {
        self.as_bytes().to_vec()
    }
}

/// The test that the crate leaves to its callers: an offset is valid where a slice may end.
pub trait IsOffset {
    fn is_offset(&self, offset: usize) -> bool;
}

impl IsOffset for &[u8] {
    fn is_offset(&self, offset: usize) -> bool {
        offset <= self.len()
    }
}

impl IsOffset for &str {
    fn is_offset(&self, offset: usize) -> bool {
        self.is_char_boundary(offset)
    }
}

impl IsOffset for TokenSlice<'_, u8> {
    fn is_offset(&self, offset: usize) -> bool {
        offset <= self.len()
    }
}

pub(crate) fn mix(sum: u64, number: u64) -> u64 {
    number.wrapping_sub(sum)
}

#[inline(never)]
pub fn drain<S: Stream<Token: Number>>(mut s: S, stop: u64) -> u64 {
    let mut sum = 0;
    while let Some(token) = s.next_token() {
        let number = token.number();
        if number == stop {
            break;
        }
        sum = mix(sum, number);
    }
    sum
}

#[inline(never)]
pub fn peek_and_take<S: Stream<Token: Number>>(mut s: S, stop: u64) -> u64 {
    let mut sum = 0;
    while let Some(token) = s.peek_token() {
        let number = token.number();
        if number == stop {
            break;
        }
        sum = mix(sum, number);
        let _taken = s.next_token();
    }
    sum
}

#[inline(never)]
pub fn sum_offsets<S: Stream<Token: Number>>(s: S, stop: u64) -> u64 {
    let mut sum = 0;
    for (offset, token) in s.iter_offsets() {
        let number = token.number();
        if number == stop {
            break;
        }
        sum = mix(sum, offset as u64 ^ number);
    }
    sum
}

#[inline(never)]
pub fn look_ahead<S: Stream<Token: Number>>(mut s: S, stop: u64) -> u64 {
    let mut sum = 0;
    loop {
        let start = s.checkpoint();
        let _first = s.next_token();
        let _second = s.next_token();
        let taken = s.offset_from(&start);
        s.reset(&start);
        let Some(token) = s.next_token() else {
            return sum;
        };
        let number = token.number();
        if number == stop {
            return sum;
        }
        sum = mix(sum, taken as u64 ^ number);
    }
}

#[inline(never)]
pub fn take_all<S: Stream<Slice: Weigh>>(mut s: S, tokens: u64) -> u64 {
    if tokens == 0 {
        return 0;
    }
    let mut sum = 0;
    while let Ok(offset) = s.offset_at(tokens as usize) {
        sum = mix(sum, s.next_slice(offset).weigh());
    }
    sum
}

#[inline(never)]
pub fn take_parts<S: Stream<Token: Number, Slice: Weigh>>(mut s: S, end: u64) -> u64 {
    let mut sum = 0;
    while let Some(offset) = s.offset_for(|token| token.number() == end) {
        sum = mix(sum, s.next_slice(offset).weigh());
        let _end = s.next_token();
    }
    sum
}

#[inline(never)]
pub fn find_token<S: Stream<Token: Number>>(s: S, wanted: u64) -> u64 {
    s.offset_for(|token| token.number() == wanted).unwrap_or(usize::MAX) as u64
}

#[inline(never)]
pub fn offset_behind<S: Stream>(s: S, tokens: u64) -> u64 {
    s.offset_at(tokens as usize).unwrap_or(usize::MAX) as u64
}

/// The answers of a script, which is run by hand: the crate has no such call.
pub fn run<S>(s: &mut S, script: &[Step]) -> Vec<Answer<S::Token, S::Slice>>
where
    S: Stream<Token: Number> + Clone + IsOffset,
{
    let mut marks = Vec::new();
    let mut answers = Vec::with_capacity(script.len());
    for step in script {
        answers.push(answer(s, &mut marks, step));
    }
    answers
}

// A mark is a checkpoint, and the width that remained there.
pub(crate) fn answer<S>(s: &mut S, marks: &mut Vec<(S::Checkpoint, usize)>, step: &Step) -> Answer<S::Token, S::Slice>
where
    S: Stream<Token: Number> + Clone + IsOffset,
{
    match *step {
        Step::Next => Answer::Token(s.next_token()),
        Step::Peek => Answer::Token(s.peek_token()),
        Step::Take(offset) if s.is_offset(offset) => Answer::Slice(s.next_slice(offset)),
        Step::Look(offset) if s.is_offset(offset) => Answer::Slice(s.peek_slice(offset)),
        Step::Take(_) | Step::Look(_) => Answer::BadOffset,
        Step::Finish => Answer::Slice(s.finish()),
        Step::PeekFinish => Answer::Slice(s.peek_finish()),
        Step::Eof => Answer::Offset(s.eof_offset()),
        Step::At(tokens) => Answer::At(s.offset_at(tokens)),
        Step::IsOffset(offset) => Answer::Flag(s.is_offset(offset)),
        Step::First(first, last) => Answer::First(s.offset_for(|token| (first..=last).contains(&token.number()))),
        Step::Each => Answer::Items(s.iter_offsets().collect()),
        Step::Mark => {
            marks.push((s.checkpoint(), s.eof_offset()));
            Answer::Marked(marks.len() - 1)
        }
        Step::Reset(mark) => match marks.get(mark) {
            Some((checkpoint, _)) => {
                s.reset(checkpoint);
                Answer::Done
            }
            None => Answer::NoMark,
        },
        Step::Since(mark) => match marks.get(mark) {
            Some((_, width)) if *width < s.eof_offset() => Answer::LaterMark,
            Some((checkpoint, _)) => Answer::Offset(s.offset_from(checkpoint)),
            None => Answer::NoMark,
        },
    }
}

/// Runs a script so many times from one place, and sums up its answers.
#[inline(never)]
pub fn run_rounds<S>((mut s, script): (S, &[RawStep]), rounds: u64) -> u64
where
    S: Stream<Token: Number, Slice: Weigh> + Clone + IsOffset,
{
    let mut steps = Vec::with_capacity(script.len());
    steps.extend(script.iter().filter_map(RawStep::step));
    let mut sum = 0;
    for _ in 0..rounds {
        let start = s.checkpoint();
        let answers = run(&mut s, &steps);
        s.reset(&start);
        sum = mix(sum, weigh_all(&answers));
    }
    sum
}

fn weigh_all<T: Number, S: Weigh>(answers: &[Answer<T, S>]) -> u64 {
    answers.iter().fold(0, |sum, answer| mix(sum, weigh_answer(answer)))
}

pub(crate) fn weigh_answer<T: Number, S: Weigh>(answer: &Answer<T, S>) -> u64 {
    match answer {
        Answer::Token(Some(token)) => token.number(),
        Answer::Token(None) => 1,
        Answer::Slice(slice) => slice.weigh(),
        Answer::Offset(offset) | Answer::At(Ok(offset)) | Answer::First(Some(offset)) => *offset as u64,
        Answer::At(Err(_)) => 2,
        Answer::First(None) => 3,
        Answer::Flag(flag) => u64::from(*flag),
        Answer::Items(_) => 4,
        Answer::Marked(number) => *number as u64,
        Answer::Done => 5,
        Answer::BadOffset => 6,
        Answer::NoMark => 7,
        Answer::LaterMark => 8,
    }
}

/// The answers of a script, with tokens as numbers and slices copied.
pub fn tell_run<S>(mut s: S, script: &[Step]) -> Vec<Told>
where
    S: Stream<Token: Number, Slice: Weigh> + Clone + IsOffset,
{
    run(&mut s, script).into_iter().map(tell_answer).collect()
}

pub(crate) fn tell_answer<T: Number, S: Weigh>(answer: Answer<T, S>) -> Told {
    match answer {
        Answer::Token(token) => Answer::Token(token.map(|token| token.number())),
        Answer::Slice(slice) => Answer::Slice(slice.to_bytes()),
        Answer::Items(items) => Answer::Items(items.into_iter().map(|(offset, token)| (offset, token.number())).collect()),
        Answer::Offset(offset) => Answer::Offset(offset),
        Answer::At(offset) => Answer::At(offset),
        Answer::Flag(flag) => Answer::Flag(flag),
        Answer::First(offset) => Answer::First(offset),
        Answer::Marked(number) => Answer::Marked(number),
        Answer::Done => Answer::Done,
        Answer::BadOffset => Answer::BadOffset,
        Answer::NoMark => Answer::NoMark,
        Answer::LaterMark => Answer::LaterMark,
    }
}

/// What the calls that no step names answer, as our library tells it: nothing where no front has that width.
pub fn others<S>(start: S, width: usize) -> Vec<u64>
where
    S: Stream<Checkpoint: Offset + PartialOrd> + Offset + UpdateSlice + SliceLen + StreamIsPartial + AsBStr + Copy,
{
    // The valid offsets, as the crate documents them.
    if width != start.eof_offset() && start.iter_offsets().all(|(offset, _)| offset != width) {
        return Vec::new();
    }
    let mut here = start;
    let _front = here.next_slice(width);
    let mut told = vec![here.offset_from(&start) as u64, here.offset_from(&start.checkpoint()) as u64];
    told.extend([here.checkpoint().offset_from(&start.checkpoint()) as u64, here.slice_len() as u64]);
    told.push(u64::from(here.checkpoint() == start.checkpoint()));
    told.push(u64::from(here.checkpoint() < start.checkpoint()));
    told.extend([S::is_partial_supported(), here.is_partial()].map(u64::from));
    let state = here.complete();
    told.push(u64::from(here.is_partial()));
    here.restore_partial(state);
    told.push(u64::from(here.is_partial()));
    tell_bytes(&mut told, here.as_bstr());
    tell_bytes(&mut told, start.update_slice(start.peek_slice(width)).as_bstr());
    told
}

/// Takes tokens of a slice of tokens.
pub fn drain_tokens(input: &[u8], stop: u64) -> u64 {
    drain(TokenSlice::new(input), stop)
}

/// What a slice of tokens shows behind its first token, behind a front of that width, back again, in a window on it, and back at
/// the start, as our library tells it; nothing where there is no such front.
pub fn views(input: &[u8], width: usize) -> Vec<u64> {
    let mut told = Vec::new();
    let start = TokenSlice::new(input);
    let mut tokens = start;
    let _first = tokens.next_token();
    tell_view(&mut told, &tokens);
    if !tokens.is_offset(width) {
        return told;
    }
    let at = tokens.checkpoint();
    let slice = tokens.next_slice(width);
    tell_view(&mut told, &tokens);
    told.push(tokens.offset_from(&at) as u64);
    told.extend([tokens == start, tokens.checkpoint() == at, tokens.checkpoint() < at].map(u64::from));
    tokens.reset(&at);
    tell_view(&mut told, &tokens);
    tokens = tokens.update_slice(slice);
    let _first = tokens.next_token();
    tell_view(&mut told, &tokens);
    tokens.reset_to_start();
    tell_view(&mut told, &tokens);
    told
}

fn tell_view(told: &mut Vec<u64>, tokens: &TokenSlice<u8>) {
    tell_bytes(told, tokens);
    told.push(tokens.slice_len() as u64);
    told.extend(tokens.previous_tokens().copied().map(u64::from));
    told.extend(b"a\n\0".map(|literal| match tokens.compare(literal) {
        CompareResult::Ok(width) => width as u64,
        CompareResult::Incomplete => 2,
        CompareResult::Error => 3,
    }));
}

/// What a shortage of so many tokens answers.
pub fn needed(size: usize) -> Vec<u64> {
    let needed = Needed::new(size);
    let half = needed.map(|size| size.get() / 2);
    let none = needed.map(|_| 0);
    let mut told = vec![u64::from(needed.is_known()), u64::from(half.is_known())];
    tell_bytes(&mut told, format!("{needed:?} {half:?} {none:?}").as_bytes());
    told
}

pub(crate) fn tell_bytes(told: &mut Vec<u64>, bytes: &[u8]) {
    told.push(bytes.len() as u64);
    told.extend(bytes.iter().copied().map(u64::from));
}
