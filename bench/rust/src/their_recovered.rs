//! The Rust crate's stream that records errors, and what it tells: word for word `crates/winnow_bench_agree/src/recovered.rt`.

use crate::theirs::{IsOffset, tell_bytes};
use winnow::error::{EmptyError, ErrMode, Needed};
use winnow::stream::{AsBStr, LocatingSlice, Location, Offset, Recover, Recoverable, Stream, StreamIsPartial, UpdateSlice};

type Mode = ErrMode<EmptyError>;

/// An input in a stream that records errors.
pub fn record<I: Stream>(input: I) -> Recoverable<I, Mode> {
    Recoverable::new(input)
}

impl<I: Stream + IsOffset, E> IsOffset for Recoverable<I, E> {
    fn is_offset(&self, offset: usize) -> bool {
        (**self).is_offset(offset)
    }
}

/// What two streams tell, of which one records errors, and what one tells that goes back to its start; nothing where no front has that
/// width.
pub fn recovered<I>(input: I, width: usize) -> Vec<u64>
where
    I: Stream<Slice: Copy> + UpdateSlice + StreamIsPartial + AsBStr + Offset + Copy,
{
    if width != input.eof_offset() && input.iter_offsets().all(|(offset, _)| offset != width) {
        return Vec::new();
    }
    let mut told = Vec::new();
    tell_recording(&mut told, Recoverable::new(LocatingSlice::new(input)), width);
    tell_recording(&mut told, Recoverable::unrecoverable(LocatingSlice::new(input)), width);
    tell_restart(&mut told, LocatingSlice::new(input), width);
    told
}

// Errors recorded before a front, behind it, in its window, and behind a reset out of it; and then the errors themselves.
fn tell_recording<I>(told: &mut Vec<u64>, mut s: Recoverable<I, Mode>, width: usize)
where
    I: Stream + UpdateSlice + Location + StreamIsPartial + AsBStr,
{
    let at = s.checkpoint();
    told.push(recorded(s.record_err(&at, &at, ErrMode::Backtrack(EmptyError))));
    let slice = s.next_slice(width);
    let behind = s.checkpoint();
    told.push(recorded(s.record_err(&at, &behind, ErrMode::Incomplete(Needed::Unknown))));
    tell_place(told, &s);
    let mut window = s.update_slice(slice);
    told.push(recorded(window.record_err(&at, &behind, ErrMode::Cut(EmptyError))));
    tell_place(told, &window);
    window.reset(&behind);
    tell_place(told, &window);
    let (_inside, errors) = window.into_parts();
    told.push(errors.len() as u64);
    told.extend(errors.iter().map(mode_number));
}

// The places behind a front, in its window, and back at the start.
fn tell_restart<I>(told: &mut Vec<u64>, mut s: LocatingSlice<I>, width: usize)
where
    I: Stream + UpdateSlice + AsBStr + Offset + Copy,
{
    let slice = s.next_slice(width);
    tell_place(told, &s);
    s.reset_to_start();
    tell_place(told, &s);
    let mut window = s.update_slice(slice);
    let _first = window.next_token();
    tell_place(told, &window);
    window.reset_to_start();
    tell_place(told, &window);
}

// The place, and the bytes that remain.
fn tell_place<S: Location + AsBStr>(told: &mut Vec<u64>, s: &S) {
    told.extend([s.previous_token_end() as u64, s.current_token_start() as u64]);
    tell_bytes(told, s.as_bstr());
}

// Whether the error was taken or refused.
fn recorded(answer: Result<(), Mode>) -> u64 {
    u64::from(answer.is_err())
}

fn mode_number(error: &Mode) -> u64 {
    match error {
        ErrMode::Incomplete(_) => 0,
        ErrMode::Backtrack(_) => 1,
        ErrMode::Cut(_) => 2,
    }
}
