//! The Rust crate's wrappers, and what they tell: word for word `crates/winnow_bench_agree/src/wrapped.rt`.

use crate::theirs::{Number, tell_bytes};
use winnow::stream::{AsBStr, LocatingSlice, Location, Offset, Partial, Stateful, Stream, StreamIsPartial, UpdateSlice};

/// An input in three wrappers.
pub fn wrap<I: Stream + StreamIsPartial + Offset + Clone>(input: I) -> Partial<Stateful<LocatingSlice<I>, u64>> {
    Partial::new(Stateful { input: LocatingSlice::new(input), state: 0 })
}

/// The places behind a front, in its window, and behind a reset out of it, with the mark cleared between; nothing where no front has
/// that width.
pub fn wrapped<S>(mut s: S, width: usize) -> Vec<u64>
where
    S: Stream<Token: Number> + UpdateSlice + Location + StreamIsPartial + AsBStr,
{
    if width != s.eof_offset() && s.iter_offsets().all(|(offset, _)| offset != width) {
        return Vec::new();
    }
    let mut told = Vec::new();
    let at = s.checkpoint();
    let slice = s.next_slice(width);
    tell_stream(&mut told, &s);
    let mut window = s.update_slice(slice);
    tell_stream(&mut told, &window);
    if let Some(token) = window.next_token() {
        told.push(token.number());
    }
    tell_stream(&mut told, &window);
    let state = window.complete();
    window.reset(&at);
    tell_stream(&mut told, &window);
    window.restore_partial(state);
    tell_stream(&mut told, &window);
    told
}

// The place, the mark, and the bytes that remain.
fn tell_stream<S: Location + StreamIsPartial + AsBStr>(told: &mut Vec<u64>, s: &S) {
    told.extend([s.previous_token_end() as u64, s.current_token_start() as u64, u64::from(s.is_partial())]);
    tell_bytes(told, s.as_bstr());
}
