//! The same over the Rust crate's bits.

use crate::script::{Step, Told};
use crate::theirs::{self, IsOffset, Number, Weigh, mix};
use winnow::binary::bits::Bits;
use crate::their_recovered::record;
use winnow::stream::{LocatingSlice, Offset, Partial, SliceLen, Stateful, Stream, StreamIsPartial};

impl Number for bool {
    fn number(&self) -> u64 {
        u64::from(*self)
    }
}

impl<S: Weigh> Weigh for (S, usize, usize) {
    fn weigh(&self) -> u64 {
        let (bytes, start, end) = self;
        mix(mix(bytes.weigh(), *start as u64), *end as u64)
    }

    fn to_bytes(&self) -> Vec<u8> {
        let (bytes, start, end) = self;
        [bytes.to_bytes(), vec![*start as u8, *end as u8]].concat()
    }
}

impl<I: Stream<Token = u8> + Clone> IsOffset for Bits<I> {
    fn is_offset(&self, offset: usize) -> bool {
        offset <= self.eof_offset()
    }
}

pub fn drain(input: &[u8], number: u64) -> u64 {
    theirs::drain(Bits(input, 0), number)
}

pub fn sum_offsets(input: &[u8], number: u64) -> u64 {
    theirs::sum_offsets(Bits(input, 0), number)
}

pub fn take_all(input: &[u8], number: u64) -> u64 {
    theirs::take_all(Bits(input, 0), number)
}

/// The answers of a script on the bits of bytes from a place on.
pub fn tell_run(input: &[u8], place: usize, script: &[Step]) -> Vec<Told> {
    theirs::tell_run(Bits(input, place), script)
}

impl<I: IsOffset> IsOffset for LocatingSlice<I> {
    fn is_offset(&self, offset: usize) -> bool {
        (**self).is_offset(offset)
    }
}

impl<I: IsOffset, S> IsOffset for Stateful<I, S> {
    fn is_offset(&self, offset: usize) -> bool {
        self.input.is_offset(offset)
    }
}

/// How many wrappers and nests of them there are.
pub const NESTS: u64 = 6;

/// The same in a wrapper or a nest of them, by its number.
pub fn tell_wrapped_run(input: &[u8], place: usize, nest: u64, script: &[Step]) -> Vec<Told> {
    let bits = Bits(input, place);
    match nest {
        0 => theirs::tell_run(LocatingSlice::new(bits), script),
        1 => theirs::tell_run(Stateful { input: bits, state: 7_u64 }, script),
        2 => theirs::tell_run(Partial::new(bits), script),
        3 => theirs::tell_run(record(bits), script),
        4 => theirs::tell_run(Partial::new(Stateful { input: LocatingSlice::new(record(bits)), state: 7_u64 }), script),
        _ => theirs::tell_run(record(LocatingSlice::new(Stateful { input: Partial::new(bits), state: 7_u64 })), script),
    }
}

/// What the calls that no step names answer of them: nothing where there is no front of that width.
pub fn others(input: &[u8], place: usize, width: usize) -> Vec<u64> {
    let start = Bits(input, place);
    if !start.is_offset(width) {
        return Vec::new();
    }
    let mut here = start;
    let slice = here.next_slice(width);
    let mut told = vec![here.offset_from(&start) as u64, slice.slice_len() as u64];
    told.push(here.0.len() as u64);
    told.extend(here.0.iter().copied().map(u64::from));
    told.extend([width as u64, here.1 as u64]);
    told.extend([here.checkpoint() == start.checkpoint(), here == start].map(u64::from));
    told.extend([Bits::<&[u8]>::is_partial_supported(), here.is_partial()].map(u64::from));
    let state = here.complete();
    told.push(u64::from(here.is_partial()));
    here.restore_partial(state);
    told.push(u64::from(here.is_partial()));
    told
}
