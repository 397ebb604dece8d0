//! Our library's calls over bits, declared as in `ours`.

use crate::ours::Room;
use crate::script::{RawStep, Told, read_answers};

/// Takes bits.
pub fn drain(input: &[u8], number: u64) -> u64 {
    unsafe { winnow_bench_walk_bits(input.as_ptr(), input.len(), 0, number) }
}

/// Goes over bits with their offsets.
pub fn sum_offsets(input: &[u8], number: u64) -> u64 {
    unsafe { winnow_bench_walk_bits(input.as_ptr(), input.len(), 2, number) }
}

/// Takes slices of so many bits.
pub fn take_all(input: &[u8], number: u64) -> u64 {
    unsafe { winnow_bench_walk_bits(input.as_ptr(), input.len(), 4, number) }
}

unsafe extern "C" {
    fn winnow_bench_walk_bits(input: *const u8, length: usize, workload: u64, number: u64) -> u64;
    fn winnow_bench_answers_bits(
        input: *const u8,
        length: usize,
        place: u64,
        script: *const RawStep,
        steps: usize,
        out: *mut u64,
        room: usize,
    ) -> u64;
    fn winnow_bench_answers_wrapped_bits(
        input: *const u8,
        length: usize,
        place: u64,
        nest: u64,
        script: *const RawStep,
        steps: usize,
        out: *mut u64,
        room: usize,
    ) -> u64;
    fn winnow_bench_others_bits(input: *const u8, length: usize, place: u64, width: u64, out: *mut u64, room: usize) -> u64;
}

impl Room {
    /// The answers of a script on the bits of bytes from a place on.
    pub fn answers_bits(&mut self, input: &[u8], place: usize, script: &[RawStep]) -> Option<Vec<Told>> {
        read_answers(self.told(|out, room| unsafe {
            winnow_bench_answers_bits(input.as_ptr(), input.len(), place as u64, script.as_ptr(), script.len(), out, room)
        })?)
    }

    /// The same in a wrapper or a nest of them, by its number.
    pub fn answers_wrapped_bits(&mut self, input: &[u8], place: usize, nest: u64, script: &[RawStep]) -> Option<Vec<Told>> {
        read_answers(self.told(|out, room| unsafe {
            winnow_bench_answers_wrapped_bits(input.as_ptr(), input.len(), place as u64, nest, script.as_ptr(), script.len(), out, room)
        })?)
    }

    /// What the calls that no step names answer of them.
    pub fn others_bits(&mut self, input: &[u8], place: usize, width: usize) -> Option<Vec<u64>> {
        let told = self.told(|out, room| unsafe { winnow_bench_others_bits(input.as_ptr(), input.len(), place as u64, width as u64, out, room) });
        told.map(<[u64]>::to_vec)
    }
}
