//! Our library's feeds, declared as in `ours`.

use crate::ours::Room;
use crate::script::RawStep;

unsafe extern "C" {
    fn winnow_bench_feed_bytes(
        input: *const u8,
        length: usize,
        literals: *const u8,
        literals_length: usize,
        script: *const RawStep,
        steps: usize,
        piece: u64,
    ) -> u64;
    fn winnow_bench_feed_text(
        input: *const u8,
        length: usize,
        literals: *const u8,
        literals_length: usize,
        script: *const RawStep,
        steps: usize,
        cuts: *const u64,
        count: usize,
    ) -> u64;
    fn winnow_bench_feed_lines(
        made: *const u8,
        length: usize,
        literals: *const u8,
        literals_length: usize,
        script: *const RawStep,
        steps: usize,
        piece: u64,
        pieces: u64,
    ) -> u64;
    fn winnow_bench_piece_answers_bytes(
        input: *const u8,
        length: usize,
        literals: *const u8,
        literals_length: usize,
        script: *const RawStep,
        steps: usize,
        cuts: *const u64,
        count: usize,
        out: *mut u64,
        room: usize,
    ) -> u64;
    fn winnow_bench_piece_answers_text(
        input: *const u8,
        length: usize,
        literals: *const u8,
        literals_length: usize,
        script: *const RawStep,
        steps: usize,
        cuts: *const u64,
        count: usize,
        out: *mut u64,
        room: usize,
    ) -> u64;
}

/// A script over bytes in pieces of that length.
pub fn feed_bytes((input, literals, script): (&[u8], &[u8], &[RawStep]), piece: u64) -> u64 {
    unsafe { winnow_bench_feed_bytes(input.as_ptr(), input.len(), literals.as_ptr(), literals.len(), script.as_ptr(), script.len(), piece) }
}

/// A script over a text in pieces that end at the cuts.
pub fn feed_text((input, literals, script, cuts): (&str, &str, &[RawStep], &[u64]), _number: u64) -> u64 {
    unsafe {
        let (literals, literals_length) = (literals.as_ptr(), literals.len());
        winnow_bench_feed_text(input.as_ptr(), input.len(), literals, literals_length, script.as_ptr(), script.len(), cuts.as_ptr(), cuts.len())
    }
}

/// A script after the other over so many pieces of that length, parts of what is made.
pub fn feed_lines((made, literals, script, piece): (&[u8], &[u8], &[RawStep], u64), pieces: u64) -> u64 {
    unsafe {
        let (literals, literals_length) = (literals.as_ptr(), literals.len());
        winnow_bench_feed_lines(made.as_ptr(), made.len(), literals, literals_length, script.as_ptr(), script.len(), piece, pieces)
    }
}

impl Room {
    /// How many answers came out of each piece of bytes and how many bytes were kept, the answers, and the final place.
    pub fn piece_answers_bytes(&mut self, input: &[u8], literals: &[u8], script: &[RawStep], cuts: &[u64]) -> Option<&[u64]> {
        self.told(|out, room| unsafe {
            let (literals, literals_length, steps) = (literals.as_ptr(), literals.len(), script.len());
            let (script, count, cuts) = (script.as_ptr(), cuts.len(), cuts.as_ptr());
            winnow_bench_piece_answers_bytes(input.as_ptr(), input.len(), literals, literals_length, script, steps, cuts, count, out, room)
        })
    }

    /// The same of a text.
    pub fn piece_answers_text(&mut self, input: &str, literals: &str, script: &[RawStep], cuts: &[u64]) -> Option<&[u64]> {
        self.told(|out, room| unsafe {
            let (literals, literals_length, steps) = (literals.as_ptr(), literals.len(), script.len());
            let (script, count, cuts) = (script.as_ptr(), cuts.len(), cuts.as_ptr());
            winnow_bench_piece_answers_text(input.as_ptr(), input.len(), literals, literals_length, script, steps, cuts, count, out, room)
        })
    }
}
