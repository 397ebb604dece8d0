//! Our library's calls. Each export of `crates/winnow_bench` and of the crates beside it is declared by hand, here and in the other files
//! of ours, with a safe function over it. A text crosses as its bytes, which are UTF-8, as the export asks, since they come from a `&str`.

use crate::script::{RawStep, Told, read_answers};

// The workloads over one kind of stream, each by its number in `crates/winnow_bench`.
macro_rules! workloads {
    ($walk:ident, $wrapped:ident, $input:ty) => {
        use super::{$walk, $wrapped};

        workloads!(@plain $walk, $input, drain = 0, peek_and_take = 1, sum_offsets = 2, look_ahead = 3);
        workloads!(@plain $walk, $input, take_all = 4, take_parts = 5, find_token = 6, offset_behind = 7);
        workloads!(@wrapped $wrapped, $input, drain_located = 0 0, drain_wrapped = 1 0, drain_recoverable = 2 0);
        workloads!(@wrapped $wrapped, $input, take_all_located = 0 4, take_all_wrapped = 1 4);
    };
    (@plain $walk:ident, $input:ty, $($name:ident = $workload:literal),*) => {
        $(pub fn $name(input: $input, number: u64) -> u64 {
            unsafe { $walk(input.as_ptr(), input.len(), $workload, number) }
        })*
    };
    (@wrapped $wrapped:ident, $input:ty, $($name:ident = $wrappers:literal $workload:literal),*) => {
        $(pub fn $name(input: $input, number: u64) -> u64 {
            unsafe { $wrapped(input.as_ptr(), input.len(), $wrappers, $workload, number) }
        })*
    };
}

/// Workloads over bytes.
pub mod bytes {
    workloads!(winnow_bench_walk_bytes, winnow_bench_walk_wrapped_bytes, &[u8]);
}

/// Workloads over text.
pub mod text {
    workloads!(winnow_bench_walk_text, winnow_bench_walk_wrapped_text, &str);
}

unsafe extern "C" {
    fn winnow_bench_walk_bytes(input: *const u8, length: usize, workload: u64, number: u64) -> u64;
    fn winnow_bench_walk_text(input: *const u8, length: usize, workload: u64, number: u64) -> u64;
    fn winnow_bench_walk_wrapped_bytes(input: *const u8, length: usize, wrappers: u64, workload: u64, number: u64) -> u64;
    fn winnow_bench_walk_wrapped_text(input: *const u8, length: usize, wrappers: u64, workload: u64, number: u64) -> u64;
    fn winnow_bench_run_bytes(input: *const u8, length: usize, script: *const RawStep, steps: usize, rounds: u64) -> u64;
    fn winnow_bench_run_text(input: *const u8, length: usize, script: *const RawStep, steps: usize, rounds: u64) -> u64;
    fn winnow_bench_answers_bytes(input: *const u8, length: usize, script: *const RawStep, steps: usize, out: *mut u64, room: usize) -> u64;
    fn winnow_bench_answers_text(input: *const u8, length: usize, script: *const RawStep, steps: usize, out: *mut u64, room: usize) -> u64;
    fn winnow_bench_others_bytes(input: *const u8, length: usize, width: u64, out: *mut u64, room: usize) -> u64;
    fn winnow_bench_others_text(input: *const u8, length: usize, width: u64, out: *mut u64, room: usize) -> u64;
    fn winnow_bench_drain_tokens(input: *const u8, length: usize, number: u64) -> u64;
    fn winnow_bench_answers_tokens(input: *const u8, length: usize, script: *const RawStep, steps: usize, out: *mut u64, room: usize) -> u64;
    fn winnow_bench_views_tokens(input: *const u8, length: usize, width: u64, out: *mut u64, room: usize) -> u64;
    fn winnow_bench_wrapped_bytes(input: *const u8, length: usize, width: u64, out: *mut u64, room: usize) -> u64;
    fn winnow_bench_wrapped_text(input: *const u8, length: usize, width: u64, out: *mut u64, room: usize) -> u64;
    fn winnow_bench_answers_recoverable(input: *const u8, length: usize, script: *const RawStep, steps: usize, out: *mut u64, room: usize) -> u64;
    fn winnow_bench_recovered_bytes(input: *const u8, length: usize, width: u64, out: *mut u64, room: usize) -> u64;
    fn winnow_bench_recovered_text(input: *const u8, length: usize, width: u64, out: *mut u64, room: usize) -> u64;
    fn winnow_bench_walk_bstr(input: *const u8, length: usize, workload: u64, number: u64) -> u64;
    fn winnow_bench_walk_plain_bytes(input: *const u8, length: usize, workload: u64, number: u64) -> u64;
    fn winnow_bench_display_bstr(input: *const u8, length: usize, number: u64) -> u64;
    fn winnow_bench_answers_bstr(input: *const u8, length: usize, script: *const RawStep, steps: usize, out: *mut u64, room: usize) -> u64;
    fn winnow_bench_answers_plain_bytes(input: *const u8, length: usize, script: *const RawStep, steps: usize, out: *mut u64, room: usize) -> u64;
    fn winnow_bench_texts_kinds(input: *const u8, length: usize, width: u64, out: *mut u64, room: usize) -> u64;
    fn winnow_bench_needed(size: u64, out: *mut u64, room: usize) -> u64;
}

pub fn run_bytes((input, script): (&[u8], &[RawStep]), rounds: u64) -> u64 {
    unsafe { winnow_bench_run_bytes(input.as_ptr(), input.len(), script.as_ptr(), script.len(), rounds) }
}

pub fn run_text((input, script): (&str, &[RawStep]), rounds: u64) -> u64 {
    unsafe { winnow_bench_run_text(input.as_ptr(), input.len(), script.as_ptr(), script.len(), rounds) }
}

/// Takes tokens of a slice of tokens.
pub fn drain_tokens(input: &[u8], number: u64) -> u64 {
    unsafe { winnow_bench_drain_tokens(input.as_ptr(), input.len(), number) }
}

/// Takes tokens of a `BStr`.
pub fn drain_bstr(input: &[u8], number: u64) -> u64 {
    unsafe { winnow_bench_walk_bstr(input.as_ptr(), input.len(), 0, number) }
}

/// Takes tokens of `Bytes`.
pub fn drain_plain_bytes(input: &[u8], number: u64) -> u64 {
    unsafe { winnow_bench_walk_plain_bytes(input.as_ptr(), input.len(), 0, number) }
}

/// The length of the text of a `BStr`.
pub fn display_bstr(input: &[u8], number: u64) -> u64 {
    unsafe { winnow_bench_display_bstr(input.as_ptr(), input.len(), number) }
}

/// Room for the numbers in which our library tells its answers.
pub struct Room(Vec<u64>);

impl Room {
    pub fn new() -> Self {
        Room(vec![0; 1 << 14])
    }

    // What a call wrote; `None` where it had no memory, or there was no room.
    pub(crate) fn told(&mut self, call: impl FnOnce(*mut u64, usize) -> u64) -> Option<&[u64]> {
        let count = call(self.0.as_mut_ptr(), self.0.len());
        self.0.get(..count as usize)
    }

    /// The answers of a script on bytes.
    pub fn answers_bytes(&mut self, input: &[u8], script: &[RawStep]) -> Option<Vec<Told>> {
        read_answers(
            self.told(|out, room| unsafe { winnow_bench_answers_bytes(input.as_ptr(), input.len(), script.as_ptr(), script.len(), out, room) })?,
        )
    }

    /// The answers of a script on a text.
    pub fn answers_text(&mut self, input: &str, script: &[RawStep]) -> Option<Vec<Told>> {
        read_answers(
            self.told(|out, room| unsafe { winnow_bench_answers_text(input.as_ptr(), input.len(), script.as_ptr(), script.len(), out, room) })?,
        )
    }

    /// The answers of a script on a slice of tokens.
    pub fn answers_tokens(&mut self, input: &[u8], script: &[RawStep]) -> Option<Vec<Told>> {
        read_answers(
            self.told(|out, room| unsafe { winnow_bench_answers_tokens(input.as_ptr(), input.len(), script.as_ptr(), script.len(), out, room) })?,
        )
    }

    /// The answers of a script on a `BStr`, and on `Bytes`.
    pub fn answers_kinds(&mut self, input: &[u8], script: &[RawStep]) -> Option<[Vec<Told>; 2]> {
        let bstr = read_answers(
            self.told(|out, room| unsafe { winnow_bench_answers_bstr(input.as_ptr(), input.len(), script.as_ptr(), script.len(), out, room) })?,
        )?;
        let bytes =
            read_answers(self.told(|out, room| unsafe {
                winnow_bench_answers_plain_bytes(input.as_ptr(), input.len(), script.as_ptr(), script.len(), out, room)
            })?)?;
        Some([bstr, bytes])
    }

    /// The texts of both, and how their two parts compare.
    pub fn texts_kinds(&mut self, input: &[u8], width: usize) -> Option<Vec<u64>> {
        let told = self.told(|out, room| unsafe { winnow_bench_texts_kinds(input.as_ptr(), input.len(), width as u64, out, room) });
        told.map(<[u64]>::to_vec)
    }

    /// What a slice of tokens shows behind fronts, in windows and back at the start.
    pub fn views_tokens(&mut self, input: &[u8], width: usize) -> Option<Vec<u64>> {
        let told = self.told(|out, room| unsafe { winnow_bench_views_tokens(input.as_ptr(), input.len(), width as u64, out, room) });
        told.map(<[u64]>::to_vec)
    }

    /// What the calls that no step names answer of bytes.
    pub fn others_bytes(&mut self, input: &[u8], width: usize) -> Option<Vec<u64>> {
        let told = self.told(|out, room| unsafe { winnow_bench_others_bytes(input.as_ptr(), input.len(), width as u64, out, room) });
        told.map(<[u64]>::to_vec)
    }

    /// What the calls that no step names answer of a text.
    pub fn others_text(&mut self, input: &str, width: usize) -> Option<Vec<u64>> {
        let told = self.told(|out, room| unsafe { winnow_bench_others_text(input.as_ptr(), input.len(), width as u64, out, room) });
        told.map(<[u64]>::to_vec)
    }

    /// What three wrappers round bytes tell.
    pub fn wrapped_bytes(&mut self, input: &[u8], width: usize) -> Option<Vec<u64>> {
        let told = self.told(|out, room| unsafe { winnow_bench_wrapped_bytes(input.as_ptr(), input.len(), width as u64, out, room) });
        told.map(<[u64]>::to_vec)
    }

    /// What three wrappers round a text tell.
    pub fn wrapped_text(&mut self, input: &str, width: usize) -> Option<Vec<u64>> {
        let told = self.told(|out, room| unsafe { winnow_bench_wrapped_text(input.as_ptr(), input.len(), width as u64, out, room) });
        told.map(<[u64]>::to_vec)
    }

    /// The answers of a script on bytes in a stream that records errors.
    pub fn answers_recoverable(&mut self, input: &[u8], script: &[RawStep]) -> Option<Vec<Told>> {
        read_answers(
            self.told(|out, room| unsafe {
                winnow_bench_answers_recoverable(input.as_ptr(), input.len(), script.as_ptr(), script.len(), out, room)
            })?,
        )
    }

    /// What bytes tell in streams that record errors, refuse them, and go back to their start.
    pub fn recovered_bytes(&mut self, input: &[u8], width: usize) -> Option<Vec<u64>> {
        let told = self.told(|out, room| unsafe { winnow_bench_recovered_bytes(input.as_ptr(), input.len(), width as u64, out, room) });
        told.map(<[u64]>::to_vec)
    }

    /// What a text tells in them.
    pub fn recovered_text(&mut self, input: &str, width: usize) -> Option<Vec<u64>> {
        let told = self.told(|out, room| unsafe { winnow_bench_recovered_text(input.as_ptr(), input.len(), width as u64, out, room) });
        told.map(<[u64]>::to_vec)
    }

    /// What a shortage of so many tokens answers.
    pub fn needed(&mut self, size: usize) -> Option<Vec<u64>> {
        self.told(|out, room| unsafe { winnow_bench_needed(size as u64, out, room) }).map(<[u64]>::to_vec)
    }
}

impl Default for Room {
    fn default() -> Self {
        Room::new()
    }
}
