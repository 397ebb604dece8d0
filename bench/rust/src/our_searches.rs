//! Our library's searches, comparisons and sets, declared as in `ours`.

use crate::ours::Room;
use crate::script::{RawStep, ToldSearch, read_search_answers};

// The searches of bytes, by the form of their needles and the workload. The needles are in one row, and `first` is the length of the
// first of two.
macro_rules! searches {
    ($($name:ident = $form:literal $workload:literal;)*) => {
        $(pub fn $name((input, needles): (&[u8], &[u8]), first: u64) -> u64 {
            unsafe {
                let (needles, needles_length) = (needles.as_ptr(), needles.len());
                winnow_bench_search_bytes(input.as_ptr(), input.len(), needles, needles_length, first, $form, $workload)
            }
        })*
    };
}

searches! {
    take_byte = 0 0;
    take_three_bytes = 1 0;
    take_needle = 2 0;
    take_two_needles = 3 0;
    find_byte = 0 1;
    find_three_bytes = 1 1;
    find_needle = 2 1;
    find_two_needles = 3 1;
}

pub fn take_needle_text((input, needles): (&str, &str), _first: u64) -> u64 {
    unsafe { winnow_bench_search_text(input.as_ptr(), input.len(), needles.as_ptr(), needles.len(), 0) }
}

pub fn find_needle_text((input, needles): (&str, &str), _first: u64) -> u64 {
    unsafe { winnow_bench_search_text(input.as_ptr(), input.len(), needles.as_ptr(), needles.len(), 1) }
}

pub fn compare_each((input, needles): (&[u8], &[u8]), _first: u64) -> u64 {
    unsafe { winnow_bench_compare_each_bytes(input.as_ptr(), input.len(), needles.as_ptr(), needles.len()) }
}

pub fn compare_each_text((input, needles): (&str, &str), _first: u64) -> u64 {
    unsafe { winnow_bench_compare_each_text(input.as_ptr(), input.len(), needles.as_ptr(), needles.len()) }
}

// The workloads that ask sets, by the form of the sets and the workload.
macro_rules! sets {
    ($($export:ident($input:ty) { $($name:ident = $form:literal $workload:literal;)* })*) => {
        $($(pub fn $name(input: $input, _number: u64) -> u64 {
            unsafe { $export(input.as_ptr(), input.len(), $form, $workload) }
        })*)*
    };
}

sets! {
    winnow_bench_ask_bytes(&[u8]) {
        take_char_set = 0 0;
        take_ranges = 1 0;
        find_char_set = 0 1;
        find_ranges = 1 1;
    }
    winnow_bench_ask_text(&str) {
        take_char_set_text = 0 0;
        take_ranges_text = 1 0;
        find_char_set_text = 0 1;
        find_ranges_text = 1 1;
    }
}

unsafe extern "C" {
    fn winnow_bench_search_bytes(
        input: *const u8,
        length: usize,
        needles: *const u8,
        needles_length: usize,
        first: u64,
        form: u64,
        workload: u64,
    ) -> u64;
    fn winnow_bench_search_text(input: *const u8, length: usize, needles: *const u8, needles_length: usize, workload: u64) -> u64;
    fn winnow_bench_compare_each_bytes(input: *const u8, length: usize, needles: *const u8, needles_length: usize) -> u64;
    fn winnow_bench_compare_each_text(input: *const u8, length: usize, needles: *const u8, needles_length: usize) -> u64;
    fn winnow_bench_ask_bytes(input: *const u8, length: usize, form: u64, workload: u64) -> u64;
    fn winnow_bench_ask_text(input: *const u8, length: usize, form: u64, workload: u64) -> u64;
    fn winnow_bench_searches_bytes(
        input: *const u8,
        length: usize,
        a: *const u8,
        a_length: usize,
        b: *const u8,
        b_length: usize,
        c: *const u8,
        c_length: usize,
        out: *mut u64,
        room: usize,
    ) -> u64;
    fn winnow_bench_searches_text(
        input: *const u8,
        length: usize,
        a: *const u8,
        a_length: usize,
        b: *const u8,
        b_length: usize,
        c: *const u8,
        c_length: usize,
        out: *mut u64,
        room: usize,
    ) -> u64;
    fn winnow_bench_sets(token: u64, low: u64, high: u64, out: *mut u64, room: usize) -> u64;
}

impl Room {
    /// What every form of a comparison and of a search answers of bytes.
    pub fn searches_bytes(&mut self, input: &[u8], [a, b, c]: [&[u8]; 3]) -> Option<&[u64]> {
        self.told(|out, room| unsafe {
            let (a, a_length, b, b_length) = (a.as_ptr(), a.len(), b.as_ptr(), b.len());
            winnow_bench_searches_bytes(input.as_ptr(), input.len(), a, a_length, b, b_length, c.as_ptr(), c.len(), out, room)
        })
    }

    /// What every form of a comparison and of a search answers of a text.
    pub fn searches_text(&mut self, input: &str, [a, b, c]: [&[u8]; 3]) -> Option<&[u64]> {
        self.told(|out, room| unsafe {
            let (a, a_length, b, b_length) = (a.as_ptr(), a.len(), b.as_ptr(), b.len());
            winnow_bench_searches_text(input.as_ptr(), input.len(), a, a_length, b, b_length, c.as_ptr(), c.len(), out, room)
        })
    }

    /// What every form of a set with those bounds answers of a token.
    pub fn sets(&mut self, token: u64, low: u64, high: u64) -> Option<&[u64]> {
        self.told(|out, room| unsafe { winnow_bench_sets(token, low, high, out, room) })
    }
}

unsafe extern "C" {
    fn winnow_bench_run_search_bytes(
        input: *const u8,
        length: usize,
        literals: *const u8,
        literals_length: usize,
        script: *const RawStep,
        steps: usize,
        rounds: u64,
    ) -> u64;
    fn winnow_bench_search_answers_bytes(
        input: *const u8,
        length: usize,
        literals: *const u8,
        literals_length: usize,
        script: *const RawStep,
        steps: usize,
        out: *mut u64,
        room: usize,
    ) -> u64;
    fn winnow_bench_search_answers_text(
        input: *const u8,
        length: usize,
        literals: *const u8,
        literals_length: usize,
        script: *const RawStep,
        steps: usize,
        out: *mut u64,
        room: usize,
    ) -> u64;
}

/// Runs a script that also compares and searches so many times.
pub fn run_search((input, literals, script): (&[u8], &[u8], &[RawStep]), rounds: u64) -> u64 {
    unsafe { winnow_bench_run_search_bytes(input.as_ptr(), input.len(), literals.as_ptr(), literals.len(), script.as_ptr(), script.len(), rounds) }
}

impl Room {
    /// The answers of such a script on bytes.
    pub fn search_answers_bytes(&mut self, input: &[u8], literals: &[u8], script: &[RawStep]) -> Option<Vec<ToldSearch>> {
        let (a, b) = (literals.as_ptr(), literals.len());
        read_search_answers(self.told(|out, room| unsafe {
            winnow_bench_search_answers_bytes(input.as_ptr(), input.len(), a, b, script.as_ptr(), script.len(), out, room)
        })?)
    }

    /// The answers of such a script on a text.
    pub fn search_answers_text(&mut self, input: &str, literals: &str, script: &[RawStep]) -> Option<Vec<ToldSearch>> {
        let (a, b) = (literals.as_ptr(), literals.len());
        read_search_answers(self.told(|out, room| unsafe {
            winnow_bench_search_answers_text(input.as_ptr(), input.len(), a, b, script.as_ptr(), script.len(), out, room)
        })?)
    }
}
