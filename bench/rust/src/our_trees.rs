//! Our library's trees of errors and parse errors, declared as in `ours`.

use crate::ours::Room;
use crate::script::RawStep;

// The exports of a workload take the input and a number.
macro_rules! workloads {
    ($(fn $name:ident($input:ty) = $export:literal;)*) => {
        mod working {
            unsafe extern "C" {
                $(#[link_name = $export]
                pub fn $name(input: *const u8, length: usize, number: u64) -> u64;)*
            }
        }

        $(pub fn $name(input: $input, number: u64) -> u64 {
            unsafe { working::$name(input.as_ptr(), input.len(), number) }
        })*
    };
}

workloads! {
    fn join_trees(&[u8]) = "winnow_bench_join_trees";
    fn push_frames(&[u8]) = "winnow_bench_push_frames";
    fn print_tree(&str) = "winnow_bench_tree_print";
    fn print_failure(&str) = "winnow_bench_failure_print";
    fn weigh_position(&[u8]) = "winnow_bench_weigh_position";
    fn weigh_spans(&[u8]) = "winnow_bench_failure_spans";
}

unsafe extern "C" {
    fn winnow_bench_trees_bytes(input: *const u8, length: usize, steps: *const RawStep, count: usize, out: *mut u64, room: usize) -> u64;
    fn winnow_bench_trees_text(input: *const u8, length: usize, steps: *const RawStep, count: usize, out: *mut u64, room: usize) -> u64;
    fn winnow_bench_failure_bytes(input: *const u8, length: usize, width: u64, out: *mut u64, room: usize) -> u64;
    fn winnow_bench_failure_text(input: *const u8, length: usize, width: u64, out: *mut u64, room: usize) -> u64;
    fn winnow_bench_position(input: *const u8, length: usize, index: u64, out: *mut u64, room: usize) -> u64;
}

impl Room {
    /// The text of each tree that steps over bytes leave.
    pub fn trees_bytes(&mut self, input: &[u8], steps: &[RawStep]) -> Option<&[u64]> {
        self.told(|out, room| unsafe { winnow_bench_trees_bytes(input.as_ptr(), input.len(), steps.as_ptr(), steps.len(), out, room) })
    }

    /// The text of each tree that steps over a text leave.
    pub fn trees_text(&mut self, input: &str, steps: &[RawStep]) -> Option<&[u64]> {
        self.told(|out, room| unsafe { winnow_bench_trees_text(input.as_ptr(), input.len(), steps.as_ptr(), steps.len(), out, room) })
    }

    /// What the error of a parse of bytes prints, its offset and its span.
    pub fn failure_bytes(&mut self, input: &[u8], width: usize) -> Option<&[u64]> {
        self.told(|out, room| unsafe { winnow_bench_failure_bytes(input.as_ptr(), input.len(), width as u64, out, room) })
    }

    /// What the error of a parse of a text prints, its offset and its span.
    pub fn failure_text(&mut self, input: &str, width: usize) -> Option<&[u64]> {
        self.told(|out, room| unsafe { winnow_bench_failure_text(input.as_ptr(), input.len(), width as u64, out, room) })
    }

    /// The line and the column of an offset.
    pub fn position(&mut self, input: &[u8], index: usize) -> Option<&[u64]> {
        self.told(|out, room| unsafe { winnow_bench_position(input.as_ptr(), input.len(), index as u64, out, room) })
    }
}
