//! Our library's accumulators, readings and ranges, declared as in `ours`.

use crate::ours::Room;

// The exports that gather or read take the input, the number of an accumulator or a type, and a number.
macro_rules! workloads {
    ($($export:ident($input:ty, $unit:ty) { $($name:ident = $kind:literal)* })*) => {
        unsafe extern "C" {
            $(fn $export(input: *const $unit, length: usize, kind: u64, number: u64) -> u64;)*
        }

        $($(pub fn $name(input: $input, number: u64) -> u64 {
            unsafe { $export(input.as_ptr(), input.len(), $kind, number) }
        })*)*
    };
}

workloads! {
    winnow_bench_gather_bytes(&[u8], u8) { vec = 0 vec_slices = 1 queue_slices = 2 }
    winnow_bench_gather_text(&str, u8) { text_chars = 0 text_parts = 1 cow_parts = 2 }
    winnow_bench_gather_keys(&[u64], u64) { tree_map = 0 hash_map = 1 tree_set = 2 hash_set = 3 }
    winnow_bench_read_bytes(&[u8], u8) { read_u8 = 0 read_u32 = 1 read_i64 = 2 }
    winnow_bench_read_text(&str, u8) { read_u8_text = 0 read_u32_text = 1 read_i64_text = 2 }
}

unsafe extern "C" {
    fn winnow_bench_range(kind: u64, first: u64, second: u64, out: *mut u64, room: usize) -> u64;
    fn winnow_bench_readings(input: *const u8, length: usize, out: *mut u64, room: usize) -> u64;
    fn winnow_bench_gathered_bytes(input: *const u8, length: usize, tokens: u64, out: *mut u64, room: usize) -> u64;
    fn winnow_bench_gathered_text(input: *const u8, length: usize, tokens: u64, out: *mut u64, room: usize) -> u64;
    fn winnow_bench_gathered_keys(keys: *const u64, length: usize, out: *mut u64, room: usize) -> u64;
}

impl Room {
    /// Which counts the range of a kind with these bounds contains, and its texts.
    pub fn range(&mut self, kind: u64, first: usize, second: usize) -> Option<&[u64]> {
        self.told(|out, room| unsafe { winnow_bench_range(kind, first as u64, second as u64, out, room) })
    }

    /// What bytes read as at each type.
    pub fn readings(&mut self, input: &[u8]) -> Option<&[u64]> {
        self.told(|out, room| unsafe { winnow_bench_readings(input.as_ptr(), input.len(), out, room) })
    }

    /// What bytes and their parts give.
    pub fn gathered_bytes(&mut self, input: &[u8], tokens: usize) -> Option<&[u64]> {
        self.told(|out, room| unsafe { winnow_bench_gathered_bytes(input.as_ptr(), input.len(), tokens as u64, out, room) })
    }

    /// What the characters of a text and its parts give.
    pub fn gathered_text(&mut self, input: &str, tokens: usize) -> Option<&[u64]> {
        self.told(|out, room| unsafe { winnow_bench_gathered_text(input.as_ptr(), input.len(), tokens as u64, out, room) })
    }

    /// What maps and sets hold of each key.
    pub fn gathered_keys(&mut self, keys: &[u64]) -> Option<&[u64]> {
        self.told(|out, room| unsafe { winnow_bench_gathered_keys(keys.as_ptr(), keys.len(), out, room) })
    }
}
