//! The exports of `crates/winnow_bench_formats`, each with a safe function over it. A piece of no bytes stands for the whole text.

use crate::digest::Depth;

unsafe extern "C" {
    fn winnow_bench_read_csv(input: *const u8, length: usize, piece: usize, depth: u64) -> u64;
    fn winnow_bench_fill_csv(input: *const u8, length: usize, piece: usize, depth: u64) -> u64;
    fn winnow_bench_lend_csv(input: *const u8, length: usize, piece: usize, depth: u64) -> u64;
    fn winnow_bench_scan_csv(input: *const u8, length: usize, piece: usize, depth: u64) -> u64;
    fn winnow_bench_read_resp(input: *const u8, length: usize, piece: usize, depth: u64) -> u64;
    fn winnow_bench_scan_resp(input: *const u8, length: usize, piece: usize, depth: u64) -> u64;
    fn winnow_bench_read_resp_events(input: *const u8, length: usize, piece: usize, depth: u64) -> u64;
    fn winnow_bench_read_json_events(input: *const u8, length: usize, piece: usize, depth: u64) -> u64;
    fn winnow_bench_read_json(input: *const u8, length: usize, depth: u64) -> u64;
}

/// Reads a JSON text as a value.
pub fn read_json(input: &[u8], depth: Depth) -> u64 {
    unsafe { winnow_bench_read_json(input.as_ptr(), input.len(), depth as u64) }
}

/// Reads records of vectors.
pub fn read_csv(input: &[u8], piece: usize, depth: Depth) -> u64 {
    unsafe { winnow_bench_read_csv(input.as_ptr(), input.len(), piece, depth as u64) }
}

/// Reads records that are filled again.
pub fn fill_csv(input: &[u8], piece: usize, depth: Depth) -> u64 {
    unsafe { winnow_bench_fill_csv(input.as_ptr(), input.len(), piece, depth as u64) }
}

/// Reads fields that are lent.
pub fn lend_csv(input: &[u8], piece: usize, depth: Depth) -> u64 {
    unsafe { winnow_bench_lend_csv(input.as_ptr(), input.len(), piece, depth as u64) }
}

/// Reads records of vectors, by a reader that goes over each byte once.
pub fn scan_csv(input: &[u8], piece: usize, depth: Depth) -> u64 {
    unsafe { winnow_bench_scan_csv(input.as_ptr(), input.len(), piece, depth as u64) }
}

/// Reads replies.
pub fn read_resp(input: &[u8], piece: usize, depth: Depth) -> u64 {
    unsafe { winnow_bench_read_resp(input.as_ptr(), input.len(), piece, depth as u64) }
}

/// Reads replies, by a reader that goes over each byte once.
pub fn scan_resp(input: &[u8], piece: usize, depth: Depth) -> u64 {
    unsafe { winnow_bench_scan_resp(input.as_ptr(), input.len(), piece, depth as u64) }
}

/// Reads events of replies.
pub fn read_resp_events(input: &[u8], piece: usize, depth: Depth) -> u64 {
    unsafe { winnow_bench_read_resp_events(input.as_ptr(), input.len(), piece, depth as u64) }
}

/// Reads events of a JSON text.
pub fn read_json_events(input: &[u8], piece: usize, depth: Depth) -> u64 {
    unsafe { winnow_bench_read_json_events(input.as_ptr(), input.len(), piece, depth as u64) }
}
