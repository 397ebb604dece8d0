//! The values of the formats as numbers, as `crates/winnow_bench_formats` makes them.

/// How much of a value goes into its number.
#[derive(Clone, Copy)]
pub enum Depth {
    /// The lengths and the first bytes of its parts, which takes little time
    Front,
    /// Each byte
    Whole,
}

/// Returns the number so far with one more. The order counts.
pub fn join(sum: u64, number: u64) -> u64 {
    (sum ^ number).wrapping_mul(0x0000_0100_0000_01b3)
}

/// Returns bytes as a number.
pub fn digest(bytes: &[u8], depth: Depth) -> u64 {
    let front = bytes.first().map_or(0, |first| bytes.len() as u64 ^ u64::from(*first));
    match depth {
        Depth::Front => front,
        Depth::Whole => bytes.iter().fold(front, |sum, byte| join(sum, u64::from(*byte))),
    }
}

/// Returns an integer as a number.
pub fn digest_of_integer(integer: i64) -> u64 {
    join(u64::from(integer < 0), integer.unsigned_abs())
}
