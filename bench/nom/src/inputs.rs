//! Inputs, the same at each run.

// Numbers that look random (SplitMix64).
struct Random(u64);

impl Random {
    fn below(&mut self, bound: u64) -> u64 {
        self.0 = self.0.wrapping_add(0x9e37_79b9_7f4a_7c15);
        let mut mixed = self.0;
        mixed = (mixed ^ (mixed >> 30)).wrapping_mul(0xbf58_476d_1ce4_e5b9);
        mixed = (mixed ^ (mixed >> 27)).wrapping_mul(0x94d0_49bb_1331_11eb);
        (mixed ^ (mixed >> 31)) % bound
    }
}

/// Words of one to nine letters, in lines of some seven words, with a space or a newline after each.
pub fn words(length: usize) -> Vec<u8> {
    let mut random = Random(1);
    let mut text = Vec::with_capacity(length + 16);
    while text.len() < length {
        for _ in 0..1 + random.below(9) {
            text.push(b'a' + random.below(26) as u8);
        }
        text.push(if random.below(7) == 0 { b'\n' } else { b' ' });
    }
    text
}

/// Names out of four.
pub fn names(length: usize) -> Vec<u8> {
    let mut random = Random(2);
    let mut text = Vec::with_capacity(length + 16);
    while text.len() < length {
        text.extend(["alpha", "beta", "gamma", "delta"][random.below(4) as usize].as_bytes());
    }
    text
}

/// Numbers with a fraction, and every fourth with an exponent, a space or a newline after each.
pub fn floats(length: usize) -> Vec<u8> {
    let mut random = Random(3);
    let mut text = Vec::with_capacity(length + 32);
    while text.len() < length {
        let sign = if random.below(3) == 0 { "-" } else { "" };
        let exponent = if random.below(4) == 0 { format!("e{}", random.below(40)) } else { String::new() };
        text.extend(format!("{sign}{}.{}{exponent}", random.below(1000), random.below(1_000_000)).as_bytes());
        text.push(if random.below(7) == 0 { b'\n' } else { b' ' });
    }
    text
}

/// Bytes that look random, whole records of nine.
pub fn records(length: usize) -> Vec<u8> {
    let mut random = Random(4);
    (0..length / 9 * 9).map(|_| random.below(256) as u8).collect()
}
