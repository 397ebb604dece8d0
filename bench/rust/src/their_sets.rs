//! What every form of a set of the Rust crate answers of a token, word for word as `crates/winnow_bench_values` tells it.

use winnow::stream::{AsChar, ContainsToken};

/// Of a token, and of sets with two bounds, each given by its number.
pub fn tell_sets(token: u64, bounds: (u64, u64)) -> Vec<u64> {
    let mut told = Vec::new();
    if let Some(token) = char_of(token) {
        tell_token(&mut told, token, bounds);
        tell_token(&mut told, &token, bounds);
        if let Some(byte) = byte_of(bounds.0) {
            tell_set(&mut told, byte, token);
            tell_set(&mut told, byte, &token);
        }
    }
    if let Some(token) = byte_of(token) {
        tell_token(&mut told, token, bounds);
        tell_token(&mut told, &token, bounds);
        if let Some(byte) = byte_of(bounds.0) {
            tell_set(&mut told, byte, token);
            tell_set(&mut told, byte, &token);
        }
    }
    told
}

fn char_of(number: u64) -> Option<char> {
    char::from_u32(u32::try_from(number).ok()?)
}

fn byte_of(number: u64) -> Option<u8> {
    u8::try_from(number).ok()
}

fn tell_token<T: AsChar + Copy>(told: &mut Vec<u64>, token: T, (low, high): (u64, u64)) {
    if let (Some(low), Some(high)) = (char_of(low), char_of(high)) {
        tell_ranges(told, token, low, high);
        tell_chars(told, token, low, high);
        tell_unions(told, token, low, high);
        tell_long_unions(told, token, low, high);
    }
    if let (Some(low), Some(high)) = (byte_of(low), byte_of(high)) {
        tell_ranges(told, token, low, high);
        tell_bytes(told, token, low, high);
    }
}

fn tell_ranges<T: AsChar + Copy, B: AsChar + Copy>(told: &mut Vec<u64>, token: T, low: B, high: B) {
    tell_set(told, low..high, token);
    tell_set(told, low..=high, token);
    tell_set(told, low.., token);
    tell_set(told, ..high, token);
    tell_set(told, ..=high, token);
    tell_set(told, .., token);
}

fn tell_chars<T: AsChar + Copy>(told: &mut Vec<u64>, token: T, low: char, high: char) {
    let both = [low, high];
    tell_set(told, low, token);
    tell_set(told, both.as_slice(), token);
    tell_set(told, both, token);
    tell_set(told, &both, token);
    // A set as data, which the crate does not have.
    tell_set(told, (low..=high, high..=high), token);
    tell_set(told, |token: T| token.is_alpha(), token);
}

fn tell_bytes<T: AsChar + Copy>(told: &mut Vec<u64>, token: T, low: u8, high: u8) {
    let both = [low, high];
    tell_set(told, both.as_slice(), token);
    tell_set(told, both, token);
    tell_set(told, &both, token);
}

fn tell_unions<T: AsChar + Copy>(told: &mut Vec<u64>, token: T, a: char, b: char) {
    tell_set(told, (), token);
    tell_set(told, (a,), token);
    tell_set(told, (a, b), token);
    tell_set(told, ((), a..b, b), token);
    tell_set(told, (a, (), [b, a], ..'\u{9}'), token);
    tell_set(told, (a, 'y', 'z', 'é', b), token);
}

fn tell_long_unions<T: AsChar + Copy>(told: &mut Vec<u64>, token: T, a: char, b: char) {
    tell_set(told, (a, '1', '2', '3', '4', b), token);
    tell_set(told, (a, '1', '2', '3', '4', '5', b), token);
    tell_set(told, (a, '1', '2', '3', '4', '5', '6', b), token);
    tell_set(told, (a, '1', '2', '3', '4', '5', '6', '7', b), token);
    tell_set(told, (a, '1', '2', '3', '4', '5', '6', '7', '8', b), token);
}

fn tell_set<T, C: ContainsToken<T>>(told: &mut Vec<u64>, set: C, token: T) {
    told.push(u64::from(set.contains_token(token)));
}
