//! Bits, alone, in each wrapper and in two nests: each short script on all short inputs from each place on, and on inputs that look random.

use crate::case::{Case, Input};
use crate::generate::{BYTES, random_cases, short_scripts, words};
use winnow_bench::inputs::Random;
use winnow_bench::ours::Room;
use winnow_bench::script::{RawStep, Step};
use winnow_bench::their_bits as theirs;

/// How many cases were compared, or the first that differs.
pub fn compare_bits(room: &mut Room, random: usize) -> Result<usize, String> {
    let mut count = 0;
    let mut compare = |input: &[u8], place: usize, script: &[Step], width: usize| {
        count += 1;
        compare_case(room, input, place, script, width)
    };
    let scripts = short_scripts();
    for input in words(&BYTES, 2) {
        for place in 0..places(&input) {
            for (width, script) in scripts.iter().enumerate() {
                compare(&input, place, script, width)?;
            }
        }
    }
    let mut numbers = Random::new(17);
    for Case { input, script, width } in random_cases(random) {
        if let Input::Bytes(bytes) = input {
            compare(&bytes, numbers.below(places(&bytes) as u64) as usize, &script, width)?;
        }
    }
    Ok(count)
}

// Where no byte is, a stream of bits has no place but 0: the crate answers anything at others.
fn places(input: &[u8]) -> usize {
    if input.is_empty() { 1 } else { 8 }
}

fn compare_case(room: &mut Room, input: &[u8], place: usize, script: &[Step], width: usize) -> Result<(), String> {
    let raw: Vec<RawStep> = script.iter().copied().map(RawStep::from).collect();
    let ours = room.answers_bits(input, place, &raw);
    let theirs = theirs::tell_run(input, place, script);
    if ours.as_ref() != Some(&theirs) {
        return Err(format!("bits {input:02x?} from {place} on, {script:?}:\nours {ours:?}\nRust {theirs:?}"));
    }
    for nest in 0..theirs::NESTS {
        let ours = room.answers_wrapped_bits(input, place, nest, &raw);
        if ours.as_ref() != Some(&theirs::tell_wrapped_run(input, place, nest, script)) {
            return Err(format!("bits {input:02x?} from {place} on, in nest {nest}, {script:?}:\nours {ours:?}"));
        }
    }
    let ours = room.others_bits(input, place, width);
    let theirs = theirs::others(input, place, width);
    if ours.as_ref() != Some(&theirs) {
        return Err(format!("bits {input:02x?} from {place} on, other calls behind width {width}: ours {ours:?}, Rust {theirs:?}"));
    }
    Ok(())
}
