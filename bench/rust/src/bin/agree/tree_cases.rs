//! The texts of trees of errors: of all short lists of steps on short inputs, and of trees that look random on inputs that do.

use crate::case::{Case, Input};
use crate::generate::{random_cases, words};
use winnow_bench::inputs::Random;
use winnow_bench::ours::Room;
use winnow_bench::script::RawStep;
use winnow_bench::their_trees as theirs;

/// How many lists of steps were compared, or the first that differs.
pub fn compare_trees(room: &mut Room, random: usize) -> Result<usize, String> {
    let mut count = 0;
    let mut compare = |input: &Input, steps: &[RawStep]| {
        count += 1;
        compare_steps(room, input, steps)
    };
    let inputs = [
        Input::Text("short".to_owned()),
        Input::Text("é😀\nand a second line".to_owned()),
        Input::Text("twenty-one characters".to_owned()),
        Input::Text("no more than twenty é".to_owned()),
        Input::Bytes(b"damaged \xe2\x82 \xff in its first line".to_vec()),
    ];
    let all: Vec<RawStep> = (0..5).flat_map(|kind| [(0, 0), (2, 1), (9, 2)].map(|(width, word)| RawStep::new(kind, width, word))).collect();
    for steps in words(&all, 3) {
        let steps: Vec<RawStep> = [RawStep::new(0, 0, 0)].into_iter().chain(steps).collect();
        for input in &inputs {
            compare(input, &steps)?;
        }
    }
    let mut numbers = Random::new(31);
    for Case { input, .. } in random_cases(random) {
        let count = numbers.below(16);
        let steps: Vec<RawStep> = (0..count).map(|_| random_step(&mut numbers)).collect();
        compare(&input, &steps)?;
    }
    Ok(count)
}

// Errors come as often as they are joined, so that many trees are deep.
fn random_step(random: &mut Random) -> RawStep {
    RawStep::new(random.pick(&[0, 0, 1, 2, 3, 4, 4]), random.below(24), random.below(4))
}

fn compare_steps(room: &mut Room, input: &Input, steps: &[RawStep]) -> Result<(), String> {
    let (ours, theirs) = match input {
        Input::Bytes(bytes) => (room.trees_bytes(bytes, steps), theirs::trees_bytes(bytes, steps)),
        Input::Text(text) => (room.trees_text(text, steps), theirs::trees_text(text, steps)),
    };
    if ours == Some(&theirs) {
        return Ok(());
    }
    let input = match input {
        Input::Bytes(bytes) => format!("bytes {bytes:02x?}"),
        Input::Text(text) => format!("text {text:?}"),
    };
    Err(format!("{input}, trees by {steps:?}:\nours {ours:?}\nRust {theirs:?}"))
}
