//! Scripts that also compare and search: on every short input, and on inputs that look random.

use crate::case::{Case, Input};
use crate::generate::{BYTES, CHARS, random_cases, words};
use winnow_bench::inputs::Random;
use winnow_bench::ours::Room;
use winnow_bench::script::{COMPARE, FIND, RawStep, Step};
use winnow_bench::their_search_runs::tell_run;

/// Literals are parts of these.
const LITERALS: &str = "aé\n\0a€aé";

/// How many scripts were compared, or the first that differs.
pub fn compare_search_runs(room: &mut Room, random: usize) -> Result<usize, String> {
    let mut count = 0;
    let mut compare = |input: &Input, literals: &str, script: &[RawStep]| {
        count += 1;
        compare_run(room, input, literals, script)
    };
    let bytes = words(&BYTES, 3).into_iter().map(Input::Bytes);
    let texts = words(&CHARS, 3).into_iter().map(|chars| Input::Text(chars.into_iter().collect()));
    let scripts = short_scripts();
    for input in bytes.chain(texts) {
        for script in &scripts {
            compare(&input, LITERALS, script)?;
        }
    }
    let mut numbers = Random::new(29);
    for Case { input, script, .. } in random_cases(random) {
        let literals = random_literals(&mut numbers, &input);
        let script: Vec<RawStep> = script.into_iter().flat_map(|step| [RawStep::from(step), random_search(&mut numbers)]).collect();
        compare(&input, &literals, &script)?;
    }
    Ok(count)
}

fn compare_run(room: &mut Room, input: &Input, literals: &str, script: &[RawStep]) -> Result<(), String> {
    let (ours, theirs) = match input {
        Input::Bytes(bytes) => {
            let all = literals.as_bytes();
            let steps: Vec<_> = script.iter().filter_map(|step| step.search_step(all)).collect();
            (room.search_answers_bytes(bytes, all, script), tell_run(bytes.as_slice(), &steps))
        }
        Input::Text(text) => {
            let steps: Vec<_> = script.iter().filter_map(|step| step.search_step(literals)).collect();
            (room.search_answers_text(text, literals, script), tell_run(text.as_str(), &steps))
        }
    };
    if ours.as_ref() == Some(&theirs) {
        return Ok(());
    }
    let input = match input {
        Input::Bytes(bytes) => format!("bytes {bytes:02x?}"),
        Input::Text(text) => format!("text {text:?}"),
    };
    Err(format!("{input}, literals of {literals:?}, {script:?}:\nours {ours:?}\nRust {theirs:?}"))
}

// A step or two that move, and then every comparison and search of a part of the literals that is short.
fn short_scripts() -> Vec<Vec<RawStep>> {
    let moves = [vec![], vec![Step::Next], vec![Step::Take(2)], vec![Step::Mark, Step::Next, Step::Next, Step::Reset(0)], vec![Step::Finish]];
    let mut searches = Vec::new();
    for start in 0..LITERALS.len() {
        for length in 0..4 {
            searches.extend([COMPARE, FIND[0], FIND[1], FIND[2]].map(|kind| RawStep::search(kind, start, length)));
        }
    }
    moves.into_iter().map(|moves| moves.into_iter().map(RawStep::from).chain(searches.iter().copied()).collect()).collect()
}

/// A part of the input that is a text, and a few characters more.
pub fn random_literals(random: &mut Random, input: &Input) -> String {
    let text = match input {
        Input::Bytes(bytes) => bytes.utf8_chunks().map(|chunk| chunk.valid()).max_by_key(|text| text.len()).unwrap_or("aé"),
        Input::Text(text) => text.as_str(),
    };
    let start = random.below(text.chars().count() as u64 + 1) as usize;
    let mut literals: String = text.chars().skip(start).take(6).collect();
    literals.extend((0..2).map(|_| random.pick(&CHARS)));
    literals
}

fn random_search(random: &mut Random) -> RawStep {
    let kind = random.pick(&[COMPARE, COMPARE, FIND[0], FIND[0], FIND[1], FIND[2]]);
    RawStep::search(kind, random.below(6) as usize, random.below(4) as usize)
}
