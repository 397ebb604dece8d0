//! The smallest case with a difference that leaving out finds.

use crate::case::{Case, Input};
use winnow_bench::ours::Room;

/// Leaves out a step or a token at a time, as long as a difference stays.
pub fn smallest(mut case: Case, room: &mut Room) -> Case {
    while let Some(smaller) = smaller(&case).into_iter().find(|case| case.differs(room)) {
        case = smaller;
    }
    case
}

fn smaller(case: &Case) -> Vec<Case> {
    let without_step = (0..case.script.len()).map(|at| Case { script: without(&case.script, at), ..case.clone() });
    let inputs: Vec<Input> = match &case.input {
        Input::Bytes(bytes) => (0..bytes.len()).map(|at| Input::Bytes(without(bytes, at))).collect(),
        Input::Text(text) => {
            let chars: Vec<char> = text.chars().collect();
            (0..chars.len()).map(|at| Input::Text(without(&chars, at).into_iter().collect())).collect()
        }
    };
    without_step.chain(inputs.into_iter().map(|input| Case { input, ..case.clone() })).collect()
}

fn without<T: Clone>(list: &[T], at: usize) -> Vec<T> {
    [&list[..at], &list[at + 1..]].concat()
}
