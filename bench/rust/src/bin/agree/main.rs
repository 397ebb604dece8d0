//! Compares what both sides answer: first on every short input, then on many that look random, the same ones at each run. A difference
//! is told on the smallest case that was found, and fails.
//!
//! Nothing here is asked that the two are meant to answer in two ways. The crate panics, or answers anything, where a slice is asked for
//! at no valid offset, or a distance from a later place: there both sides of a script answer `BadOffset` and `LaterMark` of themselves.

mod bit_cases;
mod case;
mod count_cases;
mod error_cases;
mod generate;
mod jobs;
mod piece_cases;
#[cfg(winnow_hooks)]
mod place_cases;
mod search_cases;
mod search_run_cases;
mod shrink;
mod text_cases;
mod tree_cases;

use jobs::Wanted;
use std::env;
use std::process::ExitCode;
use std::time::Instant;
use winnow_bench::ours::Room;
use winnow_bench::theirs;

fn main() -> ExitCode {
    let start = Instant::now();
    let Some(wanted) = Wanted::read(env::args().skip(1)) else {
        println!("usage: bench/agree [--scripts N] [--seed N]");
        return ExitCode::from(2);
    };
    let mut room = Room::new();
    if let Some(size) = (0..1000).chain([usize::MAX - 1, usize::MAX]).find(|size| room.needed(*size) != Some(theirs::needed(*size))) {
        println!("a shortage of {size}: ours {:?}, Rust {:?}", room.needed(size), theirs::needed(size));
        return ExitCode::FAILURE;
    }
    let compared = match jobs::run(&jobs::all(&wanted)) {
        Ok(compared) => compared,
        Err(difference) => {
            println!("{difference}");
            return ExitCode::FAILURE;
        }
    };
    if cfg!(not(winnow_hooks)) {
        println!("agree: parse errors and positions are left out, since this copy of the crate hands them out to nobody (bench/README.md)");
    }
    let counts: Vec<String> = compared.iter().map(|(kind, count)| format!("{count} {kind}")).collect();
    println!("agree: {}, and no difference, in {:.1} s", counts.join(", "), start.elapsed().as_secs_f64());
    println!("agree: {} of the scripts in pieces look random, from seed {}", wanted.scripts, wanted.seed);
    ExitCode::SUCCESS
}
