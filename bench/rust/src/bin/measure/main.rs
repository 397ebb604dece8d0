//! Times each workload over both sides, answers compared first, and prints a table.
//!
//! `--short` takes smaller inputs and fewer turns, `--only WORD` the rows with that word in their names, and `--instructions` counts
//! instructions by valgrind in place of times.

mod accumulator_rows;
mod allocations;
mod bit_rows;
mod error_rows;
mod instructions;
mod piece_rows;
mod rows;
mod search_rows;
mod timing;
mod tree_rows;

use allocations::Used;
use rows::{Inputs, Row, Sizes, rows};
use std::env;
use std::process::ExitCode;
use timing::Times;

fn main() -> ExitCode {
    let words: Vec<String> = env::args().skip(1).collect();
    let has = |word: &str| words.iter().any(|other| other == word);
    let after = |word: &str| words.iter().skip_while(|other| *other != word).nth(1);
    let (sizes, turns) = match (has("--instructions") || has("--once"), has("--short")) {
        (true, _) => (Sizes::COUNTED, 0),
        (_, true) => (Sizes::SHORT, 5),
        _ => (Sizes::WHOLE, 15),
    };
    let [turns, others] = timing::split(turns);
    let inputs = Inputs::new(&sizes);
    let mut rows = rows(&inputs);
    rows.retain(|row| after("--only").is_none_or(|word| row.name.contains(word)));
    if let Some(name) = after("--once") {
        once(&rows, name, has("ours"));
    } else if has("--instructions") {
        count(&rows);
    } else if has("--times") {
        timing::race(&rows, others).iter().for_each(|times| println!("{times}"));
    } else {
        return compare_and_race(&rows, turns, &words);
    }
    ExitCode::SUCCESS
}

fn compare_and_race(rows: &[Row], turns: usize, words: &[String]) -> ExitCode {
    let compared: Vec<_> = rows.iter().map(Row::compare).collect();
    let allocations: Vec<_> = compared.iter().flatten().copied().collect();
    if allocations.len() < rows.len() {
        let differ = rows.iter().zip(&compared).filter(|(_, compared)| compared.is_none());
        differ.for_each(|(row, _)| println!("answers differ: {}", row.name));
        return ExitCode::FAILURE;
    }
    let here = timing::race(rows, turns);
    let times: Vec<_> = here.into_iter().zip(timing::others(words)).map(|(here, others)| here.least(others)).collect();
    let told = || rows.iter().zip(&times).zip(&allocations);
    if rows.iter().any(|row| !row.is_fed) {
        println!("| Workload | ours, ms | Rust, ms | ours / Rust | ours, million a second | allocations a call, ours and Rust |");
        println!("|---|--:|--:|--:|--:|--:|");
        told().filter(|((row, _), _)| !row.is_fed).for_each(|((row, times), used)| print(row, times, used));
    }
    if rows.iter().any(|row| row.is_fed) {
        println!();
        println!("| Workload | ours, ns a byte | Rust, ns a byte | ours / Rust | allocations, ours and Rust | most KB at once, ours and Rust |");
        println!("|---|--:|--:|--:|--:|--:|");
        told().filter(|((row, _), _)| row.is_fed).for_each(|((row, times), used)| print_fed(row, times, used));
    }
    ExitCode::SUCCESS
}

fn print(row: &Row, Times { ours, theirs }: &Times, [our_use, their_use]: &[Used; 2]) {
    println!(
        "| {} | {:.2} | {:.2} | {:.2} | {:.0} | {} and {} |",
        row.name,
        ours * 1e3,
        theirs * 1e3,
        ours / theirs,
        (row.units * row.calls) as f64 / ours / 1e6,
        our_use.blocks,
        their_use.blocks,
    );
}

fn print_fed(row: &Row, Times { ours, theirs }: &Times, [our_use, their_use]: &[Used; 2]) {
    let bytes = (row.units * row.calls) as f64;
    println!(
        "| {} | {:.3} | {:.3} | {:.2} | {} and {} | {} and {} |",
        row.name,
        ours * 1e9 / bytes,
        theirs * 1e9 / bytes,
        ours / theirs,
        our_use.blocks,
        their_use.blocks,
        our_use.bytes >> 10,
        their_use.bytes >> 10,
    );
}

fn count(rows: &[Row]) {
    println!("| Workload | ours, instructions | Rust, instructions | ours / Rust |");
    println!("|---|--:|--:|--:|");
    let start = instructions::of("no workload", "ours");
    for row in rows {
        let ours = instructions::of(&row.name, "ours") - start;
        let theirs = instructions::of(&row.name, "theirs") - start;
        println!("| {} | {ours} | {theirs} | {:.2} |", row.name, ours as f64 / theirs as f64);
    }
}

// One call of one side, for `instructions`.
fn once(rows: &[Row], name: &str, is_ours: bool) {
    for row in rows.iter().filter(|row| row.name == name) {
        if is_ours { row.call_ours() } else { row.call_theirs() }
    }
}
