//! Times each workload by our parsers, written by hand on our streams, and by nom, answers compared first, and prints a table.
//!
//! `--short` takes smaller inputs and fewer turns, `--only WORD` the rows with that word in their names.

#[path = "../../rust/src/bin/measure/allocations.rs"]
mod allocations;
mod inputs;
mod ours;
mod theirs;

use std::env;
use std::hint::black_box;
use std::process::{Command, ExitCode};
use std::time::Instant;

type Workload = fn(&[u8]) -> u64;

/// A workload on an input: by parsers, by hand, and by nom.
struct Row {
    name: String,
    input: Vec<u8>,
    ways: [Workload; 3],
}

impl Row {
    // What one call of each way allocates, or `None` where their answers differ.
    fn compare(&self) -> Option<[u64; 3]> {
        let called = self.ways.map(|way| allocations::during(|| way(&self.input)));
        let [parsers, by_hand, nom] = called.map(|(answer, _)| answer);
        (parsers == by_hand && parsers == nom).then_some(called.map(|(_, used)| used.blocks))
    }

    // The seconds of each way, which begin in turn.
    fn race(&self, turn: usize) -> [f64; 3] {
        let mut seconds = [0.0; 3];
        for way in (0..3).map(|way| (way + turn) % 3) {
            let start = Instant::now();
            black_box(self.ways[way](black_box(&self.input)));
            seconds[way] = start.elapsed().as_secs_f64();
        }
        seconds
    }
}

fn least(times: [f64; 3], others: [f64; 3]) -> [f64; 3] {
    [0, 1, 2].map(|way| times[way].min(others[way]))
}

// The least times of each row in some turns. A turn goes over all rows.
fn race(rows: &[Row], turns: usize) -> Vec<[f64; 3]> {
    let mut times = vec![[f64::MAX; 3]; rows.len()];
    for turn in 0..turns {
        for (row, times) in rows.iter().zip(&mut times) {
            *times = least(*times, row.race(turn));
        }
    }
    times
}

// The times of the same rows in another process, whose code stands elsewhere.
fn elsewhere(words: &[String]) -> Vec<[f64; 3]> {
    let here = env::current_exe().expect("the program has a path");
    let output = Command::new(here.with_file_name("parsers-elsewhere")).args(words).arg("--times").output();
    let output = output.expect("the program starts again");
    let read = |line: &str| line.split(' ').map(|word| word.parse().ok()).collect::<Option<Vec<f64>>>()?.try_into().ok();
    String::from_utf8_lossy(&output.stdout).lines().filter_map(read).collect()
}

fn rows(length: usize) -> Vec<Row> {
    let text = inputs::words(length);
    let alike = b"word".repeat(length / 4);
    let names = inputs::names(length);
    let floats = inputs::floats(length);
    let records = inputs::records(length);
    let row = |name: &str, input: &[u8], ways| Row { name: name.to_string(), input: input.to_vec(), ways };
    use ours::{by_hand, partial, partial_by_hand, whole};
    use theirs::{parts, partial as streaming, whole as complete};
    vec![
        row("any", &text, [whole::any, by_hand::any, complete::any]),
        row("one_of", &text, [whole::one_of, by_hand::one_of, complete::one_of]),
        row("literal", &alike, [whole::literal, by_hand::literal, complete::literal]),
        row("take of 16", &text, [whole::take, by_hand::take, complete::take]),
        row("take_while", &text, [whole::take_while, by_hand::take_while, complete::take_while]),
        row("take_till", &text, [whole::take_till, by_hand::take_till, complete::take_till]),
        row("take_until", &text, [whole::take_until, by_hand::take_until, parts::take_until]),
        row("alt of four", &names, [whole::alt, by_hand::alt, parts::alt]),
        row("repeat into a count", &text, [whole::repeat_count, by_hand::repeat_count, parts::repeat_count]),
        row("repeat into a Vec", &text, [whole::repeat_vec, by_hand::repeat_vec, parts::repeat_vec]),
        row("separated", &text, [whole::separated, by_hand::separated, parts::separated]),
        row("alt of an array", &names, [whole::alt_of_array, by_hand::alt_of_array, parts::alt]),
        row("verify_fold", &text, [whole::verify_fold, by_hand::verify_fold, parts::verify_fold]),
        row("float", &floats, [whole::float, by_hand::float, parts::float]),
        row("record of four numbers", &records, [whole::records, by_hand::records, parts::records]),
        row("record of four numbers, written", &records, [whole::records_written, by_hand::records_written, parts::records_written]),
        row("any, more may follow", &text, [partial::any, partial_by_hand::any, streaming::any]),
        row("one_of, more may follow", &text, [partial::one_of, partial_by_hand::one_of, streaming::one_of]),
        row("literal, more may follow", &alike, [partial::literal, partial_by_hand::literal, streaming::literal]),
        row("take of 16, more may follow", &text, [partial::take, partial_by_hand::take, streaming::take]),
        row("take_while, more may follow", &text, [partial::take_while, partial_by_hand::take_while, streaming::take_while]),
        row("take_till, more may follow", &text, [partial::take_till, partial_by_hand::take_till, streaming::take_till]),
    ]
}

fn main() -> ExitCode {
    let words: Vec<String> = env::args().skip(1).collect();
    let has = |word: &str| words.iter().any(|other| other == word);
    let only = words.iter().skip_while(|other| *other != "--only").nth(1);
    let (length, turns) = if has("--short") { (1 << 20, 6) } else { (16 << 20, 12) };
    let mut rows = rows(length);
    rows.retain(|row| only.is_none_or(|word| row.name.contains(word)));
    if has("--times") {
        race(&rows, turns).iter().for_each(|[parsers, by_hand, nom]| println!("{parsers} {by_hand} {nom}"));
        return ExitCode::SUCCESS;
    }
    let compared: Vec<_> = rows.iter().map(Row::compare).collect();
    if compared.iter().any(Option::is_none) {
        let differ = rows.iter().zip(&compared).filter(|(_, compared)| compared.is_none());
        differ.for_each(|(row, _)| println!("answers differ: {}", row.name));
        return ExitCode::FAILURE;
    }
    println!("| Parser | ours, ns a byte | by hand | nom | ours / by hand | ours / nom | allocations of each |");
    println!("|---|--:|--:|--:|--:|--:|--:|");
    let times = race(&rows, turns).into_iter().zip(elsewhere(&words)).map(|(here, there)| least(here, there));
    for ((row, times), used) in rows.iter().zip(times).zip(compared.iter().flatten()) {
        let [parsers, by_hand, nom] = times.map(|seconds| seconds * 1e9 / row.input.len() as f64);
        println!(
            "| {} | {parsers:.3} | {by_hand:.3} | {nom:.3} | {:.2} | {:.2} | {}, {} and {} |",
            row.name,
            parsers / by_hand,
            parsers / nom,
            used[0],
            used[1],
            used[2],
        );
    }
    ExitCode::SUCCESS
}
