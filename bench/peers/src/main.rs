//! Times readers of formats, ours and nom's, answers compared first, and prints a table.
//!
//!     winnow-bench-formats FOLDER [--turns N] [--ways] [--once FORMAT WAY]
//!     winnow-bench-formats --documents COUNT SEED
//!
//! FOLDER has the files `csv`, `resp` and `json`. `--ways` only lists the ways to read them, and `--once` reads one file once, in one way, so
//! that a profiler counts that alone. `--documents` compares what all read of random documents, of which half are damaged.

#[path = "../../rust/src/bin/measure/allocations.rs"]
mod allocations;
mod csv;
mod digest;
mod documents;
mod json;
mod ours;
mod resp;

use digest::Depth;
use std::hint::black_box;
use std::path::Path;
use std::process::ExitCode;
use std::time::Instant;
use std::{env, fs};

type Read = fn(&[u8], Depth) -> u64;

// How many bytes a piece has.
const PIECE: usize = 64 * 1024;

/// A format, with each way to read it.
struct Format {
    name: &'static str,
    input: Vec<u8>,
    ways: Vec<(&'static str, Read)>,
}

impl Format {
    // Whether all ways give the same values.
    fn agrees(&self) -> bool {
        let answers: Vec<_> = self.ways.iter().map(|(_, read)| read(&self.input, Depth::Whole)).collect();
        answers.iter().all(|answer| *answer == answers[0])
    }

    // The least nanoseconds of each way for a byte. The ways begin in turn.
    fn race(&self, turns: usize) -> Vec<f64> {
        let mut least = vec![f64::MAX; self.ways.len()];
        for turn in 0..turns {
            for way in (0..self.ways.len()).map(|way| (way + turn) % self.ways.len()) {
                let start = Instant::now();
                black_box(self.ways[way].1(black_box(&self.input), Depth::Front));
                least[way] = least[way].min(start.elapsed().as_secs_f64() * 1e9 / self.input.len() as f64);
            }
        }
        least
    }

    fn print(&self, turns: usize) {
        let times = self.race(turns);
        for ((way, read), time) in self.ways.iter().zip(&times) {
            let (_, used) = allocations::during(|| read(&self.input, Depth::Front));
            let part = time / times[0];
            let blocks = used.blocks as f64 / self.input.len() as f64 * 1000.0;
            println!("| {} | {way} | {time:.2} | {part:.2} | {blocks:.1} | {} |", self.name, used.bytes >> 10);
        }
    }
}

// The ways to read the files.
fn formats(folder: &Path) -> Vec<Format> {
    let file = |name| fs::read(folder.join(name)).expect("the folder has a file for each format");
    vec![
        Format {
            name: "CSV",
            input: file("csv"),
            ways: vec![
                ("ours", |input, depth| ours::read_csv(input, 0, depth)),
                ("ours, in pieces of 64 KB", |input, depth| ours::read_csv(input, PIECE, depth)),
                ("ours, a record filled again", |input, depth| ours::fill_csv(input, 0, depth)),
                ("ours, a record filled again, in pieces of 64 KB", |input, depth| ours::fill_csv(input, PIECE, depth)),
                ("ours, fields lent", |input, depth| ours::lend_csv(input, 0, depth)),
                ("ours, fields lent, in pieces of 64 KB", |input, depth| ours::lend_csv(input, PIECE, depth)),
                ("nom", csv::read_owned),
                ("nom, fields borrowed", csv::read_borrowed),
            ],
        },
        Format {
            name: "RESP",
            input: file("resp"),
            ways: vec![
                ("ours", |input, depth| ours::read_resp(input, 0, depth)),
                ("ours, in pieces of 64 KB", |input, depth| ours::read_resp(input, PIECE, depth)),
                ("nom", resp::read_owned),
                ("nom, strings borrowed", resp::read_borrowed),
            ],
        },
        Format {
            name: "RESP events",
            input: file("resp"),
            ways: vec![
                ("ours", |input, depth| ours::read_resp_events(input, 0, depth)),
                ("ours, in pieces of 64 KB", |input, depth| ours::read_resp_events(input, PIECE, depth)),
                ("nom, strings borrowed, gone over as events", resp::read_events),
            ],
        },
        Format { name: "JSON", input: file("json"), ways: vec![("ours", ours::read_json), ("nom", json::read_owned)] },
        Format {
            name: "JSON events",
            input: file("json"),
            ways: vec![
                ("ours", |input, depth| ours::read_json_events(input, 0, depth)),
                ("ours, in pieces of 64 KB", |input, depth| ours::read_json_events(input, PIECE, depth)),
                ("nom, a value gone over as events", |input, depth| json::read_events(input, depth).unwrap_or(u64::MAX)),
            ],
        },
    ]
}

// The ways of which one reads byte by byte, over the first MB of each file.
fn bytewise(folder: &Path) -> Vec<Format> {
    let front = |name| {
        let mut input = fs::read(folder.join(name)).expect("the folder has a file for each format");
        input.truncate(1_000_000);
        input
    };
    let pair =
        |name, file, whole: Read, bytewise: Read| Format { name, input: front(file), ways: vec![("whole", whole), ("byte by byte", bytewise)] };
    vec![
        pair("CSV, by a scan", "csv", |input, depth| ours::scan_csv(input, 0, depth), |input, depth| ours::scan_csv(input, 1, depth)),
        pair("CSV, a record filled again", "csv", |input, depth| ours::fill_csv(input, 0, depth), |input, depth| ours::fill_csv(input, 1, depth)),
        pair("CSV, fields lent", "csv", |input, depth| ours::lend_csv(input, 0, depth), |input, depth| ours::lend_csv(input, 1, depth)),
        pair("RESP, by a scan", "resp", |input, depth| ours::scan_resp(input, 0, depth), |input, depth| ours::scan_resp(input, 1, depth)),
        pair("RESP events", "resp", |input, depth| ours::read_resp_events(input, 0, depth), |input, depth| ours::read_resp_events(input, 1, depth)),
        pair("JSON events", "json", |input, depth| ours::read_json_events(input, 0, depth), |input, depth| ours::read_json_events(input, 1, depth)),
    ]
}

fn read_once(formats: &[Format], name: &str, way: &str) -> Option<u64> {
    let format = formats.iter().find(|format| format.name == name)?;
    let (_, read) = format.ways.iter().find(|(other, _)| *other == way)?;
    Some(read(&format.input, Depth::Front))
}

fn main() -> ExitCode {
    let words: Vec<String> = env::args().skip(1).collect();
    let after = |word: &str| words.iter().skip_while(|other| *other != word).skip(1).map(String::as_str).collect::<Vec<_>>();
    if let [count, seed] = after("--documents")[..] {
        return documents::compare(count.parse().expect("a number of documents"), seed.parse().expect("a number to make them from"));
    }
    let folder = Path::new(&words[0]);
    let mut formats = formats(folder);
    if let [name, way] = after("--once")[..] {
        println!("{}", read_once(&formats, name, way).expect("there is such a way"));
        return ExitCode::SUCCESS;
    }
    if words.iter().any(|word| word == "--ways") {
        for format in &formats {
            format.ways.iter().for_each(|(way, _)| println!("{}:{way}", format.name));
        }
        return ExitCode::SUCCESS;
    }
    formats.extend(bytewise(folder));
    let turns = after("--turns").first().map_or(15, |turns| turns.parse().expect("a number of turns"));
    if let Some(format) = formats.iter().find(|format| !format.agrees()) {
        println!("values differ: {}", format.name);
        return ExitCode::FAILURE;
    }
    println!("| Format | Read by | ns a byte | part of ours | allocations a KB | most memory, KiB |");
    println!("|---|---|--:|--:|--:|--:|");
    formats.iter().for_each(|format| format.print(turns));
    ExitCode::SUCCESS
}
