//! The least times of many turns.

use crate::rows::Row;
use std::env;
use std::fmt;
use std::path::Path;
use std::process::Command;
use std::time::Instant;

/// The seconds of both sides.
#[derive(Clone, Copy)]
pub struct Times {
    pub ours: f64,
    pub theirs: f64,
}

impl Times {
    pub fn least(self, other: Times) -> Times {
        Times { ours: self.ours.min(other.ours), theirs: self.theirs.min(other.theirs) }
    }
}

impl fmt::Display for Times {
    fn fmt(&self, f: &mut fmt::Formatter<'_>) -> fmt::Result {
        write!(f, "{} {}", self.ours, self.theirs)
    }
}

/// The least time of each row and side in so many turns. A turn goes over all rows, so that a busy moment of the machine spoils one
/// turn of some rows and not all turns of one; and every other turn begins each row with theirs.
pub fn race(rows: &[Row], turns: usize) -> Vec<Times> {
    let mut least = vec![Times { ours: f64::MAX, theirs: f64::MAX }; rows.len()];
    for turn in 0..turns {
        for (row, least) in rows.iter().zip(&mut least) {
            *least = least.least(race_once(row, turn % 2 == 0));
        }
    }
    least
}

fn race_once(row: &Row, ours_first: bool) -> Times {
    let time_ours = || time(|| row.call_ours());
    let time_theirs = || time(|| row.call_theirs());
    if ours_first {
        let ours = time_ours();
        Times { ours, theirs: time_theirs() }
    } else {
        let theirs = time_theirs();
        Times { ours: time_ours(), theirs }
    }
}

fn time(call: impl Fn()) -> f64 {
    let start = Instant::now();
    call();
    start.elapsed().as_secs_f64()
}

/// This program with all its code 16 bytes further on.
const ELSEWHERE: &str = "measure-elsewhere";

/// How many of the turns this process takes, and how many each of three others.
pub fn split(turns: usize) -> [usize; 2] {
    let others = turns / 4;
    [turns - 3 * others, others]
}

/// The least times of the same rows in three other processes, called with the same words: two of this program elsewhere, and one of itself.
///
/// Where a jump crosses a border of 32 bytes some processors take it slowly, so a short loop can take half as long again by its place
/// alone. Single rows were also seen as slow in one whole run, and not in the next, with two processes. The table has the least time of
/// both places and all processes.
pub fn others(words: &[String]) -> Vec<Times> {
    let here = env::current_exe().expect("the program has a path");
    let elsewhere = here.with_file_name(ELSEWHERE);
    let [first, second, third] = [&elsewhere, &here, &elsewhere].map(|program| times_of(program, words));
    first.into_iter().zip(second).zip(third).map(|((first, second), third)| first.least(second).least(third)).collect()
}

fn times_of(program: &Path, words: &[String]) -> Vec<Times> {
    let output = Command::new(program).args(words).arg("--times").output().expect("the program starts again");
    assert!(output.status.success(), "the program ends well: {output:?}");
    String::from_utf8_lossy(&output.stdout).lines().filter_map(read).collect()
}

fn read(line: &str) -> Option<Times> {
    let (ours, theirs) = line.split_once(' ')?;
    Some(Times { ours: ours.parse().ok()?, theirs: theirs.parse().ok()? })
}
