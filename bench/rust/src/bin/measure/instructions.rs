//! Counts instructions: valgrind runs this program again for one call.

use std::env::current_exe;
use std::process::Command;

/// How many instructions the program takes for one call of one side, its start included.
pub fn of(row: &str, side: &str) -> u64 {
    let output = Command::new("valgrind")
        .args(["--tool=callgrind", "--callgrind-out-file=/dev/null"])
        .arg(current_exe().expect("the program has a path"))
        .args(["--once", row, side])
        .output()
        .expect("valgrind runs");
    let told = String::from_utf8_lossy(&output.stderr);
    let count = told.lines().find_map(|line| line.split("Collected :").nth(1));
    count.and_then(|count| count.trim().parse().ok()).expect("valgrind tells a count")
}
