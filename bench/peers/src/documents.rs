//! Compares what our readers and nom's read of random documents, whole and in pieces. Half of the documents are damaged: some of their bytes
//! are changed, dropped or put in.

use crate::digest::Depth;
use crate::{csv, json, ours, resp};
use std::process::ExitCode;

/// Numbers that look random, the same for the same seed.
struct Chance(u64);

impl Chance {
    fn below(&mut self, limit: usize) -> usize {
        self.0 = self.0.wrapping_mul(6364136223846793005).wrapping_add(1442695040888963407);
        ((self.0 >> 33) % limit as u64) as usize
    }

    fn pick<'a, T>(&mut self, from: &'a [T]) -> &'a T {
        &from[self.below(from.len())]
    }
}

fn csv_document(chance: &mut Chance) -> Vec<u8> {
    let mut text = Vec::new();
    for _ in 0..chance.below(5) {
        for field in 0..=chance.below(4) {
            if field > 0 {
                text.push(b',');
            }
            if chance.below(3) == 0 {
                text.push(b'"');
                (0..chance.below(8)).for_each(|_| text.extend_from_slice(chance.pick(&["a", "\"\"", ",", "\r\n", "\n", "ß", " "]).as_bytes()));
                text.push(b'"');
            } else {
                (0..chance.below(8)).for_each(|_| text.extend_from_slice(chance.pick(&["a", "0", ";", "ß", " ", "\t"]).as_bytes()));
            }
        }
        text.extend_from_slice(chance.pick(&["\n", "\r\n"]).as_bytes());
    }
    if chance.below(3) == 0 {
        text.pop();
    }
    text
}

fn resp_reply(chance: &mut Chance, depth: usize, text: &mut Vec<u8>) {
    match chance.below(if depth == 0 { 5 } else { 7 }) {
        0 => text.extend_from_slice(chance.pick(&["+OK\r\n", "+\r\n", "-ERR no\r\n"]).as_bytes()),
        1 => text.extend_from_slice(chance.pick(&[":0\r\n", ":-7\r\n", ":9223372036854775807\r\n", ":+1\r\n", ":007\r\n", ":-0\r\n"]).as_bytes()),
        2 => text.extend_from_slice(chance.pick(&["$-1\r\n", "*-1\r\n", "$-2\r\n", "$0\r\n\r\n", "*0\r\n"]).as_bytes()),
        3 | 4 => {
            let length = chance.below(12);
            text.extend_from_slice(format!("${length}\r\n").as_bytes());
            (0..length).for_each(|_| text.push(*chance.pick(b"ab\r\n$*\xff\x00")));
            text.extend_from_slice(b"\r\n");
        }
        _ => {
            let count = chance.below(4);
            text.extend_from_slice(format!("*{count}\r\n").as_bytes());
            (0..count).for_each(|_| resp_reply(chance, depth - 1, text));
        }
    }
}

fn resp_document(chance: &mut Chance) -> Vec<u8> {
    let mut text = Vec::new();
    (0..=chance.below(4)).for_each(|_| resp_reply(chance, 4, &mut text));
    text
}

fn json_string(chance: &mut Chance, text: &mut Vec<u8>) {
    let parts = ["a", "ß", "€", "😀", "\\n", "\\\"", "\\u00e9", "\\ud83d\\ude00", "\\ud83d", " ", "/", "\\/"];
    text.push(b'"');
    (0..chance.below(6)).for_each(|_| text.extend_from_slice(chance.pick(&parts).as_bytes()));
    text.push(b'"');
}

fn json_value(chance: &mut Chance, depth: usize, text: &mut Vec<u8>) {
    let blanks = ["", "", "", " ", "\n", "\t ", "\r\n"];
    text.extend_from_slice(chance.pick(&blanks).as_bytes());
    match chance.below(if depth == 0 { 4 } else { 7 }) {
        0 => text.extend_from_slice(chance.pick(&["null", "true", "false"]).as_bytes()),
        1 | 2 => text.extend_from_slice(chance.pick(&["0", "-0", "-12", "1.5", "1e9", "-2.5E-7", "9223372036854775808", "01", "1."]).as_bytes()),
        3 => json_string(chance, text),
        4 | 5 => {
            text.push(b'[');
            for element in 0..chance.below(4) {
                if element > 0 {
                    text.push(b',');
                }
                json_value(chance, depth - 1, text);
            }
            text.extend_from_slice(chance.pick(&blanks).as_bytes());
            text.push(b']');
        }
        _ => {
            text.push(b'{');
            for member in 0..chance.below(4) {
                if member > 0 {
                    text.push(b',');
                }
                text.extend_from_slice(chance.pick(&blanks).as_bytes());
                json_string(chance, text);
                text.extend_from_slice(chance.pick(&blanks).as_bytes());
                text.push(b':');
                json_value(chance, depth - 1, text);
            }
            text.extend_from_slice(chance.pick(&blanks).as_bytes());
            text.push(b'}');
        }
    }
    text.extend_from_slice(chance.pick(&blanks).as_bytes());
}

fn json_document(chance: &mut Chance) -> Vec<u8> {
    let mut text = Vec::new();
    json_value(chance, 4, &mut text);
    text
}

// Whether a count of replies has more digits than nom makes room for: its `count` panics there.
fn announces_too_many(text: &[u8]) -> bool {
    text.split(|byte| *byte == b'*').skip(1).any(|rest| rest.iter().take_while(|byte| byte.is_ascii_digit() || **byte == b'+').count() > 9)
}

// Changes, drops or puts in some bytes.
fn damage(chance: &mut Chance, text: &mut Vec<u8>) {
    for _ in 0..=chance.below(2) {
        let byte = *chance.pick(b"\",\r\n:$*+-0a[]{}\\ \xff\xc3");
        let at = chance.below(text.len() + 1);
        match chance.below(3) {
            0 => text.insert(at, byte),
            1 if at < text.len() => text[at] = byte,
            _ if at < text.len() => drop(text.remove(at)),
            _ => text.push(byte),
        }
    }
}

/// How many documents were compared, and how.
#[derive(Default)]
struct Counts {
    whole: usize,
    damaged: usize,
    by_rule: usize,
    unexplained: usize,
}

impl Counts {
    fn add(&mut self, format: &str, text: &[u8], whole: bool, by_rule: bool, pairs: &[(&str, u64, u64)]) {
        if whole {
            self.whole += 1;
        } else {
            self.damaged += 1;
        }
        self.by_rule += usize::from(by_rule);
        for (way, ours, theirs) in pairs {
            if ours != theirs {
                self.unexplained += 1;
                println!("{format}, {way}: differs on {:?}", String::from_utf8_lossy(text));
                return;
            }
        }
    }

    fn print(&self, format: &str, rule: &str) {
        let Counts { whole, damaged, by_rule, unexplained } = self;
        println!("{format}: {whole} documents of records alone, {damaged} damaged; {by_rule} {rule}; {unexplained} unexplained");
    }
}

fn csv_pairs(text: &[u8], piece: usize) -> [(&'static str, u64, u64); 6] {
    let theirs = csv::read_owned(text, Depth::Whole);
    [
        ("as one piece", ours::read_csv(text, text.len().max(1), Depth::Whole), theirs),
        ("in pieces", ours::read_csv(text, piece, Depth::Whole), theirs),
        ("by a scan", ours::scan_csv(text, piece, Depth::Whole), theirs),
        ("filled again", ours::fill_csv(text, piece, Depth::Whole), theirs),
        ("fields lent", ours::lend_csv(text, piece, Depth::Whole), theirs),
        ("nom, borrowed", csv::read_borrowed(text, Depth::Whole), theirs),
    ]
}

fn resp_pairs(text: &[u8], piece: usize) -> [(&'static str, u64, u64); 4] {
    let theirs = resp::read_strict(text, Depth::Whole);
    let events = resp::read_whole_events(text, Depth::Whole).map(|theirs| (ours::read_resp_events(text, piece, Depth::Whole), theirs));
    let (events, their_events) = events.unwrap_or_default();
    [
        ("as one piece", ours::read_resp(text, text.len().max(1), Depth::Whole), theirs),
        ("in pieces", ours::read_resp(text, piece, Depth::Whole), theirs),
        ("by a scan", ours::scan_resp(text, piece, Depth::Whole), theirs),
        ("events", events, their_events),
    ]
}

fn json_pairs(text: &[u8], piece: usize) -> [(&'static str, u64, u64); 3] {
    let theirs = json::read_owned(text, Depth::Whole);
    let events = json::read_events(text, Depth::Whole).unwrap_or(u64::MAX);
    [
        ("whole", ours::read_json(text, Depth::Whole), theirs),
        ("events, whole", ours::read_json_events(text, 0, Depth::Whole), events),
        ("events, in pieces", ours::read_json_events(text, piece, Depth::Whole), events),
    ]
}

/// Compares what is read of this many documents of each format, and prints a line for each. The status is 1 where some differ.
pub fn compare(count: usize, seed: u64) -> ExitCode {
    let mut chance = Chance(seed);
    let mut unexplained = 0;
    for (format, make, rule) in [
        ("CSV", csv_document as fn(&mut Chance) -> Vec<u8>, "read otherwise by a rule"),
        ("RESP", resp_document, "read further by nom, for a plus, a first 0, -0 or a length below -1"),
        ("JSON", json_document, "read otherwise by a rule"),
    ] {
        let mut counts = Counts::default();
        for document in 0..count {
            let mut text = make(&mut chance);
            if document % 2 == 1 {
                damage(&mut chance, &mut text);
            }
            let piece = 1 + chance.below(20);
            if format == "RESP" && announces_too_many(&text) {
                continue;
            }
            match format {
                "CSV" => {
                    let pairs = csv_pairs(&text, piece);
                    counts.add(format, &text, csv::is_whole(&text), false, &pairs);
                }
                "RESP" => {
                    let pairs = resp_pairs(&text, piece);
                    let by_rule = pairs[0].2 != resp::read_borrowed(&text, Depth::Whole);
                    counts.add(format, &text, resp::read_whole_events(&text, Depth::Front).is_some(), by_rule, &pairs);
                }
                _ => {
                    let pairs = json_pairs(&text, piece);
                    counts.add(format, &text, json::read_events(&text, Depth::Front).is_some(), false, &pairs);
                }
            }
        }
        counts.print(format, rule);
        unexplained += counts.unexplained;
    }
    ExitCode::from(u8::from(unexplained > 0))
}
