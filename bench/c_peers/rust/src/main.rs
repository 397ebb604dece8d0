//! Times the readers of the C library through its Rust crate, beside serde_json and csv, on the files `json` and `csv` of a folder.
//!
//!     woldbraid-peers FOLDER [FORMAT WAY]
//!
//! With a format and the number of a way it reads one file once, in that way, so that a profiler counts that alone. Else, what two readers of a file read is compared first, each byte. A row has the least time of 15 turns, and the part of the last of its format.

use serde::de::{DeserializeSeed, Deserializer, IgnoredAny, MapAccess, SeqAccess, Visitor};
use std::hint::black_box;
use std::path::Path;
use std::time::Instant;
use std::{env, fmt, fs};
use woldbraid::{CsvReader, Event, JsonReader, Next, NextRecord};

const PIECE: usize = 64 * 1024;
const KEPT: usize = 1 << 24;

/// What goes into the sum of what was read.
#[derive(Clone, Copy)]
struct Sum {
    each_byte: bool,
    sum: u64,
}

impl Sum {
    fn join(&mut self, number: u64) {
        self.sum = (self.sum ^ number).wrapping_mul(0x0000_0100_0000_01b3);
    }

    fn join_bytes(&mut self, bytes: &[u8]) {
        self.join(bytes.first().map_or(0, |first| bytes.len() as u64 ^ u64::from(*first)));
        if self.each_byte {
            bytes.iter().for_each(|byte| self.join(u64::from(*byte)));
        }
    }
}

type Read = fn(&[u8], &mut Sum);

fn read_events(input: &[u8], sum: &mut Sum) {
    let mut reader = JsonReader::new(512, KEPT).expect("there is memory");
    let mut pieces = input.chunks(PIECE);
    loop {
        match reader.next().expect("the file is JSON") {
            Next::Event(event) => match event {
                Event::StartArray => sum.join(1),
                Event::EndArray => sum.join(2),
                Event::StartObject => sum.join(3),
                Event::EndObject => sum.join(4),
                Event::Key(name) => (sum.join(5), sum.join_bytes(name.as_bytes())).0,
                Event::Null => sum.join(6),
                Event::Bool(truth) => sum.join(7 + u64::from(truth)),
                Event::Number(..) => sum.join(9),
                Event::String(text) => (sum.join(10), sum.join_bytes(text.as_bytes())).0,
            },
            Next::NeedsMore => match pieces.next() {
                Some(piece) => reader.push(piece).expect("there is memory"),
                None => reader.end(),
            },
            Next::Done => return,
        }
    }
}

/// Joins what serde_json calls it with, as the events are joined.
struct Joins<'s>(&'s mut Sum);

impl<'de> DeserializeSeed<'de> for Joins<'_> {
    type Value = ();

    fn deserialize<D: Deserializer<'de>>(self, deserializer: D) -> Result<(), D::Error> {
        deserializer.deserialize_any(self)
    }
}

impl<'de> Visitor<'de> for Joins<'_> {
    type Value = ();

    fn expecting(&self, text: &mut fmt::Formatter) -> fmt::Result {
        text.write_str("a value")
    }

    fn visit_unit<E>(self) -> Result<(), E> {
        self.0.join(6);
        Ok(())
    }

    fn visit_bool<E>(self, truth: bool) -> Result<(), E> {
        self.0.join(7 + u64::from(truth));
        Ok(())
    }

    fn visit_i64<E>(self, _: i64) -> Result<(), E> {
        self.0.join(9);
        Ok(())
    }

    fn visit_u64<E>(self, _: u64) -> Result<(), E> {
        self.0.join(9);
        Ok(())
    }

    fn visit_f64<E>(self, _: f64) -> Result<(), E> {
        self.0.join(9);
        Ok(())
    }

    fn visit_str<E>(self, text: &str) -> Result<(), E> {
        self.0.join(10);
        self.0.join_bytes(text.as_bytes());
        Ok(())
    }

    fn visit_seq<A: SeqAccess<'de>>(self, mut elements: A) -> Result<(), A::Error> {
        self.0.join(1);
        while elements.next_element_seed(Joins(self.0))?.is_some() {}
        self.0.join(2);
        Ok(())
    }

    fn visit_map<A: MapAccess<'de>>(self, mut members: A) -> Result<(), A::Error> {
        self.0.join(3);
        while members.next_key_seed(Name(self.0))?.is_some() {
            members.next_value_seed(Joins(self.0))?;
        }
        self.0.join(4);
        Ok(())
    }
}

/// Joins the name of a member.
struct Name<'s>(&'s mut Sum);

impl<'de> DeserializeSeed<'de> for Name<'_> {
    type Value = ();

    fn deserialize<D: Deserializer<'de>>(self, deserializer: D) -> Result<(), D::Error> {
        deserializer.deserialize_str(self)
    }
}

impl Visitor<'_> for Name<'_> {
    type Value = ();

    fn expecting(&self, text: &mut fmt::Formatter) -> fmt::Result {
        text.write_str("a name")
    }

    fn visit_str<E>(self, text: &str) -> Result<(), E> {
        self.0.join(5);
        self.0.join_bytes(text.as_bytes());
        Ok(())
    }
}

fn visit_values(input: &[u8], sum: &mut Sum) {
    let mut reader = serde_json::Deserializer::from_slice(input);
    Joins(sum).deserialize(&mut reader).expect("the file is JSON");
}

fn make_value(input: &[u8], _: &mut Sum) {
    let value: serde_json::Value = serde_json::from_slice(input).expect("the file is JSON");
    black_box(value);
}

fn skip_value(input: &[u8], _: &mut Sum) {
    let IgnoredAny = serde_json::from_slice(input).expect("the file is JSON");
}

fn read_records(input: &[u8], sum: &mut Sum) {
    let mut reader = CsvReader::new(KEPT).expect("there is memory");
    let mut pieces = input.chunks(PIECE);
    loop {
        match reader.next().expect("the file is CSV") {
            NextRecord::Record(record) => {
                record.iter().for_each(|field| sum.join_bytes(field));
                sum.join(1);
            }
            NextRecord::NeedsMore => match pieces.next() {
                Some(piece) => reader.push(piece).expect("there is memory"),
                None => reader.end(),
            },
            NextRecord::Done => return,
        }
    }
}

fn fill_records(input: &[u8], sum: &mut Sum) {
    let mut reader = csv::ReaderBuilder::new().has_headers(false).flexible(true).from_reader(input);
    let mut record = csv::ByteRecord::new();
    while reader.read_byte_record(&mut record).expect("the file is CSV") {
        record.iter().for_each(|field| sum.join_bytes(field));
        sum.join(1);
    }
}

// Prints a row for each way, of which the first `same` read the same; or reads once, in the way that is asked for.
fn race(format: &str, input: &[u8], same: usize, ways: &[(&str, Read)]) {
    if let Some(asked) = env::args().nth(2) {
        let way: usize = env::args().nth(3).expect("the number of a way").parse().expect("a number");
        if asked == format {
            ways[way].1(input, &mut Sum { each_byte: false, sum: 0 });
            println!("{}", ways[way].0);
        }
        return;
    }
    let read = |way: usize, each_byte| {
        let mut sum = Sum { each_byte, sum: 0 };
        ways[way].1(black_box(input), &mut sum);
        black_box(sum.sum)
    };
    assert!((1..same).all(|way| read(way, true) == read(0, true)), "what was read of {format} differs");
    let mut least = vec![f64::MAX; ways.len()];
    for turn in 0..15 {
        for way in (0..ways.len()).map(|way| (way + turn) % ways.len()) {
            let start = Instant::now();
            read(way, false);
            least[way] = least[way].min(start.elapsed().as_secs_f64() * 1e9 / input.len() as f64);
        }
    }
    for ((way, _), time) in ways.iter().zip(&least) {
        println!("| {format} | {way} | {time:.2} | {:.2} |", time / least[1]);
    }
}

fn main() {
    let folder = env::args().nth(1).expect("a folder with the files");
    let file = |name| fs::read(Path::new(&folder).join(name)).expect("the folder has a file for each format");
    let json: [(&str, Read); 4] = [
        ("ours, events in pieces of 64 KB", read_events),
        ("serde_json, a visitor", visit_values),
        ("serde_json, values", make_value),
        ("serde_json, a value skipped", skip_value),
    ];
    race("JSON", &file("json"), 2, &json);
    let csv: [(&str, Read); 2] = [("ours, records in pieces of 64 KB", read_records), ("csv, a record filled again", fill_records)];
    race("CSV", &file("csv"), 2, &csv);
}
