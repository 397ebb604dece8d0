//! Iterates over sources: pieces of a byte, reads that are interrupted or fail, and what is damaged or too long.

use std::fmt::Debug;
use std::io::{self, ErrorKind, Read};
use woldbraid::{csv_records, json_events, resp_events, CsvReader, CsvRecords, JsonEvents, JsonReader, OwnedEvent, OwnedReply, RespEvents, RespReader, SourceError};

/// A source that has a byte at each other read, and is interrupted at those between; after the bytes it ends or fails.
struct Slow<'a> {
    text: &'a [u8],
    fails: Option<ErrorKind>,
    is_interrupted: bool,
}

impl Read for Slow<'_> {
    fn read(&mut self, buffer: &mut [u8]) -> io::Result<usize> {
        self.is_interrupted = !self.is_interrupted;
        if self.is_interrupted {
            return Err(ErrorKind::Interrupted.into());
        }
        let count = self.text.len().min(buffer.len()).min(1);
        buffer[..count].copy_from_slice(&self.text[..count]);
        self.text = &self.text[count..];
        match self.fails {
            Some(kind) if count == 0 => Err(kind.into()),
            _ => Ok(count),
        }
    }
}

fn slow(text: &[u8]) -> Slow<'_> {
    Slow { text, fails: None, is_interrupted: false }
}

fn failing(text: &[u8]) -> Slow<'_> {
    Slow { fails: Some(ErrorKind::ConnectionReset), ..slow(text) }
}

/// The fields of a record.
fn fields(row: &[&str]) -> Vec<Vec<u8>> {
    row.iter().map(|field| field.as_bytes().to_vec()).collect()
}

/// Checks that the iterator has these items, then this error if there is one, and then nothing.
fn has<T: Debug + PartialEq>(mut found: impl Iterator<Item = Result<T, SourceError>>, wanted: &[T], error: Option<&str>) {
    for item in wanted {
        assert_eq!(&found.next().unwrap().unwrap(), item);
    }
    if let Some(error) = error {
        assert_eq!(found.next().unwrap().unwrap_err().to_string(), error);
    }
    assert!(found.next().is_none());
    assert!(found.next().is_none());
}

#[test]
fn a_source_in_pieces_has_the_same_items() {
    let text = "{\"a\": [-1, \"\\u00e9\"]}".as_bytes();
    let events = [
        OwnedEvent::StartObject,
        OwnedEvent::Key("a".to_owned()),
        OwnedEvent::StartArray,
        OwnedEvent::Number("-1".to_owned(), Some(-1)),
        OwnedEvent::String("\u{e9}".to_owned()),
        OwnedEvent::EndArray,
        OwnedEvent::EndObject,
    ];
    has(json_events(text), &events, None);
    has(json_events(slow(text)), &events, None);
    let table = "a,\"b\"\"\nc\",\r\n\n\u{e9}".as_bytes();
    let records = [fields(&["a", "b\"\nc", ""]), fields(&[""]), fields(&["\u{e9}"])];
    has(csv_records(table), &records, None);
    has(csv_records(slow(table)), &records, None);
    let session = b"+OK\r\n*2\r\n$3\r\na\r\n\r\n:-7\r\n-ERR\r\n$-1\r\n*-1\r\n";
    let replies = [
        OwnedReply::Simple(b"OK".to_vec()),
        OwnedReply::StartArray(2),
        OwnedReply::Bulk(b"a\r\n".to_vec()),
        OwnedReply::Integer(-7),
        OwnedReply::EndArray,
        OwnedReply::Error(b"ERR".to_vec()),
        OwnedReply::NullBulk,
        OwnedReply::NullArray,
    ];
    has(resp_events(&session[..]), &replies, None);
    has(resp_events(slow(session)), &replies, None);
}

#[test]
fn an_empty_source_has_no_records_and_no_replies() {
    has(csv_records(slow(b"")), &[], None);
    has(resp_events(slow(b"")), &[], None);
    has(json_events(slow(b"")), &[], Some("the input ends early, at byte 0"));
}

#[test]
fn damage_ends_the_items() {
    has(json_events(slow(b"[02")), &[OwnedEvent::StartArray], Some("a number with a zero before its first digit, at byte 1"));
    let error = csv_records(slow(b"a\n\"b\"c\nd\n")).nth(1).unwrap().unwrap_err();
    assert!(matches!(error, SourceError::Text(error) if (error.status, error.place) == (7, 5)), "{error}");
    let error = resp_events(slow(b"+OK\r\n?\r\n+OK\r\n")).nth(1).unwrap().unwrap_err();
    assert!(matches!(error, SourceError::Text(error) if (error.status, error.place) == (7, 5)), "{error}");
}

#[test]
fn a_source_that_fails_ends_the_items_with_its_error() {
    let kind_of = |error: SourceError| match error {
        SourceError::Source(error) => error.kind(),
        SourceError::Text(error) => panic!("{error}"),
    };
    let mut events = json_events(failing(b"[1,"));
    assert_eq!(events.by_ref().take(2).filter(Result::is_ok).count(), 2);
    assert_eq!(kind_of(events.next().unwrap().unwrap_err()), ErrorKind::ConnectionReset);
    assert!(events.next().is_none());
    let mut records = csv_records(failing(b"a\nb\nc"));
    assert_eq!(records.by_ref().take(2).filter(Result::is_ok).count(), 2);
    assert_eq!(kind_of(records.next().unwrap().unwrap_err()), ErrorKind::ConnectionReset);
    assert!(records.next().is_none());
    let mut replies = resp_events(failing(b":1\r\n:2"));
    assert_eq!(replies.next().unwrap().unwrap(), OwnedReply::Integer(1));
    assert_eq!(kind_of(replies.next().unwrap().unwrap_err()), ErrorKind::ConnectionReset);
    assert!(replies.next().is_none());
}

#[test]
fn a_reader_brings_its_limits() {
    let long = [b'a'; 200];
    let status_of = |error: Option<SourceError>| match error {
        Some(SourceError::Text(error)) => error.status,
        other => panic!("{other:?}"),
    };
    let records = CsvRecords::new(CsvReader::new(100).unwrap(), slow(&long));
    assert_eq!(status_of(records.map(Result::err).next().unwrap()), 3);
    let text = [&b"\""[..], &long].concat();
    let events = JsonEvents::new(JsonReader::new(0, 100).unwrap(), slow(&text));
    assert_eq!(status_of(events.map(Result::err).next().unwrap()), 3);
    let events = JsonEvents::new(JsonReader::new(0, 100).unwrap(), slow(b"[[]]"));
    assert_eq!(status_of(events.map(Result::err).nth(1).unwrap()), 9);
    let events = RespEvents::new(RespReader::new(1, 3, 100).unwrap(), slow(b"$4\r\n"));
    assert_eq!(status_of(events.map(Result::err).next().unwrap()), 7);
}

#[test]
fn an_error_is_one_of_io() {
    let damaged: io::Result<Vec<_>> = csv_records(slow(b"\"")).map(|it| Ok(it?)).collect();
    assert_eq!(damaged.unwrap_err().kind(), ErrorKind::InvalidData);
    let failed: io::Result<Vec<_>> = csv_records(failing(b"a")).map(|it| Ok(it?)).collect();
    assert_eq!(failed.unwrap_err().kind(), ErrorKind::ConnectionReset);
}
