//! Reads JSON by the crate: lent events, errors and limits.

use std::io;
use woldbraid::{json_events, Event, JsonReader, Next, OwnedEvent};

#[test]
fn events_are_lent() {
    let mut reader = JsonReader::new(8, 100).unwrap();
    reader.push(b"{\"a\\n\": [-12, 1.5, tr").unwrap();
    let wanted = [
        Event::StartObject,
        Event::Key("a\n"),
        Event::StartArray,
        Event::Number("-12", Some(-12)),
        Event::Number("1.5", None),
    ];
    for event in wanted {
        assert_eq!(reader.next(), Ok(Next::Event(event)));
    }
    assert_eq!(reader.next(), Ok(Next::NeedsMore));
    assert_eq!((reader.fed(), reader.level()), (21, 2));
    assert!(reader.held() <= 21);
    reader.push(b"ue]}").unwrap();
    reader.end();
    for event in [Event::Bool(true), Event::EndArray, Event::EndObject] {
        assert_eq!(reader.next(), Ok(Next::Event(event)));
    }
    assert_eq!(reader.next(), Ok(Next::Done));
}

#[test]
fn an_error_has_a_place_and_ends_the_events() {
    let mut events = json_events(&b"[1, 02]"[..]);
    assert_eq!(events.next().unwrap().unwrap(), OwnedEvent::StartArray);
    assert_eq!(events.next().unwrap().unwrap(), OwnedEvent::Number("1".to_owned(), Some(1)));
    let error = events.next().unwrap().unwrap_err();
    assert!(error.to_string().ends_with("at byte 4"), "{error}");
    assert_eq!(io::Error::from(error).kind(), io::ErrorKind::InvalidData);
    assert!(events.next().is_none());
}

#[test]
fn a_reader_keeps_what_it_may() {
    let mut reader = JsonReader::new(8, 4).unwrap();
    reader.push(b"\"abcdef").unwrap();
    assert_eq!(reader.push(b"g").unwrap_err().status, 3);
    assert_eq!(reader.next(), Ok(Next::NeedsMore));
}
