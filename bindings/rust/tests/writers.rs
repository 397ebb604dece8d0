//! Writes by the crate: texts, what is refused, and what is dropped.

use woldbraid::{json_events, CsvWriter, JsonWriter, OwnedEvent, RespWriter};

#[test]
fn a_json_text_is_written_and_read() {
    let mut writer = JsonWriter::new(8).unwrap();
    writer.start_object().unwrap();
    writer.key("a\n").unwrap();
    writer.start_array().unwrap();
    writer.null().unwrap();
    writer.boolean(true).unwrap();
    writer.integer(i64::MIN).unwrap();
    assert_eq!(writer.level(), 2);
    assert!(!writer.is_whole());
    let mut text = writer.written().to_vec();
    assert_eq!(text, b"{\"a\\n\":[null,true,-9223372036854775808");
    writer.forget();
    assert_eq!(writer.written(), b"");
    writer.number("-2.5e3").unwrap();
    writer.string("\u{e9}\"").unwrap();
    writer.end_array().unwrap();
    writer.end_object().unwrap();
    assert!(writer.is_whole());
    text.extend_from_slice(writer.written());
    let events: Vec<OwnedEvent> = json_events(&text[..]).collect::<Result<_, _>>().unwrap();
    assert_eq!(
        events,
        [
            OwnedEvent::StartObject,
            OwnedEvent::Key("a\n".into()),
            OwnedEvent::StartArray,
            OwnedEvent::Null,
            OwnedEvent::Bool(true),
            OwnedEvent::Number("-9223372036854775808".into(), Some(i64::MIN)),
            OwnedEvent::Number("-2.5e3".into(), None),
            OwnedEvent::String("\u{e9}\"".into()),
            OwnedEvent::EndArray,
            OwnedEvent::EndObject,
        ]
    );
}

#[test]
fn what_would_not_be_json_is_refused() {
    type Call = fn(&mut JsonWriter) -> Result<(), woldbraid::Error>;
    let rows: [(&str, &[Call], Call, u32, &[u8]); 7] = [
        ("a second value", &[|w| w.null()], |w| w.null(), 8, b"null"),
        ("a value where a key is due", &[|w| w.start_object()], |w| w.integer(1), 8, b"{"),
        ("a key in an array", &[|w| w.start_array()], |w| w.key("a"), 8, b"["),
        ("an end that does not match", &[|w| w.start_array()], |w| w.end_object(), 8, b"["),
        ("an end where a value is due", &[|w| w.start_object(), |w| w.key("a")], |w| w.end_object(), 8, b"{\"a\":"),
        ("too deep", &[|w| w.start_array(), |w| w.start_array()], |w| w.null(), 9, b"[["),
        ("no number", &[], |w| w.number("01"), 12, b""),
    ];
    for (what, calls, last, status, text) in rows {
        let mut writer = JsonWriter::new(1).unwrap();
        for call in calls {
            call(&mut writer).unwrap();
        }
        assert_eq!(last(&mut writer).unwrap_err().status, status, "{what}");
        assert_eq!(writer.written(), text, "{what}");
    }
}

#[test]
fn records_are_written() {
    let mut writer = CsvWriter::new().unwrap();
    assert_eq!(writer.end_record().unwrap_err().status, 8);
    for field in [&b"a"[..], b"", b"b\"c", b"d,e"] {
        writer.field(field).unwrap();
    }
    assert!(!writer.is_whole());
    writer.end_record().unwrap();
    assert!(writer.is_whole());
    assert_eq!(writer.written(), b"a,,\"b\"\"c\",\"d,e\"\r\n");
    writer.forget();
    assert_eq!(writer.written(), b"");
}

#[test]
fn replies_and_commands_are_written() {
    let mut writer = RespWriter::new().unwrap();
    writer.simple(b"OK").unwrap();
    writer.error(b"ERR").unwrap();
    assert_eq!(writer.error(b"a\n").unwrap_err().status, 14);
    writer.integer(-7).unwrap();
    writer.array(3).unwrap();
    writer.bulk(b"").unwrap();
    writer.null_bulk().unwrap();
    writer.null_array().unwrap();
    assert_eq!(writer.written(), b"+OK\r\n-ERR\r\n:-7\r\n*3\r\n$0\r\n\r\n$-1\r\n*-1\r\n");
    writer.forget();
    writer.command(&[b"GET", b""]).unwrap();
    assert_eq!(writer.written(), b"*2\r\n$3\r\nGET\r\n$0\r\n\r\n");
}
