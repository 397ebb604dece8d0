//! Reads replies by the crate: lent texts, arrays that are open, damage and limits.

use woldbraid::{NextReply, Reply, RespReader};

#[test]
fn texts_are_lent() {
    let mut reader = RespReader::new(2, 100, 100).unwrap();
    reader.push(b"*2\r\n$2\r\nab\r\n:-").unwrap();
    assert_eq!(reader.next(), Ok(NextReply::Reply(Reply::StartArray(2))));
    assert_eq!(reader.level(), 1);
    assert_eq!(reader.next(), Ok(NextReply::Reply(Reply::Bulk(b"ab"))));
    assert_eq!(reader.place(), 12);
    assert_eq!(reader.next(), Ok(NextReply::NeedsMore));
    reader.push(b"7\r\n").unwrap();
    assert_eq!(reader.next(), Ok(NextReply::Reply(Reply::Integer(-7))));
    assert_eq!(reader.next(), Ok(NextReply::Reply(Reply::EndArray)));
    reader.end();
    assert_eq!(reader.next(), Ok(NextReply::Done));
    assert_eq!((reader.fed(), reader.level()), (17, 0));
    assert!(reader.held() <= 17);
}

#[test]
fn damage_has_a_place_and_a_cause() {
    let mut reader = RespReader::new(1, 3, 100).unwrap();
    reader.push(b"+OK\r\n$4\r\n").unwrap();
    assert_eq!(reader.next(), Ok(NextReply::Reply(Reply::Simple(b"OK"))));
    let error = reader.next().unwrap_err();
    assert_eq!((error.status, error.cause), (7, 6));
    assert!(error.to_string().starts_with("a length above the limit, at byte "));
    assert_eq!(reader.next(), Err(error));
}
