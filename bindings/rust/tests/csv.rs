//! Reads CSV by the crate: lent records, damage and limits.

use woldbraid::{CsvReader, NextRecord};

#[test]
fn records_are_lent() {
    let mut reader = CsvReader::new(100).unwrap();
    reader.push(b"a,\"b\"\"c\"\r\n,").unwrap();
    match reader.next().unwrap() {
        NextRecord::Record(record) => {
            assert_eq!(record.len(), 2);
            assert_eq!(record.iter().collect::<Vec<_>>(), [&b"a"[..], b"b\"c"]);
            assert_eq!(record.get(2), None);
        }
        other => panic!("{other:?}"),
    }
    assert_eq!(reader.next(), Ok(NextRecord::NeedsMore));
    assert_eq!(reader.fed(), 11);
    assert!(reader.held() <= 11);
    reader.end();
    match reader.next().unwrap() {
        NextRecord::Record(record) => assert_eq!(record.iter().collect::<Vec<_>>(), [b"", b""]),
        other => panic!("{other:?}"),
    }
    assert_eq!(reader.next(), Ok(NextRecord::Done));
}

#[test]
fn damage_has_a_place() {
    let mut reader = CsvReader::new(4).unwrap();
    reader.push(b"a\n\"b\"c").unwrap();
    assert_eq!(reader.push(b"d").unwrap_err().status, 3);
    assert!(matches!(reader.next(), Ok(NextRecord::Record(_))));
    assert_eq!(reader.next().unwrap_err().place, 5);
}
