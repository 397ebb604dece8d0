//! Ranges of counts, what texts read as, and what accumulators hold.

use crate::case::{Case, Input};
use crate::generate::random_cases;
use winnow_bench::inputs::Random;
use winnow_bench::ours::Room;
use winnow_bench::their_gathered as theirs;

/// Bounds of ranges, small ones and the greatest.
const GREATEST: [usize; 2] = [usize::MAX - 1, usize::MAX];

/// How many ranges were compared, or the first that differs.
pub fn compare_ranges(room: &mut Room) -> Result<usize, String> {
    let mut count = 0;
    let bounds = || (0..10).chain(GREATEST);
    for kind in 0..7 {
        for first in bounds() {
            for second in bounds() {
                count += 1;
                let theirs = theirs::range(kind, first, second);
                let ours = room.range(kind, first, second);
                if ours != Some(&theirs) {
                    return Err(format!("range of kind {kind} with {first} and {second}: ours {ours:?}, Rust {theirs:?}"));
                }
            }
        }
    }
    Ok(count)
}

/// Digits, signs, and characters that stand in no number.
const CHARS: [char; 9] = ['+', '-', '0', '1', '2', '9', 'a', ' ', 'é'];

/// Words, bounds of the types with the numbers next to them, and bytes that are no text.
const WORDS: [&[u8]; 32] = [
    b"true",
    b"false",
    b"True",
    b"true ",
    b"falsee",
    "é😀".as_bytes(),
    "😀".as_bytes(),
    b"\0",
    b"127",
    b"128",
    b"-128",
    b"-129",
    b"255",
    b"256",
    b"32767",
    b"32768",
    b"-32768",
    b"-32769",
    b"65535",
    b"65536",
    b"2147483647",
    b"2147483648",
    b"-2147483648",
    b"-2147483649",
    b"4294967295",
    b"4294967296",
    b"\xff",
    b"1\xff",
    b"\xc3",
    b"\xe2\x82",
    b"1\0",
    b"\xed\xa0\x80",
];

/// Numbers of two words and of four, at which the wide types end.
const WIDE: [&str; 12] = [
    "9223372036854775807",
    "9223372036854775808",
    "-9223372036854775808",
    "-9223372036854775809",
    "18446744073709551615",
    "18446744073709551616",
    "170141183460469231731687303715884105727",
    "170141183460469231731687303715884105728",
    "-170141183460469231731687303715884105728",
    "-170141183460469231731687303715884105729",
    "340282366920938463463374607431768211455",
    "340282366920938463463374607431768211456",
];

/// How many texts were read, or the first that reads as another value.
pub fn compare_readings(room: &mut Room, random: usize) -> Result<usize, String> {
    let mut count = 0;
    let mut compare = |input: &[u8]| {
        count += 1;
        let theirs = theirs::readings(input);
        let ours = room.readings(input);
        if ours == Some(&theirs) { Ok(()) } else { Err(format!("{:?} reads: ours {ours:?}, Rust {theirs:?}", String::from_utf8_lossy(input))) }
    };
    for text in texts() {
        compare(text.as_bytes())?;
    }
    for word in WORDS {
        compare(word)?;
    }
    for word in WIDE {
        compare(word.as_bytes())?;
        compare(format!("+{word}").as_bytes())?;
        compare(format!("000{word}").as_bytes())?;
        compare(format!("{word}0").as_bytes())?;
    }
    let mut numbers = Random::new(19);
    for _ in 0..random {
        let sign = numbers.pick(&["", "", "+", "-"]);
        let length = 1 + numbers.below(40);
        let digits: String = (0..length).map(|_| char::from(b'0' + numbers.below(10) as u8)).collect();
        compare(format!("{sign}{digits}").as_bytes())?;
    }
    Ok(count)
}

// Every text of up to four of the characters.
fn texts() -> Vec<String> {
    let mut all = vec![String::new()];
    let mut last = all.clone();
    for _ in 0..4 {
        last = last.iter().flat_map(|text| CHARS.map(|c| format!("{text}{c}"))).collect();
        all.extend(last.iter().cloned());
    }
    all
}

/// How many lists of items were gathered in every accumulator, or the first that differs.
pub fn compare_accumulators(room: &mut Room, random: usize) -> Result<usize, String> {
    let mut count = 0;
    let mut numbers = Random::new(23);
    for Case { input, .. } in random_cases(random) {
        count += 2;
        let tokens = numbers.below(5) as usize;
        let keys: Vec<u64> = (0..numbers.below(40)).map(|_| numbers.below(16)).collect();
        let (ours, theirs) = match &input {
            Input::Bytes(bytes) => (room.gathered_bytes(bytes, tokens), theirs::gathered_bytes(bytes, tokens)),
            Input::Text(text) => (room.gathered_text(text, tokens), theirs::gathered_text(text, tokens)),
        };
        if ours != Some(&theirs) {
            let input = match &input {
                Input::Bytes(bytes) => format!("bytes {bytes:02x?}"),
                Input::Text(text) => format!("text {text:?}"),
            };
            return Err(format!("{input}, gathered whole and in parts of {tokens}: ours {ours:?}, Rust {theirs:?}"));
        }
        let theirs = theirs::gathered_keys(&keys);
        let ours = room.gathered_keys(&keys);
        if ours != Some(&theirs) {
            return Err(format!("keys {keys:?}, gathered: ours {ours:?}, Rust {theirs:?}"));
        }
    }
    Ok(count)
}
