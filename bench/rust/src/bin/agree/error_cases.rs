//! The printed texts of errors, and what `or` keeps.

use winnow_bench::inputs::Random;
use winnow_bench::ours::Room;
use winnow_bench::their_errors as theirs;

const CAUSES: [Option<&str>; 5] = [None, Some(""), Some("the cause"), Some("two\nlines"), Some("é€😀")];

/// How many texts were compared, or the first that differ.
pub fn compare_errors(room: &mut Room, random: usize) -> Result<usize, String> {
    let mut count = 0;
    let mut compare = |what: String, ours: String, theirs: String| {
        count += 1;
        if ours == theirs { Ok(()) } else { Err(format!("{what}: ours {ours:?}, Rust {theirs:?}")) }
    };
    for kind in 0..3 {
        for number in (0..100).chain([u64::MAX - 1, u64::MAX]) {
            compare(format!("mode {kind} of {number}"), room.mode_text(kind, number), theirs::mode_text(kind, number))?;
        }
        for second in 0..3 {
            compare(format!("mode {kind} or {second}"), room.or_text(kind, second), theirs::or_text(kind, second))?;
        }
    }
    // Named contexts; the characters of ASCII, Latin-1 and past it; and some that are no characters.
    let contexts = || (0..0x800 + theirs::NAMED).chain([0x2028, 0xd800, 0xfffe, 0x1f600, 0x10ffff, 0x110000].map(|c| c + theirs::NAMED));
    for number in contexts() {
        compare(format!("context {number}"), room.context_text(number), theirs::context_text(number))?;
        let input = u32::try_from(number).ok().and_then(char::from_u32).unwrap_or('\0');
        for input in [String::new(), input.to_string(), format!("a{input}\n{input}")] {
            compare(format!("input {input:?}"), room.input_text(&input), theirs::input_text(&input))?;
        }
    }
    let mut explain = |contexts: &[u64], cause: Option<&str>| {
        let what = format!("contexts {contexts:?}, cause {cause:?}");
        compare(what, room.explanation_text(contexts, cause), theirs::explanation_text(contexts, cause))
    };
    let few: Vec<u64> = (0..theirs::NAMED).chain([b'a', b'\n', b'`', b'\t'].map(|c| u64::from(c) + theirs::NAMED)).collect();
    for cause in CAUSES {
        explain(&[], cause)?;
        for first in &few {
            explain(&[*first], cause)?;
            for second in &few {
                explain(&[*first, *second], cause)?;
            }
        }
    }
    let mut numbers = Random::new(13);
    for _ in 0..random {
        let contexts: Vec<u64> = (0..3 + numbers.below(2)).map(|_| numbers.pick(&few)).collect();
        explain(&contexts, numbers.pick(&CAUSES))?;
    }
    Ok(count)
}
