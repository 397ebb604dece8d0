//! The rows of input in pieces, by feeds and by the loop that a user of the Rust crate writes over `Partial`. That loop tries a step that
//! waits again from the cursor at each piece, and so takes time by the square of what waits: the inputs are smaller where pieces are.

use crate::rows::{On, Row};
use winnow_bench::inputs::{NEEDLE, ascii_text, lines_of, mixed_text, piece_script, seeded};
use winnow_bench::script::{COMPARE, FIND, FIND_AS_LONG, RawStep, Step};
use winnow_bench::{our_feeds as ours, our_searches, their_feeds as theirs, their_search_runs};

/// How long pieces are, and what part of the bytes that wait the Rust loop has time for.
const CUTS: [(usize, &str, usize); 4] = [(64 << 10, "64 KB", 1), (1 << 10, "1 KB", 1), (16, "16 bytes", 32), (1, "1 byte", 128)];

/// A piece that is longer than any input.
const WHOLE: usize = usize::MAX;

const STEPS: usize = 10_000;

/// Needles that stand in no text: one or three of 4 bytes, or three of 4, 5 and 6 bytes.
const ABSENT: &str = "key:a-b:two-x:y";

/// Needles of 4, 5 and 6 bytes that stand in no run of the letter `a`, and begin at each place of it.
const BEGUN: &str = "aaabaaaabaaaaab";

/// How long a needle is that is found nowhere, but for its last byte a front of the text.
const LONG: usize = 1 << 10;

/// How long a needle is that stands in no run of the letter `a`, and begins at each place of it.
const LONGER: usize = 16 << 10;

/// How wide a line of the long run is, how many a script goes through, and how long a piece is.
const LINE: usize = 61;
const LINES: usize = 1000;
const PERIOD: usize = LINE << 14;
const PIECE: usize = 64 << 10;

pub struct Pieces {
    /// The bytes of the script, and the script
    seeded: Vec<u8>,
    script: Vec<RawStep>,
    ascii: String,
    mixed: String,
    /// The ASCII text and one character more, which a comparison waits for
    literal: String,
    /// Where pieces of the mixed text end, for each cut, and where the whole does
    cuts: Vec<Vec<u64>>,
    whole_cut: [u64; 1],
    /// Steps that wait to the end, by their names
    waiting: Vec<(&'static str, RawStep)>,
    /// A run of the letter `a`, and the search of needles that begin at each place of it
    begun: Vec<u8>,
    find_begun: RawStep,
    /// A long needle, and the search for it
    long: String,
    find_long: RawStep,
    /// One that begins at each place of the run
    long_begun: String,
    find_long_begun: RawStep,
    at: [RawStep; 1],
    compare: Vec<RawStep>,
    /// Lines that begin again behind their end, the script of a thousand of them, and how long the run is
    lines: Vec<u8>,
    line_script: Vec<RawStep>,
    long_run: usize,
    /// A mark that the last of many steps goes back to, and marks that each a later step names
    marked: Vec<RawStep>,
    marks: Vec<RawStep>,
}

impl Pieces {
    pub fn new([script, waiting, long]: [usize; 3]) -> Self {
        let ascii = front(&ascii_text(waiting), waiting).to_owned();
        let mixed = front(&mixed_text(waiting), waiting).to_owned();
        let literal = format!("{ascii}:");
        let mut lines = lines_of(LINE, PERIOD);
        lines.extend_from_within(..PIECE);
        let first_needle = |kind| RawStep::search(kind, 0, 4);
        Pieces {
            seeded: seeded(script),
            script: piece_script(STEPS, script),
            whole_cut: [mixed.len() as u64],
            cuts: CUTS.iter().map(|(piece, _, part)| cuts_of(front(&mixed, waiting / part), *piece)).collect(),
            waiting: vec![
                ("Find of one needle", first_needle(FIND[0])),
                ("Find of three needles of one length", first_needle(FIND_AS_LONG[1])),
                ("Find of three needles of different lengths", first_needle(FIND[2])),
                ("First", RawStep::from(Step::First(0, 0))),
            ],
            begun: vec![b'a'; waiting / 4],
            find_begun: first_needle(FIND[2]),
            long: format!("{}:", front(&ascii, LONG - 1)),
            find_long: RawStep::search(FIND[0], 0, LONG),
            long_begun: format!("{}b", "a".repeat(LONGER - 1)),
            find_long_begun: RawStep::search(FIND[0], 0, LONGER),
            at: [RawStep::from(Step::At(usize::MAX))],
            compare: CUTS.iter().map(|(_, _, part)| RawStep::search(COMPARE, 0, waiting / part + 1)).collect(),
            ascii,
            mixed,
            literal,
            lines,
            line_script: (0..LINES).flat_map(line_steps).collect(),
            long_run: long,
            marked: marked_steps(),
            marks: steps_of_marks(),
        }
    }
}

// A line is searched, taken, and taken again.
fn line_steps(line: usize) -> [RawStep; 5] {
    let newline = RawStep::search(FIND[0], 0, 1);
    let take = RawStep::from(Step::Take(LINE));
    [RawStep::from(Step::Mark), newline, take, RawStep::from(Step::Reset(line)), take]
}

// A mark, tokens, and the way back.
fn marked_steps() -> Vec<RawStep> {
    let tokens = (0..STEPS).map(|_| Step::Next);
    [Step::Mark].into_iter().chain(tokens).chain([Step::Reset(0)]).map(RawStep::from).collect()
}

// A mark before each token, and after them all a step and a token for each mark.
fn steps_of_marks() -> Vec<RawStep> {
    let made = (0..STEPS / 2).flat_map(|_| [Step::Mark, Step::Next]);
    let named = (0..STEPS / 2).flat_map(|mark| [Step::Since(mark), Step::Next]);
    made.chain(named).map(RawStep::from).collect()
}

// At most so many bytes of a text.
fn front(text: &str, length: usize) -> &str {
    let end = (0..=length.min(text.len())).rev().find(|end| text.is_char_boundary(*end));
    &text[..end.unwrap_or(0)]
}

// The first ends of characters that are so far apart, and the end.
fn cuts_of(text: &str, piece: usize) -> Vec<u64> {
    let mut cuts = Vec::new();
    let mut end = 0;
    while end < text.len() {
        end = (end + piece..text.len()).find(|end| text.is_char_boundary(*end)).unwrap_or(text.len());
        cuts.push(end as u64);
    }
    cuts
}

/// All of them.
pub fn piece_rows(pieces: &Pieces) -> Vec<Row<'_>> {
    let mut rows = script_rows(pieces);
    for (number, (length, name, part)) in CUTS.iter().enumerate() {
        let ascii = front(&pieces.ascii, pieces.ascii.len() / part);
        for (step, raw) in &pieces.waiting {
            rows.push(waiting_row(&waits(step, ascii.len(), name), ascii.as_bytes(), ABSENT, raw, *length));
        }
        let compare = waits("Compare of a literal as long", ascii.len(), name);
        rows.push(waiting_row(&compare, ascii.as_bytes(), &pieces.literal, &pieces.compare[number], *length));
        let mixed = front(&pieces.mixed, pieces.mixed.len() / part);
        let input = (mixed, "", pieces.at.as_slice(), pieces.cuts[number].as_slice());
        let on = On { name: "mixed text", input, units: mixed.len(), calls: 1 };
        rows.push(on.row(&waits("At", mixed.len(), name), 0, ours::feed_text, theirs::feed_text).fed());
    }
    rows.extend(whole_rows(pieces));
    rows.extend(long_rows(pieces));
    rows.extend(begun_rows(pieces));
    rows.extend(mark_rows(pieces));
    rows.extend(line_rows(pieces));
    rows
}

// The steps that wait, where the input comes in one piece.
fn whole_rows(pieces: &Pieces) -> Vec<Row<'_>> {
    let (ascii, mixed) = (&pieces.ascii, &pieces.mixed);
    let mut rows = Vec::new();
    for (step, raw) in &pieces.waiting {
        rows.push(waiting_row(&waits_whole(step, ascii.len()), ascii.as_bytes(), ABSENT, raw, WHOLE));
    }
    let compare = waits_whole("Compare of a literal as long", ascii.len());
    rows.push(waiting_row(&compare, ascii.as_bytes(), &pieces.literal, &pieces.compare[0], WHOLE));
    let input = (mixed.as_str(), "", pieces.at.as_slice(), pieces.whole_cut.as_slice());
    let on = On { name: "mixed text", input, units: mixed.len(), calls: 1 };
    rows.push(on.row(&waits_whole("At", mixed.len()), 0, ours::feed_text, theirs::feed_text).fed());
    rows
}

// Scripts of a thousand lines: over pieces, over pieces that are those lines, and by `run_search`, as often as they are many.
fn line_rows(pieces: &Pieces) -> [Row<'_>; 3] {
    let whole = LINE * LINES;
    let fed = |piece: usize, name: &str| {
        let (made, count) = (&pieces.lines[..PERIOD + piece], pieces.long_run / piece);
        let input = (made, b"\n".as_slice(), pieces.line_script.as_slice(), piece as u64);
        let on = On { name: "bytes", input, units: count * piece, calls: 1 };
        let name = format!("lines, {} in pieces of {name}, scripts of 1,000", size(count * piece));
        on.row(&name, count as u64, ours::feed_lines, theirs::feed_lines).fed()
    };
    let rounds = pieces.long_run / whole;
    let input = (&pieces.lines[..whole], b"\n".as_slice(), pieces.line_script.as_slice());
    let on = On { name: "bytes", input, units: rounds * whole, calls: 1 };
    let name = format!("lines, {}, each 1,000 whole", size(rounds * whole));
    let run = on.row(&name, rounds as u64, our_searches::run_search, their_search_runs::run_rounds).fed();
    [fed(PIECE, "64 KB"), fed(whole, "1,000 lines"), run]
}

// One script over the whole, and in pieces.
fn script_rows(pieces: &Pieces) -> Vec<Row<'_>> {
    let input = (pieces.seeded.as_slice(), NEEDLE.as_bytes(), pieces.script.as_slice());
    let on = On { name: "bytes", input, units: pieces.seeded.len(), calls: 1 };
    let length = size(pieces.seeded.len());
    let whole = on.row(&format!("script of 10,000 steps, {length} whole"), 1, our_searches::run_search, their_search_runs::run_rounds);
    let mut rows = vec![whole.fed()];
    for (piece, name, _) in CUTS {
        let name = format!("script of 10,000 steps, {length} in pieces of {name}");
        rows.push(on.row(&name, piece as u64, ours::feed_bytes, theirs::feed_bytes).fed());
    }
    rows
}

// A search of one long needle, over pieces and over the whole.
fn long_rows(pieces: &Pieces) -> Vec<Row<'_>> {
    let (step, input) = ("Find of a needle of 1 KB", pieces.ascii.as_bytes());
    let row = |name: String, input, piece| waiting_row(&name, input, &pieces.long, &pieces.find_long, piece);
    let over = |(length, name, part): &(usize, &str, usize)| {
        let front = &input[..input.len() / part];
        row(waits(step, front.len(), name), front, *length)
    };
    let mut rows: Vec<Row> = CUTS.iter().map(over).collect();
    rows.push(row(waits_whole(step, input.len()), input, WHOLE));
    rows
}

// Searches of needles that begin at each place and stand at none, over pieces and over the whole.
fn begun_rows(pieces: &Pieces) -> Vec<Row<'_>> {
    let (three, one) = ("Find of three needles begun at each place", "Find of a needle of 16 KB begun at each place");
    let all = pieces.begun.as_slice();
    let row_of_three = |name: String, piece| waiting_row(&name, all, BEGUN, &pieces.find_begun, piece);
    let row_of_one = |name: String, input, piece| waiting_row(&name, input, &pieces.long_begun, &pieces.find_long_begun, piece);
    let ([_, (length, name, _), (short, short_name, part), _], whole) = (CUTS, all.len());
    let front = &all[..4 * whole / part];
    vec![
        row_of_three(waits(three, whole, name), length),
        row_of_three(waits_whole(three, whole), WHOLE),
        row_of_one(waits(one, whole, name), all, length),
        row_of_one(waits(one, front.len(), short_name), front, short),
        row_of_one(waits_whole(one, whole), all, WHOLE),
    ]
}

// Scripts with marks, and a needle that is there but for its last byte, in pieces of a byte.
fn mark_rows(pieces: &Pieces) -> [Row<'_>; 3] {
    let input = &pieces.begun[..pieces.begun.len().min(STEPS)];
    let over = |name: &str, script| {
        let on = On { name: "bytes", input: (input, b"".as_slice(), script), units: input.len(), calls: 1 };
        let name = format!("{name}, {} in pieces of 1 byte", size(input.len()));
        on.row(&name, 1, ours::feed_bytes, theirs::feed_bytes).fed()
    };
    let needle = &pieces.begun[..pieces.begun.len().min(LONGER - 1)];
    let name = waits("Find of a needle of 16 KB that has begun", needle.len(), "1 byte");
    [
        over("a mark named after 10,000 steps", pieces.marked.as_slice()),
        over("5,000 marks named in turn", pieces.marks.as_slice()),
        waiting_row(&name, needle, &pieces.long_begun, &pieces.find_long_begun, 1),
    ]
}

// A step over bytes that no piece of that length lets out.
fn waiting_row<'p>(name: &str, input: &'p [u8], literals: &'p str, raw: &'p RawStep, piece: usize) -> Row<'p> {
    let units = input.len();
    let on = On { name: "bytes", input: (input, literals.as_bytes(), std::slice::from_ref(raw)), units, calls: 1 };
    on.row(name, piece as u64, ours::feed_bytes, theirs::feed_bytes).fed()
}

fn waits(step: &str, length: usize, piece: &str) -> String {
    format!("{step} that waits, {} in pieces of {piece}", size(length))
}

fn waits_whole(step: &str, length: usize) -> String {
    format!("{step} that waits, {} whole", size(length))
}

fn size(bytes: usize) -> String {
    match bytes {
        0..0x10_0000 => format!("{} KB", bytes.div_ceil(1 << 10)),
        0x10_0000..0x4000_0000 => format!("{} MB", bytes >> 20),
        _ => format!("{} GB", bytes >> 30),
    }
}
