//! Scripts over pieces: of short inputs cut in every way, and of inputs that look random. The answers are those of the whole, and after
//! each piece those are out, and those bytes are kept, that a loop over `Partial` finds.

use crate::case::{Case, Input};
use crate::generate::{BYTES, CHARS, cases_from, words};
use crate::search_run_cases::random_literals;
use std::fmt::Debug;
use winnow::error::Needed;
use winnow::stream::CompareResult;
use winnow_bench::inputs::Random;
use winnow_bench::ours::Room;
use winnow_bench::script::{Answer, COMPARE, FIND, FIND_AS_LONG, PlacedAnswer, RawStep, SearchAnswer, SearchStep, Step, ToldSearch};
use winnow_bench::their_feeds::{Kind, Out, out_after};
use winnow_bench::their_search_runs::{Searched, tell_run};
use winnow_bench::theirs::{Number, Weigh};

/// Literals of the short scripts are parts of these.
const LITERALS: &str = "aé\n\0a€aé";

/// How many short scripts were compared, or the first that differs.
pub fn compare_short_pieces(room: &mut Room) -> Result<usize, String> {
    let mut count = 0;
    let bytes = words(&[BYTES[1], BYTES[2], BYTES[7], BYTES[5]], 3).into_iter().map(Input::Bytes);
    let texts = words(&CHARS[1..6], 3).into_iter().map(|chars| Input::Text(chars.into_iter().collect()));
    for input in bytes.chain(texts) {
        let cuts = all_cuts(&input);
        for script in short_scripts() {
            for cuts in &cuts {
                count += 1;
                compare_input(room, &input, LITERALS, &script, cuts)?;
            }
        }
    }
    Ok(count)
}

/// So many scripts that look random, on inputs cut at places that do: how many were compared, or the first that differs.
pub fn compare_random_pieces(room: &mut Room, scripts: usize, seed: u64) -> Result<usize, String> {
    let mut numbers = Random::new(seed);
    for Case { input, script, .. } in cases_from(numbers.next(), scripts) {
        let script: Vec<RawStep> = script.into_iter().flat_map(|step| random_steps(&mut numbers, step)).collect();
        let literals = random_literals(&mut numbers, &input);
        let cuts = random_cuts(&mut numbers, &input);
        compare_input(room, &input, &literals, &script, &cuts)?;
    }
    Ok(scripts)
}

fn compare_input(room: &mut Room, input: &Input, literals: &str, script: &[RawStep], cuts: &[u64]) -> Result<(), String> {
    let differs = match input {
        Input::Bytes(bytes) => {
            let (bytes, literals) = (bytes.as_slice(), literals.as_bytes());
            let ours = room.piece_answers_bytes(bytes, literals, script, cuts).map(<[u64]>::to_vec);
            compare_kind(bytes, literals, script, cuts, ours, room.search_answers_bytes(bytes, literals, script))
        }
        Input::Text(text) => {
            let ours = room.piece_answers_text(text, literals, script, cuts).map(<[u64]>::to_vec);
            compare_kind(text.as_str(), literals, script, cuts, ours, room.search_answers_text(text, literals, script))
        }
    };
    let input = match input {
        Input::Bytes(bytes) => format!("bytes {bytes:02x?}"),
        Input::Text(text) => format!("text {text:?}"),
    };
    differs.map_err(|differs| format!("{input}, pieces that end at {cuts:?}, literals of {literals:?}, {script:?}:\n{differs}"))
}

fn compare_kind<'k, L>(
    input: L,
    literals: L,
    script: &[RawStep],
    cuts: &[u64],
    ours: Option<Vec<u64>>,
    our_whole: Option<Vec<ToldSearch>>,
) -> Result<(), String>
where
    L: Kind<'k> + Searched<L> + Debug,
    L::Token: Debug,
    L::Slice: Weigh,
{
    let steps: Vec<SearchStep<L>> = script.iter().filter_map(|raw| raw.search_step(literals)).collect();
    let out = out_after(input, &steps, cuts);
    let theirs = tell(&steps, &out);
    if ours.as_ref() != Some(&theirs) {
        return Err(format!("out and kept after each piece, answers and place: ours {ours:?}, Rust {theirs:?}"));
    }
    let whole = tell_run(input, &steps);
    let joined: Vec<ToldSearch> = steps.iter().zip(&out.answers).map(|(step, answer)| resolve::<L>(input, step, answer)).collect();
    if joined != whole || our_whole.as_ref() != Some(&whole) {
        return Err(format!("in pieces {joined:?}, whole {our_whole:?}, Rust whole {whole:?}"));
    }
    Ok(())
}

// As our library tells it: how many answers came out of each piece, and how many bytes are kept; each answer behind the number of its
// piece, or 0; and the place.
fn tell<L, T: Number>(steps: &[SearchStep<L>], out: &Out<T>) -> Vec<u64> {
    let mut told = Vec::new();
    let mut before = 0;
    for (count, kept) in &out.after {
        told.extend([(count - before) as u64, *kept as u64]);
        before = *count;
    }
    for (number, (step, answer)) in steps.iter().zip(&out.answers).enumerate() {
        let piece = out.after.iter().position(|(count, _)| number < *count);
        told.push(piece.map_or(0, |piece| piece as u64 + 1));
        tell_answer(&mut told, matches!(step, SearchStep::Call(Step::Each)), answer);
    }
    told.push(out.place as u64);
    told
}

fn tell_answer<T: Number>(told: &mut Vec<u64>, is_each: bool, answer: &PlacedAnswer<T>) {
    match answer {
        SearchAnswer::Call(Answer::Token(Some(token))) => told.extend([0, 1, token.number()]),
        SearchAnswer::Call(Answer::Token(None)) => told.extend([0, 0]),
        SearchAnswer::Call(Answer::Slice(range)) => told.extend([if is_each { 6 } else { 1 }, range.start as u64, range.end as u64]),
        SearchAnswer::Call(Answer::Offset(offset)) => told.extend([2, *offset as u64]),
        SearchAnswer::Call(Answer::At(Ok(offset))) => told.extend([3, 1, *offset as u64]),
        SearchAnswer::Call(Answer::At(Err(Needed::Size(size)))) => told.extend([3, 0, size.get() as u64]),
        SearchAnswer::Call(Answer::At(Err(_))) => told.extend([3, 0, 0]),
        SearchAnswer::Call(Answer::Flag(flag)) => told.extend([4, u64::from(*flag)]),
        SearchAnswer::Call(Answer::First(Some(offset))) => told.extend([5, 1, *offset as u64]),
        SearchAnswer::Call(Answer::First(None)) => told.extend([5, 0]),
        SearchAnswer::Call(Answer::Items(_)) => told.push(u64::MAX),
        SearchAnswer::Call(Answer::Marked(number)) => told.extend([7, *number as u64]),
        SearchAnswer::Call(Answer::Done) => told.push(8),
        SearchAnswer::Call(Answer::BadOffset) => told.push(9),
        SearchAnswer::Call(Answer::NoMark) => told.push(10),
        SearchAnswer::Call(Answer::LaterMark) => told.push(11),
        SearchAnswer::Compared(CompareResult::Ok(width)) => told.extend([12, 0, *width as u64]),
        SearchAnswer::Compared(CompareResult::Incomplete) => told.extend([12, 1, 0]),
        SearchAnswer::Compared(CompareResult::Error) => told.extend([12, 2, 0]),
        SearchAnswer::Hit(Some(hit)) => told.extend([13, 1, hit.start as u64, hit.end as u64]),
        SearchAnswer::Hit(None) => told.extend([13, 0]),
    }
}

// The answer with the bytes of its slice, or its items, in the place of their range.
fn resolve<'k, L: Kind<'k>>(input: L, step: &SearchStep<L>, answer: &PlacedAnswer<L::Token>) -> ToldSearch {
    match answer {
        SearchAnswer::Call(Answer::Slice(range)) if matches!(step, SearchStep::Call(Step::Each)) => {
            let part = input.cut(range.start, range.end).expect("items are whole tokens");
            SearchAnswer::Call(Answer::Items(part.iter_offsets().map(|(offset, token)| (offset, token.number())).collect()))
        }
        SearchAnswer::Call(call) => SearchAnswer::Call(match call {
            Answer::Slice(range) => Answer::Slice(input.as_ref()[range.clone()].to_vec()),
            Answer::Token(token) => Answer::Token(token.as_ref().map(Number::number)),
            Answer::Offset(offset) => Answer::Offset(*offset),
            Answer::At(answer) => Answer::At(*answer),
            Answer::Flag(flag) => Answer::Flag(*flag),
            Answer::First(offset) => Answer::First(*offset),
            Answer::Items(_) => unreachable!("items are told by their range"),
            Answer::Marked(number) => Answer::Marked(*number),
            Answer::Done => Answer::Done,
            Answer::BadOffset => Answer::BadOffset,
            Answer::NoMark => Answer::NoMark,
            Answer::LaterMark => Answer::LaterMark,
        }),
        SearchAnswer::Compared(comparison) => SearchAnswer::Compared(match comparison {
            CompareResult::Ok(width) => CompareResult::Ok(*width),
            CompareResult::Incomplete => CompareResult::Incomplete,
            CompareResult::Error => CompareResult::Error,
        }),
        SearchAnswer::Hit(hit) => SearchAnswer::Hit(hit.clone()),
    }
}

// A mark, a step or two that move, one that looks, and a step back with the rest.
fn short_scripts() -> Vec<Vec<RawStep>> {
    let looks = [Step::Next, Step::Take(2), Step::Look(1), Step::At(2), Step::IsOffset(2), Step::First(10, 10), Step::Eof, Step::Each, Step::Finish];
    let mut middles: Vec<RawStep> = looks.into_iter().map(RawStep::from).collect();
    for start in [0, 1, 3] {
        for length in 0..3 {
            middles.extend([COMPARE, FIND[0], FIND[1], FIND[2], FIND_AS_LONG[0], FIND_AS_LONG[1]].map(|kind| RawStep::search(kind, start, length)));
        }
    }
    let ends = [vec![Step::Next, Step::Since(0)], vec![Step::Reset(0), Step::Peek, Step::PeekFinish]];
    let script = |middle: &RawStep, end: &Vec<Step>| {
        let begin = [Step::Mark, Step::Next].map(RawStep::from);
        begin.into_iter().chain([*middle]).chain(end.iter().copied().map(RawStep::from)).collect()
    };
    middles.iter().flat_map(|middle| ends.iter().map(move |end| script(middle, end))).collect()
}

// The places where an input may be cut, its end the last.
fn places(input: &Input) -> Vec<u64> {
    match input {
        Input::Bytes(bytes) => (0..=bytes.len() as u64).collect(),
        Input::Text(text) => (0..=text.len()).filter(|place| text.is_char_boundary(*place)).map(|place| place as u64).collect(),
    }
}

// Every way to cut a short input in pieces that are not empty, and each token with an empty piece behind it.
fn all_cuts(input: &Input) -> Vec<Vec<u64>> {
    let places = places(input);
    let (end, inner) = (places[places.len() - 1], &places[1.min(places.len() - 1)..places.len() - 1]);
    let ways = 0..1usize << inner.len();
    let way = |way: usize| inner.iter().enumerate().filter(move |(bit, _)| way >> bit & 1 == 1).map(|(_, place)| *place).chain([end]).collect();
    let mut all: Vec<Vec<u64>> = ways.map(way).collect();
    all.push(places.iter().flat_map(|place| [*place, *place]).collect());
    all
}

fn random_cuts(random: &mut Random, input: &Input) -> Vec<u64> {
    let places = places(input);
    let mut cuts: Vec<u64> = (0..random.below(12)).map(|_| random.pick(&places)).collect();
    cuts.extend(places.last());
    cuts.sort_unstable();
    cuts
}

// The step, less often where it waits for the end, and half the time a comparison or a search.
fn random_steps(random: &mut Random, step: Step) -> Vec<RawStep> {
    let step = match step {
        Step::Finish | Step::PeekFinish | Step::Eof | Step::Each if random.below(4) != 0 => Step::Next,
        Step::First(first, last) => Step::First(valid(first), valid(last)),
        step => step,
    };
    let mut steps = vec![RawStep::from(step)];
    if random.below(2) == 0 {
        let kind = random.pick(&[COMPARE, COMPARE, FIND[0], FIND[0], FIND[1], FIND[2], FIND_AS_LONG[0], FIND_AS_LONG[1]]);
        steps.push(RawStep::search(kind, random.below(6) as usize, random.below(4) as usize));
    }
    steps
}

// A character's number, as near below as there is one.
fn valid(number: u64) -> u64 {
    match number {
        0xd800..0xe000 => 0xd7ff,
        _ => number.min(0x10_ffff),
    }
}
