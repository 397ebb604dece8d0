//! Calls on an input, and what both sides answer.

use std::fmt::Write;
use winnow::stream::TokenSlice;
use winnow_bench::ours::Room;
use winnow_bench::script::{RawStep, Step, Told};
use winnow_bench::their_kinds;
use winnow_bench::their_recovered::{record, recovered};
use winnow_bench::their_wrappers::{wrap, wrapped};
use winnow_bench::theirs;

#[derive(Clone)]
pub enum Input {
    Bytes(Vec<u8>),
    Text(String),
}

// The answers of a script on each kind, and their texts and orders.
type KindAnswers = ([Vec<Told>; 2], Vec<u64>);

// The answers of a script, and what the views show.
type TokenAnswers = (Vec<Told>, Vec<u64>);

/// A script on an input, and a width at which the calls are made that no step names.
#[derive(Clone)]
pub struct Case {
    pub input: Input,
    pub script: Vec<Step>,
    pub width: usize,
}

impl Case {
    pub fn differs(&self, room: &mut Room) -> bool {
        let (ours, theirs) = self.answers(room);
        let (our_others, their_others) = self.others(room);
        let (our_tokens, their_tokens) = self.tokens(room);
        let (our_wrapped, their_wrapped) = self.wrapped(room);
        let (our_kinds, their_kinds) = self.kinds(room);
        let (our_recovered, their_recovered) = self.recovered(room);
        let (our_script, their_script) = self.recoverable(room);
        ours != Some(theirs)
            || our_others != Some(their_others)
            || our_tokens != their_tokens
            || our_wrapped != Some(their_wrapped)
            || our_kinds != their_kinds
            || our_recovered != Some(their_recovered)
            || our_script != their_script
    }

    fn answers(&self, room: &mut Room) -> (Option<Vec<Told>>, Vec<Told>) {
        let script: Vec<RawStep> = self.script.iter().copied().map(RawStep::from).collect();
        match &self.input {
            Input::Bytes(bytes) => (room.answers_bytes(bytes, &script), theirs::tell_run(bytes.as_slice(), &self.script)),
            Input::Text(text) => (room.answers_text(text, &script), theirs::tell_run(text.as_str(), &self.script)),
        }
    }

    fn others(&self, room: &mut Room) -> (Option<Vec<u64>>, Vec<u64>) {
        match &self.input {
            Input::Bytes(bytes) => (room.others_bytes(bytes, self.width), theirs::others(bytes.as_slice(), self.width)),
            Input::Text(text) => (room.others_text(text, self.width), theirs::others(text.as_str(), self.width)),
        }
    }

    // Bytes as a slice of tokens, which is another stream: the script, and what is seen behind the width. Nothing on a text.
    fn tokens(&self, room: &mut Room) -> (Option<TokenAnswers>, Option<TokenAnswers>) {
        let Input::Bytes(bytes) = &self.input else {
            return (None, None);
        };
        let script: Vec<RawStep> = self.script.iter().copied().map(RawStep::from).collect();
        let ours = room.answers_tokens(bytes, &script).zip(room.views_tokens(bytes, self.width));
        let theirs = (theirs::tell_run(TokenSlice::new(bytes), &self.script), theirs::views(bytes, self.width));
        (ours, Some(theirs))
    }

    // Bytes as bytes with a text of their own: the script on each kind, and the texts and orders. Nothing on a text.
    fn kinds(&self, room: &mut Room) -> (Option<KindAnswers>, Option<KindAnswers>) {
        let Input::Bytes(bytes) = &self.input else {
            return (None, None);
        };
        let script: Vec<RawStep> = self.script.iter().copied().map(RawStep::from).collect();
        let ours = room.answers_kinds(bytes, &script).zip(room.texts_kinds(bytes, self.width));
        (ours, Some((their_kinds::answers(bytes, &self.script), their_kinds::texts(bytes, self.width))))
    }

    fn wrapped(&self, room: &mut Room) -> (Option<Vec<u64>>, Vec<u64>) {
        match &self.input {
            Input::Bytes(bytes) => (room.wrapped_bytes(bytes, self.width), wrapped(wrap(bytes.as_slice()), self.width)),
            Input::Text(text) => (room.wrapped_text(text, self.width), wrapped(wrap(text.as_str()), self.width)),
        }
    }

    fn recovered(&self, room: &mut Room) -> (Option<Vec<u64>>, Vec<u64>) {
        match &self.input {
            Input::Bytes(bytes) => (room.recovered_bytes(bytes, self.width), recovered(bytes.as_slice(), self.width)),
            Input::Text(text) => (room.recovered_text(text, self.width), recovered(text.as_str(), self.width)),
        }
    }

    // The script on bytes in a stream that records errors. Nothing on a text.
    fn recoverable(&self, room: &mut Room) -> (Option<Vec<Told>>, Option<Vec<Told>>) {
        let Input::Bytes(bytes) = &self.input else {
            return (None, None);
        };
        let script: Vec<RawStep> = self.script.iter().copied().map(RawStep::from).collect();
        (room.answers_recoverable(bytes, &script), Some(theirs::tell_run(record(bytes.as_slice()), &self.script)))
    }

    /// The case with what both sides answer, an answer a line.
    pub fn told(&self, room: &mut Room) -> String {
        let mut text = match &self.input {
            Input::Bytes(bytes) => format!("bytes {bytes:02x?}\n"),
            Input::Text(text) => format!("text {text:?}, bytes {:02x?}\n", text.as_bytes()),
        };
        let (ours, theirs) = self.answers(room);
        for (number, step) in self.script.iter().enumerate() {
            let ours = ours.as_ref().and_then(|ours| ours.get(number));
            let theirs = theirs.get(number);
            let mark = if ours == theirs { "" } else { "    differs" };
            writeln!(text, "{step:?}: ours {ours:?}, Rust {theirs:?}{mark}").expect("a string takes it");
        }
        let (ours, theirs) = self.others(room);
        if ours.as_ref() != Some(&theirs) {
            writeln!(text, "other calls behind width {}: ours {ours:?}, Rust {theirs:?}    differs", self.width).expect("a string takes it");
        }
        let (ours, theirs) = self.tokens(room);
        if ours != theirs {
            writeln!(text, "as tokens, width {}: ours {ours:?}, Rust {theirs:?}    differs", self.width).expect("a string takes it");
        }
        let (ours, theirs) = self.kinds(room);
        if ours != theirs {
            writeln!(text, "as kinds, width {}: ours {ours:?}, Rust {theirs:?}    differs", self.width).expect("a string takes it");
        }
        let (ours, theirs) = self.wrapped(room);
        if ours.as_ref() != Some(&theirs) {
            writeln!(text, "in three wrappers, behind width {}: ours {ours:?}, Rust {theirs:?}    differs", self.width).expect("a string takes it");
        }
        let (ours, theirs) = self.recovered(room);
        if ours.as_ref() != Some(&theirs) {
            writeln!(text, "where errors are recorded, width {}: ours {ours:?}, Rust {theirs:?}    differs", self.width).expect("a string takes it");
        }
        let (ours, theirs) = self.recoverable(room);
        if ours != theirs {
            writeln!(text, "the script where errors are recorded: ours {ours:?}, Rust {theirs:?}    differs").expect("a string takes it");
        }
        text
    }
}
