//! Readers of formats over input that comes in pieces, and writers of them, over the C library `woldbraid`. A user writes no `unsafe`.
//!
//! ```no_run
//! use woldbraid::{Event, JsonReader, Next};
//!
//! let mut reader = JsonReader::new(512, 1 << 24).unwrap();
//! reader.push(b"[1, tr").unwrap();
//! while let Next::Event(event) = reader.next().unwrap() {
//!     println!("{event:?}");
//! }
//! ```
//!
//! [`json_events`], [`csv_records`] and [`resp_events`] iterate over what a source such as a file has.
//!
//! ```no_run
//! # fn main() -> std::io::Result<()> {
//! for record in woldbraid::csv_records(std::fs::File::open("table.csv")?) {
//!     println!("{} fields", record?.len());
//! }
//! # Ok(())
//! # }
//! ```
//!
//! ```no_run
//! let mut writer = woldbraid::JsonWriter::new(512).unwrap();
//! writer.start_array().unwrap();
//! writer.integer(7).unwrap();
//! writer.end_array().unwrap();
//! println!("{}", String::from_utf8_lossy(writer.written()));
//! ```

mod sources;
mod writers;

pub use sources::{csv_records, json_events, resp_events, CsvRecords, JsonEvents, OwnedEvent, OwnedReply, RespEvents, SourceError};
pub use writers::{CsvWriter, JsonWriter, RespWriter};

use std::ffi::{c_char, CStr};
use std::fmt;
use std::marker::PhantomData;
use std::ptr::NonNull;

/// What the C library has of a reader.
#[repr(C)]
pub(crate) struct Opaque {
    _bytes: [u8; 0],
}

#[repr(C)]
struct Limits {
    depth: usize,
    kept: usize,
}

#[repr(C)]
struct RawEvent {
    kind: u32,
    cause: u32,
    text: *const u8,
    length: usize,
    integer: i64,
    place: usize,
    has_integer: bool,
}

/// The limit of a reader of CSV.
#[repr(C)]
struct CsvLimits {
    kept: usize,
}

#[repr(C)]
struct RawRecord {
    text: *const u8,
    ends: *const usize,
    count: usize,
    place: usize,
}

/// The limits of a reader of replies.
#[repr(C)]
struct RespLimits {
    depth: usize,
    longest: usize,
    kept: usize,
}

#[repr(C)]
struct RawReply {
    kind: u32,
    cause: u32,
    text: *const u8,
    length: usize,
    integer: i64,
    count: usize,
    place: usize,
}

extern "C" {
    fn wb_resp_new(limits: *const RespLimits) -> *mut Opaque;
    fn wb_resp_push(reader: *mut Opaque, piece: *const u8, length: usize) -> u32;
    fn wb_resp_end(reader: *mut Opaque) -> u32;
    fn wb_resp_next(reader: *mut Opaque, event: *mut RawReply) -> u32;
    fn wb_resp_fed(reader: *mut Opaque) -> usize;
    fn wb_resp_held(reader: *mut Opaque) -> usize;
    fn wb_resp_place(reader: *mut Opaque) -> usize;
    fn wb_resp_level(reader: *mut Opaque) -> usize;
    fn wb_resp_free(reader: *mut Opaque);
    fn wb_csv_new(limits: *const CsvLimits) -> *mut Opaque;
    fn wb_csv_push(reader: *mut Opaque, piece: *const u8, length: usize) -> u32;
    fn wb_csv_end(reader: *mut Opaque) -> u32;
    fn wb_csv_next(reader: *mut Opaque, record: *mut RawRecord) -> u32;
    fn wb_csv_fed(reader: *mut Opaque) -> usize;
    fn wb_csv_held(reader: *mut Opaque) -> usize;
    fn wb_csv_place(reader: *mut Opaque) -> usize;
    fn wb_csv_free(reader: *mut Opaque);
    fn wb_json_new(limits: *const Limits) -> *mut Opaque;
    fn wb_json_push(reader: *mut Opaque, piece: *const u8, length: usize) -> u32;
    fn wb_json_end(reader: *mut Opaque) -> u32;
    fn wb_json_fed(reader: *mut Opaque) -> usize;
    fn wb_json_held(reader: *mut Opaque) -> usize;
    fn wb_json_level(reader: *mut Opaque) -> usize;
    fn wb_json_place(reader: *mut Opaque) -> usize;
    fn wb_json_next(reader: *mut Opaque, event: *mut RawEvent) -> u32;
    fn wb_json_free(reader: *mut Opaque);
    fn wb_status_text(status: u32) -> *const c_char;
    fn wb_json_cause_text(cause: u32) -> *const c_char;
    fn wb_resp_cause_text(cause: u32) -> *const c_char;
}

/// An event of a JSON text. A text that it lends stays until the next call of the reader.
#[derive(Clone, Copy, Debug, PartialEq)]
pub enum Event<'a> {
    StartArray,
    EndArray,
    StartObject,
    EndObject,
    /// The name of a member, whose value comes next
    Key(&'a str),
    Null,
    Bool(bool),
    /// A number as it is written, and the integer that it is, if an `i64` has it
    Number(&'a str, Option<i64>),
    String(&'a str),
}

/// What comes next.
#[derive(Clone, Copy, Debug, PartialEq)]
pub enum Next<'a> {
    Event(Event<'a>),
    /// A piece or the end of the input is awaited
    NeedsMore,
    /// The text is read to its end
    Done,
}

/// Why a call did not do what it is for, by the status of the C library.
#[derive(Clone, Copy, Debug, PartialEq, Eq)]
pub struct Error {
    /// The status, as `WB_DAMAGED`
    pub status: u32,
    /// What is wrong with a JSON text or a reply, as `WB_JSON_BAD_ESCAPE` or `WB_RESP_NO_KIND`, else 0
    pub cause: u32,
    /// The offset in bytes of the error in the input, else 0
    pub place: usize,
    // Whether the cause is one of a reply.
    is_of_reply: bool,
}

pub(crate) const OK: u32 = 0;
const DONE: u32 = 1;
const NEEDS_MORE: u32 = 2;
const REFUSED: u32 = 6;

impl Error {
    pub(crate) fn of(status: u32) -> Self {
        Error { status, cause: 0, place: 0, is_of_reply: false }
    }

    /// Returns that memory was refused.
    pub(crate) fn refused() -> Self {
        Error::of(REFUSED)
    }

    /// Returns whether memory was refused: then nothing is lost, and the call may be made again.
    pub fn is_refused(&self) -> bool {
        self.status == REFUSED
    }
}

impl fmt::Display for Error {
    fn fmt(&self, f: &mut fmt::Formatter<'_>) -> fmt::Result {
        // SAFETY: each of the calls returns a text that ends in a zero and is never freed.
        let text = unsafe {
            CStr::from_ptr(match (self.cause, self.is_of_reply) {
                (0, _) => wb_status_text(self.status),
                (cause, false) => wb_json_cause_text(cause),
                (cause, true) => wb_resp_cause_text(cause),
            })
        };
        write!(f, "{}, at byte {}", text.to_string_lossy(), self.place)
    }
}

impl std::error::Error for Error {}

/// A reader of the events of a JSON text that comes in pieces.
pub struct JsonReader {
    reader: NonNull<Opaque>,
    // It stays on its thread.
    marker: PhantomData<*mut u8>,
}

impl JsonReader {
    /// Returns a reader of values within `depth` arrays and objects, which takes a piece while at most `kept` bytes wait to be read; or
    /// `None` when memory is refused.
    pub fn new(depth: usize, kept: usize) -> Option<Self> {
        // SAFETY: the limits are there for the call.
        let reader = unsafe { wb_json_new(&Limits { depth, kept }) };
        Some(JsonReader { reader: NonNull::new(reader)?, marker: PhantomData })
    }

    /// Appends a piece to what waits to be read.
    pub fn push(&mut self, piece: &[u8]) -> Result<(), Error> {
        // SAFETY: the reader was made and not freed, and the piece has as many bytes as its length says.
        match unsafe { wb_json_push(self.reader.as_ptr(), piece.as_ptr(), piece.len()) } {
            OK => Ok(()),
            status => Err(Error::of(status)),
        }
    }

    /// Notes that no more follows.
    pub fn end(&mut self) {
        // SAFETY: the reader was made and not freed.
        unsafe { wb_json_end(self.reader.as_ptr()) };
    }

    /// Returns how many bytes were pushed.
    pub fn fed(&mut self) -> usize {
        // SAFETY: the reader was made and not freed.
        unsafe { wb_json_fed(self.reader.as_ptr()) }
    }

    /// Returns how many bytes of the input are kept.
    pub fn held(&mut self) -> usize {
        // SAFETY: the reader was made and not freed.
        unsafe { wb_json_held(self.reader.as_ptr()) }
    }

    /// Returns how many bytes of the input were read.
    pub fn place(&mut self) -> usize {
        // SAFETY: the reader was made and not freed.
        unsafe { wb_json_place(self.reader.as_ptr()) }
    }

    /// Returns how many arrays and objects are open.
    pub fn level(&mut self) -> usize {
        // SAFETY: the reader was made and not freed.
        unsafe { wb_json_level(self.reader.as_ptr()) }
    }

    /// Reads the next event.
    #[allow(clippy::should_implement_trait)]
    pub fn next(&mut self) -> Result<Next<'_>, Error> {
        let mut event =
            RawEvent { kind: 0, cause: 0, text: std::ptr::null(), length: 0, integer: 0, place: 0, has_integer: false };
        // SAFETY: the reader was made and not freed, and the event is there for the call.
        let status = unsafe { wb_json_next(self.reader.as_ptr(), &mut event) };
        match status {
            OK => {}
            DONE => return Ok(Next::Done),
            NEEDS_MORE => return Ok(Next::NeedsMore),
            _ => return Err(Error { status, cause: event.cause, place: event.place, is_of_reply: false }),
        }
        let bytes = if event.length == 0 {
            &[][..]
        } else {
            // SAFETY: the library lends these bytes until the next call, which borrows the reader anew.
            unsafe { std::slice::from_raw_parts(event.text, event.length) }
        };
        let text = std::str::from_utf8(bytes).map_err(|_| Error::of(u32::MAX))?;
        Ok(Next::Event(match event.kind {
            1 => Event::StartArray,
            2 => Event::EndArray,
            3 => Event::StartObject,
            4 => Event::EndObject,
            5 => Event::Key(text),
            6 => Event::Null,
            7 => Event::Bool(false),
            8 => Event::Bool(true),
            9 => Event::Number(text, event.has_integer.then_some(event.integer)),
            10 => Event::String(text),
            _ => return Err(Error::of(u32::MAX)),
        }))
    }
}

impl Drop for JsonReader {
    fn drop(&mut self) {
        // SAFETY: the reader was made, and is freed here alone.
        unsafe { wb_json_free(self.reader.as_ptr()) };
    }
}

/// A record of comma-separated values. What it lends stays until the next call of the reader.
#[derive(Clone, Copy, Debug, PartialEq, Eq)]
pub struct Record<'a> {
    text: &'a [u8],
    ends: &'a [usize],
}

impl<'a> Record<'a> {
    /// Returns how many fields there are, at least 1.
    #[allow(clippy::len_without_is_empty)]
    pub fn len(&self) -> usize {
        self.ends.len()
    }

    /// Returns the bytes of the field at an index, if there is one.
    pub fn get(&self, index: usize) -> Option<&'a [u8]> {
        let end = *self.ends.get(index)?;
        let start = if index == 0 { 0 } else { self.ends[index - 1] };
        Some(&self.text[start..end])
    }

    /// Returns the fields in turn.
    pub fn iter(&self) -> impl Iterator<Item = &'a [u8]> + '_ {
        (0..self.len()).filter_map(|index| self.get(index))
    }
}

/// What a reader of records has next.
#[derive(Clone, Copy, Debug, PartialEq, Eq)]
pub enum NextRecord<'a> {
    Record(Record<'a>),
    /// A piece or the end of the input is awaited
    NeedsMore,
    /// The input is read to its end
    Done,
}

/// A reader of records of comma-separated values that come in pieces.
pub struct CsvReader {
    reader: NonNull<Opaque>,
    // It stays on its thread.
    marker: PhantomData<*mut u8>,
}

impl CsvReader {
    /// Returns a reader that takes a piece while at most `kept` bytes wait to be read; or `None` when memory is refused.
    pub fn new(kept: usize) -> Option<Self> {
        // SAFETY: the limits are there for the call.
        let reader = unsafe { wb_csv_new(&CsvLimits { kept }) };
        Some(CsvReader { reader: NonNull::new(reader)?, marker: PhantomData })
    }

    /// Appends a piece to what waits to be read.
    pub fn push(&mut self, piece: &[u8]) -> Result<(), Error> {
        // SAFETY: the reader was made and not freed, and the piece has as many bytes as its length says.
        match unsafe { wb_csv_push(self.reader.as_ptr(), piece.as_ptr(), piece.len()) } {
            OK => Ok(()),
            status => Err(Error::of(status)),
        }
    }

    /// Notes that no more follows.
    pub fn end(&mut self) {
        // SAFETY: the reader was made and not freed.
        unsafe { wb_csv_end(self.reader.as_ptr()) };
    }

    /// Reads the next record.
    #[allow(clippy::should_implement_trait)]
    pub fn next(&mut self) -> Result<NextRecord<'_>, Error> {
        let mut record = RawRecord { text: std::ptr::null(), ends: std::ptr::null(), count: 0, place: 0 };
        // SAFETY: the reader was made and not freed, and the record is there for the call.
        let status = unsafe { wb_csv_next(self.reader.as_ptr(), &mut record) };
        match status {
            OK => {}
            DONE => return Ok(NextRecord::Done),
            NEEDS_MORE => return Ok(NextRecord::NeedsMore),
            _ => return Err(Error { status, cause: 0, place: record.place, is_of_reply: false }),
        }
        // SAFETY: the library lends the offsets until the next call, which borrows the reader anew, and a record has at least one field.
        let ends = unsafe { std::slice::from_raw_parts(record.ends, record.count) };
        let length = ends[ends.len() - 1];
        // SAFETY: the library lends as many bytes as the last offset says.
        let text = if length == 0 { &[][..] } else { unsafe { std::slice::from_raw_parts(record.text, length) } };
        Ok(NextRecord::Record(Record { text, ends }))
    }

    /// Returns how many bytes were pushed.
    pub fn fed(&mut self) -> usize {
        // SAFETY: the reader was made and not freed.
        unsafe { wb_csv_fed(self.reader.as_ptr()) }
    }

    /// Returns how many bytes of the input are kept.
    pub fn held(&mut self) -> usize {
        // SAFETY: the reader was made and not freed.
        unsafe { wb_csv_held(self.reader.as_ptr()) }
    }

    /// Returns how many bytes of the input were read.
    pub fn place(&mut self) -> usize {
        // SAFETY: the reader was made and not freed.
        unsafe { wb_csv_place(self.reader.as_ptr()) }
    }
}

impl Drop for CsvReader {
    fn drop(&mut self) {
        // SAFETY: the reader was made, and is freed here alone.
        unsafe { wb_csv_free(self.reader.as_ptr()) };
    }
}

/// An event of replies of a Redis server. Bytes that it lends stay until the next call of the reader.
#[derive(Clone, Copy, Debug, PartialEq, Eq)]
pub enum Reply<'a> {
    /// An array begins, of this number of replies
    StartArray(usize),
    EndArray,
    Simple(&'a [u8]),
    Error(&'a [u8]),
    Integer(i64),
    Bulk(&'a [u8]),
    NullBulk,
    NullArray,
}

/// What a reader of replies has next.
#[derive(Clone, Copy, Debug, PartialEq, Eq)]
pub enum NextReply<'a> {
    Reply(Reply<'a>),
    /// A piece or the end of the input is awaited
    NeedsMore,
    /// The input is read to its end
    Done,
}

/// A reader of the events of replies that come in pieces.
pub struct RespReader {
    reader: NonNull<Opaque>,
    // It stays on its thread.
    marker: PhantomData<*mut u8>,
}

impl RespReader {
    /// Returns a reader of replies within `depth` arrays, with texts of at most `longest` bytes, which takes a piece while at most `kept` bytes
    /// wait to be read; or `None` when memory is refused.
    pub fn new(depth: usize, longest: usize, kept: usize) -> Option<Self> {
        // SAFETY: the limits are there for the call.
        let reader = unsafe { wb_resp_new(&RespLimits { depth, longest, kept }) };
        Some(RespReader { reader: NonNull::new(reader)?, marker: PhantomData })
    }

    /// Appends a piece to what waits to be read.
    pub fn push(&mut self, piece: &[u8]) -> Result<(), Error> {
        // SAFETY: the reader was made and not freed, and the piece has as many bytes as its length says.
        match unsafe { wb_resp_push(self.reader.as_ptr(), piece.as_ptr(), piece.len()) } {
            OK => Ok(()),
            status => Err(Error::of(status)),
        }
    }

    /// Notes that no more follows.
    pub fn end(&mut self) {
        // SAFETY: the reader was made and not freed.
        unsafe { wb_resp_end(self.reader.as_ptr()) };
    }

    /// Reads the next event.
    #[allow(clippy::should_implement_trait)]
    pub fn next(&mut self) -> Result<NextReply<'_>, Error> {
        let mut event = RawReply { kind: 0, cause: 0, text: std::ptr::null(), length: 0, integer: 0, count: 0, place: 0 };
        // SAFETY: the reader was made and not freed, and the event is there for the call.
        let status = unsafe { wb_resp_next(self.reader.as_ptr(), &mut event) };
        match status {
            OK => {}
            DONE => return Ok(NextReply::Done),
            NEEDS_MORE => return Ok(NextReply::NeedsMore),
            _ => return Err(Error { status, cause: event.cause, place: event.place, is_of_reply: true }),
        }
        let bytes = if event.length == 0 {
            &[][..]
        } else {
            // SAFETY: the library lends these bytes until the next call, which borrows the reader anew.
            unsafe { std::slice::from_raw_parts(event.text, event.length) }
        };
        Ok(NextReply::Reply(match event.kind {
            1 => Reply::StartArray(event.count),
            2 => Reply::EndArray,
            3 => Reply::Simple(bytes),
            4 => Reply::Error(bytes),
            5 => Reply::Integer(event.integer),
            6 => Reply::Bulk(bytes),
            7 => Reply::NullBulk,
            8 => Reply::NullArray,
            _ => return Err(Error::of(u32::MAX)),
        }))
    }

    /// Returns how many bytes were pushed.
    pub fn fed(&mut self) -> usize {
        // SAFETY: the reader was made and not freed.
        unsafe { wb_resp_fed(self.reader.as_ptr()) }
    }

    /// Returns how many bytes of the input are kept.
    pub fn held(&mut self) -> usize {
        // SAFETY: the reader was made and not freed.
        unsafe { wb_resp_held(self.reader.as_ptr()) }
    }

    /// Returns how many bytes of the input were read.
    pub fn place(&mut self) -> usize {
        // SAFETY: the reader was made and not freed.
        unsafe { wb_resp_place(self.reader.as_ptr()) }
    }

    /// Returns how many arrays are open.
    pub fn level(&mut self) -> usize {
        // SAFETY: the reader was made and not freed.
        unsafe { wb_resp_level(self.reader.as_ptr()) }
    }
}

impl Drop for RespReader {
    fn drop(&mut self) {
        // SAFETY: the reader was made, and is freed here alone.
        unsafe { wb_resp_free(self.reader.as_ptr()) };
    }
}
