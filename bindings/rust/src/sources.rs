//! Iterators over what a source such as a file has: the events of a JSON text, the records of comma-separated values, the events of replies.
//!
//! A source is read in pieces, so that one of any length takes the memory of its longest part and of a piece. A read that was interrupted is made again. An error, of the
//! source or of what it has, ends the items.

use crate::{CsvReader, Error, Event, JsonReader, Next, NextRecord, NextReply, Reply, RespReader};
use std::fmt;
use std::io::{self, Read};

/// The most bytes that are read of a source at a time.
const PIECE: usize = 1 << 16;

/// Why a source has no more items.
#[derive(Debug)]
pub enum SourceError {
    /// The source could not be read
    Source(io::Error),
    /// What it has is damaged or too long for the reader, or memory was refused
    Text(Error),
}

impl fmt::Display for SourceError {
    fn fmt(&self, f: &mut fmt::Formatter<'_>) -> fmt::Result {
        match self {
            SourceError::Source(error) => error.fmt(f),
            SourceError::Text(error) => error.fmt(f),
        }
    }
}

impl std::error::Error for SourceError {
    fn source(&self) -> Option<&(dyn std::error::Error + 'static)> {
        match self {
            SourceError::Source(error) => Some(error),
            SourceError::Text(error) => Some(error),
        }
    }
}

impl From<Error> for SourceError {
    fn from(error: Error) -> Self {
        SourceError::Text(error)
    }
}

/// The error of the source as it is; any other has the kind `InvalidData`, or `OutOfMemory` where memory was refused.
impl From<SourceError> for io::Error {
    fn from(error: SourceError) -> Self {
        match error {
            SourceError::Source(error) => error,
            SourceError::Text(error) if error.is_refused() => io::Error::new(io::ErrorKind::OutOfMemory, error),
            SourceError::Text(error) => io::Error::new(io::ErrorKind::InvalidData, error),
        }
    }
}

/// What a reader of pieces has next.
enum Ahead<T> {
    Item(T),
    NeedsMore,
    Done,
}

/// A reader that takes pieces, and reads owned items of them.
trait ReadsPieces {
    type Item;

    fn take(&mut self, piece: &[u8]) -> Result<(), Error>;

    fn finish(&mut self);

    fn read(&mut self) -> Result<Ahead<Self::Item>, Error>;
}

/// The pieces of a source, and what reads them.
struct Pieces<P, R> {
    // `None` if memory for it was refused.
    reader: Option<P>,
    source: R,
    // Room for a piece; none before the first is read.
    piece: Vec<u8>,
    is_over: bool,
}

impl<P: ReadsPieces, R: Read> Pieces<P, R> {
    fn new(reader: Option<P>, source: R) -> Self {
        Pieces { reader, source, piece: Vec::new(), is_over: false }
    }

    fn next(&mut self) -> Option<Result<P::Item, SourceError>> {
        if self.is_over {
            return None;
        }
        let answer = self.read_next().transpose();
        self.is_over = !matches!(answer, Some(Ok(_)));
        answer
    }

    fn read_next(&mut self) -> Result<Option<P::Item>, SourceError> {
        let reader = self.reader.as_mut().ok_or_else(Error::refused)?;
        loop {
            match reader.read()? {
                Ahead::Item(item) => return Ok(Some(item)),
                Ahead::Done => return Ok(None),
                Ahead::NeedsMore => self.piece.resize(PIECE, 0),
            }
            match self.source.read(&mut self.piece) {
                Ok(0) => reader.finish(),
                Ok(length) => reader.take(&self.piece[..length])?,
                Err(error) if error.kind() == io::ErrorKind::Interrupted => {}
                Err(error) => return Err(SourceError::Source(error)),
            }
        }
    }
}

/// An event that has its text.
#[derive(Clone, Debug, PartialEq)]
pub enum OwnedEvent {
    StartArray,
    EndArray,
    StartObject,
    EndObject,
    /// The name of a member, whose value comes next
    Key(String),
    Null,
    Bool(bool),
    /// A number as it is written, and the integer that it is, if an `i64` has it
    Number(String, Option<i64>),
    String(String),
}

impl From<Event<'_>> for OwnedEvent {
    fn from(event: Event<'_>) -> Self {
        match event {
            Event::StartArray => OwnedEvent::StartArray,
            Event::EndArray => OwnedEvent::EndArray,
            Event::StartObject => OwnedEvent::StartObject,
            Event::EndObject => OwnedEvent::EndObject,
            Event::Key(name) => OwnedEvent::Key(name.to_owned()),
            Event::Null => OwnedEvent::Null,
            Event::Bool(value) => OwnedEvent::Bool(value),
            Event::Number(text, integer) => OwnedEvent::Number(text.to_owned(), integer),
            Event::String(value) => OwnedEvent::String(value.to_owned()),
        }
    }
}

impl ReadsPieces for JsonReader {
    type Item = OwnedEvent;

    fn take(&mut self, piece: &[u8]) -> Result<(), Error> {
        self.push(piece)
    }

    fn finish(&mut self) {
        self.end();
    }

    fn read(&mut self) -> Result<Ahead<OwnedEvent>, Error> {
        Ok(match self.next()? {
            Next::Event(event) => Ahead::Item(event.into()),
            Next::NeedsMore => Ahead::NeedsMore,
            Next::Done => Ahead::Done,
        })
    }
}

/// The events of a JSON text that a source has; an error ends them.
pub struct JsonEvents<R> {
    pieces: Pieces<JsonReader, R>,
}

/// Returns the events of the JSON text of a source, of values within 512 arrays and objects and with tokens of at most 16 MiB.
///
/// ```
/// use woldbraid::{json_events, OwnedEvent, SourceError};
///
/// let events: Vec<OwnedEvent> = json_events(&b"[7, null]"[..]).collect::<Result<_, _>>()?;
/// assert_eq!(events[1], OwnedEvent::Number("7".to_owned(), Some(7)));
/// # Ok::<(), SourceError>(())
/// ```
pub fn json_events<R: Read>(source: R) -> JsonEvents<R> {
    JsonEvents { pieces: Pieces::new(JsonReader::new(512, 1 << 24), source) }
}

impl<R: Read> JsonEvents<R> {
    /// Returns the events of a source as this reader reads them, within its limits.
    pub fn new(reader: JsonReader, source: R) -> Self {
        JsonEvents { pieces: Pieces::new(Some(reader), source) }
    }
}

impl<R: Read> Iterator for JsonEvents<R> {
    type Item = Result<OwnedEvent, SourceError>;

    fn next(&mut self) -> Option<Self::Item> {
        self.pieces.next()
    }
}

impl ReadsPieces for CsvReader {
    type Item = Vec<Vec<u8>>;

    fn take(&mut self, piece: &[u8]) -> Result<(), Error> {
        self.push(piece)
    }

    fn finish(&mut self) {
        self.end();
    }

    fn read(&mut self) -> Result<Ahead<Vec<Vec<u8>>>, Error> {
        Ok(match self.next()? {
            NextRecord::Record(record) => Ahead::Item(record.iter().map(<[u8]>::to_vec).collect()),
            NextRecord::NeedsMore => Ahead::NeedsMore,
            NextRecord::Done => Ahead::Done,
        })
    }
}

/// The records of comma-separated values that a source has; an error ends them.
pub struct CsvRecords<R> {
    pieces: Pieces<CsvReader, R>,
}

/// Returns the records of the comma-separated values of a source, each as its fields, with records of at most 16 MiB. A [`CsvReader`] lends them.
///
/// ```
/// use woldbraid::{csv_records, SourceError};
///
/// for record in csv_records(&b"a,\"b\"\"c\"\r\n1,2\r\n"[..]) {
///     assert_eq!(record?.len(), 2);
/// }
/// # Ok::<(), SourceError>(())
/// ```
pub fn csv_records<R: Read>(source: R) -> CsvRecords<R> {
    CsvRecords { pieces: Pieces::new(CsvReader::new(1 << 24), source) }
}

impl<R: Read> CsvRecords<R> {
    /// Returns the records of a source as this reader reads them, within its limit.
    pub fn new(reader: CsvReader, source: R) -> Self {
        CsvRecords { pieces: Pieces::new(Some(reader), source) }
    }
}

impl<R: Read> Iterator for CsvRecords<R> {
    type Item = Result<Vec<Vec<u8>>, SourceError>;

    fn next(&mut self) -> Option<Self::Item> {
        self.pieces.next()
    }
}

/// An event of replies that has its bytes.
#[derive(Clone, Debug, PartialEq, Eq)]
pub enum OwnedReply {
    /// An array begins, of this number of replies
    StartArray(usize),
    EndArray,
    Simple(Vec<u8>),
    Error(Vec<u8>),
    Integer(i64),
    Bulk(Vec<u8>),
    NullBulk,
    NullArray,
}

impl From<Reply<'_>> for OwnedReply {
    fn from(reply: Reply<'_>) -> Self {
        match reply {
            Reply::StartArray(count) => OwnedReply::StartArray(count),
            Reply::EndArray => OwnedReply::EndArray,
            Reply::Simple(text) => OwnedReply::Simple(text.to_vec()),
            Reply::Error(text) => OwnedReply::Error(text.to_vec()),
            Reply::Integer(value) => OwnedReply::Integer(value),
            Reply::Bulk(bytes) => OwnedReply::Bulk(bytes.to_vec()),
            Reply::NullBulk => OwnedReply::NullBulk,
            Reply::NullArray => OwnedReply::NullArray,
        }
    }
}

impl ReadsPieces for RespReader {
    type Item = OwnedReply;

    fn take(&mut self, piece: &[u8]) -> Result<(), Error> {
        self.push(piece)
    }

    fn finish(&mut self) {
        self.end();
    }

    fn read(&mut self) -> Result<Ahead<OwnedReply>, Error> {
        Ok(match self.next()? {
            NextReply::Reply(reply) => Ahead::Item(reply.into()),
            NextReply::NeedsMore => Ahead::NeedsMore,
            NextReply::Done => Ahead::Done,
        })
    }
}

/// The events of replies that a source has; an error ends them.
pub struct RespEvents<R> {
    pieces: Pieces<RespReader, R>,
}

/// Returns the events of the replies of a source, within 32 arrays and with texts of at most 512 MiB.
///
/// ```
/// use woldbraid::{resp_events, OwnedReply, SourceError};
///
/// let events: Vec<OwnedReply> = resp_events(&b"*1\r\n$2\r\nOK\r\n"[..]).collect::<Result<_, _>>()?;
/// assert_eq!(events, [OwnedReply::StartArray(1), OwnedReply::Bulk(b"OK".to_vec()), OwnedReply::EndArray]);
/// # Ok::<(), SourceError>(())
/// ```
pub fn resp_events<R: Read>(source: R) -> RespEvents<R> {
    RespEvents { pieces: Pieces::new(RespReader::new(32, 1 << 29, (1 << 29) + (1 << 24)), source) }
}

impl<R: Read> RespEvents<R> {
    /// Returns the events of a source as this reader reads them, within its limits.
    pub fn new(reader: RespReader, source: R) -> Self {
        RespEvents { pieces: Pieces::new(Some(reader), source) }
    }
}

impl<R: Read> Iterator for RespEvents<R> {
    type Item = Result<OwnedReply, SourceError>;

    fn next(&mut self) -> Option<Self::Item> {
        self.pieces.next()
    }
}
