//! Writers: what each call writes waits in the writer, which lends it and drops it.

use std::ffi::c_char;
use std::marker::PhantomData;
use std::ptr::NonNull;

use crate::{Error, Opaque, OK};

#[repr(C)]
struct RawWritten {
    text: *const u8,
    length: usize,
}

extern "C" {
    fn wb_json_writer_new(depth: usize) -> *mut Opaque;
    fn wb_json_write_null(writer: *mut Opaque) -> u32;
    fn wb_json_write_bool(writer: *mut Opaque, value: bool) -> u32;
    fn wb_json_write_integer(writer: *mut Opaque, number: i64) -> u32;
    fn wb_json_write_number(writer: *mut Opaque, text: *const u8, length: usize) -> u32;
    fn wb_json_write_string(writer: *mut Opaque, text: *const u8, length: usize) -> u32;
    fn wb_json_write_key(writer: *mut Opaque, name: *const u8, length: usize) -> u32;
    fn wb_json_start_array(writer: *mut Opaque) -> u32;
    fn wb_json_end_array(writer: *mut Opaque) -> u32;
    fn wb_json_start_object(writer: *mut Opaque) -> u32;
    fn wb_json_end_object(writer: *mut Opaque) -> u32;
    fn wb_json_written(writer: *mut Opaque, written: *mut RawWritten) -> u32;
    fn wb_json_forget(writer: *mut Opaque) -> u32;
    fn wb_json_writer_level(writer: *mut Opaque) -> usize;
    fn wb_json_is_whole(writer: *mut Opaque) -> bool;
    fn wb_json_writer_free(writer: *mut Opaque);
    fn wb_csv_writer_new() -> *mut Opaque;
    fn wb_csv_write_field(writer: *mut Opaque, text: *const u8, length: usize) -> u32;
    fn wb_csv_end_record(writer: *mut Opaque) -> u32;
    fn wb_csv_written(writer: *mut Opaque, written: *mut RawWritten) -> u32;
    fn wb_csv_forget(writer: *mut Opaque) -> u32;
    fn wb_csv_is_whole(writer: *mut Opaque) -> bool;
    fn wb_csv_writer_free(writer: *mut Opaque);
    fn wb_resp_writer_new() -> *mut Opaque;
    fn wb_resp_write_simple(writer: *mut Opaque, text: *const u8, length: usize) -> u32;
    fn wb_resp_write_error(writer: *mut Opaque, text: *const u8, length: usize) -> u32;
    fn wb_resp_write_integer(writer: *mut Opaque, number: i64) -> u32;
    fn wb_resp_write_bulk(writer: *mut Opaque, text: *const u8, length: usize) -> u32;
    fn wb_resp_write_null_bulk(writer: *mut Opaque) -> u32;
    fn wb_resp_write_array(writer: *mut Opaque, count: usize) -> u32;
    fn wb_resp_write_null_array(writer: *mut Opaque) -> u32;
    fn wb_resp_write_command(writer: *mut Opaque, count: usize, words: *const *const c_char, lengths: *const usize) -> u32;
    fn wb_resp_written(writer: *mut Opaque, written: *mut RawWritten) -> u32;
    fn wb_resp_forget(writer: *mut Opaque) -> u32;
    fn wb_resp_writer_free(writer: *mut Opaque);
}

/// Returns that the call did what it is for, or the error of its status.
fn told(status: u32) -> Result<(), Error> {
    match status {
        OK => Ok(()),
        _ => Err(Error::of(status)),
    }
}

/// Returns what a writer lends.
///
/// # Safety
///
/// The bytes are there for as long as the result.
unsafe fn lent<'a>(written: RawWritten) -> &'a [u8] {
    if written.length == 0 {
        return &[];
    }
    // SAFETY: the caller says that the bytes are there.
    unsafe { std::slice::from_raw_parts(written.text, written.length) }
}

/// A generator of a JSON text. What would not be JSON is an error, and then what was written is what it was.
pub struct JsonWriter {
    writer: NonNull<Opaque>,
    // It stays on its thread.
    marker: PhantomData<*mut u8>,
}

impl JsonWriter {
    /// Returns a writer of values within `depth` arrays and objects; or `None` when memory is refused.
    pub fn new(depth: usize) -> Option<Self> {
        // SAFETY: the call asks for nothing.
        let writer = unsafe { wb_json_writer_new(depth) };
        Some(JsonWriter { writer: NonNull::new(writer)?, marker: PhantomData })
    }

    /// Writes `null`.
    pub fn null(&mut self) -> Result<(), Error> {
        // SAFETY: the writer was made and not freed.
        told(unsafe { wb_json_write_null(self.writer.as_ptr()) })
    }

    /// Writes `true` or `false`.
    pub fn boolean(&mut self, value: bool) -> Result<(), Error> {
        // SAFETY: the writer was made and not freed.
        told(unsafe { wb_json_write_bool(self.writer.as_ptr(), value) })
    }

    /// Writes an integer.
    pub fn integer(&mut self, number: i64) -> Result<(), Error> {
        // SAFETY: the writer was made and not freed.
        told(unsafe { wb_json_write_integer(self.writer.as_ptr(), number) })
    }

    /// Writes a number by its text; an error where JSON does not write a number so.
    pub fn number(&mut self, text: &str) -> Result<(), Error> {
        // SAFETY: the writer was made and not freed, and the text has as many bytes as its length says.
        told(unsafe { wb_json_write_number(self.writer.as_ptr(), text.as_ptr(), text.len()) })
    }

    /// Writes a string.
    pub fn string(&mut self, text: &str) -> Result<(), Error> {
        // SAFETY: the writer was made and not freed, and the text has as many bytes as its length says.
        told(unsafe { wb_json_write_string(self.writer.as_ptr(), text.as_ptr(), text.len()) })
    }

    /// Writes the name of a member, whose value comes next.
    pub fn key(&mut self, name: &str) -> Result<(), Error> {
        // SAFETY: the writer was made and not freed, and the text has as many bytes as its length says.
        told(unsafe { wb_json_write_key(self.writer.as_ptr(), name.as_ptr(), name.len()) })
    }

    /// Begins an array.
    pub fn start_array(&mut self) -> Result<(), Error> {
        // SAFETY: the writer was made and not freed.
        told(unsafe { wb_json_start_array(self.writer.as_ptr()) })
    }

    /// Ends the array that began last.
    pub fn end_array(&mut self) -> Result<(), Error> {
        // SAFETY: the writer was made and not freed.
        told(unsafe { wb_json_end_array(self.writer.as_ptr()) })
    }

    /// Begins an object.
    pub fn start_object(&mut self) -> Result<(), Error> {
        // SAFETY: the writer was made and not freed.
        told(unsafe { wb_json_start_object(self.writer.as_ptr()) })
    }

    /// Ends the object that began last.
    pub fn end_object(&mut self) -> Result<(), Error> {
        // SAFETY: the writer was made and not freed.
        told(unsafe { wb_json_end_object(self.writer.as_ptr()) })
    }

    /// Lends what was written and not dropped.
    pub fn written(&mut self) -> &[u8] {
        let mut written = RawWritten { text: std::ptr::null(), length: 0 };
        // SAFETY: the writer was made and not freed, and the struct is there for the call.
        unsafe { wb_json_written(self.writer.as_ptr(), &mut written) };
        // SAFETY: the library lends the bytes until the next call, which borrows the writer anew.
        unsafe { lent(written) }
    }

    /// Drops what was written.
    pub fn forget(&mut self) {
        // SAFETY: the writer was made and not freed.
        unsafe { wb_json_forget(self.writer.as_ptr()) };
    }

    /// Returns how many arrays and objects are open.
    pub fn level(&mut self) -> usize {
        // SAFETY: the writer was made and not freed.
        unsafe { wb_json_writer_level(self.writer.as_ptr()) }
    }

    /// Returns whether the text is whole: its value is written, and nothing more may come.
    pub fn is_whole(&mut self) -> bool {
        // SAFETY: the writer was made and not freed.
        unsafe { wb_json_is_whole(self.writer.as_ptr()) }
    }
}

impl Drop for JsonWriter {
    fn drop(&mut self) {
        // SAFETY: the writer was made, and is freed here alone.
        unsafe { wb_json_writer_free(self.writer.as_ptr()) };
    }
}

/// A writer of records of comma-separated values, which end with CR LF. After an error, what was written is what it was.
pub struct CsvWriter {
    writer: NonNull<Opaque>,
    // It stays on its thread.
    marker: PhantomData<*mut u8>,
}

impl CsvWriter {
    /// Returns a writer; or `None` when memory is refused.
    pub fn new() -> Option<Self> {
        // SAFETY: the call asks for nothing.
        let writer = unsafe { wb_csv_writer_new() };
        Some(CsvWriter { writer: NonNull::new(writer)?, marker: PhantomData })
    }

    /// Writes a field, after a comma where the record has one.
    pub fn field(&mut self, text: &[u8]) -> Result<(), Error> {
        // SAFETY: the writer was made and not freed, and the text has as many bytes as its length says.
        told(unsafe { wb_csv_write_field(self.writer.as_ptr(), text.as_ptr(), text.len()) })
    }

    /// Ends the record, which must have a field.
    pub fn end_record(&mut self) -> Result<(), Error> {
        // SAFETY: the writer was made and not freed.
        told(unsafe { wb_csv_end_record(self.writer.as_ptr()) })
    }

    /// Lends what was written and not dropped.
    pub fn written(&mut self) -> &[u8] {
        let mut written = RawWritten { text: std::ptr::null(), length: 0 };
        // SAFETY: the writer was made and not freed, and the struct is there for the call.
        unsafe { wb_csv_written(self.writer.as_ptr(), &mut written) };
        // SAFETY: the library lends the bytes until the next call, which borrows the writer anew.
        unsafe { lent(written) }
    }

    /// Drops what was written.
    pub fn forget(&mut self) {
        // SAFETY: the writer was made and not freed.
        unsafe { wb_csv_forget(self.writer.as_ptr()) };
    }

    /// Returns whether the last record has ended.
    pub fn is_whole(&mut self) -> bool {
        // SAFETY: the writer was made and not freed.
        unsafe { wb_csv_is_whole(self.writer.as_ptr()) }
    }
}

impl Drop for CsvWriter {
    fn drop(&mut self) {
        // SAFETY: the writer was made, and is freed here alone.
        unsafe { wb_csv_writer_free(self.writer.as_ptr()) };
    }
}

/// A writer of replies of a Redis server, and of commands to one. After an error, what was written is what it was.
pub struct RespWriter {
    writer: NonNull<Opaque>,
    // It stays on its thread.
    marker: PhantomData<*mut u8>,
}

impl RespWriter {
    /// Returns a writer; or `None` when memory is refused.
    pub fn new() -> Option<Self> {
        // SAFETY: the call asks for nothing.
        let writer = unsafe { wb_resp_writer_new() };
        Some(RespWriter { writer: NonNull::new(writer)?, marker: PhantomData })
    }

    /// Writes a simple string, which has neither CR nor LF.
    pub fn simple(&mut self, text: &[u8]) -> Result<(), Error> {
        // SAFETY: the writer was made and not freed, and the text has as many bytes as its length says.
        told(unsafe { wb_resp_write_simple(self.writer.as_ptr(), text.as_ptr(), text.len()) })
    }

    /// Writes an error, which has neither CR nor LF.
    pub fn error(&mut self, text: &[u8]) -> Result<(), Error> {
        // SAFETY: the writer was made and not freed, and the text has as many bytes as its length says.
        told(unsafe { wb_resp_write_error(self.writer.as_ptr(), text.as_ptr(), text.len()) })
    }

    /// Writes an integer.
    pub fn integer(&mut self, number: i64) -> Result<(), Error> {
        // SAFETY: the writer was made and not freed.
        told(unsafe { wb_resp_write_integer(self.writer.as_ptr(), number) })
    }

    /// Writes a bulk string.
    pub fn bulk(&mut self, text: &[u8]) -> Result<(), Error> {
        // SAFETY: the writer was made and not freed, and the text has as many bytes as its length says.
        told(unsafe { wb_resp_write_bulk(self.writer.as_ptr(), text.as_ptr(), text.len()) })
    }

    /// Writes the null that stands for a bulk string.
    pub fn null_bulk(&mut self) -> Result<(), Error> {
        // SAFETY: the writer was made and not freed.
        told(unsafe { wb_resp_write_null_bulk(self.writer.as_ptr()) })
    }

    /// Begins an array of this number of replies, which are written next.
    pub fn array(&mut self, count: usize) -> Result<(), Error> {
        // SAFETY: the writer was made and not freed.
        told(unsafe { wb_resp_write_array(self.writer.as_ptr(), count) })
    }

    /// Writes the null that stands for an array.
    pub fn null_array(&mut self) -> Result<(), Error> {
        // SAFETY: the writer was made and not freed.
        told(unsafe { wb_resp_write_null_array(self.writer.as_ptr()) })
    }

    /// Writes a command: an array of bulk strings. It is written whole or not at all.
    pub fn command(&mut self, words: &[&[u8]]) -> Result<(), Error> {
        let texts: Vec<*const c_char> = words.iter().map(|word| word.as_ptr().cast()).collect();
        let lengths: Vec<usize> = words.iter().map(|word| word.len()).collect();
        // SAFETY: the writer was made and not freed, there are as many words and lengths as the number says, and each word has its length.
        told(unsafe { wb_resp_write_command(self.writer.as_ptr(), words.len(), texts.as_ptr(), lengths.as_ptr()) })
    }

    /// Lends what was written and not dropped.
    pub fn written(&mut self) -> &[u8] {
        let mut written = RawWritten { text: std::ptr::null(), length: 0 };
        // SAFETY: the writer was made and not freed, and the struct is there for the call.
        unsafe { wb_resp_written(self.writer.as_ptr(), &mut written) };
        // SAFETY: the library lends the bytes until the next call, which borrows the writer anew.
        unsafe { lent(written) }
    }

    /// Drops what was written.
    pub fn forget(&mut self) {
        // SAFETY: the writer was made and not freed.
        unsafe { wb_resp_forget(self.writer.as_ptr()) };
    }
}

impl Drop for RespWriter {
    fn drop(&mut self) {
        // SAFETY: the writer was made, and is freed here alone.
        unsafe { wb_resp_writer_free(self.writer.as_ptr()) };
    }
}
