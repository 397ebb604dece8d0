/* woldbraid.h: readers of formats over input that comes in pieces, and writers of them.
 *
 * A reader is made by a call `.._new`, and freed by `.._free`. Pieces of the input are pushed, in their order, and what they hold is read
 * by `.._next`, until that says that more is needed. After the last piece, `.._end` says that no more follows, and `.._next` reads on to
 * `WB_DONE`.
 *
 *     wb_json_reader *reader = wb_json_new(NULL);
 *     wb_json_event event;
 *     ..
 *     wb_json_push(reader, piece, length);
 *     while ((status = wb_json_next(reader, &event)) == WB_OK)
 *         use(&event);
 *     ..
 *     wb_json_free(reader);
 *
 * A writer is made by a call `.._writer_new`, and freed by `.._writer_free`. Values are written one by one. What was written is lent by
 * `.._written`, and dropped by `.._forget`, so that a text of any length is written in the memory of its longest part.
 *
 *     wb_json_writer *writer = wb_json_writer_new(WB_JSON_DEPTH);
 *     wb_written written;
 *     ..
 *     wb_json_start_array(writer);
 *     wb_json_write_integer(writer, 7);
 *     wb_json_end_array(writer);
 *     wb_json_written(writer, &written);
 *     fwrite(written.text, 1, written.length, file);
 *     ..
 *     wb_json_writer_free(writer);
 *
 * Each call returns a status. What an event lends stays until the next call of its reader, and what a writer lends until its next call. There
 * is no global state, so readers and writers are independent, and each stays on the thread that made it. When memory is refused, a call says
 * so, nothing is lost, and the same call may be made again. No call ends the program, waits or takes a lock.
 *
 * The code of the calls is proved up to its own boundary. A caller is trusted for this, which nothing checks: a reader was made by `.._new`
 * or `.._of`, a writer by `.._writer_new`, and neither was freed; a pointer has as many bytes as the length says; a struct that is written has
 * room. Memory comes from malloc, realloc and free, which are one allocator, and align a block to each power of two up to 16 that divides its
 * size. No call is made in a signal handler, nor in the forked child of a process with threads.
 */
#ifndef WOLDBRAID_H
#define WOLDBRAID_H

#include <stdbool.h>
#include <stddef.h>
#include <stdint.h>

#ifdef __cplusplus
extern "C" {
#endif

/* What came of a call. */
typedef uint32_t wb_status;

/* The call did what it is for. */
#define WB_OK UINT32_C(0)
/* The input is read to its end. */
#define WB_DONE UINT32_C(1)
/* Bytes are awaited that were not pushed yet: push a piece, or end the input. */
#define WB_NEEDS_MORE UINT32_C(2)
/* Nothing was pushed: more bytes wait to be read than the limit `kept`. Read first. Where reading needs more, a token is too long. */
#define WB_FULL UINT32_C(3)
/* Nothing was pushed: the input has ended. */
#define WB_ENDED UINT32_C(4)
/* Nothing was pushed: the input would have 2^64 bytes or more. */
#define WB_TOO_LONG UINT32_C(5)
/* Memory was refused. Nothing is lost, and the same call may be made again. */
#define WB_REFUSED UINT32_C(6)
/* The input is damaged at a place. The reader stays there. */
#define WB_DAMAGED UINT32_C(7)
/* A token stands at a place where it may not; or nothing was written, since what the call writes may not come next. */
#define WB_UNEXPECTED UINT32_C(8)
/* A value or a reply stands at a place within more arrays and objects than the limit `depth`; or nothing was written, since it would. */
#define WB_TOO_DEEP UINT32_C(9)
/* The input ends before the text does. */
#define WB_ENDS_EARLY UINT32_C(10)
/* The reader or the writer is that of another format. Nothing was done. */
#define WB_OTHER_FORMAT UINT32_C(11)
/* Nothing was written: the text is no number of JSON. */
#define WB_NO_NUMBER UINT32_C(12)
/* Nothing was written: the bytes are no UTF-8. */
#define WB_BAD_UTF8 UINT32_C(13)
/* Nothing was written: a simple string or an error has CR or LF. */
#define WB_LINE_END UINT32_C(14)
/* An argument is missing, or a length is above PTRDIFF_MAX. Nothing was done. */
#define WB_MISUSED UINT32_C(100)

/* Returns a status in a few words, in English. */
const char *wb_status_text(wb_status status);

/* ---- JSON (RFC 8259): one value, with blanks around it and nothing else */

/* A reader of the events of a JSON text. */
typedef struct wb_json_reader wb_json_reader;

/* What a reader may keep. */
typedef struct wb_json_limits {
    /* Within how many arrays and objects a value may stand. A byte is kept for each that is open. */
    size_t depth;
    /* How many bytes may wait to be read when a piece is pushed. So at most as many are kept, and a piece. */
    size_t kept;
} wb_json_limits;

/* The limits where none are passed. */
#define WB_JSON_DEPTH ((size_t)512)
#define WB_JSON_KEPT ((size_t)1 << 24)

/* What kind of event it is. */
#define WB_JSON_NONE UINT32_C(0)
#define WB_JSON_START_ARRAY UINT32_C(1)
#define WB_JSON_END_ARRAY UINT32_C(2)
#define WB_JSON_START_OBJECT UINT32_C(3)
#define WB_JSON_END_OBJECT UINT32_C(4)
/* The name of a member, whose value comes next. */
#define WB_JSON_KEY UINT32_C(5)
#define WB_JSON_NULL UINT32_C(6)
#define WB_JSON_FALSE UINT32_C(7)
#define WB_JSON_TRUE UINT32_C(8)
#define WB_JSON_NUMBER UINT32_C(9)
#define WB_JSON_STRING UINT32_C(10)

/* What is wrong where the input is damaged. */
#define WB_JSON_WIDE_TEXT UINT32_C(1)
#define WB_JSON_BYTE_ORDER_MARK UINT32_C(2)
#define WB_JSON_COMMENT UINT32_C(3)
#define WB_JSON_SINGLE_QUOTE UINT32_C(4)
#define WB_JSON_OTHER_WORD UINT32_C(5)
#define WB_JSON_NO_TOKEN UINT32_C(6)
#define WB_JSON_LEADING_ZERO UINT32_C(7)
#define WB_JSON_BAD_NUMBER UINT32_C(8)
#define WB_JSON_BAD_ESCAPE UINT32_C(9)
#define WB_JSON_LONE_SURROGATE UINT32_C(10)
#define WB_JSON_CONTROL_CHARACTER UINT32_C(11)
#define WB_JSON_BAD_UTF8 UINT32_C(12)

/* An event, or why there is none. */
typedef struct wb_json_event {
    /* The kind of event: WB_JSON_NONE where there is none. */
    uint32_t kind;
    /* With WB_DAMAGED what is wrong, else 0. */
    uint32_t cause;
    /* The bytes of a name or a string, in UTF-8 and without escapes, or of a number as it is written. No zero follows them. */
    const uint8_t *text;
    /* How many these are; 0 for other events. */
    size_t length;
    /* The number, if `has_integer`, else 0. A fraction, an exponent or a larger number is for strtod, over a copy of the text. */
    int64_t integer;
    /* The place of an error, as an offset in bytes from the start of the input, else 0. */
    size_t place;
    /* Whether the number is an integer that an int64_t has, written without a fraction and an exponent. */
    bool has_integer;
} wb_json_event;

/* Returns a reader, or NULL when memory is refused. Without limits, those above hold. */
wb_json_reader *wb_json_new(const wb_json_limits *limits);

/* Returns a reader of a whole text, to which the text was pushed and then the end; or NULL when memory is refused or the text is missing.
 * The text is copied. */
wb_json_reader *wb_json_of(const void *text, size_t length, const wb_json_limits *limits);

/* Appends a piece to what waits to be read. Its bytes are copied. A piece of no bytes may have the address NULL. */
wb_status wb_json_push(wb_json_reader *reader, const void *piece, size_t length);

/* Notes that no more follows. */
wb_status wb_json_end(wb_json_reader *reader);

/* Reads the next event. With WB_OK there is one. After an error that names a place, each further call gives that error again. */
wb_status wb_json_next(wb_json_reader *reader, wb_json_event *event);

/* Returns how many bytes were pushed; 0 without a reader. */
size_t wb_json_fed(wb_json_reader *reader);

/* Returns how many bytes of the input are kept: those that wait to be read, and those that were read since the last piece. */
size_t wb_json_held(wb_json_reader *reader);

/* Returns how many bytes of the input were read: the place after the last event. Blanks before the next event are not counted. */
size_t wb_json_place(wb_json_reader *reader);

/* Returns how many arrays and objects are open. */
size_t wb_json_level(wb_json_reader *reader);

/* Frees a reader, or does nothing with NULL. */
void wb_json_free(wb_json_reader *reader);

/* Returns a cause in a few words, in English. */
const char *wb_json_cause_text(uint32_t cause);

/* ---- CSV (RFC 4180): records of fields, whose bytes are kept as they are. A byte order mark is a part of the first field. */

/* A reader of records of comma-separated values. */
typedef struct wb_csv_reader wb_csv_reader;

/* What a reader may keep. */
typedef struct wb_csv_limits {
    /* How many bytes may wait to be read when a piece is pushed. So at most as many are kept, and a piece. */
    size_t kept;
} wb_csv_limits;

/* The limit where none is passed. */
#define WB_CSV_KEPT ((size_t)1 << 24)

/* A record, or why there is none. */
typedef struct wb_csv_record {
    /* The bytes of the fields without quotes around them, one field after the other. No zero follows a field. */
    const uint8_t *text;
    /* The offsets in these bytes at which the fields end. */
    const size_t *ends;
    /* How many fields there are: 0 where there is no record, else at least 1. */
    size_t count;
    /* With WB_DAMAGED the place of the byte at which the record breaks off, as an offset in bytes from the start of the input, or the length of
     * the input where a closing quote is missing; else 0. */
    size_t place;
} wb_csv_record;

/* The bytes of a field. */
typedef struct wb_csv_field {
    const uint8_t *text;
    size_t length;
} wb_csv_field;

/* Returns the field at an index below `count`. */
static inline wb_csv_field wb_csv_field_at(const wb_csv_record *record, size_t index)
{
    size_t start = index == 0 ? 0 : record->ends[index - 1];
    wb_csv_field field;
    field.text = record->text + start;
    field.length = record->ends[index] - start;
    return field;
}

/* Returns a reader, or NULL when memory is refused. Without limits, that above holds. */
wb_csv_reader *wb_csv_new(const wb_csv_limits *limits);

/* Returns a reader of a whole text, to which the text was pushed and then the end; or NULL when memory is refused or the text is missing.
 * The text is copied. */
wb_csv_reader *wb_csv_of(const void *text, size_t length, const wb_csv_limits *limits);

/* Appends a piece to what waits to be read. Its bytes are copied. A piece of no bytes may have the address NULL. */
wb_status wb_csv_push(wb_csv_reader *reader, const void *piece, size_t length);

/* Notes that no more follows. */
wb_status wb_csv_end(wb_csv_reader *reader);

/* Reads the next record. With WB_OK there is one. After WB_DAMAGED nothing is read, and each further call finds the same. */
wb_status wb_csv_next(wb_csv_reader *reader, wb_csv_record *record);

/* Returns how many bytes were pushed; 0 without a reader. */
size_t wb_csv_fed(wb_csv_reader *reader);

/* Returns how many bytes of the input are kept: those that wait to be read, and those that were read since the last piece. */
size_t wb_csv_held(wb_csv_reader *reader);

/* Returns how many bytes of the input were read: the place after the last record and the end of its line. */
size_t wb_csv_place(wb_csv_reader *reader);

/* Frees a reader, or does nothing with NULL. */
void wb_csv_free(wb_csv_reader *reader);

/* ---- RESP (version 2): replies of a Redis server, one after the other, as events. No array is kept whole. */

/* A reader of the events of replies. */
typedef struct wb_resp_reader wb_resp_reader;

/* What a reader may keep. */
typedef struct wb_resp_limits {
    /* Within how many arrays a reply may stand. A number is kept for each array that is open. */
    size_t depth;
    /* How many bytes a simple string, an error and a bulk string may have. */
    size_t longest;
    /* How many bytes may wait to be read when a piece is pushed. So at most as many are kept, and a piece. */
    size_t kept;
} wb_resp_limits;

/* The limits where none are passed. */
#define WB_RESP_DEPTH ((size_t)32)
#define WB_RESP_LONGEST ((size_t)1 << 29)
#define WB_RESP_KEPT (((size_t)1 << 29) + ((size_t)1 << 24))

/* What kind of event it is. */
#define WB_RESP_NONE UINT32_C(0)
/* An array begins, of `count` replies. */
#define WB_RESP_START_ARRAY UINT32_C(1)
#define WB_RESP_END_ARRAY UINT32_C(2)
#define WB_RESP_SIMPLE UINT32_C(3)
#define WB_RESP_ERROR UINT32_C(4)
#define WB_RESP_INTEGER UINT32_C(5)
#define WB_RESP_BULK UINT32_C(6)
#define WB_RESP_NULL_BULK UINT32_C(7)
#define WB_RESP_NULL_ARRAY UINT32_C(8)

/* What is wrong where a reply breaks off. */
#define WB_RESP_ENDS_INSIDE UINT32_C(1)
#define WB_RESP_NO_KIND UINT32_C(2)
#define WB_RESP_TOO_DEEP UINT32_C(3)
#define WB_RESP_NO_INTEGER UINT32_C(4)
#define WB_RESP_NO_LENGTH UINT32_C(5)
#define WB_RESP_TOO_LONG UINT32_C(6)
#define WB_RESP_NO_LINE_END UINT32_C(7)

/* An event, or why there is none. */
typedef struct wb_resp_event {
    /* The kind of event: WB_RESP_NONE where there is none. */
    uint32_t kind;
    /* With WB_DAMAGED, WB_TOO_DEEP and WB_ENDS_EARLY what is wrong, else 0. */
    uint32_t cause;
    /* The bytes of a simple string, an error or a bulk string. No zero follows them. */
    const uint8_t *text;
    /* How many these are; 0 for other events. */
    size_t length;
    /* The integer, else 0. */
    int64_t integer;
    /* How many replies the array has that begins, else 0. */
    size_t count;
    /* The place of an error, as an offset in bytes from the start of the input, else 0. */
    size_t place;
} wb_resp_event;

/* Returns a reader, or NULL when memory is refused. Without limits, those above hold. */
wb_resp_reader *wb_resp_new(const wb_resp_limits *limits);

/* Returns a reader of a whole text, to which the text was pushed and then the end; or NULL when memory is refused or the text is missing.
 * The text is copied. */
wb_resp_reader *wb_resp_of(const void *text, size_t length, const wb_resp_limits *limits);

/* Appends a piece to what waits to be read. Its bytes are copied. A piece of no bytes may have the address NULL. */
wb_status wb_resp_push(wb_resp_reader *reader, const void *piece, size_t length);

/* Notes that no more follows. */
wb_status wb_resp_end(wb_resp_reader *reader);

/* Reads the next event. With WB_OK there is one. After an error that names a place nothing is read, and each further call finds the same. */
wb_status wb_resp_next(wb_resp_reader *reader, wb_resp_event *event);

/* Returns how many bytes were pushed; 0 without a reader. */
size_t wb_resp_fed(wb_resp_reader *reader);

/* Returns how many bytes of the input are kept: those that wait to be read, and those that were read since the last piece. */
size_t wb_resp_held(wb_resp_reader *reader);

/* Returns how many bytes of the input were read: the place after the last event. */
size_t wb_resp_place(wb_resp_reader *reader);

/* Returns how many arrays are open. */
size_t wb_resp_level(wb_resp_reader *reader);

/* Frees a reader, or does nothing with NULL. */
void wb_resp_free(wb_resp_reader *reader);

/* Returns a cause in a few words, in English. */
const char *wb_resp_cause_text(uint32_t cause);

/* ---- What was written */

/* What a writer has written, and was not dropped. */
typedef struct wb_written {
    /* Its bytes. No zero follows them. */
    const uint8_t *text;
    /* How many these are. */
    size_t length;
} wb_written;

/* ---- JSON, written: one value, without blanks */

/* A generator of a JSON text. A call that does not say WB_OK leaves what was written as it was. */
typedef struct wb_json_writer wb_json_writer;

/* Returns a writer, or NULL when memory is refused. Values may stand within `depth` arrays and objects. A byte is kept for each that is open. */
wb_json_writer *wb_json_writer_new(size_t depth);

/* Writes `null`. */
wb_status wb_json_write_null(wb_json_writer *writer);

/* Writes `true` or `false`. */
wb_status wb_json_write_bool(wb_json_writer *writer, bool value);

/* Writes an integer. */
wb_status wb_json_write_integer(wb_json_writer *writer, int64_t number);

/* Writes a number by its text, as printf makes one with "%.17g"; WB_NO_NUMBER where JSON does not write a number so. */
wb_status wb_json_write_number(wb_json_writer *writer, const void *text, size_t length);

/* Writes a string of these bytes, which are UTF-8, and else WB_BAD_UTF8. A quote, a backslash and the control characters are escaped. */
wb_status wb_json_write_string(wb_json_writer *writer, const void *text, size_t length);

/* Writes the name of a member, whose value comes next. The bytes are as for a string. That a name is there twice is no fault. */
wb_status wb_json_write_key(wb_json_writer *writer, const void *text, size_t length);

/* Begins an array. */
wb_status wb_json_start_array(wb_json_writer *writer);

/* Ends the array that began last; WB_UNEXPECTED where an object did. */
wb_status wb_json_end_array(wb_json_writer *writer);

/* Begins an object. */
wb_status wb_json_start_object(wb_json_writer *writer);

/* Ends the object that began last; WB_UNEXPECTED where an array did, or where a value is due. */
wb_status wb_json_end_object(wb_json_writer *writer);

/* Lends what was written and not dropped, until the next call. */
wb_status wb_json_written(wb_json_writer *writer, wb_written *written);

/* Drops what was written. The text goes on after it. */
wb_status wb_json_forget(wb_json_writer *writer);

/* Returns how many arrays and objects are open; 0 without a writer. */
size_t wb_json_writer_level(wb_json_writer *writer);

/* Returns whether the text is whole: its value is written, and nothing more may come. */
bool wb_json_is_whole(wb_json_writer *writer);

/* Frees a writer, or does nothing with NULL. */
void wb_json_writer_free(wb_json_writer *writer);

/* ---- CSV, written: records that end with CR LF */

/* A writer of records of comma-separated values. A call that does not say WB_OK leaves what was written as it was. */
typedef struct wb_csv_writer wb_csv_writer;

/* Returns a writer, or NULL when memory is refused. */
wb_csv_writer *wb_csv_writer_new(void);

/* Writes a field, between quotes where it has a quote, a comma, CR or LF, and after a comma where the record has a field. */
wb_status wb_csv_write_field(wb_csv_writer *writer, const void *text, size_t length);

/* Ends the record; WB_UNEXPECTED where it has no field. */
wb_status wb_csv_end_record(wb_csv_writer *writer);

/* Lends what was written and not dropped, until the next call. */
wb_status wb_csv_written(wb_csv_writer *writer, wb_written *written);

/* Drops what was written. The records go on after it. */
wb_status wb_csv_forget(wb_csv_writer *writer);

/* Returns whether the last record has ended. */
bool wb_csv_is_whole(wb_csv_writer *writer);

/* Frees a writer, or does nothing with NULL. */
void wb_csv_writer_free(wb_csv_writer *writer);

/* ---- RESP, written: replies of a Redis server, and commands to one */

/* A writer of replies and commands. A call that does not say WB_OK leaves what was written as it was. */
typedef struct wb_resp_writer wb_resp_writer;

/* Returns a writer, or NULL when memory is refused. */
wb_resp_writer *wb_resp_writer_new(void);

/* Writes a simple string; WB_LINE_END where it has CR or LF. */
wb_status wb_resp_write_simple(wb_resp_writer *writer, const void *text, size_t length);

/* Writes an error; WB_LINE_END where it has CR or LF. */
wb_status wb_resp_write_error(wb_resp_writer *writer, const void *text, size_t length);

/* Writes an integer. */
wb_status wb_resp_write_integer(wb_resp_writer *writer, int64_t number);

/* Writes a bulk string. */
wb_status wb_resp_write_bulk(wb_resp_writer *writer, const void *text, size_t length);

/* Writes the null that stands for a bulk string. */
wb_status wb_resp_write_null_bulk(wb_resp_writer *writer);

/* Begins an array of this number of replies, which are written next. Nothing counts them. */
wb_status wb_resp_write_array(wb_resp_writer *writer, size_t count);

/* Writes the null that stands for an array. */
wb_status wb_resp_write_null_array(wb_resp_writer *writer);

/* Writes a command: an array of bulk strings, as redisFormatCommandArgv does. Without lengths each word ends before its first zero. */
wb_status wb_resp_write_command(wb_resp_writer *writer, size_t count, const char *const *words, const size_t *lengths);

/* Lends what was written and not dropped, until the next call. */
wb_status wb_resp_written(wb_resp_writer *writer, wb_written *written);

/* Drops what was written. */
wb_status wb_resp_forget(wb_resp_writer *writer);

/* Frees a writer, or does nothing with NULL. */
void wb_resp_writer_free(wb_resp_writer *writer);

#ifdef __cplusplus
}
#endif

#endif
