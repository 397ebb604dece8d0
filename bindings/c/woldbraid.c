/* The calls that woldbraid.h declares: a test of each argument, and one call of what the proved library exports.
 *
 * The proved library requires what these tests see to: that a handle has a reader or a writer, or none where one is made; that a pointer has as many
 * bytes as its length says; and that a length is at most PTRDIFF_MAX.
 */
#include "woldbraid.h"

#include <stdlib.h>
#include <string.h>

/* A reader as the proved library has it: a pointer that it alone reads and writes. */
struct wb_json_reader {
    unsigned char *at;
};

struct wb_csv_reader {
    unsigned char *at;
};

struct wb_resp_reader {
    unsigned char *at;
};

struct wb_json_writer {
    unsigned char *at;
};

struct wb_csv_writer {
    unsigned char *at;
};

struct wb_resp_writer {
    unsigned char *at;
};

extern uint32_t woldbraid_json_new(wb_json_reader *handle, size_t depth, size_t kept);
extern uint32_t woldbraid_json_next(wb_json_reader *handle, wb_json_event *event);
extern uint32_t woldbraid_csv_new(wb_csv_reader *handle, size_t kept);
extern uint32_t woldbraid_csv_next(wb_csv_reader *handle, wb_csv_record *record);
extern uint32_t woldbraid_resp_new(wb_resp_reader *handle, size_t depth, size_t longest, size_t kept);
extern uint32_t woldbraid_resp_next(wb_resp_reader *handle, wb_resp_event *event);
/* Of any reader. */
extern uint32_t woldbraid_push(void *handle, const uint8_t *piece, size_t length);
extern void woldbraid_end(void *handle);
extern size_t woldbraid_fed(void *handle);
extern size_t woldbraid_held(void *handle);
extern size_t woldbraid_place(void *handle);
extern size_t woldbraid_level(void *handle);
extern void woldbraid_free(void *handle);

extern uint32_t woldbraid_json_writer_new(wb_json_writer *handle, size_t depth);
extern uint32_t woldbraid_json_null(wb_json_writer *handle);
extern uint32_t woldbraid_json_bool(wb_json_writer *handle, bool value);
extern uint32_t woldbraid_json_integer(wb_json_writer *handle, int64_t number);
extern uint32_t woldbraid_json_number(wb_json_writer *handle, const uint8_t *text, size_t length);
extern uint32_t woldbraid_json_string(wb_json_writer *handle, const uint8_t *text, size_t length);
extern uint32_t woldbraid_json_name(wb_json_writer *handle, const uint8_t *text, size_t length);
extern uint32_t woldbraid_json_start(wb_json_writer *handle, bool is_object);
extern uint32_t woldbraid_json_finish(wb_json_writer *handle, bool is_object);
extern uint32_t woldbraid_csv_writer_new(wb_csv_writer *handle);
extern uint32_t woldbraid_csv_field(wb_csv_writer *handle, const uint8_t *text, size_t length);
extern uint32_t woldbraid_csv_end_record(wb_csv_writer *handle);
extern uint32_t woldbraid_resp_writer_new(wb_resp_writer *handle);
extern uint32_t woldbraid_resp_simple(wb_resp_writer *handle, const uint8_t *text, size_t length);
extern uint32_t woldbraid_resp_error(wb_resp_writer *handle, const uint8_t *text, size_t length);
extern uint32_t woldbraid_resp_integer(wb_resp_writer *handle, int64_t number);
extern uint32_t woldbraid_resp_bulk(wb_resp_writer *handle, const uint8_t *text, size_t length);
extern uint32_t woldbraid_resp_null_bulk(wb_resp_writer *handle);
extern uint32_t woldbraid_resp_array(wb_resp_writer *handle, size_t count);
extern uint32_t woldbraid_resp_null_array(wb_resp_writer *handle);
extern void woldbraid_resp_cut(wb_resp_writer *handle, size_t length);
/* Of any writer. */
extern void woldbraid_written(void *handle, wb_written *written);
extern void woldbraid_forget(void *handle);
extern size_t woldbraid_writer_level(void *handle);
extern bool woldbraid_is_whole(void *handle);
extern void woldbraid_writer_free(void *handle);

static wb_status push(void *reader, const void *piece, size_t length)
{
    static const uint8_t nothing[1] = {0};
    if (reader == NULL || length > PTRDIFF_MAX || (piece == NULL && length != 0))
        return WB_MISUSED;
    return woldbraid_push(reader, piece == NULL ? nothing : piece, length);
}

static wb_status end(void *reader)
{
    if (reader == NULL)
        return WB_MISUSED;
    woldbraid_end(reader);
    return WB_OK;
}

wb_json_reader *wb_json_new(const wb_json_limits *limits)
{
    size_t depth = limits == NULL ? WB_JSON_DEPTH : limits->depth;
    size_t kept = limits == NULL ? WB_JSON_KEPT : limits->kept;
    wb_json_reader *reader = malloc(sizeof *reader);
    if (reader == NULL)
        return NULL;
    reader->at = NULL;
    if (woldbraid_json_new(reader, depth, kept) != WB_OK) {
        free(reader);
        return NULL;
    }
    return reader;
}

wb_json_reader *wb_json_of(const void *text, size_t length, const wb_json_limits *limits)
{
    wb_json_reader *reader = wb_json_new(limits);
    if (reader == NULL)
        return NULL;
    if (wb_json_push(reader, text, length) != WB_OK) {
        wb_json_free(reader);
        return NULL;
    }
    woldbraid_end(reader);
    return reader;
}

wb_status wb_json_push(wb_json_reader *reader, const void *piece, size_t length)
{
    return push(reader, piece, length);
}

wb_status wb_json_end(wb_json_reader *reader)
{
    return end(reader);
}

wb_status wb_json_next(wb_json_reader *reader, wb_json_event *event)
{
    static const wb_json_event none;
    if (reader == NULL || event == NULL)
        return WB_MISUSED;
    /* The proved library takes a struct whose fields all have a value. */
    *event = none;
    return woldbraid_json_next(reader, event);
}

size_t wb_json_fed(wb_json_reader *reader)
{
    return reader == NULL ? 0 : woldbraid_fed(reader);
}

size_t wb_json_held(wb_json_reader *reader)
{
    return reader == NULL ? 0 : woldbraid_held(reader);
}

size_t wb_json_place(wb_json_reader *reader)
{
    return reader == NULL ? 0 : woldbraid_place(reader);
}

size_t wb_json_level(wb_json_reader *reader)
{
    return reader == NULL ? 0 : woldbraid_level(reader);
}

void wb_json_free(wb_json_reader *reader)
{
    if (reader == NULL)
        return;
    woldbraid_free(reader);
    free(reader);
}

wb_csv_reader *wb_csv_new(const wb_csv_limits *limits)
{
    wb_csv_reader *reader = malloc(sizeof *reader);
    if (reader == NULL)
        return NULL;
    reader->at = NULL;
    if (woldbraid_csv_new(reader, limits == NULL ? WB_CSV_KEPT : limits->kept) != WB_OK) {
        free(reader);
        return NULL;
    }
    return reader;
}

wb_csv_reader *wb_csv_of(const void *text, size_t length, const wb_csv_limits *limits)
{
    wb_csv_reader *reader = wb_csv_new(limits);
    if (reader == NULL)
        return NULL;
    if (push(reader, text, length) != WB_OK) {
        wb_csv_free(reader);
        return NULL;
    }
    woldbraid_end(reader);
    return reader;
}

wb_status wb_csv_push(wb_csv_reader *reader, const void *piece, size_t length)
{
    return push(reader, piece, length);
}

wb_status wb_csv_end(wb_csv_reader *reader)
{
    return end(reader);
}

wb_status wb_csv_next(wb_csv_reader *reader, wb_csv_record *record)
{
    static const wb_csv_record none;
    if (reader == NULL || record == NULL)
        return WB_MISUSED;
    /* The proved library takes a struct whose fields all have a value. */
    *record = none;
    return woldbraid_csv_next(reader, record);
}

size_t wb_csv_fed(wb_csv_reader *reader)
{
    return reader == NULL ? 0 : woldbraid_fed(reader);
}

size_t wb_csv_held(wb_csv_reader *reader)
{
    return reader == NULL ? 0 : woldbraid_held(reader);
}

size_t wb_csv_place(wb_csv_reader *reader)
{
    return reader == NULL ? 0 : woldbraid_place(reader);
}

void wb_csv_free(wb_csv_reader *reader)
{
    if (reader == NULL)
        return;
    woldbraid_free(reader);
    free(reader);
}

wb_resp_reader *wb_resp_new(const wb_resp_limits *limits)
{
    static const wb_resp_limits usual = {WB_RESP_DEPTH, WB_RESP_LONGEST, WB_RESP_KEPT};
    if (limits == NULL)
        limits = &usual;
    wb_resp_reader *reader = malloc(sizeof *reader);
    if (reader == NULL)
        return NULL;
    reader->at = NULL;
    if (woldbraid_resp_new(reader, limits->depth, limits->longest, limits->kept) != WB_OK) {
        free(reader);
        return NULL;
    }
    return reader;
}

wb_resp_reader *wb_resp_of(const void *text, size_t length, const wb_resp_limits *limits)
{
    wb_resp_reader *reader = wb_resp_new(limits);
    if (reader == NULL)
        return NULL;
    if (push(reader, text, length) != WB_OK) {
        wb_resp_free(reader);
        return NULL;
    }
    woldbraid_end(reader);
    return reader;
}

wb_status wb_resp_push(wb_resp_reader *reader, const void *piece, size_t length)
{
    return push(reader, piece, length);
}

wb_status wb_resp_end(wb_resp_reader *reader)
{
    return end(reader);
}

wb_status wb_resp_next(wb_resp_reader *reader, wb_resp_event *event)
{
    static const wb_resp_event none;
    if (reader == NULL || event == NULL)
        return WB_MISUSED;
    /* The proved library takes a struct whose fields all have a value. */
    *event = none;
    return woldbraid_resp_next(reader, event);
}

size_t wb_resp_fed(wb_resp_reader *reader)
{
    return reader == NULL ? 0 : woldbraid_fed(reader);
}

size_t wb_resp_held(wb_resp_reader *reader)
{
    return reader == NULL ? 0 : woldbraid_held(reader);
}

size_t wb_resp_place(wb_resp_reader *reader)
{
    return reader == NULL ? 0 : woldbraid_place(reader);
}

size_t wb_resp_level(wb_resp_reader *reader)
{
    return reader == NULL ? 0 : woldbraid_level(reader);
}

void wb_resp_free(wb_resp_reader *reader)
{
    if (reader == NULL)
        return;
    woldbraid_free(reader);
    free(reader);
}

/* The address of bytes, also where there are none. */
static const uint8_t *bytes_at(const void *text)
{
    static const uint8_t nothing[1] = {0};
    return text == NULL ? nothing : text;
}

/* Whether a writer or its bytes are missing, or these are too many. */
static bool lacks(const void *writer, const void *text, size_t length)
{
    return writer == NULL || length > PTRDIFF_MAX || (text == NULL && length != 0);
}

static wb_status show(void *writer, wb_written *written)
{
    static const wb_written none;
    if (writer == NULL || written == NULL)
        return WB_MISUSED;
    /* The proved library takes a struct whose fields all have a value. */
    *written = none;
    woldbraid_written(writer, written);
    return WB_OK;
}

static wb_status forget(void *writer)
{
    if (writer == NULL)
        return WB_MISUSED;
    woldbraid_forget(writer);
    return WB_OK;
}

wb_json_writer *wb_json_writer_new(size_t depth)
{
    wb_json_writer *writer = malloc(sizeof *writer);
    if (writer == NULL)
        return NULL;
    writer->at = NULL;
    if (woldbraid_json_writer_new(writer, depth) != WB_OK) {
        free(writer);
        return NULL;
    }
    return writer;
}

wb_status wb_json_write_null(wb_json_writer *writer)
{
    return writer == NULL ? WB_MISUSED : woldbraid_json_null(writer);
}

wb_status wb_json_write_bool(wb_json_writer *writer, bool value)
{
    return writer == NULL ? WB_MISUSED : woldbraid_json_bool(writer, value);
}

wb_status wb_json_write_integer(wb_json_writer *writer, int64_t number)
{
    return writer == NULL ? WB_MISUSED : woldbraid_json_integer(writer, number);
}

wb_status wb_json_write_number(wb_json_writer *writer, const void *text, size_t length)
{
    return lacks(writer, text, length) ? WB_MISUSED : woldbraid_json_number(writer, bytes_at(text), length);
}

wb_status wb_json_write_string(wb_json_writer *writer, const void *text, size_t length)
{
    return lacks(writer, text, length) ? WB_MISUSED : woldbraid_json_string(writer, bytes_at(text), length);
}

wb_status wb_json_write_key(wb_json_writer *writer, const void *text, size_t length)
{
    return lacks(writer, text, length) ? WB_MISUSED : woldbraid_json_name(writer, bytes_at(text), length);
}

wb_status wb_json_start_array(wb_json_writer *writer)
{
    return writer == NULL ? WB_MISUSED : woldbraid_json_start(writer, false);
}

wb_status wb_json_end_array(wb_json_writer *writer)
{
    return writer == NULL ? WB_MISUSED : woldbraid_json_finish(writer, false);
}

wb_status wb_json_start_object(wb_json_writer *writer)
{
    return writer == NULL ? WB_MISUSED : woldbraid_json_start(writer, true);
}

wb_status wb_json_end_object(wb_json_writer *writer)
{
    return writer == NULL ? WB_MISUSED : woldbraid_json_finish(writer, true);
}

wb_status wb_json_written(wb_json_writer *writer, wb_written *written)
{
    return show(writer, written);
}

wb_status wb_json_forget(wb_json_writer *writer)
{
    return forget(writer);
}

size_t wb_json_writer_level(wb_json_writer *writer)
{
    return writer == NULL ? 0 : woldbraid_writer_level(writer);
}

bool wb_json_is_whole(wb_json_writer *writer)
{
    return writer != NULL && woldbraid_is_whole(writer);
}

void wb_json_writer_free(wb_json_writer *writer)
{
    if (writer == NULL)
        return;
    woldbraid_writer_free(writer);
    free(writer);
}

wb_csv_writer *wb_csv_writer_new(void)
{
    wb_csv_writer *writer = malloc(sizeof *writer);
    if (writer == NULL)
        return NULL;
    writer->at = NULL;
    if (woldbraid_csv_writer_new(writer) != WB_OK) {
        free(writer);
        return NULL;
    }
    return writer;
}

wb_status wb_csv_write_field(wb_csv_writer *writer, const void *text, size_t length)
{
    return lacks(writer, text, length) ? WB_MISUSED : woldbraid_csv_field(writer, bytes_at(text), length);
}

wb_status wb_csv_end_record(wb_csv_writer *writer)
{
    return writer == NULL ? WB_MISUSED : woldbraid_csv_end_record(writer);
}

wb_status wb_csv_written(wb_csv_writer *writer, wb_written *written)
{
    return show(writer, written);
}

wb_status wb_csv_forget(wb_csv_writer *writer)
{
    return forget(writer);
}

bool wb_csv_is_whole(wb_csv_writer *writer)
{
    return writer != NULL && woldbraid_is_whole(writer);
}

void wb_csv_writer_free(wb_csv_writer *writer)
{
    if (writer == NULL)
        return;
    woldbraid_writer_free(writer);
    free(writer);
}

wb_resp_writer *wb_resp_writer_new(void)
{
    wb_resp_writer *writer = malloc(sizeof *writer);
    if (writer == NULL)
        return NULL;
    writer->at = NULL;
    if (woldbraid_resp_writer_new(writer) != WB_OK) {
        free(writer);
        return NULL;
    }
    return writer;
}

wb_status wb_resp_write_simple(wb_resp_writer *writer, const void *text, size_t length)
{
    return lacks(writer, text, length) ? WB_MISUSED : woldbraid_resp_simple(writer, bytes_at(text), length);
}

wb_status wb_resp_write_error(wb_resp_writer *writer, const void *text, size_t length)
{
    return lacks(writer, text, length) ? WB_MISUSED : woldbraid_resp_error(writer, bytes_at(text), length);
}

wb_status wb_resp_write_integer(wb_resp_writer *writer, int64_t number)
{
    return writer == NULL ? WB_MISUSED : woldbraid_resp_integer(writer, number);
}

wb_status wb_resp_write_bulk(wb_resp_writer *writer, const void *text, size_t length)
{
    return lacks(writer, text, length) ? WB_MISUSED : woldbraid_resp_bulk(writer, bytes_at(text), length);
}

wb_status wb_resp_write_null_bulk(wb_resp_writer *writer)
{
    return writer == NULL ? WB_MISUSED : woldbraid_resp_null_bulk(writer);
}

wb_status wb_resp_write_array(wb_resp_writer *writer, size_t count)
{
    return writer == NULL ? WB_MISUSED : woldbraid_resp_array(writer, count);
}

wb_status wb_resp_write_null_array(wb_resp_writer *writer)
{
    return writer == NULL ? WB_MISUSED : woldbraid_resp_null_array(writer);
}

wb_status wb_resp_write_command(wb_resp_writer *writer, size_t count, const char *const *words, const size_t *lengths)
{
    wb_written before;
    if (show(writer, &before) != WB_OK || (words == NULL && count != 0))
        return WB_MISUSED;
    wb_status status = woldbraid_resp_array(writer, count);
    for (size_t i = 0; i < count && status == WB_OK; i++) {
        size_t length = lengths != NULL ? lengths[i] : words[i] != NULL ? strlen(words[i]) : 0;
        status = wb_resp_write_bulk(writer, words[i], length);
    }
    /* A command is written whole or not at all. */
    if (status != WB_OK)
        woldbraid_resp_cut(writer, before.length);
    return status;
}

wb_status wb_resp_written(wb_resp_writer *writer, wb_written *written)
{
    return show(writer, written);
}

wb_status wb_resp_forget(wb_resp_writer *writer)
{
    return forget(writer);
}

void wb_resp_writer_free(wb_resp_writer *writer)
{
    if (writer == NULL)
        return;
    woldbraid_writer_free(writer);
    free(writer);
}

const char *wb_status_text(wb_status status)
{
    switch (status) {
    case WB_OK: return "done as asked";
    case WB_DONE: return "the input is read to its end";
    case WB_NEEDS_MORE: return "more bytes are needed, or the end of the input";
    case WB_FULL: return "more bytes wait to be read than may be kept";
    case WB_ENDED: return "the input has ended before";
    case WB_TOO_LONG: return "the input is too long";
    case WB_REFUSED: return "memory was refused";
    case WB_DAMAGED: return "the input is damaged";
    case WB_UNEXPECTED: return "what stands there may not, or what is written";
    case WB_TOO_DEEP: return "too many arrays and objects are open";
    case WB_ENDS_EARLY: return "the input ends early";
    case WB_OTHER_FORMAT: return "the reader or the writer is that of another format";
    case WB_NO_NUMBER: return "the text is no number of JSON";
    case WB_BAD_UTF8: return "the bytes are no UTF-8";
    case WB_LINE_END: return "a text of a line has CR or LF";
    case WB_MISUSED: return "an argument is missing, or a length is too large";
    default: return "no status";
    }
}

const char *wb_json_cause_text(uint32_t cause)
{
    switch (cause) {
    case WB_JSON_WIDE_TEXT: return "a byte of UTF-16 or UTF-32, and JSON is in UTF-8";
    case WB_JSON_BYTE_ORDER_MARK: return "a byte order mark, or another character that is not ASCII, outside a string";
    case WB_JSON_COMMENT: return "a comment, which JSON does not have";
    case WB_JSON_SINGLE_QUOTE: return "a single quote, and strings are in double quotes";
    case WB_JSON_OTHER_WORD: return "a word other than true, false and null";
    case WB_JSON_NO_TOKEN: return "no token of JSON begins here";
    case WB_JSON_LEADING_ZERO: return "a number with a zero before its first digit";
    case WB_JSON_BAD_NUMBER: return "a number that JSON does not write so";
    case WB_JSON_BAD_ESCAPE: return "no escape of JSON";
    case WB_JSON_LONE_SURROGATE: return "a surrogate without the other one of its pair";
    case WB_JSON_CONTROL_CHARACTER: return "a control character, which is an escape in a string";
    case WB_JSON_BAD_UTF8: return "bytes that are no UTF-8";
    default: return "no cause";
    }
}

const char *wb_resp_cause_text(uint32_t cause)
{
    switch (cause) {
    case WB_RESP_ENDS_INSIDE: return "the input ends before the reply does";
    case WB_RESP_NO_KIND: return "no reply begins with this byte";
    case WB_RESP_TOO_DEEP: return "too many arrays inside one another";
    case WB_RESP_NO_INTEGER: return "a text that is no integer";
    case WB_RESP_NO_LENGTH: return "a text that is no length";
    case WB_RESP_TOO_LONG: return "a length above the limit";
    case WB_RESP_NO_LINE_END: return "no CR LF where a line or a bulk string must end";
    default: return "no cause";
    }
}
