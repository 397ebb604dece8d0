/* Calls of the C library in any order, on a JSON text, as an input of a fuzzer says them: of a reader, and of a writer beside it.
 *
 * The first byte of the input says how many bytes hold orders, and the rest is the text. An order is a byte: a new reader with limits at their ends,
 * a piece, the end, some events, a reader freed early, a call that is misused. In a second pass the text is read whole and in pieces, and both must
 * have the same events and the same error. Each byte that an event lends is read until the next call, so that the address sanitizer sees a
 * byte that is not there. What must hold is tested by `must`, which aborts.
 *
 * The same orders, from the last to the first, are those of a writer, between those of the reader: a new writer, a value, a name, an end, a drop.
 * What was written before a call stays, and a call that is refused writes nothing. All that was written is a JSON text or the beginning of one.
 *
 * `bench/c_calls/run` builds this with libFuzzer, or with `-DSTANDALONE`, which makes its inputs itself.
 */
#include "pen.h"

/* Reads what an event lends, and adds it to a sum. */
static uint64_t sum_of(const wb_json_event *event, uint64_t sum)
{
    sum = sum * 31 + event->kind;
    sum = sum * 31 + event->length;
    for (size_t i = 0; i < event->length; i++)
        sum = sum * 31 + event->text[i];
    return sum * 31 + (uint64_t)event->integer + event->has_integer;
}

/* What holds of an event with this status. */
static void look(wb_status status, const wb_json_event *event, size_t fed)
{
    must(status <= WB_ENDS_EARLY && status != WB_FULL && status != WB_ENDED && status != WB_TOO_LONG);
    must((status == WB_OK) == (event->kind != WB_JSON_NONE) && event->kind <= WB_JSON_STRING);
    must((status == WB_DAMAGED) == (event->cause != 0) && event->cause <= WB_JSON_BAD_UTF8);
    must(event->place <= fed);
    must(status == WB_OK || (event->length == 0 && event->integer == 0 && !event->has_integer && event->place <= fed));
    must(event->has_integer || event->integer == 0);
    must(!event->has_integer || event->kind == WB_JSON_NUMBER);
    must(event->kind >= WB_JSON_KEY || event->length == 0);
}

/* Reads at most so many events, and returns the last status. */
static wb_status read_some(wb_json_reader *reader, size_t most, uint64_t *sum, wb_json_event *event)
{
    wb_status status = WB_OK;
    for (size_t i = 0; i < most && (status == WB_OK || status == WB_REFUSED); i++) {
        status = wb_json_next(reader, event);
        look(status, event, wb_json_fed(reader));
        if (status == WB_OK)
            *sum = sum_of(event, *sum);
        must(wb_json_held(reader) <= wb_json_fed(reader));
    }
    return status;
}

/* All that the writer wrote is a text, or the beginning of one, with as many arrays and objects open as the writer says. */
static void check_text(struct pen *pen, wb_json_writer *writer)
{
    wb_written written;
    wb_json_event event;
    wb_json_limits limits = {SIZE_MAX, SIZE_MAX};
    if (writer == NULL)
        return;
    must(wb_json_written(writer, &written) == WB_OK);
    keep(pen, written);
    wb_json_reader *reader = wb_json_of(pen->dropped, pen->length, &limits);
    must(reader != NULL);
    uint64_t sum = 0;
    wb_status status = read_some(reader, SIZE_MAX, &sum, &event);
    must(status == (wb_json_is_whole(writer) ? WB_DONE : WB_ENDS_EARLY));
    must(wb_json_level(reader) == wb_json_writer_level(writer));
    wb_json_free(reader);
    clear(pen);
}

/* Calls of a writer that are misused. */
static void misuse(wb_json_writer *writer)
{
    wb_written written;
    must(wb_json_write_string(writer, NULL, 1) == WB_MISUSED);
    must(wb_json_write_key(writer, "", (size_t)PTRDIFF_MAX + 1) == WB_MISUSED);
    must(wb_json_written(writer, NULL) == WB_MISUSED && wb_json_written(NULL, &written) == WB_MISUSED);
    must(wb_json_write_null(NULL) == WB_MISUSED && wb_json_forget(NULL) == WB_MISUSED && !wb_json_is_whole(NULL));
    /* A writer of another format says so. */
    if (writer != NULL) {
        must(wb_csv_write_field((wb_csv_writer *)writer, NULL, 0) == WB_OTHER_FORMAT);
        must(wb_csv_end_record((wb_csv_writer *)writer) == WB_OTHER_FORMAT);
        must(wb_resp_write_array((wb_resp_writer *)writer, 1) == WB_OTHER_FORMAT);
    }
}

/* Makes the call of an order, with a text. */
static wb_status write_one(wb_json_writer *writer, size_t order, const uint8_t *text, size_t length)
{
    switch (order) {
    case 2: return wb_json_write_null(writer);
    case 3: return wb_json_write_bool(writer, length % 2);
    case 4: return wb_json_write_integer(writer, length < 8 ? -(int64_t)length : INT64_MIN + (int64_t)length);
    case 5: return wb_json_write_number(writer, text, length);
    case 6: return wb_json_start_object(writer);
    case 7: return wb_json_end_object(writer);
    case 8: return wb_json_start_array(writer);
    case 9: return wb_json_end_array(writer);
    case 10:
    case 11: return wb_json_write_key(writer, text, length);
    default: return wb_json_write_string(writer, text, length);
    }
}

/* Carries out an order of the writer. */
static wb_json_writer *write_order(struct pen *pen, wb_json_writer *writer, uint8_t order, const uint8_t *text, size_t length)
{
    static const size_t ends[] = {0, 1, 2, 16, 512, SIZE_MAX};
    wb_written written;
    if (writer == NULL || order % 16 == 0) {
        check_text(pen, writer);
        wb_json_writer_free(writer);
        misuse(NULL);
        return wb_json_writer_new(ends[order / 16 % 6]);
    }
    if (order % 16 == 1)
        misuse(writer);
    must(wb_json_written(writer, &written) == WB_OK);
    if (order % 16 == 1) {
        keep(pen, written);
        must(wb_json_forget(writer) == WB_OK && wb_json_written(writer, &written) == WB_OK && written.length == 0);
        return writer;
    }
    look_before(pen, written);
    size_t size = smaller((size_t)order / 16, length);
    uint8_t *copy = copy_of(text, size);
    wb_status status = write_one(writer, order % 16, copy, size);
    drop_copy(copy, size);
    must(wb_json_written(writer, &written) == WB_OK);
    look_after(pen, status, written);
    return writer;
}

/* Carries out the orders. */
static void follow(const uint8_t *orders, size_t count, const uint8_t *text, size_t length)
{
    static const size_t ends[] = {0, 1, 2, 16, 512, SIZE_MAX};
    struct pen pen = {0};
    wb_json_writer *writer = NULL;
    wb_json_reader *reader = NULL;
    wb_json_event event;
    uint64_t sum = 0;
    size_t at = 0;
    int has_ended = 0;
    for (size_t i = 0; i < count; i++) {
        size_t number = orders[i] / 8;
        writer = write_order(&pen, writer, orders[count - 1 - i], text + at, length - at);
        wb_json_limits limits = {ends[number % 6], ends[number / 6 % 6]};
        switch (orders[i] % 8) {
        case 0:
            wb_json_free(reader);
            reader = wb_json_new(number == 31 ? NULL : &limits);
            has_ended = 0;
            break;
        case 1:
        case 2: {
            size_t size = smaller(number * number, length - at);
            uint8_t *piece = copy_of(text + at, size);
            size_t fed = wb_json_fed(reader);
            wb_status status = wb_json_push(reader, piece, size);
            drop_copy(piece, size);
            must(reader != NULL || status == WB_MISUSED);
            must(status != WB_ENDED || has_ended);
            must(wb_json_fed(reader) == (status == WB_OK ? fed + size : fed));
            at += status == WB_OK ? size : 0;
            break;
        }
        case 3:
            must(wb_json_end(reader) == (reader == NULL ? WB_MISUSED : WB_OK));
            has_ended = reader != NULL;
            break;
        case 4:
        case 5:
            if (reader == NULL)
                must(wb_json_next(reader, &event) == WB_MISUSED);
            else
                read_some(reader, number + 1, &sum, &event);
            break;
        case 6:
            must(wb_json_push(reader, text, (size_t)PTRDIFF_MAX + 1) == WB_MISUSED);
            must(wb_json_push(reader, NULL, 1) == WB_MISUSED);
            must(wb_json_next(reader, NULL) == WB_MISUSED);
            must(reader == NULL || has_ended || wb_json_push(reader, NULL, 0) != WB_MISUSED);
            must(wb_status_text((wb_status)number) != NULL && wb_json_cause_text((uint32_t)number) != NULL);
            break;
        default:
            wb_json_free(reader);
            reader = number % 2 ? wb_json_of(text, length, &limits) : NULL;
            has_ended = reader != NULL;
            at = length;
            break;
        }
        must(wb_json_held(reader) <= wb_json_fed(reader));
        must(wb_json_level(reader) <= wb_json_place(reader));
        must(wb_json_place(reader) <= wb_json_fed(reader));
    }
    check_text(&pen, writer);
    wb_json_writer_free(writer);
    wb_json_free(reader);
}

/* Reads the text in pieces of this size, all at once where it is 0, and tells what came of it. */
static struct outcome read_in(const uint8_t *text, size_t length, size_t piece)
{
    wb_json_event event = {0};
    struct outcome it = {0, WB_NEEDS_MORE, 0, 0};
    wb_json_reader *reader = piece == 0 ? wb_json_of(text, length, NULL) : wb_json_new(NULL);
    must(reader != NULL);
    for (size_t at = 0; piece != 0 && at < length && it.status == WB_NEEDS_MORE; at += piece) {
        size_t size = smaller(piece, length - at);
        uint8_t *copy = copy_of(text + at, size);
        must(wb_json_push(reader, copy, size) == WB_OK);
        drop_copy(copy, size);
        it.status = read_some(reader, SIZE_MAX, &it.sum, &event);
    }
    if (it.status == WB_NEEDS_MORE) {
        wb_json_end(reader);
        it.status = read_some(reader, SIZE_MAX, &it.sum, &event);
    }
    it.cause = event.cause;
    it.place = event.place;
    must(wb_json_next(reader, &event) == it.status && event.place == it.place && event.cause == it.cause);
    wb_json_free(reader);
    return it;
}

int LLVMFuzzerTestOneInput(const uint8_t *input, size_t size)
{
    if (size == 0)
        return 0;
    size_t count = smaller(input[0], size - 1);
    const uint8_t *text = input + 1 + count;
    size_t length = size - 1 - count;
    follow(input + 1, count, text, length);
    struct outcome whole = read_in(text, length, 0);
    same(whole, read_in(text, length, 1));
    same(whole, read_in(text, length, 3 + input[0] % 61));
    return 0;
}

#ifdef STANDALONE
const char *const seeds[] = {
    "{\"a\\n\": [1, true, null], \"b\": -2.5e3, \"c\": \"\\u00e9\\ud83d\\ude00\", \"d\": false}",
    "[[[[[]]]], {\"\": {}}, 9223372036854775807, -9223372036854775808, 9223372036854775808]",
    " [ 1 ,\t2 ]\r\n", "\"\xf0\x9f\x98\x80\"", "[1.5E+2, 0, -0, 1e-7]", "\xef\xbb\xbf[]", "[tru]", "{\"a\" 1}", "[01]", "\"\\ud800\"", NULL,
};
#endif
