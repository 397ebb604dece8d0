/* Calls of the C library in any order, on replies, as an input of a fuzzer says them: see json_calls.c. */
#include "pen.h"

/* Reads what an event lends, and adds it to a sum. */
static uint64_t sum_of(const wb_resp_event *event, uint64_t sum)
{
    sum = sum * 31 + event->kind;
    sum = sum * 31 + event->length;
    for (size_t i = 0; i < event->length; i++)
        sum = sum * 31 + event->text[i];
    return sum * 31 + (uint64_t)event->integer + event->count;
}

/* What holds of an event with this status. */
static void look(wb_status status, const wb_resp_event *event, size_t fed)
{
    int has_cause = status == WB_DAMAGED || status == WB_TOO_DEEP || status == WB_ENDS_EARLY;
    must(status == WB_OK || status == WB_DONE || status == WB_NEEDS_MORE || status == WB_REFUSED || has_cause);
    must((status == WB_OK) == (event->kind != WB_RESP_NONE) && event->kind <= WB_RESP_NULL_ARRAY);
    must(has_cause == (event->cause != 0) && event->cause <= WB_RESP_NO_LINE_END);
    must(event->place <= fed && (has_cause || event->place == 0));
    must(event->kind == WB_RESP_INTEGER || event->integer == 0);
    must(event->kind == WB_RESP_START_ARRAY || event->count == 0);
    must(event->kind == WB_RESP_SIMPLE || event->kind == WB_RESP_ERROR || event->kind == WB_RESP_BULK || event->length == 0);
}

/* Reads at most so many events, and returns the last status. */
static wb_status read_some(wb_resp_reader *reader, size_t most, uint64_t *sum, wb_resp_event *event)
{
    wb_status status = WB_OK;
    for (size_t i = 0; i < most && (status == WB_OK || status == WB_REFUSED); i++) {
        status = wb_resp_next(reader, event);
        look(status, event, wb_resp_fed(reader));
        if (status == WB_OK)
            *sum = sum_of(event, *sum);
        must(wb_resp_held(reader) <= wb_resp_fed(reader));
    }
    return status;
}

/* What a writer was given: a number for each event that its calls have. */
struct given {
    struct pen pen;
    uint64_t sums[4096];
    size_t count;
};

/* A number for an event. */
static uint64_t sum_of_one(uint32_t kind, const uint8_t *text, size_t length, int64_t integer, size_t count)
{
    uint64_t sum = kind * UINT64_C(31) + length;
    for (size_t i = 0; i < length; i++)
        sum = sum * 31 + text[i];
    return (sum * 31 + (uint64_t)integer) * 31 + count;
}

static void add(struct given *given, uint64_t sum)
{
    if (given->count < sizeof given->sums / sizeof given->sums[0])
        given->sums[given->count++] = sum;
}

/* All that the writer wrote has the events that it was given, up to what is too deep or is not written yet. */
static void check_text(struct given *given, wb_resp_writer *writer)
{
    wb_written written;
    wb_resp_event event;
    wb_resp_limits limits = {64, SIZE_MAX, SIZE_MAX};
    if (writer == NULL)
        return;
    must(wb_resp_written(writer, &written) == WB_OK);
    keep(&given->pen, written);
    wb_resp_reader *reader = wb_resp_of(given->pen.dropped, given->pen.length, &limits);
    must(reader != NULL);
    wb_status status;
    size_t read = 0;
    while ((status = wb_resp_next(reader, &event)) == WB_OK) {
        if (event.kind == WB_RESP_END_ARRAY)
            continue;
        must(read < given->count && given->sums[read] == sum_of_one(event.kind, event.text, event.length, event.integer, event.count));
        read++;
    }
    must(status == WB_DONE || status == WB_ENDS_EARLY || status == WB_TOO_DEEP);
    must(status == WB_TOO_DEEP || read == given->count);
    wb_resp_free(reader);
    clear(&given->pen);
    given->count = 0;
}

/* Calls of a writer that are misused. */
static void misuse(wb_resp_writer *writer)
{
    static const char *const words[] = {"a", NULL};
    static const size_t lengths[] = {1, 1};
    wb_written written;
    must(wb_resp_write_bulk(writer, NULL, 1) == WB_MISUSED);
    must(wb_resp_write_simple(writer, "", (size_t)PTRDIFF_MAX + 1) == WB_MISUSED);
    must(wb_resp_write_command(writer, 1, NULL, NULL) == WB_MISUSED && wb_resp_write_command(writer, 2, words, lengths) != WB_OK);
    must(wb_resp_written(writer, NULL) == WB_MISUSED && wb_resp_written(NULL, &written) == WB_MISUSED);
    must(wb_resp_write_array(NULL, 1) == WB_MISUSED && wb_resp_forget(NULL) == WB_MISUSED);
    /* A writer of another format says so. */
    if (writer != NULL) {
        must(wb_json_end_array((wb_json_writer *)writer) == WB_OTHER_FORMAT);
        must(wb_csv_end_record((wb_csv_writer *)writer) == WB_OTHER_FORMAT);
    }
}

/* Writes a command of two words. */
static wb_status write_command(struct given *given, wb_resp_writer *writer, const uint8_t *text, size_t length)
{
    const char *words[] = {(const char *)text, (const char *)text};
    size_t lengths[] = {length, length / 2};
    wb_status status = wb_resp_write_command(writer, 2, words, lengths);
    if (status == WB_OK) {
        add(given, sum_of_one(WB_RESP_START_ARRAY, NULL, 0, 0, 2));
        add(given, sum_of_one(WB_RESP_BULK, text, length, 0, 0));
        add(given, sum_of_one(WB_RESP_BULK, text, length / 2, 0, 0));
    }
    return status;
}

/* Makes the call of an order, with a text, and keeps what event it has. */
static wb_status write_one(struct given *given, wb_resp_writer *writer, size_t order, const uint8_t *text, size_t length)
{
    static const uint32_t kinds[] = {WB_RESP_INTEGER, WB_RESP_NULL_BULK, WB_RESP_NULL_ARRAY, WB_RESP_START_ARRAY, WB_RESP_SIMPLE, WB_RESP_ERROR, WB_RESP_BULK};
    int64_t number = length % 2 ? -(int64_t)length : INT64_MAX - (int64_t)length;
    wb_status status;
    switch (order) {
    case 0: status = wb_resp_write_integer(writer, number); break;
    case 1: status = wb_resp_write_null_bulk(writer); break;
    case 2: status = wb_resp_write_null_array(writer); break;
    case 3: status = wb_resp_write_array(writer, length); break;
    case 4: status = wb_resp_write_simple(writer, text, length); break;
    case 5: status = wb_resp_write_error(writer, text, length); break;
    case 6: status = wb_resp_write_bulk(writer, text, length); break;
    default: return write_command(given, writer, text, length);
    }
    must(status == WB_OK || status == WB_REFUSED || (status == WB_LINE_END && (order == 4 || order == 5)));
    if (status == WB_OK)
        add(given, sum_of_one(kinds[order], text, order >= 4 ? length : 0, order == 0 ? number : 0, order == 3 ? length : 0));
    return status;
}

/* Carries out an order of the writer. */
static wb_resp_writer *write_order(struct given *given, wb_resp_writer *writer, uint8_t order, const uint8_t *text, size_t length)
{
    wb_written written;
    if (writer == NULL || order % 16 == 0) {
        check_text(given, writer);
        wb_resp_writer_free(writer);
        misuse(NULL);
        return wb_resp_writer_new();
    }
    if (order % 16 == 1)
        misuse(writer);
    must(wb_resp_written(writer, &written) == WB_OK);
    if (order % 16 == 1) {
        keep(&given->pen, written);
        must(wb_resp_forget(writer) == WB_OK && wb_resp_written(writer, &written) == WB_OK && written.length == 0);
        return writer;
    }
    look_before(&given->pen, written);
    size_t size = smaller((size_t)order / 16, length);
    uint8_t *copy = copy_of(text, size);
    wb_status status = write_one(given, writer, order % 8, copy, size);
    drop_copy(copy, size);
    must(wb_resp_written(writer, &written) == WB_OK);
    look_after(&given->pen, status, written);
    return writer;
}

/* Carries out the orders. */
static void follow(const uint8_t *orders, size_t count, const uint8_t *text, size_t length)
{
    static const size_t ends[] = {0, 1, 2, 16, 512, SIZE_MAX};
    struct given given = {0};
    wb_resp_writer *writer = NULL;
    wb_resp_reader *reader = NULL;
    wb_resp_event event;
    uint64_t sum = 0;
    size_t at = 0;
    int has_ended = 0;
    for (size_t i = 0; i < count; i++) {
        size_t number = orders[i] / 8;
        writer = write_order(&given, writer, orders[count - 1 - i], text + at, length - at);
        wb_resp_limits limits = {ends[number % 6], ends[number / 2 % 6], ends[number / 6 % 6]};
        switch (orders[i] % 8) {
        case 0:
            wb_resp_free(reader);
            reader = wb_resp_new(number == 31 ? NULL : &limits);
            has_ended = 0;
            break;
        case 1:
        case 2: {
            size_t size = smaller(number * number, length - at);
            uint8_t *piece = copy_of(text + at, size);
            size_t fed = wb_resp_fed(reader);
            wb_status status = wb_resp_push(reader, piece, size);
            drop_copy(piece, size);
            must(reader != NULL || status == WB_MISUSED);
            must(status != WB_ENDED || has_ended);
            must(wb_resp_fed(reader) == (status == WB_OK ? fed + size : fed));
            at += status == WB_OK ? size : 0;
            break;
        }
        case 3:
            must(wb_resp_end(reader) == (reader == NULL ? WB_MISUSED : WB_OK));
            has_ended = reader != NULL;
            break;
        case 4:
        case 5:
            if (reader == NULL)
                must(wb_resp_next(reader, &event) == WB_MISUSED);
            else
                read_some(reader, number + 1, &sum, &event);
            break;
        case 6:
            must(wb_resp_push(reader, text, (size_t)PTRDIFF_MAX + 1) == WB_MISUSED);
            must(wb_resp_push(reader, NULL, 1) == WB_MISUSED);
            must(wb_resp_next(reader, NULL) == WB_MISUSED);
            must(reader == NULL || has_ended || wb_resp_push(reader, NULL, 0) != WB_MISUSED);
            must(wb_resp_cause_text((uint32_t)number) != NULL);
            /* A reader of another format says so. */
            if (reader != NULL) {
                wb_csv_record record;
                must(wb_csv_next((wb_csv_reader *)reader, &record) == WB_OTHER_FORMAT);
            }
            break;
        default:
            wb_resp_free(reader);
            reader = number % 2 ? wb_resp_of(text, length, &limits) : NULL;
            has_ended = reader != NULL;
            at = length;
            break;
        }
        must(wb_resp_held(reader) <= wb_resp_fed(reader));
        must(wb_resp_level(reader) <= wb_resp_place(reader));
        must(wb_resp_place(reader) <= wb_resp_fed(reader));
    }
    check_text(&given, writer);
    wb_resp_writer_free(writer);
    wb_resp_free(reader);
}

/* Reads the text in pieces of this size, all at once where it is 0, and tells what came of it. */
static struct outcome read_in(const uint8_t *text, size_t length, size_t piece)
{
    wb_resp_event event = {0};
    struct outcome it = {0, WB_NEEDS_MORE, 0, 0};
    wb_resp_reader *reader = piece == 0 ? wb_resp_of(text, length, NULL) : wb_resp_new(NULL);
    must(reader != NULL);
    for (size_t at = 0; piece != 0 && at < length && it.status == WB_NEEDS_MORE; at += piece) {
        size_t size = smaller(piece, length - at);
        uint8_t *copy = copy_of(text + at, size);
        must(wb_resp_push(reader, copy, size) == WB_OK);
        drop_copy(copy, size);
        it.status = read_some(reader, SIZE_MAX, &it.sum, &event);
    }
    if (it.status == WB_NEEDS_MORE) {
        wb_resp_end(reader);
        it.status = read_some(reader, SIZE_MAX, &it.sum, &event);
    }
    it.cause = event.cause;
    it.place = event.place;
    must(wb_resp_next(reader, &event) == it.status && event.place == it.place && event.cause == it.cause);
    wb_resp_free(reader);
    return it;
}

int LLVMFuzzerTestOneInput(const uint8_t *input, size_t size)
{
    if (size == 0)
        return 0;
    size_t count = smaller(input[0], size - 1);
    const uint8_t *text = input + 1 + count;
    size_t length = size - 1 - count;
    follow(input + 1, count, text, length);
    struct outcome whole = read_in(text, length, 0);
    same(whole, read_in(text, length, 1));
    same(whole, read_in(text, length, 3 + input[0] % 61));
    return 0;
}

#ifdef STANDALONE
const char *const seeds[] = {
    "*2\r\n$3\r\nfoo\r\n:-7\r\n+OK\r\n-ERR no\r\n", "*-1\r\n$-1\r\n*0\r\n$0\r\n\r\n", "*1\r\n*1\r\n*2\r\n:1\r\n:2\r\n", "$5\r\nhel\r\n\r\n",
    ":9223372036854775807\r\n:-9223372036854775808\r\n", ":9223372036854775808\r\n", "+a\nb\r\n", "$10\r\nshort", "*3\r\n:1\r\n", "?\r\n", "$1\r\nab\r\n", NULL,
};
#endif
