/* Calls of the C library in any order, on comma-separated values, as an input of a fuzzer says them: see json_calls.c. */
#include "pen.h"

/* Reads what a record lends, and adds it to a sum. */
static uint64_t sum_of(const wb_csv_record *record, uint64_t sum)
{
    for (size_t i = 0; i < record->count; i++) {
        wb_csv_field field = wb_csv_field_at(record, i);
        must(i == 0 || record->ends[i - 1] <= record->ends[i]);
        sum = sum * 31 + field.length;
        for (size_t j = 0; j < field.length; j++)
            sum = sum * 31 + field.text[j];
    }
    return sum * 31 + record->count;
}

/* Reads at most so many records, and returns the last status. */
static wb_status read_some(wb_csv_reader *reader, size_t most, uint64_t *sum, wb_csv_record *record)
{
    wb_status status = WB_OK;
    for (size_t i = 0; i < most && (status == WB_OK || status == WB_REFUSED); i++) {
        status = wb_csv_next(reader, record);
        must(status == WB_OK || status == WB_DONE || status == WB_NEEDS_MORE || status == WB_REFUSED || status == WB_DAMAGED);
        must((status == WB_OK) == (record->count != 0));
        must(record->place <= wb_csv_fed(reader) && (status == WB_DAMAGED || record->place == 0));
        if (status == WB_OK)
            *sum = sum_of(record, *sum);
        must(wb_csv_held(reader) <= wb_csv_fed(reader));
        must(wb_csv_place(reader) <= wb_csv_fed(reader));
    }
    return status;
}

/* What a writer was given: a sum over its records, as `sum_of` has it of those that are read, and over the fields of the last one. */
struct given {
    struct pen pen;
    uint64_t sum;
    size_t fields;
};

/* All that the writer wrote are the records that it was given, if the last one has ended. */
static void check_text(struct given *given, wb_csv_writer *writer)
{
    wb_written written;
    wb_csv_record record;
    wb_csv_limits limits = {SIZE_MAX};
    if (writer == NULL)
        return;
    must(wb_csv_is_whole(writer) == (given->fields == 0));
    if (given->fields != 0) {
        must(wb_csv_end_record(writer) == WB_OK);
        given->sum = given->sum * 31 + given->fields;
    }
    must(wb_csv_written(writer, &written) == WB_OK);
    keep(&given->pen, written);
    wb_csv_reader *reader = wb_csv_of(given->pen.dropped, given->pen.length, &limits);
    must(reader != NULL);
    uint64_t sum = 0;
    must(read_some(reader, SIZE_MAX, &sum, &record) == WB_DONE && sum == given->sum);
    wb_csv_free(reader);
    clear(&given->pen);
    given->sum = 0;
    given->fields = 0;
}

/* Calls of a writer that are misused. */
static void misuse(wb_csv_writer *writer)
{
    wb_written written;
    must(wb_csv_write_field(writer, NULL, 1) == WB_MISUSED);
    must(wb_csv_write_field(writer, "", (size_t)PTRDIFF_MAX + 1) == WB_MISUSED);
    must(wb_csv_written(writer, NULL) == WB_MISUSED && wb_csv_written(NULL, &written) == WB_MISUSED);
    must(wb_csv_end_record(NULL) == WB_MISUSED && wb_csv_forget(NULL) == WB_MISUSED && !wb_csv_is_whole(NULL));
    /* A writer of another format says so. */
    if (writer != NULL) {
        must(wb_json_write_null((wb_json_writer *)writer) == WB_OTHER_FORMAT);
        must(wb_json_writer_level((wb_json_writer *)writer) == 0);
        must(wb_resp_write_integer((wb_resp_writer *)writer, 1) == WB_OTHER_FORMAT);
    }
}

/* Writes a field, and adds it to the sum. */
static wb_status write_field(struct given *given, wb_csv_writer *writer, const uint8_t *text, size_t length)
{
    uint8_t *copy = copy_of(text, length);
    wb_status status = wb_csv_write_field(writer, copy, length);
    drop_copy(copy, length);
    must(status == WB_OK || status == WB_REFUSED);
    if (status == WB_REFUSED)
        return status;
    given->fields++;
    given->sum = given->sum * 31 + length;
    for (size_t i = 0; i < length; i++)
        given->sum = given->sum * 31 + text[i];
    return status;
}

/* Ends a record, and adds it to the sum. */
static wb_status end_record(struct given *given, wb_csv_writer *writer)
{
    wb_status status = wb_csv_end_record(writer);
    must(given->fields != 0 || status == WB_UNEXPECTED);
    if (status == WB_OK) {
        given->sum = given->sum * 31 + given->fields;
        given->fields = 0;
    }
    return status;
}

/* Carries out an order of the writer. */
static wb_csv_writer *write_order(struct given *given, wb_csv_writer *writer, uint8_t order, const uint8_t *text, size_t length)
{
    wb_written written;
    if (writer == NULL || order % 16 == 0) {
        check_text(given, writer);
        wb_csv_writer_free(writer);
        misuse(NULL);
        return wb_csv_writer_new();
    }
    if (order % 16 == 1)
        misuse(writer);
    must(wb_csv_written(writer, &written) == WB_OK);
    if (order % 16 == 1) {
        keep(&given->pen, written);
        must(wb_csv_forget(writer) == WB_OK && wb_csv_written(writer, &written) == WB_OK && written.length == 0);
        return writer;
    }
    look_before(&given->pen, written);
    wb_status status = order % 16 < 6 ? end_record(given, writer) : write_field(given, writer, text, smaller((size_t)order / 16, length));
    must(wb_csv_written(writer, &written) == WB_OK);
    look_after(&given->pen, status, written);
    return writer;
}

/* Carries out the orders. */
static void follow(const uint8_t *orders, size_t count, const uint8_t *text, size_t length)
{
    static const size_t ends[] = {0, 1, 2, 16, 512, SIZE_MAX};
    struct given given = {0};
    wb_csv_writer *writer = NULL;
    wb_csv_reader *reader = NULL;
    wb_csv_record record;
    uint64_t sum = 0;
    size_t at = 0;
    int has_ended = 0;
    for (size_t i = 0; i < count; i++) {
        size_t number = orders[i] / 8;
        writer = write_order(&given, writer, orders[count - 1 - i], text + at, length - at);
        wb_csv_limits limits = {ends[number % 6]};
        switch (orders[i] % 8) {
        case 0:
            wb_csv_free(reader);
            reader = wb_csv_new(number == 31 ? NULL : &limits);
            has_ended = 0;
            break;
        case 1:
        case 2: {
            size_t size = smaller(number * number, length - at);
            uint8_t *piece = copy_of(text + at, size);
            size_t fed = wb_csv_fed(reader);
            wb_status status = wb_csv_push(reader, piece, size);
            drop_copy(piece, size);
            must(reader != NULL || status == WB_MISUSED);
            must(status != WB_ENDED || has_ended);
            must(wb_csv_fed(reader) == (status == WB_OK ? fed + size : fed));
            at += status == WB_OK ? size : 0;
            break;
        }
        case 3:
            must(wb_csv_end(reader) == (reader == NULL ? WB_MISUSED : WB_OK));
            has_ended = reader != NULL;
            break;
        case 4:
        case 5:
            if (reader == NULL)
                must(wb_csv_next(reader, &record) == WB_MISUSED);
            else
                read_some(reader, number + 1, &sum, &record);
            break;
        case 6:
            must(wb_csv_push(reader, text, (size_t)PTRDIFF_MAX + 1) == WB_MISUSED);
            must(wb_csv_push(reader, NULL, 1) == WB_MISUSED);
            must(wb_csv_next(reader, NULL) == WB_MISUSED);
            /* A reader of another format says so. */
            if (reader != NULL) {
                wb_json_event event;
                must(wb_json_next((wb_json_reader *)reader, &event) == WB_OTHER_FORMAT);
                must(wb_json_level((wb_json_reader *)reader) == 0);
            }
            break;
        default:
            wb_csv_free(reader);
            reader = number % 2 ? wb_csv_of(text, length, &limits) : NULL;
            has_ended = reader != NULL;
            at = length;
            break;
        }
        must(wb_csv_held(reader) <= wb_csv_fed(reader));
    }
    check_text(&given, writer);
    wb_csv_writer_free(writer);
    wb_csv_free(reader);
}

/* Reads the text in pieces of this size, all at once where it is 0, and tells what came of it. */
static struct outcome read_in(const uint8_t *text, size_t length, size_t piece)
{
    wb_csv_record record = {0};
    struct outcome it = {0, WB_NEEDS_MORE, 0, 0};
    wb_csv_reader *reader = piece == 0 ? wb_csv_of(text, length, NULL) : wb_csv_new(NULL);
    must(reader != NULL);
    for (size_t at = 0; piece != 0 && at < length && it.status == WB_NEEDS_MORE; at += piece) {
        size_t size = smaller(piece, length - at);
        uint8_t *copy = copy_of(text + at, size);
        must(wb_csv_push(reader, copy, size) == WB_OK);
        drop_copy(copy, size);
        it.status = read_some(reader, SIZE_MAX, &it.sum, &record);
    }
    if (it.status == WB_NEEDS_MORE) {
        wb_csv_end(reader);
        it.status = read_some(reader, SIZE_MAX, &it.sum, &record);
    }
    it.place = record.place;
    must(wb_csv_next(reader, &record) == it.status && record.place == it.place);
    wb_csv_free(reader);
    return it;
}

int LLVMFuzzerTestOneInput(const uint8_t *input, size_t size)
{
    if (size == 0)
        return 0;
    size_t count = smaller(input[0], size - 1);
    const uint8_t *text = input + 1 + count;
    size_t length = size - 1 - count;
    follow(input + 1, count, text, length);
    struct outcome whole = read_in(text, length, 0);
    same(whole, read_in(text, length, 1));
    same(whole, read_in(text, length, 3 + input[0] % 61));
    return 0;
}

#ifdef STANDALONE
const char *const seeds[] = {
    "a,b,c\r\nd,,\"e\"\"f\"\r\n", "\"a\nb\",\"\",c\n", ",\n,\n", "\n\n", "a\r\n\r\nb", "\"open", "a\"b\n", "\"a\"b\n", "a\rb\n", "x,\"y\r\n\"", NULL,
};
#endif
