/* Reads comma-separated values by the C library: `read_csv PIECE FILE [REFUSED]`.
 *
 * The file is pushed in pieces of PIECE bytes, all at once where that is 0. Each record is a line, with its fields in hexadecimal digits, and the
 * last line is the status with the place. With REFUSED, the allocation of that number is refused, once, and the call that says so
 * is made again.
 */
#include "pieces.h"

static void show(const wb_csv_record *record)
{
    for (size_t i = 0; i < record->count; i++) {
        wb_csv_field field = wb_csv_field_at(record, i);
        if (i != 0)
            putchar(',');
        print_hex(field.text, field.length);
    }
    putchar('\n');
}

static wb_status read_records(wb_csv_reader *reader, wb_csv_record *record)
{
    for (;;) {
        wb_status status = wb_csv_next(reader, record);
        if (status == WB_REFUSED)
            continue;
        if (status != WB_OK)
            return status;
        show(record);
    }
}

int main(int count, char **words)
{
    if (count < 3)
        return 2;
    size_t length;
    unsigned char *text = bytes_of(words[2], &length);
    if (text == NULL)
        return 2;
    size_t piece = strtoul(words[1], NULL, 10);
    if (piece == 0)
        piece = length == 0 ? 1 : length;
    allocations = 0;
    refused = count > 3 ? strtoul(words[3], NULL, 10) : 0;

    wb_csv_record record;
    wb_csv_reader *reader = wb_csv_new(NULL);
    if (reader == NULL)
        reader = wb_csv_new(NULL);
    wb_status status = WB_NEEDS_MORE;
    for (size_t at = 0; at < length && status == WB_NEEDS_MORE; at += piece) {
        size_t size = length - at < piece ? length - at : piece;
        unsigned char *copy = copy_of(text + at, size);
        wb_status pushed = wb_csv_push(reader, copy, size);
        if (pushed == WB_REFUSED)
            pushed = wb_csv_push(reader, copy, size);
        free(copy);
        if (pushed != WB_OK) {
            status = pushed;
            break;
        }
        status = read_records(reader, &record);
    }
    if (status == WB_NEEDS_MORE) {
        wb_csv_end(reader);
        status = read_records(reader, &record);
    }
    printf("status %u place %zu\n", (unsigned)status, record.place);
    if (refused != 0)
        fprintf(stderr, "%s\n", allocations >= refused ? "refused" : "enough");
    wb_csv_free(reader);
    free(text);
    return 0;
}
