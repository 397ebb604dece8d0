/* Times the CSV reader of the C library beside libcsv, on one file: `csv_peers FILE [WAY]`. */
#include "peers.h"

#include <csv.h>

static uint64_t read_ours(struct input input)
{
    wb_csv_reader *reader = wb_csv_new(NULL);
    wb_status status = WB_NEEDS_MORE;
    wb_csv_record record;
    uint64_t sum = 0;
    if (reader == NULL)
        fail("no reader");
    for (size_t at = 0; at < input.length && status == WB_NEEDS_MORE; at += piece_at(input, at)) {
        wb_csv_push(reader, input.text + at, piece_at(input, at));
        if (at + piece_at(input, at) == input.length)
            wb_csv_end(reader);
        while ((status = wb_csv_next(reader, &record)) == WB_OK) {
            for (size_t i = 0; i < record.count; i++) {
                wb_csv_field field = wb_csv_field_at(&record, i);
                sum = join_bytes(sum, field.text, field.length);
            }
            sum = join(sum, 1);
        }
    }
    if (status != WB_DONE)
        fail(wb_status_text(status));
    wb_csv_free(reader);
    return sum;
}

static void on_field(void *text, size_t length, void *sum)
{
    *(uint64_t *)sum = join_bytes(*(uint64_t *)sum, text, length);
}

static void on_record(int last, void *sum)
{
    (void)last;
    *(uint64_t *)sum = join(*(uint64_t *)sum, 1);
}

static uint64_t read_libcsv(struct input input)
{
    struct csv_parser reader;
    uint64_t sum = 0;
    if (csv_init(&reader, CSV_STRICT) != 0)
        fail("no reader of libcsv");
    for (size_t at = 0; at < input.length; at += piece_at(input, at))
        if (csv_parse(&reader, input.text + at, piece_at(input, at), on_field, on_record, &sum) != piece_at(input, at))
            fail("libcsv finds an error");
    csv_fini(&reader, on_field, on_record, &sum);
    csv_free(&reader);
    return sum;
}

int main(int count, char **words)
{
    static const struct way ways[] = {{"ours, in pieces of 64 KB", read_ours}, {"libcsv, in pieces of 64 KB", read_libcsv}};
    (void)count;
    return race("CSV", ways, 2, words);
}
