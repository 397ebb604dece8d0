/* Writes what it reads of comma-separated values: `copy_csv EVERY FILE [REFUSED]`.
 *
 * What was written is printed and dropped after each EVERY records, at the end alone where that is 0. With REFUSED, the allocation of that
 * number is refused, once, and the call that says so is made again.
 */
#include "copies.h"

static wb_status write_record(wb_csv_writer *writer, const wb_csv_record *record)
{
    wb_status status = WB_OK;
    for (size_t i = 0; i < record->count && status == WB_OK; i++) {
        wb_csv_field field = wb_csv_field_at(record, i);
        insist(status, wb_csv_write_field(writer, field.text, field.length));
    }
    if (status == WB_OK)
        insist(status, wb_csv_end_record(writer));
    return status;
}

static void print(wb_csv_writer *writer)
{
    wb_written written;
    wb_csv_written(writer, &written);
    fwrite(written.text, 1, written.length, stdout);
    wb_csv_forget(writer);
}

int main(int count, char **words)
{
    struct words taken;
    if (!take_words(count, words, &taken))
        return 2;
    wb_csv_reader *reader;
    wb_csv_writer *writer;
    wb_csv_record record;
    wb_status read, wrote = WB_OK;
    while ((reader = wb_csv_of(taken.text, taken.length, NULL)) == NULL)
        ;
    while ((writer = wb_csv_writer_new()) == NULL)
        ;
    for (size_t calls = 1;; calls++) {
        insist(read, wb_csv_next(reader, &record));
        if (read != WB_OK)
            break;
        wrote = write_record(writer, &record);
        if (wrote != WB_OK)
            break;
        if (taken.every != 0 && calls % taken.every == 0)
            print(writer);
    }
    print(writer);
    if (wrote == WB_OK && !wb_csv_is_whole(writer))
        wrote = WB_UNEXPECTED;
    wb_csv_writer_free(writer);
    wb_csv_free(reader);
    free(taken.text);
    return tell(read, wrote);
}
