/* Writes what it reads of replies of a Redis server: `copy_resp EVERY FILE [REFUSED]`.
 *
 * What was written is printed and dropped after each EVERY calls, at the end alone where that is 0. With REFUSED, the allocation of that number
 * is refused, once, and the call that says so is made again.
 */
#include "copies.h"

static wb_status write_event(wb_resp_writer *writer, const wb_resp_event *event)
{
    switch (event->kind) {
    case WB_RESP_START_ARRAY: return wb_resp_write_array(writer, event->count);
    case WB_RESP_END_ARRAY: return WB_OK;
    case WB_RESP_SIMPLE: return wb_resp_write_simple(writer, event->text, event->length);
    case WB_RESP_ERROR: return wb_resp_write_error(writer, event->text, event->length);
    case WB_RESP_INTEGER: return wb_resp_write_integer(writer, event->integer);
    case WB_RESP_BULK: return wb_resp_write_bulk(writer, event->text, event->length);
    case WB_RESP_NULL_BULK: return wb_resp_write_null_bulk(writer);
    default: return wb_resp_write_null_array(writer);
    }
}

static void print(wb_resp_writer *writer)
{
    wb_written written;
    wb_resp_written(writer, &written);
    fwrite(written.text, 1, written.length, stdout);
    wb_resp_forget(writer);
}

int main(int count, char **words)
{
    struct words taken;
    if (!take_words(count, words, &taken))
        return 2;
    wb_resp_reader *reader;
    wb_resp_writer *writer;
    wb_resp_event event;
    wb_status read, wrote = WB_OK;
    while ((reader = wb_resp_of(taken.text, taken.length, NULL)) == NULL)
        ;
    while ((writer = wb_resp_writer_new()) == NULL)
        ;
    for (size_t calls = 1;; calls++) {
        insist(read, wb_resp_next(reader, &event));
        if (read != WB_OK)
            break;
        insist(wrote, write_event(writer, &event));
        if (wrote != WB_OK)
            break;
        if (taken.every != 0 && calls % taken.every == 0)
            print(writer);
    }
    print(writer);
    wb_resp_writer_free(writer);
    wb_resp_free(reader);
    free(taken.text);
    return tell(read, wrote);
}
