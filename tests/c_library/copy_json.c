/* Writes what it reads of a JSON text: `copy_json EVERY FILE [REFUSED]`.
 *
 * What was written is printed and dropped after each EVERY calls, at the end alone where that is 0. With REFUSED, the allocation of that number
 * is refused, once, and the call that says so is made again.
 */
#include "copies.h"

static wb_status write_event(wb_json_writer *writer, const wb_json_event *event)
{
    switch (event->kind) {
    case WB_JSON_START_ARRAY: return wb_json_start_array(writer);
    case WB_JSON_END_ARRAY: return wb_json_end_array(writer);
    case WB_JSON_START_OBJECT: return wb_json_start_object(writer);
    case WB_JSON_END_OBJECT: return wb_json_end_object(writer);
    case WB_JSON_KEY: return wb_json_write_key(writer, event->text, event->length);
    case WB_JSON_NULL: return wb_json_write_null(writer);
    case WB_JSON_STRING: return wb_json_write_string(writer, event->text, event->length);
    case WB_JSON_NUMBER:
        if (event->has_integer)
            return wb_json_write_integer(writer, event->integer);
        return wb_json_write_number(writer, event->text, event->length);
    default: return wb_json_write_bool(writer, event->kind == WB_JSON_TRUE);
    }
}

static void print(wb_json_writer *writer)
{
    wb_written written;
    wb_json_written(writer, &written);
    fwrite(written.text, 1, written.length, stdout);
    wb_json_forget(writer);
}

int main(int count, char **words)
{
    struct words taken;
    if (!take_words(count, words, &taken))
        return 2;
    wb_json_reader *reader;
    wb_json_writer *writer;
    wb_json_event event;
    wb_status read, wrote = WB_OK;
    while ((reader = wb_json_of(taken.text, taken.length, NULL)) == NULL)
        ;
    while ((writer = wb_json_writer_new(WB_JSON_DEPTH)) == NULL)
        ;
    for (size_t calls = 1;; calls++) {
        insist(read, wb_json_next(reader, &event));
        if (read != WB_OK)
            break;
        insist(wrote, write_event(writer, &event));
        if (wrote != WB_OK)
            break;
        if (taken.every != 0 && calls % taken.every == 0)
            print(writer);
    }
    print(writer);
    /* A damaged text may begin with a whole value. */
    if (wrote == WB_OK && read == WB_DONE && !wb_json_is_whole(writer))
        wrote = WB_UNEXPECTED;
    wb_json_writer_free(writer);
    wb_json_free(reader);
    free(taken.text);
    return tell(read, wrote);
}
