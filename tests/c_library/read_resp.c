/* Reads replies by the C library: `read_resp PIECE FILE [REFUSED]`.
 *
 * The file is pushed in pieces of PIECE bytes, all at once where that is 0. Each event is a line, with its text in hexadecimal digits, and the last
 * line is the status with the cause and the place. With REFUSED, the allocation of that number is refused, once, and the call that says so
 * is made again.
 */
#include "pieces.h"

static void show(const wb_resp_event *event)
{
    printf("%u ", (unsigned)event->kind);
    print_hex(event->text, event->length);
    printf(" %lld %zu", (long long)event->integer, event->count);
    putchar('\n');
}

static wb_status read_events(wb_resp_reader *reader, wb_resp_event *event)
{
    for (;;) {
        wb_status status = wb_resp_next(reader, event);
        if (status == WB_REFUSED)
            continue;
        if (status != WB_OK)
            return status;
        show(event);
    }
}

int main(int count, char **words)
{
    if (count < 3)
        return 2;
    size_t length;
    unsigned char *text = bytes_of(words[2], &length);
    if (text == NULL)
        return 2;
    size_t piece = strtoul(words[1], NULL, 10);
    if (piece == 0)
        piece = length == 0 ? 1 : length;
    allocations = 0;
    refused = count > 3 ? strtoul(words[3], NULL, 10) : 0;

    wb_resp_event event;
    wb_resp_reader *reader = wb_resp_new(NULL);
    if (reader == NULL)
        reader = wb_resp_new(NULL);
    wb_status status = WB_NEEDS_MORE;
    for (size_t at = 0; at < length && status == WB_NEEDS_MORE; at += piece) {
        size_t size = length - at < piece ? length - at : piece;
        unsigned char *copy = copy_of(text + at, size);
        wb_status pushed = wb_resp_push(reader, copy, size);
        if (pushed == WB_REFUSED)
            pushed = wb_resp_push(reader, copy, size);
        free(copy);
        if (pushed != WB_OK) {
            status = pushed;
            break;
        }
        status = read_events(reader, &event);
    }
    if (status == WB_NEEDS_MORE) {
        wb_resp_end(reader);
        status = read_events(reader, &event);
    }
    printf("status %u cause %u place %zu\n", (unsigned)status, (unsigned)event.cause, event.place);
    if (refused != 0)
        fprintf(stderr, "%s\n", allocations >= refused ? "refused" : "enough");
    wb_resp_free(reader);
    free(text);
    return 0;
}
