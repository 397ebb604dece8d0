/* Times the JSON reader of the C library beside yajl, on one file: `json_peers FILE [WAY]`. */
#include "peers.h"

#include <yajl/yajl_parse.h>

static uint64_t read_ours(struct input input)
{
    wb_json_reader *reader = wb_json_new(NULL);
    wb_status status = WB_NEEDS_MORE;
    wb_json_event event;
    uint64_t sum = 0;
    if (reader == NULL)
        fail("no reader");
    for (size_t at = 0; at < input.length && status == WB_NEEDS_MORE; at += piece_at(input, at)) {
        wb_json_push(reader, input.text + at, piece_at(input, at));
        if (at + piece_at(input, at) == input.length)
            wb_json_end(reader);
        while ((status = wb_json_next(reader, &event)) == WB_OK) {
            sum = join(sum, event.kind);
            if (event.kind == WB_JSON_KEY || event.kind == WB_JSON_STRING || event.kind == WB_JSON_NUMBER)
                sum = join_bytes(sum, event.text, event.length);
        }
    }
    if (status != WB_DONE)
        fail(wb_status_text(status));
    wb_json_free(reader);
    return sum;
}

/* yajl's calls for an event, each of which goes on. */
static int add(void *sum, uint32_t kind)
{
    *(uint64_t *)sum = join(*(uint64_t *)sum, kind);
    return 1;
}

static int add_text(void *sum, uint32_t kind, const void *text, size_t length)
{
    add(sum, kind);
    *(uint64_t *)sum = join_bytes(*(uint64_t *)sum, text, length);
    return 1;
}

static int on_null(void *sum) { return add(sum, WB_JSON_NULL); }
static int on_boolean(void *sum, int truth) { return add(sum, truth ? WB_JSON_TRUE : WB_JSON_FALSE); }
static int on_number(void *sum, const char *text, size_t length) { return add_text(sum, WB_JSON_NUMBER, text, length); }
static int on_string(void *sum, const unsigned char *text, size_t length) { return add_text(sum, WB_JSON_STRING, text, length); }
static int on_start_map(void *sum) { return add(sum, WB_JSON_START_OBJECT); }
static int on_key(void *sum, const unsigned char *text, size_t length) { return add_text(sum, WB_JSON_KEY, text, length); }
static int on_end_map(void *sum) { return add(sum, WB_JSON_END_OBJECT); }
static int on_start_array(void *sum) { return add(sum, WB_JSON_START_ARRAY); }
static int on_end_array(void *sum) { return add(sum, WB_JSON_END_ARRAY); }

static uint64_t read_yajl(struct input input)
{
    static const yajl_callbacks calls = {
        on_null, on_boolean, NULL, NULL, on_number, on_string, on_start_map, on_key, on_end_map, on_start_array, on_end_array,
    };
    uint64_t sum = 0;
    yajl_handle reader = yajl_alloc(&calls, NULL, &sum);
    for (size_t at = 0; at < input.length; at += piece_at(input, at))
        if (yajl_parse(reader, input.text + at, piece_at(input, at)) != yajl_status_ok)
            fail("yajl finds an error");
    if (yajl_complete_parse(reader) != yajl_status_ok)
        fail("yajl finds an error at the end");
    yajl_free(reader);
    return sum;
}

int main(int count, char **words)
{
    static const struct way ways[] = {{"ours, in pieces of 64 KB", read_ours}, {"yajl, in pieces of 64 KB", read_yajl}};
    (void)count;
    return race("JSON", ways, 2, words);
}
