/* Times the reader of replies of the C library beside hiredis, on one file: `resp_peers FILE [WAY]`. */
#include "peers.h"

#include <hiredis/hiredis.h>

static uint64_t read_ours(struct input input)
{
    wb_resp_reader *reader = wb_resp_new(NULL);
    wb_status status = WB_NEEDS_MORE;
    wb_resp_event event;
    uint64_t sum = 0;
    if (reader == NULL)
        fail("no reader");
    for (size_t at = 0; at < input.length && status == WB_NEEDS_MORE; at += piece_at(input, at)) {
        wb_resp_push(reader, input.text + at, piece_at(input, at));
        if (at + piece_at(input, at) == input.length)
            wb_resp_end(reader);
        while ((status = wb_resp_next(reader, &event)) == WB_OK) {
            switch (event.kind) {
            case WB_RESP_END_ARRAY:
                break;
            case WB_RESP_START_ARRAY:
                sum = join(join(sum, event.kind), event.count);
                break;
            case WB_RESP_INTEGER:
                sum = join(join(sum, event.kind), (uint64_t)event.integer);
                break;
            default:
                sum = join_bytes(join(sum, event.kind), event.text, event.length);
            }
        }
    }
    if (status != WB_DONE)
        fail(wb_status_text(status));
    wb_resp_free(reader);
    return sum;
}

static uint64_t join_reply(uint64_t sum, const redisReply *reply)
{
    switch (reply->type) {
    case REDIS_REPLY_ARRAY:
        sum = join(join(sum, WB_RESP_START_ARRAY), reply->elements);
        for (size_t i = 0; i < reply->elements; i++)
            sum = join_reply(sum, reply->element[i]);
        return sum;
    case REDIS_REPLY_INTEGER:
        return join(join(sum, WB_RESP_INTEGER), (uint64_t)reply->integer);
    case REDIS_REPLY_NIL:
        /* hiredis does not say which of the two it was. */
        return join_bytes(join(sum, WB_RESP_NULL_BULK), NULL, 0);
    case REDIS_REPLY_STATUS:
        return join_bytes(join(sum, WB_RESP_SIMPLE), reply->str, reply->len);
    case REDIS_REPLY_ERROR:
        return join_bytes(join(sum, WB_RESP_ERROR), reply->str, reply->len);
    default:
        return join_bytes(join(sum, WB_RESP_BULK), reply->str, reply->len);
    }
}

static uint64_t read_hiredis(struct input input)
{
    redisReader *reader = redisReaderCreate();
    uint64_t sum = 0;
    for (size_t at = 0; at < input.length; at += piece_at(input, at)) {
        void *reply = NULL;
        if (redisReaderFeed(reader, (const char *)input.text + at, piece_at(input, at)) != REDIS_OK)
            fail("hiredis takes no piece");
        do {
            if (redisReaderGetReply(reader, &reply) != REDIS_OK)
                fail("hiredis finds an error");
            if (reply != NULL) {
                sum = join_reply(sum, reply);
                freeReplyObject(reply);
            }
        } while (reply != NULL);
    }
    redisReaderFree(reader);
    return sum;
}

int main(int count, char **words)
{
    static const struct way ways[] = {{"ours, events in pieces of 64 KB", read_ours}, {"hiredis, replies in pieces of 64 KB", read_hiredis}};
    (void)count;
    return race("RESP", ways, 2, words);
}
