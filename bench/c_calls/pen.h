/* What the programs share that call a writer in any order: all that it wrote, also what was dropped, and what must hold after each call. */
#include "fuzz.h"

/* What was written before the last drop, and what was there before the last call. */
struct pen {
    uint8_t *dropped;
    size_t length;
    uint8_t *before;
    size_t before_length;
};

/* Keeps what a writer has written, before a call. */
static inline void look_before(struct pen *pen, wb_written written)
{
    pen->before = copy_of(written.text, written.length);
    pen->before_length = written.length;
}

/* After a call: what was there is there, and nothing more unless the call did what it is for. */
static inline void look_after(struct pen *pen, wb_status status, wb_written written)
{
    must(written.length >= pen->before_length);
    must(status == WB_OK || written.length == pen->before_length);
    must(pen->before_length == 0 || memcmp(written.text, pen->before, pen->before_length) == 0);
    drop_copy(pen->before, pen->before_length);
    pen->before = NULL;
}

/* Keeps what is dropped. */
static inline void keep(struct pen *pen, wb_written written)
{
    if (written.length == 0)
        return;
    uint8_t *more = realloc(pen->dropped, pen->length + written.length);
    must(more != NULL);
    memcpy(more + pen->length, written.text, written.length);
    pen->dropped = more;
    pen->length += written.length;
}

/* Forgets all, for a new writer. */
static inline void clear(struct pen *pen)
{
    free(pen->dropped);
    pen->dropped = NULL;
    pen->length = 0;
}
