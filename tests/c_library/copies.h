/* What the programs share that write what they read: what was written is printed and dropped after some calls, and a refused call is made again. */
#include "pieces.h"

/* Makes a call again while memory is refused to it. */
#define insist(status, call)           \
    do                                 \
        (status) = (call);             \
    while ((status) == WB_REFUSED)

/* The text of a file, and how it is read and written. */
struct words {
    unsigned char *text;
    size_t length;
    size_t every;
};

/* Reads `EVERY FILE [REFUSED]`. */
static int take_words(int count, char **words, struct words *taken)
{
    if (count < 3)
        return 0;
    taken->text = bytes_of(words[2], &taken->length);
    taken->every = strtoul(words[1], NULL, 10);
    allocations = 0;
    refused = count > 3 ? strtoul(words[3], NULL, 10) : 0;
    return taken->text != NULL;
}

/* Says whether the allocation was refused, and returns the status of the program: 0 if all was read and written, 3 if the text is damaged, 4 if a
 * call did not write what was read. */
static int tell(wb_status read, wb_status wrote)
{
    if (refused != 0)
        fprintf(stderr, "%s\n", allocations >= refused ? "refused" : "enough");
    return wrote != WB_OK ? 4 : read != WB_DONE ? 3 : 0;
}
