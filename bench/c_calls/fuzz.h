/* What the programs that call the C library in any order share. */
#include <stdint.h>
#include <stdio.h>
#include <stdlib.h>
#include <string.h>

#include "woldbraid.h"

/* Aborts if this does not hold. */
#define must(holds) ((holds) ? (void)0 : fail(__FILE__, __LINE__, #holds))

static void fail(const char *file, int line, const char *what)
{
    fprintf(stderr, "%s:%d: this does not hold: %s\n", file, line, what);
    abort();
}

static inline size_t smaller(size_t a, size_t b)
{
    return a < b ? a : b;
}

/* Returns a copy of these bytes in memory of just their size. */
static inline uint8_t *copy_of(const uint8_t *bytes, size_t size)
{
    uint8_t *copy = malloc(size);
    must(copy != NULL || size == 0);
    if (size != 0)
        memcpy(copy, bytes, size);
    return copy;
}

/* Writes over the copy, and frees it. */
static inline void drop_copy(uint8_t *copy, size_t size)
{
    if (size != 0)
        memset(copy, 0xa5, size);
    free(copy);
}

/* What came of a text: a sum over its events or records, and the last status with its cause and its place. */
struct outcome {
    uint64_t sum;
    wb_status status;
    uint32_t cause;
    size_t place;
};

static inline void same(struct outcome a, struct outcome b)
{
    must(a.sum == b.sum);
    must(a.status == b.status);
    must(a.cause == b.cause);
    must(a.place == b.place);
}

int LLVMFuzzerTestOneInput(const uint8_t *input, size_t size);

#ifdef STANDALONE
/* The texts that inputs are made from. */
extern const char *const seeds[];

/* Bytes that mean something in a text. */
static const char signs[] = "[]{},:\"\\\n 0-9tfn\r*$+";

static uint64_t state = 1;

static uint32_t random_below(uint32_t limit)
{
    state = state * UINT64_C(6364136223846793005) + UINT64_C(1442695040888963407);
    return (uint32_t)(state >> 33) % limit;
}

/* Makes as many inputs as the first word says, from the number that the second says: orders, and a text of which some bytes are changed. */
int main(int count, char **words)
{
    unsigned long inputs = count > 1 ? strtoul(words[1], NULL, 10) : 1000;
    size_t texts = 0;
    state = count > 2 ? strtoull(words[2], NULL, 10) : 1;
    while (seeds[texts] != NULL)
        texts++;
    for (unsigned long i = 0; i < inputs; i++) {
        uint8_t input[1024];
        size_t orders = random_below(40), size = 1 + orders, turns = random_below(3);
        input[0] = (uint8_t)orders;
        for (size_t at = 1; at < size; at++)
            input[at] = (uint8_t)random_below(256);
        for (size_t turn = 0; turn <= turns; turn++) {
            const char *text = seeds[random_below((uint32_t)texts)];
            size_t length = smaller(strlen(text), sizeof input - size);
            memcpy(input + size, text, length);
            size += length;
        }
        for (uint32_t changes = random_below(4); changes > 0 && size > 1 + orders; changes--) {
            size_t at = 1 + orders + random_below((uint32_t)(size - 1 - orders));
            input[at] = (uint8_t)(random_below(2) ? random_below(256) : (uint32_t)signs[random_below(sizeof signs - 1)]);
        }
        uint8_t *copy = copy_of(input, size);
        LLVMFuzzerTestOneInput(copy, size);
        free(copy);
    }
    printf("%lu inputs\n", inputs);
    return 0;
}
#endif
