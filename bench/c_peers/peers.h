/* What the programs share that time our C library beside another: a file, the least time of several turns, and a sum over what was read. */
#define _POSIX_C_SOURCE 199309L
#include <stdint.h>
#include <stdio.h>
#include <stdlib.h>
#include <string.h>
#include <time.h>

#include "woldbraid.h"

#define PIECE ((size_t)65536)

/* Whether each byte goes into the sum, as where the readers are compared, or lengths and first bytes, which take little time. */
static int each_byte;

static inline uint64_t join(uint64_t sum, uint64_t number)
{
    return (sum ^ number) * UINT64_C(0x00000100000001b3);
}

static inline uint64_t join_bytes(uint64_t sum, const void *bytes, size_t length)
{
    const unsigned char *text = bytes;
    sum = join(sum, length == 0 ? 0 : length ^ text[0]);
    for (size_t i = 0; each_byte && i < length; i++)
        sum = join(sum, text[i]);
    return sum;
}

static void fail(const char *what)
{
    fprintf(stderr, "c_peers: %s\n", what);
    exit(1);
}

/* The bytes of a file. */
struct input {
    unsigned char *text;
    size_t length;
};

static struct input input_of(const char *name)
{
    struct input input = {NULL, 0};
    FILE *file = fopen(name, "rb");
    if (file == NULL)
        fail("no such file");
    fseek(file, 0, SEEK_END);
    input.length = (size_t)ftell(file);
    rewind(file);
    input.text = malloc(input.length + 1);
    if (input.text == NULL || fread(input.text, 1, input.length, file) != input.length)
        fail("the file is not read");
    fclose(file);
    return input;
}

/* Returns the length of the piece at an offset. */
static inline size_t piece_at(struct input input, size_t at)
{
    return input.length - at < PIECE ? input.length - at : PIECE;
}

/* A way to read the file. */
struct way {
    const char *name;
    uint64_t (*read)(struct input input);
};

static double seconds(void)
{
    struct timespec now;
    clock_gettime(CLOCK_MONOTONIC, &now);
    return (double)now.tv_sec + (double)now.tv_nsec * 1e-9;
}

/* Compares what the ways read, and prints a row for each: the least nanoseconds a byte, and the part of the last way's. With a way's number after the file
 * that way alone is taken, once, for a profiler. */
static int race(const char *format, const struct way *ways, size_t count, char **words)
{
    struct input input = input_of(words[1]);
    double least[8];
    if (words[2] != NULL) {
        printf("%llu\n", (unsigned long long)ways[atoi(words[2])].read(input));
        return 0;
    }
    each_byte = 1;
    for (size_t i = 1; i < count; i++)
        if (ways[i].read(input) != ways[0].read(input))
            fail("what was read differs");
    each_byte = 0;
    for (size_t i = 0; i < count; i++)
        least[i] = 1e9;
    for (size_t turn = 0; turn < 15; turn++)
        for (size_t i = 0; i < count; i++) {
            size_t way = (i + turn) % count;
            double start = seconds(), took;
            volatile uint64_t sum = ways[way].read(input);
            (void)sum;
            took = (seconds() - start) * 1e9 / (double)input.length;
            least[way] = took < least[way] ? took : least[way];
        }
    for (size_t i = 0; i < count; i++)
        printf("| %s | %s | %.2f | %.2f |\n", format, ways[i].name, least[i], least[i] / least[count - 1]);
    return 0;
}
