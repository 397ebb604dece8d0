/* What the programs that read a text by the C library share: the file, its pieces, and a refused allocation. */
#include <stdio.h>
#include <stdlib.h>
#include <string.h>

#include "woldbraid.h"

static unsigned long allocations, refused;

#ifdef REFUSES
void *__real_malloc(size_t size);
void *__real_realloc(void *block, size_t size);

void *__wrap_malloc(size_t size)
{
    return ++allocations == refused ? NULL : __real_malloc(size);
}

void *__wrap_realloc(void *block, size_t size)
{
    return ++allocations == refused ? NULL : __real_realloc(block, size);
}
#endif

/* Returns the bytes of a file, or NULL. */
static unsigned char *bytes_of(const char *name, size_t *length)
{
    FILE *file = fopen(name, "rb");
    if (file == NULL)
        return NULL;
    fseek(file, 0, SEEK_END);
    *length = (size_t)ftell(file);
    rewind(file);
    unsigned char *text = malloc(*length + 1);
    if (text != NULL && fread(text, 1, *length, file) != *length) {
        free(text);
        text = NULL;
    }
    fclose(file);
    return text;
}

/* Returns a copy of a piece, so that a read past its end is seen, and one after it is pushed. */
static inline unsigned char *copy_of(const unsigned char *piece, size_t size)
{
    unsigned char *copy = malloc(size);
    if (copy == NULL)
        copy = malloc(size);
    if (size != 0)
        memcpy(copy, piece, size);
    return copy;
}

/* Prints bytes in hexadecimal digits. */
static inline void print_hex(const unsigned char *bytes, size_t length)
{
    for (size_t i = 0; i < length; i++)
        printf("%02x", bytes[i]);
}
