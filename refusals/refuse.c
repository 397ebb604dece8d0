/* Loaded before the C library, it refuses the allocation whose number REFUSE gives, counting from 1. With REFUSE=count it refuses none, and
   says at the end how many there were. `run` beside it builds and uses it; no crate is linked with it. */
#define _GNU_SOURCE
#include <dlfcn.h>
#include <stdio.h>
#include <stdlib.h>
#include <string.h>

static long made;

static int refused(void) {
    static long wanted = -1;
    if (wanted < 0) {
        const char *text = getenv("REFUSE");
        wanted = text ? atol(text) : 0;
    }
    return ++made == wanted;
}

void *malloc(size_t size) {
    static void *(*real)(size_t);
    if (!real) real = (void *(*)(size_t))dlsym(RTLD_NEXT, "malloc");
    return refused() ? NULL : real(size);
}

void *realloc(void *old, size_t size) {
    static void *(*real)(void *, size_t);
    if (!real) real = (void *(*)(void *, size_t))dlsym(RTLD_NEXT, "realloc");
    return refused() ? NULL : real(old, size);
}

__attribute__((destructor)) static void count(void) {
    const char *text = getenv("REFUSE");
    long total = made;
    if (text && strcmp(text, "count") == 0) fprintf(stderr, "allocations: %ld\n", total);
}
