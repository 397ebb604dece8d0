/* Reads a JSON text in eight threads, each with a reader of its own, and compares what they read: `threads [MEMBERS]`, each of which has 55 bytes. */
#include <pthread.h>
#include <stdio.h>
#include <stdlib.h>
#include <string.h>

#include "woldbraid.h"

#define THREADS 8

static const char first[] = "{\"list\": [";
static const char member[] = "{\"name\": \"a\\u00e9\", \"value\": [1, -2.5e3, true, null]}, ";
static const char last[] = "0]}";

static long members = 100000;

struct outcome {
    uint64_t sum;
    wb_status status;
};

/* Adds the events that are there to the sum. */
static wb_status add(wb_json_reader *reader, uint64_t *sum)
{
    wb_json_event event;
    wb_status status;
    while ((status = wb_json_next(reader, &event)) == WB_OK) {
        *sum = *sum * 31 + event.kind;
        for (size_t i = 0; i < event.length; i++)
            *sum = *sum * 31 + event.text[i];
    }
    return status;
}

static void *read_text(void *it)
{
    struct outcome *outcome = it;
    wb_json_reader *reader = wb_json_new(NULL);
    if (reader == NULL)
        return NULL;
    wb_json_push(reader, first, strlen(first));
    for (long i = 0; i < members; i++) {
        wb_json_push(reader, member, strlen(member));
        add(reader, &outcome->sum);
    }
    wb_json_push(reader, last, strlen(last));
    wb_json_end(reader);
    outcome->status = add(reader, &outcome->sum);
    wb_json_free(reader);
    return NULL;
}

int main(int count, char **words)
{
    pthread_t threads[THREADS];
    struct outcome outcomes[THREADS] = {{0, WB_REFUSED}};
    if (count > 1)
        members = atol(words[1]);
    for (int i = 0; i < THREADS; i++)
        if (pthread_create(&threads[i], NULL, read_text, &outcomes[i]) != 0)
            return 2;
    for (int i = 0; i < THREADS; i++)
        pthread_join(threads[i], NULL);
    for (int i = 0; i < THREADS; i++)
        if (outcomes[i].status != WB_DONE || outcomes[i].sum != outcomes[0].sum) {
            printf("thread %d: status %u\n", i, (unsigned)outcomes[i].status);
            return 1;
        }
    return 0;
}
