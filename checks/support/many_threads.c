/* usage: many_threads THREADS REQUESTS
 *
 * A session of so many requests by one connection alone, and then at the same time by so many threads with a
 * connection each: all write the same bytes, which go to the standard output once. With a third word one thread's
 * output is changed by one bit, which has to be seen. */
#include "bullmyrtle.h"

#include <pthread.h>
#include <stdio.h>
#include <stdlib.h>
#include <string.h>

enum { MOST_THREADS = 64, PART = 100, LONGEST = 300 };

typedef struct {
    uint8_t *bytes;
    size_t length, size;
} output;

static unsigned long requests;

static void check(bool is_so, const char *what)
{
    if (!is_so) {
        fprintf(stderr, "many_threads: %s\n", what);
        exit(1);
    }
}

/* Writes all that is to be written, some bytes at a time. */
static void put(output *to, bm_connection *connection)
{
    const uint8_t *bytes;
    size_t lent;
    while ((lent = bm_output(connection, &bytes))) {
        size_t part = lent < PART ? lent : PART;
        if (to->size - to->length < part) {
            to->size = 2 * to->size + part;
            to->bytes = realloc(to->bytes, to->size);
            check(to->bytes, "out of memory");
        }
        memcpy(to->bytes + to->length, bytes, part);
        to->length += part;
        check(bm_written(connection, part) == BM_OK, "bm_written");
    }
}

static void hear(bm_connection *connection)
{
    bm_event event;
    uint64_t key;
    for (;;) {
        check(bm_next(connection, &event) == BM_OK, "bm_next");
        if (event.kind == BM_NONE)
            return;
        if (event.kind == BM_CALL && !event.flags)
            check(bm_close_call(connection, event.number) == BM_OK, "bm_close_call");
        else if (event.kind == BM_CALL) {
            const uint8_t *method = (const uint8_t *)"ask";
            check(bm_call(connection, event.number, method, 3, event.text, event.text_len, &key) == BM_OK, "bm_call");
            check(bm_answer(connection, event.number, event.text, event.text_len) == BM_OK, "bm_answer");
        } else if (event.kind == BM_CANCELLED)
            check(bm_cancel(connection, event.number) == BM_NOT_OPEN, "bm_cancel");
    }
}

static void *session(void *into)
{
    bm_options options = {.size = sizeof options, .framing = BM_LINES, .cancels = BM_CANCELS_LSP};
    bm_connection connection;
    char long_text[LONGEST + 1], line[LONGEST + 300];
    memset(long_text, 'x', LONGEST);
    long_text[LONGEST] = 0;
    check(bm_open(&options, &connection.at) == BM_OK, "bm_open");
    for (unsigned long i = 0; i < requests; i++) {
        int length = snprintf(line, sizeof line,
                              "[{\"jsonrpc\":\"2.0\",\"method\":\"m\",\"params\":[%lu,\"%.*s\"],\"id\":%lu},"
                              "{\"jsonrpc\":\"2.0\",\"method\":\"$/cancelRequest\",\"params\":{\"id\":%lu}},"
                              "{\"jsonrpc\":\"2.0\",\"method\":\"n\"},%lu]\nbroken\n",
                              i, (int)(i % LONGEST), long_text, i, i, i);
        /* in two pieces */
        size_t first = i % (size_t)length;
        check(bm_feed(&connection, (const uint8_t *)line, first) == BM_OK, "bm_feed");
        check(bm_feed(&connection, (const uint8_t *)line + first, (size_t)length - first) == BM_OK, "bm_feed");
        hear(&connection);
        put(into, &connection);
    }
    check(bm_end(&connection, BM_CLOSED) == BM_OK, "bm_end");
    hear(&connection);
    check(bm_is_done(&connection), "it isn't done");
    bm_free(connection);
    return NULL;
}

int main(int count, char **words)
{
    static output all[MOST_THREADS + 1];
    pthread_t threads[MOST_THREADS];
    check(count == 3 || count == 4, "usage: many_threads THREADS REQUESTS");
    int many = atoi(words[1]);
    requests = strtoul(words[2], NULL, 10);
    check(many > 0 && many <= MOST_THREADS, "so many threads");
    session(&all[many]);
    for (int i = 0; i < many; i++)
        check(!pthread_create(&threads[i], NULL, session, &all[i]), "pthread_create");
    for (int i = 0; i < many; i++)
        check(!pthread_join(threads[i], NULL), "pthread_join");
    if (count == 4)
        all[many - 1].bytes[all[many - 1].length / 2] ^= 1;
    for (int i = 0; i < many; i++)
        check(all[i].length == all[many].length && !memcmp(all[i].bytes, all[many].bytes, all[many].length),
              "a thread has written other bytes");
    check(fwrite(all[many].bytes, 1, all[many].length, stdout) == all[many].length, "the output");
    for (int i = 0; i <= many; i++)
        free(all[i].bytes);
    return 0;
}
