/* usage: least_stack LEVELS
 *
 * How much of a stack the library takes: its calls are made on a thread whose stack is filled with a pattern before,
 * and what of that is gone afterwards is what they took, with the thread's own beginning. It prints the bytes. In
 * WebAssembly it is the module's own stack, with what main takes of it; what the engine takes beside can't be seen.
 *
 * What comes nests up to so many levels, and is of all kinds otherwise: numbers and texts, batches, cancels, replies,
 * what is broken, and an input that is at fault. */
#ifndef _GNU_SOURCE
#define _GNU_SOURCE
#endif

#include "bullmyrtle.h"

#ifndef __wasm__
#include <pthread.h>
#endif
#include <stdio.h>
#include <stdlib.h>
#include <string.h>

enum { STACK = 1 << 18, PATTERN = 0xa5, ROOM = 1 << 20 };

static char text[ROOM];
static int deepest;

static void must(int32_t code)
{
    if (code != BM_OK && code != BM_NOT_OPEN && code != BM_NOT_WAITING && code != BM_NOT_JSON) {
        exit(3);
    }
}

static size_t added(size_t length, const char *more)
{
    memcpy(text + length, more, strlen(more));
    return length + strlen(more);
}

/* A message whose params nest so deep. */
static size_t deep_message(int levels)
{
    size_t length = added(0, "{\"jsonrpc\":\"2.0\",\"id\":\"d\\u00e9\",\"method\":\"deep\",\"params\":");
    for (int i = 0; i < levels; i++) {
        length = added(length, i % 2 ? "{\"a\":" : "[1e-7,");
    }
    length = added(length, "\"\\ud83d\\ude00\"");
    for (int i = levels; i-- > 0;) {
        text[length++] = i % 2 ? '}' : ']';
    }
    text[length++] = '}';
    return length;
}

static void feed(bm_connection *connection, const char *line, size_t length)
{
    must(bm_feed(connection, (const uint8_t *)line, length));
    must(bm_feed(connection, (const uint8_t *)"\n", 1));
}

/* Tells all, and answers each call in one of the ways that there are. */
static void hear(bm_connection *connection)
{
    bm_event event;
    uint64_t key;
    for (;;) {
        must(bm_next(connection, &event));
        if (event.kind == BM_NONE) {
            break;
        }
        if (event.kind == BM_CALL) {
            static const uint8_t json[] = "[\"\\u00e9\",{\"a\":-0.5e+10}]";
            must(bm_call(connection, event.number, json, 1, json, sizeof json - 1, &key));
            must(event.number % 3 == 0   ? bm_cancel(connection, event.number)
                 : event.number % 3 == 1 ? bm_answer(connection, event.number, json, sizeof json - 1)
                                         : bm_fail(connection, event.number, -5, json, 1, json, sizeof json - 1));
        }
    }
    const uint8_t *bytes;
    for (size_t lent; (lent = bm_output(connection, &bytes));) {
        must(bm_written(connection, lent));
    }
}

static void *make_calls(void *unused)
{
    static const char *lines[] = {
        "nonsense",
        "[]",
        "5",
        "[1,{},\"x\",null]",
        "{\"jsonrpc\":\"2.0\",\"id\":1,\"result\":[[[1]]]}",
        "{\"jsonrpc\":\"2.0\",\"id\":2,\"error\":{\"code\":1,\"message\":\"no\",\"data\":{\"a\":[1]}}}",
        "{\"jsonrpc\":\"2.0\",\"method\":\"$/cancelRequest\",\"params\":{\"id\":\"d\\u00e9\"}}",
        "[{\"jsonrpc\":\"2.0\",\"method\":\"a\",\"id\":18446744073709551615},{\"jsonrpc\":\"2.0\",\"method\":\"b\"},7,"
        "{\"jsonrpc\":\"2.0\",\"id\":3,\"result\":1},{\"jsonrpc\":\"2.0\",\"method\":\"c\",\"params\":[1.5],\"id\":"
        "null}]"};
    bm_options options = {.size = sizeof options,
                          .framing = BM_LINES,
                          .cancels = BM_CANCELS_LSP,
                          .content = 1 << 16,
                          .entries = UINT32_MAX};
    bm_connection connection;
    must(bm_open(&options, &connection.at));
    for (int levels = 1; levels <= deepest; levels++) {
        feed(&connection, text, deep_message(levels));
        for (size_t i = 0; i < sizeof lines / sizeof *lines; i++) {
            feed(&connection, lines[i], strlen(lines[i]));
        }
        hear(&connection);
    }
    memset(text, '[', ROOM);
    must(bm_feed(&connection, (const uint8_t *)text, ROOM));
    hear(&connection);
    must(bm_end(&connection, BM_CLOSED));
    hear(&connection);
    bm_free(connection);
    return unused;
}

#ifdef __wasm__
/* The stack, as the linker lays it out: it lies in front of all else, and grows down. */
extern uint8_t __stack_low[], __stack_high[];

static size_t taken(void)
{
    /* (the address 0 is in it, where nothing may be read: the first bytes aren't looked at) */
    volatile uint8_t *from = __stack_low + 16, *to = (uint8_t *)__builtin_frame_address(0) - 256;
    for (volatile uint8_t *at = from; at < to; at++) {
        *at = PATTERN;
    }
    make_calls(NULL);
    while (from < to && *from == PATTERN) {
        from++;
    }
    return (size_t)(__stack_high - from);
}
#else
static size_t taken(void)
{
    pthread_t thread;
    pthread_attr_t how;
    uint8_t *stack = aligned_alloc(4096, STACK);
    if (stack == NULL || pthread_attr_init(&how) || pthread_attr_setstack(&how, stack, STACK)) {
        exit(2);
    }
    memset(stack, PATTERN, STACK);
    if (pthread_create(&thread, &how, make_calls, NULL) || pthread_join(thread, NULL)) {
        exit(2);
    }
    size_t left = 0;
    while (left < STACK && stack[left] == PATTERN) {
        left++;
    }
    return STACK - left;
}
#endif

int main(int count, char **words)
{
    if (count != 2) {
        return 2;
    }
    deepest = (int)strtoul(words[1], NULL, 10);
    printf("%zu\n", taken());
    return 0;
}
