/* The host that bench/run measures: frames on the standard streams, and the methods of the baseline's host. `add`
 * answers with the sum of an array of whole numbers, `give` with an array of as many times a value as its params say,
 * and `ask` calls the other side with its params and answers with the reply. */
#include "bullmyrtle.h"

#include <stdint.h>
#include <stdio.h>
#include <stdlib.h>
#include <string.h>
#include <unistd.h>

#define TEXT(text) (const uint8_t *)(text), sizeof(text) - 1
#define NONE NULL, 0

static bm_connection connection;
/* By the keys of our calls, the requests on whose behalf they are. */
static uint64_t *asked;
static size_t asked_size;

static void fail(const char *why)
{
    fprintf(stderr, "host: %s\n", why);
    exit(1);
}

static void check(int32_t code)
{
    if (code != BM_OK)
        fail("the library refused a call");
}

static void refuse(uint64_t number, int64_t code, const uint8_t *message, size_t length)
{
    check(bm_fail(&connection, number, code, message, length, NONE));
}

/* The sum of an array of whole numbers, which has no blanks; false where it is none, or overflows. (The array ends by
 * its bracket, behind which no zero byte stands.) */
static bool sum_of(const bm_event *event, int64_t *sum)
{
    const char *text = (const char *)event->text;
    *sum = 0;
    if (!event->text_len || *text++ != '[')
        return false;
    while (*text != ']') {
        char *end;
        int64_t number = strtoll(text, &end, 10);
        if (end == text || (*end != ',' && *end != ']') || __builtin_add_overflow(*sum, number, sum))
            return false;
        text = end + (*end == ',');
    }
    return true;
}

/* Writes a number's digits before the end, and says where they begin; printf would take a tenth of a request. */
static uint8_t *digits(int64_t value, uint8_t *end)
{
    uint64_t left = value < 0 ? 0 - (uint64_t)value : (uint64_t)value;
    do
        *--end = (uint8_t)('0' + left % 10);
    while ((left /= 10) > 0);
    if (value < 0)
        *--end = '-';
    return end;
}

static void add(const bm_event *event)
{
    int64_t sum;
    uint8_t result[24], *end = result + sizeof result;
    if (!sum_of(event, &sum)) {
        refuse(event->number, -32602, TEXT("Invalid params"));
        return;
    }
    const uint8_t *first = digits(sum, end);
    check(bm_answer(&connection, event->number, first, (size_t)(end - first)));
}

/* Answers with an array of so many times a value, by params `[N,VALUE]`. */
static void give(const bm_event *event)
{
    const char *text = event->text_len ? (const char *)event->text : "[]";
    char *item;
    long count = strtol(text + 1, &item, 10);
    if (count < 1 || *item != ',') {
        refuse(event->number, -32602, TEXT("Invalid params"));
        return;
    }
    size_t length = event->text_len - 1 - (size_t)(item - text), size = (size_t)count * length + 1;
    uint8_t *result = malloc(size);
    if (!result)
        fail("out of memory");
    for (size_t at = 0; at + 1 < size; at += length)
        memcpy(result + at, item, length);
    result[0] = '[';
    result[size - 1] = ']';
    check(bm_answer(&connection, event->number, result, size));
    free(result);
}

static void ask(const bm_event *event)
{
    uint64_t key;
    check(bm_call(&connection, event->number, TEXT("confirm"), event->text, event->text_len, &key));
    if (key >= asked_size) {
        asked_size = 2 * (size_t)key + 64;
        if (!(asked = realloc(asked, asked_size * sizeof *asked)))
            fail("out of memory");
    }
    asked[key] = event->number;
}

static bool is_method(const bm_event *event, const char *name)
{
    return event->name_len == strlen(name) && !memcmp(event->name, name, event->name_len);
}

static void called(const bm_event *event)
{
    if (!(event->flags & BM_REQUEST))
        check(bm_close_call(&connection, event->number));
    else if (is_method(event, "add"))
        add(event);
    else if (is_method(event, "give"))
        give(event);
    else if (is_method(event, "ask"))
        ask(event);
    else
        refuse(event->number, -32601, TEXT("Method not found"));
}

static void replied(const bm_event *event)
{
    uint64_t number = asked[event->key];
    if (event->flags & BM_ERROR)
        check(bm_fail(&connection, number, event->code, event->name, event->name_len, event->text, event->text_len));
    else
        check(bm_answer(&connection, number, event->text, event->text_len));
}

static void handle(const bm_event *event)
{
    if (event->kind == BM_CALL)
        called(event);
    else if (event->kind == BM_REPLIED)
        replied(event);
    else if (event->kind == BM_UNANSWERED)
        refuse(asked[event->key], -32000, TEXT("No reply"));
    else if (event->kind == BM_CANCELLED)
        check(bm_cancel(&connection, event->number));
}

static void hear(void)
{
    bm_event event;
    while (check(bm_next(&connection, &event)), event.kind != BM_NONE)
        handle(&event);
}

static void put(void)
{
    const uint8_t *bytes;
    for (size_t length; (length = bm_output(&connection, &bytes)) > 0;) {
        ssize_t count = write(STDOUT_FILENO, bytes, length);
        if (count < 0)
            fail("the output is gone");
        check(bm_written(&connection, (size_t)count));
    }
}

int main(void)
{
    static uint8_t bytes[65536];
    bm_options options = {.size = sizeof options, .framing = BM_FRAMES, .cancels = BM_CANCELS_LSP};
    check(bm_open(&options, &connection.at));
    while (!bm_is_done(&connection)) {
        ssize_t count = read(STDIN_FILENO, bytes, sizeof bytes);
        if (count > 0)
            check(bm_feed(&connection, bytes, (size_t)count));
        else
            check(bm_end(&connection, count ? BM_READ_FAILED : BM_CLOSED));
        hear();
        put();
    }
    bm_free(connection);
    free(asked);
    return 0;
}
