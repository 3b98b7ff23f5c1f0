/* usage: held_open KIND COUNT
 *
 * Has something of a kind stand open or unfinished, and prints how many bytes more than as the connection began are
 * held then. It runs with count_malloc.c, which counts them.
 *
 *     content   COUNT bytes of a content, in frames, have come; no event was asked for
 *     frame     the same in pieces of 512 bytes, without the last byte
 *     line      COUNT bytes of a line that hasn't ended have come, in pieces of 512
 *     answers   in the order in which requests came, COUNT answers of LONG bytes wait behind one that isn't given
 *     batch     of a batch of COUNT notifications and one request just this request is open
 *     dense     COUNT requests are open
 *     sparse    COUNT requests are open, of 32 times as many: each 32nd, the others were answered later */
#include "bullmyrtle.h"

#include <malloc.h>
#include <stdio.h>
#include <stdlib.h>
#include <string.h>
#include <unistd.h>

enum { PIECE = 512, PAGE = 32, LONG = 1000, TEXT = 256 };

static bm_connection connection;

static void check(bool is_so, const char *what)
{
    if (!is_so) {
        fprintf(stderr, "held_open: %s\n", what);
        exit(1);
    }
}

static int64_t held(void)
{
    int64_t told[3];
    const char *file = getenv("HELD_TELL");
    check(file && pread(atoi(file), told, sizeof told, 0) == sizeof told, "it runs with count_malloc.c");
    return told[2];
}

static void feed(const char *bytes, size_t length, size_t piece)
{
    for (size_t at = 0; at < length; at += piece) {
        size_t count = length - at < piece ? length - at : piece;
        check(bm_feed(&connection, (const uint8_t *)bytes + at, count) == BM_OK, "what comes is taken in");
    }
}

static void head(size_t length)
{
    char text[TEXT];
    feed(text, (size_t)snprintf(text, sizeof text, "Content-Length: %zu\r\n\r\n", length), TEXT);
}

/* So many bytes that no line break is among. */
static char *bytes_of(size_t length)
{
    char *bytes = malloc(length + 1);
    check(bytes, "memory");
    memset(bytes, 'a', length);
    return bytes;
}

static void one_content(const char *kind, size_t length)
{
    char *bytes = bytes_of(length);
    if (strcmp(kind, "line"))
        head(strcmp(kind, "frame") ? length : length + 1);
    feed(bytes, length, strcmp(kind, "content") ? PIECE : length);
    free(bytes);
}

static void told(uint64_t number)
{
    bm_event event;
    int32_t code = bm_next(&connection, &event);
    check(code == BM_OK && event.kind == BM_CALL && event.number == number, "the call that is due");
}

static void take(void)
{
    const uint8_t *bytes;
    for (size_t length; (length = bm_output(&connection, &bytes));)
        check(bm_written(&connection, length) == BM_OK, "bm_written");
}

static void requests(uint64_t count)
{
    for (uint64_t number = 1; number <= count; number++) {
        char text[TEXT];
        int length =
            snprintf(text, sizeof text, "{\"jsonrpc\":\"2.0\",\"method\":\"m\",\"id\":%lu}", (unsigned long)number);
        head((size_t)length);
        feed(text, (size_t)length, TEXT);
        told(number);
    }
}

static void answer(uint64_t number, const char *text, size_t length)
{
    check(bm_answer(&connection, number, (const uint8_t *)text, length) == BM_OK, "bm_answer");
}

static void answers(uint64_t count)
{
    char text[LONG];
    memset(text, '1', sizeof text);
    requests(count + 1);
    for (uint64_t number = 2; number <= count + 1; number++)
        answer(number, text, sizeof text);
}

static void batch(uint64_t count)
{
    const char *notice = "{\"jsonrpc\":\"2.0\",\"method\":\"m\"},",
               *last = "{\"jsonrpc\":\"2.0\",\"method\":\"m\",\"id\":1}]";
    size_t each = strlen(notice), length = 1 + count * each + strlen(last);
    char *bytes = bytes_of(length);
    bytes[0] = '[';
    for (uint64_t it = 0; it < count; it++)
        memcpy(bytes + 1 + it * each, notice, each);
    memcpy(bytes + 1 + count * each, last, strlen(last));
    head(length);
    feed(bytes, length, length);
    free(bytes);
    for (uint64_t number = 1; number <= count + 1; number++)
        told(number);
    for (uint64_t number = 1; number <= count; number++)
        check(bm_close_call(&connection, number) == BM_OK, "bm_close_call");
}

static void some_open(uint64_t count, uint64_t every)
{
    requests(count * every);
    for (uint64_t number = 1; number <= count * every; number++) {
        if (number % every)
            answer(number, "1", 1);
        take();
    }
}

int main(int words, char **word)
{
    check(words == 3, "two words");
    const char *kind = word[1];
    size_t count = strtoull(word[2], NULL, 10);
    bm_options options = {.size = sizeof options, .framing = strcmp(kind, "line") ? BM_FRAMES : BM_LINES};
    options.order = strcmp(kind, "answers") ? BM_AS_ANSWERED : BM_AS_CAME;
    options.entries = UINT32_MAX;
    /* (a block of its own pages, made shorter, has whole pages) */
    mallopt(M_MMAP_MAX, 0);
    check(bm_open(&options, &connection.at) == BM_OK, "it begins");
    int64_t begun = held();
    if (!strcmp(kind, "answers"))
        answers(count);
    else if (!strcmp(kind, "batch"))
        batch(count);
    else if (!strcmp(kind, "dense") || !strcmp(kind, "sparse"))
        some_open(count, strcmp(kind, "sparse") ? 1 : PAGE);
    else
        one_content(kind, count);
    printf("%lld\n", (long long)(held() - begun));
    return 0;
}
