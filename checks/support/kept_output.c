/* usage: kept_output frames|lines|contents LONG COUNT
 *
 * Has a connection write one notification of LONG bytes and a short one behind it, and writes the long one, in parts
 * where it may; and then COUNT short ones, and all but the last of them. Prints how many bytes more than before the
 * library holds each time; how many more with all written, behind a long one; how many more these are, than behind the
 * one before, behind one that was written in parts and behind one that was written as it was lent; and what bm_held
 * gives at first, while a long one is lent, and with all written. */
#include "bullmyrtle.h"

#include <malloc.h>
#include <stdio.h>
#include <stdlib.h>
#include <string.h>

static bm_connection connection;

static void check(bool is_so, const char *what)
{
    if (!is_so) {
        fprintf(stderr, "kept_output: %s\n", what);
        exit(1);
    }
}

static size_t held(void)
{
    struct mallinfo2 info = mallinfo2();
    return info.uordblks + info.hblkhd;
}

static void notify(const char *params, size_t length)
{
    check(bm_notify(&connection, (const uint8_t *)"n", 1, (const uint8_t *)params, length) == BM_OK, "bm_notify");
}

enum { PART = 5000 };

/* Writes so many bytes in parts of at most `most`, or so many messages of contents. */
static void put(size_t count, bool is_whole, size_t most)
{
    const uint8_t *bytes;
    while (count) {
        size_t lent = bm_output(&connection, &bytes), part = lent;
        check(lent, "bm_output");
        if (!is_whole && part > count)
            part = count;
        if (!is_whole && part > most)
            part = most;
        check(bm_written(&connection, part) == BM_OK, "bm_written");
        count -= is_whole ? 1 : part;
    }
}

/* How many bytes more than before are held once a text is written as a whole. */
static ssize_t behind(size_t before, const char *text, size_t length, bool is_whole, size_t most)
{
    notify(text, length);
    put(is_whole ? 1 : bm_pending(&connection), is_whole, most);
    check(!bm_pending(&connection), "all is written");
    return (ssize_t)(held() - before);
}

/* What bm_held gives while a text waits, which is written then. (A message of contents counts once it is lent.) */
static size_t held_with(const char *text, size_t length, bool is_whole)
{
    const uint8_t *lent;
    notify(text, length);
    check(bm_output(&connection, &lent), "bm_output");
    size_t room = bm_held(&connection), pending = bm_pending(&connection);
    check(room >= pending, "bm_held gives less than is pending");
    put(is_whole ? 1 : pending, is_whole, PART);
    return room;
}

int main(int words, char **given)
{
    static const char *const framings[] = {"frames", "lines", "contents"};
    check(words == 4, "three words");
    bm_options options = {.size = sizeof options};
    while (options.framing < 3 && strcmp(framings[options.framing], given[1]))
        options.framing++;
    check(bm_open(&options, &connection.at) == BM_OK, "bm_open");
    size_t fresh = bm_held(&connection);
    size_t length = strtoull(given[2], NULL, 10), count = strtoull(given[3], NULL, 10);
    char *text = malloc(length);
    check(text && length > 2, "memory");
    memset(text, '1', length);
    text[0] = '[';
    text[length - 1] = ']';
    bool is_whole = options.framing == BM_CONTENTS;
    notify("[]", 2);
    size_t shortest = bm_pending(&connection);
    put(is_whole ? 1 : shortest, is_whole, SIZE_MAX);
    size_t before = held();

    notify(text, length);
    size_t longest = bm_pending(&connection);
    notify("[]", 2);
    put(is_whole ? 1 : longest, is_whole, PART);
    ssize_t long_one = (ssize_t)(held() - before);

    for (size_t i = 0; i < count; i++)
        notify("[]", 2);
    put(count * (is_whole ? 1 : shortest), is_whole, PART);
    check(bm_pending(&connection) == shortest, "one text is left");
    ssize_t many = (ssize_t)(held() - before);
    put(is_whole ? 1 : shortest, is_whole, PART);

    /* (what is made anew with each is there behind the second) */
    behind(before, text, length, is_whole, PART);
    ssize_t warm = behind(before, text, length, is_whole, SIZE_MAX),
            left = behind(before, text, length, is_whole, PART);
    ssize_t again = behind(before, text, length, is_whole, SIZE_MAX);
    size_t waiting = held_with(text, length, is_whole), written = bm_held(&connection);
    printf("%zd %zd %zd %zd %zd %zu %zu %zu\n", long_one, many, left, left - warm, again - warm, fresh, waiting,
           written);
    free(text);
    bm_free(connection);
    return 0;
}
