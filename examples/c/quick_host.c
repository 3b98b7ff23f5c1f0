/* What host.c does, with one call of the library for all that there is to say of a piece. From C a call costs next to
 * nothing, and host.c is as quick: it is made so in languages from which a call is costly. */
#include "bullmyrtle.h"

#include <stdio.h>
#include <stdlib.h>
#include <string.h>
#include <unistd.h>

static bm_connection connection;

/* What is to be said, and the names and texts of it one behind the other. They are copied, since the texts of an event
 * are lent only until the next one. */
static bm_saying *sayings;
static uint8_t *texts;
static size_t count, length;

/* A call that is refused ends the program: there is no memory. */
static void check(int32_t code)
{
    if (code != BM_OK) {
        fprintf(stderr, "quick_host: %s\n", bm_code_text(code));
        exit(1);
    }
}

static void *sized(void *at, size_t size)
{
    void *made = realloc(at, size);
    check(made ? BM_OK : BM_NO_MEMORY);
    return made;
}

static void say(bm_saying it, const void *name, const void *text)
{
    sayings = sized(sayings, (count + 1) * sizeof it);
    texts = sized(texts, length + it.name_len + it.text_len + 1);
    memcpy(texts + length, name, it.name_len);
    memcpy(texts + length + it.name_len, text, it.text_len);
    length += it.name_len + it.text_len;
    sayings[count++] = it;
}

static void handle(const bm_event *event)
{
    static const char message[] = "Method not found";
    bm_saying it = {.number = event->number};
    if (!(event->flags & BM_REQUEST)) {
        it.kind = BM_SAY_CLOSE; /* done with the notification */
        say(it, "", "");
    } else if (event->name_len == 4 && !memcmp(event->name, "echo", 4) && event->text_len) {
        it.kind = BM_SAY_ANSWER;
        it.text_len = event->text_len;
        say(it, "", event->text);
    } else {
        it.kind = BM_SAY_FAIL;
        it.code = -32601;
        it.name_len = sizeof message - 1;
        say(it, message, "");
    }
}

/* Says all that came of a piece. */
static void answer(void)
{
    bm_event event;
    size_t refused;
    count = length = 0;
    while (check(bm_next(&connection, &event)), event.kind != BM_NONE)
        if (event.kind == BM_CALL)
            handle(&event);
    check(bm_say_all(&connection, sayings, count, texts, length, &refused));
    for (size_t at = 0; refused && at < count; at++)
        check(sayings[at].said);
}

static void put(void)
{
    const uint8_t *bytes;
    for (size_t lent; (lent = bm_output(&connection, &bytes)) > 0;) {
        ssize_t written = write(STDOUT_FILENO, bytes, lent);
        if (written < 0)
            exit(1);
        check(bm_written(&connection, (size_t)written));
    }
}

int main(void)
{
    bm_options options = {.size = sizeof options, .framing = BM_LINES};
    uint8_t bytes[4096];
    check(bm_open(&options, &connection.at));
    while (!bm_is_done(&connection)) {
        ssize_t came = read(STDIN_FILENO, bytes, sizeof bytes);
        if (came > 0)
            check(bm_feed(&connection, bytes, (size_t)came));
        else
            check(bm_end(&connection, came ? BM_READ_FAILED : BM_CLOSED));
        answer();
        put();
    }
    free(sayings);
    free(texts);
    bm_free(connection);
    return 0;
}
