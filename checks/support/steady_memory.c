/* usage: steady_memory CALLS [forget|together|behind]
 *
 * Has so many calls come to a connection, whose methods call back and are answered behind later ones; prints the
 * most memory that the process had resident, in KiB, after a twentieth of them, and in the end. (What getrusage
 * tells isn't used: it counts what the process was forked from.) With `forget` it closes no notification, so that
 * its memory has to be seen to grow. With `together`, what is said is said by one call. With `behind`, the last content
 * that came waits until the next one has come, so that there is always one that waits. */
#include "bullmyrtle.h"

#include <stdio.h>
#include <stdlib.h>
#include <string.h>

/* So many requests are open at a time. */
enum { OPEN = 100, ROOM = 1 << 16 };

static bm_connection connection;
static uint64_t open_ones[OPEN], came, replies;
static bool forgets, together, is_behind;

static void check(bool is_so, const char *what)
{
    if (!is_so) {
        fprintf(stderr, "steady_memory: %s\n", what);
        exit(1);
    }
}

static void feed(const char *text)
{
    check(bm_feed(&connection, (const uint8_t *)text, strlen(text)) == BM_OK, "bm_feed");
    check(bm_feed(&connection, (const uint8_t *)"\n", 1) == BM_OK, "bm_feed");
}

/* What is to be said in one call, and its texts. */
enum { MOST_SAYINGS = 4000 };
static bm_saying sayings[MOST_SAYINGS];
static uint8_t texts[ROOM];
static size_t saying_count, text_length;

static void say(bm_saying it, const char *name, const uint8_t *text)
{
    check(saying_count < MOST_SAYINGS && text_length + it.name_len + it.text_len <= ROOM,
          "more is said than was thought");
    sayings[saying_count++] = it;
    memcpy(texts + text_length, name, it.name_len);
    memcpy(texts + text_length + it.name_len, text, it.text_len);
    text_length += it.name_len + it.text_len;
}

static void reply_to(uint64_t key)
{
    if (key % 2) {
        char reply[100];
        snprintf(reply, sizeof reply, "{\"jsonrpc\":\"2.0\",\"id\":%llu,\"result\":[true]}", (unsigned long long)key);
        feed(reply);
    }
}

static void say_all(void)
{
    size_t refused;
    check(bm_say_all(&connection, sayings, saying_count, texts, text_length, &refused) == BM_OK, "bm_say_all");
    check(!refused, "something is refused");
    for (size_t i = 0; i < saying_count; i++)
        if (sayings[i].kind == BM_SAY_CALL)
            reply_to(sayings[i].key);
    saying_count = text_length = 0;
}

/* The same as `request`, said later. */
static void request_later(const bm_event *event)
{
    uint64_t *place = &open_ones[event->number / 2 % OPEN];
    if (*place && *place % 3)
        say((bm_saying){.kind = BM_SAY_ANSWER, .number = *place, .text_len = event->text_len}, "", event->text);
    else if (*place)
        say((bm_saying){.kind = BM_SAY_CANCEL, .number = *place}, "", event->text);
    *place = event->number;
    say((bm_saying){.kind = BM_SAY_CALL, .number = event->number, .name_len = 3, .text_len = event->text_len}, "ask",
        event->text);
}

/* Opens a request, which calls back; the one that has been open longest is answered, or cancelled. */
static void request(const bm_event *event)
{
    uint64_t key, *place = &open_ones[event->number / 2 % OPEN];
    if (*place && *place % 3)
        check(bm_answer(&connection, *place, event->text, event->text_len) == BM_OK, "bm_answer");
    else if (*place)
        check(bm_cancel(&connection, *place) == BM_OK, "bm_cancel");
    *place = event->number;
    const uint8_t *method = (const uint8_t *)"ask";
    check(bm_call(&connection, event->number, method, 3, event->text, event->text_len, &key) == BM_OK, "bm_call");
    reply_to(key);
}

static void came_in(const bm_event *event)
{
    if (event->kind == BM_REPLIED)
        replies++;
    if (event->kind != BM_CALL)
        return;
    came++;
    if (event->flags == BM_REQUEST && together)
        request_later(event);
    else if (event->flags == BM_REQUEST)
        request(event);
    else if (together)
        say((bm_saying){.kind = BM_SAY_CLOSE, .number = event->number}, "", event->text);
    else if (!forgets)
        check(bm_close_call(&connection, event->number) == BM_OK, "bm_close_call");
}

/* Until so many calls have come, or nothing more has. */
static void hear(uint64_t most)
{
    bm_event event;
    while (came < most) {
        check(bm_next(&connection, &event) == BM_OK, "bm_next");
        if (event.kind == BM_NONE)
            return;
        came_in(&event);
    }
}

static void put(void)
{
    const uint8_t *bytes;
    for (size_t length; (length = bm_output(&connection, &bytes));)
        check(bm_written(&connection, length) == BM_OK, "bm_written");
}

static long most_memory(void)
{
    char line[200];
    long most = 0;
    FILE *status = fopen("/proc/self/status", "r");
    check(status, "/proc/self/status");
    while (fgets(line, sizeof line, status))
        sscanf(line, "VmHWM: %ld", &most);
    fclose(status);
    return most;
}

int main(int count, char **words)
{
    bm_options options = {.size = sizeof options, .framing = BM_LINES, .cancels = BM_CANCELS_LSP};
    check(count == 2 || count == 3, "usage: steady_memory CALLS [forget|together|behind]");
    uint64_t calls = strtoull(words[1], NULL, 10);
    forgets = count == 3 && !strcmp(words[2], "forget");
    together = count == 3 && !strcmp(words[2], "together");
    is_behind = count == 3 && !strcmp(words[2], "behind");
    check(bm_open(&options, &connection.at) == BM_OK, "bm_open");
    long early = 0;
    for (uint64_t i = 1; came < calls; i++) {
        char line[300];
        snprintf(line, sizeof line,
                 "[{\"jsonrpc\":\"2.0\",\"method\":\"m\",\"params\":[%llu,{\"a\":\"text\"}],\"id\":%llu},"
                 "{\"jsonrpc\":\"2.0\",\"method\":\"n\",\"params\":[\"a text that is kept as long as it is open\"]}]",
                 (unsigned long long)i, (unsigned long long)i);
        feed(line);
        if (i % 10 == 0)
            feed("broken");
        hear(is_behind ? 2 * (i - 1) : UINT64_MAX);
        if (together)
            say_all();
        put();
        if (!early && came >= calls / 20)
            early = most_memory();
    }
    bm_report report;
    bm_counts(&connection, &report);
    check(report.calls == came && report.requests == came / 2, "not as many calls as there were");
    check(forgets || report.open <= OPEN, "more is open than should be");
    check(replies > came / 8, "there were few replies");
    printf("%ld %ld\n", early, most_memory());
    bm_free(connection);
    return 0;
}
