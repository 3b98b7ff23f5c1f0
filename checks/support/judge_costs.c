/* What judging costs, for checks/c_judge_costs.py: the same requests and answers by a connection, which is fed them and
 * answers them, and by the judge, which is shown both sides.
 *
 *     judge_costs KIND COUNT
 *         connection         each request is fed, told, answered and taken before the next one comes
 *         passed             the judge sees each request, and its answer before the next one
 *         open, reversed     the judge sees all requests, and then the answers as they came, or the last one first
 *         strings, ..        the same with ids that are strings: passed-strings, open-strings, reversed-strings
 *         none               the texts are made, and nothing is done with them
 *         twice              as passed, with each answer twice, so that the judge finds something
 *         unreadable         the judge sees all requests, and then as many contents of the side that owes that aren't
 * JSON
 *
 * It ends with the status 1 where an answer isn't the one that is due, or where the judge finds anything. */
#include "bullmyrtle.h"

#include <stdio.h>
#include <stdlib.h>
#include <string.h>

enum { ROOM = 256 };

static bm_connection connection;
static bm_judge judge;
static const char *id_form = "%u";
/* The result of the last request, which is made for all kinds alike. */
static char result[16];

static void check(bool is_well)
{
    if (!is_well) {
        fputs("judge_costs: not what is due\n", stderr);
        exit(1);
    }
}

/* A frame of a text, whose length it gives. */
static size_t framed(char *frame, const char *text)
{
    int length = snprintf(frame, ROOM, "Content-Length: %zu\r\n\r\n%s", strlen(text), text);
    check(length > 0 && length < ROOM);
    return (size_t)length;
}

static size_t request(char *frame, unsigned number)
{
    char id[32], text[ROOM];
    snprintf(id, sizeof id, id_form, number);
    snprintf(text, sizeof text, "{\"jsonrpc\":\"2.0\",\"method\":\"add\",\"params\":[%u,1],\"id\":%s}", number, id);
    return framed(frame, text);
}

static size_t answer(char *frame, unsigned number)
{
    char id[32], text[ROOM];
    snprintf(id, sizeof id, id_form, number);
    snprintf(result, sizeof result, "%u", number + 1);
    snprintf(text, sizeof text, "{\"id\":%s,\"jsonrpc\":\"2.0\",\"result\":%s}", id, result);
    return framed(frame, text);
}

static void by_connection(unsigned number)
{
    char asked[ROOM], wanted[ROOM];
    const uint8_t *bytes;
    bm_event event;
    size_t length = request(asked, number), due = answer(wanted, number);
    check(bm_feed(&connection, (const uint8_t *)asked, length) == BM_OK);
    check(bm_next(&connection, &event) == BM_OK && event.kind == BM_CALL);
    check(bm_answer(&connection, event.number, (const uint8_t *)result, strlen(result)) == BM_OK);
    check(bm_output(&connection, &bytes) == due && !memcmp(bytes, wanted, due));
    check(bm_written(&connection, due) == BM_OK);
}

static void see(unsigned side, const char *frame, size_t length)
{
    bm_finding finding;
    check(bm_judge_saw(&judge, side, (const uint8_t *)frame, length) == BM_OK);
    check(bm_judge_next(&judge, &finding, 1) == 0);
}

static void see_request(unsigned number)
{
    char frame[ROOM];
    see(BM_CLIENT, frame, request(frame, number));
}

static void see_answer(unsigned number)
{
    char frame[ROOM];
    see(BM_SERVER, frame, answer(frame, number));
}

/* Each of these contents marks all that is open (docs/judge.md, "What it costs"). */
static void see_unreadable(unsigned count)
{
    char frame[ROOM];
    bm_finding finding;
    size_t length = framed(frame, "{");
    for (unsigned number = 1; number <= count; number++) {
        check(bm_judge_saw(&judge, BM_SERVER, (const uint8_t *)frame, length) == BM_OK);
        check(bm_judge_next(&judge, &finding, 1) == 1 && finding.rule == BM_RULE_NOT_JSON);
    }
}

static void by_judge(const char *kind, unsigned count)
{
    bm_judge_options options = {.size = sizeof options};
    check(bm_judge_open(&options, &judge.at) == BM_OK);
    bool is_unreadable = !strcmp(kind, "unreadable"), is_twice = !strcmp(kind, "twice");
    bool is_passed = is_twice || !strncmp(kind, "passed", 6), is_reversed = !strncmp(kind, "reversed", 8);
    for (unsigned number = 1; number <= count; number++) {
        see_request(number);
        if (is_passed)
            see_answer(number);
        if (is_twice)
            see_answer(number);
    }
    if (is_unreadable) {
        see_unreadable(count);
        bm_judge_free(judge);
        return;
    }
    for (unsigned number = 1; number <= count && !is_passed; number++)
        see_answer(is_reversed ? count + 1 - number : number);
    check(bm_judge_ended(&judge, BM_CLIENT, BM_CLOSED) == BM_OK);
    check(bm_judge_ended(&judge, BM_SERVER, BM_CLOSED) == BM_OK);
    bm_finding finding;
    check(bm_judge_next(&judge, &finding, 1) == 0);
    bm_judge_free(judge);
}

int main(int words, char **word)
{
    check(words == 3);
    const char *kind = word[1];
    unsigned count = (unsigned)strtoul(word[2], NULL, 10);
    if (strstr(kind, "-strings"))
        id_form = "\"request-%u\"";
    if (!strcmp(kind, "connection")) {
        bm_options options = {.size = sizeof options, .framing = BM_FRAMES};
        check(bm_open(&options, &connection.at) == BM_OK);
        for (unsigned number = 1; number <= count; number++)
            by_connection(number);
        bm_free(connection);
    } else if (!strcmp(kind, "none")) {
        char frame[ROOM];
        for (unsigned number = 1; number <= count; number++) {
            request(frame, number);
            answer(frame, number);
        }
    } else {
        by_judge(kind, count);
    }
    return 0;
}
