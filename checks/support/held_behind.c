/* usage: held_behind KIND SIZE
 *
 * Has something of a kind come and pass, of WARM bytes or things, and then twice of SIZE; each time a small one comes
 * behind it, so that what is made anew with each is there. Prints how many bytes more than as it began are held in the
 * end, and how many more than behind the first one behind the second and behind the third. It runs with count_malloc.c,
 * which counts them.
 *
 *     content, blanks, escapes
 *                        a request whose params have so many bytes, compact, with a blank behind each comma, or as
 *                        escapes that have no shorter form, is told, answered and taken
 *     line               the same on a line, in pieces of 512 bytes
 *     response           a call of the host gets a response whose result has so many bytes
 *     open               so many requests are told before the first is answered
 *     waiting            so many calls of the host wait before the first gets its response
 *     judge-content, judge-escapes, judge-line, judge-response, judge-open
 *                        the same before the judge
 *     judge-passed       so many requests, each with its answer behind it
 *     judge-again        the same, all with one id
 *     judge-findings     so many responses that nobody asked for, in one piece; what is found is told
 *     judge-findings-in-turn
 *                        the same, each in a piece of its own, and told before the next one comes */
#include "bullmyrtle.h"

#include <malloc.h>
#include <stdio.h>
#include <stdlib.h>
#include <string.h>
#include <unistd.h>

enum { WARM = 20000, WARM_BYTES = 200000, PIECE = 512, TEXT = 256 };

static bm_connection connection;
static bm_judge judge;
static bool is_judged, in_lines;

static void check(bool is_so, const char *what)
{
    if (!is_so) {
        fprintf(stderr, "held_behind: %s\n", what);
        exit(1);
    }
}

static int64_t held(void)
{
    int64_t told[3];
    const char *file = getenv("HELD_TELL");
    check(file && pread(atoi(file), told, sizeof told, 0) == sizeof told, "it runs with count_malloc.c");
    return told[2];
}

static void came(unsigned side, const char *bytes, size_t length)
{
    int32_t code = is_judged ? bm_judge_saw(&judge, side, (const uint8_t *)bytes, length)
                             : bm_feed(&connection, (const uint8_t *)bytes, length);
    check(code == BM_OK, "what comes is taken in");
}

/* A content as a frame, or as a line in pieces. */
static void says(unsigned side, const char *text, size_t length)
{
    char head[TEXT];
    if (!in_lines) {
        came(side, head, (size_t)snprintf(head, sizeof head, "Content-Length: %zu\r\n\r\n", length));
        came(side, text, length);
        return;
    }
    for (size_t at = 0; at < length; at += PIECE)
        came(side, text + at, length - at < PIECE ? length - at : PIECE);
    came(side, "\n", 1);
}

static void says_so(unsigned side, const char *form, unsigned long number)
{
    char text[TEXT];
    says(side, text, (size_t)snprintf(text, sizeof text, form, number));
}

/* A content with a string of so many bytes between two texts. The judge's side that says it breaks no rule. */
static void says_long(unsigned side, const char *before, const char *piece, size_t size, const char *after)
{
    size_t length = strlen(before), each = strlen(piece);
    char *text = malloc(length + size + each + strlen(after) + 1);
    check(text, "memory");
    strcpy(text, before);
    for (size_t more = 0; more < size; more += each, length += each)
        memcpy(text + length, piece, each);
    strcpy(text + length, after);
    says(side, text, length + strlen(after));
    free(text);
}

static bm_event next_event(uint32_t kind)
{
    bm_event event;
    check(bm_next(&connection, &event) == BM_OK && event.kind == kind, "the event that is due");
    return event;
}

static void take(void)
{
    const uint8_t *bytes;
    for (size_t length; (length = bm_output(&connection, &bytes));)
        check(bm_written(&connection, length) == BM_OK, "bm_written");
}

/* How many findings are told. */
static size_t found(void)
{
    static bm_finding findings[TEXT];
    size_t all = 0, count;
    while ((count = bm_judge_next(&judge, findings, TEXT)))
        all += count;
    return all;
}

static void answer(uint64_t number)
{
    if (is_judged)
        says_so(BM_SERVER, "{\"id\":%lu,\"jsonrpc\":\"2.0\",\"result\":1}", number);
    else
        check(bm_answer(&connection, number, (const uint8_t *)"1", 1) == BM_OK, "bm_answer");
}

static uint64_t call(uint64_t number)
{
    uint64_t key = number;
    if (is_judged)
        says_so(BM_SERVER, "{\"id\":%lu,\"jsonrpc\":\"2.0\",\"method\":\"m\"}", number);
    else
        check(bm_call(&connection, 0, (const uint8_t *)"m", 1, NULL, 0, &key) == BM_OK, "bm_call");
    return key;
}

/* The numbers and keys of all turns ascend. */
static uint64_t numbers;

static void one_content(const char *piece, size_t size)
{
    says_long(BM_CLIENT, "{\"jsonrpc\":\"2.0\",\"method\":\"m\",\"id\":1,\"params\":[\"", piece, size, "\"]}");
    answer(is_judged ? 1 : next_event(BM_CALL).number);
}

static void one_response(size_t size)
{
    char before[TEXT];
    snprintf(before, sizeof before, "{\"jsonrpc\":\"2.0\",\"id\":%llu,\"result\":\"", (unsigned long long)call(1));
    says_long(BM_CLIENT, before, "a", size, "\"}");
    if (!is_judged)
        next_event(BM_REPLIED);
}

static void many_open(size_t count)
{
    uint64_t first = numbers + 1;
    for (size_t i = 0; i < count; i++) {
        says_so(BM_CLIENT, "{\"jsonrpc\":\"2.0\",\"method\":\"m\",\"id\":%lu}", ++numbers);
        if (!is_judged)
            check(next_event(BM_CALL).number == numbers, "calls are counted");
    }
    while (first <= numbers)
        answer(first++);
}

static void many_waiting(size_t count)
{
    uint64_t first = numbers + 1;
    for (size_t i = 0; i < count; i++) {
        uint64_t key = call(numbers + 1);
        check(key == ++numbers, "keys are counted");
    }
    take();
    for (; first <= numbers; first++) {
        says_so(BM_CLIENT, "{\"jsonrpc\":\"2.0\",\"id\":%lu,\"result\":1}", first);
        next_event(BM_REPLIED);
    }
}

static void many_passed(size_t count)
{
    while (count--)
        many_open(1);
}

static void many_again(size_t count)
{
    while (count--) {
        says_so(BM_CLIENT, "{\"jsonrpc\":\"2.0\",\"method\":\"m\",\"id\":%lu}", 1);
        answer(1);
    }
}

static void many_findings(size_t count, size_t in_piece)
{
    const char *text = "{\"jsonrpc\":\"2.0\",\"id\":1,\"result\":1}\n";
    size_t length = strlen(text);
    char *piece = malloc(in_piece * length);
    check(piece, "memory");
    for (size_t i = 0; i < in_piece; i++)
        memcpy(piece + i * length, text, length);
    for (size_t i = 0; i < count; i += in_piece) {
        came(BM_CLIENT, piece, in_piece * length);
        check(found() == in_piece, "a finding for each");
    }
    free(piece);
}

static const char *piece_of(const char *kind)
{
    return !strcmp(kind, "escapes") ? "\\u0001" : !strcmp(kind, "blanks") ? "text\", \"" : "a";
}

static void comes(const char *kind, size_t size)
{
    if (!strcmp(kind, "response"))
        one_response(size);
    else if (!strcmp(kind, "open"))
        many_open(size);
    else if (!strcmp(kind, "waiting"))
        many_waiting(size);
    else if (!strcmp(kind, "passed"))
        many_passed(size);
    else if (!strcmp(kind, "again"))
        many_again(size);
    else if (!strcmp(kind, "findings"))
        many_findings(size, size);
    else if (!strcmp(kind, "findings-in-turn"))
        many_findings(size, 1);
    else
        one_content(piece_of(kind), size);
    if (is_judged) {
        check(found() == 0, "no finding is left");
        return;
    }
    next_event(BM_NONE);
    take();
}

static bool counts_bytes(const char *kind)
{
    static const char *const kinds[] = {"content", "blanks", "escapes", "line", "response"};
    bool is_one = false;
    for (size_t i = 0; i < sizeof kinds / sizeof *kinds; i++)
        is_one |= !strcmp(kind, kinds[i]);
    return is_one;
}

static int64_t held_behind(const char *kind, size_t size)
{
    comes(kind, size);
    comes(kind, 1);
    return held();
}

static void begin(void)
{
    bm_options options = {.size = sizeof options, .framing = in_lines ? BM_LINES : BM_FRAMES};
    bm_judge_options rules = {.size = sizeof rules, .framing = options.framing};
    int32_t code = is_judged ? bm_judge_open(&rules, &judge.at) : bm_open(&options, &connection.at);
    check(code == BM_OK, "it begins");
}

int main(int words, char **word)
{
    check(words == 3, "two words");
    is_judged = !strncmp(word[1], "judge-", 6);
    const char *kind = word[1] + (is_judged ? 6 : 0);
    in_lines = !strcmp(kind, "line") || !strncmp(kind, "findings", 8);
    size_t size = strtoull(word[2], NULL, 10);
    /* (a block of its own pages, made shorter, has whole pages) */
    mallopt(M_MMAP_MAX, 0);
    begin();
    int64_t begun = held(), warm = held_behind(kind, counts_bytes(kind) ? WARM_BYTES : WARM);
    int64_t first = held_behind(kind, size), second = held_behind(kind, size);
    printf("%lld %lld %lld\n", (long long)(second - begun), (long long)(first - warm), (long long)(second - warm));
    return 0;
}
