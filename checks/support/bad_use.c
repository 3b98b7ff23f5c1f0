/* What a host may do wrong and the library refuses: each code but BM_NO_MEMORY (refuse_calls.c) and BM_FULL (2^53
 * calls are too many to make). A connection on which nothing is refused goes the same way beside the one that is
 * tried: after each refusal both look alike, nothing that was passed has been written to, and in the end both told
 * and wrote the same. */
#include "bullmyrtle.h"

#include <stddef.h>
#include <stdio.h>
#include <stdlib.h>
#include <string.h>

#define TEXT(text) (const uint8_t *)(text), sizeof(text) - 1
#define NONE (const uint8_t *)"", 0

static unsigned long refusals[BM_FULL + 1];

static void check(bool is_so, int line, const char *what)
{
    if (!is_so) {
        fprintf(stderr, "bad_use.c, line %d: %s\n", line, what);
        exit(1);
    }
}

/* ---- two connections */

static bm_connection tried, twin;

/* Makes a call on both, which has to succeed. */
#define BOTH(name, ...)                                                                                                \
    do {                                                                                                               \
        check(name(&tried, __VA_ARGS__) == BM_OK, __LINE__, #name);                                                    \
        check(name(&twin, __VA_ARGS__) == BM_OK, __LINE__, #name);                                                     \
    } while (0)

static void look_alike(int line)
{
    bm_report one, two;
    bm_counts(&tried, &one);
    bm_counts(&twin, &two);
    check(!memcmp(&one, &two, sizeof one), line, "a refused call has changed the counts");
    check(bm_pending(&tried) == bm_pending(&twin), line, "a refused call has changed what is to be written");
    check(bm_is_done(&tried) == bm_is_done(&twin), line, "a refused call has changed whether all is done");
}

static void refused(int32_t wanted, int32_t got, int line)
{
    if (got != wanted) {
        fprintf(stderr, "bad_use.c, line %d: the code is %d, and not %d\n", line, got, wanted);
        exit(1);
    }
    refusals[wanted]++;
    look_alike(line);
}

/* Makes a call on the one that is tried, which has to be refused. */
#define REFUSED(wanted, name, ...) refused(wanted, name(&tried, __VA_ARGS__), __LINE__)

enum { SIZE = sizeof(bm_options) };

static void open_both(bm_options asked)
{
    asked.size = SIZE;
    check(bm_open(&asked, &tried.at) == BM_OK && bm_open(&asked, &twin.at) == BM_OK, __LINE__, "bm_open");
}

static void begin(uint32_t framing, uint32_t cancels, uint32_t content)
{
    open_both((bm_options){.framing = framing, .cancels = cancels, .content = content, .entries = UINT32_MAX});
}

static bool is_same(const uint8_t *one, size_t one_length, const uint8_t *two, size_t two_length)
{
    return one_length == two_length && (!one_length || !memcmp(one, two, one_length));
}

/* Has both tell their next event, which has to be the same, and gives its kind. */
static uint32_t next_of_both(void)
{
    bm_event one, two;
    check(bm_next(&tried, &one) == BM_OK && bm_next(&twin, &two) == BM_OK, __LINE__, "bm_next");
    check(!memcmp(&one, &two, offsetof(bm_event, name)), __LINE__, "another event");
    check(is_same(one.name, one.name_len, two.name, two.name_len), __LINE__, "another name");
    check(is_same(one.text, one.text_len, two.text, two.text_len), __LINE__, "another text");
    check(is_same(one.id, one.id_len, two.id, two.id_len), __LINE__, "another id");
    return one.kind;
}

static void tell(uint32_t kind)
{
    check(next_of_both() == kind, __LINE__, "an event of another kind");
}

/* All that is to be written, and that is said to be written then. */
static uint8_t *all_of(bm_connection *connection, size_t *length)
{
    const uint8_t *bytes;
    uint8_t *all = NULL;
    *length = 0;
    for (size_t lent; (lent = bm_output(connection, &bytes)); *length += lent) {
        all = realloc(all, *length + lent);
        check(all != NULL, __LINE__, "no memory");
        memcpy(all + *length, bytes, lent);
        check(bm_written(connection, lent) == BM_OK, __LINE__, "bm_written");
    }
    return all;
}

/* Looks whether both have the same to write, and frees them. */
static void end_both(void)
{
    while (next_of_both() != BM_NONE) {
    }
    size_t ours, its;
    uint8_t *one = all_of(&tried, &ours), *two = all_of(&twin, &its);
    check(is_same(one, ours, two, its), __LINE__, "another output");
    free(one);
    free(two);
    bm_free(tried);
    bm_free(twin);
}

/* ---- what is refused */

static void options(void)
{
    static const bm_options wrong[] = {
        {.size = 0},
        {.size = SIZE - 1},
        {.size = SIZE + 1},
        {.size = SIZE + 8},
        {.size = UINT32_MAX},
        {.size = SIZE, .framing = 3},
        {.size = SIZE, .order = 2},
        {.size = SIZE, .cancels = 3},
        {.size = SIZE, .cancels = UINT32_MAX},
        {.size = SIZE, .broken = 2},
        {.size = SIZE, .broken = UINT32_MAX},
        {.size = SIZE, .content = 1U << 31},
        {.size = SIZE, .content = UINT32_MAX},
        {.size = SIZE, .framing = UINT32_MAX},
        {.size = SIZE, .order = UINT32_MAX},
        {.size = SIZE, .null_params = 2},
        {.size = SIZE, .null_params = UINT32_MAX},
        {.size = SIZE, .framing = 3, .order = 2, .cancels = 3, .broken = 2, .content = UINT32_MAX, .null_params = 2},
    };
    static char untouched;
    for (size_t i = 0; i < sizeof wrong / sizeof *wrong; i++) {
        void *at = &untouched;
        check(bm_open(&wrong[i], &at) == BM_SETTINGS && at == &untouched, __LINE__, "bm_open");
        refusals[BM_SETTINGS]++;
    }
    static const bm_options right[] = {
        {.size = SIZE},
        {.size = SIZE, .cancels = BM_CANCELS_LSP, .content = 1 << 24, .calls = UINT64_MAX},
        {.size = SIZE, .content = (1 << 24) + 1},
        {.size = SIZE, .content = INT32_MAX, .entries = UINT32_MAX, .null_params = 1},
        {SIZE, BM_CONTENTS, BM_AS_CAME, BM_CANCELS_MCP, 1, 1, 1, 1, 1},
    };
    for (size_t i = 0; i < sizeof right / sizeof *right; i++) {
        bm_connection made;
        check(bm_open(&right[i], &made.at) == BM_OK, __LINE__, "bm_open");
        bm_free(made);
    }
}

static void options_of_a_judge(void)
{
    enum { WHOLE = sizeof(bm_judge_options) };
    static const bm_judge_options wrong[] = {
        {.size = 0},
        {.size = WHOLE - 1},
        {.size = WHOLE + 4},
        {.size = UINT32_MAX},
        {.size = WHOLE, .rules = BM_RULES_MCP_2024_11_05 + 1},
        {.size = WHOLE, .rules = UINT32_MAX},
        {.size = WHOLE, .framing = 3},
        {.size = WHOLE, .content = (1 << 24) + 1},
        {.size = WHOLE, .content = UINT32_MAX},
    };
    static char untouched;
    for (size_t i = 0; i < sizeof wrong / sizeof *wrong; i++) {
        void *at = &untouched;
        check(bm_judge_open(&wrong[i], &at) == BM_SETTINGS && at == &untouched, __LINE__, "bm_judge_open");
        refusals[BM_SETTINGS]++;
    }
    static const bm_judge_options right[] = {
        {.size = WHOLE},
        {.size = WHOLE,
         .rules = BM_RULES_MCP_2024_11_05,
         .framing = BM_CONTENTS,
         .content = 1 << 24,
         .ids = UINT32_MAX},
        {WHOLE, BM_RULES_LSP, BM_LINES, 1, 1},
    };
    for (size_t i = 0; i < sizeof right / sizeof *right; i++) {
        bm_judge made;
        check(bm_judge_open(&right[i], &made.at) == BM_OK, __LINE__, "bm_judge_open");
        check(bm_judge_saw(&made, BM_SERVER + 1, NULL, 0) == BM_SETTINGS, __LINE__, "bm_judge_saw");
        check(bm_judge_ended(&made, BM_CLIENT, BM_READ_FAILED + 1) == BM_SETTINGS, __LINE__, "bm_judge_ended");
        check(bm_judge_saw(&made, BM_CLIENT, NULL, 0) == BM_OK, __LINE__, "bm_judge_saw");
        check(bm_judge_next(&made, NULL, 0) == 0, __LINE__, "bm_judge_next");
        bm_judge_free(made);
        refusals[BM_SETTINGS] += 2;
    }
}

/* With the cancels of MCP a call that is withdrawn waits no longer, and a cancelled request is closed. */
static void cancels_of_mcp(void)
{
    uint64_t key;
    open_both((bm_options){.framing = BM_LINES, .cancels = BM_CANCELS_MCP});
    BOTH(bm_call, 0, TEXT("a"), NONE, &key);
    BOTH(bm_withdraw, key);
    REFUSED(BM_NOT_WAITING, bm_withdraw, key);
    BOTH(bm_feed, TEXT("{\"jsonrpc\":\"2.0\",\"method\":\"m\",\"id\":7}\n"
                       "{\"jsonrpc\":\"2.0\",\"method\":\"notifications/cancelled\",\"params\":{\"requestId\":7}}\n"));
    tell(BM_CALL);
    tell(BM_CANCELLED);
    size_t pending = bm_pending(&tried);
    BOTH(bm_cancel, 1);
    check(bm_pending(&tried) == pending, __LINE__, "a cancelled request has an answer");
    REFUSED(BM_NOT_OPEN, bm_cancel, 1);
    REFUSED(BM_NOT_OPEN, bm_answer, 1, TEXT("1"));
    BOTH(bm_feed, TEXT("{\"jsonrpc\":\"2.0\",\"id\":1,\"result\":1}\n"));
    BOTH(bm_end, BM_CLOSED);
    tell(BM_INPUT_OVER);
    end_both();
}

/* The place of a fault is written where there is one, and asking for it changes nothing. */
static void places(void)
{
    uint64_t place = 77;
    open_both((bm_options){.framing = BM_FRAMES, .broken = 1});
    check(!bm_fault_at(&tried, &place) && place == 77, __LINE__, "bm_fault_at");
    look_alike(__LINE__);
    BOTH(bm_feed, TEXT("Content-Length: 2\r\n\r\n{]Content-Length: x\r\n\r\n"));
    for (int i = 0; i < 3; i++) {
        check(bm_fault_at(&tried, &place) && place == 23, __LINE__, "bm_fault_at");
        look_alike(__LINE__);
        if (i < 2)
            tell(i ? BM_INPUT_OVER : BM_BROKEN);
    }
    end_both();
}

static void counted(uint64_t calls, uint64_t invalid, uint64_t waiting)
{
    bm_report report;
    bm_counts(&tried, &report);
    check(report.calls == calls, __LINE__, "another number of calls");
    check(report.invalid == invalid, __LINE__, "another number of invalid entries");
    check(report.waiting == waiting, __LINE__, "another number of calls that wait");
}

/* A batch of more entries than the option says is one invalid entry: its calls aren't told, and its replies are lost.
 */
static void long_batches(void)
{
    uint64_t key;
    open_both((bm_options){.framing = BM_LINES, .broken = 1, .entries = 2});
    BOTH(bm_call, 0, TEXT("a"), NONE, &key);
    BOTH(bm_feed, TEXT("[{\"id\":1,\"jsonrpc\":\"2.0\",\"result\":1},{\"jsonrpc\":\"2.0\",\"method\":\"m\"},3]\n"));
    tell(BM_BROKEN);
    tell(BM_NONE);
    counted(0, 1, 1);
    BOTH(bm_feed, TEXT("[ {\"id\":1,\"jsonrpc\":\"2.0\",\"result\":1}, 2 ]\n"));
    tell(BM_BROKEN);
    tell(BM_REPLIED);
    counted(0, 2, 0);
    BOTH(bm_end, BM_CLOSED);
    tell(BM_INPUT_OVER);
    end_both();
}

/* An array of so many numbers. */
static size_t numbers(uint8_t *text, size_t count)
{
    for (size_t i = 0; i < count; i++) {
        text[2 * i] = i ? ',' : '[';
        text[2 * i + 1] = '1';
    }
    text[2 * count] = ']';
    return 2 * count + 1;
}

/* Where the options say nothing, a batch may have 100,000 entries, and where they say so any number. */
static void usual_batches(void)
{
    enum { MOST = 100000 };
    static uint8_t text[2 * MOST + 3];
    open_both((bm_options){.framing = BM_CONTENTS});
    BOTH(bm_feed, text, numbers(text, MOST));
    tell(BM_NONE);
    counted(0, MOST, 0);
    BOTH(bm_feed, text, numbers(text, MOST + 1));
    tell(BM_NONE);
    counted(0, MOST + 1, 0);
    bm_free(tried);
    bm_free(twin);
    open_both((bm_options){.framing = BM_CONTENTS, .entries = UINT32_MAX});
    BOTH(bm_feed, text, numbers(text, MOST + 1));
    tell(BM_NONE);
    counted(0, MOST + 1, 0);
    look_alike(__LINE__);
    bm_free(tried);
    bm_free(twin);
}

/* A content of a byte more than 16,777,216 is taken where the options say so, and not where they say nothing. */
static void long_contents(void)
{
    enum { MOST = 1 << 24 };
    uint8_t *text = malloc(MOST + 1);
    check(text != NULL, __LINE__, "no memory");
    memset(text, ' ', MOST + 1);
    text[0] = '1';
    for (uint32_t content = 0; content < 2; content++) {
        open_both((bm_options){.framing = BM_CONTENTS, .content = content ? INT32_MAX : 0});
        BOTH(bm_feed, text, MOST + 1);
        tell(content ? BM_NONE : BM_INPUT_OVER);
        counted(0, content, 0);
        bm_free(tried);
        bm_free(twin);
    }
    free(text);
}

/* Params that are null are none, and null where the options say so. */
static void null_params(void)
{
    for (uint32_t told = 0; told < 2; told++) {
        open_both((bm_options){.framing = BM_LINES, .null_params = told});
        BOTH(bm_feed,
             TEXT("{\"jsonrpc\":\"2.0\",\"method\":\"m\",\"params\":null}\n{\"jsonrpc\":\"2.0\",\"method\":\"m\"}\n"));
        for (uint32_t is_null = told, i = 0; i < 2; is_null = 0, i++) {
            bm_event event;
            check(bm_next(&tried, &event) == BM_OK, __LINE__, "bm_next");
            check(event.kind == BM_CALL && event.flags == 0, __LINE__, "another event");
            check(event.text_len == (is_null ? 4 : 0), __LINE__, "other params");
            check(!is_null || !memcmp(event.text, "null", 4), __LINE__, "other params");
        }
        bm_free(tried);
        bm_free(twin);
    }
}

/* Bytes that aren't UTF-8: a byte alone, cut short, over-long, a surrogate, over U+10FFFF. */
static const char *const not_texts[] = {"\xff", "a\xc3", "\xc0\x80", "\xed\xa0\x80", "\xf4\x90\x80\x80", "\x80"};
enum { NOT_TEXTS = sizeof not_texts / sizeof *not_texts };
/* Texts that aren't JSON, one of them since it isn't UTF-8. */
static const char *const not_json[] = {" ", "{", "1 2", "nul", "\"", "01", "[1,]", "\"\xff\"", "\"\n\"", "{\"a\":1,}"};
enum { NOT_JSON = sizeof not_json / sizeof *not_json };

static const uint8_t *bytes_of(const char *text)
{
    return (const uint8_t *)text;
}

static void texts(void)
{
    uint64_t key = 77;
    begin(BM_LINES, BM_CANCELS_LSP, 0);
    BOTH(bm_feed, TEXT("{\"jsonrpc\":\"2.0\",\"method\":\"m\",\"params\":[1],\"id\":7}\n"));
    tell(BM_CALL);
    for (size_t i = 0; i < NOT_TEXTS; i++) {
        const uint8_t *it = bytes_of(not_texts[i]);
        size_t length = strlen(not_texts[i]);
        REFUSED(BM_NOT_TEXT, bm_call, 1, it, length, NONE, &key);
        REFUSED(BM_NOT_TEXT, bm_notify, it, length, NONE);
        REFUSED(BM_NOT_TEXT, bm_fail, 1, 5, it, length, NONE);
        REFUSED(BM_NOT_TEXT, bm_call_batch, 1, it, length, ((size_t[]){length, 0}), 2, &key);
        /* of two faults it is the first */
        REFUSED(BM_NOT_TEXT, bm_call, 1, it, length, TEXT("{"), &key);
        REFUSED(BM_NOT_OPEN, bm_call, 2, it, length, NONE, &key);
        REFUSED(BM_NOT_OPEN, bm_fail, 0, 5, it, length, TEXT("{"));
    }
    for (size_t i = 0; i < NOT_JSON; i++) {
        const uint8_t *it = bytes_of(not_json[i]);
        size_t length = strlen(not_json[i]);
        REFUSED(BM_NOT_JSON, bm_call, 1, TEXT("m"), it, length, &key);
        REFUSED(BM_NOT_JSON, bm_notify, TEXT("m"), it, length);
        REFUSED(BM_NOT_JSON, bm_answer, 1, it, length);
        REFUSED(BM_NOT_JSON, bm_fail, 1, 5, TEXT("m"), it, length);
        REFUSED(BM_NOT_JSON, bm_call_batch, 1, it, length, ((size_t[]){0, length}), 2, &key);
    }
    /* params are an array or an object, and a request has an answer */
    REFUSED(BM_NOT_JSON, bm_call, 1, TEXT("m"), TEXT("1"), &key);
    REFUSED(BM_NOT_JSON, bm_notify, TEXT("m"), TEXT("null"));
    REFUSED(BM_NOT_JSON, bm_answer, 1, NONE);
    char deep[242];
    memset(deep, '[', 121);
    memset(deep + 121, ']', 121);
    REFUSED(BM_NOT_JSON, bm_answer, 1, bytes_of(deep), 242);
    check(key == 77, __LINE__, "a refused call has written a key");
    BOTH(bm_answer, 1, bytes_of(deep) + 1, 240);
    end_both();
}

static void numbers_and_keys(void)
{
    static const uint64_t wrong[] = {0, 3, UINT64_MAX};
    uint64_t key = 77, ours, its;
    begin(BM_LINES, BM_CANCELS_LSP, 0);
    BOTH(bm_feed, TEXT("{\"jsonrpc\":\"2.0\",\"method\":\"m\",\"id\":7}\n{\"jsonrpc\":\"2.0\",\"method\":\"n\"}\n"));
    tell(BM_CALL);
    tell(BM_CALL);
    for (size_t i = 0; i < sizeof wrong / sizeof *wrong; i++) {
        REFUSED(BM_NOT_OPEN, bm_answer, wrong[i], TEXT("1"));
        REFUSED(BM_NOT_OPEN, bm_answer, wrong[i], NONE);
        REFUSED(BM_NOT_OPEN, bm_fail, wrong[i], 5, TEXT("m"), NONE);
        REFUSED(BM_NOT_OPEN, bm_cancel, wrong[i]);
        REFUSED(BM_NOT_WAITING, bm_withdraw, wrong[i]);
    }
    REFUSED(BM_NOT_OPEN, bm_call, 3, TEXT("m"), NONE, &key);
    REFUSED(BM_NOT_OPEN, bm_call_batch, 3, NONE, (size_t[]){0}, 0, &key);
    /* what is closed isn't open, and a key that is withdrawn doesn't wait */
    BOTH(bm_answer, 2, NONE);
    REFUSED(BM_NOT_OPEN, bm_answer, 2, NONE);
    check(bm_call(&tried, 1, TEXT("ask"), NONE, &ours) == BM_OK && bm_call(&twin, 1, TEXT("ask"), NONE, &its) == BM_OK,
          __LINE__, "bm_call");
    check(ours == 1 && its == 1, __LINE__, "a key");
    BOTH(bm_withdraw, 1);
    REFUSED(BM_NOT_WAITING, bm_withdraw, 1);
    BOTH(bm_cancel, 1);
    REFUSED(BM_NOT_OPEN, bm_cancel, 1);
    REFUSED(BM_NOT_OPEN, bm_call, 1, TEXT("ask"), NONE, &key);
    check(key == 77, __LINE__, "a refused call has written a key");
    end_both();
    /* without cancels nothing is withdrawn */
    begin(BM_LINES, BM_CANCELS_NONE, 0);
    check(bm_call(&tried, 0, TEXT("a"), NONE, &key) == BM_OK && bm_call(&twin, 0, TEXT("a"), NONE, &key) == BM_OK,
          __LINE__, "bm_call");
    REFUSED(BM_NOT_WAITING, bm_withdraw, 1);
    end_both();
}

static void batches(void)
{
    static const uint8_t bytes[] = "ab[1]";
    uint64_t first = 77;
    begin(BM_LINES, BM_CANCELS_LSP, 0);
    REFUSED(BM_EMPTY, bm_call_batch, 0, NONE, (size_t[]){0}, 0, &first);
    REFUSED(BM_SETTINGS, bm_call_batch, 0, bytes, 5, ((size_t[]){1, 0, 4}), 3, &first);
    REFUSED(BM_SETTINGS, bm_call_batch, 0, bytes, 5, ((size_t[]){1, 0, 1, 2}), 4, &first);
    REFUSED(BM_SETTINGS, bm_call_batch, 0, bytes, 5, ((size_t[]){1, 0, 1, 4}), 4, &first);
    REFUSED(BM_SETTINGS, bm_call_batch, 0, bytes, 5, ((size_t[]){1, SIZE_MAX, 1, 4}), 4, &first);
    REFUSED(BM_SETTINGS, bm_call_batch, 0, bytes, 5, ((size_t[]){SIZE_MAX, 6}), 2, &first);
    REFUSED(BM_SETTINGS, bm_call_batch, 0, NONE, ((size_t[]){1, 0}), 2, &first);
    REFUSED(BM_SETTINGS, bm_call_batch, 0, bytes, 5, (size_t[]){0}, 0, &first);
    /* before all else */
    REFUSED(BM_SETTINGS, bm_call_batch, 9, TEXT("\xff"), ((size_t[]){1}), 1, &first);
    /* a method's fault comes before one of params, whichever call has it */
    REFUSED(BM_NOT_TEXT, bm_call_batch, 0, TEXT("a5\xff"), ((size_t[]){1, 1, 1, 0}), 4, &first);
    check(first == 77, __LINE__, "a refused call has written a key");
    BOTH(bm_call_batch, 0, bytes, 5, ((size_t[]){1, 0, 1, 3}), 4, &first);
    check(first == 1, __LINE__, "a key");
    end_both();
}

/* Lengths of 0 that are right: a method and a message of no bytes, and a feed of none. */
static void lengths_of_0(void)
{
    uint64_t key;
    begin(BM_LINES, BM_CANCELS_LSP, 0);
    BOTH(bm_feed, NONE);
    tell(BM_NONE);
    BOTH(bm_notify, NONE, NONE);
    BOTH(bm_call, 0, NONE, NONE, &key);
    BOTH(bm_call_batch, 0, NONE, ((size_t[]){0, 0}), 2, &key);
    BOTH(bm_feed, TEXT("{\"jsonrpc\":\"2.0\",\"method\":\"\",\"id\":\"\"}\n"));
    tell(BM_CALL);
    BOTH(bm_fail, 1, 0, NONE, NONE);
    end_both();
    /* a content of no bytes is one, which can't be read */
    begin(BM_CONTENTS, BM_CANCELS_LSP, 0);
    BOTH(bm_feed, NONE);
    tell(BM_NONE);
    static const char answer[] =
        "{\"error\":{\"code\":-32700,\"message\":\"Parse error\"},\"id\":null,\"jsonrpc\":\"2.0\"}";
    check(bm_pending(&tried) == sizeof answer - 1, __LINE__, "no answer to a content of no bytes");
    end_both();
}

/* Where a length or a count is 0, the pointer may be NULL: it does what it does with another one. */
#define WITH_NULL(null, other)                                                                                         \
    do {                                                                                                               \
        check((null) == (other), __LINE__, "NULL gives another code");                                                 \
        look_alike(__LINE__);                                                                                          \
    } while (0)

#define NO_BYTES NULL, 0

static void nulls(void)
{
    uint64_t ours = 77, its = 77;
    size_t refused_ours = 77, refused_its = 77;
    bm_saying empty = {.kind = BM_SAY_NOTIFY}, same = empty;
    static const char call[] = "{\"jsonrpc\":\"2.0\",\"method\":\"m\",\"id\":1}\n";
    begin(BM_LINES, BM_CANCELS_LSP, 0);
    for (int i = 0; i < 3; i++) {
        BOTH(bm_feed, (const uint8_t *)call, sizeof call - 1);
        tell(BM_CALL);
    }
    BOTH(bm_feed, TEXT("{\"jsonrpc\":\"2.0\",\"method\":\"n\"}\n"));
    tell(BM_CALL);
    WITH_NULL(bm_feed(&tried, NO_BYTES), bm_feed(&twin, NONE));
    WITH_NULL(bm_call(&tried, 1, NO_BYTES, NO_BYTES, &ours), bm_call(&twin, 1, NONE, NONE, &its));
    WITH_NULL(bm_call(&tried, 1, TEXT("m"), NO_BYTES, &ours), bm_call(&twin, 1, TEXT("m"), NONE, &its));
    WITH_NULL(bm_call(&tried, 1, NO_BYTES, TEXT("[1]"), &ours), bm_call(&twin, 1, NONE, TEXT("[1]"), &its));
    WITH_NULL(bm_call_batch(&tried, 0, NO_BYTES, ((size_t[]){0, 0}), 2, &ours),
              bm_call_batch(&twin, 0, NONE, ((size_t[]){0, 0}), 2, &its));
    WITH_NULL(bm_call_batch(&tried, 0, NO_BYTES, NULL, 0, &ours),
              bm_call_batch(&twin, 0, NONE, (size_t[]){0}, 0, &its));
    check(ours == its && ours == 4, __LINE__, "keys");
    WITH_NULL(bm_notify(&tried, NO_BYTES, NO_BYTES), bm_notify(&twin, NONE, NONE));
    WITH_NULL(bm_notify(&tried, TEXT("m"), NO_BYTES), bm_notify(&twin, TEXT("m"), NONE));
    WITH_NULL(bm_answer(&tried, 1, NO_BYTES), bm_answer(&twin, 1, NONE));
    WITH_NULL(bm_answer(&tried, 4, NO_BYTES), bm_answer(&twin, 4, NONE));
    WITH_NULL(bm_fail(&tried, 1, 5, NO_BYTES, NO_BYTES), bm_fail(&twin, 1, 5, NONE, NONE));
    WITH_NULL(bm_fail(&tried, 2, 5, TEXT("m"), NO_BYTES), bm_fail(&twin, 2, 5, TEXT("m"), NONE));
    WITH_NULL(bm_fail(&tried, 3, 5, NO_BYTES, TEXT("1")), bm_fail(&twin, 3, 5, NONE, TEXT("1")));
    WITH_NULL(bm_say_all(&tried, NULL, 0, NO_BYTES, &refused_ours), bm_say_all(&twin, &same, 0, NONE, &refused_its));
    check(!refused_ours && !refused_its, __LINE__, "what is refused of nothing");
    WITH_NULL(bm_say_all(&tried, &empty, 1, NO_BYTES, &refused_ours), bm_say_all(&twin, &same, 1, NONE, &refused_its));
    check(!refused_ours && empty.said == BM_OK, __LINE__, "a notification of no bytes is sent");
    WITH_NULL(bm_say_all(&tried, NULL, 0, TEXT("1"), &refused_ours),
              bm_say_all(&twin, &same, 0, TEXT("1"), &refused_its));
    end_both();
    /* a content of no bytes is one */
    begin(BM_CONTENTS, BM_CANCELS_NONE, 0);
    WITH_NULL(bm_feed(&tried, NO_BYTES), bm_feed(&twin, NONE));
    tell(BM_NONE);
    check(bm_pending(&tried) > 0, __LINE__, "no answer to a content of no bytes");
    end_both();
}

/* How much of what is lent may be said to be written. */
static void loans_of_output(uint32_t framing)
{
    const uint8_t *bytes, *again;
    bool in_contents = framing == BM_CONTENTS;
    begin(framing, BM_CANCELS_NONE, 0);
    check(bm_output(&tried, &bytes) == 0 && bm_output(&twin, &bytes) == 0, __LINE__, "bm_output of nothing");
    REFUSED(BM_SETTINGS, bm_written, 1);
    BOTH(bm_written, 0);
    BOTH(bm_notify, TEXT("one"), NONE);
    BOTH(bm_notify, TEXT("two"), NONE);
    /* it is to be written, and not lent yet */
    REFUSED(BM_SETTINGS, bm_written, 1);
    size_t lent = bm_output(&tried, &bytes);
    check(0 < lent && lent <= bm_pending(&tried), __LINE__, "bm_output");
    REFUSED(BM_SETTINGS, bm_written, lent + 1);
    REFUSED(BM_SETTINGS, bm_written, bm_pending(&tried) + 1);
    REFUSED(BM_SETTINGS, bm_written, SIZE_MAX);
    check(bm_output(&tried, &again) == lent && again == bytes, __LINE__, "it lends other bytes");
    if (in_contents) {
        REFUSED(BM_SETTINGS, bm_written, 1);
        REFUSED(BM_SETTINGS, bm_written, lent - 1);
    }
    check(bm_output(&twin, &again) == lent, __LINE__, "bm_output");
    BOTH(bm_written, 0);
    check(bm_output(&tried, &bytes) == lent && bm_output(&twin, &again) == lent, __LINE__, "nothing was written");
    size_t part = in_contents ? lent : 1;
    BOTH(bm_written, part);
    /* what was written isn't written twice */
    REFUSED(BM_SETTINGS, bm_written, lent);
    if (!in_contents) {
        check(bm_output(&tried, &bytes) == lent - 1 && bm_output(&twin, &again) == lent - 1, __LINE__, "the rest");
        BOTH(bm_written, lent - 1);
    }
    REFUSED(BM_SETTINGS, bm_written, 1);
    end_both();
}

static void ends(void)
{
    uint64_t key = 77;
    begin(BM_FRAMES, BM_CANCELS_LSP, 100);
    REFUSED(BM_SETTINGS, bm_end, 2);
    REFUSED(BM_SETTINGS, bm_end, UINT32_MAX);
    BOTH(bm_feed, TEXT("Content-Length: 37\r\n\r\n{\"jsonrpc\":\"2.0\",\"method\":\"m\",\"id\":7}"));
    BOTH(bm_end, BM_CLOSED);
    REFUSED(BM_OVER, bm_end, BM_CLOSED);
    REFUSED(BM_OVER, bm_end, BM_READ_FAILED);
    REFUSED(BM_SETTINGS, bm_end, 7);
    REFUSED(BM_OVER, bm_feed, TEXT("x"));
    REFUSED(BM_OVER, bm_feed, NONE);
    tell(BM_CALL);
    tell(BM_INPUT_OVER);
    REFUSED(BM_OVER, bm_call, 0, TEXT("m"), NONE, &key);
    REFUSED(BM_OVER, bm_call, 1, TEXT("m"), NONE, &key);
    REFUSED(BM_OVER, bm_call_batch, 1, TEXT("m"), ((size_t[]){1, 0}), 2, &key);
    REFUSED(BM_OVER, bm_call_batch, 0, NONE, (size_t[]){0}, 0, &key);
    REFUSED(BM_NOT_JSON, bm_call, 1, TEXT("m"), TEXT("1"), &key);
    check(key == 77, __LINE__, "a refused call has written a key");
    BOTH(bm_notify, TEXT("m"), NONE);
    BOTH(bm_answer, 1, TEXT("1"));
    end_both();
    /* after a fault of the input bytes are taken and ignored, and it may be ended once */
    begin(BM_FRAMES, BM_CANCELS_LSP, 100);
    BOTH(bm_feed, TEXT("Content-Length: 101\r\n\r\n"));
    tell(BM_INPUT_OVER);
    BOTH(bm_feed, TEXT("Content-Length: 2\r\n\r\n{}"));
    tell(BM_NONE);
    BOTH(bm_end, BM_CLOSED);
    REFUSED(BM_OVER, bm_end, BM_CLOSED);
    end_both();
}

/* ---- several things in one call */

/* Says the same on both, and gives how many were refused. */
static size_t say_both(bm_saying *sayings, size_t count, const uint8_t *bytes, size_t length)
{
    size_t ours, its;
    bm_saying again[8];
    memcpy(again, sayings, count * sizeof *again);
    check(bm_say_all(&tried, sayings, count, bytes, length, &ours) == BM_OK, __LINE__, "bm_say_all");
    check(bm_say_all(&twin, again, count, bytes, length, &its) == BM_OK, __LINE__, "bm_say_all");
    check(!memcmp(again, sayings, count * sizeof *again) && ours == its, __LINE__, "others");
    return ours;
}

/* What one saying is refused by. */
static void refused_saying(int32_t wanted, bm_saying it, const char *bytes, int line)
{
    bm_saying before = it;
    size_t said, pending = bm_pending(&tried);
    check(bm_say_all(&tried, &it, 1, (const uint8_t *)bytes, strlen(bytes), &said) == BM_OK, line, "bm_say_all");
    check(said == 1 && bm_pending(&tried) == pending, line, "what came of it");
    before.said = it.said;
    check(!memcmp(&it, &before, sizeof it), line, "a refused saying has written more than its code");
    refused(wanted, it.said, line);
}

static void wrong_lengths(void)
{
    static const struct {
        size_t name_len, text_len, other_len;
    } wrong[] = {{1, 0, 0},        {0, 3, 0},        {1, 1, 1},        {SIZE_MAX, 0, 0},
                 {SIZE_MAX, 3, 0}, {1, SIZE_MAX, 0}, {1, 1, SIZE_MAX}, {0, 0, 0}};
    for (size_t i = 0; i < sizeof wrong / sizeof *wrong; i++) {
        bm_saying all[] = {{.kind = BM_SAY_NOTIFY, .name_len = wrong[i].name_len, .text_len = wrong[i].text_len},
                           {.kind = 9, .name_len = wrong[i].other_len}};
        bm_saying before[] = {all[0], all[1]};
        size_t said = 77;
        REFUSED(BM_SETTINGS, bm_say_all, all, 2, TEXT("m9"), &said);
        check(!memcmp(all, before, sizeof all) && said == 77, __LINE__, "it has written");
    }
}

static void sayings(void)
{
    begin(BM_LINES, BM_CANCELS_LSP, 0);
    BOTH(bm_feed, TEXT("[{\"jsonrpc\":\"2.0\",\"method\":\"m\",\"id\":1},{\"jsonrpc\":\"2.0\",\"method\":\"n\"}]\n"));
    tell(BM_CALL);
    tell(BM_CALL);
    wrong_lengths();
    for (uint32_t kind = 0; kind < 20; kind = kind ? kind + 1 : BM_SAY_CANCEL + 1)
        refused_saying(BM_SETTINGS, (bm_saying){.kind = kind, .number = 1}, "", __LINE__);
    refused_saying(BM_NOT_OPEN, (bm_saying){.kind = BM_SAY_ANSWER, .number = 3, .text_len = 1}, "1", __LINE__);
    refused_saying(BM_NOT_OPEN, (bm_saying){.kind = BM_SAY_FAIL, .number = 0, .name_len = 1}, "m", __LINE__);
    refused_saying(BM_NOT_OPEN, (bm_saying){.kind = BM_SAY_CLOSE, .number = 3}, "", __LINE__);
    refused_saying(BM_NOT_OPEN, (bm_saying){.kind = BM_SAY_CANCEL, .number = 3}, "", __LINE__);
    refused_saying(BM_NOT_OPEN, (bm_saying){.kind = BM_SAY_CALL, .number = 3, .key = 77, .name_len = 1}, "m", __LINE__);
    refused_saying(BM_NOT_WAITING, (bm_saying){.kind = BM_SAY_WITHDRAW, .key = 1}, "", __LINE__);
    refused_saying(BM_NOT_JSON, (bm_saying){.kind = BM_SAY_ANSWER, .number = 1}, "", __LINE__);
    refused_saying(BM_NOT_JSON, (bm_saying){.kind = BM_SAY_CLOSE, .number = 1, .text_len = 4}, "null", __LINE__);
    refused_saying(BM_NOT_JSON, (bm_saying){.kind = BM_SAY_NOTIFY, .name_len = 1, .text_len = 1}, "m1", __LINE__);
    refused_saying(BM_NOT_TEXT, (bm_saying){.kind = BM_SAY_NOTIFY, .name_len = 1}, "\xff", __LINE__);
    refused_saying(BM_EMPTY, (bm_saying){.kind = BM_SAY_BATCH, .key = 77}, "", __LINE__);
    /* a batch of more calls than there are says none of them, and those behind it aren't said either */
    bm_saying few[] = {{.kind = BM_SAY_BATCH, .calls = 3, .key = 77},
                       {.kind = BM_SAY_NOTIFY, .name_len = 1},
                       {.kind = BM_SAY_NOTIFY, .name_len = 1}};
    size_t said = say_both(few, 3, TEXT("mn"));
    check(few[0].said == BM_SETTINGS && few[0].key == 77 && said == 1, __LINE__, "few calls");
    check(!bm_pending(&tried), __LINE__, "few calls");
    bm_saying most = {.kind = BM_SAY_BATCH, .calls = SIZE_MAX};
    refused_saying(BM_SETTINGS, most, "", __LINE__);
    REFUSED(BM_NOT_JSON, bm_close_call, 1);
    BOTH(bm_close_call, 2);
    REFUSED(BM_NOT_OPEN, bm_close_call, 2);
    /* one that is refused holds up none behind it */
    bm_saying all[] = {{.kind = BM_SAY_NOTIFY, .name_len = 1},
                       {.kind = BM_SAY_CLOSE, .number = 2},
                       {.kind = BM_SAY_CALL, .name_len = 1, .text_len = 2},
                       {.kind = BM_SAY_BATCH, .calls = 2},
                       {.name_len = 1},
                       {.name_len = 1},
                       {.kind = BM_SAY_ANSWER, .number = 1, .text_len = 1}};
    said = say_both(all, 7, TEXT("ab[]cd7"));
    check(said == 1 && all[1].said == BM_NOT_OPEN && all[0].said == BM_OK, __LINE__, "codes");
    check(all[2].key == 1 && all[3].key == 2 && all[6].said == BM_OK, __LINE__, "keys");
    bm_report now;
    bm_counts(&tried, &now);
    check(now.own_calls == 3 && now.open == 0 && now.answers_written == 1, __LINE__, "what was said");
    end_both();
}

int main(void)
{
    sayings();
    options();
    options_of_a_judge();
    cancels_of_mcp();
    places();
    long_batches();
    usual_batches();
    long_contents();
    null_params();
    texts();
    numbers_and_keys();
    batches();
    lengths_of_0();
    nulls();
    for (uint32_t framing = BM_FRAMES; framing <= BM_CONTENTS; framing++)
        loans_of_output(framing);
    ends();
    for (int code = BM_NOT_OPEN; code < BM_FULL; code++)
        printf("code %d: %lu refusals\n", code, refusals[code]);
    return 0;
}
