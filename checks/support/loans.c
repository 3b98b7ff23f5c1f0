/* What the library lends: the texts of an event, and what is to be written. Both keep their place and their bytes over
 * all calls that don't end the loan, and may be passed to these calls, whole or in parts. Of two connections one is
 * passed what it lends, and the other one copies of that; both give the same codes and write the same. valgrind and
 * AddressSanitizer see whether all that is lent is still there. */
#include "bullmyrtle.h"

#include <stddef.h>
#include <stdio.h>
#include <stdlib.h>
#include <string.h>

/* (a text of more than 64 KiB is moved, and not copied) */
enum { TIMES = 3, ANSWERS = 5, CODES = 200, LONG = 70000, LARGEST = 16777000, FEW = 300 };

static void check(bool is_so, const char *what)
{
    if (!is_so) {
        fprintf(stderr, "loans: %s\n", what);
        exit(1);
    }
}

typedef struct {
    uint8_t *at;
    size_t length, room;
} bytes;

static void add(bytes *to, const void *from, size_t length)
{
    if (to->room < to->length + length) {
        to->room = 2 * to->length + length;
        to->at = realloc(to->at, to->room);
        check(to->at, "memory");
    }
    if (length)
        memcpy(to->at + to->length, from, length);
    to->length += length;
}

static bytes copy_of(const uint8_t *from, size_t length)
{
    bytes made = {NULL, 0, 0};
    add(&made, from, length);
    return made;
}

static void add_text(bytes *to, const char *text)
{
    add(to, text, strlen(text));
}

/* ---- what is lent by the one that is tried, with copies of it */

static bm_connection tried, twin;
static uint32_t framing;

enum { NAME, TEXT, ID, PARTS };
static const uint8_t *places[PARTS];
static bytes copies[PARTS];
static bool holds_output;
static const uint8_t *output_place;
static bytes output_copy;

static void look(void)
{
    for (int i = 0; i < PARTS; i++)
        check(!copies[i].length || !memcmp(places[i], copies[i].at, copies[i].length), "a text has changed");
    if (!holds_output)
        return;
    const uint8_t *at;
    check(bm_output(&tried, &at) == output_copy.length, "it lends another part of the output");
    check(at == output_place && !memcmp(at, output_copy.at, output_copy.length), "the output has changed");
}

static int32_t looked(int32_t code)
{
    look();
    return code;
}

static void end_texts(void)
{
    look();
    for (int i = 0; i < PARTS; i++) {
        free(copies[i].at);
        copies[i] = (bytes){NULL, 0, 0};
    }
}

static void hold_texts(const bm_event *event)
{
    const size_t lengths[] = {event->name_len, event->text_len, event->id_len};
    const uint8_t *const lent[] = {event->name, event->text, event->id};
    for (int i = 0; i < PARTS; i++) {
        places[i] = lent[i];
        copies[i] = copy_of(lent[i], lengths[i]);
    }
}

static void hold_output(void)
{
    size_t length = bm_output(&tried, &output_place);
    check(length > 0, "nothing is lent");
    output_copy = copy_of(output_place, length);
    holds_output = true;
}

/* ---- both connections */

static void open_both(void)
{
    bm_options options = {.size = sizeof options, .framing = framing, .cancels = BM_CANCELS_LSP, .broken = 1};
    check(bm_open(&options, &tried.at) == BM_OK && bm_open(&options, &twin.at) == BM_OK, "bm_open");
}

static void feed(bytes content)
{
    bytes all = {NULL, 0, 0};
    char head[100];
    if (framing == BM_FRAMES)
        add(&all, head, (size_t)snprintf(head, sizeof head, "Content-Length: %zu\r\n\r\n", content.length));
    add(&all, content.at, content.length);
    if (framing == BM_LINES)
        add_text(&all, "\n");
    end_texts();
    check(bm_feed(&tried, all.at, all.length) == BM_OK && bm_feed(&twin, all.at, all.length) == BM_OK, "bm_feed");
    look();
    free(all.at);
}

static void feed_text(const char *text)
{
    bytes content = copy_of((const uint8_t *)text, strlen(text));
    feed(content);
    free(content.at);
}

/* The next event of both, whose texts are held. */
static bm_event next(uint32_t kind)
{
    bm_event event, its;
    memset(&event, 0xa5, sizeof event);
    end_texts();
    check(bm_next(&tried, &event) == BM_OK && bm_next(&twin, &its) == BM_OK, "bm_next");
    check(event.kind == kind && !memcmp(&event, &its, offsetof(bm_event, name)), "the event that is due");
    if (kind == BM_NONE) {
        static const bm_event none;
        check(!memcmp(&event, &none, offsetof(bm_event, name)), "where there is no event all is 0");
    }
    hold_texts(&event);
    look();
    return event;
}

/* Adds what is lent to what was written: all, or a byte in frames and lines. */
static bool write_some(bm_connection *connection, bytes *to, bool is_all)
{
    const uint8_t *at;
    size_t length = bm_output(connection, &at);
    if (!length)
        return false;
    if (!is_all && framing != BM_CONTENTS)
        length = 1;
    add(to, at, length);
    check(bm_written(connection, length) == BM_OK, "bm_written");
    return true;
}

static bytes ours, its;

static void write_few(void)
{
    for (int i = 0; i < FEW && !holds_output && write_some(&tried, &ours, false); i++)
        ;
    look();
}

static void end_both(void)
{
    if (holds_output) {
        look();
        free(output_copy.at);
        holds_output = false;
    }
    while (write_some(&tried, &ours, true)) {
    }
    while (write_some(&twin, &its, true)) {
    }
    look();
    check(ours.length == its.length && !memcmp(ours.at, its.at, its.length), "they write different bytes");
    end_texts();
    bm_free(tried);
    bm_free(twin);
    free(ours.at);
    free(its.at);
    ours = its = (bytes){NULL, 0, 0};
}

/* ---- all calls that leave what is lent as it is */

typedef struct {
    const uint8_t *at;
    size_t length;
} part;

/* Answers the requests from `number` on, each in another way. */
static size_t answer(bm_connection *to, const part *texts, uint64_t number, int32_t *codes)
{
    part name = texts[NAME], text = texts[TEXT], id = texts[ID], inner = text;
    if (text.length > 2)
        inner = (part){text.at + 1, text.length - 2};
    codes[0] = looked(bm_answer(to, number, text.at, text.length));
    codes[1] = looked(bm_answer(to, number + 1, inner.at, inner.length));
    codes[2] = looked(bm_answer(to, number + 2, id.at, id.length));
    codes[3] = looked(bm_fail(to, number + 3, 5, name.at, name.length, text.at, text.length));
    codes[4] = looked(bm_cancel(to, number + 4));
    return ANSWERS;
}

static size_t ask(bm_connection *to, const part *texts, int32_t *codes)
{
    part name = texts[NAME], text = texts[TEXT];
    uint64_t key = 0;
    size_t refused = 0, count = 0;
    bm_saying saying = {.kind = BM_SAY_NOTIFY, .text_len = text.length};
    codes[count++] = looked(bm_call(to, 0, name.at, name.length, text.at, text.length, &key));
    codes[count++] = looked(bm_withdraw(to, key));
    codes[count++] = looked(bm_notify(to, name.at, name.length, text.at, text.length));
    codes[count++] = looked(bm_call_batch(to, 0, text.at, text.length, (size_t[]){0, text.length}, 2, &key));
    codes[count++] = looked(bm_say_all(to, &saying, 1, text.at, text.length, &refused));
    codes[count++] = saying.said;
    return count;
}

static void ask_for_state(bm_connection *of)
{
    uint64_t offset;
    bm_report report;
    bm_counts(of, &report);
    look();
    bm_fault_at(of, &offset);
    look();
    check(!bm_is_done(of), "all is done");
    look();
    bm_pending(of);
    look();
    bm_held(of);
    look();
}

static void say_all(bm_connection *to, const part *texts, uint64_t number, int32_t *codes)
{
    for (int i = 0; i < TIMES; i++) {
        codes += ask(to, texts, codes);
        codes += answer(to, texts, number, codes);
        number += ANSWERS;
        ask_for_state(to);
        if (to == &tried)
            write_few();
    }
}

static void say_to_both(uint64_t number)
{
    int32_t our_codes[CODES] = {0}, its_codes[CODES] = {0};
    part lent[PARTS], copied[PARTS];
    for (int i = 0; i < PARTS; i++) {
        lent[i] = (part){places[i], copies[i].length};
        copied[i] = (part){copies[i].at, copies[i].length};
    }
    say_all(&tried, lent, number, our_codes);
    say_all(&twin, copied, number, its_codes);
    check(!memcmp(our_codes, its_codes, sizeof our_codes), "they give different codes");
}

/* ---- events */

/* An array of one string, of so many bytes. */
static bytes array_of(size_t length)
{
    bytes made = copy_of((const uint8_t *)"[\"", 2);
    char *letters = malloc(length);
    check(letters, "memory");
    memset(letters, 'a', length);
    add(&made, letters, length);
    add_text(&made, "\"]");
    free(letters);
    return made;
}

/* A content of two texts with an array between, and one behind. */
static void feed_long(const char *before, size_t length, const char *after)
{
    bytes content = copy_of((const uint8_t *)before, strlen(before)), array = array_of(length);
    add(&content, array.at, array.length);
    add_text(&content, after);
    feed(content);
    free(array.at);
    free(content.at);
}

static uint64_t call(bm_connection *from)
{
    uint64_t key = 0;
    check(looked(bm_call(from, 0, (const uint8_t *)"ask", 3, NULL, 0, &key)) == BM_OK, "bm_call");
    return key;
}

static void feed_kind(uint32_t kind, size_t length)
{
    bool is_error = length % 2;
    if (kind == BM_CALL)
        feed_long("{\"jsonrpc\":\"2.0\",\"method\":\"name\",\"params\":", length, ",\"id\":\"\\u0001 id\"}");
    else if (kind == BM_REPLIED && is_error)
        feed_long("{\"jsonrpc\":\"2.0\",\"id\":1,\"error\":{\"code\":-5,\"message\":\"a message\",\"data\":", length,
                  "}}");
    else if (kind == BM_REPLIED)
        feed_long("{\"jsonrpc\":\"2.0\",\"id\":1,\"result\":", length, "}");
    else
        feed_long("[1,", length, ",2");
}

/* Requests that are open, an event, and all calls while it is held. */
static void hold(uint32_t kind, size_t length, bool with_output)
{
    open_both();
    check(call(&tried) == 1 && call(&twin) == 1, "a key");
    if (with_output)
        hold_output();
    for (int i = 0; i < TIMES * ANSWERS; i++) {
        feed_text("{\"jsonrpc\":\"2.0\",\"method\":\"m\",\"id\":\"x\"}");
        next(BM_CALL);
    }
    feed_kind(kind, length);
    next(kind);
    check(copies[TEXT].length > 0, "the event has a text");
    say_to_both(1);
    if (kind == BM_CALL)
        check(bm_answer(&tried, TIMES * ANSWERS + 1, places[TEXT], copies[TEXT].length) == BM_OK &&
                  bm_answer(&twin, TIMES * ANSWERS + 1, copies[TEXT].at, copies[TEXT].length) == BM_OK,
              "its own text is its answer");
    next(BM_NONE);
    end_texts();
    check(bm_end(&tried, BM_CLOSED) == BM_OK && bm_end(&twin, BM_CLOSED) == BM_OK, "bm_end");
    look();
    next(BM_UNANSWERED);
    end_both();
}

/* A request as large as may be, answered by its own params; the answer is lent in blocks or as a whole. */
static void hold_largest(void)
{
    open_both();
    feed_kind(BM_CALL, LARGEST);
    next(BM_CALL);
    check(copies[TEXT].length == LARGEST + 4, "all of the params");
    check(looked(bm_answer(&tried, 1, places[TEXT], copies[TEXT].length)) == BM_OK, "bm_answer");
    check(bm_answer(&twin, 1, copies[TEXT].at, copies[TEXT].length) == BM_OK, "bm_answer");
    hold_output();
    feed_text("{\"jsonrpc\":\"2.0\",\"method\":\"m\"}");
    next(BM_CALL);
    check(looked(bm_close_call(&tried, 2)) == BM_OK && bm_close_call(&twin, 2) == BM_OK, "bm_close_call");
    next(BM_NONE);
    end_both();
}

/* A connection goes while all is lent. */
static void free_while_lent(void)
{
    open_both();
    check(call(&tried) == call(&twin), "a key");
    hold_output();
    feed_kind(BM_CALL, LONG);
    next(BM_CALL);
    end_texts();
    free(output_copy.at);
    holds_output = false;
    bm_free(tried);
    bm_free(twin);
}

int main(void)
{
    static const uint32_t kinds[] = {BM_CALL, BM_REPLIED, BM_BROKEN};
    for (framing = BM_FRAMES; framing <= BM_CONTENTS; framing++) {
        for (size_t i = 0; i < sizeof kinds / sizeof *kinds; i++)
            for (size_t length = 0; length < 2; length++) {
                hold(kinds[i], length, length);
                hold(kinds[i], LONG + length, !length);
            }
        hold_largest();
        free_while_lent();
    }
    return 0;
}
