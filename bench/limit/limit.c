/* The limit that bench/run measures beside the others: how little a host on the standard streams can take that still
 * reads and answers what JSON-RPC asks. It has the methods of the baseline's host: `add` answers with the sum of an
 * array of whole numbers, `give` with an array of as many times a value as its params say, and `ask` calls the other
 * side with its params and answers with the reply. Each content is validated in one pass, where its bytes lie, and
 * answered out of them (scan.h). Of a request nothing is kept but the id of an open `ask`.
 *
 * It is no peer to use: it takes frames with the usual head alone, in a batch it takes requests without calls back, it
 * copies texts as they came but for their blanks, it knows no name that has an escape, it takes ids beyond 64 bits, and
 * nothing bounds its memory. */
#include "messages.h"

#include <stdio.h>
#include <unistd.h>

enum {
    PIECE = 65536,
    ANSWER = 256 /* what an answer has beside the texts that it takes from its request */
};

static buffer in, out;

static void fail(const char *why)
{
    fprintf(stderr, "limit: %s\n", why);
    exit(1);
}

/* ---- how it passes over JSON: all stays where it lies */

static inline void pass_blanks(const uint8_t *from, const uint8_t *behind, scanned *seen)
{
    (void)from, (void)behind;
    seen->blanks = true;
}

static inline void pass_blanks_at(const uint8_t *at, uint64_t places, scanned *seen)
{
    (void)at;
    seen->blanks |= places != 0;
}

static inline const uint8_t *pass_escape(const uint8_t *at, scanned *seen)
{
    int code;
    (void)seen;
    return at[1] == '/' ? at + 2 : code_end(at, &code);
}

static inline const uint8_t *kept_at(const uint8_t *at, const scanned *seen)
{
    (void)seen;
    return at;
}

/* ---- what is written */

static void flush(void)
{
    for (size_t done = 0; done < out.to;) {
        ssize_t count = write(STDOUT_FILENO, out.bytes + done, out.to - done);
        if (count < 0)
            fail("the output is gone");
        done += (size_t)count;
    }
    out.to = 0;
}

/* Begins a text of at most so many bytes. */
static uint8_t *begin_text(size_t most)
{
    if (out.to > PIECE)
        flush();
    return begin(&out, most);
}

/* Copies a value that was scanned without its blanks, and gives what is behind the copy. */
static uint8_t *copy_compact(uint8_t *to, const uint8_t *at, const uint8_t *end)
{
    scanned seen = {0};
    while (at < end) {
        if (*at == '"') {
            const uint8_t *behind = string_end(at + 1, end, &seen);
            to = put(to, (text){at, (size_t)(behind - at)});
            at = behind;
        } else {
            *to = *at;
            to += *at++ > ' ';
        }
    }
    return to;
}

/* A text that came, without its blanks. */
static inline uint8_t *put_said(uint8_t *to, text it, bool has_blanks)
{
    return has_blanks ? copy_compact(to, it.at, it.at + it.length) : put(to, it);
}

#define ERROR(to, id, it) put_error(to, id, TEXT(it))
#define INVALID_PARAMS "{\"code\":-32602,\"message\":\"Invalid params\"}"

/* ---- the methods */

static bool sum_of(text it, int64_t *sum)
{
    const uint8_t *at = it.at, *end = it.at + it.length;
    scanned seen = {0};
    *sum = 0;
    if (!it.length || *at++ != '[')
        return false;
    for (;;) {
        at = blanks_end(at, &seen);
        if (*at == ']')
            return at + 1 == end;
        bool is_negative = *at == '-';
        int64_t number = 0;
        at += is_negative;
        if (!is_digit(*at))
            return false;
        for (; is_digit(*at); at++)
            if (__builtin_mul_overflow(number, 10, &number) || __builtin_sub_overflow(number, *at - '0', &number))
                return false;
        if (is_negative && !number)
            return false;
        if ((!is_negative && __builtin_sub_overflow(0, number, &number)) || __builtin_add_overflow(*sum, number, sum))
            return false;
        at = blanks_end(at, &seen);
        at += *at == ',';
    }
}

/* Puts the answer to a request that calls nobody, and of a notification nothing. */
static uint8_t *put_answer(uint8_t *to, const entry *it)
{
    if (!is_call(it))
        return ERROR(to, TEXT("null"), INVALID_REQUEST);
    if (!it->id.length)
        return to;
    if (!is(it->method, TEXT("\"add\"")))
        return ERROR(to, it->id, "{\"code\":-32601,\"message\":\"Method not found\"}");
    int64_t sum;
    if (!sum_of(it->params, &sum))
        return ERROR(to, it->id, INVALID_PARAMS);
    return put(put_number(put_before_result(to, it->id), sum), TEXT("}"));
}

/* Answers with an array of so many times a value, by params `[N,VALUE]`. */
static void give(const entry *it)
{
    text list = it->params.length ? it->params : TEXT("[]");
    const uint8_t *at = list.at + 1, *end = list.at + list.length - 1;
    size_t count = 0;
    for (; is_digit(*at); at++)
        count = 10 * count + *at - '0';
    if (!count || *at != ',') {
        finish(&out, ERROR(begin_text(it->id.length + ANSWER), it->id, INVALID_PARAMS));
        return;
    }
    text item = {at, (size_t)(end - at)};
    uint8_t *to = put_before_result(begin_text(count * item.length + it->id.length + ANSWER), it->id), *first = to;
    while (count--)
        to = put_said(to, item, it->has_blanks);
    *first = '[';
    finish(&out, put(to, TEXT("]}")));
}

/* By the keys of our calls, the ids of the requests on whose behalf they are. */
static text *asked;
static size_t asked_size;
static uint64_t keys;

static void ask(const entry *it)
{
    uint64_t key = ++keys;
    if (key >= asked_size) {
        asked_size = 2 * asked_size + 64;
        asked = sized(asked, asked_size * sizeof *asked);
    }
    uint8_t *id = sized(NULL, it->id.length);
    memcpy(id, it->id.at, it->id.length);
    asked[key] = (text){id, it->id.length};
    uint8_t *to = put(put_before_method(begin_text(it->params.length + ANSWER), key), TEXT("\"confirm\""));
    if (it->params.length && *it->params.at != 'n')
        to = put_said(put(to, TEXT(",\"params\":")), it->params, it->has_blanks);
    finish(&out, put(to, TEXT("}")));
}

static void release(uint64_t key)
{
    free((void *)asked[key].at);
    asked[key].at = NULL;
}

static void take_reply(const entry *it)
{
    uint64_t key = key_of(it->id);
    if (!key || key > keys || !asked[key].at)
        return;
    text id = asked[key];
    uint8_t *to = begin_text(id.length + it->result.length + ANSWER);
    if (it->is_version_2 && it->result.length && (!it->error.length || *it->error.at == 'n'))
        to = put(put_said(put_before_result(to, id), it->result, it->has_blanks), TEXT("}"));
    else
        to = ERROR(to, id, "{\"code\":-32603,\"message\":\"Invalid reply\"}");
    finish(&out, to);
    release(key);
}

/* Withdraws the calls of the requests with the id that the params name, and answers these. What is cancelled came a
 * short while ago, so the latest is looked at first. */
static void cancel(const entry *it)
{
    scanned seen = {0};
    text id = cancelled_id(it->params, &seen);
    for (uint64_t key = keys; key; key--) {
        if (!asked[key].at || !is(asked[key], id))
            continue;
        withdraw(&out, key);
        finish(&out, ERROR(begin_text(id.length + ANSWER), id, "{\"code\":-32800,\"message\":\"Request cancelled\"}"));
        release(key);
        return;
    }
}

/* ---- contents */

static void take_entry(const entry *it)
{
    bool is_well = is_call(it), is_request = is_well && it->id.length;
    if (is_request && is(it->method, TEXT("\"ask\"")))
        ask(it);
    else if (is_request && is(it->method, TEXT("\"give\"")))
        give(it);
    else if (is_request || (!is_well && !is_reply(it)))
        finish(&out, put_answer(begin_text(it->id.length + ANSWER), it));
    else if (!is_well)
        take_reply(it);
    else if (is(it->method, TEXT("\"$/cancelRequest\"")))
        cancel(it);
}

/* Puts the answers to a batch's entries, each with a comma behind it, or gives NULL where it isn't JSON. */
static uint8_t *put_answers(uint8_t *to, const uint8_t **at, const uint8_t *end, scanned *seen)
{
    for (entry it;;) {
        if (!(*at = read_entry(*at, end, DEPTH - 1, &it, seen)))
            return NULL;
        to = room_from(&out, to, it.id.length + ANSWER);
        uint8_t *behind = put_answer(to, &it);
        if (behind != to)
            *behind++ = ',';
        to = behind;
        *at = blanks_end(*at, seen);
        if (**at == ']')
            return to;
        if (*(*at)++ != ',')
            return NULL;
        *at = blanks_end(*at, seen);
    }
}

static void take_batch(const uint8_t *from, const uint8_t *at, const uint8_t *end, scanned *seen)
{
    at = blanks_end(at + 1, seen);
    uint8_t *to = put(begin_text(ANSWER), TEXT("["));
    size_t place = (size_t)(to - out.bytes);
    bool is_empty = *at == ']';
    if (!is_empty)
        to = put_answers(to, &at, end, seen);
    if (!to || !is_over(from, at + 1, end, seen))
        refuse_unnamed(&out, TEXT(PARSE_ERROR));
    else if (is_empty)
        refuse_unnamed(&out, TEXT(INVALID_REQUEST));
    else if (to > out.bytes + place) {
        to[-1] = ']';
        finish(&out, to);
    }
}

static void take_content(const uint8_t *from, const uint8_t *end)
{
    scanned seen = {0};
    const uint8_t *at = blanks_end(from, &seen);
    if (*at == '[') {
        take_batch(from, at, end, &seen);
        return;
    }
    entry it;
    if (is_over(from, read_entry(at, end, DEPTH, &it, &seen), end, &seen))
        take_entry(&it);
    else
        refuse_unnamed(&out, TEXT(PARSE_ERROR));
}

/* ---- the streams */

/* Takes the frames that are whole, and gives how many bytes more are needed at least. */
static size_t take_frames(void)
{
    for (;;) {
        size_t length;
        uint8_t *end = in.bytes + in.to, *at = frame_head_end(in.bytes + in.from, end, &length);
        if (!at)
            return 1;
        if ((size_t)(end - at) < length)
            return length - (size_t)(end - at);
        uint8_t behind = at[length];
        at[length] = 0; /* (the scanner stops at it) */
        take_content(at, at + length);
        at[length] = behind;
        in.from = (size_t)(at + length - in.bytes);
    }
}

/* Reads more, where at least so many bytes are needed. */
static bool read_more(size_t needed)
{
    size_t more = needed > PIECE ? needed : PIECE;
    if (in.from) {
        memmove(in.bytes, in.bytes + in.from, in.to - in.from);
        in.to -= in.from;
        in.from = 0;
    }
    uint8_t *to = room(&in, more);
    ssize_t count = read(STDIN_FILENO, to, in.size - in.to - PAD);
    if (count <= 0)
        return false;
    in.to += (size_t)count;
    in.bytes[in.to] = 0;
    return true;
}

int main(void)
{
    size_t needed;
    do {
        needed = take_frames();
        flush();
    } while (read_more(needed));
    for (uint64_t key = 1; key <= keys; key++)
        if (asked[key].at)
            finish(&out, ERROR(begin_text(asked[key].length + ANSWER), asked[key],
                               "{\"code\":-32000,\"message\":\"No reply\"}"));
    flush();
    return 0;
}
