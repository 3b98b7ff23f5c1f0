/* What the limit and the model do in the same way, beside the pass over JSON (scan.h): they keep texts where they lie,
 * read frames and the entries in them, and write answers. */
#ifndef MESSAGES_H
#define MESSAGES_H

#include "scan.h"

#include <stdlib.h>

/* Ends the program, with a line that says why. By what includes this. */
static void fail(const char *why);

/* Where what stands at `at` is kept. By what includes this. */
static inline const uint8_t *kept_at(const uint8_t *at, const scanned *seen);

typedef struct {
    const uint8_t *at;
    size_t length;
} text;

#define TEXT(it) ((text){(const uint8_t *)(it), sizeof(it) - 1})

static inline bool is(text it, text other)
{
    return it.length == other.length && !memcmp(it.at, other.at, it.length);
}

/* ---- memory */

/* Bytes of which those before `from` are over. A frame under way begins with room for so many bytes of a head. */
typedef struct {
    uint8_t *bytes;
    size_t from, to, size, head;
} buffer;

static inline void *sized(void *old, size_t size)
{
    void *made = realloc(old, size);
    if (!made)
        fail("out of memory");
    return made;
}

/* Room for so many bytes, and PAD, from `to` on, which may move. */
static inline uint8_t *room_from(buffer *it, uint8_t *to, size_t more)
{
    size_t used = it->bytes ? (size_t)(to - it->bytes) : 0;
    if (used + more + PAD > it->size)
        it->bytes = sized(it->bytes, it->size = 2 * (used + more + PAD));
    return it->bytes + used;
}

static inline uint8_t *room(buffer *it, size_t more)
{
    return room_from(it, it->bytes + it->to, more);
}

/* ---- what is written */

static inline uint8_t *put(uint8_t *to, text it)
{
    memcpy(to, it.at, it.length);
    return to + it.length;
}

static inline size_t digits_in(uint64_t value)
{
    size_t count = 1;
    while (value >= 10) {
        value /= 10;
        count++;
    }
    return count;
}

static inline uint8_t *put_number(uint8_t *to, int64_t value)
{
    uint64_t left = value < 0 ? 0 - (uint64_t)value : (uint64_t)value;
    *to = '-';
    to += value < 0;
    uint8_t *end = to + digits_in(left), *at = end;
    do
        *--at = (uint8_t)('0' + left % 10);
    while ((left /= 10) > 0);
    return end;
}

#define HEAD "Content-Length: "
#define HEAD_END "\r\n\r\n"

static inline size_t head_length(size_t length)
{
    return sizeof HEAD - 1 + digits_in(length) + sizeof HEAD_END - 1;
}

/* Begins a frame of at most so many bytes, behind room for its head. */
static inline uint8_t *begin(buffer *out, size_t most)
{
    out->head = head_length(most);
    return room(out, out->head + most) + out->head;
}

/* Ends a frame: its head goes before it. It is moved where it is that much shorter that its head is, too. */
static inline void finish(buffer *out, uint8_t *end)
{
    uint8_t *start = out->bytes + out->to, *first = start + out->head;
    size_t length = (size_t)(end - first), head = head_length(length);
    if (head != out->head)
        memmove(start + head, first, length);
    put(put_number(put(start, TEXT(HEAD)), (int64_t)length), TEXT(HEAD_END));
    out->to += head + length;
}

/* Up to a result, behind which a closing brace stands. */
static inline uint8_t *put_before_result(uint8_t *to, text id)
{
    return put(put(put(to, TEXT("{\"id\":")), id), TEXT(",\"jsonrpc\":\"2.0\",\"result\":"));
}

/* Up to an error, and behind it. */
#define BEFORE_ERROR "{\"error\":"

static inline uint8_t *put_behind_error(uint8_t *to, text id)
{
    return put(put(put(to, TEXT(",\"id\":")), id), TEXT(",\"jsonrpc\":\"2.0\"}"));
}

static inline uint8_t *put_error(uint8_t *to, text id, text error)
{
    return put_behind_error(put(put(to, TEXT(BEFORE_ERROR)), error), id);
}

#define INVALID_REQUEST "{\"code\":-32600,\"message\":\"Invalid Request\"}"
#define PARSE_ERROR "{\"code\":-32700,\"message\":\"Parse error\"}"

/* Answers what has no id that could be read. */
static inline void refuse_unnamed(buffer *out, text error)
{
    enum { ANSWER = 128 };
    finish(out, put_error(begin(out, ANSWER), TEXT("null"), error));
}

/* Up to the method of a call of ours. */
static inline uint8_t *put_before_method(uint8_t *to, uint64_t key)
{
    return put(put_number(put(to, TEXT("{\"id\":")), (int64_t)key), TEXT(",\"jsonrpc\":\"2.0\",\"method\":"));
}

/* Withdraws a call of ours. */
static inline void withdraw(buffer *out, uint64_t key)
{
    enum { NOTICE = 96 };
    text before = TEXT("{\"jsonrpc\":\"2.0\",\"method\":\"$/cancelRequest\",\"params\":{\"id\":");
    finish(out, put(put_number(put(begin(out, NOTICE), before), (int64_t)key), TEXT("}}")));
}

/* ---- what came */

/* Behind the head of a frame, with the length that it says, or NULL where it isn't whole. It is the usual one. */
static inline uint8_t *frame_head_end(uint8_t *at, const uint8_t *end, size_t *length)
{
    if ((size_t)(end - at) < sizeof HEAD)
        return NULL;
    if (memcmp(at, HEAD, sizeof HEAD - 1))
        fail("a head that isn't the usual one");
    *length = 0;
    for (at += sizeof HEAD - 1; at < end && is_digit(*at); at++)
        *length = 10 * *length + *at - '0';
    if ((size_t)(end - at) < sizeof HEAD_END - 1)
        return NULL;
    if (memcmp(at, HEAD_END, sizeof HEAD_END - 1))
        fail("a head that isn't the usual one");
    return at + sizeof HEAD_END - 1;
}

/* An entry's members, each where it is kept, and of no bytes where it isn't there. */
typedef struct {
    text id, method, params, result, error;
    bool is_object, is_version_2, has_blanks;
} entry;

/* Takes a member with the value that came, and that which is kept. */
static inline void take_member(entry *it, text name, text came, text value)
{
    if (is(name, TEXT("\"id\"")))
        it->id = value;
    else if (is(name, TEXT("\"method\"")))
        it->method = value;
    else if (is(name, TEXT("\"params\"")))
        it->params = value;
    else if (is(name, TEXT("\"result\"")))
        it->result = value;
    else if (is(name, TEXT("\"error\"")))
        it->error = value;
    else if (is(name, TEXT("\"jsonrpc\"")))
        it->is_version_2 = is(came, TEXT("\"2.0\""));
}

static inline const uint8_t *value_end(const uint8_t *at, const uint8_t *end, int levels, scanned *seen)
{
    return *at == '[' || *at == '{' ? scan(at, end, levels, seen) : plain_end(at, end, seen);
}

/* Reads the member that begins at `at`, and gives what is behind it, or NULL. */
static inline const uint8_t *read_member(const uint8_t *at, const uint8_t *end, int levels, entry *it, scanned *seen)
{
    const uint8_t *name = at;
    if (*at != '"' || !(at = string_end(at + 1, end, seen)))
        return NULL;
    size_t name_length = (size_t)(at - name);
    at = blanks_end(at, seen);
    if (*at != ':')
        return NULL;
    const uint8_t *value = at = blanks_end(at + 1, seen), *kept = kept_at(value, seen);
    if (!(at = value_end(at, end, levels, seen)))
        return NULL;
    text came = {value, (size_t)(at - value)};
    take_member(it, (text){name, name_length}, came, (text){kept, (size_t)(kept_at(at, seen) - kept)});
    return at;
}

/* Reads the entry that begins at `at`, with no blank before it, and gives what is behind it, or NULL. */
static inline const uint8_t *read_entry(const uint8_t *at, const uint8_t *end, int levels, entry *it, scanned *seen)
{
    memset(it, 0, sizeof *it);
    it->is_object = *at == '{';
    if (!it->is_object)
        return value_end(at, end, levels, seen);
    at = blanks_end(at + 1, seen);
    if (*at == '}')
        return at + 1;
    for (;; at = blanks_end(at + 1, seen)) {
        if (!(at = read_member(at, end, levels - 1, it, seen)))
            return NULL;
        at = blanks_end(at, seen);
        it->has_blanks = seen->blanks;
        if (*at == '}')
            return at + 1;
        if (*at != ',')
            return NULL;
    }
}

/* Whether a content that ended at `at`, if it did, is over and UTF-8. */
static inline bool is_over(const uint8_t *from, const uint8_t *at, const uint8_t *end, scanned *seen)
{
    return at && blanks_end(at, seen) == end && (!seen->high || is_utf8(from, end));
}

/* A string or a whole number. */
static inline bool is_name(text it)
{
    if (*it.at == '"')
        return true;
    if (!it.length || it.length > 20 || is(it, TEXT("-0")))
        return false;
    const uint8_t *at = it.at + (*it.at == '-');
    while (at < it.at + it.length && is_digit(*at))
        at++;
    return at == it.at + it.length && is_digit(at[-1]);
}

static inline bool is_call(const entry *it)
{
    bool has_id = !it->id.length || is(it->id, TEXT("null")) || is_name(it->id);
    bool has_params = !it->params.length || *it->params.at == '[' || *it->params.at == '{' || *it->params.at == 'n';
    return it->is_object && it->is_version_2 && it->method.length && *it->method.at == '"' && has_id && has_params;
}

static inline bool is_reply(const entry *it)
{
    return it->is_object && !it->method.length && (it->result.length || it->error.length);
}

/* The key that a reply names, or 0. */
static inline uint64_t key_of(text id)
{
    uint64_t key = 0;
    for (size_t i = 0; i < id.length; i++) {
        if (!is_digit(id.at[i]) || i > 15)
            return 0;
        key = 10 * key + id.at[i] - '0';
    }
    return key;
}

/* The id of the request that a cancel names, or no text. */
static inline text cancelled_id(text params, scanned *seen)
{
    entry it;
    if (!params.length || *params.at != '{')
        return (text){NULL, 0};
    read_entry(params.at, params.at + params.length, DEPTH, &it, seen);
    return it.id;
}
#endif
