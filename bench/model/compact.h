/* How the model passes over JSON (scan.h): on the way it makes a compact copy, in which escapes by a code stand as what
 * they mean. What stays as it came is copied run by run, and only once something was left out. */
#ifndef COMPACT_H
#define COMPACT_H

#include "../limit/messages.h"

/* A scan of a text, whose compact copy goes to a room of its own. */
static inline scanned scan_into(const uint8_t *at, uint8_t *copy)
{
    return (scanned){.to = copy, .kept = at};
}

static inline void copy_block(uint8_t *to, const uint8_t *from)
{
    _mm_storeu_si128((__m128i *)to, _mm_loadu_si128((const __m128i *)from));
}

/* Copies what stands before `at` and isn't copied yet. Up to 32 bytes go as two blocks: the rest is overwritten. */
static inline void copy_up_to(const uint8_t *at, scanned *seen)
{
    size_t length = (size_t)(at - seen->kept);
    if (length <= 32) {
        copy_block(seen->to, seen->kept);
        copy_block(seen->to + 16, seen->kept + 16);
    } else
        memcpy(seen->to, seen->kept, length);
    seen->to += length;
}

/* Copies what is left, and says whether there is a copy: else the text was compact. */
static inline bool has_copy(const uint8_t *from, const uint8_t *end, scanned *seen)
{
    if (seen->kept == from)
        return false;
    copy_up_to(end, seen);
    return true;
}

static inline const uint8_t *kept_at(const uint8_t *at, const scanned *seen)
{
    return seen->to + (at - seen->kept);
}

static inline void pass_blanks(const uint8_t *from, const uint8_t *behind, scanned *seen)
{
    copy_up_to(from, seen);
    seen->kept = behind;
}

static inline void pass_blanks_at(const uint8_t *at, uint64_t places, scanned *seen)
{
    for (; places; places &= places - 1) {
        const uint8_t *blank = at + __builtin_ctzll(places);
        pass_blanks(blank, blank + 1, seen);
    }
}

/* The character of a code, in UTF-8. */
static inline uint8_t *put_character(uint8_t *to, int code)
{
    int further = code < 0x80 ? 0 : code < 0x800 ? 1 : code < 0x10000 ? 2 : 3;
    static const int marks[] = {0, 0xc0, 0xe0, 0xf0};
    *to++ = (uint8_t)(marks[further] | code >> 6 * further);
    while (further--)
        *to++ = (uint8_t)(0x80 | (code >> 6 * further & 63));
    return to;
}

/* A character that can't stand in a string as it is. */
static inline uint8_t *put_escaped(uint8_t *to, int code)
{
    static const char shorts[] = "btn\0fr", digits[] = "0123456789abcdef";
    bool is_short = code >= '\b' && code <= '\r' && shorts[code - '\b'];
    if (code >= ' ' || is_short) {
        uint8_t both[] = {'\\', (uint8_t)(is_short ? shorts[code - '\b'] : code)};
        return put(to, (text){both, sizeof both});
    }
    uint8_t all[] = {'\\', 'u', '0', '0', (uint8_t)digits[code >> 4], (uint8_t)digits[code & 15]};
    return put(to, (text){all, sizeof all});
}

static inline const uint8_t *pass_escape(const uint8_t *at, scanned *seen)
{
    int code = '/';
    const uint8_t *behind = at[1] == '/' ? at + 2 : code_end(at, &code);
    if (!behind)
        return NULL;
    copy_up_to(at, seen);
    bool is_plain = code >= ' ' && code != '"' && code != '\\';
    seen->to = is_plain ? put_character(seen->to, code) : put_escaped(seen->to, code);
    seen->kept = behind;
    return behind;
}
#endif
