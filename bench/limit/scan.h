/* One pass over JSON. `scan` passes over one value and validates it (RFC 8259, but for UTF-8, at most so many levels
 * deep); `is_utf8` validates UTF-8, with AVX2 by the tables of Keiser and Lemire ("Validating UTF-8 In Less Than One
 * Instruction Per Byte").
 *
 * What includes it defines what is done with that which a compact text leaves out or writes another way: `pass_blanks`,
 * `pass_blanks_at` and `pass_escape`.
 *
 * It reads up to PAD bytes beyond what it is given. These have to be readable, and the first of them is 0. */
#ifndef SCAN_H
#define SCAN_H

#include <immintrin.h>
#include <stdbool.h>
#include <stddef.h>
#include <stdint.h>
#include <string.h>

enum { PAD = 64, DEPTH = 127 };

/* What was seen in what was scanned: blanks, and bytes beyond ASCII. And of what is made compact on the way, where the
 * copy goes on, and from where on nothing is copied yet. */
typedef struct {
    bool blanks, high;
    uint8_t *to;
    const uint8_t *kept;
} scanned;

/* What is done with the blanks that stand from one place to another. */
static inline void pass_blanks(const uint8_t *from, const uint8_t *behind, scanned *seen);

/* The same with single blanks behind a place, a bit for each. */
static inline void pass_blanks_at(const uint8_t *at, uint64_t places, scanned *seen);

/* The same with an escape by a code, or that of a slash: gives what is behind it, or NULL where it is none. */
static inline const uint8_t *pass_escape(const uint8_t *at, scanned *seen);

/* As many bytes at once as the target has: 32 with AVX2, 16 with SSE2. */
#if defined(__AVX2__)
enum { LANES = 32 };
typedef __m256i lanes;
#define LOAD(at) _mm256_loadu_si256((const lanes *)(at))
#define SPLAT(byte) _mm256_set1_epi8((char)(byte))
#define EQUAL _mm256_cmpeq_epi8
#define LEAST _mm256_min_epu8
#define EITHER _mm256_or_si256
#define LESS _mm256_sub_epi8
#define MASK(it) ((uint32_t)_mm256_movemask_epi8(it))
#else
enum { LANES = 16 };
typedef __m128i lanes;
#define LOAD(at) _mm_loadu_si128((const lanes *)(at))
#define SPLAT(byte) _mm_set1_epi8((char)(byte))
#define EQUAL _mm_cmpeq_epi8
#define LEAST _mm_min_epu8
#define EITHER _mm_or_si128
#define LESS _mm_sub_epi8
#define MASK(it) ((uint32_t)_mm_movemask_epi8(it))
#endif

/* The number that four hexadecimal digits say, or -1. */
static inline int hexadecimal(const uint8_t *at)
{
    int number = 0;
    for (int i = 0; i < 4; i++) {
        uint8_t byte = at[i], lower = byte | 32;
        if (byte >= '0' && byte <= '9')
            number = number * 16 + byte - '0';
        else if (lower >= 'a' && lower <= 'f')
            number = number * 16 + lower - 'a' + 10;
        else
            return -1;
    }
    return number;
}

/* Behind an escape by a code that begins with the backslash at `at`, or NULL. Half of a surrogate pair is none. */
static inline const uint8_t *code_end(const uint8_t *at, int *code)
{
    *code = hexadecimal(at + 2);
    if (*code < 0 || (*code >= 0xdc00 && *code < 0xe000))
        return NULL;
    if (*code < 0xd800 || *code >= 0xe000)
        return at + 6;
    if (at[6] != '\\' || at[7] != 'u')
        return NULL;
    int low = hexadecimal(at + 8);
    if (low < 0xdc00 || low >= 0xe000)
        return NULL;
    *code = 0x10000 + ((*code - 0xd800) << 10) + (low - 0xdc00);
    return at + 12;
}

/* Behind an escape that begins with the backslash at `at`, or NULL. */
static inline const uint8_t *escape_end(const uint8_t *at, scanned *seen)
{
    switch (at[1]) {
    case '"':
    case '\\':
    case 'b':
    case 'f':
    case 'n':
    case 'r':
    case 't':
        return at + 2;
    case '/':
    case 'u':
        return pass_escape(at, seen);
    default:
        return NULL;
    }
}

/* A bit for each quote, backslash and control character. */
static inline uint32_t stops_in(lanes some)
{
    const lanes quote = SPLAT('"'), backslash = SPLAT('\\'), control = SPLAT(0x1f);
    return MASK(EITHER(EITHER(EQUAL(some, quote), EQUAL(some, backslash)), EQUAL(LEAST(some, control), some)));
}

/* From behind a string's first quote to behind its last one, or NULL. */
static inline const uint8_t *string_end(const uint8_t *at, const uint8_t *end, scanned *seen)
{
    uint32_t high = 0;
    while (at < end) {
        lanes some = LOAD(at);
        uint32_t stops = stops_in(some);
        const uint8_t *behind = at + LANES;
        high |= MASK(some);
        while (stops) {
            const uint8_t *stop = at + __builtin_ctz(stops);
            if (*stop == '"') {
                seen->high |= high != 0;
                return stop < end ? stop + 1 : NULL;
            }
            if (*stop != '\\' || stop >= end || !(stop = escape_end(stop, seen)))
                return NULL;
            if (stop >= behind) {
                behind = stop;
                break;
            }
            stops &= ~0u << (stop - at);
        }
        at = behind;
    }
    return NULL;
}

static inline bool is_digit(uint8_t byte)
{
    return (uint8_t)(byte - '0') < 10;
}

/* Behind the digits that stand at `at`, or NULL where there are none. */
static inline const uint8_t *digits_end(const uint8_t *at)
{
    if (!is_digit(*at))
        return NULL;
    while (is_digit(*at))
        at++;
    return at;
}

/* Behind the number that stands at `at`, or NULL. */
static inline const uint8_t *number_end(const uint8_t *at)
{
    at += *at == '-';
    at = *at == '0' ? at + 1 : digits_end(at);
    if (at && *at == '.')
        at = digits_end(at + 1);
    if (at && (*at | 32) == 'e')
        at = digits_end(at + 1 + (at[1] == '+' || at[1] == '-'));
    return at;
}

static inline bool is_blank(uint8_t byte)
{
    return byte == ' ' || byte == '\n' || byte == '\r' || byte == '\t';
}

/* Behind the blanks that stand at `at`. */
static inline const uint8_t *blanks_end(const uint8_t *at, scanned *seen)
{
    if (__builtin_expect(*at > ' ', 1) || !is_blank(*at))
        return at;
    const uint8_t *from = at;
    while (is_blank(*at))
        at++;
    pass_blanks(from, at, seen);
    return at;
}

/* Behind a value that is neither an array nor an object, or NULL. */
static inline const uint8_t *plain_end(const uint8_t *at, const uint8_t *end, scanned *seen)
{
    switch (*at) {
    case '"':
        return string_end(at + 1, end, seen);
    case 't':
        return memcmp(at, "true", 4) ? NULL : at + 4;
    case 'f':
        return memcmp(at, "false", 5) ? NULL : at + 5;
    case 'n':
        return memcmp(at, "null", 4) ? NULL : at + 4;
    default:
        return number_end(at);
    }
}

/* Behind a member's name, its colon and blanks, or NULL. */
static inline const uint8_t *name_end(const uint8_t *at, const uint8_t *end, scanned *seen)
{
    if (*at != '"' || !(at = string_end(at + 1, end, seen)))
        return NULL;
    at = blanks_end(at, seen);
    return *at == ':' ? blanks_end(at + 1, seen) : NULL;
}

static inline uint64_t places_of(lanes some, char byte)
{
    return MASK(EQUAL(some, SPLAT(byte)));
}

/* From the beginning of an item past the whole numbers without a sign that follow one another there, each with the
 * comma behind it and at most one blank behind that, as far as looks at LANES bytes show it. */
static inline const uint8_t *naturals_end(const uint8_t *at, const uint8_t *end, scanned *seen)
{
    const lanes zero = SPLAT('0'), nine = SPLAT(9);
    while (end - at >= LANES) {
        lanes some = LOAD(at), value = LESS(some, zero);
        uint64_t digits = MASK(EQUAL(LEAST(value, nine), value)), behind_digits = digits << 1;
        uint64_t commas = places_of(some, ',') & behind_digits;
        uint64_t blanks = places_of(some, ' ') & commas << 1;
        uint64_t leading_zeros = places_of(some, '0') & ~behind_digits & digits >> 1;
        uint64_t fit = commas | blanks | (digits & ~leading_zeros);
        uint64_t up_to_first_misfit = fit ^ (fit + 1);
        uint64_t ends = (commas | blanks) & up_to_first_misfit;
        if (!ends)
            return at;
        unsigned passed = 64 - (unsigned)__builtin_clzll(ends);
        pass_blanks_at(at, blanks & up_to_first_misfit, seen);
        at += passed;
        if (*at == ' ' && at[-1] == ',')
            pass_blanks_at(at++, 1, seen);
    }
    return at;
}

/* So many numbers of an array are looked at one by one first: most arrays are short. */
enum { ONE_BY_ONE = 3 };

/* Behind the value that begins at `at`, with no blank before it, or NULL where that is none. */
static const uint8_t *scan(const uint8_t *at, const uint8_t *end, int levels, scanned *seen)
{
    bool is_object[DEPTH + 1];
    int depth = 0, numbers = 0;
    for (;;) {
        if (*at == '[' || *at == '{') {
            if (depth >= levels)
                return NULL;
            is_object[++depth] = *at == '{';
            at = blanks_end(at + 1, seen);
            if (*at != (is_object[depth] ? '}' : ']')) {
                if (is_object[depth] && !(at = name_end(at, end, seen)))
                    return NULL;
                continue;
            }
            at++;
            depth--;
        } else if (!(at = plain_end(at, end, seen)))
            return NULL;
        /* a value has ended, and with it maybe those around it */
        for (; depth; depth--) {
            at = blanks_end(at, seen);
            if (*at == ',')
                break;
            if (*at++ != (is_object[depth] ? '}' : ']'))
                return NULL;
        }
        if (!depth)
            return at <= end ? at : NULL;
        at = blanks_end(at + 1, seen);
        if (is_object[depth] && !(at = name_end(at, end, seen)))
            return NULL;
        if (!is_object[depth] && is_digit(*at) && ++numbers >= ONE_BY_ONE)
            at = blanks_end(naturals_end(at, end, seen), seen);
    }
}

/* Behind the character that begins at `at`, or NULL where that isn't UTF-8 (RFC 3629, section 4). */
static inline const uint8_t *character_end(const uint8_t *at, const uint8_t *end)
{
    uint8_t first = *at, second = at[1];
    int more = first < 0x80 ? 0 : first < 0xc2 ? 4 : first < 0xe0 ? 1 : first < 0xf0 ? 2 : first < 0xf5 ? 3 : 4;
    if (more == 4 || end - at <= more)
        return NULL;
    if ((first == 0xe0 && second < 0xa0) || (first == 0xed && second > 0x9f))
        return NULL;
    if ((first == 0xf0 && second < 0x90) || (first == 0xf4 && second > 0x8f))
        return NULL;
    for (int i = 1; i <= more; i++)
        if ((at[i] & 0xc0) != 0x80)
            return NULL;
    return at + more + 1;
}

/* Character by character, but for runs of ASCII. */
static inline bool is_utf8_by_characters(const uint8_t *at, const uint8_t *end)
{
    while (at < end) {
        if (end - at >= LANES && !MASK(LOAD(at)))
            at += LANES;
        else if (!(at = character_end(at, end)))
            return false;
    }
    return true;
}

#if defined(__AVX2__)
/* What may be wrong with two bytes that follow one another, by the high half and the low half of the first, and the
 * high half of the second: a bit is set where all three allow that fault. */
enum {
    SHORT = 1,       /* a first byte or ASCII where a further byte has to be */
    LONG = 2,        /* a further byte where none may be */
    LONG_FORM_3 = 4, /* three bytes for what has room in two */
    LARGE = 8,       /* beyond U+10FFFF */
    SURROGATE = 16,
    LONG_FORM_2 = 32, /* two bytes for ASCII */
    LARGE_1000 = 64,  /* beyond U+10FFFF, or four bytes for what has room in three */
    LONG_FORM_4 = 64,
    TWO_FURTHER = 128, /* two further bytes, which is well where a first byte of three or four is before them */
    ANY_LOW = SHORT | LONG | TWO_FURTHER
};

#define TWICE(...) _mm256_setr_epi8(__VA_ARGS__, __VA_ARGS__)
#define BITS(it) ((char)(it))

static inline lanes faults_of(lanes some, lanes before)
{
    const lanes by_high = TWICE(LONG, LONG, LONG, LONG, LONG, LONG, LONG, LONG, BITS(TWO_FURTHER), BITS(TWO_FURTHER),
                                BITS(TWO_FURTHER), BITS(TWO_FURTHER), SHORT | LONG_FORM_2, SHORT,
                                SHORT | LONG_FORM_3 | SURROGATE, SHORT | LARGE | LARGE_1000 | LONG_FORM_4);
    const char large = BITS(ANY_LOW | LARGE | LARGE_1000);
    const lanes by_low = TWICE(BITS(ANY_LOW | LONG_FORM_3 | LONG_FORM_2 | LONG_FORM_4), BITS(ANY_LOW | LONG_FORM_2),
                               BITS(ANY_LOW), BITS(ANY_LOW), BITS(ANY_LOW | LARGE), large, large, large, large, large,
                               large, large, large, BITS(ANY_LOW | LARGE | LARGE_1000 | SURROGATE), large, large);
    const char further = BITS(LONG | LONG_FORM_2 | TWO_FURTHER);
    const lanes by_next = TWICE(SHORT, SHORT, SHORT, SHORT, SHORT, SHORT, SHORT, SHORT,
                                further | LONG_FORM_3 | LARGE_1000 | LONG_FORM_4, further | LONG_FORM_3 | LARGE,
                                further | SURROGATE | LARGE, further | SURROGATE | LARGE, SHORT, SHORT, SHORT, SHORT);
    const lanes low_half = SPLAT(15);
    lanes joined = _mm256_permute2x128_si256(before, some, 0x21);
    lanes one = _mm256_alignr_epi8(some, joined, 15), two = _mm256_alignr_epi8(some, joined, 14);
    lanes three = _mm256_alignr_epi8(some, joined, 13);
    lanes high = _mm256_and_si256(_mm256_srli_epi16(one, 4), low_half);
    lanes next = _mm256_and_si256(_mm256_srli_epi16(some, 4), low_half);
    lanes found = _mm256_and_si256(_mm256_shuffle_epi8(by_high, high),
                                   _mm256_and_si256(_mm256_shuffle_epi8(by_low, _mm256_and_si256(one, low_half)),
                                                    _mm256_shuffle_epi8(by_next, next)));
    lanes wanted = EITHER(_mm256_subs_epu8(two, SPLAT(0xe0 - 0x80)), _mm256_subs_epu8(three, SPLAT(0xf0 - 0x80)));
    return _mm256_xor_si256(_mm256_and_si256(wanted, SPLAT(0x80)), found);
}

static bool is_utf8(const uint8_t *at, const uint8_t *end)
{
    const uint8_t *from = at;
    lanes before = _mm256_setzero_si256(), faults = before;
    for (; end - at >= LANES; at += LANES) {
        lanes some = LOAD(at);
        faults = EITHER(faults, faults_of(some, before));
        before = some;
    }
    if (!_mm256_testz_si256(faults, faults))
        return false;
    /* what is left, and the last character before it, which may go on there */
    if (at > from)
        for (at--; at > from && (*at & 0xc0) == 0x80;)
            at--;
    return is_utf8_by_characters(at, end);
}
#else
#define is_utf8 is_utf8_by_characters
#endif
#endif
