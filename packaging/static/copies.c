/* memmove, memcpy and memset for x86-64, in place of musl's: those begin with `rep movs`, which takes dozens of cycles
 * before the first byte, and most of what the program copies is short.
 *
 * Each writes `count` bytes and no other: up to 32 by two pieces that begin at the start and end at the end, and meet
 * or overlap; more by pieces of 16 from one end on, each wholly inside, and one at the other end. The compiler is told
 * -fno-builtin, so that it doesn't take a loop of these for a call of memmove. */
#include <stddef.h>
#include <stdint.h>

void *memmove(void *, const void *, size_t);
void *memcpy(void *, const void *, size_t);
void *memset(void *, int, size_t);

/* Pieces that lie at any place, over whatever type lies there. */
typedef uint64_t wide __attribute__((vector_size(16)));
typedef wide piece16 __attribute__((aligned(1), may_alias));
typedef uint64_t piece8 __attribute__((aligned(1), may_alias));
typedef uint32_t piece4 __attribute__((aligned(1), may_alias));
typedef unsigned short piece2 __attribute__((aligned(1), may_alias));

/* Both pieces are read before one is written, so the places may overlap. */
#define BOTH_ENDS(piece)                                                                                               \
    do {                                                                                                               \
        piece first = *(const piece *)of, last = *(const piece *)(of + count - sizeof(piece));                         \
        *(piece *)at = first;                                                                                          \
        *(piece *)(at + count - sizeof(piece)) = last;                                                                 \
    } while (0)
#define FILL_BOTH_ENDS(piece, value)                                                                                   \
    do {                                                                                                               \
        *(piece *)at = value;                                                                                          \
        *(piece *)(at + count - sizeof(piece)) = value;                                                                \
    } while (0)

static void move_short(char *at, const char *of, size_t count)
{
    if (count > 16)
        BOTH_ENDS(piece16);
    else if (count >= 8)
        BOTH_ENDS(piece8);
    else if (count >= 4)
        BOTH_ENDS(piece4);
    else if (count >= 2)
        BOTH_ENDS(piece2);
    else if (count)
        *at = *of;
}

/* From the start on, where `at` isn't inside of what is read, or lies before it: what a piece overwrites was read, but
 * for the last piece, which is read first. */
static void move_forward(char *at, const char *of, size_t count)
{
    piece16 last = *(const piece16 *)(of + count - 16);
    size_t done = 0;

    for (; done + 64 < count; done += 64) {
        const piece16 *from = (const piece16 *)(of + done);
        piece16 a = from[0], b = from[1], c = from[2], d = from[3], *to = (piece16 *)(at + done);

        to[0] = a;
        to[1] = b;
        to[2] = c;
        to[3] = d;
    }
    for (; done + 16 < count; done += 16)
        *(piece16 *)(at + done) = *(const piece16 *)(of + done);
    *(piece16 *)(at + count - 16) = last;
}

/* The same from the end on, where `at` lies inside of what is read. */
static void move_backward(char *at, const char *of, size_t count)
{
    piece16 first = *(const piece16 *)of;

    for (; count > 16; count -= 16)
        *(piece16 *)(at + count - 16) = *(const piece16 *)(of + count - 16);
    *(piece16 *)at = first;
}

void *memmove(void *to, const void *from, size_t count)
{
    if (count <= 32)
        move_short(to, from, count);
    else if ((size_t)to - (size_t)from >= count) /* (which wraps where `to` lies before `from`) */
        move_forward(to, from, count);
    else
        move_backward(to, from, count);
    return to;
}

void *memcpy(void *to, const void *from, size_t count)
{
    return memmove(to, from, count);
}

static void fill_short(char *at, uint64_t value, size_t count)
{
    if (count >= 8)
        FILL_BOTH_ENDS(piece8, value);
    else if (count >= 4)
        FILL_BOTH_ENDS(piece4, (uint32_t)value);
    else if (count >= 2)
        FILL_BOTH_ENDS(piece2, (unsigned short)value);
    else if (count)
        *at = (char)value;
}

void *memset(void *to, int byte, size_t count)
{
    uint64_t value = 0x0101010101010101 * (uint64_t)(unsigned char)byte;
    wide both = {value, value};
    char *at = to;

    if (count <= 16) {
        fill_short(at, value, count);
        return to;
    }
    for (size_t done = 0; done + 16 < count; done += 16)
        *(piece16 *)(at + done) = both;
    *(piece16 *)(at + count - 16) = both;
    return to;
}
