/* The three calls by which Rattle's code takes memory, as the kit's liblibc_c.a has them, over musl's malloc. Each
 * thread keeps some small blocks that it gave back, and takes these again: musl's malloc holds one lock for all
 * threads, and takes twice the instructions of glibc's, which keeps such blocks too.
 *
 * A block is as many bytes as its head says, behind the head, which no one else writes. So what is given is at least as
 * long as was asked for. It is at a multiple of 16, as malloc's is, and Rattle's code asks for no more. A block is in
 * one hand at a time: it is the caller's, or one list's of one thread, or malloc's. */
#include <stdbool.h>
#include <stddef.h>
#include <stdint.h>

void *malloc(size_t);
void *realloc(void *, size_t);
void free(void *);
void *memcpy(void *, const void *, size_t);

/* 1 and where the memory is; or 0, and a place that is none's. (Both processors give such a pair in two registers.) */
struct found {
    uint64_t is_there, at;
};
struct found rattle_alloc(uint64_t, uint64_t);
struct found rattle_realloc(void *, uint64_t, uint64_t, uint64_t);
void rattle_dealloc(void *);

/* What stands before each block: which list takes it, or LISTS where none does; and how many bytes it has. */
struct head {
    uint64_t list, size;
};
/* A block that a list keeps begins with where the next one is. */
struct kept {
    struct kept *next;
};

/* Blocks of up to 1,024 bytes are in steps of 16, and of up to 256 KiB in four steps to each doubling, so that a block
 * has at most a quarter more than was asked for. A thread keeps a megabyte at most. It is lost where a thread ends; the
 * program's own run as long as it does. */
enum { STEP = 16, SMALL = 64, FIRST_DOUBLING = 10, LAST_DOUBLING = 18 };
enum { LISTS = SMALL + 4 * (LAST_DOUBLING - FIRST_DOUBLING), MOST_HELD = 1 << 20 };

static _Thread_local struct kept *lists[LISTS];
static _Thread_local uint64_t held;

/* The list of the shortest blocks that have so many bytes, at least one. */
static uint64_t list_of(uint64_t size)
{
    uint64_t doubling = 63 - (uint64_t)__builtin_clzll((size - 1) | 1);

    if (size <= SMALL * STEP)
        return (size - 1) / STEP;
    if (doubling >= LAST_DOUBLING)
        return LISTS;
    return SMALL + 4 * (doubling - FIRST_DOUBLING) + ((size - 1) >> (doubling - 2)) % 4;
}

static uint64_t size_in(uint64_t list)
{
    uint64_t further = list - SMALL;

    return list < SMALL ? (list + 1) * STEP : (further % 4 + 5) << (further / 4 + FIRST_DOUBLING - 2);
}

static struct found none(void)
{
    static char nothing;

    return (struct found){0, (uint64_t)&nothing};
}

static struct found block_of(struct head *it)
{
    return it ? (struct found){1, (uint64_t)(it + 1)} : none();
}

/* (so that a sum with the head and a step doesn't wrap; no memory is as large) */
static bool is_too_large(uint64_t size)
{
    return size >> 63;
}

/* A request for no bytes is one for as many as the alignment, as in the kit's. */
struct found rattle_alloc(uint64_t asked, uint64_t alignment)
{
    uint64_t size = asked ? asked : alignment, list;
    struct head *it;

    if (is_too_large(size))
        return none();
    list = list_of(size);
    if (list < LISTS) {
        struct kept *first = lists[list];

        size = size_in(list);
        if (first) {
            lists[list] = first->next;
            held -= size;
            return (struct found){1, (uint64_t)first};
        }
    }
    it = malloc(sizeof *it + size);
    if (it)
        *it = (struct head){list, size};
    return block_of(it);
}

/* (each block has room for `next`, since the least has 16 bytes) */
void rattle_dealloc(void *block)
{
    struct head *it = (struct head *)block - 1;

    if (!block)
        return;
    if (it->list < LISTS && held + it->size <= MOST_HELD) {
        *(struct kept *)block = (struct kept){lists[it->list]};
        lists[it->list] = block;
        held += it->size;
    } else {
        free(it);
    }
}

/* A block of a list that is long enough stays; one that isn't is copied whole to a longer one. Another is malloc's to
 * make longer or shorter, and stays one that no list takes. Where there is no memory the block is as it was. */
struct found rattle_realloc(void *block, uint64_t kept, uint64_t asked, uint64_t alignment)
{
    struct head *it = (struct head *)block - 1;
    uint64_t size = asked ? asked : alignment;
    struct found longer;

    (void)kept;
    if (is_too_large(size))
        return none();
    if (it->list == LISTS) {
        it = realloc(it, sizeof *it + size);
        if (it)
            it->size = size;
        return block_of(it);
    }
    if (size <= it->size)
        return block_of(it);
    longer = rattle_alloc(size, alignment);
    if (longer.is_there) {
        memcpy((void *)longer.at, block, it->size);
        rattle_dealloc(block);
    }
    return longer;
}
