/* Tries packaging/static's copies, by other names, beside a loop over bytes, and its heap by threads that hand blocks
 * to each other: no block overlaps another, loses what it held as it grows, or lies where Rattle's code wants none. */
#include <pthread.h>
#include <stdint.h>
#include <stdio.h>
#include <stdlib.h>
#include <string.h>

void *tried_move(void *, const void *, size_t);
void *tried_copy(void *, const void *, size_t);
void *tried_set(void *, int, size_t);
struct found {
    uint64_t is_there, at;
};
struct found rattle_alloc(uint64_t, uint64_t);
struct found rattle_realloc(void *, uint64_t, uint64_t, uint64_t);
void rattle_dealloc(void *);

static void check(int is_so, const char *what, size_t number)
{
    if (!is_so) {
        printf("%s, %zu\n", what, number);
        exit(1);
    }
}

/* Copies */

enum { ROOM = 80000, EDGE = 100 };
static unsigned char tried[ROOM], wanted[ROOM], before[ROOM];

static void move_one(size_t to, size_t from, size_t count)
{
    memcpy(tried, before, ROOM);
    for (size_t i = 0; i < ROOM; i++)
        wanted[i] = i >= to && i < to + count ? before[from + i - to] : before[i];
    check(tried_move(tried + to, tried + from, count) == tried + to, "memmove's result", count);
    check(memcmp(tried, wanted, ROOM) == 0, "memmove", count);
    if (to + count <= from || from + count <= to) {
        memcpy(tried, before, ROOM);
        check(tried_copy(tried + to, tried + from, count) == tried + to, "memcpy's result", count);
        check(memcmp(tried, wanted, ROOM) == 0, "memcpy", count);
    }
}

static void set_one(size_t to, int byte, size_t count)
{
    memcpy(tried, before, ROOM);
    for (size_t i = 0; i < ROOM; i++)
        wanted[i] = i >= to && i < to + count ? (unsigned char)byte : before[i];
    check(tried_set(tried + to, byte, count) == tried + to, "memset's result", count);
    check(memcmp(tried, wanted, ROOM) == 0, "memset", count);
}

static void try_copies(void)
{
    static const size_t counts[] = {255, 256, 257, 1000, 4097, 30001};

    for (size_t i = 0; i < ROOM; i++)
        before[i] = (unsigned char)(i * 7 + i / 251);
    for (size_t count = 0; count <= 140; count++) {
        set_one(EDGE + count % 16, (int)(count * 37 + 128), count);
        for (size_t from = EDGE - 70; from <= EDGE + 70; from += 7)
            move_one(EDGE, from, count);
    }
    for (size_t i = 0; i < sizeof counts / sizeof *counts; i++) {
        set_one(EDGE + i, 0x5a, counts[i]);
        for (size_t from = EDGE - 33; from <= EDGE + 33; from += 11)
            move_one(EDGE, from, counts[i]);
        move_one(EDGE, 40000, counts[i]);
        move_one(40000, EDGE, counts[i]);
    }
}

/* The heap */

enum { SLOTS = 300, STEPS = 60000, THREADS = 4 };
struct slot {
    unsigned char *at;
    size_t size;
    unsigned char mark;
};
static struct slot slots[SLOTS];
static pthread_mutex_t locks[SLOTS];

static void fill(struct slot *it, size_t from)
{
    memset(it->at + from, it->mark, it->size - from);
}

static void see(const struct slot *it, size_t size)
{
    for (size_t i = 0; i < size; i++)
        check(it->at[i] == it->mark, "a block has other bytes than its own", it->size);
}

static size_t some_size(unsigned *seed)
{
    unsigned bits = (unsigned)rand_r(seed) % 20;

    return (size_t)rand_r(seed) % ((size_t)1 << bits);
}

static void step(struct slot *it, unsigned *seed)
{
    size_t size = some_size(seed), kept = size < it->size ? size : it->size;
    struct found got;

    see(it, it->size);
    if (it->at && rand_r(seed) % 2) {
        rattle_dealloc(it->at);
        *it = (struct slot){0};
        return;
    }
    got = it->at ? rattle_realloc(it->at, it->size, size, 8) : rattle_alloc(size, 8);
    check(got.is_there == 1 && got.at % 16 == 0, "a block isn't there, or lies at another place", size);
    it->at = (unsigned char *)got.at;
    see(it, kept);
    it->mark = kept ? it->mark : (unsigned char)rand_r(seed);
    it->size = size;
    fill(it, kept);
}

static void *try_heap(void *given)
{
    unsigned seed = *(unsigned *)given;

    for (int i = 0; i < STEPS; i++) {
        size_t at = (size_t)rand_r(&seed) % SLOTS;

        pthread_mutex_lock(&locks[at]);
        step(&slots[at], &seed);
        pthread_mutex_unlock(&locks[at]);
    }
    return NULL;
}

static void try_too_much(void)
{
    struct found some = rattle_alloc(100, 8);

    check(rattle_alloc(UINT64_MAX, 8).is_there == 0, "no memory is as large", 0);
    check(rattle_alloc((uint64_t)1 << 62, 8).is_there == 0, "no memory is as large", 1);
    check(rattle_realloc((void *)some.at, 100, UINT64_MAX - 8, 8).is_there == 0, "no memory is as large", 2);
    check(rattle_realloc((void *)some.at, 100, (uint64_t)1 << 62, 8).is_there == 0, "no memory is as large", 3);
    rattle_dealloc((void *)some.at);
    rattle_dealloc(NULL);
}

int main(void)
{
    pthread_t threads[THREADS];
    unsigned seeds[THREADS];

    try_copies();
    try_too_much();
    for (int i = 0; i < SLOTS; i++)
        pthread_mutex_init(&locks[i], NULL);
    for (unsigned i = 0; i < THREADS; i++) {
        seeds[i] = i + 1;
        check(pthread_create(&threads[i], NULL, try_heap, &seeds[i]) == 0, "no thread", i);
    }
    for (int i = 0; i < THREADS; i++)
        pthread_join(threads[i], NULL);
    puts("well");
    return 0;
}
