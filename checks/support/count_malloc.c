/* Preloaded into a program, counts the memory that it holds. The file HELD_TELL, a descriptor's number, has room for
   five numbers of 64 bits: the most bytes that were held so far, the bytes that were held behind the last request,
   those that are held now, how many requests were made, and a word that the reader may set: before the next request all
   memory that is free is then given back to the system. (The file is mapped, since a program may end without a word to
   its libraries.) With HELD_LOSE a block of 24 bytes is lost behind each so many requests, so that anyone who looks for
   losses can be seen to find one. */
#include <malloc.h>
#include <stddef.h>
#include <stdint.h>
#include <stdlib.h>
#include <sys/mman.h>

extern void *__libc_malloc(size_t);
extern void *__libc_calloc(size_t, size_t);
extern void *__libc_realloc(void *, size_t);
extern void __libc_free(void *);

enum { MOST, BEHIND_REQUEST, NOW, REQUESTS, TRIM, NUMBERS };

static uint64_t unread[NUMBERS], *told = unread, each;

__attribute__((constructor)) static void begin(void)
{
    const char *tell = getenv("HELD_TELL"), *lose = getenv("HELD_LOSE");
    void *file =
        tell ? mmap(NULL, NUMBERS * sizeof *told, PROT_READ | PROT_WRITE, MAP_SHARED, atoi(tell), 0) : MAP_FAILED;
    if (lose)
        each = strtoul(lose, NULL, 10);
    if (file == MAP_FAILED)
        return;
    ((uint64_t *)file)[NOW] = told[NOW];
    ((uint64_t *)file)[REQUESTS] = told[REQUESTS];
    told = file;
}

/* (threads ask side by side) */
static void *taken(void *made)
{
    uint64_t more = made ? malloc_usable_size(made) : 0;
    uint64_t held = __atomic_add_fetch(&told[NOW], more, __ATOMIC_RELAXED);
    uint64_t most = __atomic_load_n(&told[MOST], __ATOMIC_RELAXED);
    while (held > most &&
           !__atomic_compare_exchange_n(&told[MOST], &most, held, 0, __ATOMIC_RELAXED, __ATOMIC_RELAXED)) {
    }
    __atomic_store_n(&told[BEHIND_REQUEST], held, __ATOMIC_RELAXED);
    return made;
}

static void given(uint64_t size)
{
    __atomic_sub_fetch(&told[NOW], size, __ATOMIC_RELAXED);
}

static void before(void)
{
    if (__atomic_load_n(&told[TRIM], __ATOMIC_RELAXED)) {
        __atomic_store_n(&told[TRIM], 0, __ATOMIC_RELAXED);
        malloc_trim(0);
    }
    uint64_t count = __atomic_add_fetch(&told[REQUESTS], 1, __ATOMIC_RELAXED);
    if (each && count % each == 0)
        taken(__libc_malloc(24));
}

void *malloc(size_t size)
{
    before();
    return taken(__libc_malloc(size));
}

void *calloc(size_t count, size_t size)
{
    before();
    return taken(__libc_calloc(count, size));
}

void *realloc(void *old, size_t size)
{
    size_t size_before = old ? malloc_usable_size(old) : 0;
    before();
    void *made = __libc_realloc(old, size);
    if (made || size == 0)
        given(size_before);
    return taken(made);
}

void free(void *old)
{
    if (old)
        given(malloc_usable_size(old));
    __libc_free(old);
}
