/* What the library and the addon take of C, for WebAssembly, where there is no C library: memory that grows, in blocks
 * of four sizes for each power of two, with a list of the free ones for each size. */
typedef unsigned long size_t;

void *memset(void *to, int byte, size_t length);
void *memcpy(void *to, const void *from, size_t length);

extern unsigned char __heap_base;

enum { PAGE = 65536, LEAST_PAGES = 16, ALIGNED = 16, SMALLEST = 6, STEPS = 4, POWERS = 32 };
static const size_t MOST = 1ul << 31;

/* It stands in front of what is given. */
typedef struct block {
    size_t kind;
    struct block *next;
} block;

static unsigned char *top, *end;
static block *unused[POWERS * STEPS];

static size_t size_of(size_t kind)
{
    return (size_t)(STEPS + kind % STEPS) << (SMALLEST - 2 + kind / STEPS);
}

/* The smallest kind of block that has room for so many bytes. */
static size_t kind_for(size_t length)
{
    size_t whole = length + sizeof(block);
    if (whole <= 1 << SMALLEST)
        return 0;
    size_t power = 63 - (size_t)__builtin_clzl(whole - 1);
    size_t step = ((whole - 1) >> (power - 2)) % STEPS;
    return (power - SMALLEST) * STEPS + step + 1;
}

static block *before(void *at)
{
    return (block *)at - 1;
}

static int grow_by(size_t pages)
{
    if (__builtin_wasm_memory_grow(0, pages) == (size_t)-1)
        return 0;
    end += pages * PAGE;
    return 1;
}

/* Makes the memory larger where it has to be, at the end of which more is given. Each step costs an engine much, so it
 * is by an eighth, or by some pages; or where that is refused, by as much as is needed. */
static int has_room(size_t size)
{
    if (!top) {
        top = (unsigned char *)(((size_t)&__heap_base + ALIGNED - 1) / ALIGNED * ALIGNED);
        end = (unsigned char *)(__builtin_wasm_memory_size(0) * PAGE);
    }
    size_t left = (size_t)(end - top);
    if (left >= size)
        return 1;
    size_t needed = (size - left + PAGE - 1) / PAGE, step = __builtin_wasm_memory_size(0) / 8 + LEAST_PAGES;
    return (needed < step && grow_by(step)) || grow_by(needed);
}

static void *taken(size_t length)
{
    if (length > MOST)
        return 0;
    size_t kind = kind_for(length);
    block *it = unused[kind];
    if (it)
        unused[kind] = it->next;
    else {
        if (!has_room(size_of(kind)))
            return 0;
        it = (block *)top;
        top += size_of(kind);
        it->kind = kind;
    }
    return it + 1;
}

void *malloc(size_t length)
{
    return taken(length);
}

void free(void *at)
{
    if (!at)
        return;
    block *it = before(at);
    it->next = unused[it->kind];
    unused[it->kind] = it;
}

void *calloc(size_t count, size_t size)
{
    size_t length;
    if (__builtin_mul_overflow(count, size, &length))
        return 0;
    void *made = taken(length);
    return made ? memset(made, 0, length) : 0;
}

void *realloc(void *at, size_t length)
{
    if (!at)
        return taken(length);
    size_t held = size_of(before(at)->kind) - sizeof(block);
    size_t kind = length > MOST ? POWERS * STEPS : kind_for(length);
    if (kind == before(at)->kind)
        return at;
    void *made = taken(length);
    if (!made)
        return length <= held ? at : 0;
    memcpy(made, at, length < held ? length : held);
    free(at);
    return made;
}

/* (each of these is one instruction, which the compiler takes for a call of itself where it isn't told not to) */
void *memcpy(void *to, const void *from, size_t length)
{
    return __builtin_memcpy(to, from, length);
}

void *memmove(void *to, const void *from, size_t length)
{
    return __builtin_memmove(to, from, length);
}

void *memset(void *to, int byte, size_t length)
{
    return __builtin_memset(to, byte, length);
}

void *memchr(const void *from, int byte, size_t length)
{
    const unsigned char *at = from;
    for (size_t i = 0; i < length; i++)
        if (at[i] == (unsigned char)byte)
            return (void *)(at + i);
    return 0;
}
