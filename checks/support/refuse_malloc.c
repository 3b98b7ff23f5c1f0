/* Preloaded into a program, refuses its requests for memory: the one with the number REFUSE_NTH, counted from 1, or
   with REFUSE_FROM that one and all behind it, or with REFUSE_OVER each for more than so many bytes. Each refusal is
   told by one byte on the file REFUSE_TELL, a descriptor's number. */
#include <errno.h>
#include <stddef.h>
#include <stdlib.h>
#include <unistd.h>

extern void *__libc_malloc(size_t);
extern void *__libc_calloc(size_t, size_t);
extern void *__libc_realloc(void *, size_t);

static unsigned long nth, from, over, seen;
static int tell = -1;

static unsigned long number(const char *name)
{
    const char *text = getenv(name);
    return text ? strtoul(text, NULL, 10) : 0;
}

__attribute__((constructor)) static void begin(void)
{
    nth = number("REFUSE_NTH");
    from = number("REFUSE_FROM");
    over = number("REFUSE_OVER");
    if (getenv("REFUSE_TELL"))
        tell = (int)number("REFUSE_TELL");
}

static int refused(size_t size)
{
    /* (threads ask side by side) */
    unsigned long number = __atomic_add_fetch(&seen, 1, __ATOMIC_SEQ_CST);
    if (number != nth && (from == 0 || number < from) && (over == 0 || size <= over))
        return 0;
    if (tell >= 0 && write(tell, "x", 1) != 1)
        tell = -1;
    errno = ENOMEM;
    return 1;
}

static size_t product(size_t count, size_t size)
{
    size_t whole;
    return __builtin_mul_overflow(count, size, &whole) ? (size_t)-1 : whole;
}

void *malloc(size_t size)
{
    return refused(size) ? NULL : __libc_malloc(size);
}
void *calloc(size_t count, size_t size)
{
    return refused(product(count, size)) ? NULL : __libc_calloc(count, size);
}
void *realloc(void *old, size_t size)
{
    return refused(size) ? NULL : __libc_realloc(old, size);
}
