/* What the program asks of C beside the C library, where it is linked with musl's into one static file.
 *
 * The kit has these functions for glibc alone: its arguments come from a constructor, to which only glibc passes them,
 * and glibc tells what the processor has. All else that the program calls, musl's libc.a has. No proof covers what
 * stands here, as none covers the kit's own: each function says why it is right. rattle/os/src/c.rt of the kit has what
 * each has to do. */
#include <stddef.h>
#include <stdint.h>

/* musl's (declared here, so that no header of its own is needed) */
extern char **environ;
char *getenv(const char *);
long write(int, const void *, size_t);
int *__errno_location(void);

/* The program's own main, which takes nothing, and what stands in its place: the linker is told --wrap=main. */
int __real_main(void);
int __wrap_main(int, char **);

uint64_t rattle_arg_count(void);
int64_t rattle_arg(uint64_t, char *, uint64_t);
int64_t rattle_env(const char *, char *, uint64_t);
int64_t rattle_env_at(uint64_t, char *, uint64_t);
int32_t rattle_errno(void);
void rattle_set_errno(int32_t);

static uint64_t count;
static char **words;

/* C calls main once, with as many words as it says, before there is a second thread; from then on neither changes. */
int __wrap_main(int given, char **given_words)
{
    count = (uint64_t)given;
    words = given_words;
    return __real_main();
}

/* Puts a text without its 0 at the start of a room: its length; -1 where there is none; or -2 where it doesn't fit, and
 * the room is full then. No byte is written at or behind `length`, since `at` is less wherever one is. */
static int64_t put(const char *text, char *room, uint64_t length)
{
    uint64_t at = 0;

    if (!text)
        return -1;
    for (; text[at]; at++) {
        if (at == length)
            return -2;
        room[at] = text[at];
    }
    return (int64_t)at;
}

uint64_t rattle_arg_count(void)
{
    return count;
}

/* (no word is read that main wasn't given) */
int64_t rattle_arg(uint64_t number, char *room, uint64_t length)
{
    return put(number < count ? words[number] : NULL, room, length);
}

/* (nothing in the program or in musl changes the environment, so no thread reads it while it changes) */
int64_t rattle_env(const char *name, char *room, uint64_t length)
{
    return put(getenv(name), room, length);
}

/* The environment ends with a NULL, behind which nothing is read: `at` goes on only from an entry that is none. */
int64_t rattle_env_at(uint64_t number, char *room, uint64_t length)
{
    char **at = environ;

    for (; at && *at && number; number--)
        at++;
    return put(at ? *at : NULL, room, length);
}

/* (errno is each thread's own) */
int32_t rattle_errno(void)
{
    return *__errno_location();
}

void rattle_set_errno(int32_t to)
{
    *__errno_location() = to;
}

#ifdef __x86_64__
/* glibc's word on what the processor has, which the program asks as it begins, and ends where something lacks that its
 * code uses. `found` and `usable` are the same here: of what the program looks for (SSE3 to SSE4.2, POPCNT, CMPXCHG16B,
 * LAHF) nothing wants a system's leave beyond that for SSE, which every Linux on x86-64 gives. Of a leaf that isn't
 * known nothing is there, so that the program ends rather than runs without. */
struct leaf {
    uint32_t found[4], usable[4];
};
const struct leaf *__x86_get_cpuid_feature_leaf(uint32_t);

static void ask_processor(uint32_t leaf, uint32_t *to)
{
    __asm__("cpuid" : "=a"(to[0]), "=b"(to[1]), "=c"(to[2]), "=d"(to[3]) : "0"(leaf), "2"(0));
}

/* By glibc's numbers 0 is CPUID's leaf 1, and 2 is 0x80000001. Each has a place of its own, and gets the same numbers
 * whenever it is asked for. A processor without 0x80000001 answers with another leaf, so its last one is looked at. */
const struct leaf *__x86_get_cpuid_feature_leaf(uint32_t number)
{
    static struct leaf leaves[3];
    struct leaf *it = &leaves[number == 0 || number == 2 ? number : 1];
    uint32_t last[4];

    if (number == 0)
        ask_processor(1, it->found);
    ask_processor(0x80000000, last);
    if (number == 2 && last[0] >= 0x80000001)
        ask_processor(0x80000001, it->found);
    for (int i = 0; i < 4; i++)
        it->usable[i] = it->found[i];
    return it;
}

/* glibc's other name for write, by which the program says what the processor lacks. */
long __write(int, const void *, size_t);

long __write(int to, const void *bytes, size_t count)
{
    return write(to, bytes, count);
}
#endif
