/* Stands in a program of Linux for the library of a Mac: it loads the file that the variable DYLIB names, a Mach-O of
 * this processor, and the calls of bullmyrtle.h, which the program has as jumps (platforms.py writes them), go there.
 * Linux and a Mac call functions in the same way, and the library takes a few functions of C and nothing of the system.
 * So its very instructions run where there is no Mac. It knows just what such a file has. */
#include <stdint.h>
#include <stdio.h>
#include <stdlib.h>
#include <string.h>
#include <sys/mman.h>

/* Of mach-o/loader.h and mach-o/nlist.h, in their order. */
struct header {
    uint32_t magic, processor, kind_of_processor, type, commands, size, flags, reserved;
};
struct command {
    uint32_t kind, size;
};
struct segment {
    uint32_t kind, size;
    char name[16];
    uint64_t at, room, from, bytes;
    uint32_t most, first, sections, flags;
};
struct symbols {
    uint32_t kind, size, at, count, strings, strings_size;
};
struct dyld {
    uint32_t kind, size, rebase, rebase_size, bind, bind_size, weak, weak_size, lazy, lazy_size, exports, exports_size;
};
struct symbol {
    uint32_t name;
    uint8_t type, section;
    uint16_t description;
    uint64_t value;
};
enum { SEGMENT = 0x19, SYMBOLS = 2, DYLD = 0x22, REQUIRED = 0x80000000u - 1, MOST_SEGMENTS = 16 };

static uint8_t *file, *base;
static struct segment *segments[MOST_SEGMENTS];
static int segment_count;
static struct symbols *symbols;
static struct dyld *dyld;

static void give_up(const char *why, const char *what)
{
    fprintf(stderr, "mach_loader: %s %s\n", why, what);
    exit(6);
}

static void clear(void *at, size_t length)
{
    memset(at, 0, length);
}

typedef void (*function)(void);

static function imported(const char *name)
{
    static const struct {
        const char *name;
        function at;
    } all[] = {{"_malloc", (function)malloc}, {"_free", (function)free},       {"_realloc", (function)realloc},
               {"_memcpy", (function)memcpy}, {"_memmove", (function)memmove}, {"_memset", (function)memset},
               {"_bzero", (function)clear},   {"___bzero", (function)clear},   {"dyld_stub_binder", abort}};
    for (size_t i = 0; i < sizeof all / sizeof *all; i++)
        if (!strcmp(all[i].name, name))
            return all[i].at;
    give_up("the library takes", name);
    return NULL;
}

/* A number of so many bytes as it needs, seven bits in each. */
static uint64_t number(uint8_t **at)
{
    uint64_t got = 0;
    int shift = 0;
    do
        got |= (uint64_t)(**at & 0x7f) << shift, shift += 7;
    while (*(*at)++ & 0x80);
    return got;
}

static void add_base(uint64_t at)
{
    uint64_t value;
    memcpy(&value, base + at, sizeof value);
    value += (uint64_t)base;
    memcpy(base + at, &value, sizeof value);
}

/* Goes through the places that hold addresses of the file's own. */
static void rebase(uint8_t *at, uint8_t *end)
{
    uint64_t place = 0;
    while (at < end) {
        uint8_t operation = *at & 0xf0, low = *at & 0x0f;
        uint64_t times = 0, skip = 8;
        at++;
        switch (operation) {
        case 0x00:
            return;
        case 0x10:
            break;
        case 0x20:
            place = segments[low]->at + number(&at);
            break;
        case 0x30:
            place += number(&at);
            break;
        case 0x40:
            place += low * 8u;
            break;
        case 0x50:
            times = low;
            break;
        case 0x60:
            times = number(&at);
            break;
        case 0x70:
            times = 1;
            skip = 8 + number(&at);
            break;
        case 0x80:
            times = number(&at);
            skip = 8 + number(&at);
            break;
        default:
            give_up("an operation that it doesn't know", "in rebase");
        }
        for (; times; times--, place += skip)
            add_base(place);
    }
}

static void put_import(uint64_t place, const char *name)
{
    function found = imported(name);
    memcpy(base + place, &found, sizeof found);
}

/* Goes through the places that hold addresses of imported functions. */
static void bind(uint8_t *at, uint8_t *end)
{
    uint64_t place = 0;
    const char *name = "";
    while (at < end) {
        uint8_t operation = *at & 0xf0, low = *at & 0x0f;
        uint64_t times = 0, skip = 8;
        at++;
        switch (operation) {
        case 0x00: /* (between lazy ones too) */
        case 0x10:
        case 0x30:
        case 0x50:
            break;
        case 0x20:
            number(&at);
            break;
        case 0x40:
            name = (char *)at;
            at += strlen(name) + 1;
            break;
        case 0x70:
            place = segments[low]->at + number(&at);
            break;
        case 0x80:
            place += number(&at);
            break;
        case 0x90:
            times = 1;
            break;
        case 0xa0:
            times = 1;
            skip = 8 + number(&at);
            break;
        case 0xb0:
            times = 1;
            skip = 8 + low * 8u;
            break;
        case 0xc0:
            times = number(&at);
            skip = 8 + number(&at);
            break;
        default:
            give_up("an operation that it doesn't know", "in bind");
        }
        for (; times; times--, place += skip)
            put_import(place, name);
    }
}

static void read_file(const char *name)
{
    FILE *it = name ? fopen(name, "rb") : NULL;
    if (!it || fseek(it, 0, SEEK_END))
        give_up("there is no file", name ? name : "in the variable DYLIB");
    long length = ftell(it);
    rewind(it);
    file = malloc((size_t)length);
    if (!file || fread(file, 1, (size_t)length, it) != (size_t)length)
        give_up("this can't be read:", name);
    fclose(it);
}

/* Reads the file's commands, and gives how much memory it wants. */
static uint64_t read_commands(void)
{
    struct header *header = (struct header *)file;
    uint8_t *at = file + sizeof *header;
    uint64_t room = 0;
    if (header->magic != 0xfeedfacf)
        give_up("this is no Mach-O of 64 bits:", getenv("DYLIB"));
    for (uint32_t i = 0; i < header->commands; i++, at += ((struct command *)at)->size) {
        uint32_t kind = ((struct command *)at)->kind & REQUIRED;
        if (kind == SEGMENT && segment_count < MOST_SEGMENTS) {
            struct segment *it = segments[segment_count++] = (struct segment *)at;
            room = it->at + it->room > room ? it->at + it->room : room;
        } else if (kind == SYMBOLS)
            symbols = (struct symbols *)at;
        else if (kind == DYLD)
            dyld = (struct dyld *)at;
    }
    if (!symbols || !dyld)
        give_up("what a loader needs isn't in", getenv("DYLIB"));
    return room;
}

static void load(void)
{
    read_file(getenv("DYLIB"));
    uint64_t room = read_commands();
    base = mmap(NULL, room, PROT_READ | PROT_WRITE | PROT_EXEC, MAP_PRIVATE | MAP_ANONYMOUS, -1, 0);
    if (base == MAP_FAILED)
        give_up("there is no memory for", getenv("DYLIB"));
    for (int i = 0; i < segment_count; i++)
        memcpy(base + segments[i]->at, file + segments[i]->from, segments[i]->bytes);
    rebase(file + dyld->rebase, file + dyld->rebase + dyld->rebase_size);
    bind(file + dyld->bind, file + dyld->bind + dyld->bind_size);
    bind(file + dyld->lazy, file + dyld->lazy + dyld->lazy_size);
    __builtin___clear_cache((char *)base, (char *)base + room);
}

static void *exported(const char *name)
{
    struct symbol *all = (struct symbol *)(file + symbols->at);
    for (uint32_t i = 0; i < symbols->count; i++) {
        const char *its = (char *)file + symbols->strings + all[i].name;
        if ((all[i].type & 0x0f) == 0x0f && *its == '_' && !strcmp(its + 1, name))
            return base + all[i].value;
    }
    give_up("the library has no", name);
    return NULL;
}

/* The calls' names, and where each jump reads its address. */
extern struct {
    const char *name;
    void **at;
} library_calls[];

__attribute__((constructor)) static void begin(void)
{
    load();
    for (int i = 0; library_calls[i].name; i++)
        *library_calls[i].at = exported(library_calls[i].name);
}
