/* Preloaded into a program, narrows its standard streams. Standard input gives at most READ_MOST bytes at a time, never
   reads past one of the places in READ_CUTS (numbers, ascending, with commas between them), and fails once READ_STOP
   bytes were given. Standard output takes at most WRITE_MOST bytes at a time, and fails once WRITE_STOP bytes were
   taken. A failure has the number STREAM_ERROR, or EIO. */
#include <errno.h>
#include <stdlib.h>
#include <sys/syscall.h>
#include <unistd.h>

#define NO_LIMIT ((size_t)-1)
#define MOST_CUTS 64

struct stream {
    size_t most, stop, passed, cuts[MOST_CUTS];
    int count;
};

static struct stream input = {NO_LIMIT, NO_LIMIT, 0, {0}, 0}, output = {NO_LIMIT, NO_LIMIT, 0, {0}, 0};
static int error = EIO;

static void set(size_t *limit, const char *name)
{
    const char *text = getenv(name);
    if (text)
        *limit = strtoul(text, NULL, 10);
}

static void set_cuts(struct stream *stream, const char *name)
{
    char *rest = getenv(name);
    while (rest && *rest && stream->count < MOST_CUTS) {
        stream->cuts[stream->count++] = strtoul(rest, &rest, 10);
        if (*rest == ',')
            rest++;
    }
}

__attribute__((constructor)) static void begin(void)
{
    size_t number = EIO;
    set(&input.most, "READ_MOST");
    set(&input.stop, "READ_STOP");
    set(&output.most, "WRITE_MOST");
    set(&output.stop, "WRITE_STOP");
    set(&number, "STREAM_ERROR");
    set_cuts(&input, "READ_CUTS");
    error = (int)number;
}

/* How many bytes may pass at once, of so many: 0 where the stream fails. */
static size_t room(const struct stream *stream, size_t size)
{
    size_t left = stream->stop - stream->passed;
    if (size > stream->most)
        size = stream->most;
    if (size > left)
        size = left;
    for (int at = 0; at < stream->count; at++)
        if (stream->cuts[at] > stream->passed && size > stream->cuts[at] - stream->passed)
            size = stream->cuts[at] - stream->passed;
    return size;
}

static ssize_t pass(struct stream *stream, long call, int file, void *bytes, size_t size)
{
    size_t most = room(stream, size);
    if (size > 0 && most == 0) {
        errno = error;
        return -1;
    }
    ssize_t done = syscall(call, file, bytes, most);
    if (done > 0)
        stream->passed += (size_t)done;
    return done;
}

ssize_t read(int file, void *bytes, size_t size)
{
    return file == 0 ? pass(&input, SYS_read, file, bytes, size) : syscall(SYS_read, file, bytes, size);
}

static ssize_t put(int file, const void *bytes, size_t size)
{
    return file == 1 ? pass(&output, SYS_write, file, (void *)bytes, size) : syscall(SYS_write, file, bytes, size);
}

ssize_t write(int file, const void *bytes, size_t size)
{
    return put(file, bytes, size);
}
ssize_t __write(int file, const void *bytes, size_t size)
{
    return put(file, bytes, size);
}
