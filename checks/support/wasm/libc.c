#include "libc.h"

#define FROM_JAVASCRIPT(name) __attribute__((import_module("host"), import_name(name)))
#define FOR_JAVASCRIPT(name) __attribute__((export_name(name)))

FROM_JAVASCRIPT("read") size_t host_read(void *room, size_t length);
FROM_JAVASCRIPT("write") void host_write(int descriptor, const void *bytes, size_t length);
FROM_JAVASCRIPT("exit") __attribute__((noreturn)) void host_exit(int status);
/* Writes a variable of the environment and a zero byte; whether there is one. */
FROM_JAVASCRIPT("variable") int host_variable(const char *name, size_t name_length, char *room);

void __wasm_call_ctors(void);

enum { PIECE = 1 << 16, LONGEST_VARIABLE = 256, WORDS_ROOM = 512 };

FILE libc_streams[3] = {STDIN_FILENO, STDOUT_FILENO, STDERR_FILENO};
int errno;

static char output[PIECE], input[PIECE];
static size_t output_length, input_at, input_length;

/* Begins, and gives where the program's words may be written. */
FOR_JAVASCRIPT("begin") void *begin(void)
{
    static uint64_t room[WORDS_ROOM];
    __wasm_call_ctors();
    return room;
}

FOR_JAVASCRIPT("over") int fflush_all(void)
{
    return fflush(stdout);
}

/* The process */

void exit(int status)
{
    fflush(stdout);
    host_exit(status);
}

char *getenv(const char *name)
{
    static char room[LONGEST_VARIABLE];
    return host_variable(name, strlen(name), room) ? room : NULL;
}

/* Texts */

int memcmp(const void *one, const void *other, size_t length)
{
    const uint8_t *left = one, *right = other;
    for (size_t i = 0; i < length; i++)
        if (left[i] != right[i])
            return left[i] < right[i] ? -1 : 1;
    return 0;
}

size_t strlen(const char *text)
{
    size_t length = 0;
    while (text[length])
        length++;
    return length;
}

int strncmp(const char *one, const char *other, size_t most)
{
    for (size_t i = 0; i < most; i++)
        if (one[i] != other[i] || !one[i])
            return (uint8_t)one[i] - (uint8_t)other[i];
    return 0;
}

int strcmp(const char *one, const char *other)
{
    return strncmp(one, other, SIZE_MAX);
}

char *strchr(const char *text, int it)
{
    for (;; text++) {
        if (*text == (char)it)
            return (char *)text;
        if (!*text)
            return NULL;
    }
}

size_t strcspn(const char *text, const char *set)
{
    size_t length = 0;
    while (!strchr(set, text[length]))
        length++;
    return length;
}

size_t strspn(const char *text, const char *set)
{
    size_t length = 0;
    while (text[length] && strchr(set, text[length]))
        length++;
    return length;
}

/* Numbers, in digits of ten. errno tells what is too large. */

static uint64_t digits(const char **text, uint64_t greatest)
{
    uint64_t value = 0;
    for (; **text >= '0' && **text <= '9'; (*text)++) {
        uint64_t digit = (uint64_t)(**text - '0');
        if (value > (greatest - digit) / 10)
            errno = 1;
        value = value * 10 + digit;
    }
    return value;
}

unsigned long long strtoull(const char *text, char **end, int base)
{
    return digits(&text, ~0ull);
}

unsigned long strtoul(const char *text, char **end, int base)
{
    return digits(&text, ~0ull);
}

long long strtoll(const char *text, char **end, int base)
{
    bool is_negative = *text == '-';
    text += is_negative;
    uint64_t value = digits(&text, ((uint64_t)1 << 63) - !is_negative);
    return (long long)(is_negative ? 0 - value : value);
}

/* %u, %zu, %n, blanks, and letters that stand for themselves */
int sscanf(const char *text, const char *format, ...)
{
    const char *begin = text;
    int count = 0;
    va_list given;
    va_start(given, format);
    for (; *format; format++) {
        bool is_wide = format[0] == '%' && format[1] == 'z';
        if (*format == ' ') {
            text += strspn(text, " \n");
        } else if (*format != '%') {
            if (*text++ != *format)
                break;
        } else if (format[1] == 'n') {
            *va_arg(given, int *) = (int)(text - begin);
            format++;
        } else {
            text += strspn(text, " \n");
            if (*text < '0' || *text > '9')
                break;
            uint64_t value = digits(&text, ~0ull);
            if (is_wide)
                *va_arg(given, size_t *) = value;
            else
                *va_arg(given, uint32_t *) = (uint32_t)value;
            format += 1 + is_wide;
            count++;
        }
    }
    va_end(given);
    return count;
}

/* Streams */

ssize_t read(int descriptor, void *room, size_t length)
{
    return (ssize_t)host_read(room, length);
}

ssize_t write(int descriptor, const void *bytes, size_t length)
{
    host_write(descriptor, bytes, length);
    return (ssize_t)length;
}

static int next_byte(void)
{
    if (input_at == input_length) {
        input_at = 0;
        input_length = host_read(input, sizeof input);
    }
    return input_at < input_length ? (uint8_t)input[input_at++] : -1;
}

ssize_t getline(char **line, size_t *size, FILE *stream)
{
    size_t length = 0;
    if (!*line)
        *size = 0;
    for (int got; (got = next_byte()) >= 0;) {
        if (length + 2 > *size) {
            *size = *size * 2 + 4096;
            *line = realloc(*line, *size);
        }
        (*line)[length++] = (char)got;
        if (got == '\n')
            break;
    }
    if (length == 0)
        return -1;
    (*line)[length] = 0;
    return (ssize_t)length;
}

int fflush(FILE *stream)
{
    host_write(STDOUT_FILENO, output, output_length);
    output_length = 0;
    return 0;
}

static void put(FILE *stream, const char *bytes, size_t length)
{
    if (*stream != STDOUT_FILENO || length > PIECE) {
        fflush(stdout);
        host_write(*stream, bytes, length);
        return;
    }
    if (length > PIECE - output_length)
        fflush(stdout);
    memcpy(output + output_length, bytes, length);
    output_length += length;
}

size_t fwrite(const void *bytes, size_t size, size_t count, FILE *stream)
{
    put(stream, bytes, size * count);
    return count;
}

int putchar(int it)
{
    char byte = (char)it;
    put(stdout, &byte, 1);
    return it;
}

int puts(const char *text)
{
    put(stdout, text, strlen(text));
    return putchar('\n');
}

static void put_number(FILE *stream, uint64_t value, unsigned base, size_t least)
{
    char room[20];
    size_t at = sizeof room;
    do
        room[--at] = "0123456789abcdef"[value % base];
    while (value /= base);
    while (sizeof room - at < least)
        room[--at] = '0';
    put(stream, room + at, sizeof room - at);
}

/* One conversion, behind its %: a length in digits or behind a point, ll or z, and s, d, u or x. Gives where it ends.
 */
static const char *put_one(FILE *stream, const char *format, va_list *given)
{
    bool is_cut = *format == '.';
    format += is_cut;
    size_t length = digits(&format, SIZE_MAX);
    bool is_wide = *format == 'l' || *format == 'z';
    format += strspn(format, "lz");
    if (*format == 's') {
        const char *text = va_arg(*given, const char *);
        size_t whole = strlen(text);
        put(stream, text, is_cut && length < whole ? length : whole);
        return format;
    }
    int64_t value = is_wide ? va_arg(*given, int64_t) : *format == 'd' ? va_arg(*given, int) : va_arg(*given, unsigned);
    bool is_negative = *format == 'd' && value < 0;
    if (is_negative)
        put(stream, "-", 1);
    put_number(stream, is_negative ? 0 - (uint64_t)value : (uint64_t)value, *format == 'x' ? 16 : 10, length);
    return format;
}

static void put_all(FILE *stream, const char *format, va_list *given)
{
    for (; *format; format++) {
        size_t plain = strcspn(format, "%");
        put(stream, format, plain);
        format += plain;
        if (!*format)
            return;
        format = put_one(stream, format + 1, given);
    }
}

int printf(const char *format, ...)
{
    va_list given;
    va_start(given, format);
    put_all(stdout, format, &given);
    va_end(given);
    return 0;
}

int fprintf(FILE *stream, const char *format, ...)
{
    va_list given;
    va_start(given, format);
    put_all(stream, format, &given);
    va_end(given);
    return 0;
}
