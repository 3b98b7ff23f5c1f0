/* As much of a C library as the players and the example of a host take, in WebAssembly over four calls of JavaScript
 * (run.mjs). It stands for every header of C that they include. Memory is taken as packaging/ports/wasm/memory.c gives
 * it. */
#ifndef LIBC_H
#define LIBC_H

#define bool _Bool
#define true 1
#define false 0
#define NULL ((void *)0)
#define UINT32_MAX 0xffffffffu
#define SIZE_MAX __SIZE_MAX__

typedef __UINT8_TYPE__ uint8_t;
typedef __INT32_TYPE__ int32_t;
typedef __UINT32_TYPE__ uint32_t;
typedef __INT64_TYPE__ int64_t;
typedef __UINT64_TYPE__ uint64_t;
typedef __SIZE_TYPE__ size_t;
typedef long ssize_t;
typedef const int FILE;

enum { STDIN_FILENO, STDOUT_FILENO, STDERR_FILENO };

typedef __builtin_va_list va_list;
#define va_start __builtin_va_start
#define va_arg __builtin_va_arg
#define va_end __builtin_va_end

/* (JavaScript calls it by this name) */
#define main program

extern FILE libc_streams[3];
extern int errno;
#define stdin (&libc_streams[0])
#define stdout (&libc_streams[1])
#define stderr (&libc_streams[2])

void *malloc(size_t size);
void *realloc(void *at, size_t size);
void *calloc(size_t count, size_t size);
void free(void *at);
__attribute__((noreturn)) void exit(int status);
char *getenv(const char *name);
unsigned long strtoul(const char *text, char **end, int base);
unsigned long long strtoull(const char *text, char **end, int base);
long long strtoll(const char *text, char **end, int base);

void *memcpy(void *to, const void *from, size_t length);
void *memset(void *to, int byte, size_t length);
int memcmp(const void *one, const void *other, size_t length);
size_t strlen(const char *text);
int strcmp(const char *one, const char *other);
int strncmp(const char *one, const char *other, size_t most);
char *strchr(const char *text, int it);
size_t strspn(const char *text, const char *set);
size_t strcspn(const char *text, const char *set);

ssize_t read(int descriptor, void *room, size_t length);
ssize_t write(int descriptor, const void *bytes, size_t length);
ssize_t getline(char **line, size_t *size, FILE *stream);
size_t fwrite(const void *bytes, size_t size, size_t count, FILE *stream);
int fflush(FILE *stream);
int puts(const char *text);
int putchar(int it);
__attribute__((format(printf, 1, 2))) int printf(const char *format, ...);
__attribute__((format(printf, 2, 3))) int fprintf(FILE *stream, const char *format, ...);
__attribute__((format(scanf, 2, 3))) int sscanf(const char *text, const char *format, ...);

#endif
