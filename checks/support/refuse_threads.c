/* Preloaded into a program, refuses the thread with the number REFUSE_NTH, counted from 1. A refusal is told by one
   byte on the file REFUSE_TELL, a descriptor's number. */
#define _GNU_SOURCE
#include <dlfcn.h>
#include <errno.h>
#include <pthread.h>
#include <stdlib.h>
#include <unistd.h>

typedef int Create(pthread_t *, const pthread_attr_t *, void *(*)(void *), void *);

static unsigned long number(const char *name)
{
    const char *text = getenv(name);
    return text ? strtoul(text, NULL, 10) : 0;
}

int pthread_create(pthread_t *thread, const pthread_attr_t *attributes, void *(*start)(void *), void *argument)
{
    static unsigned long seen;
    Create *create = (Create *)dlsym(RTLD_NEXT, "pthread_create");
    if (create && __atomic_add_fetch(&seen, 1, __ATOMIC_SEQ_CST) != number("REFUSE_NTH"))
        return create(thread, attributes, start, argument);
    if (write((int)number("REFUSE_TELL"), "x", 1) != 1)
        abort();
    return EAGAIN;
}
