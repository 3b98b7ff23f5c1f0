/* Linked around the static library by --wrap, refuses one request for memory of the judge's calls, that with the number
 * REFUSE_NTH, counted from 1, and with REFUSE_FROM all from that number on. Other requests of the program are never
 * refused. Telling findings and freeing a judge have to ask for none. */
#include "bullmyrtle.h"

#include <stdio.h>
#include <stdlib.h>

void *__real_malloc(size_t);
void *__real_realloc(void *, size_t);
int32_t __real_bm_judge_open(const bm_judge_options *, void **);
void __real_bm_judge_free(bm_judge);
int32_t __real_bm_judge_saw(bm_judge *, uint32_t, const uint8_t *, size_t);
int32_t __real_bm_judge_ended(bm_judge *, uint32_t, uint32_t);
size_t __real_bm_judge_next(bm_judge *, bm_finding *, size_t);

static unsigned long nth, from, requests;
static enum { OUTSIDE, ASKING, NEEDING_NONE } where;

static unsigned long number(const char *name)
{
    const char *text = getenv(name);
    return text ? strtoul(text, NULL, 10) : 0;
}

__attribute__((constructor)) static void begin(void)
{
    nth = number("REFUSE_NTH");
    from = number("REFUSE_FROM");
}

static bool is_refused(void)
{
    if (where == NEEDING_NONE) {
        fprintf(stderr, "memory is asked for where none is needed\n");
        exit(4);
    }
    if (where == OUTSIDE)
        return false;
    requests++;
    return requests == nth || (from && requests >= from);
}

void *__wrap_malloc(size_t size)
{
    return is_refused() ? NULL : __real_malloc(size);
}

void *__wrap_realloc(void *old, size_t size)
{
    return is_refused() ? NULL : __real_realloc(old, size);
}

int32_t __wrap_bm_judge_open(const bm_judge_options *options, void **at)
{
    where = ASKING;
    int32_t code = __real_bm_judge_open(options, at);
    where = OUTSIDE;
    return code;
}

void __wrap_bm_judge_free(bm_judge judge)
{
    where = NEEDING_NONE;
    __real_bm_judge_free(judge);
    where = OUTSIDE;
}

int32_t __wrap_bm_judge_saw(bm_judge *judge, uint32_t side, const uint8_t *bytes, size_t length)
{
    where = ASKING;
    int32_t code = __real_bm_judge_saw(judge, side, bytes, length);
    where = OUTSIDE;
    return code;
}

int32_t __wrap_bm_judge_ended(bm_judge *judge, uint32_t side, uint32_t how)
{
    where = ASKING;
    int32_t code = __real_bm_judge_ended(judge, side, how);
    where = OUTSIDE;
    return code;
}

size_t __wrap_bm_judge_next(bm_judge *judge, bm_finding *findings, size_t most)
{
    where = NEEDING_NONE;
    size_t count = __real_bm_judge_next(judge, findings, most);
    where = OUTSIDE;
    return count;
}
