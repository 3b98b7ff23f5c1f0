/* Linked around the addon by --wrap: refuses the request for memory that the variable REFUSE_NTH counts to, from when
 * it is set, and then sets REFUSE_NTH to the word `refused`. */
#include <stdlib.h>
#include <string.h>

void *__real_malloc(size_t size);
void *__real_calloc(size_t count, size_t size);
void *__real_realloc(void *at, size_t size);

static unsigned long left;

static int is_refused(void)
{
    const char *text = getenv("REFUSE_NTH");
    if (text && *text >= '0' && *text <= '9') {
        left = strtoul(text, NULL, 10);
        setenv("REFUSE_NTH", "counting", 1);
    } else if (!text)
        left = 0;
    if (left == 0 || --left)
        return 0;
    setenv("REFUSE_NTH", "refused", 1);
    return 1;
}

void *__wrap_malloc(size_t size)
{
    return is_refused() ? NULL : __real_malloc(size);
}

void *__wrap_calloc(size_t count, size_t size)
{
    return is_refused() ? NULL : __real_calloc(count, size);
}

void *__wrap_realloc(void *at, size_t size)
{
    return is_refused() ? NULL : __real_realloc(at, size);
}
