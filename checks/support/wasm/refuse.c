/* Linked around what takes memory by --wrap: refuses the requests that JavaScript says (refuse.js). */
__attribute__((import_module("host"), import_name("refuses"))) int host_refuses(void);

void *__real_malloc(unsigned long size);
void *__real_calloc(unsigned long count, unsigned long size);
void *__real_realloc(void *at, unsigned long size);

void *__wrap_malloc(unsigned long size)
{
    return host_refuses() ? 0 : __real_malloc(size);
}

void *__wrap_calloc(unsigned long count, unsigned long size)
{
    return host_refuses() ? 0 : __real_calloc(count, size);
}

void *__wrap_realloc(void *at, unsigned long size)
{
    return host_refuses() ? 0 : __real_realloc(at, size);
}
