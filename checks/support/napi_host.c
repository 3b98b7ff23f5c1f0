/* usage: napi_host ADDON
 *
 * Loads the addon for Node.js as Node.js does, without Node.js: it has the calls of Node-API that the addon makes, over
 * the plainest values. It is what a program of any name is to the addon where there is no Node.js to run: with another
 * C library, on another processor, on Windows. It does what examples/c/host.c does: it serves standard input, a content
 * a line, and answers each request with its params. What is made is never given back but the bytes of a connection. */
#include "outside.h"

#include "bullmyrtle.h"

#include <stdio.h>
#include <stdlib.h>
#include <string.h>
#ifdef _WIN32
#include <fcntl.h>
#include <io.h>
#include <windows.h>
#else
#include <dlfcn.h>
#include <unistd.h>
#endif

enum kind { A_UNDEFINED, A_BOOLEAN, A_NUMBER, A_STRING, A_EXTERNAL, A_FUNCTION, A_OBJECT, A_BUFFER, A_TYPED };

struct napi_value__ {
    enum kind kind;
    double number; /* a boolean's too */
    char *text;
    size_t length; /* of a string, a buffer, or a typed array in its elements */
    void *data;    /* an external's, a buffer's, a typed array's, or a function's call */
    int type;
    const char *name; /* of a property, which lies in the object's list */
    napi_value properties, next, value;
};

struct napi_callback_info__ {
    size_t count;
    napi_value *given;
};

static void *instance;
static const char *error_thrown;

static void give_up(const char *why)
{
    fprintf(stderr, "napi_host: %s\n", why);
    exit(1);
}

static napi_value made_of(enum kind kind)
{
    napi_value made = calloc(1, sizeof *made);
    if (!made)
        give_up("no memory");
    made->kind = kind;
    return made;
}

static napi_value number_of(double number)
{
    napi_value made = made_of(A_NUMBER);
    made->number = number;
    return made;
}

/* What the addon calls */

napi_status napi_get_cb_info(napi_env env, napi_callback_info info, size_t *count, napi_value *given, napi_value *self,
                             void **data)
{
    (void)env, (void)self, (void)data;
    for (size_t i = 0; i < *count; i++)
        given[i] = i < info->count ? info->given[i] : made_of(A_UNDEFINED);
    *count = info->count;
    return napi_ok;
}

napi_status napi_set_instance_data(napi_env env, void *data, napi_finalize finalize, void *hint)
{
    (void)env, (void)finalize, (void)hint;
    instance = data;
    return napi_ok;
}

napi_status napi_get_instance_data(napi_env env, void **data)
{
    (void)env;
    *data = instance;
    return napi_ok;
}

napi_status napi_create_external(napi_env env, void *data, napi_finalize finalize, void *hint, napi_value *made)
{
    (void)env, (void)finalize, (void)hint;
    *made = made_of(A_EXTERNAL);
    (*made)->data = data;
    return napi_ok;
}

napi_status napi_get_value_external(napi_env env, napi_value value, void **data)
{
    (void)env;
    if (value->kind != A_EXTERNAL)
        return napi_invalid_arg;
    *data = value->data;
    return napi_ok;
}

napi_status napi_adjust_external_memory(napi_env env, int64_t change, int64_t *adjusted)
{
    (void)env;
    *adjusted = change;
    return napi_ok;
}

napi_status napi_create_reference(napi_env env, napi_value value, uint32_t count, napi_ref *made)
{
    (void)env, (void)count;
    *made = (napi_ref)value;
    return napi_ok;
}

napi_status napi_throw_error(napi_env env, const char *code, const char *text)
{
    (void)env, (void)code;
    error_thrown = text;
    return napi_ok;
}

napi_status napi_create_function(napi_env env, const char *name, size_t length, napi_callback call, void *data,
                                 napi_value *made)
{
    (void)env, (void)name, (void)length, (void)data;
    *made = made_of(A_FUNCTION);
    memcpy(&(*made)->data, &call, sizeof call);
    return napi_ok;
}

napi_status napi_set_named_property(napi_env env, napi_value object, const char *name, napi_value value)
{
    napi_value property = made_of(A_OBJECT);
    (void)env;
    property->name = name;
    property->value = value;
    property->next = object->properties;
    object->properties = property;
    return napi_ok;
}

napi_status napi_create_array_with_length(napi_env env, size_t length, napi_value *made)
{
    (void)env, (void)length;
    *made = made_of(A_OBJECT);
    return napi_ok;
}

napi_status napi_set_element(napi_env env, napi_value array, uint32_t at, napi_value value)
{
    (void)at;
    return napi_set_named_property(env, array, "", value);
}

napi_status napi_create_arraybuffer(napi_env env, size_t length, void **data, napi_value *made)
{
    (void)env;
    *made = made_of(A_BUFFER);
    (*made)->length = length;
    *data = (*made)->data = calloc(1, length);
    return *data ? napi_ok : napi_invalid_arg;
}

napi_status napi_create_typedarray(napi_env env, napi_typedarray_type type, size_t length, napi_value buffer,
                                   size_t offset, napi_value *made)
{
    (void)env;
    *made = made_of(A_TYPED);
    (*made)->type = type;
    (*made)->length = length;
    (*made)->data = (char *)buffer->data + offset;
    return napi_ok;
}

napi_status napi_get_typedarray_info(napi_env env, napi_value array, napi_typedarray_type *type, size_t *length,
                                     void **data, napi_value *buffer, size_t *offset)
{
    (void)env, (void)buffer, (void)offset;
    if (array->kind != A_TYPED)
        return napi_invalid_arg;
    *type = (napi_typedarray_type)array->type;
    *length = array->length;
    *data = array->data;
    return napi_ok;
}

napi_status napi_get_undefined(napi_env env, napi_value *made)
{
    (void)env;
    *made = made_of(A_UNDEFINED);
    return napi_ok;
}

napi_status napi_get_boolean(napi_env env, bool value, napi_value *made)
{
    (void)env;
    *made = made_of(A_BOOLEAN);
    (*made)->number = value;
    return napi_ok;
}

napi_status napi_create_double(napi_env env, double value, napi_value *made)
{
    (void)env;
    *made = number_of(value);
    return napi_ok;
}

napi_status napi_get_value_bool(napi_env env, napi_value value, bool *got)
{
    (void)env;
    if (value->kind != A_BOOLEAN)
        return napi_invalid_arg;
    *got = value->number;
    return napi_ok;
}

napi_status napi_get_value_double(napi_env env, napi_value value, double *got)
{
    (void)env;
    if (value->kind != A_NUMBER)
        return napi_invalid_arg;
    *got = value->number;
    return napi_ok;
}

napi_status napi_get_value_uint32(napi_env env, napi_value value, uint32_t *got)
{
    double number = 0;
    napi_status status = napi_get_value_double(env, value, &number);
    *got = (uint32_t)number;
    return status;
}

/* (no value here is a BigInt) */
napi_status napi_get_value_bigint_int64(napi_env env, napi_value value, int64_t *got, bool *is_whole)
{
    (void)env, (void)value, (void)got, (void)is_whole;
    return napi_invalid_arg;
}

napi_status napi_get_value_bigint_uint64(napi_env env, napi_value value, uint64_t *got, bool *is_whole)
{
    (void)env, (void)value, (void)got, (void)is_whole;
    return napi_invalid_arg;
}

napi_status napi_create_string_utf8(napi_env env, const char *text, size_t length, napi_value *made)
{
    (void)env;
    *made = made_of(A_STRING);
    (*made)->length = length;
    (*made)->text = malloc(length + 1);
    if (!(*made)->text)
        return napi_invalid_arg;
    memcpy((*made)->text, text, length);
    return napi_ok;
}

/* (the addon makes such of ASCII alone) */
napi_status napi_create_string_latin1(napi_env env, const char *text, size_t length, napi_value *made)
{
    for (size_t i = 0; i < length; i++)
        if (text[i] & 0x80)
            give_up("a string of Latin-1 that isn't ASCII");
    return napi_create_string_utf8(env, text, length, made);
}

napi_status napi_get_value_string_utf8(napi_env env, napi_value value, char *room, size_t size, size_t *length)
{
    (void)env;
    if (value->kind != A_STRING)
        return napi_string_expected;
    *length = value->length;
    if (room && size) {
        *length = value->length < size ? value->length : size - 1;
        memcpy(room, value->text, *length);
        room[*length] = 0;
    }
    return napi_ok;
}

/* A host over it */

static napi_value addon, handle, heads;
static double *head_numbers, *says;

static napi_value property(const char *name)
{
    for (napi_value it = addon->properties; it; it = it->next)
        if (!strcmp(it->name, name))
            return it->value;
    give_up(name);
    return NULL;
}

static napi_value call(const char *name, size_t count, napi_value *given)
{
    struct napi_callback_info__ info = {count, given};
    napi_callback made;
    memcpy(&made, &property(name)->data, sizeof made);
    napi_value got = made(NULL, &info);
    if (error_thrown)
        give_up(error_thrown);
    return got;
}

static napi_value bytes_of(uint8_t *bytes, size_t length)
{
    napi_value made = made_of(A_TYPED);
    made->type = napi_uint8_array;
    made->data = bytes;
    made->length = length;
    return made;
}

static napi_value truth(bool it)
{
    napi_value made;
    napi_get_boolean(NULL, it, &made);
    return made;
}

/* So many units of UTF-16, in bytes. */
static size_t bytes_in(const char *text, double units)
{
    size_t at = 0;
    while (units > 0) {
        unsigned char first = (unsigned char)text[at];
        units -= first >= 0xf0 ? 2 : 1;
        at += first >= 0xf0 ? 4 : first >= 0xe0 ? 3 : first >= 0xc0 ? 2 : 1;
    }
    return at;
}

static struct {
    char *at;
    size_t length, count;
} said;

static void say_text(const char *text, size_t length)
{
    said.at = realloc(said.at, said.length + length + 1);
    if (!said.at)
        give_up("no memory");
    memcpy(said.at + said.length, text, length);
    said.at[said.length + length] = '\n';
    said.length += length + 1;
}

/* The kinds of sayings, and what stands beside one that has no second text. */
enum { ANSWER = BM_SAY_ANSWER, FAIL = BM_SAY_FAIL, CLOSE = BM_SAY_CLOSE, ALONE = 16 };

static void say(int kind, double number, double code)
{
    double *it = says + 1 + 3 * said.count++;
    it[0] = kind;
    it[1] = number;
    it[2] = code;
}

static void answer(const double *head, const char *params, size_t length)
{
    static const char message[] = "Method not found";
    if (!((int)head[0] / 16 & BM_REQUEST))
        say(CLOSE, head[1], 0);
    else if (length) {
        say(ANSWER, head[1], 0);
        say_text(params, length);
    } else {
        say(FAIL | ALONE, head[1], -32601);
        say_text(message, sizeof message - 1);
    }
}

static void put(void)
{
    static uint8_t bytes[4096];
    napi_value texts;
    size_t count;
    napi_create_string_utf8(NULL, said.at ? said.at : "", said.length, &texts);
    napi_value given[] = {handle, number_of((double)said.count), texts, number_of((double)said.length),
                          bytes_of(bytes, sizeof bytes)};
    count = (size_t)call("say", 5, given)->number;
    said.length = said.count = 0;
    napi_value more[] = {handle, bytes_of(bytes, sizeof bytes)};
    for (; count; count = (size_t)call("take", 2, more)->number)
        if (fwrite(bytes, 1, count, stdout) != count)
            give_up("the output is gone");
}

/* An element of an array, whose properties lie in the order of the last one first. */
static napi_value element(napi_value array, size_t before_last)
{
    napi_value it = array->properties;
    while (before_last--)
        it = it->next;
    return it->value;
}

/* Answers what was told, and gives whether there may be more. The bodies stand in front, in an array of JSON; that of
 * an event without room among them, the last, is the second of four texts, of which the last has all others. */
static bool answer_all(napi_value texts)
{
    if (head_numbers[0] != BM_OK)
        give_up(bm_code_text((int32_t)head_numbers[0]));
    napi_value large = texts && texts->kind == A_OBJECT ? element(texts, 2) : NULL;
    const char *at = !texts ? "" : large ? element(texts, 0)->text + 1 : texts->text + 1;
    size_t count = (size_t)head_numbers[1];
    for (size_t i = 0; i < count; i++) {
        const double *head = head_numbers + 4 + 6 * i;
        bool is_large = large && i == count - 1;
        size_t length = is_large ? large->length : bytes_in(at, head[4]);
        if (((int)head[0] & 15) == BM_CALL)
            answer(head, is_large ? large->text : at, length);
        if (!is_large && length)
            at += length + 1;
    }
    return head_numbers[2] != 0;
}

static void hear(bool has_more)
{
    put();
    while (has_more) {
        napi_value given[] = {handle, number_of(0), truth(false), truth(false)};
        has_more = answer_all(call("events", 4, given));
        put();
    }
}

static void feed(uint8_t *bytes, size_t count)
{
    napi_value given[] = {handle, bytes_of(bytes, count), number_of(0), truth(false)};
    hear(answer_all(call("fed", 4, given)));
}

static void load(const char *file)
{
    napi_value (*begin)(napi_env, napi_value);
#ifdef _WIN32
    HMODULE at = LoadLibraryA(file);
    if (!at)
        give_up("the addon isn't loaded");
    FARPROC found = GetProcAddress(at, "napi_register_module_v1");
#else
    void *at = dlopen(file, RTLD_NOW | RTLD_LOCAL);
    if (!at)
        give_up(dlerror());
    void *found = dlsym(at, "napi_register_module_v1");
#endif
    if (!found)
        give_up("the addon has no napi_register_module_v1");
    memcpy(&begin, &found, sizeof begin);
    addon = begin(NULL, made_of(A_OBJECT));
    if (!addon)
        give_up(error_thrown ? error_thrown : "the addon doesn't begin");
}

int main(int count, char **words)
{
    static uint8_t bytes[4096];
    if (count != 2)
        give_up("usage: napi_host ADDON");
#ifdef _WIN32
    _setmode(_fileno(stdin), _O_BINARY);
    _setmode(_fileno(stdout), _O_BINARY);
#endif
    load(words[1]);
    says = property("says")->data;
    heads = call("heads", 0, NULL);
    head_numbers = heads->data;
    napi_value settings[] = {number_of(BM_LINES), number_of(0), number_of(0), number_of(100000),
                             number_of(0),        truth(false), number_of(0), truth(false)};
    handle = call("open", 8, settings);
    size_t got;
    while ((got = (size_t)read(0, bytes, sizeof bytes)) > 0)
        feed(bytes, got);
    napi_value ended[] = {handle, truth(false)};
    call("end", 2, ended);
    hear(true);
    if (!call("isDone", 1, &handle)->number)
        give_up("the connection isn't done");
    call("close", 1, &handle);
    return fflush(stdout) ? 1 : 0;
}
