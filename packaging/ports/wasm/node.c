/* The addon for Node.js, in WebAssembly: as much of Node-API as it calls, over values that JavaScript writes to memory
 * before a call and reads from it behind one. So the addon's own code is what both have, and the module needs no
 * imports. bindings/node/lib/wasm.js is the other side of this.
 *
 * A text that is told lies where the addon had it, in a room of its own or where the library has lent it: it is as it
 * was until the next call. */
#include "addon.c"

void *realloc(void *at, size_t size);

/* What a value is. JavaScript knows these numbers. */
enum { UNDEFINED, NUMBER, BOOLEAN, BIGINT, BYTES, WORDS, TEXT, ASCII, EXTERNAL, NUMBERS, LIST };
enum { MOST_VALUES = 8, MOST_LISTED = 9, ROOMS = 4 };

/* A BigInt has its lower half in `at` and its upper one in `length`. */
struct napi_value__ {
    double number;
    uint32_t kind, at, length, unused;
};

/* What JavaScript reads and writes. */
static struct {
    struct napi_value__ given[MOST_VALUES], made, listed[MOST_LISTED];
    /* of an error: where its code and its text are, or 0 */
    uint32_t error_code, error_text;
} here;

static shared *instance;
static struct napi_value__ one_number, list;

static uint32_t place_in_memory(const void *at)
{
    return (uint32_t)(size_t)at;
}

static void *at_place(uint32_t at)
{
    return (void *)(size_t)at;
}

static napi_status made_as(napi_value *made, uint32_t kind, const void *at, size_t length)
{
    here.made = (struct napi_value__){.kind = kind, .at = place_in_memory(at), .length = (uint32_t)length};
    *made = &here.made;
    return napi_ok;
}

static napi_status made_of(napi_value *made, uint32_t kind, double number)
{
    one_number = (struct napi_value__){.kind = kind, .number = number};
    *made = &one_number;
    return napi_ok;
}

napi_status napi_get_cb_info(napi_env env, napi_callback_info info, size_t *count, napi_value *given, napi_value *self,
                             void **data)
{
    for (size_t i = 0; i < *count; i++)
        given[i] = &here.given[i];
    return napi_ok;
}

napi_status napi_set_instance_data(napi_env env, void *data, napi_finalize finalize, void *hint)
{
    instance = data;
    return napi_ok;
}

napi_status napi_get_instance_data(napi_env env, void **data)
{
    *data = instance;
    return napi_ok;
}

napi_status napi_create_external(napi_env env, void *data, napi_finalize finalize, void *hint, napi_value *made)
{
    return made_as(made, EXTERNAL, data, 0);
}

napi_status napi_get_value_external(napi_env env, napi_value value, void **data)
{
    if (value->kind != EXTERNAL)
        return napi_invalid_arg;
    *data = at_place(value->at);
    return napi_ok;
}

napi_status napi_adjust_external_memory(napi_env env, int64_t change, int64_t *adjusted)
{
    return napi_ok;
}

napi_status napi_create_reference(napi_env env, napi_value value, uint32_t count, napi_ref *made)
{
    return napi_ok;
}

napi_status napi_throw_error(napi_env env, const char *code, const char *text)
{
    here.error_code = place_in_memory(code);
    here.error_text = place_in_memory(text);
    return napi_ok;
}

napi_status napi_create_function(napi_env env, const char *name, size_t length, napi_callback call, void *data,
                                 napi_value *made)
{
    return napi_ok;
}

napi_status napi_set_named_property(napi_env env, napi_value object, const char *name, napi_value value)
{
    return napi_ok;
}

napi_status napi_create_array_with_length(napi_env env, size_t length, napi_value *made)
{
    list = (struct napi_value__){.kind = LIST, .at = place_in_memory(here.listed), .length = (uint32_t)length};
    *made = &list;
    return napi_ok;
}

napi_status napi_set_element(napi_env env, napi_value array, uint32_t at, napi_value value)
{
    if (at >= MOST_LISTED)
        return napi_invalid_arg;
    here.listed[at] = *value;
    return napi_ok;
}

napi_status napi_create_arraybuffer(napi_env env, size_t length, void **data, napi_value *made)
{
    *data = calloc(1, length);
    if (*data)
        return made_as(made, NUMBERS, *data, length / sizeof(double));
    no_memory(env);
    return napi_invalid_arg;
}

napi_status napi_create_typedarray(napi_env env, napi_typedarray_type type, size_t length, napi_value buffer,
                                   size_t offset, napi_value *made)
{
    *made = buffer;
    return napi_ok;
}

napi_status napi_get_typedarray_info(napi_env env, napi_value array, napi_typedarray_type *type, size_t *length,
                                     void **data, napi_value *buffer, size_t *offset)
{
    if (array->kind != BYTES && array->kind != WORDS)
        return napi_invalid_arg;
    *type = array->kind == BYTES ? napi_uint8_array : napi_uint32_array;
    *length = array->length;
    *data = at_place(array->at);
    return napi_ok;
}

napi_status napi_get_undefined(napi_env env, napi_value *made)
{
    return made_of(made, UNDEFINED, 0);
}

napi_status napi_get_boolean(napi_env env, bool value, napi_value *made)
{
    return made_of(made, BOOLEAN, value);
}

napi_status napi_create_double(napi_env env, double value, napi_value *made)
{
    return made_of(made, NUMBER, value);
}

napi_status napi_get_value_bool(napi_env env, napi_value value, bool *got)
{
    if (value->kind != BOOLEAN)
        return napi_invalid_arg;
    *got = value->number != 0;
    return napi_ok;
}

napi_status napi_get_value_uint32(napi_env env, napi_value value, uint32_t *got)
{
    if (value->kind != NUMBER)
        return napi_invalid_arg;
    *got = (uint32_t)(int64_t)value->number;
    return napi_ok;
}

napi_status napi_get_value_double(napi_env env, napi_value value, double *got)
{
    if (value->kind != NUMBER)
        return napi_invalid_arg;
    *got = value->number;
    return napi_ok;
}

napi_status napi_get_value_bigint_int64(napi_env env, napi_value value, int64_t *got, bool *is_whole)
{
    if (value->kind != BIGINT)
        return napi_invalid_arg;
    *got = (int64_t)(value->at | (uint64_t)value->length << 32);
    return napi_ok;
}

napi_status napi_get_value_bigint_uint64(napi_env env, napi_value value, uint64_t *got, bool *is_whole)
{
    return napi_get_value_bigint_int64(env, value, (int64_t *)got, is_whole);
}

/* (the addon makes none of other letters so) */
napi_status napi_create_string_latin1(napi_env env, const char *text, size_t length, napi_value *made)
{
    return made_as(made, ASCII, text, length);
}

napi_status napi_create_string_utf8(napi_env env, const char *text, size_t length, napi_value *made)
{
    return made_as(made, TEXT, text, length);
}

/* (the room is never too small, since the addon has asked how long the text is, or knows it) */
napi_status napi_get_value_string_utf8(napi_env env, napi_value value, char *room, size_t size, size_t *length)
{
    if (value->kind != TEXT)
        return napi_string_expected;
    *length = value->length;
    if (room && value->length < size)
        memcpy(room, at_place(value->at), value->length);
    return napi_ok;
}

/* What JavaScript calls */

#define SEEN(name) __attribute__((export_name("node_" name)))

/* A call of the addon: its values are given, and what it makes is left to be read. */
#define CALLED(name, call)                                                                                             \
    SEEN(name) void node_##call(void)                                                                                  \
    {                                                                                                                  \
        here.error_text = 0;                                                                                           \
        napi_value made = call(NULL, NULL);                                                                            \
        if (made == NULL)                                                                                              \
            here.made.kind = UNDEFINED;                                                                                \
        else                                                                                                           \
            here.made = *made;                                                                                         \
    }

CALLED("open", open_one)
CALLED("close", close_one)
CALLED("heads", heads)
CALLED("feed", feed)
CALLED("fed", fed)
CALLED("events", events)
CALLED("end", end)
CALLED("say", say)
CALLED("take", take)
CALLED("sayOne", say_alone)
CALLED("callBatch", call_batch)
CALLED("counts", counts)
CALLED("pending", pending)
CALLED("held", held)
CALLED("isDone", is_done)
CALLED("faultAt", fault_at)

/* Begins; gives where values lie, or 0 where memory was refused. What was made is the array of what is said. */
SEEN("begin") uint32_t node_begin(void)
{
    napi_register_module_v1(NULL, NULL);
    return instance && instance->says ? place_in_memory(&here) : 0;
}

/* Frees a connection that nobody has any more. */
SEEN("forget") void node_forget(uint32_t at)
{
    forget(NULL, at_place(at), NULL);
}

/* Where JavaScript may write so many bytes, or 0 where memory is refused. There are a few such rooms; what one held is
 * gone. */
SEEN("room") uint32_t node_room(uint32_t which, uint32_t length)
{
    static bytes rooms[ROOMS];
    bytes *room = &rooms[which % ROOMS];
    if (room->length > KEPT && length <= KEPT)
        give_back(room);
    return grow(room, length) ? place_in_memory(room->at) : 0;
}
