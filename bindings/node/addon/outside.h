/* What the addon calls outside of itself: Node-API 8, which Node.js keeps from version 12.22 on, and the C library.
 *
 * These are declarations written by hand, so that the addon is the same byte for byte wherever it is built, and needs
 * no headers of Node.js. With NODE_HEADERS those of Node.js are taken, and the compiler compares the two. */
#ifndef OUTSIDE_H
#define OUTSIDE_H

#include <stdbool.h>
#include <stddef.h>
#include <stdint.h>

#ifdef NODE_HEADERS
#include <node_api.h>
#include <stdlib.h>
#include <string.h>
#else
typedef struct napi_env__ *napi_env;
typedef struct napi_value__ *napi_value;
typedef struct napi_ref__ *napi_ref;
typedef struct napi_callback_info__ *napi_callback_info;
typedef enum { napi_ok, napi_invalid_arg, napi_object_expected, napi_string_expected, napi_name_expected } napi_status;
typedef enum { napi_uint8_array = 1, napi_uint32_array = 6, napi_float64_array = 8 } napi_typedarray_type;
typedef napi_value (*napi_callback)(napi_env env, napi_callback_info info);
typedef void (*napi_finalize)(napi_env env, void *data, void *hint);
#define NAPI_AUTO_LENGTH __SIZE_MAX__
#endif

napi_status napi_get_cb_info(napi_env env, napi_callback_info info, size_t *count, napi_value *given, napi_value *self,
                             void **data);
napi_status napi_set_instance_data(napi_env env, void *data, napi_finalize finalize, void *hint);
napi_status napi_get_instance_data(napi_env env, void **data);
napi_status napi_create_external(napi_env env, void *data, napi_finalize finalize, void *hint, napi_value *made);
napi_status napi_get_value_external(napi_env env, napi_value value, void **data);
napi_status napi_adjust_external_memory(napi_env env, int64_t change, int64_t *adjusted);
napi_status napi_create_reference(napi_env env, napi_value value, uint32_t count, napi_ref *made);
napi_status napi_throw_error(napi_env env, const char *code, const char *text);
napi_status napi_create_function(napi_env env, const char *name, size_t length, napi_callback call, void *data,
                                 napi_value *made);
napi_status napi_set_named_property(napi_env env, napi_value object, const char *name, napi_value value);
napi_status napi_create_array_with_length(napi_env env, size_t length, napi_value *made);
napi_status napi_set_element(napi_env env, napi_value array, uint32_t at, napi_value value);
napi_status napi_create_arraybuffer(napi_env env, size_t length, void **data, napi_value *made);
napi_status napi_create_typedarray(napi_env env, napi_typedarray_type type, size_t length, napi_value buffer,
                                   size_t offset, napi_value *made);
napi_status napi_get_typedarray_info(napi_env env, napi_value array, napi_typedarray_type *type, size_t *length,
                                     void **data, napi_value *buffer, size_t *offset);
napi_status napi_get_undefined(napi_env env, napi_value *made);
napi_status napi_get_boolean(napi_env env, bool value, napi_value *made);
napi_status napi_create_double(napi_env env, double value, napi_value *made);
napi_status napi_get_value_bool(napi_env env, napi_value value, bool *got);
napi_status napi_get_value_uint32(napi_env env, napi_value value, uint32_t *got);
napi_status napi_get_value_double(napi_env env, napi_value value, double *got);
napi_status napi_get_value_bigint_int64(napi_env env, napi_value value, int64_t *got, bool *is_whole);
napi_status napi_get_value_bigint_uint64(napi_env env, napi_value value, uint64_t *got, bool *is_whole);
napi_status napi_create_string_latin1(napi_env env, const char *text, size_t length, napi_value *made);
napi_status napi_create_string_utf8(napi_env env, const char *text, size_t length, napi_value *made);
napi_status napi_get_value_string_utf8(napi_env env, napi_value value, char *room, size_t size, size_t *length);

void *malloc(size_t size);
void *calloc(size_t count, size_t size);
void free(void *at);
void *memcpy(void *to, const void *from, size_t length);
void *memmove(void *to, const void *from, size_t length);
void *memchr(const void *at, int byte, size_t length);

#endif
