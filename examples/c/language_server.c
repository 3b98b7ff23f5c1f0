/* A language server on the standard streams. It has one hover, whose words it asks the editor for (the setting
 * `example.greeting`), and one diagnostic: a line of more than 80 bytes. JSON is taken apart and made by cJSON. */
#include "bullmyrtle.h"

#include <cjson/cJSON.h>
#include <stdio.h>
#include <stdlib.h>
#include <string.h>
#include <unistd.h>

/* Codes of errors, by JSON-RPC 2.0 (section 5.1) and LSP 3.17. */
enum { INVALID_REQUEST = -32600, METHOD_NOT_FOUND = -32601, INVALID_PARAMS = -32602, NOT_INITIALIZED = -32002 };

enum { MOST_COLUMNS = 80 };

/* A hover that waits for the editor's setting, by the key of our call. */
typedef struct hover {
    uint64_t key, number;
    struct hover *next;
} hover;

static bm_connection connection;
static hover *hovers;
static bool is_initialized, is_shut_down, has_exit;

/* Ends the program where it can't go on: there is no memory, or the streams are gone. */
static void fail(const char *why)
{
    fprintf(stderr, "language_server: %s\n", why);
    exit(1);
}

static void check(int32_t code)
{
    if (code != BM_OK)
        fail(code == BM_NO_MEMORY ? "out of memory" : "the library refused a call");
}

static void *some(void *made)
{
    if (!made)
        fail("out of memory");
    return made;
}

/* Each of these frees the value that it says. */
static char *text_of(cJSON *value)
{
    char *text = some(cJSON_PrintUnformatted(some(value)));
    cJSON_Delete(value);
    return text;
}

static void answer(uint64_t number, cJSON *result)
{
    char *text = text_of(result);
    check(bm_answer(&connection, number, (const uint8_t *)text, strlen(text)));
    free(text);
}

static void notify(const char *method, cJSON *params)
{
    char *text = text_of(params);
    check(bm_notify(&connection, (const uint8_t *)method, strlen(method), (const uint8_t *)text, strlen(text)));
    free(text);
}

static void refuse(uint64_t number, int64_t code, const char *message)
{
    check(bm_fail(&connection, number, code, (const uint8_t *)message, strlen(message), NULL, 0));
}

static cJSON *member(const cJSON *value, const char *name)
{
    return cJSON_GetObjectItemCaseSensitive(value, name);
}

static const char *string_in(const cJSON *value, const char *name)
{
    return cJSON_GetStringValue(member(value, name));
}

/* Whether a member is a whole number from 0 to 2^31 - 1, LSP's uinteger. */
static bool has_count(const cJSON *value, const char *name)
{
    const cJSON *it = member(value, name);
    return cJSON_IsNumber(it) && it->valuedouble >= 0 && it->valuedouble <= INT32_MAX &&
           it->valuedouble == (int32_t)it->valuedouble;
}

/* ---- methods */

static void initialize(uint64_t number)
{
    cJSON *result = some(cJSON_CreateObject());
    cJSON *capabilities = some(cJSON_AddObjectToObject(result, "capabilities"));
    some(cJSON_AddTrueToObject(capabilities, "hoverProvider"));
    some(cJSON_AddNumberToObject(capabilities, "textDocumentSync", 1)); /* whole texts */
    is_initialized = true;
    answer(number, result);
}

/* What is wrong with the params of a hover, or NULL. */
static const char *fault_of(const cJSON *params)
{
    const cJSON *place = member(params, "position");
    if (!string_in(member(params, "textDocument"), "uri"))
        return "params.textDocument.uri: expected a string";
    if (!has_count(place, "line") || !has_count(place, "character"))
        return "params.position: expected a line and a character";
    return NULL;
}

/* Asks the editor for the setting, on behalf of the hover. */
static void hover_at(uint64_t number)
{
    static const char method[] = "workspace/configuration";
    static const char params[] = "{\"items\":[{\"section\":\"example.greeting\"}]}";
    hover *made = some(malloc(sizeof *made));
    made->number = number;
    made->next = hovers;
    hovers = made;
    check(bm_call(&connection, number, (const uint8_t *)method, sizeof method - 1, (const uint8_t *)params,
                  sizeof params - 1, &made->key));
}

/* Takes the hover with this key, or of this number, from those that wait. */
static hover *take_hover(uint64_t key, uint64_t number)
{
    for (hover **at = &hovers; *at; at = &(*at)->next)
        if ((*at)->key == key || (*at)->number == number) {
            hover *it = *at;
            *at = it->next;
            return it;
        }
    return NULL;
}

static void configured(uint64_t key, bool is_error, const cJSON *settings)
{
    hover *it = take_hover(key, 0);
    const char *greeting = is_error ? NULL : cJSON_GetStringValue(cJSON_GetArrayItem(settings, 0));
    if (!it)
        return;
    cJSON *result = some(cJSON_CreateObject());
    cJSON *contents = some(cJSON_AddObjectToObject(result, "contents"));
    some(cJSON_AddStringToObject(contents, "kind", "plaintext"));
    some(cJSON_AddStringToObject(contents, "value", greeting ? greeting : "no greeting is set"));
    answer(it->number, result);
    free(it);
}

static void add_place(cJSON *range, const char *name, double line, double column)
{
    cJSON *place = some(cJSON_AddObjectToObject(range, name));
    some(cJSON_AddNumberToObject(place, "line", line));
    some(cJSON_AddNumberToObject(place, "character", column));
}

static void diagnose(const char *uri, const char *text)
{
    cJSON *params = some(cJSON_CreateObject());
    some(cJSON_AddStringToObject(params, "uri", uri));
    cJSON *all = some(cJSON_AddArrayToObject(params, "diagnostics"));
    for (double line = 0; *text; line++) {
        size_t length = strcspn(text, "\n");
        if (length > MOST_COLUMNS) {
            cJSON *it = some(cJSON_CreateObject());
            cJSON_AddItemToArray(all, it);
            cJSON *range = some(cJSON_AddObjectToObject(it, "range"));
            add_place(range, "start", line, 0);
            add_place(range, "end", line + 1, 0);
            some(cJSON_AddNumberToObject(it, "severity", 2));
            some(cJSON_AddStringToObject(it, "message", "this line has more than 80 bytes"));
        }
        text += length + (text[length] == '\n');
    }
    notify("textDocument/publishDiagnostics", params);
}

/* ---- events */

/* (a method's name has no zero byte behind it) */
static bool is_method(const bm_event *event, const char *name)
{
    return event->name_len == strlen(name) && !memcmp(event->name, name, event->name_len);
}

static void request(const bm_event *event, const cJSON *params)
{
    const uint64_t number = event->number;
    const bool is_initialize = is_method(event, "initialize");
    if (is_initialize && !is_initialized) {
        if (cJSON_IsObject(params))
            initialize(number);
        else
            refuse(number, INVALID_PARAMS, "params: expected an object");
    } else if (!is_initialized)
        refuse(number, NOT_INITIALIZED, "not initialized");
    else if (is_shut_down || is_initialize)
        refuse(number, INVALID_REQUEST, "not at this time");
    else if (is_method(event, "textDocument/hover")) {
        const char *fault = fault_of(params);
        if (fault)
            refuse(number, INVALID_PARAMS, fault);
        else
            hover_at(number);
    } else if (is_method(event, "shutdown")) {
        is_shut_down = true;
        answer(number, cJSON_CreateNull());
    } else
        refuse(number, METHOD_NOT_FOUND, "no such method");
}

static void notification(const bm_event *event, const cJSON *params)
{
    const cJSON *document = member(params, "textDocument");
    const char *uri = string_in(document, "uri"), *text = NULL;
    if (is_method(event, "exit"))
        has_exit = true;
    else if (is_method(event, "textDocument/didOpen"))
        text = string_in(document, "text");
    else if (is_method(event, "textDocument/didChange")) {
        const cJSON *changes = member(params, "contentChanges");
        text = string_in(cJSON_GetArrayItem(changes, cJSON_GetArraySize(changes) - 1), "text");
    }
    if (is_initialized && uri && text)
        diagnose(uri, text);
}

/* A request that is cancelled gets its answer here, unless it has one by now. */
static void cancelled(uint64_t number)
{
    int32_t code = bm_cancel(&connection, number);
    free(take_hover(0, number));
    if (code != BM_NOT_OPEN)
        check(code);
}

static void handle(const bm_event *event)
{
    const char *text = (const char *)event->text;
    cJSON *value = event->text_len ? some(cJSON_ParseWithLength(text, event->text_len)) : NULL;
    if (event->kind == BM_CANCELLED)
        cancelled(event->number);
    else if (event->kind == BM_REPLIED)
        configured(event->key, event->flags & BM_ERROR, value);
    else if (event->kind == BM_UNANSWERED)
        configured(event->key, true, NULL);
    else if (event->kind == BM_CALL && event->flags & BM_REQUEST)
        request(event, value);
    else if (event->kind == BM_CALL) {
        notification(event, value);
        check(bm_close_call(&connection, event->number)); /* done with the notification */
    }
    cJSON_Delete(value);
}

static void hear(void)
{
    bm_event event;
    while (!has_exit && (check(bm_next(&connection, &event)), event.kind != BM_NONE))
        handle(&event);
}

static void put(void)
{
    const uint8_t *bytes;
    for (size_t length; (length = bm_output(&connection, &bytes)) > 0;) {
        ssize_t count = write(STDOUT_FILENO, bytes, length);
        if (count < 0)
            fail("the output is gone");
        check(bm_written(&connection, (size_t)count));
    }
}

int main(void)
{
    bm_options options = {.size = sizeof options, .framing = BM_FRAMES, .cancels = BM_CANCELS_LSP};
    uint8_t bytes[65536];
    if (bm_interface() != BM_INTERFACE)
        fail("the library has another interface");
    check(bm_open(&options, &connection.at));
    while (!has_exit && !bm_is_done(&connection)) {
        ssize_t count = read(STDIN_FILENO, bytes, sizeof bytes);
        if (count > 0)
            check(bm_feed(&connection, bytes, (size_t)count));
        else
            check(bm_end(&connection, count ? BM_READ_FAILED : BM_CLOSED));
        hear();
        put();
    }
    while (hovers)
        free(take_hover(hovers->key, 0));
    bm_free(connection);
    return is_shut_down ? 0 : 1;
}
