/* The model that bench/run measures beside the limit: what the contract of a connection costs a host in C, written in
 * the usual ways and without a proof. It has those functions of bullmyrtle.h that bench/embedded/host.c calls, so that
 * host.c links with it in place of the library. What it does and the limit doesn't: bytes are copied as they are fed,
 * each call is kept until it is answered, cancels reach it by an index of the ids, texts are lent in compact form, what
 * the host passes is validated and made compact, output is kept until it is written, and the answers of a batch go out
 * in the order of its entries.
 *
 * It is a mark for that cost and no peer to use. It ends the program where memory is refused, and at what is rare:
 * heads other than the usual one, replies that are errors, data of errors, and messages of errors and methods that need
 * escapes. It knows one setting, frames with the cancels of the Language Server Protocol, and no limits. It is fed once
 * all events are told, as by host.c. */
#include "bullmyrtle.h"
#include "calls.h"

#include <stdio.h>

static void fail(const char *why)
{
    fprintf(stderr, "model: %s\n", why);
    abort();
}

/* The content under way has `count` entries, of which `told` are told. They lie in the input where that was compact,
 * and else in `copy`. `moved` is how far that is from where they were read. */
typedef struct {
    buffer in, copy, checked;
    size_t content;
    bool is_head_read;
    entry *entries;
    size_t size, count, told;
    ptrdiff_t moved;
    batch *array;
    size_t place;
    their_calls theirs;
    window ours;
    buffer lent, out;
    bool has_ended, is_end_told;
} model;

enum {
    ANSWER = 128,       /* what an answer has beside its id, and its result or message */
    LEVELS_PASSED = 120 /* how deep a text of the host nests */
};

int32_t bm_open(const bm_options *options, void **at)
{
    if (options->framing != BM_FRAMES || options->cancels != BM_CANCELS_LSP)
        fail("a setting other than frames and $/cancelRequest");
    model *it = calloc(1, sizeof *it);
    if (!it)
        return BM_NO_MEMORY;
    it->theirs.calls.first = it->ours.first = 1;
    *at = it;
    return BM_OK;
}

void bm_free(bm_connection connection)
{
    model *it = connection.at;
    buffer *const buffers[] = {&it->in, &it->copy, &it->checked, &it->lent, &it->out};
    for (size_t i = 0; i < sizeof buffers / sizeof *buffers; i++)
        free(buffers[i]->bytes);
    free(it->entries);
    free(it->theirs.calls.places);
    free(it->theirs.chains);
    free(it->ours.places);
    free(it);
}

/* ---- the input */

int32_t bm_feed(bm_connection *connection, const uint8_t *bytes, size_t length)
{
    model *it = connection->at;
    if (it->has_ended)
        return BM_OVER;
    if (it->told < it->count)
        fail("fed before all events are told");
    if (it->in.from) {
        memmove(it->in.bytes, it->in.bytes + it->in.from, it->in.to - it->in.from);
        it->in.to -= it->in.from;
        it->in.from = 0;
    }
    memcpy(room(&it->in, length), bytes, length);
    it->in.to += length;
    it->in.bytes[it->in.to] = 0;
    return BM_OK;
}

int32_t bm_end(bm_connection *connection, uint32_t how)
{
    model *it = connection->at;
    if (it->has_ended)
        return BM_OVER;
    if (how > BM_READ_FAILED)
        return BM_SETTINGS;
    it->has_ended = true;
    return BM_OK;
}

/* Whether a content is whole. */
static bool has_content(model *it)
{
    if (!it->is_head_read) {
        uint8_t *end = it->in.bytes + it->in.to;
        uint8_t *at = frame_head_end(it->in.bytes + it->in.from, end, &it->content);
        if (!at)
            return false;
        it->in.from = (size_t)(at - it->in.bytes);
        it->is_head_read = true;
    }
    return it->in.to - it->in.from >= it->content;
}

static entry *one_more_entry(model *it)
{
    if (it->count == it->size) {
        it->size = 2 * it->size + 16;
        it->entries = sized(it->entries, it->size * sizeof *it->entries);
    }
    return &it->entries[it->count++];
}

/* Reads all entries of a batch from its bracket on, and gives what is behind it, or NULL. */
static const uint8_t *read_entries(model *it, const uint8_t *at, const uint8_t *end, scanned *seen)
{
    at = blanks_end(at + 1, seen);
    if (*at == ']')
        return at + 1;
    for (;; at = blanks_end(at + 1, seen)) {
        if (!(at = read_entry(at, end, DEPTH - 1, one_more_entry(it), seen)))
            return NULL;
        at = blanks_end(at, seen);
        if (*at == ']')
            return at + 1;
        if (*at != ',')
            return NULL;
    }
}

static void move_text(text *it, ptrdiff_t by)
{
    if (it->length)
        it->at += by;
}

/* Where an entry's texts lie, once all of the content is read. */
static entry moved_entry(const entry *read, ptrdiff_t by)
{
    entry it = *read;
    text *const texts[] = {&it.id, &it.method, &it.params, &it.result, &it.error};
    for (size_t i = 0; i < sizeof texts / sizeof *texts; i++)
        move_text(texts[i], by);
    return it;
}

static bool gets_answer(const entry *it)
{
    return is_call(it) ? it->id.length : !is_reply(it);
}

/* Makes an array for the answers of a batch, if it gets any. */
static batch *made_array(const model *it)
{
    size_t count = 0;
    for (size_t i = 0; i < it->count; i++) {
        entry moved = moved_entry(&it->entries[i], it->moved);
        count += gets_answer(&moved);
    }
    if (!count)
        return NULL;
    batch *made = sized(NULL, sizeof *made);
    *made = (batch){.places = sized(NULL, count * sizeof *made->places), .count = count, .lacking = count};
    return made;
}

/* Reads the content that lies at `from`, and says whether it is a batch. It has no entries where it can't be read. */
static bool read_content(model *it, const uint8_t *from, const uint8_t *end)
{
    uint8_t *copy = room_from(&it->copy, it->copy.bytes, it->content);
    scanned seen = scan_into(from, copy);
    const uint8_t *at = blanks_end(from, &seen);
    bool is_batch = *at == '[';
    at = is_batch ? read_entries(it, at, end, &seen) : read_entry(at, end, DEPTH, one_more_entry(it), &seen);
    if (!is_over(from, at, end, &seen)) {
        it->count = 0;
        refuse_unnamed(&it->out, TEXT(PARSE_ERROR));
    } else if (!it->count)
        refuse_unnamed(&it->out, TEXT(INVALID_REQUEST));
    it->moved = has_copy(from, end, &seen) ? 0 : from - copy;
    return is_batch;
}

static void begin_content(model *it)
{
    uint8_t *from = it->in.bytes + it->in.from, *end = from + it->content, behind = *end;
    it->count = it->told = it->place = 0;
    *end = 0; /* (the scanner stops at it) */
    bool is_batch = read_content(it, from, end);
    *end = behind;
    it->array = is_batch ? made_array(it) : NULL;
    it->in.from += it->content;
    it->is_head_read = false;
}

/* ---- answers */

/* Writes the answers of a batch, all of which are there. */
static void put_array(model *it, batch *answered)
{
    uint8_t *to = begin(&it->out, answered->answers.to + answered->count + 1);
    *to++ = '[';
    for (size_t i = 0; i < answered->count; i++) {
        const span *place = &answered->places[i];
        to = put(to, (text){answered->answers.bytes + place->at, place->length});
        *to++ = ',';
    }
    to[-1] = ']';
    finish(&it->out, to);
    free(answered->answers.bytes);
    free(answered->places);
    free(answered);
}

/* Begins an answer of at most so many bytes, in its array where it has one. */
static uint8_t *begin_answer(model *it, batch *in_array, size_t most)
{
    return in_array ? room(&in_array->answers, most) : begin(&it->out, most);
}

static void finish_answer(model *it, batch *in_array, size_t place, uint8_t *end)
{
    if (!in_array) {
        finish(&it->out, end);
        return;
    }
    buffer *answers = &in_array->answers;
    size_t length = (size_t)(end - answers->bytes) - answers->to;
    in_array->places[place] = (span){answers->to, length};
    answers->to += length;
    if (!--in_array->lacking)
        put_array(it, in_array);
}

/* Closes a call. The replies to our calls on its behalf are ignored from now on. */
static void close_call(model *it, uint64_t number)
{
    for (uint64_t key = their_place(&it->theirs, number)->key; key >= it->ours.first;) {
        our_call *ours = our_place(&it->ours, key);
        if (ours->state == WAITS)
            ours->state = IGNORED;
        key = ours->next;
    }
    close_their_call(&it->theirs, number);
}

/* Copies a JSON text of the host, validates it and makes it compact. Gives what is behind it, or NULL. */
static uint8_t *put_checked(model *it, uint8_t *to, const uint8_t *from, size_t length)
{
    uint8_t *end = put(to, (text){from, length});
    uint8_t *copy = room_from(&it->checked, it->checked.bytes, length);
    scanned seen = scan_into(to, copy);
    *end = 0;
    const uint8_t *at = scan(blanks_end(to, &seen), end, LEVELS_PASSED, &seen);
    if (!is_over(to, at, end, &seen))
        return NULL;
    return has_copy(to, end, &seen) ? put(to, (text){copy, (size_t)(seen.to - copy)}) : end;
}

int32_t bm_answer(bm_connection *connection, uint64_t number, const uint8_t *result, size_t length)
{
    model *it = connection->at;
    their_call *call = open_call(&it->theirs, number);
    if (!call)
        return BM_NOT_OPEN;
    uint8_t *to =
        put_before_result(begin_answer(it, call->array, call->id.length + length + ANSWER), text_of(&call->id));
    bool has_result = length || call->id.length;
    if (has_result && !(to = put_checked(it, to, result, length)))
        return BM_NOT_JSON;
    if (call->id.length)
        finish_answer(it, call->array, call->place, put(to, TEXT("}")));
    close_call(it, number);
    return BM_OK;
}

int32_t bm_close_call(bm_connection *connection, uint64_t number)
{
    model *it = connection->at;
    const their_call *call = open_call(&it->theirs, number);
    if (!call)
        return BM_NOT_OPEN;
    if (call->id.length)
        return BM_NOT_JSON;
    close_call(it, number);
    return BM_OK;
}

/* Copies a text of the host as a JSON string, or gives NULL where it isn't UTF-8. */
static uint8_t *put_string(uint8_t *to, const uint8_t *from, size_t length)
{
    for (size_t i = 0; i < length; i++)
        if (from[i] < ' ' || from[i] == '"' || from[i] == '\\')
            fail("a text that needs escapes");
    uint8_t *end = put(put(to, TEXT("\"")), (text){from, length});
    return is_utf8(to, end) ? put(end, TEXT("\"")) : NULL;
}

int32_t bm_fail(bm_connection *connection, uint64_t number, int64_t code, const uint8_t *message, size_t message_length,
                const uint8_t *data, size_t data_length)
{
    model *it = connection->at;
    their_call *call = open_call(&it->theirs, number);
    (void)data;
    if (data_length)
        fail("data of an error");
    if (!call)
        return BM_NOT_OPEN;
    uint8_t *to = begin_answer(it, call->array, call->id.length + message_length + ANSWER);
    to = put_number(put(put(to, TEXT(BEFORE_ERROR)), TEXT("{\"code\":")), code);
    if (!(to = put_string(put(to, TEXT(",\"message\":")), message, message_length)))
        return BM_NOT_TEXT;
    if (call->id.length)
        finish_answer(it, call->array, call->place, put_behind_error(put(to, TEXT("}")), text_of(&call->id)));
    close_call(it, number);
    return BM_OK;
}

int32_t bm_cancel(bm_connection *connection, uint64_t number)
{
    model *it = connection->at;
    const their_call *call = open_call(&it->theirs, number);
    if (!call)
        return BM_NOT_OPEN;
    for (uint64_t key = call->key; key >= it->ours.first; key = our_place(&it->ours, key)->next)
        if (our_place(&it->ours, key)->state == WAITS)
            withdraw(&it->out, key);
    static const char message[] = "Request cancelled";
    return bm_fail(connection, number, -32800, (const uint8_t *)message, sizeof message - 1, NULL, 0);
}

/* ---- calls of ours */

int32_t bm_call(bm_connection *connection, uint64_t number, const uint8_t *method, size_t method_length,
                const uint8_t *params, size_t params_length, uint64_t *key)
{
    model *it = connection->at;
    their_call *call = open_call(&it->theirs, number);
    if (number && !call)
        return BM_NOT_OPEN;
    if (it->has_ended)
        return BM_OVER;
    uint8_t *to = begin(&it->out, method_length + params_length + ANSWER);
    if (!(to = put_string(put_before_method(to, it->ours.last + 1), method, method_length)))
        return BM_NOT_TEXT;
    if (params_length) {
        const uint8_t *first = to = put(to, TEXT(",\"params\":"));
        if (!(to = put_checked(it, to, params, params_length)) || (*first != '[' && *first != '{'))
            return BM_NOT_JSON;
    }
    finish(&it->out, put(to, TEXT("}")));
    *key = open_our_call(&it->ours, call ? call->key : 0);
    if (call)
        call->key = *key;
    return BM_OK;
}

/* ---- events */

static void tell_call(model *it, const entry *came, bm_event *event)
{
    text method = {came->method.at + 1, came->method.length - 2}, params = came->params;
    if (memchr(method.at, '\\', method.length))
        fail("a method with an escape");
    if (params.length && *params.at == 'n')
        params.length = 0;
    event->kind = BM_CALL;
    event->flags = came->id.length ? BM_REQUEST : 0;
    event->number = open_their_call(&it->theirs, came->id, came->id.length ? it->array : NULL, it->place);
    it->place += came->id.length > 0;
    event->name = method.at;
    event->name_len = method.length;
    event->text = params.at;
    event->text_len = params.length;
    event->id = came->id.at;
    event->id_len = came->id.length;
}

/* Tells of a cancel, if it reaches a call. */
static bool tell_cancel(model *it, text params, bm_event *event)
{
    scanned seen = scan_into(params.at, (uint8_t *)params.at); /* (it is compact) */
    uint64_t number = found_call(&it->theirs, cancelled_id(params, &seen));
    if (!number)
        return false;
    their_place(&it->theirs, number)->is_cancelled = true;
    event->kind = BM_CANCELLED;
    event->number = number;
    return true;
}

/* Tells of a reply, if it is waited for. */
static bool tell_reply(model *it, const entry *came, bm_event *event)
{
    if (came->error.length || !came->is_version_2)
        fail("a reply that is an error");
    uint64_t key = key_of(came->id);
    if (!end_our_call(&it->ours, key))
        return false;
    event->kind = BM_REPLIED;
    event->key = key;
    event->text = came->result.at;
    event->text_len = came->result.length;
    return true;
}

static void refuse_entry(model *it)
{
    uint8_t *to = begin_answer(it, it->array, ANSWER);
    finish_answer(it, it->array, it->place, put_error(to, TEXT("null"), TEXT(INVALID_REQUEST)));
    it->place += it->array != NULL;
}

/* Tells of an entry, if there is something to tell. */
static bool tell_entry(model *it, const entry *came, bm_event *event)
{
    bool is_well = is_call(came);
    if (is_well && !came->id.length && is(came->method, TEXT("\"$/cancelRequest\"")))
        return tell_cancel(it, came->params, event);
    if (is_well) {
        tell_call(it, came, event);
        return true;
    }
    if (is_reply(came))
        return tell_reply(it, came, event);
    refuse_entry(it);
    return false;
}

/* Once the input has ended: tells of our calls without a reply, and then of the end. */
static void tell_end(model *it, bm_event *event)
{
    while (window_length(&it->ours)) {
        uint64_t key = it->ours.first;
        if (!end_our_call(&it->ours, key))
            continue;
        event->kind = BM_UNANSWERED;
        event->key = key;
        return;
    }
    it->is_end_told = true;
    event->kind = BM_INPUT_OVER;
}

int32_t bm_next(bm_connection *connection, bm_event *event)
{
    model *it = connection->at;
    memset(event, 0, sizeof *event);
    for (;;) {
        while (it->told < it->count) {
            entry came = moved_entry(&it->entries[it->told++], it->moved);
            if (tell_entry(it, &came, event))
                return BM_OK;
        }
        if (!has_content(it))
            break;
        begin_content(it);
    }
    if (it->has_ended && !it->is_end_told)
        tell_end(it, event);
    return BM_OK;
}

bool bm_is_done(bm_connection *connection)
{
    const model *it = connection->at;
    return it->is_end_told && !it->theirs.open && it->lent.from == it->lent.to && !it->out.to;
}

/* ---- the output */

/* What is lent isn't written to: what is sent meanwhile goes to a buffer of its own. */
size_t bm_output(bm_connection *connection, const uint8_t **bytes)
{
    model *it = connection->at;
    if (it->lent.from == it->lent.to) {
        buffer empty = it->lent;
        it->lent = it->out;
        empty.from = empty.to = 0;
        it->out = empty;
    }
    *bytes = it->lent.bytes + it->lent.from;
    return it->lent.to - it->lent.from;
}

int32_t bm_written(bm_connection *connection, size_t length)
{
    model *it = connection->at;
    if (length > it->lent.to - it->lent.from)
        return BM_SETTINGS;
    it->lent.from += length;
    return BM_OK;
}
