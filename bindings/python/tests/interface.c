/* The library's calls of a connection, made so that they write down what they are given: for a test of what the
 * extension passes. It is linked with that in the library's place, and test_interface.py reads what is written, by
 * bm_output. What is lent is no more what it was once the loan is over. */
#include "bullmyrtle.h"

#include <stdarg.h>
#include <stdio.h>
#include <stdlib.h>
#include <string.h>
#include <unistd.h>

/* The texts of an event: its name, its text and its id. */
static const char TEXTS[] = "a\0b[10]\"i\"";

typedef struct {
    char said[4096];
    size_t length;
    size_t lent;
    int events;
    uint32_t done;
    uint8_t texts[sizeof TEXTS];
} made;

static void say(bm_connection *connection, const char *form, ...)
{
    made *it = connection->at;
    va_list words;
    va_start(words, form);
    it->length += (size_t)vsnprintf(it->said + it->length, sizeof it->said - it->length, form, words);
    va_end(words);
}

/* The last byte of some bytes, as far as there are any, where the pointer is one. */
static int last(const uint8_t *bytes, size_t length)
{
    return bytes == NULL ? -2 : length ? bytes[length - 1] : -1;
}

#define U(it) ((unsigned long long)(it))

static int32_t make(void **at, uint32_t done)
{
    made *it = calloc(1, sizeof *it);
    if (it == NULL) {
        return BM_NO_MEMORY;
    }
    it->done = done;
    *at = it;
    return BM_OK;
}

int32_t bm_open(const bm_options *options, void **at)
{
    int32_t code = make(at, options->cancels);
    if (code == BM_OK) {
        bm_connection connection = {*at};
        say(&connection, "open %u %u %u %u %u %u %llu %u %u\n", options->size == sizeof *options, options->framing,
            options->order, options->cancels, options->broken, options->content, U(options->calls), options->entries,
            options->null_params);
    }
    return code;
}

bool bm_fault_at(bm_connection *connection, uint64_t *offset)
{
    say(connection, "fault_at\n");
    *offset = UINT64_MAX;
    return ((made *)connection->at)->done;
}

void bm_free(bm_connection connection)
{
    free(connection.at);
}

/* What is fed as "wait N M" writes a byte to the second descriptor, and waits until there is one in the first. */
static void wait_for(const uint8_t *bytes, size_t length)
{
    char words[32] = "", byte = 'x';
    int until, told;
    memcpy(words, bytes, length < sizeof words ? length : sizeof words - 1);
    if (sscanf(words, "wait %d %d", &until, &told) != 2)
        return;
    if (write(told, &byte, 1) != 1 || read(until, &byte, 1) != 1)
        abort();
}

/* Ends the loan of an event's texts. */
static void take_back(bm_connection *connection)
{
    memset(((made *)connection->at)->texts, 'x', sizeof TEXTS);
}

int32_t bm_feed(bm_connection *connection, const uint8_t *bytes, size_t length)
{
    take_back(connection);
    wait_for(bytes, length);
    say(connection, "feed %zu %d\n", length, last(bytes, length));
    ((made *)connection->at)->events++;
    return BM_OK;
}

int32_t bm_end(bm_connection *connection, uint32_t how)
{
    take_back(connection);
    say(connection, "end %u\n", how);
    return BM_OK;
}

int32_t bm_next(bm_connection *connection, bm_event *event)
{
    made *it = connection->at;
    take_back(connection);
    memset(event, 0, sizeof *event);
    if (it->events == 0)
        return BM_OK;
    it->events--;
    memcpy(it->texts, TEXTS, sizeof TEXTS);
    event->kind = BM_CALL, event->flags = BM_REQUEST, event->number = UINT64_MAX;
    event->name_len = 3, event->text_len = 4, event->id_len = 3;
    event->name = it->texts, event->text = it->texts + 3, event->id = it->texts + 7;
    return BM_OK;
}

int32_t bm_call(bm_connection *connection, uint64_t number, const uint8_t *method, size_t method_length,
                const uint8_t *params, size_t params_length, uint64_t *key)
{
    say(connection, "call %llu %zu %d %zu %d\n", U(number), method_length, last(method, method_length), params_length,
        last(params, params_length));
    *key = U(1) << 52;
    return BM_OK;
}

int32_t bm_call_batch(bm_connection *connection, uint64_t number, const uint8_t *bytes, size_t length,
                      const size_t *lengths, size_t lengths_count, uint64_t *first)
{
    say(connection, "batch %llu %zu %d %zu", U(number), length, last(bytes, length), lengths_count);
    for (size_t at = 0; at < lengths_count; at++) {
        say(connection, " %zu", lengths[at]);
    }
    say(connection, "\n");
    *first = 5;
    return lengths == NULL || lengths_count == 0 ? BM_EMPTY : BM_OK;
}

int32_t bm_notify(bm_connection *connection, const uint8_t *method, size_t method_length, const uint8_t *params,
                  size_t params_length)
{
    say(connection, "notify %zu %d %zu %d\n", method_length, last(method, method_length), params_length,
        last(params, params_length));
    return BM_OK;
}

int32_t bm_withdraw(bm_connection *connection, uint64_t key)
{
    say(connection, "withdraw %llu\n", U(key));
    return BM_NOT_WAITING;
}

int32_t bm_answer(bm_connection *connection, uint64_t number, const uint8_t *result, size_t length)
{
    say(connection, "answer %llu %zu %d\n", U(number), length, last(result, length));
    return number == 7 ? BM_NO_MEMORY : BM_OK;
}

int32_t bm_fail(bm_connection *connection, uint64_t number, int64_t code, const uint8_t *message, size_t message_length,
                const uint8_t *data, size_t data_length)
{
    say(connection, "fail %llu %lld %zu %d %zu %d\n", U(number), (long long)code, message_length,
        last(message, message_length), data_length, last(data, data_length));
    return BM_OK;
}

int32_t bm_cancel(bm_connection *connection, uint64_t number)
{
    say(connection, "cancel %llu\n", U(number));
    return BM_NOT_OPEN;
}

size_t bm_pending(bm_connection *connection)
{
    return ((made *)connection->at)->length;
}

size_t bm_held(bm_connection *connection)
{
    (void)connection;
    return SIZE_MAX;
}

/* (in blocks, of which none is as long as what is read) */
size_t bm_output(bm_connection *connection, const uint8_t **bytes)
{
    made *it = connection->at;
    *bytes = (const uint8_t *)it->said;
    it->lent = it->length < 7 ? it->length : 7;
    return it->lent;
}

int32_t bm_written(bm_connection *connection, size_t length)
{
    made *it = connection->at;
    if (length > it->lent)
        return BM_SETTINGS;
    it->lent = 0, it->length -= length;
    memmove(it->said, it->said + length, it->length);
    return BM_OK;
}

bool bm_is_done(bm_connection *connection)
{
    return ((made *)connection->at)->done;
}

void bm_counts(bm_connection *connection, bm_report *report)
{
    (void)connection;
    report->calls = U(1) << 40, report->requests = 1, report->open = 2, report->waiting = 3, report->own_calls = 4;
    report->answers_written = 5, report->unreadable = 6, report->invalid = 7, report->ignored = U(1) << 41;
}
