/* Linked around the static library by --wrap, refuses the library's requests for memory: the one with the number
 * REFUSE_NTH, counted from 1, or with REFUSE_FROM that one and those behind it, until a call gives BM_NO_MEMORY; with
 * REFUSE_EACH each request of each call in turn, in one run: the first of a call, and as the call is made again its
 * second, until it meets no refusal. (One run goes through all where a process takes long to begin, as in an emulator.)
 * That call has to have changed nothing. It is made again, and then has to go on as if no memory had been refused.
 * A call that needs no memory may ask for none. The descriptor REFUSE_TELL gets a line for each refusal,
 * `refused`, and one for each call that gives BM_NO_MEMORY, its name. */
#include "bullmyrtle.h"

#include <stdio.h>
#include <stdlib.h>
#include <string.h>
#include <unistd.h>

void *__real_malloc(size_t);
void *__real_realloc(void *, size_t);
int32_t __real_bm_open(const bm_options *, void **);
void __real_bm_free(bm_connection);
int32_t __real_bm_feed(bm_connection *, const uint8_t *, size_t);
int32_t __real_bm_end(bm_connection *, uint32_t);
bool __real_bm_fault_at(bm_connection *, uint64_t *);
int32_t __real_bm_next(bm_connection *, bm_event *);
int32_t __real_bm_call(bm_connection *, uint64_t, const uint8_t *, size_t, const uint8_t *, size_t, uint64_t *);
int32_t __real_bm_call_batch(bm_connection *, uint64_t, const uint8_t *, size_t, const size_t *, size_t, uint64_t *);
int32_t __real_bm_notify(bm_connection *, const uint8_t *, size_t, const uint8_t *, size_t);
int32_t __real_bm_withdraw(bm_connection *, uint64_t);
int32_t __real_bm_answer(bm_connection *, uint64_t, const uint8_t *, size_t);
int32_t __real_bm_fail(bm_connection *, uint64_t, int64_t, const uint8_t *, size_t, const uint8_t *, size_t);
int32_t __real_bm_cancel(bm_connection *, uint64_t);
int32_t __real_bm_close_call(bm_connection *, uint64_t);
int32_t __real_bm_say_all(bm_connection *, bm_saying *, size_t, const uint8_t *, size_t, size_t *);
size_t __real_bm_output(bm_connection *, const uint8_t **);
int32_t __real_bm_written(bm_connection *, size_t);
size_t __real_bm_pending(bm_connection *);
size_t __real_bm_held(bm_connection *);
bool __real_bm_is_done(bm_connection *);
void __real_bm_counts(bm_connection *, bm_report *);

static unsigned long nth, from, requests;
/* Where each is refused in turn: how many requests there were before this call. */
static unsigned long earlier;
static int told_to = -1;
/* Whether a call of the library is under way, may be refused memory, and was. */
static bool is_inside, may_refuse, was_refused;
/* Whether a call that was refused may be refused another request as it is made again. */
static bool is_each;

static void check(bool is_so, const char *call, const char *what)
{
    if (!is_so) {
        fprintf(stderr, "%s: %s\n", call, what);
        exit(4);
    }
}

static unsigned long number(const char *name)
{
    const char *text = getenv(name);
    return text ? strtoul(text, NULL, 10) : 0;
}

__attribute__((constructor)) static void begin(void)
{
    nth = number("REFUSE_NTH");
    from = number("REFUSE_FROM");
    is_each = number("REFUSE_EACH");
    if (getenv("REFUSE_TELL"))
        told_to = (int)number("REFUSE_TELL");
}

static void say(const char *line)
{
    if (told_to >= 0 && write(told_to, line, strlen(line)) != (ssize_t)strlen(line))
        exit(5);
}

static bool is_refused(void)
{
    if (!is_inside)
        return false;
    unsigned long it = ++requests - earlier;
    if (!may_refuse || (it != nth && (!from || it < from)))
        return false;
    say("refused\n");
    was_refused = true;
    return true;
}

void *__wrap_malloc(size_t size)
{
    return is_refused() ? NULL : __real_malloc(size);
}

void *__wrap_realloc(void *old, size_t size)
{
    return is_refused() ? NULL : __real_realloc(old, size);
}

/* What can be seen of a connection. */
typedef struct {
    bm_report report;
    size_t pending;
    bool is_done;
} state;

static state seen(bm_connection *connection)
{
    state made;
    memset(&made, 0, sizeof made);
    __real_bm_counts(connection, &made.report);
    made.pending = __real_bm_pending(connection);
    made.is_done = __real_bm_is_done(connection);
    return made;
}

static bool has_changed(const state *before, bm_connection *connection)
{
    state after = seen(connection);
    return memcmp(&before->report, &after.report, sizeof after.report) || before->pending != after.pending ||
           before->is_done != after.is_done;
}

static void enter(bool may)
{
    is_inside = true;
    may_refuse = may;
    was_refused = false;
    if (is_each)
        earlier = requests;
}

/* A call that wasn't refused anything yet. */
static void enter_first(void)
{
    if (is_each)
        nth = 1;
    enter(true);
}

static int32_t ran(int32_t code)
{
    is_inside = false;
    return code;
}

/* No more is refused from here on, but the request with its number; of each the next. */
static void refused_call(const char *line)
{
    check(was_refused, line, "gave BM_NO_MEMORY, and no memory was refused");
    say(line);
    from = 0;
    nth += is_each;
}

/* Evaluates a call with `is_inside` set: the first time, and again. */
#define INSIDE(call) (enter_first(), ran(call))
#define INSIDE_AGAIN(call) (enter(is_each), ran(call))

/* Makes a call on a connection, and makes it again where it is refused memory; `kept` says whether what was passed to
 * it to be written is as it was. */
#define AGAIN(name, call, kept)                                                                                        \
    state before = seen(connection);                                                                                   \
    int32_t code = INSIDE(call);                                                                                       \
    while (code == BM_NO_MEMORY) {                                                                                     \
        check(!has_changed(&before, connection), name, "was refused memory, and has changed something");               \
        check(kept, name, "was refused memory, and has written something");                                            \
        refused_call(name "\n");                                                                                       \
        code = INSIDE_AGAIN(call);                                                                                     \
        check(is_each || code != BM_NO_MEMORY, name, "is still refused memory");                                       \
    }                                                                                                                  \
    return code

int32_t __wrap_bm_open(const bm_options *options, void **at)
{
    static char untouched;
    void *made = &untouched;
    int32_t code = INSIDE(__real_bm_open(options, &made));
    while (code == BM_NO_MEMORY) {
        check(made == &untouched, "bm_open", "was refused memory, and has written something");
        refused_call("bm_open\n");
        code = INSIDE_AGAIN(__real_bm_open(options, &made));
        check(is_each || code != BM_NO_MEMORY, "bm_open", "is still refused memory");
    }
    if (code == BM_OK)
        *at = made;
    return code;
}

int32_t __wrap_bm_feed(bm_connection *connection, const uint8_t *bytes, size_t length)
{
    AGAIN("bm_feed", __real_bm_feed(connection, bytes, length), true);
}

int32_t __wrap_bm_call(bm_connection *connection, uint64_t number, const uint8_t *method, size_t method_length,
                       const uint8_t *params, size_t params_length, uint64_t *key)
{
    uint64_t key_before = *key;
    AGAIN("bm_call", __real_bm_call(connection, number, method, method_length, params, params_length, key),
          *key == key_before);
}

int32_t __wrap_bm_call_batch(bm_connection *connection, uint64_t number, const uint8_t *bytes, size_t length,
                             const size_t *lengths, size_t lengths_count, uint64_t *first)
{
    uint64_t first_before = *first;
    AGAIN("bm_call_batch", __real_bm_call_batch(connection, number, bytes, length, lengths, lengths_count, first),
          *first == first_before);
}

int32_t __wrap_bm_notify(bm_connection *connection, const uint8_t *method, size_t method_length, const uint8_t *params,
                         size_t params_length)
{
    AGAIN("bm_notify", __real_bm_notify(connection, method, method_length, params, params_length), true);
}

int32_t __wrap_bm_withdraw(bm_connection *connection, uint64_t key)
{
    AGAIN("bm_withdraw", __real_bm_withdraw(connection, key), true);
}

int32_t __wrap_bm_answer(bm_connection *connection, uint64_t number, const uint8_t *result, size_t length)
{
    AGAIN("bm_answer", __real_bm_answer(connection, number, result, length), true);
}

int32_t __wrap_bm_close_call(bm_connection *connection, uint64_t number)
{
    AGAIN("bm_close_call", __real_bm_close_call(connection, number), true);
}

int32_t __wrap_bm_fail(bm_connection *connection, uint64_t number, int64_t code_given, const uint8_t *message,
                       size_t message_length, const uint8_t *data, size_t data_length)
{
    AGAIN("bm_fail", __real_bm_fail(connection, number, code_given, message, message_length, data, data_length), true);
}

int32_t __wrap_bm_cancel(bm_connection *connection, uint64_t number)
{
    AGAIN("bm_cancel", __real_bm_cancel(connection, number), true);
}

/* Contents that have no event may have been read before memory was refused, so counts may have grown. */
int32_t __wrap_bm_next(bm_connection *connection, bm_event *event)
{
    memset(event, 0xa5, sizeof *event);
    state before = seen(connection);
    bm_event event_before = *event;
    int32_t code = INSIDE(__real_bm_next(connection, event));
    while (code == BM_NO_MEMORY) {
        state after = seen(connection);
        check(after.pending >= before.pending, "bm_next", "was refused memory, and has hidden some of the output");
        check(after.report.open >= before.report.open, "bm_next", "was refused memory, and has closed something");
        check(!memcmp(event, &event_before, sizeof *event), "bm_next", "was refused memory, and has written an event");
        refused_call("bm_next\n");
        code = INSIDE_AGAIN(__real_bm_next(connection, event));
        check(is_each || code != BM_NO_MEMORY, "bm_next", "is still refused memory");
    }
    return code;
}

/* One thing, or a batch with its calls; made again where it is refused memory. */
static void say_one(bm_connection *connection, bm_saying *it, size_t count, const uint8_t *bytes, size_t length)
{
    state before = seen(connection);
    bm_saying saying_before = *it;
    size_t refused;
    int32_t code = INSIDE(__real_bm_say_all(connection, it, count, bytes, length, &refused));
    check(code == BM_OK && refused == (it->said != BM_OK), "bm_say_all", "counts wrongly");
    while (it->said == BM_NO_MEMORY) {
        check(!has_changed(&before, connection), "bm_say_all", "was refused memory, and has changed something");
        saying_before.said = it->said;
        check(!memcmp(it, &saying_before, sizeof *it), "bm_say_all", "was refused memory, and has written a key");
        refused_call("bm_say_all\n");
        code = INSIDE_AGAIN(__real_bm_say_all(connection, it, count, bytes, length, &refused));
        check(code == BM_OK && (is_each || it->said != BM_NO_MEMORY), "bm_say_all", "is still refused memory");
    }
}

/* (each by itself, since what is said again would come behind the others) */
int32_t __wrap_bm_say_all(bm_connection *connection, bm_saying *sayings, size_t count, const uint8_t *bytes,
                          size_t length, size_t *refused)
{
    size_t at = 0;
    *refused = 0;
    for (size_t i = 0; i < count;) {
        size_t together = 1, own = 0;
        if (sayings[i].kind == BM_SAY_BATCH)
            together += sayings[i].calls < count - i - 1 ? sayings[i].calls : count - i - 1;
        for (size_t j = 0; j < together; j++)
            own += sayings[i + j].name_len + sayings[i + j].text_len;
        check(at + own <= length, "bm_say_all", "was passed too few bytes");
        say_one(connection, &sayings[i], together, own ? bytes + at : NULL, own);
        *refused += sayings[i].said != BM_OK;
        at += own;
        i += together;
    }
    return BM_OK;
}

/* Calls that need no memory. */
#define WITHOUT(name, kind, call)                                                                                      \
    unsigned long before = requests;                                                                                   \
    is_inside = true;                                                                                                  \
    may_refuse = true;                                                                                                 \
    kind it = (call);                                                                                                  \
    is_inside = false;                                                                                                 \
    check(requests == before, name, "has asked for memory");                                                           \
    return it

int32_t __wrap_bm_end(bm_connection *connection, uint32_t how)
{
    WITHOUT("bm_end", int32_t, __real_bm_end(connection, how));
}

size_t __wrap_bm_pending(bm_connection *connection)
{
    WITHOUT("bm_pending", size_t, __real_bm_pending(connection));
}

size_t __wrap_bm_held(bm_connection *connection)
{
    WITHOUT("bm_held", size_t, __real_bm_held(connection));
}

size_t __wrap_bm_output(bm_connection *connection, const uint8_t **bytes)
{
    WITHOUT("bm_output", size_t, __real_bm_output(connection, bytes));
}

int32_t __wrap_bm_written(bm_connection *connection, size_t length)
{
    WITHOUT("bm_written", int32_t, __real_bm_written(connection, length));
}

bool __wrap_bm_fault_at(bm_connection *connection, uint64_t *offset)
{
    WITHOUT("bm_fault_at", bool, __real_bm_fault_at(connection, offset));
}

bool __wrap_bm_is_done(bm_connection *connection)
{
    WITHOUT("bm_is_done", bool, __real_bm_is_done(connection));
}

void __wrap_bm_counts(bm_connection *connection, bm_report *report)
{
    unsigned long before = requests;
    is_inside = may_refuse = true;
    __real_bm_counts(connection, report);
    is_inside = false;
    check(requests == before, "bm_counts", "has asked for memory");
}

void __wrap_bm_free(bm_connection connection)
{
    unsigned long before = requests;
    is_inside = may_refuse = true;
    __real_bm_free(connection);
    is_inside = false;
    check(requests == before, "bm_free", "has asked for memory");
}
