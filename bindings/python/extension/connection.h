/* A connection: its calls as methods of a type. */
#ifndef CONNECTION_H
#define CONNECTION_H

#include "events.h"

/* How much of events is kept while others go on, until the interpreter's lock is asked for again. */
enum { MOST_KEPT = 1 << 16 };

/* An event that is told later than the library lends it, with its texts. */
typedef struct kept {
    struct kept *next;
    bm_event is;
    uint8_t texts[];
} Kept;

typedef struct {
    End end;
    Kept *first, *last; /* the events that are told next */
    bm_event lent;      /* the one behind them, as the library lends it; of the kind BM_NONE where there is none */
    uint64_t turn;   /* counts the events that leave: while one is made, Python's code may run, and come here again */
    PyObject *notes; /* what a session looks for among the events, or NULL */
    size_t unread;   /* how much was fed since something was told */
    bool is_whole;   /* whether contents are taken as a whole */
} Connection;

static bm_connection *library_of(Connection *self)
{
    return (bm_connection *)&self->end.at;
}

/* Events that are left */

static bool has_left(const Connection *self)
{
    return self->first != NULL || self->lent.kind != BM_NONE;
}

/* Keeps the event that is lent, before what ends the loan. */
static bool is_kept(Connection *self)
{
    const bm_event *is = &self->lent;
    if (is->kind == BM_NONE)
        return true;
    Kept *it = malloc(sizeof *it + is->name_len + is->text_len + is->id_len);
    if (it == NULL)
        return false;
    *it = (Kept){.is = *is};
    it->is.name = memcpy(it->texts, is->name, is->name_len);
    it->is.text = memcpy(it->texts + is->name_len, is->text, is->text_len);
    it->is.id = memcpy(it->texts + is->name_len + is->text_len, is->id, is->id_len);
    *(self->first == NULL ? &self->first : &self->last->next) = it;
    self->last = it;
    self->lent.kind = BM_NONE;
    return true;
}

static void drop_first(Connection *self)
{
    Kept *first = self->first;
    self->turn++;
    if (first == NULL) {
        self->lent.kind = BM_NONE;
        return;
    }
    self->first = first->next;
    free(first);
}

static void drop_all(Connection *self)
{
    while (has_left(self))
        drop_first(self);
    if (self->end.at != NULL)
        bm_free(*library_of(self));
    self->end.at = NULL;
}

/* Its beginning and its end */

static PyObject *connection_begin(Connection *self, PyObject *given)
{
    uint64_t numbers[8] = {0};
    for (Py_ssize_t it = 0; it < 8; it++) {
        PyObject *number = PyTuple_GetItem(given, it);
        if (number == NULL || !read_number(self->end.state, number, BM_SETTINGS, &numbers[it]))
            return NULL;
    }
    if (!is_free(&self->end))
        return NULL;
    bm_options options = {.size = sizeof options,
                          .framing = (uint32_t)numbers[0],
                          .order = (uint32_t)numbers[1],
                          .cancels = (uint32_t)numbers[2],
                          .broken = (uint32_t)numbers[3],
                          .content = (uint32_t)numbers[4],
                          .calls = numbers[5],
                          .entries = (uint32_t)numbers[6],
                          .null_params = (uint32_t)numbers[7]};
    void *at = NULL;
    int32_t code = bm_open(&options, &at);
    if (code != BM_OK)
        return refused(self->end.state, code);
    drop_all(self);
    self->end.at = at;
    self->is_whole = numbers[0] == BM_CONTENTS;
    return none_of(self->end.state);
}

static PyObject *connection_close(Connection *self, PyObject *nothing)
{
    (void)nothing;
    if (!is_free(&self->end))
        return NULL;
    drop_all(self);
    return none_of(self->end.state);
}

static void connection_end(PyObject *object)
{
    Connection *self = (Connection *)object;
    drop_all(self);
    Py_DecRef(self->notes);
    end_free(&self->end);
}

static PyObject *connection_note(Connection *self, PyObject *notes)
{
    Py_IncRef(notes);
    Py_DecRef(self->notes);
    self->notes = notes;
    return none_of(self->end.state);
}

/* Events */

/* Notes of an event what a session looks for. */
static bool is_noted(Connection *self, const bm_event *is, PyObject *event)
{
    if (self->notes == NULL || (is->kind != BM_CANCELLED && is->kind != BM_BROKEN))
        return true;
    if (is->kind == BM_BROKEN)
        return PyObject_SetAttrString(self->notes, "broken", event) == 0;
    PyObject *cancelled = PyObject_GetAttrString(self->notes, "cancelled"), *number = number_of(is->number);
    bool is_well = cancelled != NULL && number != NULL && PyList_Append(cancelled, number) == 0;
    Py_DecRef(cancelled);
    Py_DecRef(number);
    return is_well;
}

/* Moves the first event to the list, unless Python's code ran while it was made, and it is told or gone. One that can't
 * be made stays. */
static bool moved(Connection *self, PyObject *list)
{
    const bm_event is = self->first != NULL ? self->first->is : self->lent;
    uint64_t turn = self->turn;
    PyObject *event = event_of(&self->end, &is);
    bool is_well = event != NULL && is_free(&self->end);
    if (is_well && turn == self->turn) {
        is_well = is_noted(self, &is, event) && PyList_Append(list, event) == 0;
        if (is_well)
            drop_first(self);
    }
    Py_DecRef(event);
    return is_well;
}

static int32_t fed_to(Connection *self, const Text *data)
{
    return is_kept(self) ? bm_feed(library_of(self), data->at, data->length) : BM_NO_MEMORY;
}

/* Asks for the next event. While others go on it asks for more, and keeps them: who comes back may have to wait. One
 * with a large text stays lent. */
static int32_t asked(Connection *self, bool is_away)
{
    int32_t code;
    size_t kept = 0;
    do {
        code = bm_next(library_of(self), &self->lent);
        kept += sizeof(Kept) + self->lent.name_len + self->lent.text_len + self->lent.id_len;
    } while (is_away && self->lent.kind != BM_NONE && kept <= MOST_KEPT && is_kept(self));
    return has_left(self) ? BM_OK : code;
}

/* Feeds the bytes, where there are some, and asks for events, where none is left. */
static int32_t fed_and_asked(Connection *self, const Text *data, bool is_long)
{
    bool has_gone = go(&self->end, is_long);
    int32_t code = data == NULL ? BM_OK : fed_to(self, data);
    if (code == BM_OK && !has_left(self))
        code = asked(self, has_gone);
    come_back(&self->end, has_gone);
    return code;
}

/* All events that there are, at most so many, behind the bytes that are fed where there are some. */
static bool gathered(Connection *self, const Text *data, bool is_long, size_t most, PyObject *list)
{
    for (; (size_t)PyList_Size(list) < most; data = NULL) {
        if (!is_open(&self->end))
            return false;
        if (data != NULL || !has_left(self)) {
            int32_t code = fed_and_asked(self, data, is_long);
            if (code != BM_OK)
                return refused(self->end.state, code);
            if (!has_left(self))
                return true;
        }
        if (!moved(self, list))
            return false;
    }
    return true;
}

static PyObject *told(Connection *self, const Text *data, bool is_aside, size_t most)
{
    const State *state = self->end.state;
    PyObject *list = PyList_New(0);
    if (list == NULL)
        return refused(state, BM_NO_MEMORY);
    self->unread += data == NULL ? 0 : data->length;
    bool is_well = gathered(self, data, is_aside || self->unread > LONG, most, list);
    if (!is_well && PyErr_ExceptionMatches(state->memory_error)) {
        /* (what is told is told, and the rest comes with the next call) */
        PyErr_Clear();
        is_well = PyList_Size(list) > 0 || refused(state, BM_NO_MEMORY);
    }
    if (!is_well) {
        Py_DecRef(list);
        return NULL;
    }
    if (PyList_Size(list) > 0)
        self->unread = 0;
    return list;
}

static PyObject *connection_events(Connection *self, PyObject *nothing)
{
    (void)nothing;
    return told(self, NULL, false, SIZE_MAX);
}

static PyObject *connection_fed(Connection *self, PyObject *given, PyObject *named)
{
    static const char *const names[] = {"data", "aside", NULL};
    PyObject *got[2];
    bool is_aside;
    Text data;
    if (!sorted(self->end.state, given, named, names, 1, got) || !read_flag(got[1], &is_aside))
        return NULL;
    if (!read_bytes(got[0], &data))
        return NULL;
    PyObject *list = told(self, &data, is_aside, SIZE_MAX);
    text_end(&data);
    return list;
}

static PyObject *connection_next_event(Connection *self, PyObject *nothing)
{
    (void)nothing;
    PyObject *list = told(self, NULL, false, 1);
    if (list == NULL)
        return NULL;
    PyObject *event = PyList_Size(list) > 0 ? item_of(list, 0) : none_of(self->end.state);
    Py_DecRef(list);
    return event;
}

/* The input */

static PyObject *connection_feed(Connection *self, PyObject *data)
{
    Text text;
    if (!read_bytes(data, &text))
        return NULL;
    int32_t code = BM_OK;
    bool can_be = is_open(&self->end);
    if (can_be) {
        self->unread += text.length;
        bool has_gone = go(&self->end, text.length > LONG);
        code = fed_to(self, &text);
        come_back(&self->end, has_gone);
    }
    text_end(&text);
    return can_be ? done(self->end.state, code) : NULL;
}

static PyObject *connection_end_input(Connection *self, PyObject *given, PyObject *named)
{
    static const char *const names[] = {"failed", NULL};
    PyObject *got[1];
    bool has_failed;
    if (!sorted(self->end.state, given, named, names, 0, got) || !read_flag(got[0], &has_failed) ||
        !is_open(&self->end))
        return NULL;
    uint32_t how = has_failed ? BM_READ_FAILED : BM_CLOSED;
    return done(self->end.state, is_kept(self) ? bm_end(library_of(self), how) : BM_NO_MEMORY);
}

/* What is said: a number, a code and two texts, of which each call has some */

typedef struct {
    uint64_t number;
    int64_t code;
    Text first, second;
    uint64_t key;
} Saying;

typedef int32_t (*Say)(bm_connection *library, Saying *it);

static int32_t say_answer(bm_connection *library, Saying *it)
{
    return bm_answer(library, it->number, it->first.at, it->first.length);
}

static int32_t say_fail(bm_connection *library, Saying *it)
{
    return bm_fail(library, it->number, it->code, it->first.at, it->first.length, it->second.at, it->second.length);
}

static int32_t say_call(bm_connection *library, Saying *it)
{
    return bm_call(library, it->number, it->first.at, it->first.length, it->second.at, it->second.length, &it->key);
}

static int32_t say_notify(bm_connection *library, Saying *it)
{
    return bm_notify(library, it->first.at, it->first.length, it->second.at, it->second.length);
}

/* Says it, where it could be read, and lets go of its texts. */
static bool said(Connection *self, bool is_read, Saying *it, Say say)
{
    bool is_said = is_read && is_open(&self->end);
    if (is_said) {
        bool has_gone = go(&self->end, it->first.length + it->second.length > LONG);
        int32_t code = say(library_of(self), it);
        come_back(&self->end, has_gone);
        is_said = code == BM_OK || refused(self->end.state, code);
    }
    text_end(&it->first);
    text_end(&it->second);
    return is_said;
}

static PyObject *connection_answer(Connection *self, PyObject *given, PyObject *named)
{
    static const char *const names[] = {"number", "result", NULL};
    const State *state = self->end.state;
    PyObject *got[2];
    Saying it = {0};
    bool is_read = sorted(state, given, named, names, 1, got) && read_json(state, got[1], &it.first) &&
                   read_number(state, got[0], BM_NOT_OPEN, &it.number);
    return said(self, is_read, &it, say_answer) ? none_of(state) : NULL;
}

static bool read_code(const State *state, PyObject *object, int64_t *code)
{
    *code = PyLong_AsLongLong(object);
    if (*code != -1 || PyErr_Occurred() == NULL)
        return true;
    if (PyErr_ExceptionMatches(state->overflow_error))
        PyErr_SetString(state->value_error, "an error's code has 64 bits");
    return false;
}

static PyObject *connection_fail(Connection *self, PyObject *given, PyObject *named)
{
    static const char *const names[] = {"number", "code", "message", "data", NULL};
    const State *state = self->end.state;
    PyObject *got[4];
    Saying it = {.first.at = (const uint8_t *)""};
    bool is_read = sorted(state, given, named, names, 2, got) && (got[2] == NULL || read_text(got[2], &it.first)) &&
                   read_json(state, got[3], &it.second) && read_number(state, got[0], BM_NOT_OPEN, &it.number) &&
                   read_code(state, got[1], &it.code);
    return said(self, is_read, &it, say_fail) ? none_of(state) : NULL;
}

/* (Where memory is refused to the number of the key itself, the call is made all the same.) */
static PyObject *connection_call(Connection *self, PyObject *given, PyObject *named)
{
    static const char *const names[] = {"number", "method", "params", NULL};
    const State *state = self->end.state;
    PyObject *got[3];
    Saying it = {0};
    bool is_read = sorted(state, given, named, names, 2, got) && read_text(got[1], &it.first) &&
                   read_json(state, got[2], &it.second) && read_number(state, got[0], BM_NOT_OPEN, &it.number);
    return said(self, is_read, &it, say_call) ? number_of(it.key) : NULL;
}

static PyObject *connection_notify(Connection *self, PyObject *given, PyObject *named)
{
    static const char *const names[] = {"method", "params", NULL};
    const State *state = self->end.state;
    PyObject *got[2];
    Saying it = {0};
    bool is_read = sorted(state, given, named, names, 1, got) && read_text(got[0], &it.first) &&
                   read_json(state, got[1], &it.second);
    return said(self, is_read, &it, say_notify) ? none_of(state) : NULL;
}

/* The lengths of the texts of a batch, two for each call; NULL with an exception. (It takes one more, as none is no
 * memory to some.) */
static size_t *lengths_of(PyObject *list)
{
    Py_ssize_t count = PyList_Size(list);
    if (count < 0)
        return NULL;
    size_t *lengths = malloc((count + 1) * sizeof *lengths);
    if (lengths == NULL)
        PyErr_NoMemory();
    for (Py_ssize_t at = 0; lengths != NULL && at < count; at++) {
        lengths[at] = PyLong_AsUnsignedLongLong(PyList_GetItem(list, at));
        if (lengths[at] == SIZE_MAX && PyErr_Occurred() != NULL) {
            free(lengths);
            return NULL;
        }
    }
    return lengths;
}

static PyObject *connection_batch(Connection *self, PyObject *given)
{
    const State *state = self->end.state;
    Saying it = {0};
    if (PyTuple_Size(given) != 3) {
        PyErr_SetString(state->type_error, "a number, the texts and their lengths");
        return NULL;
    }
    PyObject *list = PyTuple_GetItem(given, 2);
    if (!read_number(state, PyTuple_GetItem(given, 0), BM_NOT_OPEN, &it.number) ||
        !read_bytes(PyTuple_GetItem(given, 1), &it.first))
        return NULL;
    size_t *lengths = lengths_of(list), count = PyList_Size(list);
    bool is_said = lengths != NULL && is_open(&self->end);
    if (is_said) {
        bool has_gone = go(&self->end, it.first.length > LONG);
        int32_t code =
            bm_call_batch(library_of(self), it.number, it.first.at, it.first.length, lengths, count, &it.key);
        come_back(&self->end, has_gone);
        is_said = code == BM_OK || refused(state, code);
    }
    free(lengths);
    text_end(&it.first);
    return is_said ? number_of(it.key) : NULL;
}

static PyObject *connection_withdraw(Connection *self, PyObject *key)
{
    uint64_t number;
    if (!read_number(self->end.state, key, BM_NOT_WAITING, &number) || !is_open(&self->end))
        return NULL;
    return done(self->end.state, bm_withdraw(library_of(self), number));
}

static PyObject *connection_cancel(Connection *self, PyObject *given)
{
    uint64_t number;
    if (!read_number(self->end.state, given, BM_NOT_OPEN, &number) || !is_open(&self->end))
        return NULL;
    return done(self->end.state, bm_cancel(library_of(self), number));
}

/* The output */

static bool read_most(const State *state, PyObject *object, size_t *most)
{
    *most = SIZE_MAX;
    if (is_none(state, object))
        return true;
    long long given = PyLong_AsLongLong(object);
    if (given == -1 && PyErr_Occurred() != NULL)
        return false;
    *most = given < 0 ? 0 : (size_t)given;
    return true;
}

/* So many of the bytes that are to be written: there are so many. */
static PyObject *taken(Connection *self, size_t size)
{
    PyObject *bytes = PyBytes_FromStringAndSize(NULL, (Py_ssize_t)size);
    if (bytes == NULL || size == 0)
        return bytes;
    uint8_t *to = (uint8_t *)PyBytes_AsString(bytes);
    bool has_gone = go(&self->end, size > LONG);
    for (size_t length; size > 0; to += length, size -= length) {
        const uint8_t *from;
        length = bm_output(library_of(self), &from);
        length = length < size ? length : size;
        memcpy(to, from, length);
        bm_written(library_of(self), length);
    }
    come_back(&self->end, has_gone);
    return bytes;
}

static PyObject *connection_take(Connection *self, PyObject *given, PyObject *named)
{
    static const char *const names[] = {"most", NULL};
    PyObject *got[1];
    size_t most;
    if (!sorted(self->end.state, given, named, names, 0, got) || !read_most(self->end.state, got[0], &most) ||
        !is_open(&self->end))
        return NULL;
    size_t pending = bm_pending(library_of(self));
    if (pending <= most)
        return taken(self, pending);
    return taken(self, self->is_whole ? 0 : most);
}

/* What has happened */

static PyObject *connection_pending(Connection *self, void *closure)
{
    (void)closure;
    return is_open(&self->end) ? number_of(bm_pending(library_of(self))) : NULL;
}

static PyObject *connection_held(Connection *self, void *closure)
{
    (void)closure;
    return is_open(&self->end) ? number_of(bm_held(library_of(self))) : NULL;
}

static PyObject *connection_is_done(Connection *self, void *closure)
{
    (void)closure;
    return is_open(&self->end) ? PyBool_FromLong(!has_left(self) && bm_is_done(library_of(self))) : NULL;
}

static PyObject *connection_fault_offset(Connection *self, void *closure)
{
    (void)closure;
    uint64_t offset = 0;
    if (!is_open(&self->end))
        return NULL;
    return bm_fault_at(library_of(self), &offset) ? number_of(offset) : none_of(self->end.state);
}

static PyObject *connection_counted(Connection *self, PyObject *nothing)
{
    (void)nothing;
    bm_report is;
    if (!is_open(&self->end))
        return NULL;
    bm_counts(library_of(self), &is);
    PyObject *numbers[] = {number_of(is.calls),      number_of(is.requests),  number_of(is.open),
                           number_of(is.waiting),    number_of(is.own_calls), number_of(is.answers_written),
                           number_of(is.unreadable), number_of(is.invalid),   number_of(is.ignored)};
    return tuple_of(sizeof numbers / sizeof *numbers, numbers);
}

static PyMethodDef CONNECTION_METHODS[] = {
    METHOD("_begin", connection_begin, METH_VARARGS, NULL),
    METHOD("_note", connection_note, METH_O, NULL),
    METHOD("_batch", connection_batch, METH_VARARGS, NULL),
    METHOD("_counted", connection_counted, METH_NOARGS, NULL),
    METHOD("close", connection_close, METH_NOARGS,
           "close($self, /)\n--\n\n"
           "Free the connection with all that it holds. Later calls raise `Closed`."),
    METHOD("feed", connection_feed, METH_O,
           "feed($self, data, /)\n--\n\n"
           "Give bytes of the input, cut as they were read. Refused: `InputOver`."),
    METHOD("end", connection_end_input, NAMED,
           "end($self, failed=False)\n--\n\n"
           "Say that the input is over: it was closed, or a read failed. Refused: `InputOver`."),
    METHOD("events", connection_events, METH_NOARGS,
           "events($self, /)\n--\n\n"
           "All events that there are now. An invalid message is answered as it is gone past here."),
    METHOD("fed", connection_fed, NAMED,
           "fed($self, data, aside=False)\n--\n\n"
           "`feed`, and then `events`: both at once take less time.\n\n"
           "With `aside` other threads of the interpreter go on meanwhile, except those that call this connection."),
    METHOD("next_event", connection_next_event, METH_NOARGS,
           "next_event($self, /)\n--\n\n"
           "The next event, or None where there is none now."),
    METHOD("call", connection_call, NAMED,
           "call($self, number, method, params=None)\n--\n\n"
           "Call the other side on behalf of the open call `number`, or of nobody where it is 0, and give the key.\n\n"
           "Refused: `NotOpen`, `NotText`, `NotJson`, `InputOver`, `Full`."),
    METHOD("notify", connection_notify, NAMED,
           "notify($self, method, params=None)\n--\n\n"
           "Send a notification, also after the input is over. Refused: `NotText`, `NotJson`."),
    METHOD("withdraw", connection_withdraw, METH_O,
           "withdraw($self, key, /)\n--\n\n"
           "Tell the other side that this call isn't wanted any more. Refused: `NotWaiting`.\n\n"
           "With LSP's cancels it still waits for its reply. With MCP's it doesn't, and no more is reported of it."),
    METHOD("answer", connection_answer, NAMED,
           "answer($self, number, result=None)\n--\n\n"
           "Answer a request with a result, or close a notification, without one. Refused: `NotOpen`, `NotJson`."),
    METHOD("fail", connection_fail, NAMED,
           "fail($self, number, code, message='', data=None)\n--\n\n"
           "Answer a request with an error, or close a notification. Refused: `NotOpen`, `NotText`, `NotJson`."),
    METHOD("cancel", connection_cancel, METH_O,
           "cancel($self, number, /)\n--\n\n"
           "Answer a request as cancelled (-32800), and withdraw the calls on its behalf first. Refused: `NotOpen`.\n\n"
           "With MCP's cancels a request that the other side has cancelled is closed without an answer."),
    METHOD("take", connection_take, NAMED,
           "take($self, most=None)\n--\n\n"
           "Take the first bytes that are to be written, at most so many. Fewer than `most` are all.\n\n"
           "With \"contents\" it takes one whole text, or nothing where that is longer."),
    {0},
};

#define GOTTEN(name, call, doc)                                                                                        \
    {                                                                                                                  \
        name, (PyObject * (*)(PyObject *, void *)) call, NULL, doc, NULL                                               \
    }
static PyGetSetDef CONNECTION_FIELDS[] = {
    GOTTEN("pending", connection_pending,
           "How many bytes are to be written; with \"contents\" the length of the next text."),
    GOTTEN("held", connection_held,
           "For how many bytes its buffers have room: small once all is taken, whatever was written before.\n\n"
           "It counts what is to be written, the texts of the event that was asked for last, and the next text; with "
           "\"contents\" no text that waits."),
    GOTTEN("is_done", connection_is_done,
           "Whether the input is over, every event told, every call answered, and every byte taken."),
    GOTTEN(
        "fault_offset", connection_fault_offset,
        "Where the frame or line at fault begins, counted from the first byte that was fed; None without a fault.\n\n"
        "With \"contents\" it is the content at fault. Where the input is closed inside a frame, it is that frame."),
    {0},
};

static PyType_Slot CONNECTION_SLOTS[] = {
    {Py_tp_new, end_new},
    {Py_tp_dealloc, connection_end},
    {Py_tp_methods, CONNECTION_METHODS},
    {Py_tp_getset, CONNECTION_FIELDS},
    {0, NULL},
};
static PyType_Spec CONNECTION = {HELD_AS ".Connection", sizeof(Connection), 0, Py_TPFLAGS_DEFAULT | Py_TPFLAGS_BASETYPE,
                                 CONNECTION_SLOTS};

#endif
