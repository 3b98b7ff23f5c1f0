/* Events as Python's objects. */
#ifndef EVENTS_H
#define EVENTS_H

#include "end.h"

static PyObject *number_of(uint64_t number)
{
    return PyLong_FromUnsignedLongLong(number);
}

static PyObject *words_of(const uint8_t *at, size_t length)
{
    return PyUnicode_DecodeUTF8((const char *)at, (Py_ssize_t)length, "strict");
}

/* (Where another part of the event was refused memory, nothing of Python's may be called.) */
static PyObject *bytes_of(End *end, const uint8_t *at, size_t length)
{
    if (length <= LONG)
        return PyBytes_FromStringAndSize((const char *)at, (Py_ssize_t)length);
    PyObject *bytes = PyBytes_FromStringAndSize(NULL, (Py_ssize_t)length);
    if (bytes == NULL)
        return NULL;
    char *to = PyBytes_AsString(bytes);
    bool has_gone = go(end, PyErr_Occurred() == NULL);
    memcpy(to, at, length);
    come_back(end, has_gone);
    return bytes;
}

static PyObject *json_of(End *end, const uint8_t *at, size_t length)
{
    return length == 0 ? none_of(end->state) : bytes_of(end, at, length);
}

static PyObject *item_of(PyObject *list, size_t at)
{
    PyObject *item = PyList_GetItem(list, (Py_ssize_t)at);
    if (item != NULL)
        Py_IncRef(item);
    return item;
}

/* A tuple of these objects, which are its own from then on; NULL where one of them is. */
static PyObject *tuple_of(size_t count, PyObject **items)
{
    PyObject *tuple = PyTuple_New((Py_ssize_t)count);
    bool is_whole = tuple != NULL;
    for (size_t at = 0; at < count; at++) {
        is_whole = is_whole && items[at] != NULL;
        if (is_whole)
            PyTuple_SetItem(tuple, (Py_ssize_t)at, items[at]);
        else
            Py_DecRef(items[at]);
    }
    if (is_whole)
        return tuple;
    Py_DecRef(tuple);
    return NULL;
}

static PyObject *named_tuple(const State *state, PyObject *kind, size_t count, PyObject **items)
{
    PyObject *tuple = tuple_of(count, items);
    PyObject *made = tuple == NULL ? NULL : PyObject_CallFunctionObjArgs(state->make, kind, tuple, NULL);
    Py_DecRef(tuple);
    return made;
}
#define MADE(kind, ...)                                                                                                \
    named_tuple(state, kind, sizeof(PyObject *[]){__VA_ARGS__} / sizeof(PyObject *), (PyObject *[]){__VA_ARGS__})

static PyObject *replied(End *end, const bm_event *is)
{
    const State *state = end->state;
    if (!(is->flags & BM_ERROR))
        return MADE(state->replied, number_of(is->key), bytes_of(end, is->text, is->text_len));
    return MADE(state->failed, number_of(is->key), PyLong_FromLongLong(is->code), words_of(is->name, is->name_len),
                json_of(end, is->text, is->text_len));
}

/* Its texts are read before anything of Python's can run. */
static PyObject *event_of(End *end, const bm_event *is)
{
    const State *state = end->state;
    switch (is->kind) {
    case BM_CALL:
        return MADE(state->call, number_of(is->number), words_of(is->name, is->name_len),
                    json_of(end, is->text, is->text_len),
                    is->flags & BM_REQUEST ? bytes_of(end, is->id, is->id_len) : none_of(state));
    case BM_CANCELLED:
        return MADE(state->cancelled, number_of(is->number));
    case BM_REPLIED:
        return replied(end, is);
    case BM_UNANSWERED:
        return MADE(state->unanswered, number_of(is->key));
    case BM_BROKEN:
        return MADE(state->broken, number_of(is->number), bytes_of(end, is->text, is->text_len),
                    item_of(state->defects, is->flags), number_of(is->key), PyLong_FromLongLong(is->code));
    default:
        return MADE(state->over, item_of(state->hows, is->flags));
    }
}

#endif
