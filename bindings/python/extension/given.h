/* What a call of Python's is given: by place or by name, numbers, and texts as bytes. */
#ifndef GIVEN_H
#define GIVEN_H

#include "state.h"

/* From how many bytes on a call is a long one, during which other threads of the interpreter go on. Most calls are
 * short, and to give the lock away at each would hand it to whatever other thread computes, for five milliseconds. */
enum { LONG = 1 << 20 };

/* Bytes, for as long as they are held. */
typedef struct {
    const uint8_t *at;
    size_t length;
    PyObject *held;
} Text;

static void text_end(Text *text)
{
    if (text->held != NULL)
        Py_DecRef(text->held);
    text->held = NULL;
}

/* Sorts what is given into the places of a call's parameters, of which the first ones have to be there. */
static bool sorted(const State *state, PyObject *given, PyObject *named, const char *const *names, Py_ssize_t least,
                   PyObject **got)
{
    Py_ssize_t count = PyTuple_Size(given), most = 0, at = 0;
    while (names[most] != NULL)
        got[most++] = NULL;
    if (count > most) {
        PyErr_SetString(state->type_error, "more is given than the call takes");
        return false;
    }
    for (Py_ssize_t it = 0; it < count; it++)
        got[it] = PyTuple_GetItem(given, it);
    PyObject *name, *value;
    while (named != NULL && PyDict_Next(named, &at, &name, &value)) {
        Py_ssize_t it = 0;
        while (it < most && PyUnicode_CompareWithASCIIString(name, names[it]) != 0)
            it++;
        if (it == most || got[it] != NULL) {
            PyErr_SetString(state->type_error,
                            it == most ? "the call has no such parameter" : "a parameter is given twice");
            return false;
        }
        got[it] = value;
    }
    for (Py_ssize_t it = 0; it < least; it++)
        if (got[it] == NULL) {
            PyErr_SetString(state->type_error, "a parameter is missing");
            return false;
        }
    return true;
}

/* The number of a call: one that 64 bits can't hold is that of none, so it is refused with this code. */
static bool read_number(const State *state, PyObject *object, int32_t code, uint64_t *number)
{
    *number = PyLong_AsUnsignedLongLong(object);
    if (*number != UINT64_MAX || PyErr_Occurred() == NULL)
        return true;
    if (PyErr_ExceptionMatches(state->overflow_error)) {
        PyErr_Clear();
        refused(state, code);
    }
    return false;
}

static bool is_none(const State *state, PyObject *object)
{
    return object == NULL || object == state->none;
}

static bool read_flag(PyObject *object, bool *is_set)
{
    int it = object == NULL ? 0 : PyObject_IsTrue(object);
    *is_set = it > 0;
    return it >= 0;
}

static bool text_of_bytes(PyObject *bytes, Text *text)
{
    *text = (Text){.held = bytes};
    if (bytes == NULL)
        return false;
    text->at = (const uint8_t *)PyBytes_AsString(bytes);
    text->length = PyBytes_Size(bytes);
    return true;
}

/* The bytes of anything that has some. What can be changed, as a bytearray, is copied: another thread may do that while
 * this one waits for its turn. */
static bool read_bytes(PyObject *object, Text *text)
{
    if (PyType_GetFlags(Py_TYPE(object)) & Py_TPFLAGS_BYTES_SUBCLASS) {
        Py_IncRef(object);
        return text_of_bytes(object, text);
    }
    /* (by way of a view, as bytes(5) is five zeros) */
    PyObject *view = PyMemoryView_FromObject(object), *bytes = NULL;
    if (view != NULL) {
        bytes = PyBytes_FromObject(view);
        Py_DecRef(view);
    }
    return text_of_bytes(bytes, text);
}

/* The bytes of a str or of what has bytes. What isn't UTF-8 the library itself refuses. */
static bool read_text(PyObject *object, Text *text)
{
    if (PyType_GetFlags(Py_TYPE(object)) & Py_TPFLAGS_UNICODE_SUBCLASS)
        return text_of_bytes(PyUnicode_AsEncodedString(object, "utf-8", "surrogatepass"), text);
    return read_bytes(object, text);
}

/* The bytes of a JSON text; none for None. A text of no bytes isn't JSON, and neither is a blank. */
static bool read_json(const State *state, PyObject *object, Text *text)
{
    *text = (Text){.at = (const uint8_t *)""};
    if (is_none(state, object))
        return true;
    if (!read_text(object, text))
        return false;
    if (text->length == 0) {
        text->at = (const uint8_t *)" ";
        text->length = 1;
    }
    return true;
}

#endif
