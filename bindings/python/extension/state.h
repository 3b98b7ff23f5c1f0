/* What the extension needs of Python, for each interpreter apart, and how it says that something is refused. */
#ifndef STATE_H
#define STATE_H

#include "bullmyrtle.h"
#include "outside.h"

#define HELD_AS "bullmyrtle._bullmyrtle"

/* Taken as the module begins, and kept for as long as something of this interpreter's holds the capsule. */
typedef struct {
    PyObject *none;
    PyObject *type_error, *value_error, *overflow_error, *memory_error;
    PyObject *new_lock;
    PyObject *make; /* tuple.__new__: a named tuple's own way to be made takes twice as long */
    PyObject *call, *cancelled, *replied, *failed, *unanswered, *broken, *over;
    PyObject *defects, *hows; /* lists: the words for the flags of BM_BROKEN and BM_INPUT_OVER */
    PyObject *closed;
    PyObject *refusals[BM_FULL + 1]; /* the exceptions, by their codes; there is none for BM_OK */
} State;

/* Where a name lies in the state, and in which module it is. */
typedef struct {
    const char *module, *name;
    size_t at;
} Wanted;

#define WANTED(module, name, field)                                                                                    \
    {                                                                                                                  \
        module, name, __builtin_offsetof(State, field)                                                                 \
    }
#define REFUSAL(name, code)                                                                                            \
    {                                                                                                                  \
        "bullmyrtle.errors", name, __builtin_offsetof(State, refusals) + (code) * sizeof(PyObject *)                   \
    }

static const Wanted WANTED_OF_PYTHON[] = {
    WANTED("builtins", "TypeError", type_error),
    WANTED("builtins", "ValueError", value_error),
    WANTED("builtins", "OverflowError", overflow_error),
    WANTED("builtins", "MemoryError", memory_error),
    WANTED("_thread", "allocate_lock", new_lock),
    WANTED("bullmyrtle.events", "make", make),
    WANTED("bullmyrtle.events", "Call", call),
    WANTED("bullmyrtle.events", "Cancelled", cancelled),
    WANTED("bullmyrtle.events", "Replied", replied),
    WANTED("bullmyrtle.events", "Failed", failed),
    WANTED("bullmyrtle.events", "Unanswered", unanswered),
    WANTED("bullmyrtle.events", "Broken", broken),
    WANTED("bullmyrtle.events", "Over", over),
    WANTED("bullmyrtle.events", "DEFECTS", defects),
    WANTED("bullmyrtle.events", "HOWS", hows),
    WANTED("bullmyrtle.errors", "Closed", closed),
    REFUSAL("NoMemory", BM_NO_MEMORY),
    REFUSAL("NotOpen", BM_NOT_OPEN),
    REFUSAL("NotWaiting", BM_NOT_WAITING),
    REFUSAL("InputOver", BM_OVER),
    REFUSAL("NotJson", BM_NOT_JSON),
    REFUSAL("NotText", BM_NOT_TEXT),
    REFUSAL("BadSettings", BM_SETTINGS),
    REFUSAL("Empty", BM_EMPTY),
    REFUSAL("Full", BM_FULL),
};

static PyObject **place_of(State *state, const Wanted *it)
{
    return (PyObject **)((char *)state + it->at);
}

static void state_free(State *state)
{
    for (size_t at = 0; at < sizeof *state / sizeof(PyObject *); at++)
        Py_DecRef(((PyObject **)state)[at]);
    free(state);
}

static void state_end(PyObject *capsule)
{
    state_free(PyCapsule_GetPointer(capsule, HELD_AS));
}

static bool state_take(State *state, const Wanted *it)
{
    PyObject *module = PyImport_ImportModule(it->module);
    if (module == NULL)
        return false;
    PyObject *got = *place_of(state, it) = PyObject_GetAttrString(module, it->name);
    Py_DecRef(module);
    return got != NULL;
}

/* A capsule with the state, or NULL with an exception. */
static PyObject *state_new(void)
{
    State *state = malloc(sizeof *state);
    if (state == NULL)
        return PyErr_NoMemory();
    *state = (State){.none = Py_BuildValue("")};
    bool is_whole = state->none != NULL;
    for (size_t at = 0; is_whole && at < sizeof WANTED_OF_PYTHON / sizeof *WANTED_OF_PYTHON; at++)
        is_whole = state_take(state, &WANTED_OF_PYTHON[at]);
    PyObject *capsule = is_whole ? PyCapsule_New(state, HELD_AS, state_end) : NULL;
    if (capsule == NULL)
        state_free(state);
    return capsule;
}

static PyObject *none_of(const State *state)
{
    Py_IncRef(state->none);
    return state->none;
}

/* Raises what a code says. */
static PyObject *refused(const State *state, int32_t code)
{
    PyObject *kind = code > BM_OK && code <= BM_FULL ? state->refusals[code] : NULL;
    PyErr_SetNone(kind != NULL ? kind : state->refusals[BM_NO_MEMORY]);
    return NULL;
}

/* None where the code is BM_OK; else raises what it says. */
static PyObject *done(const State *state, int32_t code)
{
    return code == BM_OK ? none_of(state) : refused(state, code);
}

#endif
