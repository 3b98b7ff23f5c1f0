/* What a connection and a judge have in common: whose they are, and that a long call gives the interpreter's lock away.
 *
 * The interpreter's lock orders the calls. A thread that comes while a long call is under way waits for its end. */
#ifndef END_H
#define END_H

#include "given.h"

typedef struct {
    PyObject_HEAD const State *state;
    PyObject *capsule;           /* which holds the state */
    void *at;                    /* the library's own, or NULL where it is closed */
    PyObject *acquire, *release; /* of a lock that a thread has while it makes a long call */
    PyThreadState *away;         /* of that thread */
    bool is_away;
} End;

static PyObject *end_new(PyTypeObject *type, PyObject *given, PyObject *named)
{
    (void)given, (void)named;
    End *self = (End *)PyType_GenericAlloc(type, 0);
    if (self == NULL)
        return NULL;
    self->capsule = PyObject_GetAttrString((PyObject *)type, "_state");
    self->state = self->capsule == NULL ? NULL : PyCapsule_GetPointer(self->capsule, HELD_AS);
    PyObject *lock = self->state == NULL ? NULL : PyObject_CallFunctionObjArgs(self->state->new_lock, NULL);
    self->acquire = lock == NULL ? NULL : PyObject_GetAttrString(lock, "acquire");
    self->release = self->acquire == NULL ? NULL : PyObject_GetAttrString(lock, "release");
    Py_DecRef(lock);
    if (self->release != NULL)
        return (PyObject *)self;
    Py_DecRef((PyObject *)self);
    return NULL;
}

/* The last of what frees an object, behind that of its kind. */
static void end_free(End *self)
{
    PyTypeObject *type = Py_TYPE(self);
    void (*give_back)(void *at) = (void (*)(void *))PyType_GetSlot(type, Py_tp_free);
    Py_DecRef(self->acquire);
    Py_DecRef(self->release);
    Py_DecRef(self->capsule);
    give_back(self);
    Py_DecRef((PyObject *)type);
}

static bool is_called(PyObject *method)
{
    PyObject *given = PyObject_CallFunctionObjArgs(method, NULL);
    Py_DecRef(given);
    return given != NULL;
}

/* Waits until no long call is under way. A signal's handler may run meanwhile, and raise something. */
static bool is_free(End *self)
{
    while (self->is_away)
        if (!is_called(self->acquire) || !is_called(self->release))
            return false;
    return true;
}

/* Whether a call can be made now; else there is an exception. */
static bool is_open(End *self)
{
    if (!is_free(self))
        return false;
    if (self->at == NULL)
        PyErr_SetString(self->state->closed, "the connection is closed");
    return self->at != NULL;
}

/* Takes the lock, where it is free. It isn't waited for, since others could then come before. */
static bool is_taken(End *self)
{
    PyObject *waits = PyBool_FromLong(0);
    PyObject *taken = PyObject_CallFunctionObjArgs(self->acquire, waits, NULL);
    bool is_well = taken != NULL && PyObject_IsTrue(taken) == 1;
    Py_DecRef(taken);
    Py_DecRef(waits);
    return is_well;
}

/* Around a call: where it is long, other threads of the interpreter go on meanwhile. Its caller has asked whether it
 * can be made, and nothing of Python's has run since, or may run before it is made: so nobody is away. The lock may
 * still be that of a thread that has waited for an earlier call, and waits for the interpreter's lock. Then, and where
 * there is no memory to take it, all others wait. */
static bool go(End *self, bool is_long)
{
    if (!is_long)
        return false;
    if (!is_taken(self)) {
        PyErr_Clear();
        return false;
    }
    self->is_away = true;
    self->away = PyEval_SaveThread();
    return true;
}

static void come_back(End *self, bool has_gone)
{
    if (!has_gone)
        return;
    PyEval_RestoreThread(self->away);
    self->is_away = false;
    if (!is_called(self->release))
        PyErr_Clear();
}

/* A method of the type that is used for all: Python calls it with what its flags say. */
#define METHOD(name, call, flags, doc)                                                                                 \
    {                                                                                                                  \
        name, (PyCFunction)(void (*)(void))call, flags, doc                                                            \
    }
#define NAMED (METH_VARARGS | METH_KEYWORDS)

#endif
