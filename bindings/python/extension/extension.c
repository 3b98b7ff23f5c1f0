/* The package's extension: the C library's connection and judge as types of Python's. docs/python.md tells what they
 * do.
 *
 * It is for any CPython from 3.8 on, by the limited API. Each interpreter has a module, types and a state of its own.
 */
#include "connection.h"
#include "judge.h"

/* What the package compares with its own number, so that one of another version isn't used: to be counted up whenever
 * what they say to each other changes. */
enum { MADE_FOR = 1 };

static bool is_added(PyObject *module, const char *name, PyType_Spec *spec, PyObject *state)
{
    PyObject *type = PyType_FromSpec(spec);
    bool is_well = type != NULL && PyObject_SetAttrString(type, "_state", state) == 0 &&
                   PyObject_SetAttrString(module, name, type) == 0;
    Py_DecRef(type);
    return is_well;
}

static int begin(PyObject *module)
{
    PyObject *state = state_new(), *number = PyLong_FromLong(MADE_FOR);
    bool is_well = state != NULL && number != NULL && PyObject_SetAttrString(module, "MADE_FOR", number) == 0 &&
                   is_added(module, "Connection", &CONNECTION, state) && is_added(module, "Judge", &JUDGE, state);
    Py_DecRef(state);
    Py_DecRef(number);
    return is_well ? 0 : -1;
}

static PyModuleDef_Slot SLOTS[] = {{Py_mod_exec, begin}, {0, NULL}};
static PyModuleDef MODULE = {.m_base = PyModuleDef_HEAD_INIT, .m_name = HELD_AS, .m_slots = SLOTS};

EXPORTED PyInit__bullmyrtle(void);

EXPORTED PyInit__bullmyrtle(void)
{
    return PyModuleDef_Init(&MODULE);
}
