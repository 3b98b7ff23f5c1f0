/* What the extension calls outside of itself: Python's limited API, as CPython has it from version 3.8 on, and the C
 * library.
 *
 * These are declarations written by hand, so that the extension is the same byte for byte wherever it is built, and
 * needs no headers of Python. With PYTHON_HEADERS those of Python are taken: the compiler then compares the two, and
 * what it makes has to be the same. No object of Python's own is named here (None, a type, an exception): these are
 * asked for as the module begins, so that on each system all that is taken of Python are functions. */
#ifndef OUTSIDE_H
#define OUTSIDE_H

#include <stdbool.h>
#include <stddef.h>
#include <stdint.h>

#ifdef PYTHON_HEADERS
#define Py_LIMITED_API 0x03080000
#include <Python.h>
#include <stdlib.h>
#include <string.h>
#define EXPORTED PyMODINIT_FUNC
#else
typedef int64_t Py_ssize_t;
typedef struct type PyTypeObject;
typedef struct thread_state PyThreadState;
typedef struct {
    Py_ssize_t ob_refcnt;
    PyTypeObject *ob_type;
} PyObject;
typedef PyObject *(*PyCFunction)(PyObject *self, PyObject *given);
typedef void (*PyCapsule_Destructor)(PyObject *capsule);
typedef struct {
    const char *ml_name;
    PyCFunction ml_meth;
    int ml_flags;
    const char *ml_doc;
} PyMethodDef;
typedef struct {
    const char *name;
    PyObject *(*get)(PyObject *self, void *closure);
    int (*set)(PyObject *self, PyObject *value, void *closure);
    const char *doc;
    void *closure;
} PyGetSetDef;
typedef struct {
    int slot;
    void *pfunc;
} PyType_Slot;
typedef struct {
    const char *name;
    int basicsize;
    int itemsize;
    unsigned flags;
    PyType_Slot *slots;
} PyType_Spec;
typedef struct {
    int slot;
    void *value;
} PyModuleDef_Slot;
typedef struct {
    struct {
        PyObject ob_base;
        PyObject *(*m_init)(void);
        Py_ssize_t m_index;
        PyObject *m_copy;
    } m_base;
    const char *m_name;
    const char *m_doc;
    Py_ssize_t m_size;
    PyMethodDef *m_methods;
    PyModuleDef_Slot *m_slots;
    int (*m_traverse)(PyObject *module, int (*visit)(PyObject *object, void *given), void *given);
    int (*m_clear)(PyObject *module);
    void (*m_free)(void *module);
} PyModuleDef;
#define PyModuleDef_HEAD_INIT                                                                                          \
    {                                                                                                                  \
        {1, NULL}, NULL, 0, NULL                                                                                       \
    }
#define PyObject_HEAD PyObject ob_base;
#define Py_TYPE(object) (((PyObject *)(object))->ob_type)
#define METH_VARARGS 1
#define METH_KEYWORDS 2
#define METH_NOARGS 4
#define METH_O 8
#define Py_TPFLAGS_DEFAULT (1u << 18)
#define Py_TPFLAGS_BASETYPE (1u << 10)
#define Py_TPFLAGS_BYTES_SUBCLASS (1u << 27)
#define Py_TPFLAGS_UNICODE_SUBCLASS (1u << 28)
#define Py_mod_exec 2
#define Py_tp_dealloc 52
#define Py_tp_doc 56
#define Py_tp_methods 64
#define Py_tp_new 65
#define Py_tp_getset 73
#define Py_tp_free 74
#ifdef _WIN32
#define EXPORTED __declspec(dllexport) PyObject *
#else
#define EXPORTED __attribute__((visibility("default"))) PyObject *
#endif

/* (which the kit's own headers lack, and a system's have) */
#ifndef UINT64_MAX
#define UINT64_MAX __UINT64_MAX__
#define SIZE_MAX __SIZE_MAX__
#endif

void *malloc(size_t size);
void free(void *at);
void *memcpy(void *to, const void *from, size_t size);
#endif

void Py_IncRef(PyObject *object);
void Py_DecRef(PyObject *object);

PyObject *PyErr_NoMemory(void);
void PyErr_SetString(PyObject *kind, const char *text);
void PyErr_SetNone(PyObject *kind);
PyObject *PyErr_Occurred(void);
int PyErr_ExceptionMatches(PyObject *kind);
void PyErr_Clear(void);

int PyObject_IsTrue(PyObject *object);
PyObject *PyObject_GetAttrString(PyObject *object, const char *name);
int PyObject_SetAttrString(PyObject *object, const char *name, PyObject *value);
PyObject *PyObject_CallFunctionObjArgs(PyObject *callable, ...);
PyObject *PyBool_FromLong(long value);
PyObject *PyLong_FromLong(long value);
PyObject *PyLong_FromLongLong(long long value);
PyObject *PyLong_FromUnsignedLongLong(unsigned long long value);
long long PyLong_AsLongLong(PyObject *object);
unsigned long long PyLong_AsUnsignedLongLong(PyObject *object);
PyObject *PyBytes_FromStringAndSize(const char *bytes, Py_ssize_t length);
PyObject *PyBytes_FromObject(PyObject *object);
char *PyBytes_AsString(PyObject *bytes);
Py_ssize_t PyBytes_Size(PyObject *bytes);
PyObject *PyMemoryView_FromObject(PyObject *object);
PyObject *PyUnicode_DecodeUTF8(const char *text, Py_ssize_t length, const char *errors);
PyObject *PyUnicode_FromString(const char *text);
PyObject *PyUnicode_AsEncodedString(PyObject *text, const char *encoding, const char *errors);
int PyUnicode_CompareWithASCIIString(PyObject *text, const char *other);
PyObject *Py_BuildValue(const char *form, ...);
PyObject *PyTuple_New(Py_ssize_t length);
Py_ssize_t PyTuple_Size(PyObject *tuple);
PyObject *PyTuple_GetItem(PyObject *tuple, Py_ssize_t at);
int PyTuple_SetItem(PyObject *tuple, Py_ssize_t at, PyObject *item);
PyObject *PyList_New(Py_ssize_t length);
Py_ssize_t PyList_Size(PyObject *list);
PyObject *PyList_GetItem(PyObject *list, Py_ssize_t at);
int PyList_Append(PyObject *list, PyObject *item);
int PyDict_Next(PyObject *dict, Py_ssize_t *at, PyObject **key, PyObject **value);

unsigned long PyType_GetFlags(PyTypeObject *type);
void *PyType_GetSlot(PyTypeObject *type, int slot);
PyObject *PyType_GenericAlloc(PyTypeObject *type, Py_ssize_t count);
PyObject *PyType_FromSpec(PyType_Spec *spec);
PyObject *PyCapsule_New(void *at, const char *name, PyCapsule_Destructor destructor);
void *PyCapsule_GetPointer(PyObject *capsule, const char *name);
PyObject *PyImport_ImportModule(const char *name);
PyObject *PyModuleDef_Init(PyModuleDef *definition);

PyThreadState *PyEval_SaveThread(void);
void PyEval_RestoreThread(PyThreadState *state);

#endif
