/* Refuses memory to the extension and to the library in it: linked with both, and with --wrap for each function below,
 * it counts what they ask for, and refuses what the variable REFUSED_AT names, from 1 on. extension_calls.py sets that,
 * and asks how much there was, through a module of the name that the extension has. */
#define PY_SSIZE_T_CLEAN
#define Py_LIMITED_API 0x03080000
#include <Python.h>
#include <stdlib.h>

long refused_at, refused_asked, refused_held;

static int is_refused(void)
{
    return ++refused_asked == refused_at;
}

void *__real_malloc(size_t size);
void *__real_realloc(void *at, size_t size);
void __real_free(void *at);

void *__wrap_malloc(size_t size)
{
    if (is_refused())
        return NULL;
    refused_held++;
    return __real_malloc(size);
}

void *__wrap_realloc(void *at, size_t size)
{
    if (is_refused())
        return NULL;
    refused_held += at == NULL;
    return __real_realloc(at, size);
}

void __wrap_free(void *at)
{
    refused_held -= at != NULL;
    __real_free(at);
}

/* What makes an object: its parameters, and how these are passed on. */
#define REFUSED(name, parameters, given)                                                                               \
    PyObject *__real_##name parameters;                                                                                \
    PyObject *__wrap_##name parameters                                                                                 \
    {                                                                                                                  \
        return is_refused() ? PyErr_NoMemory() : __real_##name given;                                                  \
    }

REFUSED(PyBytes_FromStringAndSize, (const char *at, Py_ssize_t length), (at, length))
REFUSED(PyBytes_FromObject, (PyObject * object), (object))
REFUSED(PyMemoryView_FromObject, (PyObject * object), (object))
REFUSED(PyUnicode_DecodeUTF8, (const char *at, Py_ssize_t length, const char *errors), (at, length, errors))
REFUSED(PyUnicode_AsEncodedString, (PyObject * text, const char *coding, const char *errors), (text, coding, errors))
REFUSED(PyTuple_New, (Py_ssize_t length), (length))
REFUSED(PyList_New, (Py_ssize_t length), (length))
REFUSED(PyLong_FromLongLong, (long long value), (value))

PyObject *__real_PyLong_FromUnsignedLongLong(unsigned long long value);

PyObject *__wrap_PyLong_FromUnsignedLongLong(unsigned long long value)
{
    /* (small numbers Python has ready) */
    return value > 256 && is_refused() ? PyErr_NoMemory() : __real_PyLong_FromUnsignedLongLong(value);
}

int __real_PyList_Append(PyObject *list, PyObject *item);

int __wrap_PyList_Append(PyObject *list, PyObject *item)
{
    if (!is_refused())
        return __real_PyList_Append(list, item);
    PyErr_NoMemory();
    return -1;
}
