/* A judge: its calls as methods of a type. */
#ifndef JUDGE_H
#define JUDGE_H

#include "events.h"

/* How many findings are taken at once. */
enum { FOUND = 64 };

typedef struct {
    End end;
    bm_finding found[FOUND]; /* taken of the library; they are kept until they are given */
    size_t count;
} Judge;

static bm_judge *judge_of(End *self)
{
    return (bm_judge *)&self->at;
}

static PyObject *judge_begin(End *self, PyObject *given)
{
    uint64_t numbers[3] = {0};
    for (Py_ssize_t it = 0; it < 3; it++) {
        PyObject *number = PyTuple_GetItem(given, it);
        if (number == NULL || !read_number(self->state, number, BM_SETTINGS, &numbers[it]))
            return NULL;
    }
    bm_judge_options options = {.size = sizeof options,
                                .rules = (uint32_t)numbers[0],
                                .framing = (uint32_t)numbers[1],
                                .content = (uint32_t)numbers[2]};
    if (!is_free(self))
        return NULL;
    void *at = NULL;
    int32_t code = bm_judge_open(&options, &at);
    if (code != BM_OK)
        return refused(self->state, code);
    if (self->at != NULL)
        bm_judge_free(*judge_of(self));
    self->at = at;
    return none_of(self->state);
}

static PyObject *judge_close(End *self, PyObject *nothing)
{
    (void)nothing;
    if (!is_free(self))
        return NULL;
    if (self->at != NULL)
        bm_judge_free(*judge_of(self));
    self->at = NULL;
    return none_of(self->state);
}

static void judge_end(PyObject *object)
{
    End *self = (End *)object;
    if (self->at != NULL)
        bm_judge_free(*judge_of(self));
    end_free(self);
}

/* (a judge takes its time with whatever it sees) */
static PyObject *judge_saw(End *self, PyObject *given)
{
    uint64_t side;
    Text text;
    if (PyTuple_Size(given) != 2 || !read_number(self->state, PyTuple_GetItem(given, 0), BM_SETTINGS, &side) ||
        !read_bytes(PyTuple_GetItem(given, 1), &text))
        return PyErr_Occurred() == NULL ? refused(self->state, BM_SETTINGS) : NULL;
    int32_t code = BM_OK;
    bool can_be = is_open(self);
    if (can_be) {
        bool has_gone = go(self, true);
        code = bm_judge_saw(judge_of(self), (uint32_t)side, text.at, text.length);
        come_back(self, has_gone);
    }
    text_end(&text);
    return can_be ? done(self->state, code) : NULL;
}

static PyObject *judge_ended(End *self, PyObject *given)
{
    uint64_t side, how;
    if (PyTuple_Size(given) != 2 || !read_number(self->state, PyTuple_GetItem(given, 0), BM_SETTINGS, &side) ||
        !read_number(self->state, PyTuple_GetItem(given, 1), BM_SETTINGS, &how))
        return PyErr_Occurred() == NULL ? refused(self->state, BM_SETTINGS) : NULL;
    if (!is_open(self))
        return NULL;
    bool has_gone = go(self, true);
    int32_t code = bm_judge_ended(judge_of(self), (uint32_t)side, (uint32_t)how);
    come_back(self, has_gone);
    return done(self->state, code);
}

static PyObject *finding_of(const bm_finding *it)
{
    PyObject *numbers[] = {number_of(it->side),   number_of(it->rule),   number_of(it->level), number_of(it->whose),
                           number_of(it->number), number_of(it->offset), number_of(it->entry)};
    return tuple_of(sizeof numbers / sizeof *numbers, numbers);
}

static PyObject *findings_of(const bm_finding *found, size_t count)
{
    PyObject *list = PyList_New(0);
    for (size_t at = 0; list != NULL && at < count; at++) {
        PyObject *finding = finding_of(&found[at]);
        bool is_well = finding != NULL && PyList_Append(list, finding) == 0;
        Py_DecRef(finding);
        if (!is_well) {
            Py_DecRef(list);
            return NULL;
        }
    }
    return list;
}

/* The findings that weren't given yet, each as its numbers; at most so many, so that who gets fewer has all. */
static PyObject *judge_next(Judge *self, PyObject *nothing)
{
    (void)nothing;
    if (!is_open(&self->end))
        return NULL;
    if (self->count == 0)
        self->count = bm_judge_next(judge_of(&self->end), self->found, FOUND);
    PyObject *list = findings_of(self->found, self->count);
    if (list != NULL)
        self->count = 0;
    return list;
}

static PyMethodDef JUDGE_METHODS[] = {
    METHOD("_begin", judge_begin, METH_VARARGS, NULL), METHOD("_saw", judge_saw, METH_VARARGS, NULL),
    METHOD("_ended", judge_ended, METH_VARARGS, NULL), METHOD("_next", judge_next, METH_NOARGS, NULL),
    METHOD("close", judge_close, METH_NOARGS, NULL),   {0},
};
static PyType_Slot JUDGE_SLOTS[] = {
    {Py_tp_new, end_new},
    {Py_tp_dealloc, judge_end},
    {Py_tp_methods, JUDGE_METHODS},
    {0, NULL},
};
static PyType_Spec JUDGE = {HELD_AS ".Judge", sizeof(Judge), 0, Py_TPFLAGS_DEFAULT | Py_TPFLAGS_BASETYPE, JUDGE_SLOTS};

#endif
