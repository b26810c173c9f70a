/* A module for Python that settles a chain over the library for C: bench/library/run builds it, and bench/library/steps.py measures it.
 *
 *   Chain(stages)     a graph of a source and applies, each of the stage below
 *   .start(number)    starts again, and completes the source
 *   .next(answer)     one cf_next: finishes the stage that is held, if one is, with this number, claims the next ready stage, and gives
 *                     what its function is to be called with, or None where no stage is ready
 *   .begin(), .end()  begins and ends a sweep of it
 *   .sweep(answer)    one cf_sweep_next, in the same way
 *   .work(function)   calls this of each stage's argument until no stage is ready, and gives how many calls that were
 *   .outcome(stage)   a stage's number, or None where it isn't settled with one */
#define PY_SSIZE_T_CLEAN
#include <Python.h>
#include "cf.h"

typedef struct {
  PyObject_HEAD cf_handle graph;
  cf_task task;
} Chain;

static PyObject *refused(uint32_t code) { return PyErr_Format(PyExc_RuntimeError, "a call of the library answered %u", (unsigned)code); }

static PyObject *done(uint32_t code) {
  if (code != CF_OK) return refused(code);
  Py_RETURN_NONE;
}

static uint32_t open_chain(cf_handle *plan, cf_handle *graph, uint16_t stages) {
  uint32_t code = cf_builder_new(plan, stages, stages);
  for (uint16_t i = 0, of = 0, number; code == CF_OK && i < stages; of = i++)
    code = cf_builder_stage(plan, i == 0 ? CF_SOURCE : CF_APPLY, &of, i > 0, i == 0 ? CF_NO_FUNCTION : 0, &number);
  if (code == CF_OK) code = cf_build(plan);
  return code == CF_OK ? cf_graph_new(plan, 0, graph) : code;
}

static int chain_init(PyObject *object, PyObject *words, PyObject *names) {
  Chain *self = (Chain *)object;
  cf_handle plan = {0};
  unsigned short stages;
  (void)names;
  if (!PyArg_ParseTuple(words, "H", &stages)) return -1;
  cf_free(&self->graph);
  self->task = (cf_task){0};
  const uint32_t code = open_chain(&plan, &self->graph, stages);
  cf_free(&plan);
  return code == CF_OK ? 0 : (refused(code), -1);
}

static void chain_dealloc(PyObject *object) {
  PyTypeObject *type = Py_TYPE(object);
  cf_free(&((Chain *)object)->graph);
  type->tp_free(object);
  Py_DECREF(type);
}

/* Writes a number as a value; false where it is none, and an exception is set then. */
static bool put_number(PyObject *given, cf_value *value) {
  const long number = PyLong_AsLong(given);
  if (number == -1 && PyErr_Occurred()) return false;
  if (number != (int32_t)number) return PyErr_SetString(PyExc_OverflowError, "the number has more than 32 bits"), false;
  *value = (cf_value){CF_INT, (int32_t)number};
  return true;
}

static PyObject *chain_start(PyObject *object, PyObject *given) {
  Chain *self = (Chain *)object;
  cf_value value;
  cf_reply reply;
  if (!put_number(given, &value)) return NULL;
  self->task = (cf_task){0};
  uint32_t code = cf_restart(&self->graph);
  if (code == CF_OK) code = cf_complete(&self->graph, 0, value, &reply);
  return done(code);
}

/* The argument of the stage that a step has given, or None where it has given none. */
static PyObject *told(Chain *self, uint32_t code) {
  if (code == CF_OK) return PyLong_FromLong(self->task.args.first.number);
  if (code != CF_NOTHING) return refused(code);
  Py_RETURN_NONE;
}

static PyObject *chain_next(PyObject *object, PyObject *answer) {
  Chain *self = (Chain *)object;
  if (self->task.held && !put_number(answer, &self->task.answer.value)) return NULL;
  return told(self, cf_next(&self->graph, 0, &self->task));
}

static PyObject *chain_begin(PyObject *object, PyObject *none) {
  (void)none;
  return done(cf_sweep_begin(&((Chain *)object)->graph));
}

static PyObject *chain_sweep(PyObject *object, PyObject *answer) {
  Chain *self = (Chain *)object;
  if (self->task.held && !put_number(answer, &self->task.answer.value)) return NULL;
  return told(self, cf_sweep_next(&self->graph, &self->task));
}

static PyObject *chain_end(PyObject *object, PyObject *none) {
  (void)none;
  return done(cf_sweep_end(&((Chain *)object)->graph));
}

/* Calls the function with what the task has, and puts what it gave into the task. */
static bool called(PyObject *function, cf_task *task) {
  PyObject *argument = PyLong_FromLong(task->args.first.number);
  PyObject *given = argument ? PyObject_CallOneArg(function, argument) : NULL;
  const bool is_put = given && put_number(given, &task->answer.value);
  Py_XDECREF(argument);
  Py_XDECREF(given);
  return is_put;
}

static PyObject *chain_work(PyObject *object, PyObject *function) {
  Chain *self = (Chain *)object;
  uint32_t code;
  long calls = 0;
  while ((code = cf_next(&self->graph, 0, &self->task)) == CF_OK) {
    if (!called(function, &self->task)) return NULL;
    calls++;
  }
  return code == CF_NOTHING ? PyLong_FromLong(calls) : refused(code);
}

static PyObject *chain_outcome(PyObject *object, PyObject *stage) {
  cf_value number;
  cf_outcome outcome;
  if (!put_number(stage, &number)) return NULL;
  const uint32_t code = cf_get(&((Chain *)object)->graph, (uint16_t)number.number, &outcome);
  if (code != CF_OK) return refused(code);
  if (outcome.kind == CF_VALUE && outcome.value.kind != CF_NIL) return PyLong_FromLong(outcome.value.number);
  Py_RETURN_NONE;
}

static PyMethodDef methods[] = {
    {"start", chain_start, METH_O, NULL},
    {"next", chain_next, METH_O, NULL},
    {"work", chain_work, METH_O, NULL},
    {"begin", chain_begin, METH_NOARGS, NULL},
    {"sweep", chain_sweep, METH_O, NULL},
    {"end", chain_end, METH_NOARGS, NULL},
    {"outcome", chain_outcome, METH_O, NULL},
    {NULL, NULL, 0, NULL},
};
static PyType_Slot slots[] = {
    {Py_tp_new, PyType_GenericNew},
    {Py_tp_init, chain_init},
    {Py_tp_dealloc, chain_dealloc},
    {Py_tp_methods, methods},
    {0, NULL},
};
static PyType_Spec spec = {"step_module.Chain", sizeof(Chain), 0, Py_TPFLAGS_DEFAULT, slots};
static PyModuleDef module = {PyModuleDef_HEAD_INIT, "step_module", NULL, -1, NULL, NULL, NULL, NULL, NULL};

PyMODINIT_FUNC PyInit_step_module(void) {
  PyObject *made = PyModule_Create(&module), *type = PyType_FromSpec(&spec);
  if (!made || !type || PyModule_AddObject(made, "Chain", type) < 0) return NULL;
  return made;
}
