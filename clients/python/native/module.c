/* The module: its types, and what each interpreter has of it. */
#include "native.h"

static bool add_type(PyObject *module, PyTypeObject **type, PyType_Spec *spec) {
  *type = (PyTypeObject *)PyType_FromModuleAndSpec(module, spec, NULL);
  return *type && !PyModule_AddType(module, *type);
}

static bool draw_keys(State *state) {
  PyObject *urandom = import_from("os", "urandom"), *raw = urandom ? PyObject_CallFunction(urandom, "n", sizeof state->keys) : NULL;
  bool is_done = raw && PyBytes_Size(raw) == sizeof state->keys;
  if (is_done) memcpy(state->keys, PyBytes_AsString(raw), sizeof state->keys);
  else if (!PyErr_Occurred()) PyErr_SetString(PyExc_ImportError, "os.urandom gave too few bytes");
  Py_XDECREF(urandom);
  Py_XDECREF(raw);
  return is_done;
}

static int fill_module(PyObject *module) {
  State *state = PyModule_GetState(module);
  if (interner_version() != INTERNER_VERSION) return PyErr_SetString(PyExc_ImportError, "the library has another interface"), -1;
  if (!(state->array = import_from("array", "array"))) return -1;
  bool is_done = draw_keys(state) && add_type(module, &state->interner, &method_spec) && add_type(module, &state->walk, &walk_spec) &&
                 add_type(module, &state->codes, &codes_spec) && add_type(module, &state->column, &column_spec) &&
                 add_type(module, &state->rows_walk, &rows_walk_spec) && add_type(module, &state->parts, &parts_spec) &&
                 add_type(module, &state->mask, &mask_spec);
  is_done = is_done && !PyModule_AddStringConstant(module, "_BUILD", interner_build());
  is_done = is_done && !PyModule_AddIntConstant(module, "_MOST_NARROW", MOST_NARROW);
  return is_done && !PyModule_AddIntConstant(module, "_VALUES_AT_ONCE", VALUES_AT_ONCE) ? 0 : -1;
}

static int traverse_module(PyObject *module, visitproc visit, void *arg) {
  State *state = PyModule_GetState(module);
  if (!state) return 0;
  Py_VISIT((PyObject *)state->interner);
  Py_VISIT((PyObject *)state->walk);
  Py_VISIT((PyObject *)state->column);
  Py_VISIT((PyObject *)state->rows_walk);
  Py_VISIT((PyObject *)state->codes);
  Py_VISIT((PyObject *)state->parts);
  Py_VISIT((PyObject *)state->mask);
  Py_VISIT(state->array);
  return 0;
}

/* Only once the module is freed: objects read the state as long as they live, and their types refer to the module. So a
 * collection, which clears the types themselves, needs no clearing here. */
static void free_module(void *module) {
  State *state = PyModule_GetState(module);
  if (!state) return;
  Py_CLEAR(state->interner);
  Py_CLEAR(state->walk);
  Py_CLEAR(state->column);
  Py_CLEAR(state->rows_walk);
  Py_CLEAR(state->codes);
  Py_CLEAR(state->parts);
  Py_CLEAR(state->mask);
  Py_CLEAR(state->array);
}

/* From CPython 3.12 on, which knows it, a slot says that each interpreter may have a GIL of its own: nothing is shared. From 3.13
 * on another says that the module needs the GIL, so that a free-threaded CPython enables it. */
enum { MULTIPLE_INTERPRETERS = 3, GIL = 4 };
#define PER_INTERPRETER_GIL ((void *)2)
#define GIL_USED ((void *)0)

static PyModuleDef_Slot slots[] = {{Py_mod_exec, fill_module}, {0, NULL}};
static PyModuleDef_Slot slots_since_3_12[] = {{Py_mod_exec, fill_module}, {MULTIPLE_INTERPRETERS, PER_INTERPRETER_GIL}, {0, NULL}};
static PyModuleDef_Slot slots_since_3_13[] = {
    {Py_mod_exec, fill_module}, {MULTIPLE_INTERPRETERS, PER_INTERPRETER_GIL}, {GIL, GIL_USED}, {0, NULL}};

#define DEFINITION(its_slots) \
  {PyModuleDef_HEAD_INIT, "string_interner._native", "What string_interner is made of.", sizeof(State), NULL, its_slots, \
   traverse_module, NULL, free_module}

static struct PyModuleDef definition = DEFINITION(slots), definition_since_3_12 = DEFINITION(slots_since_3_12),
                          definition_since_3_13 = DEFINITION(slots_since_3_13);

/* Which of them counts. */
static PyModuleDef *own_definition(void) {
  return Py_Version >= 0x030D0000 ? &definition_since_3_13 : Py_Version >= 0x030C0000 ? &definition_since_3_12 : &definition;
}

/* The nearest base that this module made. A base may come from another module in C. PyType_GetModuleByDef is in the limited API
 * only from 3.13 on. */
State *state_of_type(PyTypeObject *type) {
  for (; type; type = PyType_GetSlot(type, Py_tp_base)) {
    PyObject *module = PyType_GetModule(type);
    if (module && PyModule_GetDef(module) == own_definition()) return PyModule_GetState(module);
    PyErr_Clear();
  }
  PyErr_SetString(PyExc_TypeError, "no class of string_interner");
  return NULL;
}

PyMODINIT_FUNC PyInit__native(void) { return PyModuleDef_Init(own_definition()); }
