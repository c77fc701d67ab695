/* The extension module timers._timers, over CPython's stable ABI: the library itself, which is compiled in, and its types.
 *
 * Each call holds the GIL from its beginning to its end, so that calls come one at a time. None waits. Memory comes
 * from Python's allocator.
 */
/* SPDX-License-Identifier: MIT OR Apache-2.0 */
#define PY_SSIZE_T_CLEAN
#define Py_LIMITED_API 0x030b0000
#include <Python.h>
#include <structmember.h>
#ifdef Py_GIL_DISABLED
#error "calls come one at a time by the GIL, which a free-threaded Python does not have"
#endif
#define TIMERS_STATIC
#include "timers.c"
#include "common.h"
#include "wheel.h"
#include "desk.h"

static const struct constant others[] = {
	OF_DESK(CLIENTS),
	/* made by tools/facts: tables and kinds of words in Python */
	OF_TIMERS(WIDE), OF_TIMERS(SMOOTH), OF_TIMERS(SMALL), OF_TIMERS(LAST), OF_TIMERS(SMALL_LAST),
	OF_WORD(STARTED), OF_WORD(RESTARTED), OF_WORD(STOPPED), OF_WORD(REFUSED), OF_WORD(NOT_TAKEN), OF_WORD(EXPIRED),
	OF_WORD(RETURNED),
};

static bool add_table(PyObject *module, const struct constant *table, size_t count)
{
	PyObject *value;
	size_t i;

	for (i = 0; i < count; i++) {
		value = PyLong_FromUnsignedLongLong(table[i].value);
		if (value == NULL || PyModule_AddObjectRef(module, table[i].name, value) < 0) {
			Py_XDECREF(value);
			return false;
		}
		Py_DECREF(value);
	}
	return true;
}

static bool add_constants(PyObject *module)
{
	return add_table(module, timers_statuses, COUNT(timers_statuses)) && add_table(module, desk_statuses, COUNT(desk_statuses))
	       && add_table(module, others, COUNT(others)) && PyModule_AddStringConstant(module, "__version__", TIMERS_VERSION) == 0;
}

static bool add_type(PyObject *module, PyTypeObject **type, PyType_Spec *spec, PyObject *base)
{
	*type = (PyTypeObject *)PyType_FromModuleAndSpec(module, spec, base);
	return *type != NULL && PyModule_AddType(module, *type) == 0;
}

static bool add_error(PyObject *module, PyObject **error, PyType_Spec *spec)
{
	PyTypeObject *type;
	const bool added = add_type(module, &type, spec, PyExc_Exception);

	*error = (PyObject *)type;
	return added;
}

static bool add_types(PyObject *module, struct module_state *state)
{
	state->word_type = PyStructSequence_NewType(&word_description);
	return state->word_type != NULL && PyModule_AddType(module, state->word_type) == 0
	       && add_error(module, &state->timers_error, &timers_error_spec)
	       && add_error(module, &state->desk_error, &desk_error_spec)
	       && add_type(module, &state->handle_type, &handle_spec, NULL)
	       && add_type(module, &state->timers_type, &timers_spec, NULL)
	       && add_type(module, &state->iterator_type, &iterator_spec, NULL)
	       && add_type(module, &state->desk_type, &desk_spec, NULL)
	       && add_type(module, &state->line_type, &line_spec, NULL);
}

static int execute(PyObject *module)
{
	/* TIMERS_OPEN: an earlier import in this process, which gave the same functions, has asked for memory. */
	const enum timers_status given = timers_set_allocator(PyMem_Malloc, PyMem_Realloc, PyMem_Free);

	(void)given;
	return add_types(module, PyModule_GetState(module)) && add_constants(module) ? 0 : -1;
}

static int traverse(PyObject *module, visitproc visit, void *arg)
{
	struct module_state *state = PyModule_GetState(module);

	Py_VISIT(state->handle_type);
	Py_VISIT(state->timers_type);
	Py_VISIT(state->iterator_type);
	Py_VISIT(state->desk_type);
	Py_VISIT(state->line_type);
	Py_VISIT(state->word_type);
	Py_VISIT(state->timers_error);
	Py_VISIT(state->desk_error);
	return 0;
}

static int clear(PyObject *module)
{
	struct module_state *state = PyModule_GetState(module);

	Py_CLEAR(state->handle_type);
	Py_CLEAR(state->timers_type);
	Py_CLEAR(state->iterator_type);
	Py_CLEAR(state->desk_type);
	Py_CLEAR(state->line_type);
	Py_CLEAR(state->word_type);
	Py_CLEAR(state->timers_error);
	Py_CLEAR(state->desk_error);
	return 0;
}

static void free_module(void *module) { clear(module); }

static PyModuleDef_Slot module_slots[] = {
	{ Py_mod_exec, execute },
	{ 0, NULL },
};

static PyMethodDef module_functions[] = {
	{ "room_for", FAST(room_for),
	  "room_for($module, timers, requests, /)\n--\n\n"
	  "The room of an outbox for which no request of such a client is held back." },
	{ NULL, NULL, 0, NULL },
};

static PyModuleDef definition = {
	PyModuleDef_HEAD_INIT, "timers._timers", "The types of timers and timers.desk.", sizeof(struct module_state),
	module_functions, module_slots, traverse, clear, free_module,
};

static struct module_state *state_of(PyTypeObject *type)
{
	PyObject *module;

	for (; type != NULL; type = PyType_GetSlot(type, Py_tp_base)) {
		module = PyType_GetModule(type);
		if (module != NULL && PyModule_GetDef(module) == &definition)
			return PyModule_GetState(module);
		PyErr_Clear();
	}
	Py_FatalError("a type of timers has no base of the module");
}

PyMODINIT_FUNC PyInit__timers(void);
PyMODINIT_FUNC PyInit__timers(void) { return PyModuleDef_Init(&definition); }
