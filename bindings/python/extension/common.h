/* What the parts of the extension share: the state of the module, numbers, handles and refusals. */
/* SPDX-License-Identifier: MIT OR Apache-2.0 */

/* The types of one import of the module. Each object has a pointer to them. */
struct module_state {
	PyTypeObject *handle_type;
	PyTypeObject *timers_type;
	PyTypeObject *iterator_type;
	PyTypeObject *desk_type;
	PyTypeObject *line_type;
	PyTypeObject *word_type;
	PyObject *timers_error;
	PyObject *desk_error;
	uint64_t desks;    /* how many were made */
};

/* The state of the module that the type, or the first of its bases that has one, was made by. Does not fail: no other type has
 * the functions that ask. */
static struct module_state *state_of(PyTypeObject *type);

typedef PyObject *(*fast_function)(PyObject *, PyObject *const *, Py_ssize_t);
typedef PyObject *(*named_function)(PyObject *, PyObject *const *, Py_ssize_t, PyObject *);
#define FAST(function) ((PyCFunction)(void (*)(void))(fast_function)(function)), METH_FASTCALL
#define NAMED(function) ((PyCFunction)(void (*)(void))(named_function)(function)), METH_FASTCALL | METH_KEYWORDS

/* A method or, of void, an attribute, whose result is that of a call of C. */
#define CALL(of, ours, theirs, held, result) \
	static PyObject *ours(PyObject *self, of *unused) \
	{ \
		(void)unused; \
		return result(theirs(held(self))); \
	}

#define MEMBER(type, name, text) { #name, T_ULONGLONG, offsetof(type, name), READONLY, text }

/* Numbers */

static void refuse_number(PyObject *index, unsigned bits)
{
	PyObject *text;

	PyErr_Clear();
	text = PyObject_Str(index);
	if (text == NULL) {
		PyErr_Clear();    /* Python writes no number of more than 4,300 digits */
		PyErr_Format(PyExc_OverflowError, "the number is not from 0 to 2^%u - 1", bits);
	} else {
		PyErr_Format(PyExc_OverflowError, "%U is not from 0 to 2^%u - 1", text, bits);
		Py_DECREF(text);
	}
}

/* Reads a number by its __index__, for what is no int, and for the text if it is out of range. */
static bool read_index(PyObject *value, unsigned bits, uint64_t *number)
{
	PyObject *index = PyNumber_Index(value);
	bool fits;

	if (index == NULL)
		return false;
	*number = PyLong_AsUnsignedLongLong(index);
	fits = (*number != UINT64_MAX || !PyErr_Occurred()) && (bits >= 64 || *number >> bits == 0);
	if (!fits)
		refuse_number(index, bits);
	Py_DECREF(index);
	return fits;
}

/* Reads a whole number from 0 to 2^64 - 1. Returns false with an exception if it is none. */
static bool read_number(PyObject *value, uint64_t *number)
{
	*number = PyLong_AsUnsignedLongLong(value);
	if (*number != UINT64_MAX || !PyErr_Occurred())
		return true;
	PyErr_Clear();
	return read_index(value, 64, number);
}

static bool read_size(PyObject *value, size_t *size)
{
	uint64_t number;

	if (!read_index(value, 8 * sizeof(size_t), &number))
		return false;
	*size = (size_t)number;
	return true;
}

static bool has_arguments(const char *name, Py_ssize_t given, Py_ssize_t least, Py_ssize_t most)
{
	if (given >= least && given <= most)
		return true;
	if (least == most)
		PyErr_Format(PyExc_TypeError, "%s() takes %zd arguments, not %zd", name, most, given);
	else
		PyErr_Format(PyExc_TypeError, "%s() takes %zd or %zd arguments, not %zd", name, least, most, given);
	return false;
}

/* Reads the arguments of a call whose last one may be left out, or be given by its name: `given` are by position, and `names`,
 * a tuple or NULL, has the names of those after them. The last one stays as it is if it is left out. */
static bool read_last(const char *call, const char *name, PyObject *const *arguments, Py_ssize_t given, PyObject *names,
                      Py_ssize_t most, PyObject **last)
{
	const Py_ssize_t named = names == NULL ? 0 : PyTuple_Size(names);

	if (!has_arguments(call, given + named, most - 1, most))
		return false;
	if (named > 1 || (named == 1 && (given < most - 1 || PyUnicode_CompareWithASCIIString(PyTuple_GetItem(names, 0), name) != 0))) {
		PyErr_Format(PyExc_TypeError, "%s() takes %s alone by its name", call, name);
		return false;
	}
	if (given + named == most)
		*last = arguments[most - 1];
	return true;
}

/* A tick, or None in place of TIMERS_NEVER. */
static PyObject *tick_or_none(uint64_t tick)
{
	if (tick == TIMERS_NEVER)
		Py_RETURN_NONE;
	return PyLong_FromUnsignedLongLong(tick);
}

/* Refusals */

/* What the headers name, under the names of Python. Statuses of both enumerations have the same numbers. */
struct constant { const char *name; uint64_t value; };
#define OF_TIMERS(name) { #name, TIMERS_##name }
#define OF_DESK(name) { #name, TIMERS_DESK_##name }
#define OF_WORD(name) { #name, TIMERS_WORD_##name }
#define COUNT(table) (sizeof(table) / sizeof(table)[0])

static const struct constant timers_statuses[] = {
	/* made by tools/facts: statuses of timers in Python */
	OF_TIMERS(OK), OF_TIMERS(NOT_OPEN), OF_TIMERS(OPEN), OF_TIMERS(NO_TABLE), OF_TIMERS(NO_MEMORY), OF_TIMERS(DUE),
	OF_TIMERS(NOT_PENDING), OF_TIMERS(ZERO_INTERVAL), OF_TIMERS(TOO_LATE), OF_TIMERS(SERIALS_SPENT), OF_TIMERS(CLOCK_END),
};
static const struct constant desk_statuses[] = {
	/* made by tools/facts: statuses of desks in Python */
	OF_DESK(CLOSED), OF_DESK(CAPACITY), OF_DESK(NO_CLIENT), OF_DESK(NUMBERS_SPENT), OF_DESK(REPEATED), OF_DESK(AHEAD),
	OF_DESK(LINE_FULL), OF_DESK(FINISHED), OF_DESK(OUT_OF_RANGE), OF_DESK(IDLE), OF_DESK(NO_ROOM), OF_DESK(OTHER_LINE),
	OF_DESK(NOT_FINISHED), OF_DESK(LEFT), OF_DESK(NOT_FREED),
};

/* The name of a number of the table, or `otherwise`. */
static const char *name_of(uint64_t number, const struct constant *table, size_t count, const char *otherwise)
{
	size_t i;

	for (i = 0; i < count; i++)
		if (table[i].value == number)
			return table[i].name;
	return otherwise;
}

/* Raises TimersError or DeskError. Its only argument is the status, of which it makes its text. */
static PyObject *refuse(PyObject *kind, uint32_t status)
{
	PyObject *number = PyLong_FromUnsignedLong(status);

	if (number != NULL) {
		PyErr_SetObject(kind, number);
		Py_DECREF(number);
	}
	return NULL;
}

/* The status that an error was made with, as a new reference. */
static PyObject *status_of(PyObject *error, void *unused)
{
	PyObject *arguments = PyObject_GetAttrString(error, "args"), *status;

	(void)unused;
	if (arguments == NULL)
		return NULL;
	status = PySequence_GetItem(arguments, 0);
	Py_DECREF(arguments);
	return status;
}

static int error_init(PyObject *self, PyObject *arguments, PyObject *named)
{
	uint64_t status;

	if (PyTuple_Size(arguments) != 1 || (named != NULL && PyDict_Size(named) > 0)) {
		PyErr_SetString(PyExc_TypeError, "a status is the only argument");
		return -1;
	}
	if (!read_number(PyTuple_GetItem(arguments, 0), &status))
		return -1;
	return ((initproc)PyType_GetSlot((PyTypeObject *)PyExc_Exception, Py_tp_init))(self, arguments, named);
}

/* As a call that makes the error anew, with the status by its name. */
static PyObject *repr_of(PyObject *error, const char *(*name)(uint64_t status))
{
	PyObject *status = status_of(error, NULL), *type = NULL, *text = NULL;
	uint64_t number;

	if (status != NULL && read_number(status, &number))
		type = PyType_GetName(Py_TYPE(error));
	if (type != NULL)
		text = name(number) == NULL ? PyUnicode_FromFormat("%U(%S)", type, status) : PyUnicode_FromFormat("%U(%s)", type, name(number));
	Py_XDECREF(type);
	Py_XDECREF(status);
	return text;
}

static const char *timers_name(uint64_t status) { return name_of(status, timers_statuses, COUNT(timers_statuses), NULL); }
static PyObject *timers_error_repr(PyObject *error) { return repr_of(error, timers_name); }
static const char *desk_name(uint64_t status)
{
	return name_of(status, desk_statuses, COUNT(desk_statuses), timers_name(status));
}
static PyObject *desk_error_repr(PyObject *error) { return repr_of(error, desk_name); }

static PyObject *text_of(PyObject *error, const char *(*message)(uint32_t status))
{
	PyObject *status = status_of(error, NULL), *text = NULL;
	uint64_t number;

	if (status == NULL)
		return NULL;
	if (read_number(status, &number))
		text = PyUnicode_FromString(message(number > UINT32_MAX ? UINT32_MAX : (uint32_t)number));
	Py_DECREF(status);
	return text;
}

static const char *timers_text(uint32_t status) { return timers_message((enum timers_status)status); }
static PyObject *timers_error_text(PyObject *error) { return text_of(error, timers_text); }
static const char *desk_text(uint32_t status) { return timers_desk_message((enum timers_desk_status)status); }
static PyObject *desk_error_text(PyObject *error) { return text_of(error, desk_text); }

static PyGetSetDef error_attributes[] = {
	{ "status", status_of, NULL, "The number of the reason.", NULL },
	{ NULL, NULL, NULL, NULL, NULL },
};

static PyType_Slot timers_error_slots[] = {
	{ Py_tp_doc, "A call that was refused. `status` says why, and nothing has changed." },
	{ Py_tp_init, error_init },
	{ Py_tp_str, timers_error_text },
	{ Py_tp_repr, timers_error_repr },
	{ Py_tp_getset, error_attributes },
	{ 0, NULL },
};
static PyType_Spec timers_error_spec = {
	"timers.TimersError", 0, 0, Py_TPFLAGS_DEFAULT | Py_TPFLAGS_BASETYPE, timers_error_slots,
};

static PyType_Slot desk_error_slots[] = {
	{ Py_tp_doc, "A call that was refused. `status` says why, and nothing has changed." },
	{ Py_tp_init, error_init },
	{ Py_tp_str, desk_error_text },
	{ Py_tp_repr, desk_error_repr },
	{ Py_tp_getset, error_attributes },
	{ 0, NULL },
};
static PyType_Spec desk_error_spec = {
	"timers.desk.DeskError", 0, 0, Py_TPFLAGS_DEFAULT | Py_TPFLAGS_BASETYPE, desk_error_slots,
};

/* For types that own memory. */
static PyObject *refuse_copy(PyObject *self, PyObject *unused)
{
	(void)unused;
	PyErr_Format(PyExc_TypeError, "%R owns memory: it can't be copied or pickled", self);
	return NULL;
}

static PyObject *enter(PyObject *self, PyObject *unused)
{
	(void)unused;
	Py_INCREF(self);
	return self;
}

/* Frees the object itself, once it holds nothing. */
static void free_object(PyObject *self)
{
	PyTypeObject *type = Py_TYPE(self);

	((freefunc)PyType_GetSlot(type, Py_tp_free))(self);
	Py_DECREF(type);
}

/* Handles */

struct handle_object {
	PyObject_HEAD
	struct timers_handle handle;
};

static struct handle_object *new_handle(const struct module_state *state)
{
	return PyObject_New(struct handle_object, state->handle_type);
}

static PyObject *make_handle(const struct module_state *state, struct timers_handle handle)
{
	struct handle_object *made = new_handle(state);

	if (made != NULL)
		made->handle = handle;
	return (PyObject *)made;
}

static bool read_handle(const struct module_state *state, PyObject *value, struct timers_handle *handle)
{
	if (Py_TYPE(value) != state->handle_type) {
		PyErr_Format(PyExc_TypeError, "not a Handle: %R", value);
		return false;
	}
	*handle = ((struct handle_object *)value)->handle;
	return true;
}

/* The same for a call on timers, to which None names no timer. */
static bool read_handle_or_none(const struct module_state *state, PyObject *value, struct timers_handle *handle)
{
	*handle = (struct timers_handle){ 0, 0 };
	return value == Py_None || read_handle(state, value, handle);
}

static PyObject *handle_new(PyTypeObject *type, PyObject *arguments, PyObject *named)
{
	static char *names[] = { "place", "serial", NULL };
	PyObject *place = NULL, *serial = NULL;
	struct timers_handle handle = { 0, 0 };

	if (!PyArg_ParseTupleAndKeywords(arguments, named, "|OO:Handle", names, &place, &serial))
		return NULL;
	if ((place != NULL && !read_number(place, &handle.place)) || (serial != NULL && !read_number(serial, &handle.serial)))
		return NULL;
	return make_handle(state_of(type), handle);
}

static void handle_dealloc(PyObject *self)
{
	PyTypeObject *type = Py_TYPE(self);

	PyObject_Free(self);
	Py_DECREF(type);
}

static PyObject *handle_compare(PyObject *one, PyObject *other, int operation)
{
	struct timers_handle left = ((struct handle_object *)one)->handle, right;
	bool equal;

	if (Py_TYPE(one) != Py_TYPE(other) || (operation != Py_EQ && operation != Py_NE))
		Py_RETURN_NOTIMPLEMENTED;
	right = ((struct handle_object *)other)->handle;
	equal = left.place == right.place && left.serial == right.serial;
	return PyBool_FromLong(equal == (operation == Py_EQ));
}

/* Serials of one object differ, so that they spread over a dictionary by themselves. */
static Py_hash_t handle_hash(PyObject *self)
{
	struct timers_handle handle = ((struct handle_object *)self)->handle;
	Py_hash_t hash = (Py_hash_t)(handle.serial ^ handle.place * UINT64_C(0x9e3779b97f4a7c15));

	return hash == -1 ? -2 : hash;
}

static PyObject *handle_repr(PyObject *self)
{
	struct timers_handle handle = ((struct handle_object *)self)->handle;

	return PyUnicode_FromFormat("Handle(%llu, %llu)", (unsigned long long)handle.place, (unsigned long long)handle.serial);
}

static PyObject *handle_reduce(PyObject *self, PyObject *unused)
{
	struct timers_handle handle = ((struct handle_object *)self)->handle;

	(void)unused;
	return Py_BuildValue("O(KK)", Py_TYPE(self), (unsigned long long)handle.place, (unsigned long long)handle.serial);
}

static PyMemberDef handle_members[] = {
	{ "place", T_ULONGLONG, offsetof(struct handle_object, handle.place), READONLY, "Where the timer is kept." },
	{ "serial", T_ULONGLONG, offsetof(struct handle_object, handle.serial), READONLY, "Its number in the order of the starts." },
	{ NULL, 0, 0, 0, NULL },
};

static PyMethodDef handle_methods[] = {
	{ "__reduce__", handle_reduce, METH_NOARGS, "For copies and pickles." },
	{ NULL, NULL, 0, NULL },
};

static PyType_Slot handle_slots[] = {
	{ Py_tp_doc, "Handle(place=0, serial=0)\n--\n\n"
		"The name of a timer. It can be compared and hashed, and is a key of dictionaries and sets.\n\n"
		"Handle() names no timer." },
	{ Py_tp_new, handle_new },
	{ Py_tp_dealloc, handle_dealloc },
	{ Py_tp_richcompare, handle_compare },
	{ Py_tp_hash, handle_hash },
	{ Py_tp_repr, handle_repr },
	{ Py_tp_members, handle_members },
	{ Py_tp_methods, handle_methods },
	{ 0, NULL },
};
static PyType_Spec handle_spec = {
	"timers.Handle", sizeof(struct handle_object), 0, Py_TPFLAGS_DEFAULT | Py_TPFLAGS_IMMUTABLETYPE, handle_slots,
};
