/* The types Desk and Line: a `struct timers_desk` for the owner, and a `struct timers_line` for each client. */
/* SPDX-License-Identifier: MIT OR Apache-2.0 */

struct desk_object {
	PyObject_HEAD
	struct timers_desk held;
	struct module_state *state;
	PyObject *lines;
};

struct line_object {
	PyObject_HEAD
	struct timers_line held;
	struct module_state *state;
};

static struct desk_object *desk_in(PyObject *self) { return (struct desk_object *)self; }
static struct timers_desk *desk_by(PyObject *self) { return &desk_in(self)->held; }
static struct line_object *line_in(PyObject *self) { return (struct line_object *)self; }
static struct timers_line *line_by(PyObject *self) { return &line_in(self)->held; }

/* The number that a call of the library wrote, or its refusal. */
static PyObject *number_or_refused(const struct module_state *state, enum timers_desk_status status, uint64_t number)
{
	return status == TIMERS_DESK_OK ? PyLong_FromUnsignedLongLong(number) : refuse(state->desk_error, status);
}

static PyObject *of_desk(PyObject *self, enum timers_desk_status status, uint64_t number)
{
	return number_or_refused(desk_in(self)->state, status, number);
}

static PyObject *of_line(PyObject *self, enum timers_desk_status status, uint64_t number)
{
	return number_or_refused(line_in(self)->state, status, number);
}

/* Lines */

/* A line that holds what the struct does, which is moved. */
static PyObject *make_line(struct module_state *state, struct timers_line *held)
{
	struct line_object *made = PyObject_New(struct line_object, state->line_type);

	if (made == NULL) {
		timers_line_free(held);
		return NULL;
	}
	made->held = *held;
	made->state = state;
	return (PyObject *)made;
}

static PyObject *line_free(PyObject *self, PyObject *unused)
{
	(void)unused;
	timers_line_free(line_by(self));
	Py_RETURN_NONE;
}

static PyObject *line_exit(PyObject *self, PyObject *const *arguments, Py_ssize_t given)
{
	(void)arguments;
	(void)given;
	return line_free(self, NULL);
}

static void line_dealloc(PyObject *self)
{
	timers_line_free(line_by(self));
	handle_dealloc(self);
}

typedef enum timers_desk_status line_start_call(struct timers_line *, uint64_t, uint64_t, uint64_t *);
typedef enum timers_desk_status line_restart_call(struct timers_line *, struct timers_handle, uint64_t, uint64_t, uint64_t *);

static PyObject *line_start_by(line_start_call *start, const char *name, PyObject *self, PyObject *const *arguments,
                               Py_ssize_t given)
{
	uint64_t tick, action, number = 0;
	enum timers_desk_status status;

	if (!has_arguments(name, given, 2, 2) || !read_number(arguments[0], &tick) || !read_number(arguments[1], &action))
		return NULL;
	status = start(line_by(self), tick, action, &number);
	return of_line(self, status, number);
}

static PyObject *line_start(PyObject *self, PyObject *const *arguments, Py_ssize_t given)
{
	return line_start_by(timers_line_start, "start", self, arguments, given);
}

static PyObject *line_start_at(PyObject *self, PyObject *const *arguments, Py_ssize_t given)
{
	return line_start_by(timers_line_start_at, "start_at", self, arguments, given);
}

static PyObject *line_stop(PyObject *self, PyObject *given)
{
	struct timers_handle handle;
	enum timers_desk_status status;
	uint64_t number = 0;

	if (!read_handle(line_in(self)->state, given, &handle))
		return NULL;
	status = timers_line_stop(line_by(self), handle, &number);
	return of_line(self, status, number);
}

static PyObject *line_restart_by(line_restart_call *restart, const char *name, PyObject *self, PyObject *const *arguments,
                                 Py_ssize_t given)
{
	uint64_t tick, action, number = 0;
	struct timers_handle handle;
	enum timers_desk_status status;

	if (!has_arguments(name, given, 3, 3) || !read_handle(line_in(self)->state, arguments[0], &handle)
	    || !read_number(arguments[1], &tick) || !read_number(arguments[2], &action))
		return NULL;
	status = restart(line_by(self), handle, tick, action, &number);
	return of_line(self, status, number);
}

static PyObject *line_restart(PyObject *self, PyObject *const *arguments, Py_ssize_t given)
{
	return line_restart_by(timers_line_restart, "restart", self, arguments, given);
}

static PyObject *line_restart_at(PyObject *self, PyObject *const *arguments, Py_ssize_t given)
{
	return line_restart_by(timers_line_restart_at, "restart_at", self, arguments, given);
}

/* The word's members in the order of `word_fields`. */
static PyObject *make_word(const struct module_state *state, const struct timers_word *word)
{
	const uint64_t numbers[] = { word->kind, word->reason, word->number, 0, word->deadline, word->action, word->other };
	PyObject *made = PyStructSequence_New(state->word_type), *field;
	Py_ssize_t i;

	for (i = 0; made != NULL && i < 7; i++) {
		field = i == 3 ? make_handle(state, word->handle) : PyLong_FromUnsignedLongLong(numbers[i]);
		if (field == NULL)
			Py_CLEAR(made);
		else
			PyStructSequence_SetItem(made, i, field);
	}
	return made;
}

/* A word that was received is not given back to the line. */
static PyObject *line_receive(PyObject *self, PyObject *unused)
{
	struct timers_word word;

	(void)unused;
	if (!timers_line_receive(line_by(self), &word))
		Py_RETURN_NONE;
	return make_word(line_in(self)->state, &word);
}

static PyObject *line_finish(PyObject *self, PyObject *unused)
{
	enum timers_desk_status status = timers_line_finish(line_by(self));

	(void)unused;
	if (status != TIMERS_DESK_OK)
		return refuse(line_in(self)->state->desk_error, status);
	Py_RETURN_NONE;
}

static PyObject *line_client(PyObject *self, void *unused)
{
	(void)unused;
	return PyLong_FromUnsignedLongLong(line_by(self)->client);
}

CALL(void, line_ended, timers_line_ended, line_by, PyBool_FromLong)
CALL(void, line_abandoned, timers_line_abandoned, line_by, PyBool_FromLong)

static PyGetSetDef line_attributes[] = {
	{ "client", line_client, NULL, "The number of its client.", NULL },
	{ "ended", line_ended, NULL, "Whether the owner has ended the words (Desk.end), and all were received.", NULL },
	{ "abandoned", line_abandoned, NULL, "Whether the desk was freed, and all words that it had put into the line were received.",
	  NULL },
	{ NULL, NULL, NULL, NULL, NULL },
};

static PyMethodDef line_methods[] = {
	{ "start", FAST(line_start),
	  "start($self, interval, action, /)\n--\n\n"
	  "Sends the request to start a timer, and returns the request's number." },
	{ "start_at", FAST(line_start_at),
	  "start_at($self, deadline, action, /)\n--\n\n"
	  "The same for a timer that expires at this tick." },
	{ "stop", line_stop, METH_O,
	  "stop($self, handle, /)\n--\n\n"
	  "Sends the request to stop a timer, and returns the request's number. A word has the handle." },
	{ "restart", FAST(line_restart),
	  "restart($self, handle, interval, action, /)\n--\n\n"
	  "Sends the request to stop a timer and start another in its place, and returns the request's number." },
	{ "restart_at", FAST(line_restart_at),
	  "restart_at($self, handle, deadline, action, /)\n--\n\n"
	  "The same for a timer that expires at this tick." },
	{ "receive", line_receive, METH_NOARGS,
	  "receive($self, /)\n--\n\n"
	  "The next word, or None." },
	{ "finish", line_finish, METH_NOARGS,
	  "finish($self, /)\n--\n\n"
	  "Ends the requests of this line. Words are still received." },
	{ "free", line_free, METH_NOARGS,
	  "free($self, /)\n--\n\n"
	  "Frees it. What it sent is still taken, and words to it are lost." },
	{ "__enter__", enter, METH_NOARGS, "The line itself." },
	{ "__exit__", FAST(line_exit), "Frees it." },
	{ "__reduce__", refuse_copy, METH_NOARGS, "Refused: a line owns memory." },
	{ NULL, NULL, 0, NULL },
};

static PyType_Slot line_slots[] = {
	{ Py_tp_doc, "A client's end of its line, for the client's thread. Desk.lines has those that a desk was made with." },
	{ Py_tp_dealloc, line_dealloc },
	{ Py_tp_methods, line_methods },
	{ Py_tp_getset, line_attributes },
	{ 0, NULL },
};
static PyType_Spec line_spec = {
	"timers.desk.Line", sizeof(struct line_object), 0,
	Py_TPFLAGS_DEFAULT | Py_TPFLAGS_DISALLOW_INSTANTIATION | Py_TPFLAGS_IMMUTABLETYPE, line_slots,
};

static PyStructSequence_Field word_fields[] = {
	{ "kind", "STARTED, RESTARTED, STOPPED, REFUSED, NOT_TAKEN, EXPIRED or RETURNED" },
	{ "reason", "why it was refused or not taken" },
	{ "number", "the number of its request, or of the start of a timer that expired or was returned" },
	{ "handle", "the timer's" },
	{ "deadline", "the timer's" },
	{ "action", "the timer's" },
	{ "other", "the serial of the timer that a restart has stopped; of NOT_TAKEN, the next number" },
	{ NULL, NULL },
};
static PyStructSequence_Desc word_description = {
	"timers.desk.Word", "A message to a client. A field that its kind does not set is 0.", word_fields, 7,
};

/* The room of an outbox for which no request of such a client is held back. */
static bool read_room(PyObject *timers_given, PyObject *requests_given, uint64_t *room, uint64_t *requests)
{
	uint64_t timers;

	if (!read_number(timers_given, &timers) || !read_number(requests_given, requests))
		return false;
	if (timers >= UINT64_MAX - *requests) {
		PyErr_Format(PyExc_OverflowError, "the room for %llu timers and %llu requests is not from 0 to 2^64 - 1",
		             (unsigned long long)timers, (unsigned long long)*requests);
		return false;
	}
	*room = timers + *requests + 1;
	return true;
}

static PyObject *room_for(PyObject *module, PyObject *const *arguments, Py_ssize_t given)
{
	uint64_t room, requests;

	(void)module;
	if (!has_arguments("room_for", given, 2, 2) || !read_room(arguments[0], arguments[1], &room, &requests))
		return NULL;
	return PyLong_FromUnsignedLongLong(room);
}

/* Desks */

/* A list of the lines that the array holds, all of which are moved to it or freed. */
static PyObject *make_lines(struct module_state *state, struct timers_line *held, size_t clients)
{
	PyObject *lines = PyList_New(0), *line;
	size_t i;

	for (i = 0; i < clients; i++) {
		if (lines == NULL) {
			timers_line_free(&held[i]);
			continue;
		}
		line = make_line(state, &held[i]);
		if (line == NULL || PyList_Append(lines, line) < 0)
			Py_CLEAR(lines);
		Py_XDECREF(line);
	}
	return lines;
}

/* Makes a desk in the struct, and returns its lines. Each desk counts its lives from another number, so that a line of
 * another desk is refused. More clients than there may be are refused before there is an array for their lines. */
static PyObject *make_desk(struct module_state *state, struct timers_desk *made, uint64_t clients,
                           const struct timers_desk_config *config)
{
	struct timers_line held[TIMERS_DESK_CLIENTS] = { TIMERS_LINE_INIT };
	enum timers_desk_status status = TIMERS_DESK_OUT_OF_RANGE;
	PyObject *lines;

	made->lives = state->desks++;
	if (clients <= TIMERS_DESK_CLIENTS)
		status = timers_desk_new(made, held, (size_t)clients, config);
	if (status != TIMERS_DESK_OK)
		return refuse(state->desk_error, status);
	lines = make_lines(state, held, (size_t)clients);
	if (lines == NULL)
		timers_desk_free(made);
	return lines;
}

static PyObject *desk_new(PyTypeObject *type, PyObject *arguments, PyObject *named)
{
	PyObject *self = ((allocfunc)PyType_GetSlot(type, Py_tp_alloc))(type, 0);

	(void)arguments;
	(void)named;
	if (self != NULL)
		desk_in(self)->state = state_of(type);
	return self;
}

static int desk_init(PyObject *self, PyObject *arguments, PyObject *named)
{
	static char *names[] = { "clients", "capacity", "timers", "requests", "first_tick", "table", NULL };
	PyObject *clients_given, *capacity, *timers, *requests, *first_tick = NULL, *table_given = NULL, *lines;
	struct timers_desk_config config = { .size = sizeof config };
	struct timers_desk made = TIMERS_DESK_INIT, earlier;
	PyObject *earlier_lines;
	uint64_t clients, table = TIMERS_WIDE;

	if (!PyArg_ParseTupleAndKeywords(arguments, named, "OOOO|OO:Desk", names, &clients_given, &capacity, &timers, &requests,
	                                 &first_tick, &table_given))
		return -1;
	if (!read_number(clients_given, &clients) || !read_number(capacity, &config.capacity)
	    || !read_room(timers, requests, &config.room, &config.line)
	    || (first_tick != NULL && !read_number(first_tick, &config.first_tick))
	    || (table_given != NULL && !read_index(table_given, 32, &table)))
		return -1;
	config.table = (uint32_t)table;
	lines = make_desk(desk_in(self)->state, &made, clients, &config);
	if (lines == NULL)
		return -1;
	earlier = *desk_by(self);
	earlier_lines = desk_in(self)->lines;
	*desk_by(self) = made;
	desk_in(self)->lines = lines;
	timers_desk_free(&earlier);
	Py_XDECREF(earlier_lines);
	return 0;
}

static int desk_traverse(PyObject *self, visitproc visit, void *arg)
{
	Py_VISIT(Py_TYPE(self));
	Py_VISIT(desk_in(self)->lines);
	return 0;
}

static int desk_clear(PyObject *self)
{
	Py_CLEAR(desk_in(self)->lines);
	return 0;
}

static void desk_dealloc(PyObject *self)
{
	PyObject_GC_UnTrack(self);
	timers_desk_free(desk_by(self));
	desk_clear(self);
	free_object(self);
}

static PyObject *desk_free(PyObject *self, PyObject *unused)
{
	(void)unused;
	timers_desk_free(desk_by(self));
	Py_RETURN_NONE;
}

static PyObject *desk_exit(PyObject *self, PyObject *const *arguments, Py_ssize_t given)
{
	(void)arguments;
	(void)given;
	return desk_free(self, NULL);
}

/* A method of a desk with a client's number. */
#define CALL_OF_CLIENT(ours, theirs, result) \
	static PyObject *ours(PyObject *self, PyObject *given) \
	{ \
		size_t client; \
		return read_size(given, &client) ? result(theirs(desk_by(self), client)) : NULL; \
	}
CALL_OF_CLIENT(desk_serve, timers_desk_serve, PyLong_FromLong)

static PyObject *desk_serve_all(PyObject *self, PyObject *const *arguments, Py_ssize_t given)
{
	uint64_t most = 64;

	if (!has_arguments("serve_all", given, 0, 1) || (given == 1 && !read_number(arguments[0], &most)))
		return NULL;
	return PyLong_FromLong(timers_desk_serve_all(desk_by(self), most));
}

CALL_OF_CLIENT(desk_flush, timers_desk_flush, PyLong_FromSize_t)
CALL(PyObject, desk_flush_all, timers_desk_flush_all, desk_by, PyBool_FromLong)

static PyObject *desk_advance(PyObject *self, PyObject *given)
{
	uint64_t most, passed = 0;
	enum timers_desk_status status;

	if (!read_number(given, &most))
		return NULL;
	status = timers_desk_advance(desk_by(self), most, &passed);
	return of_desk(self, status, passed);
}

static PyObject *desk_close(PyObject *self, PyObject *unused)
{
	uint64_t returned = 0;
	enum timers_desk_status status = timers_desk_close(desk_by(self), &returned);

	(void)unused;
	return of_desk(self, status, returned);
}

static PyObject *desk_end(PyObject *self, PyObject *const *arguments, Py_ssize_t given)
{
	enum timers_desk_status status;
	uint64_t unread = 0;
	size_t client;

	if (!has_arguments("end", given, 2, 2) || !read_size(arguments[0], &client))
		return NULL;
	if (Py_TYPE(arguments[1]) != desk_in(self)->state->line_type) {
		PyErr_Format(PyExc_TypeError, "not a Line: %R", arguments[1]);
		return NULL;
	}
	status = timers_desk_end(desk_by(self), client, line_by(arguments[1]), &unread);
	return of_desk(self, status, unread);
}

static PyObject *desk_stop_pending(PyObject *self, PyObject *given)
{
	enum timers_desk_status status;
	uint64_t stopped = 0;
	size_t client;

	if (!read_size(given, &client))
		return NULL;
	status = timers_desk_stop_pending(desk_by(self), client, &stopped);
	return of_desk(self, status, stopped);
}

static PyObject *desk_open(PyObject *self, PyObject *const *arguments, Py_ssize_t given)
{
	struct timers_line held = TIMERS_LINE_INIT;
	enum timers_desk_status status;
	size_t client, room;

	if (!has_arguments("open", given, 2, 2) || !read_size(arguments[0], &client) || !read_size(arguments[1], &room))
		return NULL;
	status = timers_desk_open(desk_by(self), client, &held, room);
	return status == TIMERS_DESK_OK ? make_line(desk_in(self)->state, &held) : refuse(desk_in(self)->state->desk_error, status);
}

static PyObject *desk_reserve(PyObject *self, PyObject *unused)
{
	enum timers_desk_status status = timers_desk_reserve(desk_by(self));

	(void)unused;
	if (status != TIMERS_DESK_OK)
		return refuse(desk_in(self)->state->desk_error, status);
	Py_RETURN_NONE;
}

CALL_OF_CLIENT(desk_pending, timers_desk_pending, PyLong_FromSize_t)
CALL_OF_CLIENT(desk_outbox, timers_desk_outbox, PyLong_FromSize_t)
CALL_OF_CLIENT(desk_line_freed, timers_desk_line_freed, PyBool_FromLong)
CALL(PyObject, desk_wakeup, timers_desk_wakeup, desk_by, tick_or_none)
CALL(PyObject, desk_next, timers_desk_next, desk_by, tick_or_none)
CALL(void, desk_now, timers_desk_now, desk_by, PyLong_FromUnsignedLongLong)

static Py_ssize_t desk_length(PyObject *self) { return (Py_ssize_t)timers_desk_len(desk_by(self)); }

/* Also if no timer is pending: the length would say no. */
static int desk_is_true(PyObject *self) { (void)self; return 1; }

static PyGetSetDef desk_attributes[] = {
	{ "now", desk_now, NULL, "The present tick.", NULL },
	{ NULL, NULL, NULL, NULL, NULL },
};

static PyMemberDef desk_members[] = {
	{ "lines", T_OBJECT_EX, offsetof(struct desk_object, lines), READONLY,
	  "A list of the lines that the desk was made with. What is removed from it is the caller's alone." },
	{ NULL, 0, 0, 0, NULL },
};

static PyMethodDef desk_methods[] = {
	{ "serve", desk_serve, METH_O,
	  "serve($self, client, /)\n--\n\n"
	  "Takes a request of this client. The status: OK, IDLE, NO_ROOM, NO_MEMORY or NO_CLIENT; NOT_OPEN after free()." },
	{ "serve_all", FAST(desk_serve_all),
	  "serve_all($self, most=64, /)\n--\n\n"
	  "Takes up to `most` requests of each client. The status: OK, IDLE or NO_MEMORY; NOT_OPEN after free()." },
	{ "flush", desk_flush, METH_O,
	  "flush($self, client, /)\n--\n\n"
	  "Moves words from this client's outbox into its line, and returns how many have left it." },
	{ "flush_all", desk_flush_all, METH_NOARGS,
	  "flush_all($self, /)\n--\n\n"
	  "Does so for each client, and returns whether a word has left its outbox." },
	{ "advance", desk_advance, METH_O,
	  "advance($self, most, /)\n--\n\n"
	  "Passes at most `most` ticks, up to the first at which a timer expires, and returns how many." },
	{ "close", desk_close, METH_NOARGS,
	  "close($self, /)\n--\n\n"
	  "Closes the desk for requests, and returns how many timers were returned to their clients." },
	{ "end", FAST(desk_end),
	  "end($self, client, line, /)\n--\n\n"
	  "Ends the words of a client, and returns how many it has still to receive.\n\n"
	  "The client has finished. A line of another desk or client is refused (OTHER_LINE)." },
	{ "stop_pending", desk_stop_pending, METH_O,
	  "stop_pending($self, client, /)\n--\n\n"
	  "Stops all pending timers of a client whose line was freed, and returns how many." },
	{ "open", FAST(desk_open),
	  "open($self, client, room, /)\n--\n\n"
	  "Opens a line for another client under the number of one that is gone, and returns its end.\n\n"
	  "It has room for so many requests." },
	{ "reserve", desk_reserve, METH_NOARGS,
	  "reserve($self, /)\n--\n\n"
	  "Makes room for all timers: no serve and no close runs out of memory from then on." },
	{ "pending", desk_pending, METH_O,
	  "pending($self, client, /)\n--\n\n"
	  "How many timers of this client are pending." },
	{ "outbox", desk_outbox, METH_O,
	  "outbox($self, client, /)\n--\n\n"
	  "How many words wait in this client's outbox." },
	{ "wakeup", desk_wakeup, METH_NOARGS,
	  "wakeup($self, /)\n--\n\n"
	  "A tick until which nothing expires, at most the first deadline, or None. Constant time." },
	{ "next", desk_next, METH_NOARGS,
	  "next($self, /)\n--\n\n"
	  "The first deadline, or None." },
	{ "line_freed", desk_line_freed, METH_O,
	  "line_freed($self, client, /)\n--\n\n"
	  "Whether this client's line was freed." },
	{ "free", desk_free, METH_NOARGS,
	  "free($self, /)\n--\n\n"
	  "Frees the desk. Its lines may be used on." },
	{ "__enter__", enter, METH_NOARGS, "The desk itself." },
	{ "__exit__", FAST(desk_exit), "Frees it." },
	{ "__reduce__", refuse_copy, METH_NOARGS, "Refused: a desk owns memory." },
	{ NULL, NULL, 0, NULL },
};

static PyType_Slot desk_slots[] = {
	{ Py_tp_doc, "Desk(clients, capacity, timers, requests, first_tick=0, table=WIDE)\n--\n\n"
		"The owner's desk, for the owner's thread. An action is a number from 0 to 2^64 - 1.\n\n"
		"`lines` are the ends of its clients, each of which keeps at most `timers` timers and has at most\n"
		"`requests` requests without an answer: then none of its requests is held back for want of room. At most\n"
		"`capacity` timers are pending. len(desk) is how many are. The object is true also if there are none." },
	{ Py_tp_new, desk_new },
	{ Py_tp_init, desk_init },
	{ Py_tp_dealloc, desk_dealloc },
	{ Py_tp_traverse, desk_traverse },
	{ Py_tp_clear, desk_clear },
	{ Py_tp_methods, desk_methods },
	{ Py_tp_members, desk_members },
	{ Py_tp_getset, desk_attributes },
	{ Py_sq_length, desk_length },
	{ Py_nb_bool, desk_is_true },
	{ 0, NULL },
};
static PyType_Spec desk_spec = {
	"timers.desk.Desk", sizeof(struct desk_object), 0, Py_TPFLAGS_DEFAULT | Py_TPFLAGS_HAVE_GC | Py_TPFLAGS_BASETYPE, desk_slots,
};
