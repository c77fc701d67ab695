/* The type Timers: a `struct timers` whose actions are objects. It owns a reference to each action that it holds. */
/* SPDX-License-Identifier: MIT OR Apache-2.0 */

struct timers_object {
	PyObject_HEAD
	struct timers held;
	size_t count;    /* of the timers that are held, pending and expired */
	uint64_t last_tick;
	uint64_t last_serial;    /* of the last handle */
	struct module_state *state;
	PyObject *weak_references;
	struct timers_object *next_deferred;
};

static struct timers_object *timers_in(PyObject *self) { return (struct timers_object *)self; }
static struct timers *held_by(PyObject *self) { return &timers_in(self)->held; }

static uint64_t action_of(PyObject *object) { return (uint64_t)(uintptr_t)object; }
static PyObject *object_of(uint64_t action) { return (PyObject *)(uintptr_t)action; }

static PyObject *refused(PyObject *self, enum timers_status status)
{
	return refuse(timers_in(self)->state->timers_error, status);
}

static PyObject *none_or_refused(PyObject *self, enum timers_status status)
{
	if (status != TIMERS_OK)
		return refused(self, status);
	Py_RETURN_NONE;
}

/* The timer as a tuple, which takes over its reference to the action. If there is no memory for it, the action is released. */
static PyObject *timer_tuple(const struct timers_expired *timer)
{
	PyObject *tuple = PyTuple_New(3), *deadline = NULL, *serial = NULL;

	if (tuple != NULL)
		deadline = PyLong_FromUnsignedLongLong(timer->deadline);
	if (deadline != NULL)
		serial = PyLong_FromUnsignedLongLong(timer->serial);
	if (serial == NULL) {
		Py_XDECREF(tuple);
		Py_XDECREF(deadline);
		Py_DECREF(object_of(timer->action));
		return NULL;
	}
	PyTuple_SetItem(tuple, 0, deadline);
	PyTuple_SetItem(tuple, 1, serial);
	PyTuple_SetItem(tuple, 2, object_of(timer->action));
	return tuple;
}

/* The same for a timer that stays where it is. */
static PyObject *copied_tuple(const struct timers_expired *timer)
{
	Py_INCREF(object_of(timer->action));
	return timer_tuple(timer);
}

/* Making and freeing */

/* Frees what the struct holds. To release an action may call any code: so it is emptied first. */
static void drop_held(struct timers *held)
{
	struct timers dropped = *held;
	struct timers_handle handle;
	struct timers_expired timer;
	uint64_t cursor = 0;

	*held = (struct timers)TIMERS_INIT;
	while (timers_each(&dropped, &cursor, &handle, &timer))
		Py_DECREF(object_of(timer.action));
	timers_free(&dropped);
}

static void drop_all(PyObject *self)
{
	timers_in(self)->count = 0;
	drop_held(held_by(self));
}

/* A call that only then does something refuses closed timers by this. It passes no tick. */
static enum timers_status status_if_open(PyObject *self) { return timers_advance_to(held_by(self), 0); }

static PyObject *timers_object_new(PyTypeObject *type, PyObject *arguments, PyObject *named)
{
	PyObject *self = ((allocfunc)PyType_GetSlot(type, Py_tp_alloc))(type, 0);

	(void)arguments;
	(void)named;
	if (self != NULL)
		timers_in(self)->state = state_of(type);
	return self;
}

static int timers_object_init(PyObject *self, PyObject *arguments, PyObject *named)
{
	static char *names[] = { "table", "first_tick", NULL };
	PyObject *table_given = NULL, *tick_given = NULL;
	uint64_t table = TIMERS_WIDE, first_tick = 0;
	struct timers made = { .last_serial = timers_in(self)->last_serial }, earlier;    /* as one that was freed: no handle comes again */
	enum timers_status status;

	if (!PyArg_ParseTupleAndKeywords(arguments, named, "|OO:Timers", names, &table_given, &tick_given))
		return -1;
	if ((table_given != NULL && !read_index(table_given, 32, &table))
	    || (tick_given != NULL && !read_number(tick_given, &first_tick)))
		return -1;
	status = timers_new(&made, (uint32_t)table, first_tick);
	if (status != TIMERS_OK) {
		refused(self, status);
		return -1;
	}
	earlier = *held_by(self);
	*held_by(self) = made;
	timers_in(self)->count = 0;
	timers_in(self)->last_tick = TIMERS_LAST_OF(table);
	drop_held(&earlier);
	return 0;
}

static int timers_object_traverse(PyObject *self, visitproc visit, void *arg)
{
	struct timers_handle handle;
	struct timers_expired timer;
	uint64_t cursor = 0;

	Py_VISIT(Py_TYPE(self));
	while (timers_each(held_by(self), &cursor, &handle, &timer))
		Py_VISIT(object_of(timer.action));
	return 0;
}

static int timers_object_clear(PyObject *self)
{
	drop_all(self);
	return 0;
}

/* Actions of timers may be timers, any number of them one inside another. Each would take some of the stack while the one
 * around it is released, so those that are deep inside wait until the outermost one is. */
#define NESTED_MOST 50
static _Thread_local unsigned releasing;    /* releases that have begun and not ended, one inside another */
static _Thread_local struct timers_object *deferred;

static void release(PyObject *self)
{
	releasing++;
	drop_all(self);
	releasing--;
	free_object(self);
}

static void timers_object_dealloc(PyObject *self)
{
	struct timers_object *next;

	PyObject_GC_UnTrack(self);
	if (timers_in(self)->weak_references != NULL)
		PyObject_ClearWeakRefs(self);
	if (releasing >= NESTED_MOST) {
		timers_in(self)->next_deferred = deferred;
		deferred = timers_in(self);
		return;
	}
	release(self);
	while (releasing == 0 && (next = deferred) != NULL) {
		deferred = next->next_deferred;
		release((PyObject *)next);
	}
}

static PyObject *timers_object_close(PyObject *self, PyObject *unused)
{
	(void)unused;
	drop_all(self);
	Py_RETURN_NONE;
}

static PyObject *timers_object_enter(PyObject *self, PyObject *unused)
{
	const enum timers_status status = status_if_open(self);

	return status == TIMERS_OK ? enter(self, unused) : refused(self, status);
}

static PyObject *timers_object_exit(PyObject *self, PyObject *const *arguments, Py_ssize_t given)
{
	(void)arguments;
	(void)given;
	return timers_object_close(self, NULL);
}

/* Starts and stops */

static PyObject *timers_object_reserve(PyObject *self, PyObject *most)
{
	size_t room;

	if (!read_size(most, &room))
		return NULL;
	return none_or_refused(self, timers_reserve(held_by(self), room));
}

typedef enum timers_status start_call(struct timers *, uint64_t, uint64_t, struct timers_handle *);
typedef enum timers_status restart_call(struct timers *, struct timers_handle, uint64_t, uint64_t, struct timers_handle *);

/* The handle, whose timer has taken a reference to the action; or the refusal. */
static inline PyObject *started(PyObject *self, enum timers_status status, struct handle_object *made, PyObject *action)
{
	if (status != TIMERS_OK) {
		Py_DECREF(made);
		return refused(self, status);
	}
	timers_in(self)->last_serial = made->handle.serial;
	Py_INCREF(action);
	return (PyObject *)made;
}

static inline PyObject *start_by(start_call *start, const char *name, PyObject *self, PyObject *const *arguments,
                                 Py_ssize_t given)
{
	struct handle_object *made;
	enum timers_status status;
	uint64_t tick;

	if (!has_arguments(name, given, 2, 2) || !read_number(arguments[0], &tick))
		return NULL;
	made = new_handle(timers_in(self)->state);
	if (made == NULL)
		return NULL;
	status = start(held_by(self), tick, action_of(arguments[1]), &made->handle);
	timers_in(self)->count += status == TIMERS_OK;
	return started(self, status, made, arguments[1]);
}

static PyObject *timers_object_start(PyObject *self, PyObject *const *arguments, Py_ssize_t given)
{
	return start_by(timers_start, "start", self, arguments, given);
}

static PyObject *timers_object_start_at(PyObject *self, PyObject *const *arguments, Py_ssize_t given)
{
	return start_by(timers_start_at, "start_at", self, arguments, given);
}

/* Without an action the new timer has that of the old one. */
static inline PyObject *restart_by(restart_call *restart, const char *name, PyObject *self, PyObject *const *arguments,
                                   Py_ssize_t given, PyObject *names)
{
	const struct module_state *state = timers_in(self)->state;
	struct timers_handle handle;
	struct timers_expired old;
	struct handle_object *made;
	enum timers_status status;
	PyObject *action = NULL, *result;
	uint64_t tick;

	if (!read_last(name, "action", arguments, given, names, 3, &action) || !read_handle_or_none(state, arguments[0], &handle) || !read_number(arguments[1], &tick))
		return NULL;
	status = timers_look(held_by(self), handle, &old);
	if (status != TIMERS_OK)
		return refused(self, status);
	made = new_handle(state);
	if (made == NULL)
		return NULL;
	if (action == NULL)
		action = object_of(old.action);
	status = restart(held_by(self), handle, tick, action_of(action), &made->handle);
	result = started(self, status, made, action);
	if (result != NULL)
		Py_DECREF(object_of(old.action));
	return result;
}

static PyObject *timers_object_restart(PyObject *self, PyObject *const *arguments, Py_ssize_t given, PyObject *names)
{
	return restart_by(timers_restart, "restart", self, arguments, given, names);
}

static PyObject *timers_object_restart_at(PyObject *self, PyObject *const *arguments, Py_ssize_t given, PyObject *names)
{
	return restart_by(timers_restart_at, "restart_at", self, arguments, given, names);
}

static PyObject *timers_object_set_at(PyObject *self, PyObject *const *arguments, Py_ssize_t given)
{
	const struct module_state *state = timers_in(self)->state;
	struct timers_handle handle;
	struct timers_expired old;
	struct handle_object *made;
	enum timers_status status;
	uint64_t deadline;
	PyObject *result;
	bool held;

	if (!has_arguments("set_at", given, 3, 3) || !read_handle_or_none(state, arguments[0], &handle) || !read_number(arguments[1], &deadline))
		return NULL;
	made = new_handle(state);
	if (made == NULL)
		return NULL;
	made->handle = handle;
	held = timers_look(held_by(self), handle, &old) == TIMERS_OK;
	status = timers_set_at(held_by(self), &made->handle, deadline, action_of(arguments[2]));
	timers_in(self)->count += status == TIMERS_OK && !held;
	result = started(self, status, made, arguments[2]);
	if (result != NULL && held)
		Py_DECREF(object_of(old.action));
	return result;
}

static PyObject *timers_object_stop(PyObject *self, PyObject *given)
{
	struct timers_handle handle;
	enum timers_status status;
	uint64_t action;

	if (!read_handle_or_none(timers_in(self)->state, given, &handle))
		return NULL;
	status = timers_stop(held_by(self), handle, &action);
	timers_in(self)->count -= status == TIMERS_OK;
	return status == TIMERS_OK ? object_of(action) : refused(self, status);
}

static PyObject *timers_object_look(PyObject *self, PyObject *given)
{
	struct timers_handle handle;
	struct timers_expired timer;
	enum timers_status status;

	if (!read_handle_or_none(timers_in(self)->state, given, &handle))
		return NULL;
	status = timers_look(held_by(self), handle, &timer);
	return status == TIMERS_OK ? copied_tuple(&timer) : refused(self, status);
}

static int timers_object_contains(PyObject *self, PyObject *given)
{
	struct timers_handle handle;
	struct timers_expired timer;

	if (!read_handle_or_none(timers_in(self)->state, given, &handle))
		return -1;
	return timers_look(held_by(self), handle, &timer) == TIMERS_OK;
}

/* One after the other, since to release an action may call any code. */
static PyObject *timers_object_clear_all(PyObject *self, PyObject *unused)
{
	struct timers_handle handle;
	struct timers_expired timer;
	uint64_t cursor = 0;

	(void)unused;
	while (timers_each(held_by(self), &cursor, &handle, &timer))
		if (timers_stop(held_by(self), handle, NULL) == TIMERS_OK) {
			timers_in(self)->count--;
			Py_DECREF(object_of(timer.action));
		}
	Py_RETURN_NONE;
}

/* The clock */

static PyObject *timers_object_tick(PyObject *self, PyObject *unused)
{
	(void)unused;
	return none_or_refused(self, timers_tick(held_by(self)));
}

static PyObject *timers_object_advance_to(PyObject *self, PyObject *given)
{
	uint64_t tick;

	if (!read_number(given, &tick))
		return NULL;
	return none_or_refused(self, timers_advance_to(held_by(self), tick));
}

static PyObject *timers_object_expire(PyObject *self, PyObject *unused)
{
	struct timers_expired timer;

	(void)unused;
	if (!timers_expire(held_by(self), &timer))
		return none_or_refused(self, status_if_open(self));
	timers_in(self)->count--;
	return timer_tuple(&timer);
}

static PyObject *timers_object_take(PyObject *self, PyObject *given)
{
	struct timers_expired timer;
	uint64_t tick;

	if (!read_number(given, &tick))
		return NULL;
	if (!timers_take(held_by(self), tick, &timer))
		return none_or_refused(self, status_if_open(self));
	timers_in(self)->count--;
	return timer_tuple(&timer);
}

/* Calls `run` with the timer, or if there is none the action. Both release the action. */
static PyObject *run_timer(PyObject *run, const struct timers_expired *timer)
{
	PyObject *tuple, *result;

	if (run == Py_None) {
		result = PyObject_CallNoArgs(object_of(timer->action));
		Py_DECREF(object_of(timer->action));
		return result;
	}
	tuple = timer_tuple(timer);
	if (tuple == NULL)
		return NULL;
	result = PyObject_Call(run, tuple, NULL);
	Py_DECREF(tuple);
	return result;
}

static PyObject *timers_object_catch_up(PyObject *self, PyObject *const *arguments, Py_ssize_t given, PyObject *names)
{
	struct timers_expired timer;
	enum timers_status status;
	PyObject *run = Py_None, *result;
	uint64_t now;

	if (!read_last("catch_up", "run", arguments, given, names, 2, &run) || !read_number(arguments[0], &now))
		return NULL;
	status = status_if_open(self);
	if (status != TIMERS_OK)
		return refused(self, status);
	if (now > timers_in(self)->last_tick)
		return refused(self, TIMERS_TOO_LATE);
	if (now < timers_now(held_by(self)))
		Py_RETURN_NONE;
	while (timers_take(held_by(self), now, &timer)) {
		timers_in(self)->count--;
		result = run_timer(run, &timer);
		if (result == NULL)
			return NULL;
		Py_DECREF(result);
	}
	Py_RETURN_NONE;
}

#define BATCH 64

/* Takes all that expired to the end of the list. Returns false with an exception if there is no memory for them. */
static bool take_expired(PyObject *self, PyObject *list)
{
	struct timers_expired batch[BATCH];
	PyObject *timer;
	size_t taken, i;
	bool fails = false;

	while (!fails && (taken = timers_expire_batch(held_by(self), batch, BATCH)) > 0) {
		timers_in(self)->count -= taken;
		for (i = 0; i < taken; i++) {
			if (fails) {
				Py_DECREF(object_of(batch[i].action));
				continue;
			}
			timer = timer_tuple(&batch[i]);
			fails = timer == NULL || PyList_Append(list, timer) < 0;
			Py_XDECREF(timer);
		}
	}
	return !fails;
}

static PyObject *timers_object_expired(PyObject *self, PyObject *unused)
{
	const enum timers_status status = status_if_open(self);
	PyObject *list;

	(void)unused;
	if (status != TIMERS_OK)
		return refused(self, status);
	list = PyList_New(0);
	if (list != NULL && !take_expired(self, list))
		Py_CLEAR(list);
	return list;
}

/* Takes what expires up to this tick to the end of the list. An action that is released may start what is due again. */
static bool advance_until(PyObject *self, uint64_t until, PyObject *list)
{
	enum timers_status status;

	while (take_expired(self, list)) {
		if (timers_now(held_by(self)) >= until)    /* past it if an action that was released took timers itself */
			return true;
		status = timers_advance_to(held_by(self), until);
		if (status != TIMERS_OK && status != TIMERS_DUE) {
			refused(self, status);
			return false;
		}
	}
	return false;
}

static PyObject *timers_object_advance(PyObject *self, PyObject *given)
{
	const uint64_t last = timers_in(self)->last_tick;
	enum timers_status status;
	uint64_t most, now;
	PyObject *list;

	if (!read_number(given, &most))
		return NULL;
	status = status_if_open(self);
	if (status != TIMERS_OK)
		return refused(self, status);
	now = timers_now(held_by(self));
	if (most > 0 && now == last && !timers_has_due(held_by(self)))
		return refused(self, TIMERS_CLOCK_END);
	list = PyList_New(0);
	if (list != NULL && !advance_until(self, most > last - now ? last : now + most, list))
		Py_CLEAR(list);
	return list;
}

/* The state */

CALL(PyObject, timers_object_has_due, timers_has_due, held_by, PyBool_FromLong)
CALL(PyObject, timers_object_now, timers_now, held_by, PyLong_FromUnsignedLongLong)
CALL(PyObject, timers_object_wakeup, timers_wakeup, held_by, tick_or_none)

static PyObject *timers_object_counts(PyObject *self, PyObject *unused)
{
	struct timers_counters counts;
	enum timers_status status = timers_counts(held_by(self), &counts);

	(void)unused;
	if (status != TIMERS_OK)
		return refused(self, status);
	return Py_BuildValue("(KK)", (unsigned long long)counts.starts, (unsigned long long)counts.moves);
}

CALL(PyObject, timers_object_pending, timers_len, held_by, PyLong_FromSize_t)

static Py_ssize_t timers_object_length(PyObject *self) { return (Py_ssize_t)timers_in(self)->count; }

static PyObject *timers_object_repr(PyObject *self)
{
	struct timers_counters counts;

	if (timers_counts(held_by(self), &counts) != TIMERS_OK)
		return PyUnicode_FromString("<timers, closed>");
	return PyUnicode_FromFormat("<timers, %zu held, tick %llu>", timers_in(self)->count,
	                            (unsigned long long)timers_now(held_by(self)));
}

/* Iteration */

struct iterator_object {
	PyObject_HEAD
	PyObject *timers;
	uint64_t cursor;
};

static struct iterator_object *iterator_in(PyObject *self) { return (struct iterator_object *)self; }

static PyObject *timers_object_iter(PyObject *self)
{
	PyTypeObject *type = timers_in(self)->state->iterator_type;
	PyObject *iterator = ((allocfunc)PyType_GetSlot(type, Py_tp_alloc))(type, 0);

	if (iterator != NULL) {
		Py_INCREF(self);
		iterator_in(iterator)->timers = self;
	}
	return iterator;
}

static PyObject *iterator_next(PyObject *self)
{
	PyObject *timers = iterator_in(self)->timers, *name, *tuple, *pair = NULL;
	struct timers_handle handle;
	struct timers_expired timer;

	if (timers == NULL || !timers_each(held_by(timers), &iterator_in(self)->cursor, &handle, &timer))
		return NULL;
	tuple = copied_tuple(&timer);
	name = tuple == NULL ? NULL : make_handle(timers_in(timers)->state, handle);
	if (name != NULL)
		pair = PyTuple_Pack(2, name, tuple);
	Py_XDECREF(name);
	Py_XDECREF(tuple);
	return pair;
}

static int iterator_traverse(PyObject *self, visitproc visit, void *arg)
{
	Py_VISIT(Py_TYPE(self));
	Py_VISIT(iterator_in(self)->timers);
	return 0;
}

static int iterator_clear(PyObject *self)
{
	Py_CLEAR(iterator_in(self)->timers);
	return 0;
}

static void iterator_dealloc(PyObject *self)
{
	PyObject_GC_UnTrack(self);
	iterator_clear(self);
	free_object(self);
}

static PyType_Slot iterator_slots[] = {
	{ Py_tp_iter, PyObject_SelfIter },
	{ Py_tp_iternext, iterator_next },
	{ Py_tp_traverse, iterator_traverse },
	{ Py_tp_clear, iterator_clear },
	{ Py_tp_dealloc, iterator_dealloc },
	{ 0, NULL },
};
static PyType_Spec iterator_spec = {
	"timers.TimersIterator", sizeof(struct iterator_object), 0,
	Py_TPFLAGS_DEFAULT | Py_TPFLAGS_HAVE_GC | Py_TPFLAGS_DISALLOW_INSTANTIATION | Py_TPFLAGS_IMMUTABLETYPE, iterator_slots,
};

/* The type */

static PyMethodDef timers_methods[] = {
	{ "start", FAST(timers_object_start), /* -> Handle */
	  "start($self, interval, action, /)\n--\n\n"
	  "Starts a timer that expires after `interval` ticks, 1 or more, and returns its handle.\n\n"
	  "The interval counts from now(), the tick to which the clock was advanced last. If that may be\n"
	  "behind the real time, give start_at the tick that is meant." },
	{ "start_at", FAST(timers_object_start_at), /* -> Handle */
	  "start_at($self, deadline, action, /)\n--\n\n"
	  "Starts a timer that expires at this tick, and returns its handle.\n\n"
	  "One that is not after now() is due at once: it is taken after those that have expired already." },
	{ "restart", NAMED(timers_object_restart), /* -> Handle */
	  "restart($self, handle, interval, /, action=...)\n--\n\n"
	  "Stops the timer with this handle, starts another in its place, and returns the new handle. Without an action\n"
	  "the new timer has that of the old one. The old handle names no timer any more." },
	{ "restart_at", NAMED(timers_object_restart_at), /* -> Handle */
	  "restart_at($self, handle, deadline, /, action=...)\n--\n\n"
	  "The same as restart, for a timer that expires at this tick, or at once, as by start_at." },
	{ "set_at", FAST(timers_object_set_at), /* -> Handle */
	  "set_at($self, handle, deadline, action, /)\n--\n\n"
	  "Restarts the timer with this handle for this tick, or starts one if the handle is dead or None. Returns the new\n"
	  "handle.\n\n"
	  "Before the first start the handle is None, which names no timer. The old handle names none any more." },
	{ "stop", timers_object_stop, METH_O, /* -> _T */
	  "stop($self, handle, /)\n--\n\n"
	  "Stops the timer with this handle, pending or expired, and returns its action. Refused (NOT_PENDING) if the handle\n"
	  "is dead or None. So are restart, restart_at and look." },
	{ "look", timers_object_look, METH_O, /* -> tuple[int, int, _T] */
	  "look($self, handle, /)\n--\n\n"
	  "The timer with this handle, pending or expired, as (deadline, serial, action)." },
	{ "take", timers_object_take, METH_O, /* -> tuple[int, int, _T] | None */
	  "take($self, tick, /)\n--\n\n"
	  "Takes the next timer that is due by this tick, and passes the ticks up to its deadline. Returns it as (deadline,\n"
	  "serial, action), or None.\n\n"
	  "After None the ticks up to `tick` have passed, as far as the clock has them: one after the last tick counts\n"
	  "as the last, while catch_up refuses it. A tick before now() is none to pass.\n\n"
	  "Don't take by LAST to get what is left. The clock is at its end then, and each later start is refused\n"
	  "(TOO_LATE), also after clear. An iteration has all timers, and passes no tick." },
	{ "catch_up", NAMED(timers_object_catch_up), /* -> None */
	  "catch_up($self, now, /, run=None)\n--\n\n"
	  "Passes the ticks up to `now`, and calls run(deadline, serial, action) for each timer on the way. Without `run` it\n"
	  "calls action().\n\n"
	  "The timers are taken one at a time: what one of them stops does not come out. If a call raises, that timer\n"
	  "is taken, and a further catch_up continues. It returns only once nothing is due: work that always starts a\n"
	  "timer which is due at once keeps it from returning. With a tick before now() it does nothing. One after the\n"
	  "last tick is refused (TOO_LATE), and nothing was run then." },
	{ "expire", timers_object_expire, METH_NOARGS, /* -> tuple[int, int, _T] | None */
	  "expire($self, /)\n--\n\n"
	  "Takes the first of the expired timers, and returns it as (deadline, serial, action), or None." },
	{ "expired", timers_object_expired, METH_NOARGS, /* -> list[tuple[int, int, _T]] */
	  "expired($self, /)\n--\n\n"
	  "Takes all that expired, and returns it as a list of (deadline, serial, action)." },
	{ "advance", timers_object_advance, METH_O, /* -> list[tuple[int, int, _T]] */
	  "advance($self, most, /)\n--\n\n"
	  "Passes this many ticks, and returns what expired on the way as a list of (deadline, serial, action).\n\n"
	  "These are taken, and can't be stopped any more. It passes fewer ticks if the clock comes to its last\n"
	  "one. There it is refused (CLOCK_END) if nothing was left to take, unless `most` is 0." },
	{ "advance_to", timers_object_advance_to, METH_O, /* -> None */
	  "advance_to($self, tick, /)\n--\n\n"
	  "Passes the ticks up to this one, or up to the first at which a timer expires.\n\n"
	  "What expires waits to be taken. A tick that is not after now() is none to pass." },
	{ "tick", timers_object_tick, METH_NOARGS, /* -> None */
	  "tick($self, /)\n--\n\n"
	  "Passes one tick. What expires then waits to be taken." },
	{ "clear", timers_object_clear_all, METH_NOARGS, /* -> None */
	  "clear($self, /)\n--\n\n"
	  "Drops all timers, pending and expired. Their actions are released. The clock stays as it is." },
	{ "reserve", timers_object_reserve, METH_O, /* -> None */
	  "reserve($self, most, /)\n--\n\n"
	  "Makes room for this many timers at once: the wheels allocate nothing while fewer are held." },
	{ "pending", timers_object_pending, METH_NOARGS, /* -> int */
	  "pending($self, /)\n--\n\n"
	  "How many timers are pending: those that are held, but for the expired ones that wait to be taken." },
	{ "has_due", timers_object_has_due, METH_NOARGS, /* -> bool */
	  "has_due($self, /)\n--\n\n"
	  "Whether an expired timer was not yet taken." },
	{ "now", timers_object_now, METH_NOARGS, /* -> int */
	  "now($self, /)\n--\n\n"
	  "The present tick." },
	{ "wakeup", timers_object_wakeup, METH_NOARGS, /* -> int | None */
	  "wakeup($self, /)\n--\n\n"
	  "A tick until which nothing expires, at most the next deadline, or None if no timer is held. Constant time.\n\n"
	  "For a loop that sleeps. At that tick maybe nothing has expired: then ask again." },
	{ "counts", timers_object_counts, METH_NOARGS, /* -> tuple[int, int] */
	  "counts($self, /)\n--\n\n"
	  "What the wheels did since they were made, as (starts, moves)." },
	{ "close", timers_object_close, METH_NOARGS, /* -> None */
	  "close($self, /)\n--\n\n"
	  "Frees all timers, and releases their actions. From then on each call that starts, stops, looks up or takes timers,\n"
	  "makes room, counts or passes ticks is refused (NOT_OPEN), and so is `with timers`. The others find no timer." },
	{ "__enter__", timers_object_enter, METH_NOARGS, "The timers themselves. Refused (NOT_OPEN) if they are closed." },
	{ "__exit__", FAST(timers_object_exit), "Frees all timers, as close." },
	{ "__reduce__", refuse_copy, METH_NOARGS, "Refused: timers own memory." },
	{ "__class_getitem__", Py_GenericAlias, METH_O | METH_CLASS, "For annotations: Timers[T] has actions of type T." },
	{ NULL, NULL, 0, NULL },
};

static PyMemberDef timers_members[] = {
	{ "__weaklistoffset__", T_PYSSIZET, offsetof(struct timers_object, weak_references), READONLY, NULL },
	{ NULL, 0, 0, 0, NULL },
};

static PyType_Slot timers_slots[] = {
	{ Py_tp_doc, "Timers(table=WIDE, first_tick=0)\n--\n\n"
		"Timers and their clock of ticks. An action is any object.\n\n"
		"Only tick, advance, advance_to, take and catch_up pass ticks. A timer whose deadline is now() has expired,\n"
		"and waits to be taken by expire, expired, take or catch_up. Timers are taken in the order of their\n"
		"deadlines, and those of one deadline in the order of their starts.\n\n"
		"len(timers) is how many are held, pending and expired. `handle in timers` is whether a timer has this\n"
		"handle; None is none's. An iteration has all of them in no order: pairs of a handle and what look\n"
		"returns. Meanwhile timers may be started, stopped and taken. The object is true if a timer is held." },
	{ Py_tp_new, timers_object_new },
	{ Py_tp_init, timers_object_init },
	{ Py_tp_dealloc, timers_object_dealloc },
	{ Py_tp_traverse, timers_object_traverse },
	{ Py_tp_clear, timers_object_clear },
	{ Py_tp_repr, timers_object_repr },
	{ Py_tp_iter, timers_object_iter },
	{ Py_tp_methods, timers_methods },
	{ Py_tp_members, timers_members },
	{ Py_sq_contains, timers_object_contains },
	{ Py_sq_length, timers_object_length },
	{ 0, NULL },
};
static PyType_Spec timers_spec = {
	"timers.Timers", sizeof(struct timers_object), 0, Py_TPFLAGS_DEFAULT | Py_TPFLAGS_HAVE_GC | Py_TPFLAGS_BASETYPE, timers_slots,
};
