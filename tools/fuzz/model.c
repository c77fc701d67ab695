/* The program once more: one ordered list of pending timers, and nothing of the product's design. */
#include "model.h"

#include <inttypes.h>
#include <stdarg.h>
#include <stdbool.h>
#include <stdio.h>
#include <stdlib.h>
#include <string.h>

enum kind { KINDS_OF_A_LINE };

#define MEMBER(field) uint64_t field;
struct event {
	enum kind kind;
	EACH_FIELD(MEMBER)
};

struct facility {
	struct options is;
	uint64_t now, next_serial, numbers[MAX_CLIENTS];
	bool closed;
	struct counts counts;
	uint64_t paces[WHEELS]; /* of a smooth wheel */
	struct timer *pending; /* by deadline, then serial */
	size_t len;
};

void add(struct text *text, const char *format, ...)
{
	char line[200];
	va_list arguments;
	va_start(arguments, format);
	size_t len = (size_t)vsnprintf(line, sizeof line, format, arguments);
	va_end(arguments);
	if (text->len + len > text->room) {
		text->room = 2 * text->room + 4096;
		text->at = realloc(text->at, text->room);
		if (!text->at)
			exit(3);
	}
	memcpy(text->at + text->len, line, len);
	text->len += len;
}

/* Where an event has the value of a field. */
static uint64_t *value_of(struct event *e, const char *field)
{
#define VALUE(name) \
	if (!strcmp(field, #name)) \
		return &e->name;
	EACH_FIELD(VALUE)
	return NULL;
}

/* The event of a good line. */
static struct event event_of(const char *line, size_t len)
{
	const struct layout *form = form_of(STREAM, line, len);
	struct event e = {.kind = (enum kind)(form - FORMS)};
	char *at = (char *)line + strlen(form->word);
	for (int i = 0; form->fields[i]; i++)
		*value_of(&e, form->fields[i]) = strtoull(at, &at, 10);
	return e;
}

static void insert(struct facility *f, struct timer timer)
{
	size_t i = f->len++;
	while (i > 0 && f->pending[i - 1].deadline > timer.deadline) {
		f->pending[i] = f->pending[i - 1];
		i--;
	}
	f->pending[i] = timer;
}

/* Cuts the first `count` pending timers. */
static void cut(struct facility *f, size_t from, size_t count)
{
	f->len -= count;
	memmove(f->pending + from, f->pending + from + count, (f->len - from) * sizeof *f->pending);
}

/* The place of the client's pending timer with this serial, or `len`. */
static size_t named(const struct facility *f, uint64_t client, uint64_t serial)
{
	size_t i = 0;
	while (i < f->len && (f->pending[i].serial != serial || f->pending[i].client != client))
		i++;
	return i;
}

/* Why a request is not taken, or NULL. */
static const char *not_taken(const struct facility *f, const struct event *e)
{
	if (f->closed)
		return CLOSED;
	if (e->client >= f->is.clients)
		return NO_CLIENT;
	if (e->number < f->numbers[e->client])
		return REPEATED;
	if (f->numbers[e->client] > LAST)
		return NUMBERS_SPENT;
	if (e->number > f->numbers[e->client])
		return AHEAD;
	return NULL;
}

static bool is_start(const struct event *e)
{
	return e->kind == START || e->kind == START_AT;
}

static bool is_for_a_tick(const struct event *e)
{
	return e->kind == START_AT || e->kind == RESTART_AT;
}

/* How many ticks from now a request's timer expires. */
static uint64_t ticks_until(const struct facility *f, const struct event *e)
{
	if (!is_for_a_tick(e))
		return e->interval;
	return e->deadline > f->now ? e->deadline - f->now : 0;
}

/* Why a request that was taken is refused, or NULL. One for a tick that has passed is, as if it were for the next one. */
static const char *refused(const struct facility *f, const struct event *e)
{
	uint64_t interval = ticks_until(f, e);
	if (is_for_a_tick(e) && interval == 0)
		interval = 1;
	if (!is_start(e) && named(f, e->client, e->serial) == f->len)
		return NO_SUCH;
	if (e->kind == STOP)
		return NULL;
	if (interval == 0)
		return ZERO_INTERVAL;
	if (interval > f->is.last_tick - f->now)
		return TOO_LATE;
	if (f->next_serial > LAST)
		return SERIALS_SPENT;
	if (is_start(e) && f->len == f->is.capacity)
		return FULL;
	return NULL;
}

/* Adds what expires at the tick, and cuts it. */
static void expire(struct facility *f, uint64_t tick, struct text *out)
{
	size_t due = 0;
	for (; due < f->len && f->pending[due].deadline <= tick; due++) {
		const struct timer *t = &f->pending[due];
		add(out, "expired %" PRIu64 " %" PRIu64 " %" PRIu64 " %" PRIu64 "\n", t->deadline, t->client, t->serial, t->action);
	}
	cut(f, 0, due);
}

static void request(struct facility *f, const struct event *e, struct text *out)
{
	const char *why = not_taken(f, e);
	if (!why) {
		f->numbers[e->client]++;
		why = refused(f, e);
	}
	if (why) {
		add(out, "refused %" PRIu64 " %" PRIu64 " %s\n", e->client, e->number, why);
		return;
	}
	uint64_t deadline = f->now + ticks_until(f, e);
	bool is_smooth = f->is.scheme == SMOOTH && e->kind != STOP && deadline > f->now;
	int wheel = is_smooth ? smooth_wheel(f->now, deadline, f->pending, f->len) : 0;
	if (!is_start(e))
		cut(f, named(f, e->client, e->serial), 1);
	if (e->kind == STOP) {
		add(out, "stopped %" PRIu64 " %" PRIu64 " %" PRIu64 "\n", e->client, e->number, e->serial);
		return;
	}
	struct timer timer = {f->next_serial++, e->client, deadline, e->action, wheel, e->number};
	insert(f, timer);
	f->counts.starts++;
	f->counts.moves += is_smooth ? smooth_make_way(f->now, &timer, f->pending, f->len) : 0;
	add(out, "%s %" PRIu64 " %" PRIu64 " ", is_start(e) ? "started" : "restarted", e->client, e->number);
	if (!is_start(e))
		add(out, "%" PRIu64 " ", e->serial);
	add(out, "%" PRIu64 " %" PRIu64 "\n", timer.serial, timer.deadline);
	expire(f, f->now, out);
}

/* How often a pending timer moves to a lower wheel while the clock passes to this tick. */
static uint64_t moves_until(enum scheme scheme, uint64_t now, uint64_t tick, uint64_t deadline)
{
	uint64_t moves = 0;
	while ((now = next_move(scheme, now, deadline)) <= tick && now < deadline)
		moves++;
	return moves;
}

/* Counts what the wheel does while the clock passes to this tick. */
static void count_ticks(struct facility *f, uint64_t tick)
{
	uint64_t slots = unit_of(f->is.scheme, 1);
	f->counts.visits += tick / slots - f->now / slots;
	for (size_t i = 0; i < f->len; i++) {
		uint64_t deadline = f->pending[i].deadline;
		bool is_first = i == 0 || f->pending[i - 1].deadline != deadline;
		f->counts.moves += moves_until(f->is.scheme, f->now, tick, deadline);
		f->counts.visits += is_first && deadline <= tick && deadline % slots != 0;
	}
}

/* What expires next, or moves: the tick, or a later one than this. */
static uint64_t next_stop(const struct facility *f, uint64_t tick)
{
	uint64_t stop = tick + 1;
	for (size_t i = 0; i < f->len; i++) {
		uint64_t next = next_move(f->is.scheme, f->now, f->pending[i].deadline);
		stop = next < stop ? next : stop;
	}
	return stop;
}

/* Passes the ticks of a smooth wheel up to this one. */
static void pass_smooth(struct facility *f, uint64_t tick, struct text *out)
{
	while (f->now < tick) {
		f->now = smooth_event(f->paces, f->now, tick, f->pending, f->len);
		f->counts.moves += smooth_tick(f->paces, f->now - 1, f->pending, f->len);
		expire(f, f->now, out);
	}
}

static void ticks(struct facility *f, uint64_t count, struct text *out)
{
	if (f->closed) {
		add(out, "tick refused " CLOSED "\n");
		return;
	}
	uint64_t left = f->is.last_tick - f->now;
	uint64_t tick = f->now + (count < left ? count : left);
	if (f->is.scheme == SMOOTH)
		pass_smooth(f, tick, out);
	else if (revolutions_of(f->is.scheme) > 0)
		count_ticks(f, tick);
	for (uint64_t stop; f->is.moves && (stop = next_stop(f, tick)) <= tick; f->now = stop) {
		expire(f, stop, out);
		show_moves(out, &f->is, f->now, stop, f->pending, f->len);
	}
	expire(f, tick, out);
	f->now = tick;
	if (count > left)
		add(out, "tick refused " CLOCK_END "\n");
}

static void close_all(struct facility *f, struct text *out)
{
	if (f->closed) {
		add(out, "close refused " CLOSED "\n");
		return;
	}
	f->closed = true;
	add(out, "closed %zu\n", f->len);
	for (size_t i = 0; i < f->len; i++) {
		const struct timer *t = &f->pending[i];
		add(out, "returned %" PRIu64 " %" PRIu64 " %" PRIu64 " %" PRIu64 "\n", t->client, t->serial, t->deadline, t->action);
	}
	f->len = 0;
}

/* The state: the tick and the serials, the numbers of each client, and the pending timers by serial. */
static void dump(const struct facility *f, struct text *out)
{
	add(out, "state %s %" PRIu64 " %" PRIu64 "\n", f->closed ? "closed" : "open", f->now, f->next_serial - 1);
	for (uint64_t client = 0; client < f->is.clients; client++)
		add(out, "number %" PRIu64 " %" PRIu64 "\n", client, f->numbers[client] - 1);
	for (uint64_t serial = 1; serial < f->next_serial; serial++)
		for (size_t i = 0; i < f->len; i++) {
			const struct timer *t = &f->pending[i];
			if (t->serial == serial)
				add(out, "timer %" PRIu64 " %" PRIu64 " %" PRIu64 " %" PRIu64 " %" PRIu64 "\n", serial, t->client, t->number,
				    t->deadline, t->action);
		}
	add(out, "state end %zu\n", f->len);
}

static void one(struct facility *f, const struct event *e, struct text *out)
{
	if (e->kind == TICK)
		ticks(f, e->count, out);
	else if (e->kind == AT && e->tick > f->now)
		ticks(f, e->tick - f->now, out);
	else if (e->kind == AT)
		return;
	else if (e->kind == CLOSE)
		close_all(f, out);
	else if (e->kind == STATE)
		dump(f, out);
	else
		request(f, e, out);
}

/* An error of standard input, and the line with this number if that is bad. `play` names neither program nor input. */
static struct answer fault(struct answer answer, enum form form, const char *what, uint64_t line)
{
	answer.status = form == CHECK ? EXIT_CHECK_FAILED : EXIT_FAILED;
	if (form != PLAY && line)
		add(&answer.faults, "timers: standard input:%" PRIu64 ": %s\n", line, what);
	else if (form != PLAY)
		add(&answer.faults, "timers: standard input: %s\n", what);
	else if (line)
		add(&answer.faults, "%s %" PRIu64 "\n", what, line);
	else
		add(&answer.faults, "%s\n", what);
	return answer;
}

/* What is read: `play` and `check` read scripts. */
static enum grammar grammar_of(enum form form)
{
	return form == PLAY || form == CHECK ? SCRIPT : STREAM;
}

/* The report of a bad line. */
static void report(struct text *text, const char *front, uint64_t n, struct wrong wrong)
{
	add(text, "%sline %" PRIu64 ", column %zu: ", front, n, wrong.column);
	if (wrong.field)
		add(text, "%s: ", wrong.field);
	add(text, "%s\n", wrong.reason);
}

static void wakeup(const struct facility *f, struct text *out)
{
	if (f->len == 0)
		add(out, "wakeup never\n");
	else
		add(out, "wakeup %" PRIu64 " %" PRIu64 "\n", f->now, f->pending[0].deadline);
}

/* The most bytes of one read, of a file. */
enum { PIECE = 16384 };

/* Does the lines in turn, up to one that ends it. Returns whether none did. */
static bool lines(struct facility *f, const char *script, size_t len, enum form form, struct answer *answer)
{
	uint64_t n = 0;
	bool goes_on = form == KEEP_GOING || form == KEEP_GOING_WAKEUPS;
	/* Whether a wake-up is due, once the read is over in which the last good line came. */
	bool due = false;
	size_t came = 0;
	for (const char *at = script, *end = script + len; at < end;) {
		const char *feed = memchr(at, '\n', (size_t)(end - at));
		const char *next = feed ? feed + 1 : end;
		size_t all = (size_t)(next - at);
		bool good = !diagnose(grammar_of(form), at, all).reason;
		struct event e = good ? event_of(at, all) : (struct event){0};
		uint64_t serial = f->next_serial;
		n++;
		if (good && due && came != (size_t)(next - 1 - script) / PIECE)
			wakeup(f, &answer->output);
		if (good) {
			due = form == WAKEUPS || form == KEEP_GOING_WAKEUPS;
			came = (size_t)(next - 1 - script) / PIECE;
		}
		if (good && form != CHECK)
			one(f, &e, &answer->output);
		if (good && form == SHOW)
			show(&answer->output, &f->is, &f->counts, serial, f->now, f->pending, f->len);
		if (!good && form == CHECK)
			report(&answer->output, "", n, diagnose(SCRIPT, at, all));
		if (!good && goes_on)
			report(&answer->faults, "bad ", n, diagnose(STREAM, at, all < MAX_LINE ? all : MAX_LINE));
		if (!good && form != CHECK && !goes_on) {
			if (due)
				wakeup(f, &answer->output);
			*answer = fault(*answer, form, "bad line", n);
			return false;
		}
		if (!good)
			answer->status = form == CHECK ? EXIT_BAD : EXIT_SKIPPED;
		at = next;
	}
	if (due)
		wakeup(f, &answer->output);
	return true;
}

struct answer play(const char *script, size_t len, struct options options, enum form form)
{
	struct answer answer = {0};
	struct facility f = {.is = options, .now = options.first_tick, .next_serial = 1};
	for (size_t i = 0; i < MAX_CLIENTS; i++)
		f.numbers[i] = 1;
	f.pending = malloc((options.capacity + 1) * sizeof *f.pending);
	if (!f.pending)
		exit(3);
	if ((form == PLAY || form == CHECK) && len > MAX_SCRIPT)
		answer = fault(answer, form, TOO_LONG, 0);
	else if (lines(&f, script, len, form, &answer) && form != CHECK)
		add(&answer.output, "end %" PRIu64 " %zu\n", f.now, f.len);
	if (form == PLAY && answer.status != 0)
		answer.output.len = 0;
	free(f.pending);
	return answer;
}
