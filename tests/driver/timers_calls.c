/* Random programs over the functions of timers.h, on two structs. */
/* SPDX-License-Identifier: MIT OR Apache-2.0 */
#include <string.h>

#include <timers.h>

#include "driver.h"
#include "memory.h"
#include "timers_model.h"
#include "trace.h"

enum { NAMES = 64, BATCH = 8, LISTED = 3 << 14, REPLAYED_BITS = 52 };

static struct timers both[2], *t;
static struct timers_model models[2], *m;          /* what they should do */
static struct timers_handle names[NAMES], *name;   /* handles that were returned, of timers that may be gone */
static uint64_t spread;                            /* deadlines are up to two to the power of it away */
static uint64_t last;                              /* the last tick of the program's table */
static uint64_t latest;                            /* the deadline that was given last */
static uint32_t table;
static uint64_t cursor;
static uint64_t numbers[LISTED + 4];               /* an answer: how many follow, and these */

/* Of a call that succeeds: it runs out of memory if it may ask for some, and that was refused. */
static enum timers_status with_memory(enum timers_status wanted)
{
	return wanted == TIMERS_OK && may_allocate && refusals > 0 ? TIMERS_NO_MEMORY : wanted;
}

static enum timers_status status_seen(const char *call, enum timers_status status, enum timers_status wanted)
{
	WANT(call, status, wanted);
	return (enum timers_status)returned((uint32_t)status);
}

/* A multiple of the ticks of a slot of some wheel, after `from` or at it. */
static uint64_t random_edge(uint64_t from)
{
	const uint64_t slot = table == TIMERS_SMALL ? UINT64_C(16) << 4 * below(6) : UINT64_C(64) << 6 * below_power(3);

	return (from / slot + below(3)) * slot;
}

/* Not each wrapper has all 64 bits of a tick. */
static uint64_t replayed(uint64_t ticks, bool is_interval)
{
	const uint64_t most = UINT64_C(1) << REPLAYED_BITS, left = model_now(m) < most ? most - model_now(m) : 1;

	return ticks % (is_interval ? left : most);
}

/* A number of ticks, or a tick if `from` is the present one. */
static uint64_t random_ticks(uint64_t from)
{
	uint64_t ticks = from + below_power(spread), before = below(4);

	switch (below(24)) {
	case 0: ticks = 0; break;
	case 1: ticks = from + 1; break;
	case 2: ticks = UINT64_MAX - before; break;
	case 3: ticks = last - model_now(m) + from + 1 - before; break;
	case 4: ticks = latest - model_now(m) + from; break;
	case 5: ticks = random_edge(from); break;
	case 6: ticks = random_edge(from) - before; break;
	case 7: ticks = from - before; break;
	}
	return replays ? replayed(ticks, from == 0) : ticks;
}

/* A tick, one in eight of which has passed, or an interval. */
static struct when random_when(bool at_tick)
{
	const uint64_t now = model_now(m);
	struct when when = { at_tick, random_ticks(at_tick ? now : 0) };

	if (at_tick && below(8) == 0)
		when.number = below(2) == 0 ? now : below(now + 1);
	latest = at_tick ? when.number : now + when.number;
	return when;
}

/* A handle of a timer that is held, or one that was returned. A wrapper makes none up. */
static struct timers_handle random_handle(void)
{
	struct timers_handle handle = *name;

	if (m->count > 0 && below(2) == 0) {
		const struct held *const e = &m->list[m->due > 0 && below(2) == 0 ? below(m->due) : below(m->count)];
		handle.place = e->place;
		handle.serial = e->serial;
	}
	switch (below(32) | (replays ? 4 : 0)) {
	case 0: handle.place += below(3) - 1; break;
	case 1: handle.serial += below(3) - 1; break;
	case 2: handle.place = next_random(); break;
	case 3: handle.serial = next_random(); break;
	case 4: memset(&handle, 0, sizeof handle); break;
	}
	return handle;
}

/* Whether an answer is wanted. All are that a wrapper gives. */
static bool is_wanted(void) { return replays || below(8) != 0; }

/* A handle in the trace. A wrapper finds it by its serial, since places are the library's choice. */
static uint64_t told_handle(struct timers_handle handle) { return handle.serial + (replays ? 0 : handle.place << 32); }

#define TIMER(e) (e).deadline, (e).serial, (e).action

static const struct timers_handle OLD_HANDLE = { 77, 78 };
static const struct timers_expired OLD_TIMER = { 71, 72, 73 };

static void want_timer(const char *call, const struct timers_expired *got, const struct held *wanted)
{
	WANT(call, got->deadline, wanted->deadline);
	WANT(call, got->serial, wanted->serial);
	WANT(call, got->action, wanted->action);
}

/* What a call that found nothing was given to write to is as it was. */
static void want_kept(const char *call, struct timers_handle handle, const struct timers_expired *out)
{
	WANT(call, handle.place == OLD_HANDLE.place && handle.serial == OLD_HANDLE.serial, true);
	WANT(call, out == NULL || memcmp(out, &OLD_TIMER, sizeof *out) == 0, true);
}

/* The handle of the timer with this serial, which the call that started it was not asked for. */
static struct timers_handle find_serial(uint64_t serial)
{
	struct timers_handle handle = { 0, 0 };
	struct timers_expired out;
	uint64_t at = 0;

	while (handle.serial != serial && timers_each(t, &at, &handle, &out))
		;
	WANT("the serial of a new timer", handle.serial, serial);
	return handle;
}

/* A start or a restart was accepted. Its handle takes the place of another one. */
static void accept(struct when when, struct timers_handle handle, bool wanted, uint64_t action)
{
	if (!wanted)
		handle = find_serial(m->last_serial + 1);
	WANT("the serial of a new timer", handle.serial, m->last_serial + 1);
	OCCURS("starts with room by timers_reserve alone", m->count >= m->held_most && m->count < m->reserved);
	model_add(m, when, handle, action);
	OCCURS("hundreds of timers at one tick", m->due > 200);
	if (wanted)
		*name = handle;
}

static void make_new(void)
{
	const uint32_t asked = !replays && below(16) == 0 ? (uint32_t)below(TIMERS_TABLES + 1) : table;
	const uint64_t before = below(4), edge = random_edge(below_power(spread)) - before;
	const uint64_t near = last + 2 - below_power(6), late = replays ? replayed(near, false) : near;
	const uint64_t tick = below(8) == 0 ? late : edge > last || below(3) == 0 ? 0 : edge;
	enum timers_status status;

	may_allocate = model_new(m, asked, tick) == TIMERS_OK;
	status = timers_new(t, asked, tick);
	status_seen("new", status, with_memory(model_new(m, asked, tick)));
	if (status == TIMERS_OK)
		model_open(m, asked, tick);
	TOLD(timers_new, (asked, tick), (status));
}

/* A serial as it stands in a struct, on any machine with the lowest byte first. */
static uint64_t in_struct(uint64_t serial)
{
	unsigned char bytes[8];
	uint64_t stored;
	int i;

	for (i = 0; i < 8; i++)
		bytes[i] = (unsigned char)(serial >> 8 * i);
	memcpy(&stored, bytes, sizeof stored);
	return stored;
}

/* The serials go on after this one, as if so many timers had been started in a struct that isn't open. */
static void set_serial(uint64_t last_serial)
{
	timers_model_end(m);
	t->last_serial = in_struct(last_serial);
	timers_model_begin(m, last_serial);
}

/* A wrapper makes each struct anew. */
static void make_free(void)
{
#ifndef OBJECT
	timers_free(NULL);
#endif
	timers_free(t);
	OCCURS("frees of what is open", m->open);
	m->open = false;
	m->count = m->due = 0;
	TOLD(timers_free, (), ());
	WANT("serials are kept", in_struct(t->last_serial), m->last_serial);
	if (replays) {
		set_serial(0);
		memset(names, 0, sizeof names);
	}
}

static void make_clear(void)
{
	OCCURS("clears of pending and expired timers", m->due > 0 && m->count > m->due);
	timers_clear(t);
	model_clear(m);
	TOLD(timers_clear, (), (timers_len(t)));
}

static void make_reserve(void)
{
	const size_t most = below(16) == 0 && !replays ? SIZE_MAX >> below(8) : (size_t)below_power(11);
	enum timers_status wanted = m->open ? TIMERS_OK : TIMERS_NOT_OPEN, status;

	may_allocate = m->open && most > m->reserved;
	status = timers_reserve(t, most);
	if (may_allocate && most >> 20 > 0)
		wanted = TIMERS_NO_MEMORY;
	status_seen("reserve", status, with_memory(wanted));
	if (status == TIMERS_OK && most > m->reserved)
		m->reserved = most;
	TOLD(timers_reserve, (most), (status));
}

static void start(struct when when)
{
	const uint64_t action = next_random();
	struct timers_handle handle = OLD_HANDLE;
	const bool wanted = is_wanted() || m->count > NAMES;
	struct timers_handle *const out = wanted ? &handle : NONE;
	enum timers_status status;

	may_allocate = model_start(m, when) == TIMERS_OK && !has_room(m);
	if (when.at_tick)
		status = timers_start_at(t, when.number, action, out);
	else
		status = timers_start(t, when.number, action, out);
	status_seen("start", status, with_memory(model_start(m, when)));
	if (status != TIMERS_OK)
		want_kept("start", handle, NULL);
	OCCURS("starts for a tick that has passed", status == TIMERS_OK && has_passed(m, when));
	if (when.at_tick)
		TOLD(timers_start_at, (when.number, action), (status, told_handle(handle)));
	else
		TOLD(timers_start, (when.number, action), (status, told_handle(handle)));
	if (status == TIMERS_OK)
		accept(when, handle, wanted, action);
}

static void make_start(void) { start(random_when(false)); }
static void make_start_at(void) { start(random_when(true)); }

/* As many timers as arrays have to grow for more than once, or at one tick. */
static void start_many(uint64_t bits)
{
	const bool apart = below(2) == 0;
	const struct when same = random_when(true);
	uint64_t left;

	for (left = below_power(bits); left > 0; left--) {
		const struct when when = { false, 1 + below(UINT64_C(1) << 20) };
		start(apart ? when : same);
	}
}

static void make_many(void) { start_many(replays ? 6 : 11); }

static void restart(bool at_tick)
{
	struct timers_handle restarted = OLD_HANDLE;
	const struct timers_handle handle = random_handle();
	const struct when when = random_when(at_tick);
	const size_t index = model_find(m, handle);
	const bool keeps = index < m->count && below(2) == 0, wanted = is_wanted() || m->count > NAMES;
	const uint64_t action = keeps ? m->list[index].action : next_random();
	struct timers_handle *const out = wanted ? &restarted : NONE;
	enum timers_status status;

	if (at_tick)
		status = timers_restart_at(t, handle, when.number, action, out);
	else
		status = timers_restart(t, handle, when.number, action, out);
	status_seen("restart", status, model_restart(m, index, when));
	if (status != TIMERS_OK)
		want_kept("restart", restarted, NULL);
	OCCURS("restarts of expired timers", status == TIMERS_OK && index < m->due);
	OCCURS("restarts of these for a tick that has passed", status == TIMERS_OK && index < m->due && has_passed(m, when));
	if (at_tick)
		TOLD(timers_restart_at, (told_handle(handle), when.number, action), (status, told_handle(restarted)));
	else
		TOLD(timers_restart, (told_handle(handle), when.number, action), (status, told_handle(restarted)));
	if (status != TIMERS_OK)
		return;
	model_replace(m, index);
	WANT("the place of a restarted timer", !wanted || restarted.place == handle.place, true);
	accept(when, restarted, wanted, action);
	WANT("a handle that was restarted", timers_stop(t, handle, NONE), TIMERS_NOT_PENDING);
}

static void make_restart(void) { restart(false); }
static void make_restart_at(void) { restart(true); }

static void make_set_at(void)
{
	struct timers_handle handle = random_handle();
	const struct timers_handle before = handle;
	const struct when when = random_when(true);
	const uint64_t action = next_random();
	const size_t index = model_find(m, handle);
	const bool is_held = index < m->count;
	enum timers_status status;

	may_allocate = !is_held && model_start(m, when) == TIMERS_OK && !has_room(m);
	status = timers_set_at(t, &handle, when.number, action);
	status_seen("set", status, with_memory(model_start(m, when)));
	OCCURS("sets of expired timers", status == TIMERS_OK && index < m->due);
	OCCURS("sets that are refused and keep a timer", status != TIMERS_OK && is_held);
	if (is_held)
		TOLD(timers_set_at_held, (told_handle(before), when.number, action), (status, told_handle(handle)));
	else
		TOLD(timers_set_at, (told_handle(before), when.number, action), (status, told_handle(handle)));
	if (status != TIMERS_OK) {
		WANT("the handle of a refused set", handle.place == before.place && handle.serial == before.serial, true);
		return;
	}
	WANT("the place of a timer that was set", !is_held || handle.place == before.place, true);
	if (is_held)
		model_replace(m, index);
	accept(when, handle, true, action);
	WANT("a handle that was set", is_held && timers_stop(t, before, NONE) == TIMERS_OK, false);
}

static void make_stop(void)
{
	const struct timers_handle handle = random_handle();
	const size_t index = model_find(m, handle);
	const bool wanted = is_wanted();
	uint64_t action = 79;
	const enum timers_status status = timers_stop(t, handle, wanted ? &action : NONE);

	status_seen("stop", status, !m->open ? TIMERS_NOT_OPEN : index == m->count ? TIMERS_NOT_PENDING : TIMERS_OK);
	WANT("the action of a stopped timer", action, status == TIMERS_OK && wanted ? m->list[index].action : 79);
	OCCURS("stops of expired timers", status == TIMERS_OK && index < m->due);
	TOLD(timers_stop, (told_handle(handle)), (status, action));
	if (status == TIMERS_OK)
		model_remove(m, index);
}

static void make_look(void)
{
	const struct timers_handle handle = random_handle();
	const size_t index = model_find(m, handle);
	struct timers_expired out = OLD_TIMER;
	enum timers_status status;

	READING(status = timers_look(t, handle, &out));
	status_seen("look", status, !m->open ? TIMERS_NOT_OPEN : index == m->count ? TIMERS_NOT_PENDING : TIMERS_OK);
	if (status == TIMERS_OK)
		want_timer("look", &out, &m->list[index]);
	else
		want_kept("look", OLD_HANDLE, &out);
	TOLD(timers_look, (told_handle(handle)), (status, TIMER(out)));
}

/* A timer that was found keeps a name. At the end the next iteration begins somewhere. */
static void make_each(void)
{
	struct timers_handle handle = OLD_HANDLE;
	struct timers_expired out = OLD_TIMER;
	uint64_t at = cursor;
	bool found;

	READING(found = timers_each(t, &at, &handle, is_wanted() ? &out : NONE));
	if (found) {
		const size_t index = model_find(m, handle);
		WANT("a timer that is found is held", index < m->count, true);
		WANT("the cursor has moved", at > cursor, true);
		if (out.serial != OLD_TIMER.serial)
			want_timer("each", &out, &m->list[index]);
		*name = handle;
	} else {
		WANT("the cursor at the end", at, cursor);
		want_kept("each", handle, &out);
	}
	TOLD(timers_each, (cursor), (returned(found), at, told_handle(handle), TIMER(out)));
	cursor = found ? at : below(8) == 0 ? below_power(64) : 0;
}

static struct timers_expired timer_of(const struct held *e)
{
	const struct timers_expired timer = { e->deadline, e->serial, e->action };

	return timer;
}

/* What is left to be found of an iteration: how many, and the sum of the squares of their serials. */
static struct to_find {
	uint64_t count, squares;
} to_find;

/* While all are visited, a timer is stopped or restarted. One that is restarted keeps its place: if the visit was there, it
 * does not come again. Otherwise it comes to the new timer. */
static void change_in_visit(uint64_t at)
{
	const struct held e = m->list[below(m->count)];
	const struct timers_handle handle = { e.place, e.serial };
	struct timers_handle restarted = handle;
	const struct when when = { true, model_now(m) + (below(2) == 0 ? 0 : below_power(spread)) };
	const bool comes = e.place >= at, stops = below(4) == 0;
	enum timers_status wanted;

	wanted = stops ? TIMERS_OK : model_start(m, when);
	WANT("a change in a visit", stops ? timers_stop(t, handle, NONE) : timers_restart_at(t, handle, when.number, 7, &restarted), wanted);
	if (wanted != TIMERS_OK)
		return;
	(stops ? model_remove : model_replace)(m, model_find(m, handle));
	OCCURS("timers that were restarted before a visit came to them", comes && !stops);
	if (comes) {
		to_find.count -= stops;
		to_find.squares -= e.serial * e.serial;
	}
	if (stops)
		return;
	WANT("the place of a restarted timer", restarted.place, e.place);
	model_add(m, when, restarted, 7);
	if (comes)
		to_find.squares += restarted.serial * restarted.serial;
}

/* Each timer is found once, while some are stopped and restarted. What was found is told at the end: for a wrapper in the
 * order of the model, since no other is promised. */
static void make_visit(void)
{
	struct timers_handle handle = OLD_HANDLE;
	struct timers_expired out = OLD_TIMER;
	const bool changes = !replays && below(2) == 0;
	uint64_t at = 0;
	size_t i, count = 0;

	to_find.count = m->count;
	to_find.squares = 0;
	for (i = 0; i < m->count; i++)
		to_find.squares += m->list[i].serial * m->list[i].serial;
	while (timers_each(t, &at, &handle, &out)) {
		const size_t index = model_find(m, handle);
		WANT("a timer that is visited is held", index < m->count, true);
		want_timer("visit", &out, &m->list[index]);
		to_find.count--;
		to_find.squares -= handle.serial * handle.serial;
		if (count < LISTED) {
			const struct timers_expired shown = replays ? timer_of(&m->list[count / 3]) : out;
			const uint64_t timer[] = { TIMER(shown) };
			memcpy(numbers + 1 + count, timer, sizeof timer);
			count += 3;
		}
		if (changes && m->count > 0 && below(4) == 0)
			change_in_visit(at);
		out = OLD_TIMER;
	}
	WANT("timers that a visit left out", to_find.count, 0);
	WANT("timers that a visit left out, or found twice", to_find.squares, 0);
	WANT("the end of a visit", memcmp(&out, &OLD_TIMER, sizeof out), 0);
	numbers[0] = count;
	TOLD_LIST(timers_visit, (), numbers, count + 1);
}

/* Passes ticks up to this one, or to the first at which a timer expires. */
static void pass(enum timers_status status, uint64_t tick)
{
	if (status == TIMERS_OK && tick > model_now(m))
		model_pass_to(m, stop_before(m, tick));
}

static void make_tick(void)
{
	const enum timers_status status = timers_tick(t);

	status_seen("tick", status, model_pass(m, true));
	if (status == TIMERS_OK)
		model_pass_to(m, model_now(m) + 1);
	TOLD(timers_tick, (), (status));
}

static void make_advance(void)
{
	const uint64_t most = random_ticks(0), before = model_now(m);
	const bool wanted = is_wanted();
	uint64_t passed = 76;
	const enum timers_status status = timers_advance(t, most, wanted ? &passed : NONE);

	status_seen("advance", status, model_pass(m, most > 0));
	OCCURS("advances by no tick that a reason would have refused", most == 0 && m->due > 0);
	pass(status, most > m->last_tick - before ? m->last_tick : before + most);
	WANT("ticks passed", passed, status == TIMERS_OK && wanted ? model_now(m) - before : 76);
	TOLD(timers_advance, (most), (status, passed));
}

static void make_advance_to(void)
{
	const uint64_t tick = random_ticks(model_now(m));
	const enum timers_status status = timers_advance_to(t, tick);

	status_seen("advance to", status, model_pass(m, tick > model_now(m)));
	OCCURS("advances to no later tick, while timers wait", tick <= model_now(m) && m->due > 0);
	pass(status, tick);
	TOLD(timers_advance_to, (tick), (status));
}

static void want_first(const char *call, const struct timers_expired *out, bool taken, bool wanted)
{
	WANT(call, taken, m->open && m->due > 0);
	if (taken && wanted)
		want_timer(call, out, &m->list[0]);
	else
		want_kept(call, OLD_HANDLE, out);
	if (taken)
		model_remove(m, 0);
}

static bool take(uint64_t tick, bool wanted, struct timers_expired *out)
{
	const uint64_t before = model_now(m);
	const bool waits = m->due > 0, taken = timers_take(t, tick, wanted ? out : NONE);

	if (m->open && !waits)
		pass(TIMERS_OK, tick);
	OCCURS("takes that pass ticks", taken && model_now(m) > before);
	OCCURS("takes of none that pass ticks", !taken && model_now(m) > before);
	OCCURS("takes by a tick that has passed", taken && tick < before);
	want_first("take", out, taken, wanted);
	return taken;
}

static void make_take(void)
{
	const uint64_t tick = random_ticks(model_now(m));
	struct timers_expired out = OLD_TIMER;
	const bool taken = take(tick, is_wanted(), &out);

	TOLD(timers_take, (tick), (returned(taken), TIMER(out)));
}

/* What a loop does at some tick, for which wrappers have a call. */
static void catch_up(void)
{
	const uint64_t tick = model_now(m) + below_power(10);
	struct timers_expired out = OLD_TIMER;
	size_t count = 0;

	if (!m->open || tick > last)
		return;
	for (; take(tick, true, &out); out = OLD_TIMER) {
		const uint64_t timer[] = { TIMER(out) };
		memcpy(numbers + 1 + count, timer, sizeof timer);
		count = count < LISTED ? count + 3 : count;
	}
	numbers[0] = count;
	TOLD_LIST(timers_catch_up, (tick), numbers, count + 1);
}

static void make_expire(void)
{
	const bool wanted = is_wanted();
	struct timers_expired out = OLD_TIMER;
	const bool taken = timers_expire(t, wanted ? &out : NONE);

	want_first("expire", &out, taken, wanted);
	TOLD(timers_expire, (), (returned(taken), TIMER(out)));
}

static void make_expire_batch(void)
{
	struct timers_expired out[BATCH];
	const size_t room = (size_t)below(BATCH);
	size_t taken, i;

	for (i = 0; i < BATCH; i++)
		out[i] = OLD_TIMER;
	taken = timers_expire_batch(t, out, room);
	WANT("batch", taken, !m->open ? 0 : m->due < room ? m->due : room);
	for (i = 0; i < BATCH; i++) {
		const uint64_t timer[] = { TIMER(out[i]) };
		memcpy(numbers + 1 + 3 * i, timer, sizeof timer);
		if (i < taken)
			want_first("batch", &out[i], true, true);
		else
			want_kept("batch", OLD_HANDLE, &out[i]);
	}
	numbers[0] = 3 * taken;
	TOLD_LIST(timers_expire_batch, (room), numbers, 3 * taken + 1);
}

/* A call that only reads, and one that writes to an object, or leaves it as it was. */
#define READ(name) \
	do { \
		uint64_t got; \
		READING(got = timers_##name(t)); \
		WANT(#name, got, model_##name(m)); \
		TOLD(timers_##name, (), (got)); \
	} while (0)
#define READ_OBJECT(name, type) \
	do { \
		_Static_assert(sizeof(type) <= 16, "two numbers"); \
		union { type object; uint64_t numbers[2]; } out = { .numbers = { 71, 72 } }; \
		const bool wanted = is_wanted(); \
		enum timers_status status; \
		READING(status = timers_##name(t, wanted ? &out.object : NONE)); \
		status_seen(#name, status, m->open ? TIMERS_OK : TIMERS_NOT_OPEN); \
		if (m->open && wanted) \
			want_##name(m, &out.object); \
		else \
			WANT(#name, out.numbers[0] == 71 && out.numbers[1] == 72, true); \
		TOLD(timers_##name, (), (status, out.numbers[0], out.numbers[1])); \
	} while (0)

/* made by tools/facts: reads */
static void make_has_due(void) { READ(has_due); }
static void make_now(void) { READ(now); }
static void make_len(void) { READ(len); }
static void make_wakeup(void) { READ(wakeup); }
static void make_counts(void) { READ_OBJECT(counts, struct timers_counters); }
/* by hand */
static void make_version(void) { TOLD(timers_version, (), (timers_version())); }

static void renew(uint64_t last_serial)
{
	make_free();
	set_serial(last_serial);
	make_new();
}

/* Few serials are left, or they come to 33 bits. */
static void spend(void) { renew((below(3) != 0 ? TIMERS_LAST : UINT64_C(1) << 32) - below_power(8)); }

/* The steps that follow are about another struct or name. One with no serial or tick left rarely stays so. */
static void choose(void)
{
	const size_t which = !replays && below(8) == 0;

	t = &both[which];
	m = &models[which];
	watch(&t->at);
	name = &names[below(NAMES)];
	if (m->last_serial == TIMERS_LAST && below(8) == 0)
		renew(below_power(40));
	if ((m->now >= last && below(4) == 0) || (replays && below(64) == 0))
		make_free();
	while (!m->open && replays)
		make_new();
	if (!m->open && below(3) != 0)
		make_new();
}

/* All that expired is taken, as an event loop does. */
static void take_all(void)
{
	while (model_has_due(m) && below(64) != 0)
		make_expire();
}

/* What each call changes is seen at once, and at times what takes longer to see. */
static void look(void)
{
	WANT("now", timers_now(t), model_now(m));
	WANT("has due", timers_has_due(t), model_has_due(m));
	if (below(8) != 0)
		return;
	WANT("wake-up", timers_wakeup(t), model_wakeup(m));
	OCCURS("wake-ups before the next deadline", model_wakeup(m) < model_next(m));
	WANT("len", timers_len(t), model_len(m));
}

static const struct step STEPS[] = {
	{ choose, 60, false }, { take_all, 30, false }, { make_many, 1, false }, { spend, 1, true }, { make_new, 1, true }, { make_free, 1, true },
	{ make_clear, 1, false }, { make_reserve, 2, false }, { make_start, 30, false }, { make_start_at, 20, false },
	{ make_restart, 20, false }, { make_restart_at, 20, false }, { make_set_at, 20, false }, { make_stop, 10, false },
	{ make_look, 5, false }, { make_each, 5, true }, { make_visit, 1, false }, { make_tick, 20, false },
	{ make_advance, 10, false }, { make_advance_to, 5, false }, { make_take, 10, false }, { catch_up, 2, false },
	{ make_expire, 5, false }, { make_expire_batch, 5, false },
	{ make_version, 1, true },
	/* made by tools/facts: steps of reads */
	{ make_has_due, 4, false },
	{ make_now, 4, false },
	{ make_len, 4, false },
	{ make_wakeup, 4, false },
	{ make_counts, 4, false },
};

void call_timers(uint32_t of_table, uint64_t length)
{
	size_t i;

	memset(both, 0, sizeof both);
	memset(names, 0, sizeof names);
	cursor = 0;
	latest = 0;
	table = of_table;
	last = TIMERS_LAST_OF(table);
	spread = 2 + below(last == TIMERS_LAST && !replays ? 58 : 22);
	for (i = 0; i < 2; i++)
		timers_model_begin(&models[i], 0);
	t = both;
	m = models;
	watch(&t->at);
	name = names;
	choose();
	if (below(16) == 0)
		start_many(replays ? 9 : 16);
	make_steps(STEPS, sizeof STEPS / sizeof *STEPS, length, look);
	told_state();
	for (i = 0; i < 2; i++) {
		t = &both[i];
		m = &models[i];
		make_free();
		timers_model_end(m);
	}
}

#define BIT(status) (UINT32_C(1) << TIMERS_##status)
#define FOUND (UINT32_C(1) << false | UINT32_C(1) << true)

bool timers_have_all(uint32_t of_table)
{
	static const uint32_t starts = BIT(OK) | BIT(NOT_OPEN) | BIT(TOO_LATE) | BIT(SERIALS_SPENT);
	static const uint32_t passes = BIT(OK) | BIT(NOT_OPEN) | BIT(DUE) | BIT(CLOCK_END);
	const struct wanted wanted[] = {
		{ "timers_new", BIT(OK) | BIT(OPEN) | BIT(NO_TABLE) | BIT(TOO_LATE) | BIT(NO_MEMORY) },
		{ "timers_reserve", BIT(OK) | BIT(NOT_OPEN) | BIT(NO_MEMORY) },
		{ "timers_start", starts | BIT(ZERO_INTERVAL) | BIT(NO_MEMORY) },
		{ "timers_start_at", starts | BIT(NO_MEMORY) },
		{ "timers_restart", starts | BIT(ZERO_INTERVAL) | BIT(NOT_PENDING) },
		{ "timers_restart_at", starts | BIT(NOT_PENDING) },
		{ "timers_set_at", starts | BIT(NO_MEMORY) },
		{ "timers_set_at_held", starts & ~BIT(NOT_OPEN) },
		{ "timers_stop", BIT(OK) | BIT(NOT_OPEN) | BIT(NOT_PENDING) },
		{ "timers_look", BIT(OK) | BIT(NOT_OPEN) | BIT(NOT_PENDING) },
		{ "timers_each", FOUND },
		{ "timers_tick", passes },
		{ "timers_advance", passes },
		{ "timers_advance_to", passes },
		{ "timers_take", FOUND },
		{ "timers_expire", FOUND },
		{ "timers_counts", BIT(OK) | BIT(NOT_OPEN) },
	};

#ifdef TIMERS_NO_SMOOTH
	if (of_table == TIMERS_SMOOTH)
		return true;
#endif
	return has_all(wanted, of_table < TIMERS_TABLES ? sizeof wanted / sizeof *wanted : 0);
}
