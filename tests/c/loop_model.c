/* timers_loop.h against a model: random arming, pushing back, pausing, cancelling, freeing and dispatching, with callbacks
 * that do the same to others and to themselves and that dispatch, and a clock that jumps, stalls and goes back.
 *
 *     loop_model [OPERATIONS] [SEED]
 *
 * The model is a sorted list of the timers that events have, by tick and then by when they were filed. From it follows
 * which event has to run next, at which tick, and when none has to: each run is compared, also of events that were pushed
 * back. Compiles as C and C++. Structs of events are allocated and freed all the time, so that a sanitizer sees each use
 * after a cancel. The library must not allocate after timers_reserve. With -DFORGETS an armed event is freed, and its memory
 * used again: the program ends where its timer comes out. */
#define _POSIX_C_SOURCE 200809L
#include <string.h>
#include <timers_loop.h>
#include "check.h"

enum { EVENTS = 120, NONE = EVENTS };

static struct owner {
	uint64_t before;                 /* so that the event is not at the beginning */
	struct timers_event event;
	size_t number;
} *owners[EVENTS];

/* The model of each event, by its number. */
static struct model {
	bool armed, held, at_once;       /* held: it has a timer; at_once: armed for a tick that had passed */
	uint64_t want, key, order;       /* key: the tick at which the timer comes out, or did when it was too late */
	uint64_t filed;
	uint64_t earliest;               /* in nanoseconds */
} models[EVENTS];
static size_t list[EVENTS], held;        /* the numbers of those that are held, by key and then order */
static uint64_t wheel, orders;           /* the tick that the wheel has come to */

static struct timers_loop loop = TIMERS_LOOP_INIT;
static uint64_t length, time_now, highest;   /* of a tick; the clock, and what it was at the last look */
static uint64_t due, seen, since;            /* the ticks of the looks that matter */
static size_t handed;
static bool full;
static size_t *most;                         /* what is left to the innermost dispatch; NULL outside */
static unsigned depth;
static uint64_t runs, returned, inside, refiled, nested, seed = 1;

/* The library's memory. Nothing is allocated after timers_reserve. */
static bool sealed;
static void *allocate(size_t size) { CHECK(!sealed); return malloc(size); }
static void *resize(void *block, size_t size) { CHECK(!sealed); return realloc(block, size); }

static uint64_t below(uint64_t n) { return next_below(&seed, n); }

static uint64_t clock_of(void *data)
{
	CHECK(data == &time_now);
	return time_now;
}

/* The loop looks at the clock. */
static uint64_t look(void)
{
	if (time_now > highest)
		highest = time_now;
	return highest / length;
}

static void unlist(size_t number)
{
	size_t i = 0;

	if (!models[number].held)
		return;
	while (list[i] != number)
		i++;
	memmove(list + i, list + i + 1, (--held - i) * sizeof *list);
	models[number].held = false;
}

/* The tick from `want` to `slack` later that is divisible by the highest power of two. */
static uint64_t joined(uint64_t want, uint64_t slack)
{
	unsigned k = 63;

	while (((want + slack) >> k) << k < want)
		k--;
	return ((want + slack) >> k) << k;
}

/* The event gets a timer for a tick, or another one. */
static void file(size_t number, uint64_t at)
{
	struct model *m = &models[number];
	size_t i;

	unlist(number);
	m->filed = at;
	m->key = at > wheel ? at : wheel;
	m->order = ++orders;
	m->held = true;
	for (i = held++; i > 0 && models[list[i - 1]].key > m->key; i--)
		list[i] = list[i - 1];
	list[i] = number;
}

/* The same for the tick that is wanted, or one within its slack. */
static void file_for(size_t number, uint64_t want)
{
	const uint64_t slack = owners[number]->event.slack, at = joined(want, slack);

	CHECK(at >= want && at - want <= slack);
	file(number, at);
}

/* The first tick after the wheel's whose digits, to the base of 64, are those of a tick down to some digit, and then 0. */
static uint64_t visit(uint64_t tick)
{
	uint64_t unit = 1, found = tick;

	for (; unit <= tick; unit *= 64)
		if (tick / unit * unit > wheel)
			found = tick / unit * unit;
	return found;
}

/* The loop was asked to arm it for a tick. */
static void arm(size_t number, uint64_t want)
{
	struct model *m = &models[number];
	const bool passed = want <= highest / length;

	if (passed) {
		file(number, full ? due : seen);
		m->filed = want;
	} else if (!m->held || want + owners[number]->event.slack <= m->filed) {
		file_for(number, want);
	}
	m->armed = true;
	m->at_once = passed;
	m->want = want;
	m->earliest = 0;
}

/* What runs next by the model, if the dispatch may take `*left` timers. */
static size_t next_run(size_t *left)
{
	while (*left > 0) {
		const size_t number = list[0];
		struct model *m = &models[number];
		const struct timers_event *e;

		if (held == 0 || (m->key > due && m->key > wheel)) {
			wheel = due > wheel ? due : wheel;
			return NONE;
		}
		--*left;
		e = &owners[number]->event;
		wheel = m->key;
		unlist(number);
		if (m->armed && m->want <= m->filed)
			return number;
		if (m->armed) {
			file(number, visit(joined(m->want, owners[number]->event.slack)));
			CHECK(e->filed <= e->want + e->slack);
			refiled++;
		}
	}
	return NONE;
}

static void check(size_t number)
{
	const struct timers_event *e = &owners[number]->event;
	const struct model *m = &models[number];
	size_t alive = 0, i;

	CHECK(timers_event_armed(e) == m->armed && (e->handle.serial != 0) == m->held);
	if (m->armed)
		CHECK(e->want == m->want && e->filed == m->filed);
	for (i = 0; i < EVENTS; i++)
		alive += models[i].armed && !owners[i]->event.background;
	CHECK(loop.alive == alive);
}

static void ran(struct timers_loop *of, struct timers_event *event, uint64_t tick);

static void make(size_t number)
{
	owners[number] = (struct owner *)calloc(1, sizeof **owners);
	CHECK(owners[number] != NULL);
	owners[number]->number = number;
	owners[number]->event.run = ran;
	memset(&models[number], 0, sizeof *models);
}

static void configure(struct timers_event *e, bool armed)
{
	e->period = below(4) == 0 ? 1 + below(500) : 0;
	e->catches_up = below(2) != 0;
	e->slack = below(3) == 0 ? (uint32_t)below(below(2) ? 10 : 200) : 0;
	if (!armed)
		e->background = below(3) == 0;
}

/* One operation on a random event, or on the one that runs. */
static void operate(size_t number)
{
	struct timers_event *e = &owners[number]->event;
	struct model *m = &models[number];
	uint64_t n = below(below(8) == 0 ? 100000 : below(3) == 0 ? 70 : 3000), tick;

	n += depth > 0;                   /* or else a dispatch may never end */
	switch (below(12)) {
	case 0: case 1: case 2:           /* after n ticks: no earlier than n after this very moment */
		configure(e, m->armed);
		CHECK(timers_event_after(&loop, e, n) == TIMERS_OK);
		look();
		arm(number, (highest + length - 1) / length + n);
		m->earliest = highest + n * length;
		CHECK(m->want * length >= m->earliest && m->want * length < m->earliest + length);
		break;
	case 3:                           /* at a tick, that may have passed */
		configure(e, m->armed);
		tick = highest / length + n;
		if (depth == 0 || below(4) == 0)
			tick = tick > 2000 ? tick - below(2000) : tick;
		if (below(4) == 0 && m->held && m->filed > highest / length + e->slack)
			tick = m->filed - e->slack + below(2);   /* the last one for which it gets another, and the next */
		CHECK(timers_event_at(&loop, e, tick) == TIMERS_OK);
		arm(number, tick);
		break;
	case 4: case 5: case 6: case 7:   /* push back, from this very moment too */
		CHECK(timers_event_push_back(&loop, e, n) == m->armed);
		if (m->armed) {
			look();
			arm(number, (highest + length - 1) / length + n);
			m->earliest = highest + n * length;
		}
		break;
	case 8:
		timers_event_pause(&loop, e);
		m->armed = false;
		break;
	case 9:
		timers_event_cancel(&loop, e);
		unlist(number);
		m->armed = false;
		break;
	case 10:                          /* cancel and free */
		timers_event_cancel(&loop, e);
		unlist(number);
		memset(owners[number], 0xee, sizeof **owners);
		free(owners[number]);
		make(number);
		break;
	default:
		if (!m->armed)
			configure(e, false);
	}
	check(number);
}

/* A loop polls: it looks at the clock, sleeps until its deadline or less, and maybe fills its array. Nothing may be due
 * before the deadline. */
static void poll_once(void)
{
	const uint64_t deadline = timers_loop_deadline(&loop);
	const int wait = timers_loop_timeout(&loop);
	const int ready = (int)below(9) - 1, room = below(3) == 0 ? 1 + (int)below(8) : 9;

	seen = look();
	full = false;
	if (deadline == TIMERS_NEVER)
		CHECK(wait == -1 && held == 0);
	else
		CHECK(wait >= 0 && (deadline <= highest || (wait > 0 && (uint64_t)wait <= (deadline - highest + 999999) / 1000000)));
	if (held > 0)
		CHECK(deadline <= models[list[0]].key * length || deadline <= highest);
	if (deadline != TIMERS_NEVER && deadline > time_now && below(20) != 0)
		time_now += below(2) ? deadline - time_now : below(deadline - time_now);
	if (below(3) == 0)
		return;                       /* as a loop over poll, whose array is never full */
	timers_loop_polled(&loop, ready, room);
	full = ready < 0 || ready >= room;
	if (!full)
		return;
	since = handed == 0 ? seen : since;
	handed += ready < 0 ? 0 : (size_t)ready;
	if (handed >= loop.watched) {
		due = since;
		handed = 0;
	}
}

static void tick_once(void)
{
	CHECK(timers_loop_tick(&loop) == look());
	seen = highest / length;
	full = false;
}

static void dispatch(void)
{
	size_t left = below(4) == 0 ? below(5) : SIZE_MAX, *const outer = most;

	if (!full) {
		due = seen;
		handed = 0;
	}
	most = &left;
	depth++;
	returned += timers_loop_dispatch(&loop, left);
	CHECK(next_run(&left) == NONE);                  /* none is left out */
	most = outer;
	CHECK(--depth > 0 || returned == runs);
}

static void ran(struct timers_loop *of, struct timers_event *event, uint64_t tick)
{
	const size_t number = timers_event_owner(event, struct owner, event)->number;
	struct model *m = &models[number];
	uint64_t next;
	size_t i;

	CHECK(of == &loop && depth > 0 && event == &owners[number]->event);
	CHECK(next_run(most) == number && m->armed && tick == m->want);
	CHECK(tick * length <= highest && (tick <= due || m->at_once) && m->earliest <= highest);      /* never early */
	m->armed = false;
	if (event->period > 0) {
		next = tick + event->period;
		look();
		while (next <= highest / length && !event->catches_up)
			next += event->period;
		file_for(number, next);
		m->armed = true;
		m->want = next;
		m->earliest = 0;
		m->at_once = false;
	}
	check(number);
	runs++;
	if (below(6) == 0)
		time_now += below(3 * length);             /* the callback takes time */
	for (i = below(4); i > 0; i--, inside++)
		operate(below(3) == 0 ? number : below(EVENTS));
	if (depth < 4 && below(40) == 0) {                 /* and may run a loop of its own */
		nested++;
		below(2) ? poll_once() : tick_once();
		dispatch();
	}
}

static void ends(struct timers_loop *of, struct timers_event *event, uint64_t tick)
{
	(void)event, (void)tick;
	timers_loop_free(of);
}

/* A loop in milliseconds, under CLOCK_MONOTONIC: what poll is told, and what the ends of ranges do. */
static void edges(void)
{
	struct timers_loop real = TIMERS_LOOP_INIT;
	struct timers_event far, near;
	uint64_t begin = timers_loop_monotonic(NULL), tick;
	size_t left = 9;

	memset(&far, 0, sizeof far);
	memset(&near, 0, sizeof near);
	timers_loop_free(&real);
	CHECK(timers_loop_new(&real, NULL, NULL, 0) == TIMERS_ZERO_INTERVAL && timers_event_at(&real, &far, 1) == TIMERS_NOT_OPEN);
	CHECK(timers_loop_new(&real, NULL, NULL, 1000000) == TIMERS_OK && timers_loop_timeout(&real) == -1);
	CHECK(timers_loop_new(&real, NULL, NULL, 1000000) == TIMERS_OPEN);
	CHECK(timers_event_at(&real, &far, TIMERS_LAST + 1) == TIMERS_TOO_LATE && !timers_event_armed(&far));
	CHECK(timers_event_after(&real, &far, TIMERS_LAST + 1) == TIMERS_TOO_LATE && real.alive == 0);
	CHECK(timers_event_after(&real, &far, UINT64_MAX) == TIMERS_TOO_LATE);
	far.background = true;
	CHECK(timers_event_at(&real, &far, UINT64_C(1) << 42) == TIMERS_OK && timers_loop_timeout(&real) == INT_MAX && real.alive == 0);
	CHECK(!timers_event_push_back(&real, &far, UINT64_MAX) && far.want == UINT64_C(1) << 42);
	timers_event_cancel(&real, &far);
	far.slack = UINT32_MAX;
	CHECK(timers_event_at(&real, &far, TIMERS_LAST) == TIMERS_OK && timers_loop_timeout(&real) == -1);   /* after 2^64 ns */
	CHECK(timers_event_after(&real, &near, 20) == TIMERS_OK && real.alive == 1);
	while (real.alive > 0) {
		const int wait = timers_loop_timeout(&real);
		struct timespec sleep = { 0, 0 };

		CHECK(wait >= 0 && wait <= 21);
		sleep.tv_nsec = wait * 1000000L;
		nanosleep(&sleep, NULL);
		timers_loop_dispatch(&real, 1);
	}
	CHECK(timers_loop_monotonic(NULL) - begin >= 20000000);
	timers_event_pause(&real, &near);                   /* of one that is not armed: nothing */
	CHECK(real.alive == 0 && timers_event_at(&real, &near, 3) == TIMERS_OK && real.alive == 1);
	near.period = UINT64_MAX;                            /* that is after the last tick: it runs once */
	timers_loop_tick(&real);
	CHECK(timers_loop_take(&real, &left, &tick) == &near && left == 8 && tick == 3 && real.alive == 0);

	/* A callback frees the loop. What was armed is cancelled afterwards, and armed in the next loop. */
	near.run = ends;
	near.period = 1;
	far.background = false;
	CHECK(timers_event_at(&real, &near, 0) == TIMERS_OK && timers_loop_dispatch(&real, 9) == 1);
	CHECK(timers_event_after(&real, &near, 1) != TIMERS_OK || timers_event_armed(&near));
	timers_event_cancel(&real, &near);
	CHECK(timers_loop_new(&real, NULL, NULL, 1) == TIMERS_OK && timers_event_after(&real, &near, 1) == TIMERS_OK);
	timers_event_cancel(&real, &far);
	CHECK(real.alive == 1 && !timers_event_armed(&far));
	timers_loop_free(&real);
	timers_event_cancel(&real, &near);
	CHECK(real.alive == 0);
}

/* Bounded by the last ticks of the clock: a period ends there, and a clock beyond them is one at the last. */
static void last_ticks(void)
{
	struct timers_loop late = TIMERS_LOOP_INIT;
	struct timers_event every;

	memset(&every, 0, sizeof every);
	every.period = 10;
	time_now = TIMERS_LAST - 25;
	CHECK(timers_loop_new(&late, clock_of, &time_now, 1) == TIMERS_OK && timers_event_after(&late, &every, 10) == TIMERS_OK);
	CHECK(timers_event_after(&late, &every, 26) == TIMERS_TOO_LATE && every.want == TIMERS_LAST - 15);
	every.catches_up = true;
	time_now = TIMERS_LAST - 5;
	timers_loop_tick(&late);
#ifdef FORGETS
	memset(&every.handle, 0, sizeof every.handle);
#endif
	CHECK(timers_loop_dispatch(&late, 9) == 2 && late.alive == 0 && !timers_event_armed(&every));
	time_now = UINT64_MAX;
	timers_loop_tick(&late);
	CHECK(timers_event_after(&late, &every, 1) == TIMERS_TOO_LATE && timers_event_after(&late, &every, TIMERS_LAST) == TIMERS_TOO_LATE);
	timers_loop_free(&late);
}

static void one_turn(void)
{
	uint64_t n;

	switch (below(16)) {
	case 0:
		time_now += below(64 * length);                           /* a short time */
		break;
	case 1:
		tick_once();
		dispatch();
		break;
	case 2:
		poll_once();
		for (n = below(3); n > 0; n--)
			operate(below(EVENTS));                           /* input */
		dispatch();
		break;
	case 3:
		if (below(40) == 0)
			time_now += below(200000) * length;               /* a stall */
		else if (below(40) == 0 && time_now > 100 * length)
			time_now -= below(100 * length);                  /* back */
		break;
	default:
		operate(below(EVENTS));
	}
}

int main(int argc, char **argv)
{
	const uint64_t operations = argc > 1 ? strtoull(argv[1], NULL, 10) : 1000000;
	static const uint64_t lengths[] = { 1000, 1, 7, 1000000 };
	uint64_t i, start = argc > 2 ? strtoull(argv[2], NULL, 10) : 0;

	CHECK(timers_set_allocator(allocate, resize, free) == TIMERS_OK);
	edges();
	last_ticks();
	seed = start * 2 + 1;
	length = lengths[start % 4];
	time_now = highest = 12345 * length + length / 2;
	wheel = due = seen = time_now / length;
	CHECK(timers_loop_new(&loop, clock_of, &time_now, length) == TIMERS_OK && loop.watched == 65536);
	loop.watched = 12;
	CHECK(timers_reserve(&loop.timers, EVENTS) == TIMERS_OK);
	sealed = true;
	for (i = 0; i < EVENTS; i++)
		make((size_t)i);
	for (i = 0; i < operations; i++)
		one_turn();
	printf("%llu operations, %llu runs, %llu operations in callbacks, %llu events filed anew, %llu loops in callbacks\n",
	       (unsigned long long)operations, (unsigned long long)runs, (unsigned long long)inside, (unsigned long long)refiled,
	       (unsigned long long)nested);
	CHECK(operations < 10000 || (runs > operations / 50 && refiled > operations / 200 && nested > operations / 5000));
	for (i = 0; i < EVENTS; i++) {
		timers_event_cancel(&loop, &owners[i]->event);
		free(owners[i]);
	}
	CHECK(loop.alive == 0);
	timers_loop_free(&loop);
	return 0;
}
