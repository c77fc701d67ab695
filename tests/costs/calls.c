/* calls TABLE SHAPE TIMERS   prints for each function of timers.h how many blocks of code its longest of some calls ran
 *
 * So many timers are held meanwhile. The library is compiled so that each block of its code (each turn of a loop is one)
 * calls __sanitizer_cov_trace_pc. If timers.h lets a call walk some timers, OF_TIMER blocks for each of these don't count.
 * After each call timers_counts says how many it moved: no more than timers.h says.
 *
 * Far timers, to which no tick comes: `spread` over the wheels, in one `bucket`, at one tick, or in one bucket in the `order`
 * of starting. Other timers have all `expired`. Or the clock
 * passes them: a `wave` at one tick, or timers that are started `again` as they expire. */
/* SPDX-License-Identifier: MIT OR Apache-2.0 */
#include <inttypes.h>
#include <stdio.h>
#include <stdlib.h>
#include <string.h>

#include <timers.h>

uint64_t counted, resized;
void __sanitizer_cov_trace_pc(void);
void __sanitizer_cov_trace_pc(void) { counted++; }

enum { ROUNDS = 300, NAMES_MOST = 64, OF_TIMER = 40, EXTRA = 2 };

/* Of a table: the slots of its lowest wheel. And powers of two: how far the timers of `spread` are at least, and from there;
 * the first tick of the bucket of the others; what an advance passes at most. */
static const struct scale {
	uint64_t slots;
	int near, spread, far, jump;
} SCALES[TIMERS_TABLES] = { { 64, 36, 57, 48, 27 }, { 64, 36, 57, 48, 27 }, { 16, 17, 23, 20, 7 } };

static struct timers t = TIMERS_INIT;
static struct timers_handle *handles;   /* by action */
static struct timers_counters before;
static const struct scale *scale;
static uint64_t pending, held, failed, later, rounds, most_of_tick, sum;
static bool smooth;
static char shape;

static struct longest {
	const char *name;
	uint64_t blocks, calls;
} all[NAMES_MOST];

/* How many timers the last call moved. */
static uint64_t moves(void)
{
	const uint64_t earlier = before.moves;

	return timers_counts(&t, &before) == TIMERS_OK ? before.moves - earlier : 0;
}

static void note(const char *name, uint64_t blocks, uint64_t walked, uint64_t moved, uint64_t most)
{
	struct longest *of = all;

	while (of->name != NULL && strcmp(of->name, name) != 0)
		of++;
	of->name = name;
	of->calls++;
	blocks = blocks > OF_TIMER * walked ? blocks - OF_TIMER * walked : 0;
	of->blocks = blocks > of->blocks ? blocks : of->blocks;
	if (moved > most && failed++ < 10)
		printf("%s moved %" PRIu64 " timers, not at most %" PRIu64 "\n", name, moved, most);
}

/* COST(stop, call): the call is one of timers_stop. WALK: it may walk so many timers. START: a smooth wheel may move two. */
#define COST_OF(name, walked, most, call) \
	do { \
		uint64_t blocks; \
		counted = 0; \
		call; \
		blocks = counted; \
		note(#name, blocks, walked, moves(), most); \
	} while (0)
#define COST(name, call) COST_OF(name, 0, 0, call)
#define WALK(name, walked, call) COST_OF(name, walked, 0, call)
#define START(name, call) COST_OF(name, 0, smooth ? 2 : 0, OK(call))
#define OK(call) REFUSED(OK, call)
#define REFUSED(status, call) (failed += (call) != TIMERS_##status)

/* PASS(tick, call): it passes ticks, and moves and expires timers on the way. */
#define PASS(name, call) \
	do { \
		const uint64_t from = timers_now(&t); \
		uint64_t blocks, moved; \
		counted = 0; \
		call; \
		blocks = counted; \
		moved = moves(); \
		most_of_tick = moved > most_of_tick ? moved : most_of_tick; \
		note(#name, blocks, walked_from(from, moved), moved, smooth ? (timers_now(&t) - from) * bound() : UINT64_MAX); \
	} while (0)

/* The most timers that a tick of smooth wheels moves. */
static uint64_t bound(void) { return 2 * (pending + EXTRA) / 63 + 18; }

/* How many timers have expired and wait. */
static uint64_t waiting(void) { return held - timers_len(&t); }

/* How many timers the ticks from this one on may have walked, of which they moved some. Of smooth wheels, which move a few at
 * a tick, the ticks that moved some count as well. Others may sort what is due. */
static uint64_t walked_from(uint64_t from, uint64_t moved)
{
	const uint64_t ticks = timers_now(&t) - from;

	if (smooth)
		return moved + (ticks < moved ? ticks : moved);
	return moved + waiting();
}

static uint64_t below(uint64_t limit)
{
	static uint64_t state = 1;

	state = state * UINT64_C(6364136223846793005) + UINT64_C(1442695040888963407);
	return (state >> 20) % limit;
}

static uint64_t power(int exponent) { return UINT64_C(1) << exponent; }

/* Which the clock passes: some buckets of the third wheel. */
static uint64_t wave(void) { return 3 * scale->slots * scale->slots + 5; }

/* Whether no tick comes to the timers of the shape. */
static bool is_far(void) { return strchr("sbto", shape) != NULL; }

static uint64_t deadline(void)
{
	const uint64_t now = timers_now(&t), far = power(scale->far);

	switch (shape) {
	case 's': return now + power(scale->near) + below(power((int)below(scale->spread)));
	case 'b': return far + below(far / 2);
	case 'o': return far + later++;
	case 'e': return now;
	case 'a': return now + 1 + below(wave());
	case 'w': return wave();
	default: return far;
	}
}

static uint64_t interval(void)
{
	const uint64_t at = deadline(), now = timers_now(&t);

	return at > now ? at - now : 1;
}

static void cost_starts(uint64_t i)
{
	struct timers_handle *const handle = &handles[i], zero = { 0, 0 };
	uint64_t action;

	COST(stop, OK(timers_stop(&t, *handle, &action)));
	failed += action != i;
	START(start, timers_start(&t, interval(), i, handle));
	COST(stop, OK(timers_stop(&t, *handle, &action)));
	START(start_at, timers_start_at(&t, deadline(), i, handle));
	START(restart, timers_restart(&t, *handle, interval(), i, handle));
	START(restart_at, timers_restart_at(&t, *handle, deadline(), i, handle));
	START(set_at, timers_set_at(&t, handle, deadline(), i));
	COST(stop, OK(timers_stop(&t, *handle, &action)));
	START(set_at, timers_set_at(&t, &zero, deadline(), i));
	*handle = zero;
}

/* A refused call moves nothing. */
static void cost_refused(struct timers_handle handle)
{
	const struct timers_handle dead = { handle.place, handle.serial - 1 };
	const uint64_t now = timers_now(&t);

	COST(stop, REFUSED(NOT_PENDING, timers_stop(&t, dead, NULL)));
	COST(look, REFUSED(NOT_PENDING, timers_look(&t, dead, NULL)));
	COST(restart, REFUSED(NOT_PENDING, timers_restart(&t, dead, 1, 0, NULL)));
	COST(restart, REFUSED(ZERO_INTERVAL, timers_restart(&t, handle, 0, 0, NULL)));
	COST(restart_at, REFUSED(TOO_LATE, timers_restart_at(&t, handle, UINT64_MAX, 0, NULL)));
	COST(set_at, REFUSED(TOO_LATE, timers_set_at(&t, &handle, UINT64_MAX, 0)));
	COST(start, REFUSED(ZERO_INTERVAL, timers_start(&t, 0, 0, NULL)));
	COST(start_at, REFUSED(TOO_LATE, timers_start_at(&t, UINT64_MAX, 0, NULL)));
	COST(advance, OK(timers_advance(&t, 0, NULL)));
	COST(advance_to, OK(timers_advance_to(&t, now)));
	if (timers_has_due(&t)) {
		COST(tick, REFUSED(DUE, timers_tick(&t)));
		COST(advance, REFUSED(DUE, timers_advance(&t, 1, NULL)));
		COST(advance_to, REFUSED(DUE, timers_advance_to(&t, now + 1)));
	} else {
		COST(expire, failed += timers_expire(&t, NULL));
		COST(take, failed += timers_take(&t, now, NULL));
	}
}

static void cost_reads(struct timers_handle handle)
{
	struct timers_expired out;
	uint64_t cursor = handle.place;

	COST(look, OK(timers_look(&t, handle, &out)));
	COST(each, failed += !timers_each(&t, &cursor, NULL, &out));
	COST(version, failed += timers_version() != TIMERS_VERSION_NUMBER);
	COST(set_allocator, REFUSED(OPEN, timers_set_allocator(malloc, realloc, free)));
	COST(reserve, OK(timers_reserve(&t, 1)));   /* there is as much room already */
	COST(message, failed += timers_message(TIMERS_DUE) == NULL);
	/* made by tools/facts: costs of reads */
	COST(has_due, sum += timers_has_due(&t));
	COST(now, sum += timers_now(&t));
	WALK(len, waiting(), sum += timers_len(&t));
	COST(wakeup, sum += timers_wakeup(&t));
	COST(counts, sum += timers_counts(&t, NULL));
	/* by hand */
}

/* One that was taken is started again. */
static void again(const struct timers_expired *out)
{
	const uint64_t i = out->action;

	if (i >= pending || shape == 'w')
		held--;
	else
		START(set_at, timers_set_at(&t, &handles[i], deadline(), i));
}

static void take_due(void)
{
	struct timers_expired out[2];
	size_t taken, i;

	COST(expire, failed += !timers_expire(&t, out));
	again(out);
	WALK(expire_batch, taken, taken = timers_expire_batch(&t, out, 2));
	for (i = 0; i < taken; i++)
		again(&out[i]);
	if (timers_has_due(&t)) {
		COST(take, failed += !timers_take(&t, 0, out));
		again(out);
	}
}

static void start_extra(uint64_t at)
{
	START(start_at, timers_start_at(&t, at, pending, NULL));
	held++;
}

/* Timers that are due at once, or before the next multiple of a revolution. */
static void cost_extra(void)
{
	const uint64_t soon = timers_now(&t) | (scale->slots - 1);
	struct timers_expired out;

	start_extra(0);
	start_extra(0);
	take_due();
	start_extra(soon);
	PASS(take, failed += !timers_take(&t, soon, &out) || out.deadline != soon);
	again(&out);
}

/* Ticks pass in each of four ways: with far timers in each round, though none is on the way, however long that is. */
static void cost_ticks(void)
{
	const uint64_t most = 1 + below(is_far() ? power(scale->jump) : 3), ways = is_far() ? 15 : power(rounds % 4);
	struct timers_expired out;
	bool taken = false;

	if (ways & 1)
		PASS(tick, OK(timers_tick(&t)));
	if (ways & 2)
		PASS(advance, OK(timers_advance(&t, most, NULL)));
	if (ways & 4)
		PASS(advance_to, OK(timers_advance_to(&t, timers_now(&t) + most)));
	if (ways & 8)
		PASS(take, taken = timers_take(&t, timers_now(&t) + most, &out));
	if (taken)
		again(&out);
}

/* Some timer, and in order the first one. */
static uint64_t chosen(void)
{
	if (shape == 'o')
		return 2 * rounds % pending;
	return rounds < 4 ? (pending - 1) * (rounds % 2) : below(pending);
}

static void cost_round(void)
{
	const uint64_t i = chosen();

	cost_starts(i);
	cost_refused(handles[i]);
	cost_reads(handles[i]);
	if (is_far())
		cost_extra();
	if (shape != 'e')
		cost_ticks();
	while (timers_has_due(&t) && held > 0) {
		take_due();
		if (shape == 'e')
			break;
	}
}

static void cost_ends(void)
{
	const uint64_t most = pending + EXTRA;

	WALK(reserve, most, OK(timers_reserve(&t, 2 * most)));
	COST(reserve, OK(timers_reserve(&t, most)));
	WALK(clear, held, timers_clear(&t));
	COST(free, timers_free(&t));
}

int main(int count, char **arguments)
{
	struct timers_handle extra[EXTRA];
	uint64_t i;

	if (count < 4)
		return 2;
	smooth = atoi(arguments[1]) == TIMERS_SMOOTH;
	scale = &SCALES[atoi(arguments[1])];
	shape = *arguments[2];
	held = pending = strtoull(arguments[3], NULL, 10);
	handles = calloc(pending, sizeof *handles);
	COST(new, OK(timers_new(&t, (uint32_t)atoi(arguments[1]), 0)));
	for (i = 0; i < pending; i++)
		OK(timers_start_at(&t, deadline(), i, &handles[i]));
	for (i = 0; i < EXTRA; i++)   /* places that stay free */
		OK(timers_start(&t, 1, pending, &extra[i]));
	for (i = 0; i < EXTRA; i++)
		OK(timers_stop(&t, extra[i], NULL));
	moves();
	for (rounds = 0; shape == 'w' ? timers_now(&t) < wave() : shape == 'a' ? rounds < wave() : rounds < ROUNDS; rounds++)
		cost_round();
	if (shape == 'w' && !smooth && most_of_tick <= bound())
		printf("the wave shows nothing: no tick moves more than one of smooth wheels may\n"), failed++;
	cost_ends();
	for (i = 0; all[i].name != NULL; i++)
		printf("%s %" PRIu64 " %" PRIu64 "\n", all[i].name, all[i].blocks, all[i].calls);
	free(handles);
	if (failed != 0)
		printf("%" PRIu64 " calls gave another answer\n", failed);
	return failed != 0;
}
