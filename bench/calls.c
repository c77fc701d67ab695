/* The calls of timers.h in loops, whose instructions callgrind counts: bench/calls builds and runs it.
 *
 * With -DINCLUDED the library is a part of this file, so that the compiler sees both. With -DQUIET it has other calls: each
 * stands but once in a program, or a compiler would not inline it. WHEELS is one of enum timers_table. */
/* SPDX-License-Identifier: MIT OR Apache-2.0 */
#ifdef INCLUDED
#include "timers.c"
#else
#include <timers.h>
#endif
#include <stdint.h>
#include <stdio.h>
#include <valgrind/callgrind.h>

#ifndef WHEELS
#define WHEELS TIMERS_WIDE
#endif

enum { TIMERS = 10000 };

static struct timers t = TIMERS_INIT;
static struct timers_handle handles[TIMERS];
static uint64_t ticks[TIMERS];
static uint64_t failed, sum;

/* Numbers of ticks with as many of one length as of another, up to two to the power of 20. */
static void choose_ticks(void)
{
	static uint64_t state = 1;
	int i;

	for (i = 0; i < TIMERS; i++) {
		state = state * UINT64_C(6364136223846793005) + UINT64_C(1442695040888963407);
		ticks[i] = 1 + (state >> 33) % (UINT64_C(2) << (state >> 20) % 20);
	}
}

/* Counts the calls of a loop over the handles and ticks: NAME has so many instructions. */
#define COUNT(name, call) \
	do { \
		int i; \
		choose_ticks(); \
		CALLGRIND_ZERO_STATS; \
		for (i = 0; i < TIMERS; i++) \
			call; \
		CALLGRIND_DUMP_STATS_AT(name); \
	} while (0)

#ifndef QUIET
static void count_calls(void)
{
	struct timers_expired out;
	uint64_t action;

	COUNT("start", failed += timers_start(&t, ticks[i], 7, &handles[i]) != TIMERS_OK);
	COUNT("restart", failed += timers_restart(&t, handles[i], ticks[i], 8, &handles[i]) != TIMERS_OK);
	COUNT("restart_at", failed += timers_restart_at(&t, handles[i], ticks[i], 8, &handles[i]) != TIMERS_OK);
	COUNT("set_at", failed += timers_set_at(&t, &handles[i], ticks[i], 9) != TIMERS_OK);
	COUNT("look", failed += timers_look(&t, handles[i], &out) != TIMERS_OK);
	COUNT("stop", failed += timers_stop(&t, handles[i], &action) != TIMERS_OK);
	COUNT("start_at", failed += timers_start_at(&t, ticks[i], 7, &handles[i]) != TIMERS_OK);
	COUNT("wakeup", sum += timers_wakeup(&t));
	COUNT("take", failed += !timers_take(&t, TIMERS_LAST, &out));
	failed += timers_len(&t) != 0;
}

/* Ticks at which nothing expires, of timers that wait in high wheels and sometimes move. */
static void count_ticks(void)
{
	const uint64_t far = timers_now(&t) + (UINT64_C(1) << 22);
	int i;

	for (i = 0; i < TIMERS; i++)
		failed += timers_start_at(&t, far + (uint64_t)i, 7, &handles[i]) != TIMERS_OK;
	COUNT("tick", failed += timers_tick(&t) != TIMERS_OK);
}
#endif

#ifdef QUIET
/* The same, by calls that pass the ticks up to one, which is the next. */
static void count_quiet(void)
{
	struct timers_expired out;
	int i;

	for (i = 0; i < TIMERS; i++)
		failed += timers_start_at(&t, (UINT64_C(1) << 22) + (uint64_t)i, 7, &handles[i]) != TIMERS_OK;
	COUNT("advance_to", failed += timers_advance_to(&t, 1 + (uint64_t)i) != TIMERS_OK);
	COUNT("take_none", failed += timers_take(&t, 1 + TIMERS + (uint64_t)i, &out));
}
#endif

int main(void)
{
	if (timers_new(&t, WHEELS, 0) != TIMERS_OK || timers_reserve(&t, TIMERS) != TIMERS_OK)
		return 1;
#ifdef QUIET
	count_quiet();
#else
	count_calls();
	count_ticks();
#endif
	timers_free(&t);
	printf("%d\n", (int)(sum % 1000));
	return failed != 0;
}
