/* A random program over lwIP's timeouts, and its trace.
 *
 *     trace SEED STEPS
 *
 * sys_now() is a number here, of 32 bits as lwIP's. Half of the programs start shortly before it wraps. Two builds
 * agree if their traces do: which handlers run, in which order and when, and whether sys_timeouts_sleeptime() has an end.
 * These timers may ask for several sleeps up to a timeout. Once the timeouts are made, they get no more memory. */
#include <inttypes.h>
#include <stdio.h>
#include <stdlib.h>

#include "lwip/memp.h"
#include "lwip/timeouts.h"

#include "../memory.h"
#include "../random.h"

enum { ARGUMENTS = 20, MOST_HELD = 100, CYCLES = 4 };

static u32_t clock_ms;
static int held[2][ARGUMENTS], held_in_all, calls_left, runs;

u32_t sys_now(void) { return clock_ms; }
int lose_packet(struct pbuf *p) { (void)p; return 0; }

static void some_steps(u32_t most);

static void run(int kind, size_t k)
{
	held[kind][k]--;
	held_in_all--;
	runs++;
	printf("%" PRIu32 ": ran %d %zu\n", clock_ms, kind, k);
	if (below(10) == 0)
		clock_ms += below(4);
	if (--calls_left > 0)
		some_steps(2);
}

static int names[ARGUMENTS];

static void one_handler(void *arg) { run(0, (size_t)((int *)arg - names)); }
static void other_handler(void *arg) { run(1, (size_t)((int *)arg - names)); }
static sys_timeout_handler handlers[] = { one_handler, other_handler };

/* Timers that run again and again, some of them for so long that they come late. */
static void cycle(int k)
{
	runs++;
	printf("%" PRIu32 ": cycle %d\n", clock_ms, k);
	if (below(20) == 0)
		clock_ms += below(400);
}
static void cycle_0(void) { cycle(0); }
static void cycle_1(void) { cycle(1); }
static void cycle_2(void) { cycle(2); }
static void cycle_3(void) { cycle(3); }
static struct lwip_cyclic_timer cycles[CYCLES] = { { 10, cycle_0 }, { 100, cycle_1 }, { 250, cycle_2 }, { 6000, cycle_3 } };
static int is_cycling[CYCLES];

static u32_t some_timeout(void)
{
	switch (below(8)) {
	case 0: return calls_left > 0 ? below(2) : 1;
	case 1: case 2: return below(64);
	case 3: return 64 * below(100);
	case 4: return below(5000);
	case 5: return below(LWIP_UINT32_MAX / 4);
	case 6: return LWIP_UINT32_MAX / 4 - below(2);
	default: return 250;
	}
}

static void start(int kind, size_t k)
{
	u32_t ms = some_timeout();
	if (held_in_all == MOST_HELD)
		return;
	held[kind][k]++;
	held_in_all++;
	sys_timeout(ms, handlers[kind], &names[k]);
	printf("%" PRIu32 ": start %d %zu for %" PRIu32 "\n", clock_ms, kind, k, ms);
}

/* Of several with this handler and this argument it is the first to run that is stopped. */
static void stop(int kind, size_t k)
{
	if (held[kind][k] > 0) {
		held[kind][k]--;
		held_in_all--;
	}
	sys_untimeout(handlers[kind], &names[k]);
	printf("%" PRIu32 ": stop %d %zu\n", clock_ms, kind, k);
}

static void toggle_cycle(size_t k)
{
	if (is_cycling[k])
		sys_untimeout(lwip_cyclic_timer, &cycles[k]);
	else
		sys_timeout(cycles[k].interval_ms, lwip_cyclic_timer, &cycles[k]);
	is_cycling[k] = !is_cycling[k];
}

static void print_sleep(void)
{
	printf("%" PRIu32 ": sleep%s\n", clock_ms, sys_timeouts_sleeptime() == SYS_TIMEOUTS_SLEEPTIME_INFINITE ? " for ever" : "");
}

static void step(void)
{
	int kind = (int)below(2);
	size_t k = below(ARGUMENTS);
	switch (below(10)) {
	default: start(kind, k); break;
	case 5: case 6: case 7: stop(kind, k); break;
	case 8: clock_ms += below(20); break;
	case 9: print_sleep(); break;
	}
}

static void some_steps(u32_t most)
{
	u32_t left;
	for (left = below(most + 1); left > 0; left--)
		step();
}

static void run_due(void)
{
	calls_left = 300;
	sys_check_timeouts();
	calls_left = 0;
}

/* Sleeps, again and again, until a timeout has run. */
static void sleep_and_run(void)
{
	const int before = runs;
	u32_t sleep;
	while (runs == before && (sleep = sys_timeouts_sleeptime()) != SYS_TIMEOUTS_SLEEPTIME_INFINITE) {
		clock_ms += sleep;
		run_due();
	}
}

static void check(void)
{
	switch (below(6)) {
	case 0: clock_ms += below(100000); break;
	case 1: clock_ms += below(300); break;
	case 2: clock_ms += below(10) == 0 ? below(LWIP_UINT32_MAX / 8) : 1; break;
	default: sleep_and_run(); break;
	}
	run_due();
	print_sleep();
}

/* Each timeout that is held has taken one from lwIP's pool. */
static void print_free(void)
{
	int count = 0;
	while (memp_malloc(MEMP_SYS_TIMEOUT) != NULL)
		count++;
	printf("%d held, %d free\n", held_in_all, count);
}

int main(int argc, char **argv)
{
	int left;
	if (argc != 3)
		return 2;
	seed(argv[1]);
	clock_ms = below(2) ? below(LWIP_UINT32_MAX) : (u32_t)-1 - below(100000);
	memp_init();
	make_memory_scarce(UINT64_MAX);
	sys_timeouts_init();
	given_before = 0;
	for (left = atoi(argv[2]); left > 0; left--) {
		some_steps(20);
		if (below(10) == 0)
			toggle_cycle(below(CYCLES));
		if (below(20) == 0)
			sys_restart_timeouts();
		check();
	}
	print_free();
	return 0;
}
