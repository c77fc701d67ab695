/* Timeouts through the wrap of lwIP's clock, which has 32 bits: each runs once, and at its time. One whose time passes while
 * it is started runs at once.
 *
 *     wrap
 *
 * The clock is a number, and sleeps for as long as sys_timeouts_sleeptime() says. What is due is counted in 64 bits. */
#include <inttypes.h>
#include <stdio.h>
#include <stdlib.h>

#include "lwip/memp.h"
#include "lwip/timeouts.h"

enum { MOST = 100, WRAPS = 5, LONGEST = 0x3fffffff };

static uint64_t clock_ms, passes_at_a_look;
static uint64_t due[MOST];
static int runs, cycles;

u32_t sys_now(void)
{
	u32_t now = (u32_t)clock_ms;
	clock_ms += passes_at_a_look;
	return now;
}
int lose_packet(struct pbuf *p) { (void)p; return 0; }

static void refuse(const char *what, uint64_t wanted)
{
	printf("%s at %" PRIu64 " in place of %" PRIu64 "\n", what, clock_ms, wanted);
	exit(1);
}

static void on_timeout(void *arg)
{
	uint64_t wanted = *(uint64_t *)arg;
	runs++;
	if (clock_ms != wanted)
		refuse("a timeout ran", wanted);
}

static void start(int k, u32_t length)
{
	due[k] = clock_ms + length;
	sys_timeout(length, on_timeout, &due[k]);
}

/* Sleeps until a timeout has run. These timers may ask for several sleeps, of which the first are in vain. */
static void sleep_and_run(void)
{
	const int before = runs + cycles;
	for (int sleeps = 0; runs + cycles == before && sleeps < 6; sleeps++) {
		clock_ms += sys_timeouts_sleeptime();
		sys_check_timeouts();
	}
}

/* One timeout alone: no wait is longer than its length. */
static void alone(uint64_t clock, u32_t length)
{
	int before = runs;
	clock_ms = clock;
	start(0, length);
	if (sys_timeouts_sleeptime() - 1 >= length)
		refuse("another wait", length);
	sleep_and_run();
	if (runs != before + 1)
		refuse("no timeout", length);
}

/* Timeouts of up to half of the longest that lwIP takes, each of which is started again, over some wraps. */
static void together(uint64_t from)
{
	uint64_t until = from + ((uint64_t)WRAPS << 32);
	int k, held = 0;
	clock_ms = from;
	for (k = 0; k < MOST; k++)
		due[k] = from;
	do {
		int before = runs;
		for (k = 0; k < MOST; k++)
			if (clock_ms < until && due[k] == clock_ms) {
				start(k, (u32_t)(LONGEST / 2 / MOST * (k + 1)));
				held++;
			}
		sleep_and_run();
		held -= runs - before;
		if (runs == before)
			refuse("nothing ran", clock_ms);
	} while (held > 0);
	if (sys_timeouts_sleeptime() != SYS_TIMEOUTS_SLEEPTIME_INFINITE)
		refuse("a timeout is left", 0);
}

static void count_run(void *unused)
{
	(void)unused;
	runs++;
}

/* lwIP computes the time of a timeout before the timers look at the clock: it may have passed by then. */
static void passed(uint64_t clock, u32_t length)
{
	int before = runs;
	clock_ms = clock;
	passes_at_a_look = (uint64_t)length + 2;
	sys_timeout(length, count_run, NULL);
	passes_at_a_look = 0;
	if (sys_timeouts_sleeptime() != 0)
		refuse("a wait for a time that has passed", 0);
	sys_check_timeouts();
	if (runs != before + 1)
		refuse("no timeout for a time that has passed", clock);
}

static void count_cycle(void) { cycles++; }

/* A cyclic timer, for a minute around the wrap. */
static void cyclic(uint64_t wrap)
{
	static struct lwip_cyclic_timer each = { 250, count_cycle };
	clock_ms = wrap - 30000;
	sys_timeout(each.interval_ms, lwip_cyclic_timer, &each);
	while (clock_ms < wrap + 30000)
		sleep_and_run();
	sys_untimeout(lwip_cyclic_timer, &each);
	if (cycles != 240)
		refuse("another number of cycles", 240);
}

int main(void)
{
	uint64_t wrap = 0;
	int before, length, near, far;
	memp_init();
	sys_timeouts_init();
	for (before = 0; before <= 28; before++)
		for (near = -1; near <= 1; near++)
			for (length = 1; length <= 29; length++)
				for (far = -1; far <= 1; far++) {
					wrap += UINT64_C(1) << 32;
					alone(wrap - (UINT64_C(1) << before) + (uint64_t)near, (UINT32_C(1) << length) + (u32_t)far);
				}
	wrap += UINT64_C(1) << 32;
	alone(wrap - 1, LONGEST);
	together(wrap + (UINT64_C(1) << 32) - 5000);
	wrap += (uint64_t)(WRAPS + 2) << 32;
	cyclic(wrap);
	passed(wrap + 60000, 0);
	passed(2 * wrap - 2, 1);
	printf("%d timeouts, %d cycles, %d wraps\n", runs, cycles, (int)(clock_ms >> 32));
	return 0;
}
