/* One kind of work over lwIP's timeouts, for callgrind to count.
 *
 *     cost start COUNT N     starts and stops one beside N others
 *     cost cycle COUNT N     COUNT times the first of N timers runs, and starts itself again
 *     cost sleep COUNT N     COUNT calls of sys_timeouts_sleeptime() with N timers
 *     cost memory N          prints the bytes of the heap that N timers take; lwIP's pool is beside it
 */
#include <malloc.h>
#include <stdio.h>
#include <stdlib.h>
#include <string.h>

#include "lwip/memp.h"
#include "lwip/timeouts.h"

static u32_t clock_ms;
static int names[MEMP_NUM_SYS_TIMEOUT];

u32_t sys_now(void) { return clock_ms; }
int lose_packet(struct pbuf *p) { (void)p; return 0; }

static void again(void *arg) { sys_timeout(60000, again, arg); }
static void nothing(void *arg) { (void)arg; }

static void start_all(size_t count, sys_timeout_handler handler)
{
	size_t k;
	for (k = 0; k < count; k++)
		sys_timeout((u32_t)(60000 * (k + 1) / count), handler, &names[k]);
}

static void start(size_t count, size_t beside)
{
	start_all(beside, nothing);
	while (count-- > 0) {
		sys_timeout(30000, again, names);
		sys_untimeout(again, names);
	}
}

static void cycle(size_t count, size_t timers)
{
	start_all(timers, again);
	while (count-- > 0) {
		clock_ms += sys_timeouts_sleeptime();
		sys_check_timeouts();
	}
}

static void sleeptime(size_t count, size_t timers)
{
	start_all(timers, nothing);
	while (count-- > 0)
		sys_timeouts_sleeptime();
}

static void memory(size_t count)
{
	struct mallinfo2 before = mallinfo2(), after;
	sys_timeouts_init();
	start_all(count, nothing);
	after = mallinfo2();
	printf("%zu\n", after.uordblks + after.hblkhd - before.uordblks - before.hblkhd);
}

int main(int argc, char **argv)
{
	size_t count = argc > 2 ? strtoul(argv[2], NULL, 10) : 0, timers = argc > 3 ? strtoul(argv[3], NULL, 10) : 0;
	memp_init();
	if (argc > 2 && strcmp(argv[1], "memory") == 0) {
		memory(count);
		return 0;
	}
	sys_timeouts_init();
	if (argc > 3 && strcmp(argv[1], "start") == 0)
		start(count, timers);
	else if (argc > 3 && strcmp(argv[1], "cycle") == 0)
		cycle(count, timers);
	else if (argc > 3 && strcmp(argv[1], "sleep") == 0)
		sleeptime(count, timers);
	else
		return 2;
	return 0;
}
