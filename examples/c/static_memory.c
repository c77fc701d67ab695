/* Timers without malloc, in a buffer of the program's own: a hundred, and not one more.
 *
 *     cc -DTIMERS_NO_MALLOC -DTIMERS_NO_DESK static_memory.c timers.c
 *
 * docs/platforms.md has what each table takes for other numbers of timers. */
#include <stddef.h>
#include <stdio.h>

#include <timers.h>

#define MOST 100

/* TIMERS_WIDE without a resize takes five blocks: its buckets, and 64 bytes for each timer. A block may be rounded up. */
static union {
	max_align_t aligned;
	unsigned char bytes[20904 + 64 * MOST + 5 * sizeof(max_align_t)];
} memory;
static size_t used;

static void *allocate(size_t size)
{
	const size_t rounded = (size + sizeof(max_align_t) - 1) / sizeof(max_align_t) * sizeof(max_align_t);
	void *block = memory.bytes + used;

	if (size > sizeof memory.bytes || rounded > sizeof memory.bytes - used)
		return NULL;
	used += rounded;
	return block;
}

/* Only timers_free, and a timers_reserve that grows, give blocks back: this program has neither after its start. */
static void release(void *block)
{
	(void)block;
}

/* On a small machine the interrupt of a hardware timer, which counts and does nothing else. */
static volatile uint32_t ticks;
static void tick_interrupt(void)
{
	ticks = ticks + 1;
}

int main(void)
{
	static struct timers timers;                          /* zeros, as TIMERS_INIT */
	struct timers_handle handle;
	struct timers_expired timer;
	uint64_t number, now = 0;

	if (timers_set_allocator(allocate, NULL, release) != TIMERS_OK || timers_new(&timers, TIMERS_WIDE, 0) != TIMERS_OK
	    || timers_reserve(&timers, MOST) != TIMERS_OK)
		return 1;
	for (number = 0; number < MOST; number++)             /* ten for each of the ticks 100, 200, .. 1000 */
		if (timers_start_at(&timers, 100 * (1 + number % 10), number, &handle) != TIMERS_OK)
			return 1;
	printf("one more: %s\n", timers_message(timers_start_at(&timers, 50, number, &handle)));

	while (timers_wakeup(&timers) != TIMERS_NEVER) {      /* here a processor waits for the next interrupt */
		tick_interrupt();
		now += ticks - (uint32_t)now;                 /* the count of 32 bits goes round; the clock must not */
		while (timers_take(&timers, now, &timer))
			if (timer.action < 10)
				printf("%lu: timer %lu and others\n", (unsigned long)timer.deadline, (unsigned long)timer.action);
	}
	return 0;
}
