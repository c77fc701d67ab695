/* A program without a C library, which starts, stops and takes timers in a static buffer. It is linked and not run: its size is
 * what the library takes with --gc-sections. With TIMERS they are those of that header. */
#include <stdbool.h>
#include <stddef.h>
#include <stdint.h>

static volatile uint32_t ticks;

void *memcpy(void *to, const void *from, size_t size)
{
	unsigned char *t = to;
	const unsigned char *f = from;

	while (size-- != 0)
		*t++ = *f++;
	return to;
}

void *memset(void *to, int value, size_t size)
{
	unsigned char *t = to;

	while (size-- != 0)
		*t++ = (unsigned char)value;
	return to;
}

#ifdef TIMERS
#include <stdlib.h>

#include TIMERS

int main(void)
{
	static struct node node;

	init(100);
	set(&node, 100);
	stop(&node);
	for (;;)
		while (take(ticks) != NULL)
			ticks = ticks + 1;
}
#else
#include <timers.h>

static struct timers timers;
static union { uint64_t aligned; unsigned char bytes[27168]; } memory;
static size_t used;

static void *allocate(size_t size)
{
	void *block = memory.bytes + used;

	if (size > sizeof memory.bytes - used)
		return NULL;
	used += size;
	return block;
}

static void release(void *block)
{
	(void)block;
}

int main(void)
{
	struct timers_handle handle;
	struct timers_expired timer;

	if (timers_set_allocator(allocate, NULL, release) != TIMERS_OK || timers_new(&timers, TIMERS_WIDE, 0) != TIMERS_OK
	    || timers_reserve(&timers, 100) != TIMERS_OK || timers_start_at(&timers, 100, 7, &handle) != TIMERS_OK)
		return 1;
	timers_stop(&timers, handle, NULL);
	for (;;)
		while (timers_take(&timers, ticks, &timer))
			ticks = ticks + (uint32_t)timer.action;
}
#endif
