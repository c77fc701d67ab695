/* Memory of the timers that is scarce: after some requests each is refused. A build without these timers makes none, so
 * that a program which tries again once there is memory has the same trace in both. */
#include <stdlib.h>

#include <timers.h>

static int is_scarce;
static uint64_t given_before;        /* requests that are granted all the same */

static int is_refused(void)
{
	if (is_scarce && given_before == 0)
		return 1;
	given_before -= given_before > 0;
	return 0;
}
static void *give(size_t size) { return is_refused() ? NULL : malloc(size); }
static void *resize(void *block, size_t size) { return is_refused() ? NULL : realloc(block, size); }

static void make_memory_scarce(uint64_t requests)
{
	if (timers_set_allocator(give, resize, free) != TIMERS_OK)
		abort();
	is_scarce = 1;
	given_before = requests;
}
