/* timers_reserve makes room for as many timers as links of 32 bits can name beside the wheels' lists, and for no more. The
 * blocks are mapped, and the library writes no room that is only reserved: so they take addresses alone, some 275 GB. */
#define _DEFAULT_SOURCE
#include <stdio.h>
#include <sys/mman.h>

#include "tables.h"

enum { HEAD = 64, NO_ADDRESSES = 77 };

static int refused;

static void *map(size_t size)
{
	size_t *at = mmap(NULL, size + HEAD, PROT_READ | PROT_WRITE, MAP_PRIVATE | MAP_ANONYMOUS | MAP_NORESERVE, -1, 0);
	if (at == MAP_FAILED) {
		refused = 1;
		return NULL;
	}
	*at = size + HEAD;
	return (char *)at + HEAD;
}

static void unmap(void *block)
{
	size_t *at = (size_t *)((char *)block - HEAD);
	munmap(at, *at);
}

static int is(enum timers_status wanted, enum timers_status got)
{
	if (got != wanted)
		printf("%s, and not: %s\n", timers_message(got), timers_message(wanted));
	return got == wanted;
}

/* How many lists a table's wheels have: their buckets, one for what is due, and 35 in which lazy wheels put that in order. */
static uint64_t lists_of(uint32_t table)
{
	uint64_t slots = 0;
	for (int wheel = 0; wheel < 10; wheel++)
		slots += TABLES[table].radices[wheel];
	return TABLES[table].revolutions * slots + (table == TIMERS_SMOOTH ? 1 : 36);
}

static int reaches(uint32_t table)
{
	struct timers t = TIMERS_INIT;
	struct timers_handle handle;
	struct timers_expired out;
	const size_t most = (size_t)((UINT64_C(1) << 32) - lists_of(table));
	int done = is(TIMERS_OK, timers_new(&t, table, 0));
	done = done && is(TIMERS_NO_MEMORY, timers_reserve(&t, most + 1));
	done = done && is(TIMERS_OK, timers_reserve(&t, most));
	done = done && is(TIMERS_NO_MEMORY, timers_reserve(&t, most + 1)) && is(TIMERS_OK, timers_reserve(&t, most));
	done = done && is(TIMERS_OK, timers_start(&t, 1, 7, &handle)) && timers_take(&t, 1, &out) && out.action == 7;
	timers_free(&t);
	return done;
}

int main(void)
{
	int done = is(TIMERS_OK, timers_set_allocator(map, NULL, unmap));
	for (uint32_t table = 0; table < TIMERS_TABLES; table++)
		done = done && reaches(table);
	return done ? 0 : refused ? NO_ADDRESSES : 1;
}
