/* What the library takes on a small machine. Compiled with -DTIMERS_NO_MALLOC over memory of its own.
 *
 *     small memory             a row for each table: the bytes of its wheels, with a resize and without
 *     small NAME COUNT HELD    runs an operation COUNT times, at most 2,000, while HELD other timers are pending: the difference
 *                              of two such runs is what the operation takes */
#include <stddef.h>
#include <stdio.h>
#include <stdlib.h>
#include <string.h>

#include <timers.h>

#define MOST 4000

/* A block follows the one before. The last one may grow where it is, and so may others if `resizes`: as in a heap that gives
 * back what was freed. `held` is what blocks take, and `used` how far they reach. */
static union { max_align_t aligned; unsigned char bytes[1 << 20]; } memory;
static size_t used, held;
static struct { unsigned char *at; size_t size; } blocks[64];
static int count;

static void *allocate(size_t size)
{
	void *block = memory.bytes + used;

	if (count == 64 || size > sizeof memory.bytes - used - 64)
		return NULL;
	blocks[count].at = memory.bytes + used;
	blocks[count].size = size;
	count++;
	held += size;
	used += (size + 15) & ~(size_t)15;
	return block;
}

static int find(const void *block)
{
	int k = 0;

	while (blocks[k].at != block)
		k++;
	return k;
}

static void release(void *block)
{
	held -= blocks[find(block)].size;
}

static void *resize(void *block, size_t size)
{
	const size_t before = blocks[find(block)].size;
	void *larger = allocate(size);

	if (larger == NULL)
		return NULL;
	memcpy(larger, block, before < size ? before : size);
	release(block);
	return larger;
}

static void check(enum timers_status status)
{
	if (status != TIMERS_OK) {
		printf("%s\n", timers_message(status));
		exit(1);
	}
}

static size_t bytes_of(uint32_t table, size_t most, bool all)
{
	static struct timers timers;
	size_t bytes;

	used = held = 0;
	count = 0;
	check(timers_new(&timers, table, 0));
	check(timers_reserve(&timers, most));
	bytes = held;
	if (all) {
		int k;
		for (bytes = 0, k = 0; k < count; k++)
			bytes += blocks[k].size;
	}
	timers_free(&timers);
	return bytes;
}

/* The bytes of the wheels: those of all blocks but 40 for each timer, however many these are. */
static size_t bytes_of_wheels(uint32_t table, bool all)
{
	const size_t bytes = bytes_of(table, 1000, all) - 40 * 1000;

	return bytes_of(table, 10, all) - 40 * 10 == bytes && bytes_of(table, 100, all) - 40 * 100 == bytes ? bytes : 0;
}

static int memory_rows(void)
{
	uint32_t table;

	for (table = 0; table < TIMERS_TABLES; table++)
		printf("%lu %lu\n", (unsigned long)bytes_of_wheels(table, false), (unsigned long)bytes_of_wheels(table, true));
	return 0;
}

static struct timers timers;
static struct timers_handle held_handles[MOST], handles[MOST];
static struct timers_expired expired;

static void start(unsigned long k) { check(timers_start_at(&timers, 1000 + k, k, &handles[k])); }
static void start_before_64(unsigned long k) { check(timers_start_at(&timers, 63, k, &handles[k])); }
static void start_after_64(unsigned long k) { check(timers_start_at(&timers, 100, k, &handles[k])); }
static void stop(unsigned long k) { check(timers_stop(&timers, handles[k], NULL)); }
static void restart(unsigned long k) { check(timers_restart_at(&timers, handles[k], 2000 + k, k, &handles[k])); }
static void tick(unsigned long k) { (void)k; check(timers_tick(&timers)); }
static void wakeup(unsigned long k) { expired.deadline = timers_wakeup(&timers) + k; }
static void take(unsigned long k) { (void)k; check(timers_take(&timers, 63, &expired) ? TIMERS_OK : TIMERS_NOT_PENDING); }
static void nothing(unsigned long k) { (void)k; }

/* Before an operation is run, `before` is, as often in each run; after it the clock goes to a tick. */
static const struct {
	const char *name;
	void (*before)(unsigned long), (*run)(unsigned long);
	uint64_t then;
} operations[] = {
	{ "nothing", nothing, nothing, 0 }, { "start", nothing, start, 0 },     { "stop", start, stop, 0 },
	{ "restart", start, restart, 0 },   { "wakeup", start, wakeup, 0 },     { "tick", nothing, tick, 0 },
	{ "take", start_before_64, take, 0 }, { "start+move", nothing, start_after_64, 64 },
};

/* In a bucket of a higher wheel each by turns: they don't move while an operation is counted. */
static void hold(unsigned long number)
{
	unsigned long k;

	for (k = 0; k < number; k++)
		check(timers_start_at(&timers, (uint64_t)1 << (20 + 4 * (k % 8)), k, &held_handles[k]));
}

static int run(const char *name, unsigned long times)
{
	size_t n;
	unsigned long k;

	for (n = 0; n < sizeof operations / sizeof *operations; n++)
		if (!strcmp(name, operations[n].name)) {
			for (k = 0; k < MOST / 2; k++)
				operations[n].before(k);
			if (operations[n].run == take)
				check(timers_advance_to(&timers, 63));
			for (k = 0; k < times; k++)
				operations[n].run(k);
			check(timers_advance_to(&timers, operations[n].then));
			return 0;
		}
	return 2;
}

int main(int argc, char **argv)
{
	check(timers_set_allocator(allocate, resize, release));
	if (argc == 2 && !strcmp(argv[1], "memory"))
		return memory_rows();
	if (argc != 4)
		return 2;
	check(timers_new(&timers, TIMERS_WIDE, 0));
	check(timers_reserve(&timers, MOST));
	hold(strtoul(argv[3], NULL, 10));
	return run(argv[1], strtoul(argv[2], NULL, 10));
}
