/* How many bytes the timers take: what timers.h says of it under MEMORY.
 * Link with -Wl,--wrap=malloc,--wrap=realloc,--wrap=free. */
#include <stdio.h>
#include <stdlib.h>
#include <string.h>

#include "tables.h"
#ifndef TIMERS_NO_DESK
#include "timers_desk.h"
#endif

static size_t held;     /* the bytes of all blocks */
static int failed;

void *__real_malloc(size_t size);
void __real_free(void *block);

/* A block has its size in front of it. */
void *__wrap_malloc(size_t size)
{
	unsigned char *block = __real_malloc(size + 16);
	if (!block)
		exit(2);
	memcpy(block, &size, sizeof size);
	held += size;
	return block + 16;
}

static size_t size_of(const void *block)
{
	size_t size = 0;
	if (block)
		memcpy(&size, (const unsigned char *)block - 16, sizeof size);
	return size;
}

void __wrap_free(void *block)
{
	held -= size_of(block);
	__real_free(block ? (unsigned char *)block - 16 : NULL);
}

void *__wrap_realloc(void *block, size_t size)
{
	size_t before = size_of(block);
	void *moved = __wrap_malloc(size);
	if (block)
		memcpy(moved, block, before < size ? before : size);
	__wrap_free(block);
	return moved;
}

static void is_within(const char *what, size_t timers, size_t got, size_t least, size_t most)
{
	if (got < least || got > most) {
		printf("%s, %zu timers: %zu bytes, not %zu to %zu\n", what, timers, got, least, most);
		failed = 1;
	}
}

/* From 1,000 timers on each takes 40 to 83 bytes, beside what the table takes. */
static void grow(uint32_t table, size_t most)
{
	const size_t buckets = TABLES[table].buckets, more = TABLES[table].more;
	struct timers t = TIMERS_INIT;
	struct timers_handle handle;
	if (timers_new(&t, table, 0) != TIMERS_OK)
		exit(2);
	size_t made = held;
	is_within("new", 0, made, buckets / 10 * 8, buckets / 10 * 12);
	for (size_t count = 1; count <= most; count++) {
		if (timers_start(&t, 1 + count % 5000, count, &handle) != TIMERS_OK)
			exit(2);
		if (count == 1)
			is_within("first start", 1, held - made, more / 10 * 8, more / 10 * 12);
		if (count >= 1000)
			is_within("starts", count, held - made, 40 * count, 83 * count);
	}
	size_t kept = held;
	timers_clear(&t);
	is_within("clear", 0, held, kept, kept);
	timers_free(&t);
	is_within("free", 0, held, 0, 0);
}

/* With room each timer takes 40 bytes, beside the buckets, also if some are held before. */
static void reserve(uint32_t table, size_t before, size_t most)
{
	struct timers t = TIMERS_INIT;
	if (timers_new(&t, table, 0) != TIMERS_OK)
		exit(2);
	for (size_t i = 0; i < before; i++)
		if (timers_start(&t, 1 + i, i, NULL) != TIMERS_OK)
			exit(2);
	if (timers_reserve(&t, most) != TIMERS_OK)
		exit(2);
	is_within("reserve", most, held, 40 * most, 40 * most + 2 * TABLES[table].buckets);
	timers_free(&t);
}

/* With room each timer of a desk's capacity takes 96 bytes. */
static void reserve_desk(size_t capacity)
{
#ifdef TIMERS_NO_DESK
	(void)capacity;
#else
	struct timers_desk d = TIMERS_DESK_INIT;
	struct timers_line l = TIMERS_LINE_INIT;
	const struct timers_desk_config config = { sizeof config, 0, capacity, 16, 16, TIMERS_SMALL };
	if (timers_desk_new(&d, &l, 1, &config) != TIMERS_DESK_OK)
		exit(2);
	size_t made = held;
	if (timers_desk_reserve(&d) != TIMERS_DESK_OK)
		exit(2);
	is_within("reserve of a desk", capacity, held - made, 96 * capacity, 96 * capacity + 512);
	timers_desk_free(&d);
	timers_line_free(&l);
#endif
}

int main(void)
{
	static const size_t rooms[] = { 1, 10, 100, 1000, 10000, 100000 };
	for (uint32_t table = 0; table < TIMERS_TABLES; table++) {
		grow(table, table == TIMERS_WIDE ? ((size_t)1 << 22) + 1 : 300000);
		for (size_t i = 0; i < sizeof rooms / sizeof *rooms; i++)
			reserve(table, 0, rooms[i]), reserve(table, rooms[i] / 4, rooms[i]);
	}
	for (size_t i = 0; i < sizeof rooms / sizeof *rooms; i++)
		reserve_desk(rooms[i]);
	printf(failed ? "it is not as the header says\n" : "the timers take what the header says\n");
	return failed;
}
