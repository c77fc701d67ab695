/* The memory of the timers: what tools/portable/heap.h says of its functions, also of sizes that no call asks for on a 64-bit
 * system. They are those of the library's file, which is included. */
#include "../../generated/timers.c"

#include "check.h"

#define TOO_LARGE ((uint64_t)(SIZE_MAX / 2) + 1)

static size_t asked;       /* the size that was asked for last */
static void *released;
static bool refuses;

static void *take(size_t size)
{
	asked = size;
	return refuses ? NULL : malloc(size);
}

static void *resize(void *block, size_t size)
{
	asked = size;
	return refuses ? NULL : realloc(block, size);
}

static void release(void *block)
{
	released = block;
	free(block);
}

/* A refusal calls no function, and has an address that is not null. */
static void refuses_what_is_too_large(byte *block)
{
	of_i64_i64 tried = rattle_alloc(TOO_LARGE, 8);

	CHECK(tried.f0 == 0 && tried.f1 != 0 && asked == 0);
	tried = rattle_alloc(UINT64_MAX, 8);
	CHECK(tried.f0 == 0 && tried.f1 != 0 && asked == 0);
	if (block == NULL)
		return;
	tried = rattle_realloc(block, 3, TOO_LARGE, 8);
	CHECK(tried.f0 == 0 && tried.f1 != 0 && asked == 0 && released == NULL && memcmp(block, "abc", 3) == 0);
}

/* Makes a block of 3 bytes, and one of 5 of it. */
static void grows(void)
{
	of_i64_i64 tried = rattle_alloc(3, 1);
	byte *block = (byte *)(uintptr_t)tried.f1;

	CHECK(tried.f0 == 1 && asked == 3);
	memcpy(block, "abc", 3);
	asked = 0;
	refuses_what_is_too_large(block);
	refuses = true;
	tried = rattle_realloc(block, 3, 5, 1);
	CHECK(tried.f0 == 0 && tried.f1 != 0 && asked == 5 && released == NULL && memcmp(block, "abc", 3) == 0);
	refuses = false;
	tried = rattle_realloc(block, 3, 5, 1);
	CHECK(tried.f0 == 1 && memcmp((byte *)(uintptr_t)tried.f1, "abc", 3) == 0);
	CHECK(released == (resize_block == NULL ? block : NULL));
	rattle_dealloc((byte *)(uintptr_t)tried.f1);
	CHECK(released == (byte *)(uintptr_t)tried.f1);
	released = NULL;
}

static bool is_filled(const byte *block, size_t size)
{
	while (size > 0 && block[size - 1] == (byte)size)
		size--;
	return size == 0;
}

/* malloc's blocks begin at a multiple of 32 bytes, and keep their bytes when they grow, wherever malloc puts them. */
static void begins_at_a_line(void)
{
	enum { BLOCKS = 64, TURNS = 12 };
	byte *blocks[BLOCKS];

	for (size_t turn = 0; turn < TURNS; turn++)
		for (size_t i = 0; i < BLOCKS; i++) {
			const size_t size = (i + 1) << turn, before = size / 2;

			blocks[i] = (byte *)(turn == 0 ? lined_malloc(size) : lined_realloc(blocks[i], size));
			CHECK(blocks[i] != NULL && (uintptr_t)blocks[i] % 32 == 0 && (turn == 0 || is_filled(blocks[i], before)));
			for (size_t k = 0; k < size; k++)
				blocks[i][k] = (byte)(k + 1);
		}
	for (size_t i = 0; i < BLOCKS; i++)
		lined_free(blocks[i]);
}

int main(void)
{
	of_i64_i64 tried;

	begins_at_a_line();
	CHECK(timers_set_allocator(malloc, NULL, free) == TIMERS_OK && timers_set_allocator(take, resize, release) == TIMERS_OK);
	refuses_what_is_too_large(NULL);
	CHECK(timers_set_allocator(malloc, realloc, free) == TIMERS_OPEN);   /* memory was asked for, though none was given */
	tried = rattle_alloc(0, 8);
	CHECK(tried.f0 == 1 && asked == 8);
	rattle_dealloc((byte *)(uintptr_t)tried.f1);
	released = NULL;
	grows();
	resize_block = NULL;
	grows();
	return 0;
}
