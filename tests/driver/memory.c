/* A block follows the one before it and no place is used twice, so that the same requests give the same addresses in each
 * build: then the bytes of all blocks are comparable, pointers among them. With -DMALLOC_BLOCKS they are malloc's, at which a
 * sanitizer looks, and which any system has: then they are not looked at here.
 *
 * With -DOBJECT this is the heap of the toolchain's object, which calls three functions by name. Otherwise the library is
 * given the functions by timers_set_allocator. */
/* SPDX-License-Identifier: MIT OR Apache-2.0 */
#define _DEFAULT_SOURCE
#include "memory.h"

#include <stdlib.h>
#include <string.h>
#ifndef MALLOC_BLOCKS
#include <sys/mman.h>
#endif

#include <timers.h>

#include "trace.h"

#define MOST_BYTES ((size_t)1 << 26)
static uint64_t numbers, held, overruns, lots, refuses, turn;

static bool is_refused(size_t size)
{
	lots = lots * UINT64_C(6364136223846793005) + UINT64_C(1442695040888963407);
	numbers++;
	return (refuses != 0 && (lots >> 33) % refuses == 0) || numbers == turn || size > MOST_BYTES;
}

#ifdef MALLOC_BLOCKS
static void *take(size_t size)
{
	void *const block = is_refused(size) ? NULL : malloc(size);

	told_memory(block == NULL ? "refused" : "takes", size, numbers);
	held += block != NULL;
	return block;
}

static void *resize(void *block, size_t size)
{
	void *const moved = is_refused(size) ? NULL : realloc(block, size);

	told_memory(moved == NULL ? "refused" : "resizes", size, numbers);
	return moved;
}

static void release(void *block)
{
	told_memory("releases", 0, 0);
	held--;
	free(block);
}

static bool map_arena(void) { return true; }
uint64_t memory_hash(void) { return 0; }
uint64_t memory_hash_at(uint64_t address) { return address & 0; }
void memory_set(const struct followers *words, uint64_t value) { (void)words, (void)value; }
void memory_follow(struct followers *words, uint64_t value) { words->count = value & 0; }
void memory_lock(bool so) { (void)so; }
#else
enum { HEAD = 16, FENCE = 16, NEW = 0xa5, FREED = 0x5a, OUTSIDE = 0xfd };
/* The upper bytes of an address in the stack: an empty vector points to some place there, where nothing is read. */
#define STACK 0x7f
#define ARENA_AT ((void *)(uintptr_t)UINT64_C(0x100000000000))

struct head {
	uint64_t size, number;
};

static unsigned char *arena;
static size_t used;

static struct head *head_of(void *block)
{
	return (struct head *)(void *)((unsigned char *)block - HEAD);
}

/* From the end of a block to the head of the next one. */
static size_t fence_of(size_t size)
{
	return FENCE + (16 - size % 16) % 16;
}

static void *take(size_t size)
{
	unsigned char *const at = arena + used;
	const bool refused = is_refused(size);
	const struct head head = { size, numbers };

	if (refused || size > MOST_BYTES - used || size + 4 * HEAD > MOST_BYTES - used) {
		told_memory("refused", size, head.number);
		return NULL;
	}
	told_memory("takes", size, head.number);
	memcpy(at, &head, sizeof head);
	memset(at + HEAD, NEW, size);
	memset(at + HEAD + size, OUTSIDE, fence_of(size));
	used += HEAD + size + fence_of(size);
	held++;
	return at + HEAD;
}

static void release(void *block)
{
	const struct head head = *head_of(block);
	const unsigned char *fence = (unsigned char *)block + head.size;
	size_t i;

	told_memory("releases", head.size, head.number);
	for (i = 0; i < fence_of(head.size); i++)
		overruns += fence[i] != OUTSIDE;
	memset(block, FREED, head.size);
	held--;
}

static void *resize(void *block, size_t size)
{
	const size_t before = head_of(block)->size;
	void *moved;

	told_memory("resizes", before, head_of(block)->number);
	moved = take(size);
	if (moved != NULL) {
		memcpy(moved, block, before < size ? before : size);
		release(block);
	}
	return moved;
}

static bool map_arena(void)
{
	arena = mmap(ARENA_AT, MOST_BYTES, PROT_READ | PROT_WRITE, MAP_PRIVATE | MAP_ANONYMOUS | MAP_NORESERVE, -1, 0);
	return arena == ARENA_AT;
}

/* Of one call in eight, since it takes time. */
void memory_lock(bool so)
{
	static unsigned turn;

	turn += so;
	if (turn % 8 == 0 && mprotect(arena, used, so ? PROT_READ : PROT_READ | PROT_WRITE) != 0)
		abort();
}

static bool has(size_t at, uint64_t value)
{
	uint64_t word;

	memcpy(&word, arena + at, sizeof word);
	return word == value;
}

void memory_follow(struct followers *words, uint64_t value)
{
	size_t i, kept = 0;

	for (i = 0; i < used && !words->begun; i += 8) {
		if (has(i, value))
			words->at[words->count++] = i;
		if (words->count == sizeof words->at / sizeof *words->at) {
			words->count = 0;
			break;
		}
	}
	words->begun = true;
	for (i = 0; i < words->count; i++) {
		if (has(words->at[i], value))
			words->at[kept++] = words->at[i];
	}
	words->count = kept;
}

void memory_set(const struct followers *words, uint64_t value)
{
	size_t i;

	for (i = 0; i < words->count; i++)
		memcpy(arena + words->at[i], &value, sizeof value);
}

static uint64_t hash_of(const unsigned char *bytes, size_t size)
{
	uint64_t hash = size, word;
	size_t i;

	for (i = 0; i < size; i += sizeof word) {
		memcpy(&word, bytes + i, sizeof word);
		if (word >> 40 == STACK)
			word = 0;
		hash = (hash ^ word) * UINT64_C(0x9e3779b97f4a7c15);
		hash ^= hash >> 32;
	}
	return hash;
}

uint64_t memory_hash(void)
{
	return hash_of(arena, used);
}

uint64_t memory_hash_at(uint64_t address)
{
	const uint64_t offset = address - (uint64_t)(uintptr_t)arena;

	if (offset < HEAD || offset >= used)
		return 0;
	return hash_of(arena + offset, (size_t)head_of(arena + offset)->size / 8 * 8);
}
#endif

#ifdef OBJECT
static bool without_resize;

bool memory_set_up(bool copies)
{
	without_resize = copies;
	return map_arena();
}

/* Whether there is memory, and where. A refusal has a pointer too, which is not null. */
struct tried {
	bool ok;
	void *p;
};
struct tried rattle_alloc(size_t size, size_t align);
struct tried rattle_realloc(void *block, size_t kept, size_t size, size_t align);
void rattle_dealloc(void *block);

static struct tried answer(void *block)
{
	static char nothing;
	const struct tried tried = { block != NULL, block != NULL ? block : (void *)&nothing };

	return tried;
}

struct tried rattle_alloc(size_t size, size_t align)
{
	return answer(take(size != 0 ? size : align));
}

struct tried rattle_realloc(void *block, size_t kept, size_t size, size_t align)
{
	const size_t wanted = size != 0 ? size : align;
	void *copy;

	if (!without_resize)
		return answer(resize(block, wanted));
	copy = take(wanted);
	if (copy != NULL) {
		memcpy(copy, block, kept);
		release(block);
	}
	return answer(copy);
}

void rattle_dealloc(void *block)
{
	release(block);
}
#else
bool memory_set_up(bool copies)
{
	return map_arena() && timers_set_allocator(take, copies ? NULL : resize, release) == TIMERS_OK;
}
#endif

void memory_begin(uint64_t seed, uint64_t one_in, uint64_t in_turn)
{
#ifndef MALLOC_BLOCKS
	used = 0;
#endif
	numbers = 0;
	held = 0;
	overruns = 0;
	lots = seed;
	refuses = one_in;
	turn = in_turn;
}

void memory_refuse_next(void)
{
	turn = numbers + 1;
}

uint64_t memory_blocks(void)
{
	return held;
}

uint64_t memory_overruns(void)
{
	return overruns;
}
