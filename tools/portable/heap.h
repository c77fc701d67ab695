/* The memory of the timers, over malloc, realloc and free or what timers_set_allocator was given. With TIMERS_NO_MALLOC there
 * is none until it was given. By hand: the proofs rest on what is said of each function. Every alignment that is asked for divides 16, and is at most 8. A block has at most
 * SIZE_MAX / 2 bytes, so that offsets in it are those of C. */
#if defined(__GNUC__) && __GCC_ATOMIC_BOOL_LOCK_FREE == 2
#define IN_USE_LOAD() __atomic_load_n(&in_use, __ATOMIC_RELAXED)
#define IN_USE_STORE() __atomic_store_n(&in_use, true, __ATOMIC_RELAXED)
#else
#define IN_USE_LOAD() in_use
#define IN_USE_STORE() (in_use = true)
#endif
static byte nothing;                                  /* where a refusal points to: nothing is read or written there */
#ifdef TIMERS_NO_MALLOC
static void *no_block(size_t size)
{
	(void)size;
	return NULL;
}
static void *(*allocate_block)(size_t) = no_block;
static void *(*resize_block)(void *, size_t) = NULL;
static void (*release_block)(void *) = NULL;          /* of no block */
#else
/* A block of malloc's is used from a multiple of 32 bytes on: so no timer, which has 32 bytes there, lies in two lines of a
 * processor's cache. The byte before says how many are skipped: 1 to 32. What timers_set_allocator was given is used as it is. */
enum { LINED = 32 };

static size_t skipped_at(uintptr_t address)
{
	return (size_t)(LINED - address % LINED);
}

static void *begin_after(byte *block, size_t skipped)
{
	block[skipped - 1] = (byte)skipped;
	return block + skipped;
}

static void *lined_malloc(size_t size)
{
	byte *block = (byte *)malloc(size + LINED);

	return block != NULL ? begin_after(block, skipped_at((uintptr_t)block)) : NULL;
}

static void *lined_realloc(void *old, size_t size)
{
	const size_t before = ((byte *)old)[-1];
	byte *block = (byte *)realloc((byte *)old - before, size + LINED);
	size_t skipped;

	if (block == NULL)
		return NULL;
	skipped = skipped_at((uintptr_t)block);
	if (skipped != before)
		memmove(block + skipped, block + before, size);
	return begin_after(block, skipped);
}

static void lined_free(void *block)
{
	free((byte *)block - ((byte *)block)[-1]);
}

static void *(*allocate_block)(size_t) = lined_malloc;
static void *(*resize_block)(void *, size_t) = lined_realloc;
static void (*release_block)(void *) = lined_free;
#endif
static volatile bool in_use;                          /* from the first block on the functions stay the same */

static of_i64_i64 answer(void *block)
{
	return of_i64_i64_of(block != NULL, (uint64_t)(uintptr_t)(block != NULL ? block : (void *)&nothing));
}

/* A new block of `size` bytes. For no bytes it is one of `align`: malloc(0) may return null. */
static of_i64_i64 rattle_alloc(uint64_t size, uint64_t align)
{
	IN_USE_STORE();
	if (size > SIZE_MAX / 2)
		return answer(NULL);
	return answer(allocate_block((size_t)(size != 0 ? size : align)));
}

/* The block with another size. Its first `kept` bytes stay, and it may move. Refused, it is as it was. */
static of_i64_i64 rattle_realloc(byte *block, uint64_t kept, uint64_t size, uint64_t align)
{
	const size_t wanted = (size_t)(size != 0 ? size : align);
	void *copy;

	if (size > SIZE_MAX / 2)
		return answer(NULL);
	if (resize_block != NULL)
		return answer(resize_block(block, wanted));
	copy = allocate_block(wanted);
	if (copy != NULL) {
		memcpy(copy, block, (size_t)kept);
		release_block(block);
	}
	return answer(copy);
}

static void rattle_dealloc(byte *block)
{
	release_block(block);
}
