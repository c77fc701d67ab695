/* The functions of timers.h: NULL where nobody wants an answer, and structs in the byte order of the processor. */

/* The translated code keeps numbers little-endian in memory on each platform. On a big-endian one this turns `n` of 64 bits. */
INLINE void turn(void *numbers, size_t n)
{
#if SWAPS
	byte *p = (byte *)numbers;
	for (; n != 0; n--, p += 8)
		store64u(p, bswap64(load64u(p)));
#else
	(void)numbers;
	(void)n;
#endif
}

#define BYTES(p) ((byte *)(uintptr_t)(p))

/* Hands the `n` numbers of an answer to the caller, unless he wants none. */
INLINE void give(void *to, void *answer, size_t n)
{
	turn(answer, n);
	if (to != NULL)
		memcpy(to, answer, 8 * n);
}

INLINE enum timers_status answered(uint32_t status, void *to, void *answer, size_t n)
{
	if (status == TIMERS_OK)
		give(to, answer, n);
	return (enum timers_status)status;
}

/* An answer that was written where the caller wants it, and is not copied. */
INLINE enum timers_status turned(uint32_t status, void *answer, size_t n)
{
	if (status == TIMERS_OK)
		turn(answer, n);
	return (enum timers_status)status;
}

INLINE bool taken(bool whether, void *to, void *answer, size_t n)
{
	if (whether)
		give(to, answer, n);
	return whether;
}

enum timers_status timers_set_allocator(void *(*allocate)(size_t), void *(*resize)(void *, size_t), void (*release)(void *))
{
	if (IN_USE_LOAD())
		return TIMERS_OPEN;
	allocate_block = allocate;
	resize_block = resize;
	release_block = release;
	return TIMERS_OK;
}

enum timers_status timers_new(struct timers *t, uint32_t table, uint64_t first_tick)
{
	return (enum timers_status)tm_timers_new(BYTES(t), TABLE(table), first_tick);
}

void timers_free(struct timers *t)
{
	if (t != NULL)
		tm_timers_free(BYTES(t));
}

/* Out of line, these four: so a call whose handle is wanted has no memory of its own. */
static NOINLINE enum timers_status start_unwanted(struct timers *t, uint64_t interval, uint64_t action)
{
	struct timers_handle unwanted;

	return (enum timers_status)tm_timers_start(BYTES(t), interval, action, BYTES(&unwanted));
}

static NOINLINE enum timers_status start_at_unwanted(struct timers *t, uint64_t deadline, uint64_t action)
{
	struct timers_handle unwanted;

	return (enum timers_status)tm_timers_start_at(BYTES(t), deadline, action, BYTES(&unwanted));
}

static NOINLINE enum timers_status restart_unwanted(struct timers *t, struct timers_handle handle, uint64_t interval, uint64_t action)
{
	struct timers_handle unwanted;

	return (enum timers_status)tm_timers_restart(BYTES(t), handle.place, handle.serial, interval, action, BYTES(&unwanted));
}

static NOINLINE enum timers_status restart_at_unwanted(struct timers *t, struct timers_handle handle, uint64_t deadline,
                                                      uint64_t action)
{
	struct timers_handle unwanted;

	return (enum timers_status)tm_timers_restart_at(BYTES(t), handle.place, handle.serial, deadline, action, BYTES(&unwanted));
}

enum timers_status timers_start(struct timers *t, uint64_t interval, uint64_t action, struct timers_handle *handle)
{
	if (RARE(handle == NULL))
		return start_unwanted(t, interval, action);
	return turned(tm_timers_start(BYTES(t), interval, action, BYTES(handle)), handle, 2);
}

enum timers_status timers_start_at(struct timers *t, uint64_t deadline, uint64_t action, struct timers_handle *handle)
{
	if (RARE(handle == NULL))
		return start_at_unwanted(t, deadline, action);
	return turned(tm_timers_start_at(BYTES(t), deadline, action, BYTES(handle)), handle, 2);
}

enum timers_status timers_restart(struct timers *t, struct timers_handle handle, uint64_t interval, uint64_t action,
                                  struct timers_handle *restarted)
{
	if (RARE(restarted == NULL))
		return restart_unwanted(t, handle, interval, action);
	return turned(tm_timers_restart(BYTES(t), handle.place, handle.serial, interval, action, BYTES(restarted)), restarted, 2);
}

enum timers_status timers_restart_at(struct timers *t, struct timers_handle handle, uint64_t deadline, uint64_t action,
                                     struct timers_handle *restarted)
{
	if (RARE(restarted == NULL))
		return restart_at_unwanted(t, handle, deadline, action);
	return turned(tm_timers_restart_at(BYTES(t), handle.place, handle.serial, deadline, action, BYTES(restarted)), restarted, 2);
}

/* Its handle is read, too. */
enum timers_status timers_set_at(struct timers *t, struct timers_handle *handle, uint64_t deadline, uint64_t action)
{
	uint32_t status;

	turn(handle, 2);
	status = tm_timers_set_at(BYTES(t), BYTES(handle), deadline, action);
	turn(handle, 2);
	return (enum timers_status)status;
}

enum timers_status timers_look(const struct timers *t, struct timers_handle handle, struct timers_expired *out)
{
	struct timers_expired unwanted;

	if (RARE(out == NULL))
		out = &unwanted;
	return turned(tm_timers_look(BYTES(t), handle.place, handle.serial, BYTES(out)), out, 3);
}

bool timers_each(const struct timers *t, uint64_t *cursor, struct timers_handle *handle, struct timers_expired *out)
{
	struct timers_handle its_handle;
	struct timers_expired timer;
	bool found;

	turn(cursor, 1);
	found = tm_timers_each(BYTES(t), BYTES(cursor), BYTES(&its_handle), BYTES(&timer));
	turn(cursor, 1);
	if (found)
		give(handle, &its_handle, 2);
	return taken(found, out, &timer, 3);
}

/* made by tools/facts: calls that pass numbers on */
void timers_clear(struct timers *t) { tm_timers_clear(BYTES(t)); }
enum timers_status timers_reserve(struct timers *t, size_t most) { return (enum timers_status)tm_timers_reserve(BYTES(t), most); }
enum timers_status timers_stop(struct timers *t, struct timers_handle handle, uint64_t *action)
{
	uint64_t made;
	return answered(tm_timers_stop(BYTES(t), handle.place, handle.serial, BYTES(&made)), action, &made, sizeof made / 8);
}
enum timers_status timers_tick(struct timers *t) { return (enum timers_status)tm_timers_tick(BYTES(t)); }
enum timers_status timers_advance(struct timers *t, uint64_t most, uint64_t *passed)
{
	uint64_t made;
	return answered(tm_timers_advance(BYTES(t), most, BYTES(&made)), passed, &made, sizeof made / 8);
}
enum timers_status timers_advance_to(struct timers *t, uint64_t tick) { return (enum timers_status)tm_timers_advance_to(BYTES(t), tick); }
bool timers_take(struct timers *t, uint64_t tick, struct timers_expired *out)
{
	struct timers_expired made;
	return taken(tm_timers_take(BYTES(t), tick, BYTES(&made)), out, &made, sizeof made / 8);
}
bool timers_expire(struct timers *t, struct timers_expired *out)
{
	struct timers_expired made;
	return taken(tm_timers_expire(BYTES(t), BYTES(&made)), out, &made, sizeof made / 8);
}
bool timers_has_due(const struct timers *t) { return tm_timers_has_due(BYTES(t)); }
uint64_t timers_now(const struct timers *t) { return tm_timers_now(BYTES(t)); }
size_t timers_len(const struct timers *t) { return (size_t)tm_timers_len(BYTES(t)); }
uint64_t timers_wakeup(const struct timers *t) { return tm_timers_wakeup(BYTES(t)); }
enum timers_status timers_counts(const struct timers *t, struct timers_counters *counts)
{
	struct timers_counters made;
	return answered(tm_timers_counts(BYTES(t), BYTES(&made)), counts, &made, sizeof made / 8);
}
uint32_t timers_version(void) { return tm_timers_version(); }

/* by hand */
size_t timers_expire_batch(struct timers *t, struct timers_expired *out, size_t room)
{
	const size_t count = (size_t)tm_timers_expire_batch(BYTES(t), BYTES(out), room);

	turn(out, 3 * count);
	return count;
}
