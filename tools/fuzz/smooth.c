/* In which wheels a smooth wheel keeps the pending timers. It depends on all events so far, and not on deadlines alone. */
#include "model.h"

static uint64_t slot_at(int wheel, uint64_t tick)
{
	return tick / unit_of(SMOOTH, wheel);
}

/* Whether a tick is in the next bucket of a wheel: that of the slot after the present one. */
static int is_next(int wheel, uint64_t now, uint64_t tick)
{
	return slot_at(wheel, tick) == slot_at(wheel, now) + 1;
}

/* The first started of the timers in a wheel's next bucket, or NULL. */
static struct timer *front(int wheel, uint64_t now, struct timer *pending, size_t len)
{
	struct timer *first = NULL;
	for (size_t i = 0; i < len; i++)
		if (pending[i].wheel == wheel && is_next(wheel, now, pending[i].deadline) &&
		    (!first || pending[i].serial < first->serial))
			first = &pending[i];
	return first;
}

/* From a wheel down, the first one at which the deadline is not in the next bucket, or that bucket has timers. */
static int descend(int wheel, uint64_t now, uint64_t deadline, struct timer *pending, size_t len)
{
	while (wheel > 0 && is_next(wheel, now, deadline) && !front(wheel, now, pending, len))
		wheel--;
	return wheel;
}

/* Moves so many timers of a wheel's next bucket, or all of them. Returns how many. */
static uint64_t move_some(int wheel, uint64_t most, uint64_t now, struct timer *pending, size_t len)
{
	uint64_t moved = 0;
	for (struct timer *first; moved < most && (first = front(wheel, now, pending, len)); moved++)
		first->wheel = descend(wheel - 1, now, first->deadline, pending, len);
	return moved;
}

int smooth_wheel(uint64_t now, uint64_t deadline, struct timer *pending, size_t len)
{
	return descend(wheel_of(SMOOTH, now, deadline), now, deadline, pending, len);
}

uint64_t smooth_make_way(uint64_t now, const struct timer *timer, struct timer *pending, size_t len)
{
	int wheel = timer->wheel;
	return wheel > 0 && is_next(wheel, now, timer->deadline) ? move_some(wheel, 2, now, pending, len) : 0;
}

uint64_t smooth_tick(uint64_t *paces, uint64_t now, struct timer *pending, size_t len)
{
	uint64_t moves = 0;
	for (int wheel = 1; wheel < WHEELS; wheel++) {
		uint64_t moved = move_some(wheel, paces[wheel], now, pending, len), unit = unit_of(SMOOTH, wheel);
		moves += moved;
		if (moved < paces[wheel])
			paces[wheel] = 0;
		if ((now + 1) % unit == 0)
			paces[wheel] = front(wheel, now + 1, pending, len) ? 2 * (len / unit + 1) : 0;
	}
	return moves;
}

uint64_t smooth_event(const uint64_t *paces, uint64_t now, uint64_t end, const struct timer *pending, size_t len)
{
	for (int wheel = 1; wheel < WHEELS; wheel++)
		if (paces[wheel] > 0)
			return now + 1;
	for (size_t i = 0; i < len; i++) {
		int wheel = pending[i].wheel;
		uint64_t event = (slot_at(wheel, pending[i].deadline) - (wheel > 0)) * unit_of(SMOOTH, wheel);
		end = event < end ? event : end;
	}
	return end;
}
