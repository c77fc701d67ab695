/* timers_loop.h - timers for an event loop with a real clock, over timers.h
 *
 * NAME
 *     timers_loop - events of a loop with a real clock: callbacks, periods, poll's time-out
 *
 * SYNOPSIS
 *     #define _POSIX_C_SOURCE 200809L                                   // or -std=gnu11
 *     #include <timers_loop.h>
 *
 *     struct connection { int socket; struct timers_event idle; } *c;   // begins as zeros
 *     struct timers_loop loop = TIMERS_LOOP_INIT;
 *     if (timers_loop_new(&loop, NULL, NULL, 1000000) != TIMERS_OK)     // CLOCK_MONOTONIC, in milliseconds
 *         return 1;
 *     c->idle.run = hang_up;
 *     if (timers_event_after(&loop, &c->idle, 60000) != TIMERS_OK)      // in a minute
 *         return 1;
 *     for (;;) {                               // or while loop.alive > 0
 *         ready = epoll_wait(poller, events, 64, timers_loop_timeout(&loop));
 *         timers_loop_polled(&loop, ready, 64);
 *         for (i = 0; i < ready; i++)
 *             serve(events[i].data.ptr);       // calls timers_event_push_back(&loop, &c->idle, 60000)
 *         timers_loop_dispatch(&loop, 1000);   // calls hang_up(&loop, &c->idle, tick)
 *     }
 *
 * DESCRIPTION
 *     Inline functions in C99 and C++11. They are tested against a model, and not proved. They call timers.h, which is
 *     proved, and its rules apply. So link with -ltimers. One thread uses a loop and its events; several threads have a
 *     loop each.
 *
 *     An event is part of a struct of the caller: timers_event_owner(event, type, field) is that struct. An event is
 *     armed from a timers_event_at or timers_event_after that returned TIMERS_OK until it runs, is paused or is
 *     cancelled. One that is armed or paused must not be moved, freed or set to 0: cancel it first. That also holds
 *     after timers_loop_free, and before an event goes to another loop. In C++ cancel it in your destructor.
 *
 *     An event that runs once is no longer armed in its callback, which may free it. A periodic one is: cancel it
 *     first. Callbacks may arm, push back and pause any event, their own too, and cancel and then free it. They may
 *     free the loop, but not the memory of its struct. They may poll the same descriptors and dispatch, as a loop
 *     within the loop. An event is taken before it runs, so none runs twice, unless it is armed again. What the inner
 *     dispatch leaves, the outer one runs.
 *
 * TIME
 *     No event runs early. One that is armed or pushed back for n ticks from now is due after n ticks or more, and less
 *     than n + 1. A loop that sleeps in poll rounds its sleep up to a whole millisecond. The clock may jump and stand
 *     still. One that goes back counts as one that stands still, until it has passed its old time.
 *
 *     The next tick of a periodic event is a period after the one at which it was due, so it has no drift. If the loop
 *     is late, the event runs once, for the first tick missed, and leaves out the others. If `catches_up` is set, it
 *     runs once for each, in order with other events. It is armed anew before it runs, so that it may cancel itself.
 *     One whose callback takes longer than its period runs once in each turn of the loop, and input is polled in
 *     between.
 *
 *     An event with slack runs at a tick up to `slack` later than was asked for. It joins others at the multiple of
 *     the highest power of two within its slack. So with a slack of 63 or more all run at multiples of 64.
 *
 * ORDER
 *     Events run in the order of their ticks, in a late loop too. Events of one tick run in the order in which they
 *     were armed, and one that is armed again for its tick takes a new place. An event for a tick that has passed at the
 *     last look comes after those that are due already: at once, in the same turn. If `catches_up` is set, the order of
 *     ticks holds there too.
 *
 *     One that is armed for a tick after that of its timer, while it is armed or paused, keeps its timer. It is filed
 *     anew when that comes, and maybe again, which sets its place in the order. If the call has to set the place,
 *     cancel the event first.
 *
 * STALLS
 *     A loop that was late, since the program was stopped or busy, has to handle input before it acts on time-outs.
 *     So a dispatch runs what was due when the loop began to poll. If the poll filled its array, it runs nothing
 *     more, since more input may wait. What a callback or input arms for a tick that has passed, also since the poll
 *     began, runs all the same, after what an earlier dispatch had to leave. When any other runs, all input that had
 *     come by its tick was handed out. For that read a datagram socket until it is empty, and send to it only
 *     afterwards. If you stop after n messages, call timers_loop_polled(loop, n, n), with `loop.watched` the most
 *     messages that its buffer holds. So where input pushes a time-out back, no connection is closed while its input
 *     waits, however long the stall. Answer first, and push back afterwards: a client's silence begins when the
 *     answer is sent.
 *
 *     This costs one more poll when a timer wakes the loop. A second look at the clock would spare it, but miss input
 *     that comes in a stall between the two.
 *
 * COSTS
 *     Arming is timers_start_at, and cancelling timers_stop. Arming an event for a later tick while it is armed or
 *     paused is a store, in the event itself. So it saves the line of memory that a call of timers.h would touch. A
 *     time-out that is pushed back a thousand times is filed anew once, when its first tick comes, and then at the
 *     ticks at which the wheel moves timers: at most once for each wheel. So the loop may wake up for nothing.
 *     timers_event_after and timers_event_push_back look at the clock. A program that can't pay for that gives
 *     timers_event_at `loop.later` plus the ticks, which count from the last look. Then a stall between that look and
 *     the call makes the event early by as much.
 *
 *     If NDEBUG is not defined, a dispatch asserts that the timer is the event's. So a program ends that has freed an
 *     armed event, and used its memory again.
 *
 *     Of the calls on events only arming allocates, if the event is neither armed nor paused, unless
 *     timers_reserve(&loop.timers, most) made room. An event has 56 bytes where pointers have 64 bits, besides those of
 *     its timer.
 *
 *     A dispatch takes at most as many timers as it is told. But nothing limits how many move to a lower wheel: see
 *     COSTS in timers.h.
 */
/* SPDX-License-Identifier: MIT OR Apache-2.0 */
#ifndef TIMERS_LOOP_H
#define TIMERS_LOOP_H

#include <assert.h>
#include <limits.h>
#include <time.h>
#include "timers.h"
#if !defined(CLOCK_MONOTONIC) && !defined(TIMERS_LOOP_OWN_CLOCK)
#error "define _POSIX_C_SOURCE as 199309L or more, or TIMERS_LOOP_OWN_CLOCK if each loop is given a clock"
#endif

#if defined(__GNUC__) || defined(__clang__)
#define TIMERS_CHECKED __attribute__((warn_unused_result))
#define TIMERS_APART __attribute__((noinline, unused))
#else
#define TIMERS_CHECKED
#define TIMERS_APART
#endif

#ifdef __cplusplus
#ifdef __GNUC__
#pragma GCC diagnostic push
#pragma GCC diagnostic ignored "-Wold-style-cast"
#endif
extern "C" {
#endif

/* `timers` is for timers_reserve and calls that only read. `alive`, `now` and `later` may be read, and `watched` set
 * after the loop is made. The rest is private. */
struct timers_loop {
	struct timers timers;
	size_t alive;          /* how many events are armed and not in the background */
	uint64_t now, later;   /* the last look at the clock, in ticks: rounded down, and up */
	size_t watched;        /* the most descriptors that are watched: see timers_loop_polled */
	uint64_t due;          /* a dispatch runs what is due by this tick */
	uint64_t seen;         /* the look before the last poll */
	bool full;             /* the last poll filled its array */
	uint64_t since;        /* the look before the first in a row of such polls */
	size_t handed;         /* how many descriptors they handed out */
	uint64_t time, begun;  /* the last look, and when its tick began, in nanoseconds */
	uint64_t length;       /* of a tick */
	uint64_t (*clock)(void *data);
	void *data;
};
#define TIMERS_LOOP_INIT { TIMERS_INIT, 0, 0, 0, 0, 0, 0, false, 0, 0, 0, 0, 0, NULL, NULL }

/* Begins with all its bytes 0. The caller sets the first five, `background` only while it is not armed. `slack` is read
 * when it is armed, and `run`, `period` and `catches_up` when it runs. `want` may be read while it is armed. */
struct timers_event {
	void (*run)(struct timers_loop *loop, struct timers_event *event, uint64_t tick);   /* or NULL */
	uint64_t period;              /* in ticks; 0 for an event that runs once */
	uint32_t slack;               /* how many ticks later it may run */
	bool catches_up;              /* a period runs for each tick that was missed */
	bool background;              /* it keeps no loop alive */
	uint64_t want;                /* the tick for which it is armed; TIMERS_NEVER while it is paused */
	uint64_t filed;               /* the tick of its timer, at most want + slack; it runs there unless `want` is later */
	struct timers_handle handle;  /* of its timer; the serial is 0 if there is none */
};

/* The struct in which the event is a field. g++ and clang++ warn if a class has no standard layout. Then put the event
 * and a pointer to the object in a struct of their own. */
#ifdef __cplusplus
#define timers_event_owner(event, type, field) \
	reinterpret_cast<type *>(reinterpret_cast<char *>(event) - offsetof(type, field))
#else
#define timers_event_owner(event, type, field) ((type *)(void *)((char *)(event) - offsetof(type, field)))
#endif

/* A function is private if its name begins a line below. */

/* Reads the clock. Most reads are in the same tick as the one before, and need no division. */
static inline void
timers_loop_look(struct timers_loop *loop)
{
	const uint64_t time = loop->clock(loop->data);

	if (time <= loop->time)
		return;
	loop->time = time;
	if (time - loop->begun >= loop->length) {
		loop->now = time / loop->length;
		loop->begun = loop->now * loop->length;
	}
	loop->later = loop->now + (time > loop->begun);
}

/* The multiple of the highest power of two from `tick` to `slack` ticks later: bits are cleared from the lowest on. */
static inline uint64_t
timers_event_joined(uint64_t tick, uint64_t slack)
{
	uint64_t last = slack < TIMERS_LAST - tick ? tick + slack : TIMERS_LAST;

	while (last > tick && (last & (last - 1)) >= tick)
		last &= last - 1;
	return last;
}

/* Starts the event's timer, or restarts it. */
TIMERS_CHECKED
static inline enum timers_status
timers_event_file(struct timers_loop *loop, struct timers_event *event, uint64_t at)
{
	const uint64_t action = (uint64_t)(uintptr_t)event;
	const enum timers_status status = event->handle.serial == 0
		? timers_start_at(&loop->timers, at, action, &event->handle)
		: timers_restart_at(&loop->timers, event->handle, at, action, &event->handle);

	if (status == TIMERS_OK)
		event->filed = at;
	return status;
}

/* The tick up to which the next dispatch runs what is due. */
static inline uint64_t
timers_loop_reach(const struct timers_loop *loop)
{
	return loop->full ? loop->due : loop->seen;
}

/* The tick at which a wheel of 64 slots comes to the bucket of this tick: its lower digits are 0. */
static inline uint64_t
timers_loop_visit(const struct timers_loop *loop, uint64_t tick)
{
	const uint64_t now = timers_now(&loop->timers);
	uint64_t lower = 0;

	if (tick <= now)
		return tick;
	while ((tick ^ now) >> 6 > lower)
		lower = lower << 6 | 63;
	return tick & ~lower;
}

/* Whether the event is armed, and not paused. */
static inline bool timers_event_armed(const struct timers_event *event)
{
	return event->handle.serial != 0 && event->want != TIMERS_NEVER;
}

/* The slow path of timers_event_at, if a store isn't enough. It is not inlined, so that callers stay short. */
TIMERS_CHECKED TIMERS_APART
static enum timers_status
timers_event_arm(struct timers_loop *loop, struct timers_event *event, uint64_t tick)
{
	const bool armed = timers_event_armed(event), passed = tick <= loop->now;

	if (tick > TIMERS_LAST)
		return TIMERS_TOO_LATE;
	if (event->handle.serial == 0 || tick + event->slack <= event->filed || passed) {
		const uint64_t at = passed ? timers_loop_reach(loop) : timers_event_joined(tick, event->slack);
		const enum timers_status status = timers_event_file(loop, event, at);

		if (status != TIMERS_OK)
			return status;
		if (passed)
			event->filed = tick;   /* its timer may be for an earlier tick */
	}
	event->want = tick;
	loop->alive += !armed && !event->background;
	return TIMERS_OK;
}

/* Files anew an event whose timer was taken. That allocates nothing, and fails only after 2^60 starts, or at the last
 * tick of the clock. One that was pushed back gets a timer for the tick at which the wheel would move it anyway: until then
 * each further push back is a store, and few timers come out in vain. */
static inline void
timers_event_again(struct timers_loop *loop, struct timers_event *event, uint64_t tick, bool pushed_back)
{
	if (tick <= TIMERS_LAST) {
		const uint64_t at = timers_event_joined(tick, event->slack);

		if (timers_event_file(loop, event, pushed_back ? timers_loop_visit(loop, at) : at) == TIMERS_OK) {
			event->want = tick;
			return;
		}
	}
	loop->alive -= !event->background;
}

/* The tick at which a periodic event is due after the one at which it was. It looks at the clock, since the callbacks
 * before it may have taken longer than its period. */
static inline uint64_t
timers_event_next(struct timers_loop *loop, const struct timers_event *event)
{
	uint64_t tick = event->want + event->period;

	if (event->period == 0 || event->period > TIMERS_LAST)
		return TIMERS_NEVER;
	timers_loop_look(loop);
	if (tick <= loop->now && !event->catches_up)
		tick += ((loop->now - tick) / event->period + 1) * event->period;
	return tick;
}

/* The tick that is so many ticks from now, rounded up. */
static inline uint64_t
timers_loop_later(const struct timers_loop *loop, uint64_t ticks)
{
	return ticks > TIMERS_LAST || loop->later > TIMERS_LAST ? TIMERS_NEVER : loop->later + ticks;
}

#ifdef CLOCK_MONOTONIC
/* CLOCK_MONOTONIC in nanoseconds: the clock of a loop that is given none. */
static inline uint64_t timers_loop_monotonic(void *unused)
{
	struct timespec now = { 0, 0 };

	(void)unused;
	clock_gettime(CLOCK_MONOTONIC, &now);
	return (uint64_t)now.tv_sec * 1000000000 + (uint64_t)now.tv_nsec;
}
#endif

/* Makes a loop with ticks of `length` nanoseconds, 1 or more. `clock(data)` returns nanoseconds from some start. NULL
 * stands for CLOCK_MONOTONIC, where there is one. `loop` begins as TIMERS_LOOP_INIT or as zeros. Before this has
 * returned TIMERS_OK only timers_loop_free may be called.
 * TIMERS_ZERO_INTERVAL (the length is 0), TIMERS_OPEN, TIMERS_TOO_LATE, TIMERS_NO_MEMORY. */
TIMERS_CHECKED
static inline enum timers_status timers_loop_new(struct timers_loop *loop, uint64_t (*clock)(void *data), void *data,
                                                 uint64_t length)
{
	struct timers_loop made = TIMERS_LOOP_INIT;
	enum timers_status status;

	if (length == 0)
		return TIMERS_ZERO_INTERVAL;
#ifdef CLOCK_MONOTONIC
	if (clock == NULL)
		clock = timers_loop_monotonic;
#endif
	made.clock = clock;
	made.data = data;
	made.length = length;
	made.watched = 65536;
	timers_loop_look(&made);
	status = timers_new(&loop->timers, TIMERS_WIDE, made.now);
	if (status == TIMERS_OK) {
		made.timers = loop->timers;
		*loop = made;
	}
	return status;
}

/* Frees the loop. Its events are not written: cancel the armed ones before they are used again. Does nothing if
 * the loop is not open. */
static inline void timers_loop_free(struct timers_loop *loop)
{
	timers_free(&loop->timers);
	loop->alive = 0;
}

/* Arms the event for a tick, whatever it was armed for. If the tick has passed (`now`), it is due at once.
 * TIMERS_TOO_LATE (also if the clock is at its last tick), TIMERS_NOT_OPEN, TIMERS_SERIALS_SPENT, TIMERS_NO_MEMORY: then it
 * is as it was. */
TIMERS_CHECKED
static inline enum timers_status timers_event_at(struct timers_loop *loop, struct timers_event *event, uint64_t tick)
{
	if (!timers_event_armed(event) || tick > TIMERS_LAST || tick + event->slack <= event->filed || tick <= loop->now)
		return timers_event_arm(loop, event, tick);
	event->want = tick;
	return TIMERS_OK;
}

/* Arms the event as timers_event_at, for at least `ticks` from now. */
TIMERS_CHECKED
static inline enum timers_status timers_event_after(struct timers_loop *loop, struct timers_event *event,
                                                    uint64_t ticks)
{
	timers_loop_look(loop);
	return timers_event_at(loop, event, timers_loop_later(loop, ticks));
}

/* Moves an event that is armed to at least `ticks` from now. Returns false and changes nothing if it is not armed, or if
 * that is after the last tick. Does not allocate. */
static inline bool timers_event_push_back(struct timers_loop *loop, struct timers_event *event, uint64_t ticks)
{
	return timers_event_armed(event) && timers_event_after(loop, event, ticks) == TIMERS_OK;
}

/* Disarms the event, and keeps its timer for the next time that it is armed: each is a store. So this is for a time-out
 * that stops and starts with each packet. How many ticks were left isn't kept. */
static inline void timers_event_pause(struct timers_loop *loop, struct timers_event *event)
{
	loop->alive -= timers_event_armed(event) && !event->background;
	event->want = TIMERS_NEVER;
}

/* Disarms the event. No call uses it afterwards, so it may be freed. Does nothing if it is neither armed nor paused. */
static inline void timers_event_cancel(struct timers_loop *loop, struct timers_event *event)
{
	const bool counts = timers_event_armed(event) && !event->background;

	if (event->handle.serial != 0 && timers_stop(&loop->timers, event->handle, NULL) == TIMERS_OK)
		loop->alive -= counts;   /* a loop that was freed in between has set it to 0 */
	event->handle.serial = 0;
}

/* Looks at the clock, and returns its tick: the next dispatch runs what is due by then. For a loop without input. */
static inline uint64_t timers_loop_tick(struct timers_loop *loop)
{
	timers_loop_look(loop);
	loop->full = false;
	return loop->seen = loop->now;
}

/* Looks at the clock, and returns the time in nanoseconds until which the loop may sleep: for a timerfd or kqueue.
 * Returns TIMERS_NEVER if nothing is armed or paused, or if that is after 2^64 nanoseconds. */
static inline uint64_t timers_loop_deadline(struct timers_loop *loop)
{
	const uint64_t tick = timers_wakeup(&loop->timers);

	timers_loop_tick(loop);
	return tick > TIMERS_NEVER / loop->length ? TIMERS_NEVER : tick * loop->length;
}

/* Does the same for poll or epoll_wait: milliseconds from now, rounded up. 0 if something is due, -1 for TIMERS_NEVER. */
static inline int timers_loop_timeout(struct timers_loop *loop)
{
	const uint64_t deadline = timers_loop_deadline(loop);
	const uint64_t left = deadline > loop->time ? (deadline - loop->time - 1) / 1000000 + 1 : 0;

	return deadline == TIMERS_NEVER ? -1 : left < INT_MAX ? (int)left : INT_MAX;
}

/* Call it between the poll and the dispatch, with what epoll_wait or kevent returned and the size of the array. If the
 * array is full, or the poll failed (EINTR), more input may wait. Then the next dispatch runs only what an earlier one
 * had to leave, and what was armed for a tick that has passed. Polls that fill their arrays again and again don't hold
 * events up for ever. What was due before the first of them runs once they have handed out `loop.watched` descriptors,
 * since ready ones take turns. That is 65,536, unless the caller sets it to the most that are watched, a listener among
 * them. If each poll fails, none is handed out: end the loop then. With poll leave this call out, since poll hands out
 * all that is ready, and repeat a failed poll before the dispatch. */
static inline void timers_loop_polled(struct timers_loop *loop, int ready, int room)
{
	loop->full = ready < 0 || ready >= room;
	if (!loop->full)
		return;
	if (loop->handed == 0)
		loop->since = loop->seen;
	loop->handed += ready < 0 ? 0 : (size_t)ready;
	if (loop->handed >= loop->watched) {
		loop->due = loop->since;
		loop->handed = 0;
	}
}

/* Takes the next event that is due, and writes `*tick`, the tick for which it was armed. Does not call its `run`. Takes
 * at most `*most` timers, and subtracts them from it; those of events that were pushed back or paused count, too.
 * Returns NULL if none is left, or `*most` is 0. */
static inline struct timers_event *timers_loop_take(struct timers_loop *loop, size_t *most, uint64_t *tick)
{
	struct timers_expired expired;

	if (!loop->full) {
		loop->due = loop->seen;
		loop->handed = 0;
	}
	while (*most > 0 && timers_take(&loop->timers, loop->due, &expired)) {
		struct timers_event *const event = (struct timers_event *)(uintptr_t)expired.action;

		--*most;
		assert(event->handle.serial == expired.serial && "an armed event was freed, moved or set to 0");
		event->handle.serial = 0;
		if (event->want <= event->filed) {
			*tick = event->want;
			timers_event_again(loop, event, timers_event_next(loop, event), false);
			return event;
		}
		if (event->want != TIMERS_NEVER)
			timers_event_again(loop, event, event->want, true);
	}
	return NULL;
}

/* Takes events as timers_loop_take, and calls their `run`. Events that `most` leaves come first in the next call, and
 * until then timers_loop_timeout returns 0. Returns how many events it took. An event that arms itself for a tick that
 * has passed is taken again, behind the others. */
static inline size_t timers_loop_dispatch(struct timers_loop *loop, size_t most)
{
	struct timers_event *event;
	uint64_t tick = 0;
	size_t taken = 0;

	while ((event = timers_loop_take(loop, &most, &tick)) != NULL) {
		taken++;
		if (event->run != NULL)
			event->run(loop, event, tick);
	}
	return taken;
}

#ifdef __cplusplus
}
#ifdef __GNUC__
#pragma GCC diagnostic pop
#endif
#endif
#undef TIMERS_CHECKED
#undef TIMERS_APART
#endif
