/* timers_desk_bell.h - bells by which the owner and the clients of a desk wake each other
 *
 * NAME
 *     timers_desk_bell - bells by which the owner and the clients of a desk wake each other
 *
 * SYNOPSIS
 *     #include <timers_desk_bell.h>
 *     cc -pthread prog.c $(pkg-config --cflags --libs timers)
 *
 *     struct timers_bell owners, bells[8];               // timers_bell_new makes each, before the threads begin
 *
 *     for (;;) {                                         // a client; if it begins with requests, it rings once before
 *         for (busy = false; timers_line_receive(&line, &word); busy = true)
 *             handle(&word);                             // which may send requests
 *         if (busy)
 *             timers_bell_ring(&owners);                 // after sending and receiving, never before
 *         timers_bell_rest(&bells[c], busy, -1);
 *     }
 *
 *     for (;;) {                                         // the owner
 *         now = milliseconds();
 *         status = timers_desk_turn(&desk, now, bells, 8);
 *         timers_bell_rest(&owners, status == TIMERS_DESK_OK, timers_desk_patience(&desk, now, status));
 *     }
 *
 * DESCRIPTION
 *     Inline functions in C99 and C++11, for gcc and clang, over eventfd, and where there is none over a pipe. They are
 *     tested and not proved.
 *
 *     A bell belongs to the thread that sleeps on it. Others ring it after they have sent a request, received a word
 *     (since the line has room again), or freed an end. A ring is a system call only if the thread sleeps or is about
 *     to.
 *
 *     No ring is lost if each thread looks for work and then calls timers_bell_rest. That returns at once if there was
 *     work. After several looks without work it announces that the thread is about to sleep, and returns: the thread
 *     looks again. If there is still none, the next call sleeps. The announcement and a ring exchange one flag, so one
 *     of them comes first. If the ring does, the look after the announcement sees what was done before the ring. If the
 *     announcement does, the ring finds it and wakes the thread.
 *
 *     After timers_desk_close the owner takes one more turn before it rests: it flushes the last words. For a timer of
 *     at least n ticks by the real clock call timers_line_start_at(&line, milliseconds() + n + 1, ..). An interval
 *     counts from the owner's turn, and the present tick has begun already.
 *
 *     A thread that sleeps in a poll of its own calls timers_bell_listen, and looks once more for words. If there are
 *     none, it polls the descriptor `bell.wakes` beside others. In either case it then calls timers_bell_hush.
 */
/* SPDX-License-Identifier: MIT OR Apache-2.0 */
#ifndef TIMERS_DESK_BELL_H
#define TIMERS_DESK_BELL_H

#include <fcntl.h>
#include <limits.h>
#include <poll.h>
#include <sched.h>
#include <unistd.h>
#include "timers_desk.h"
#if defined(__linux__) && !defined(TIMERS_BELL_PIPE)
#include <sys/eventfd.h>
#endif

#ifdef __cplusplus
#ifdef __GNUC__
#pragma GCC diagnostic push
#pragma GCC diagnostic ignored "-Wold-style-cast"
#endif
extern "C" {
#endif

/* `wakes` may be polled. The rest is private. */
struct timers_bell {
	int wakes;      /* a descriptor that is readable once the bell was rung */
	int rung;       /* the one to write to: the same, or the other end of a pipe */
	int listens;    /* 1 while the thread sleeps or is about to, until a ring: all threads exchange it */
	int looks;      /* the thread's own: how many in a row were without work */
};
#define TIMERS_BELL_INIT { -1, -1, 0, 0 }

/* How often a thread looks before it announces a sleep. With two, busy threads rarely sleep, and so are rarely woken. */
#ifndef TIMERS_BELL_LOOKS
#define TIMERS_BELL_LOOKS 2
#endif

/* Makes a bell. Returns false, with errno, if the process may have no more descriptors. */
static inline bool timers_bell_new(struct timers_bell *bell)
{
	bell->listens = 0;
	bell->looks = 0;
#if defined(__linux__) && !defined(TIMERS_BELL_PIPE)
	bell->wakes = bell->rung = eventfd(0, EFD_NONBLOCK | EFD_CLOEXEC);
	return bell->wakes >= 0;
#else
	{
		int ends[2], i;

		if (pipe(ends) != 0)
			return false;
		for (i = 0; i < 2; i++) {
			fcntl(ends[i], F_SETFL, O_NONBLOCK);
			fcntl(ends[i], F_SETFD, FD_CLOEXEC);
		}
		bell->wakes = ends[0];
		bell->rung = ends[1];
		return true;
	}
#endif
}

/* Frees a bell that no other thread rings any more. */
static inline void timers_bell_free(struct timers_bell *bell)
{
	close(bell->wakes);
	if (bell->rung != bell->wakes)
		close(bell->rung);
}

/* Wakes the thread of this bell, if it sleeps or is about to. Any thread may call it. */
static inline void timers_bell_ring(struct timers_bell *bell)
{
	const uint64_t once = 1;

	/* A descriptor that can't be written to is readable already. */
	if (__atomic_exchange_n(&bell->listens, 0, __ATOMIC_SEQ_CST) != 0 && write(bell->rung, &once, sizeof once) < 0)
		return;
}

/* Announces that the thread of this bell is about to sleep. It has to look for work once more before it does. */
static inline void timers_bell_listen(struct timers_bell *bell)
{
	__atomic_exchange_n(&bell->listens, 1, __ATOMIC_SEQ_CST);
}

/* The thread is awake again: rings cost no system call until it listens. */
static inline void timers_bell_hush(struct timers_bell *bell)
{
	uint64_t rings;

	/* If a ring came, it has been written or will be, and then ends the next sleep early. */
	if (__atomic_exchange_n(&bell->listens, 0, __ATOMIC_SEQ_CST) == 0 && read(bell->wakes, &rings, sizeof rings) < 0)
		return;
}

/* Called by the thread of this bell after each look for work. `busy`: there was some. The first TIMERS_BELL_LOOKS calls
 * in a row without any let other threads run. The next one announces a sleep. The one after that sleeps until the bell
 * rings, but at most so many milliseconds; -1 is without end. */
static inline void timers_bell_rest(struct timers_bell *bell, bool busy, int milliseconds)
{
	struct pollfd wait;

	if (!busy && bell->looks < TIMERS_BELL_LOOKS) {
		bell->looks++;
		sched_yield();
		return;
	}
	if (!busy && bell->looks == TIMERS_BELL_LOOKS) {
		bell->looks++;
		timers_bell_listen(bell);
		return;
	}
	if (!busy) {
		wait.fd = bell->wakes;
		wait.events = POLLIN;
		poll(&wait, 1, milliseconds);
	}
	if (bell->looks > TIMERS_BELL_LOOKS)
		timers_bell_hush(bell);
	bell->looks = 0;
}

/* A turn of a desk's owner. Passes the ticks up to `now`, serves the clients, flushes each, and rings bells[c] of each
 * client c that got a word. `clients` is the number of clients, and of bells. Ticks come first, since an interval
 * counts from the tick at which its request is taken.
 * TIMERS_DESK_OK: a request was taken or a word was moved, so there may be more to do.
 * TIMERS_DESK_IDLE, TIMERS_DESK_NO_MEMORY, TIMERS_DESK_NOT_OPEN: as timers_desk_serve_all. */
static inline enum timers_desk_status timers_desk_turn(struct timers_desk *d, uint64_t now, struct timers_bell *bells,
                                                       size_t clients)
{
	enum timers_desk_status status;
	uint64_t passed;
	size_t c;

	while (timers_desk_now(d) < now && timers_desk_advance(d, now - timers_desk_now(d), &passed) == TIMERS_DESK_OK)
		continue;
	status = timers_desk_serve_all(d, 64);
	for (c = 0; c < clients; c++)
		if (timers_desk_flush(d, c) > 0) {
			timers_bell_ring(&bells[c]);
			status = TIMERS_DESK_OK;
		}
	return status;
}

/* Returns how many ticks the owner may sleep after such a turn. If a tick is a millisecond, this is for
 * timers_bell_rest. 0 if something is due, -1 if nothing is pending. At most 10 after TIMERS_DESK_NO_MEMORY, for which
 * no bell rings. */
static inline int timers_desk_patience(const struct timers_desk *d, uint64_t now, enum timers_desk_status status)
{
	const uint64_t wakeup = timers_desk_wakeup(d), longest = status == TIMERS_DESK_NO_MEMORY ? 10 : INT_MAX;

	if (wakeup == TIMERS_NEVER && status != TIMERS_DESK_NO_MEMORY)
		return -1;
	return wakeup <= now ? 0 : (int)(wakeup - now < longest ? wakeup - now : longest);
}

#ifdef __cplusplus
}
#ifdef __GNUC__
#pragma GCC diagnostic pop
#endif
#endif
#endif
