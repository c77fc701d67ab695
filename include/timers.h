/* timers.h - timers for an event loop, over hierarchical timing wheels
 *
 * NAME
 *     timers_new, timers_free - make and free timers
 *     timers_reserve - make room for timers
 *     timers_start, timers_stop - START_TIMER and STOP_TIMER of the paper by Varghese and Lauck
 *     timers_restart - stop a timer and start another in its place
 *     timers_start_at, timers_restart_at - start and restart for a tick in place of an interval
 *     timers_set_at - start a timer, or restart the one that a handle names
 *     timers_tick, timers_advance, timers_advance_to - pass ticks (PER_TICK_BOOKKEEPING)
 *     timers_expire, timers_expire_batch - take expired timers (EXPIRY_PROCESSING)
 *     timers_take - take the next timer that is due by a tick, and pass the ticks up to it
 *     timers_clear - drop all timers
 *     timers_look, timers_each - read one timer, iterate over all of them
 *     timers_now, timers_len, timers_has_due, timers_wakeup - read the state
 *     timers_counts - read what the wheels have done so far
 *     timers_message, timers_version - return the text of a status, and the version of the library
 *     timers_set_allocator - take memory from functions other than malloc, realloc and free
 *
 * SYNOPSIS
 *     #include <timers.h>
 *     cc prog.c $(pkg-config --cflags --libs timers)
 *
 * DESCRIPTION
 *     A `struct timers` owns timers and a clock of ticks. It is open from a timers_new that returned
 *     TIMERS_OK to timers_free. The length of a tick is the caller's choice: a millisecond, a frame, a
 *     retransmission unit. A timer is started for an interval in ticks, or for a tick, with a value: its action.
 *     Only timers_tick, timers_advance, timers_advance_to and timers_take advance the clock. A timer whose deadline
 *     is the present tick has expired: it is no longer pending, and waits to be taken by timers_expire,
 *     timers_expire_batch or timers_take. Timers expire in the order of their deadlines, and with one deadline in
 *     the order of their starts.
 *
 *     While expired timers wait, others may be started, restarted and stopped, for instance by the handler of the
 *     first. Only the clock can't advance until all of them are taken (TIMERS_DUE). An expired timer that was not
 *     yet taken can be stopped and restarted too. After a timers_stop that returned TIMERS_OK, no call hands the
 *     timer out. So if the handler of one timer frees what the action of another points to, it stops the other,
 *     whether that has expired or not. A timer that timers_expire_batch has written to an array is taken, and can't
 *     be stopped any more. If the handler of one can free what another of the array points to, take them one at a
 *     time.
 *
 *     An interval counts from the present tick, the one up to which the clock was advanced last. While the
 *     clock is behind the real time, as it is while input is handled, a timer expires that much too early.
 *     So advance the clock first, or give timers_start_at a tick. A caller that rounds the real time down to a tick
 *     starts a timer somewhere within that tick. So an interval of n ticks lasts more than n - 1 and at most n: add
 *     1 if it must last no less than n.
 *
 *     The tick of timers_start_at, timers_restart_at or timers_set_at may have passed. Then the timer is due
 *     at once: it has expired, with the present tick as its deadline. The same holds for the present tick.
 *     The timer is taken after those that expired before it. So a late caller can add its period to the old
 *     deadline until it has caught up. If each handler starts a timer that is due at once, a loop that takes what
 *     expires until nothing is left never ends.
 *
 *     An interval of 0 is refused (TIMERS_ZERO_INTERVAL). An interval ends at a later tick, and 0 is usually
 *     a calculation error. For work that is due at once give timers_start_at the present tick.
 *
 *     The clock never goes back. A real time that does, and so is before timers_now, is no error for
 *     timers_advance_to and timers_take: they pass no tick then.
 *
 *     The clock of TIMERS_WIDE has ticks for 36 million years of milliseconds. That of another table may end soon
 *     (TIMERS_LAST_OF). Before that, free the timers, make them again at tick 0 and start what is left.
 *
 *     The functions were proved, and then translated into C. Each meets the contract that the sources state for it
 *     (crates/timer_c/src/exports.rt), for every call that keeps the rules below. Nothing checks that a caller keeps
 *     them. The compiler of the sources is trusted. A checker, which is trusted too, shows of each translated
 *     function that on x86-64 it does what that compiler wrote. Tests alone cover the C around them, which allocates,
 *     accepts NULL for results that nobody wants, and has timers_set_allocator and timers_message.
 *
 * COSTS
 *     The timers are in arrays, and each is in the bucket of a wheel. A bucket of the lowest wheel has one tick. One of
 *     the next wheel has a revolution: as many ticks as the lowest wheel has slots, 64 with TIMERS_WIDE. And so on. What
 *     each call takes time for, without the prefix timers_:
 *
 *         start, start_at         constant; if the arrays are full, moves them
 *         restart, restart_at     constant
 *         set_at                  as restart_at if the handle names a timer, else as start_at
 *         stop, look, expire      constant
 *         expire_batch            each timer that it takes
 *         tick                    each timer of the buckets that it empties
 *         advance, advance_to     each bucket with timers on the way, and each timer in it
 *         take                    as advance_to
 *         clear                   each timer that is held, and the buckets
 *         wakeup, has_due, now    constant
 *         counts, message         constant
 *         version, set_allocator  constant
 *         len                     each expired timer that waits
 *         each                    each place up to the next timer
 *         reserve                 the most timers that were held at once
 *         new, free               constant: the buckets, at most four blocks of memory
 *
 *     A bucket is emptied at its first tick. Its timers expire, or move to another bucket, mostly of a lower wheel. A
 *     restart for a tick that is not before the old one pushes the timer back in place: it stays in its bucket, and no
 *     other timer is touched. As the bucket is emptied, it moves to where one that is started then would be. So a timer
 *     moves at most once in each wheel after each start or restart.
 *
 *     The timers of one tick are put in the order of their starts if they are not. So a tick with k of them may take
 *     k log k steps: with a million that were pushed back in random order some 1.4 s, with 100,000 some 70 ms (measured).
 *     The costs of TIMERS_SMOOTH, which does none of this, are below, under WHICH TABLE.
 *
 * WHICH TABLE
 *         table          is for
 *         TIMERS_WIDE    all but the cases below
 *         TIMERS_SMOOTH  a loop that must not pause, with some 100,000 timers or more: no
 *                        tick moves all timers of a bucket
 *         TIMERS_SMALL   machines with little memory
 *
 *     The clock of TIMERS_SMALL is short, and a timer moves six times at most. Above the lowest wheel its calls look
 *     at one digit after another, so some take a little longer. TIMERS_SMOOTH is for a loop that passes a tick or a
 *     few at a time.
 *
 *     With TIMERS_WIDE a tick at a multiple of 64 moves all timers of its bucket. That may be all of a million timers.
 *     It then takes some 10 ms, and some 140 ms if they lie in random order in memory. With TIMERS_SMOOTH they move
 *     earlier, a few at each tick. Let n be the most timers that were held at one time since timers_new or
 *     timers_clear. Then
 *
 *         a tick moves            at most 2n/63 + 18 timers: about one in 32
 *         advance, take           at most that for each tick that they pass, and no more than 9 for each timer
 *         start, restart, set_at  at most two timers
 *
 *     In all there are at most 9 moves for each start and restart, and the order of expiry is the same. A restart moves
 *     the timer at once. This is proved of the wheel (crates/timer_wheels/src/smooth.rt), and tested of this library.
 *     Only the 9 moves are in a contract here, of timers_counts.
 *
 *     A loop that sleeps until timers_wakeup and then passes thousands of ticks at once makes the moves of all these
 *     ticks in one call. It gains nothing. One that wakes at each tick, or at each 16th, does.
 *
 *     The calls of TIMERS_SMOOTH take more instructions than those of TIMERS_WIDE: with 10,000 timers a start 1.4 times
 *     as many, a restart 1.4, a stop 1.2, a take 2.2, and a tick at which nothing expires or moves 1.1 times
 *     (measured). timers_wakeup looks at one wheel after another, until none above can have an earlier tick.
 *
 *     If timers.c was compiled with TIMERS_NO_SMOOTH, it has no TIMERS_SMOOTH: timers_new returns TIMERS_NO_TABLE.
 *
 * PROOFS
 *     Of these costs two are proved. No start returns TIMERS_NO_MEMORY while fewer timers are held than
 *     timers_reserve made room for. And for each start and restart there is at most one move for each wheel (of
 *     TIMERS_SMOOTH, for each above the lowest). The other costs are in no contract: they follow from the code. Tests
 *     count the allocations and moves of each call, and what it runs with a hundred timers and with 100,000, over
 *     each table.
 *
 * MEMORY
 *     Only timers_new, timers_reserve, timers_start and timers_start_at allocate, and timers_set_at if no
 *     timer has the handle. A start does so only if more timers are held than ever before, and more than
 *     timers_reserve made room for. One that re-arms a timer which was just taken does not.
 *
 *     timers_new allocates the buckets, and the first start some KB more, unless timers_reserve made room: enum
 *     timers_table has both numbers. A timer takes 40 bytes, in two arrays. An array that is full grows, the larger
 *     one to twice its length. So above some 1,000 timers they have 40 to 83 bytes for each, of the most that were
 *     ever held. With a timers_reserve before the first start they have 40 for each, up to its room.
 *
 *     No block has more than SIZE_MAX / 2 bytes. A call that needed one returns TIMERS_NO_MEMORY.
 *
 *     Memory is kept for later starts until timers_free. It can't be given back in part, since a timer stays
 *     at the place that its handle has. A caller that wants it back starts what is left in a second `struct
 *     timers`, and frees the first.
 *
 *     timers_set_allocator gives the library other functions than malloc, realloc and free, once for the
 *     process: for all its timers, and for its desks (timers_desk.h). A plug-in that embeds the archive has a
 *     copy of the library, with functions of its own. If timers.c was compiled with TIMERS_NO_MALLOC, there is
 *     no memory before: timers_new returns TIMERS_NO_MEMORY.
 *
 * PORTING
 *     What stands for the calls of a heap or of libuv's timers, if `now` is the real time in ticks:
 *
 *         uv_timer_start, insert       timers_set_at(t, &handle, now + timeout, action)
 *         uv_timer_stop, remove        timers_stop(t, handle, NULL)
 *         uv_timer_again               timers_set_at(t, &handle, now + repeat, action)
 *         repeat                       the same, once it is taken
 *         uv_timer_get_due_in          timers_look(t, handle, &timer); timer.deadline - now, or 0
 *         uv_is_active                 timers_look(t, handle, &timer) == TIMERS_OK
 *         uv_backend_timeout           timers_wakeup(t) - now, or 0; TIMERS_NEVER if none is held
 *         run what is due by now       while (timers_take(t, now, &timer)) run(timer.action);
 *         drop them all                timers_clear(t)
 *
 * RULES
 *     1. A `struct timers` begins as TIMERS_INIT, or with all its bytes 0: static storage, calloc and
 *        memset will do. Only these functions write it. It must not be copied, since it owns memory; it may
 *        be moved by a memcpy after which the old one is not used. No function, timers_new included, may be
 *        given uninitialised memory: it could not tell whether that owns timers.
 *     2. A pointer argument points to an object of its type that this call alone uses. No two arguments of
 *        one call overlap. NULL is allowed for a result that nobody wants: an argument that is only written (rule
 *        3), except for `out` of timers_expire_batch. And timers_free(NULL) does nothing.
 *     3. If an argument is only written (handle, restarted, action, passed, out, counts), the object may be
 *        uninitialised. It has only integers, so any bits are a value, and no function reads it. It is
 *        written exactly if the function's description says so, and otherwise unchanged. The handle of
 *        timers_set_at and the cursor of timers_each are read too.
 *     4. Calls on one `struct timers` come one at a time. THREADS names the exceptions.
 *     5. malloc, realloc and free, or what timers_set_allocator was given in their place, are one allocator,
 *        and align as C requires. The timers are freed in a process that has the allocator which they came from.
 *     6. No call comes from a signal handler. THREADS says which calls a forked child may make.
 *
 *     Nothing else is required. A call before timers_new, after timers_free, or in the wrong order changes
 *     nothing, and returns a status, 0, false or TIMERS_NEVER.
 *
 * THREADS
 *     Calls with a const pointer only read the timers. So they may run beside each other, each with objects
 *     of its own to write to, while no other call uses the same `struct timers`. Calls on two of them are
 *     independent.
 *
 *     A `struct timers` may be handed from thread to thread by anything that synchronizes the two. A lock does,
 *     and so does a thread's start or join, or an atomic that is stored with release order and loaded with
 *     acquire order.
 *
 *     No call waits for another thread, unless the allocator does. malloc, realloc and free are called only by
 *     the calls that MEMORY names, and by timers_free. No call is a cancellation point. timers_set_allocator
 *     comes before other threads call.
 *
 *     A call has to run to its end. One that is left by a longjmp out of a signal handler, or by an
 *     asynchronous cancellation, may leave the timers half changed: then no call may use them any more,
 *     timers_free included. The same holds if an allocator's function (timers_set_allocator) leaves a call by a
 *     longjmp or an exception: such functions must return. No call calls back otherwise.
 *
 *     A forked child has a copy of the timers, with the same handles. If the process had a single thread, the
 *     child may make all calls. If it had more, the child may make those that neither allocate nor free, on
 *     timers that no other thread was changing during the fork. It may make the other calls as well if the
 *     allocator works in such a child, as glibc's does.
 *
 * HANDLES
 *     A handle is for the `struct timers` that returned it. It is dead once its timer was stopped,
 *     restarted, taken or dropped, and never names another timer of that struct: serials continue after
 *     timers_free and timers_new. (Setting a struct to TIMERS_INIT again resets them.) Serials count from 1,
 *     so a handle with all its bytes 0 names no timer. Nothing marks to which struct a handle belongs. Each
 *     struct counts for itself, so the same handle may name a timer of another.
 *
 * ACTIONS
 *     An action is any 64 bits. For a pointer give (uint64_t)(uintptr_t)p, and read it as
 *     (void *)(uintptr_t)action. The timers never follow it: before you free what it points to, stop the
 *     timer. timers_free and timers_clear drop the timers and do not return their actions. To release these
 *     first:
 *
 *         uint64_t cursor = 0;
 *         struct timers_handle handle;
 *         struct timers_expired timer;
 *         while (timers_each(&t, &cursor, &handle, &timer))
 *             release((void *)(uintptr_t)timer.action);
 *         timers_free(&t);
 *
 * ERRORS
 *     Each call that can fail returns a status: the first that applies, in the order of the function's
 *     description. Unless it is TIMERS_OK, neither the timers nor what the arguments point to has changed.
 */
/* SPDX-License-Identifier: MIT OR Apache-2.0 */
#ifndef LIBTIMERS_TIMERS_H
#define LIBTIMERS_TIMERS_H

#if defined(__cplusplus) && __cplusplus < 201103L
#error "timers.h needs C++11 or later"
#endif

#include <stdbool.h>
#include <stddef.h>
#include <stdint.h>

/* The version of this header, as text and as a number: 10,000 major + 100 minor + patch. The library's number is
 * from timers_version. */
#define TIMERS_VERSION "1.0.0"
#define TIMERS_VERSION_NUMBER 10000

/* A file that includes timers.c may define TIMERS_STATIC before. Then the functions are static, so that the
 * compiler inlines their calls. */
#ifndef TIMERS_STATIC
#define TIMERS_CALL
#elif defined(__GNUC__) || defined(__clang__)
#define TIMERS_CALL static __attribute__((unused))
#else
#define TIMERS_CALL static
#endif

/* Marks calls whose result must not be ignored: the compiler warns. Unless the status is TIMERS_OK, nothing was made,
 * started or written. The status of a stop, a tick or an advance may be ignored. */
#if defined(__GNUC__) || defined(__clang__)
#define TIMERS_CHECKED TIMERS_CALL __attribute__((warn_unused_result))
#else
#define TIMERS_CHECKED TIMERS_CALL
#endif

/* C89 has no bool. Its compilers have it all the same, and -pedantic would warn about each use. */
#if defined(__GNUC__) && !defined(__cplusplus) && (!defined(__STDC_VERSION__) || __STDC_VERSION__ < 199901L)
#define TIMERS_OLD_C
#pragma GCC diagnostic push
#pragma GCC diagnostic ignored "-Wpedantic"
#define TIMERS_INLINE __inline
#else
#define TIMERS_INLINE inline
#endif

#ifdef __cplusplus
extern "C" {
#endif

enum timers_status {
	/* made by tools/facts: statuses of timers */
	TIMERS_OK = 0,             /* the call was done */
	TIMERS_NOT_OPEN = 1,       /* not open: timers_new was not called, or timers_free was since */
	TIMERS_OPEN = 2,           /* already open; of timers_set_allocator, memory was asked for already */
	TIMERS_NO_TABLE = 3,       /* the table is none of enum timers_table */
	TIMERS_NO_MEMORY = 4,      /* out of memory: malloc or realloc returned NULL; or some 4.29 billion timers are held,
	                              after a timers_reserve maybe half as many */
	TIMERS_DUE = 5,            /* an expired timer was not yet taken: call timers_expire */
	TIMERS_NOT_PENDING = 6,    /* no timer has this handle: it was stopped, restarted, taken or dropped */
	TIMERS_ZERO_INTERVAL = 7,  /* the interval is 0 */
	TIMERS_TOO_LATE = 8,       /* the tick is after the last one */
	TIMERS_SERIALS_SPENT = 9,  /* this struct has started 2^60 - 1 timers */
	TIMERS_CLOCK_END = 10      /* the clock is at its last tick */
};

/* The slots of the wheels, and when their timers move: see WHICH TABLE. The KB: see MEMORY. */
enum timers_table {
	/* made by tools/facts: tables */
	TIMERS_WIDE = 0,    /* ten wheels of 64 slots: the last tick is TIMERS_LAST; 6 + 6 KB */
	TIMERS_SMOOTH = 1,  /* as TIMERS_WIDE, with twice the slots, and a few moves at a tick; 11 + 10 KB */
	TIMERS_SMALL = 2    /* six wheels of 16 slots: the last tick is TIMERS_SMALL_LAST; 1.5 + 1.2 KB */
};

/* made by tools/facts: last ticks */
#define TIMERS_LAST UINT64_C(1152921504606846975)   /* 2^60 - 1 */
#define TIMERS_SMALL_LAST UINT64_C(16777215)        /* 2^24 - 1, or 4.6 hours of milliseconds */
#define TIMERS_LAST_OF(table) \
	((table) == TIMERS_SMALL ? TIMERS_SMALL_LAST : TIMERS_LAST)
#define TIMERS_TABLES 3                             /* how many tables there are: their numbers are less than this */
/* by hand */
#define TIMERS_NEVER UINT64_MAX                     /* of timers_wakeup */

/* Private: see rule 1. */
struct timers {
	uint64_t at;
	uint64_t mark;
	uint64_t last_serial;
};
#define TIMERS_INIT { 0, 0, 0 }

/* The name of a timer. Both fields may be read, stored and compared. */
struct timers_handle {
	uint64_t place;
	uint64_t serial;
};

struct timers_expired {
	uint64_t deadline;   /* the tick at which it expired; of timers_look, at which it expires */
	uint64_t serial;     /* of its handle */
	uint64_t action;     /* the action that its start or restart was given */
};

/* What the wheels have done since timers_new. */
struct timers_counters {
	uint64_t starts;     /* timers that were started or restarted */
	uint64_t moves;      /* how often a timer moved, as its bucket was emptied or before */
};

/* Sets the allocator: from now on the library calls these functions instead of malloc, realloc and free. They must
 * behave like those, and return: no exception and no longjmp may leave one. An allocation returns a block that is
 * aligned for every type, or NULL if out of memory. A failed resize leaves its block as it was. `resize` may be
 * NULL: to grow a block, the library then allocates a new one and copies. It never passes NULL, a size of 0, or a
 * block of another allocator. None may call the library. `allocate` and `release` must not be NULL. Call it before
 * the library first allocates in this process; it may be called again until then. Afterwards it returns TIMERS_OPEN
 * and changes nothing, also if that allocation failed. Does not allocate. */
TIMERS_CHECKED
enum timers_status timers_set_allocator(void *(*allocate)(size_t size),
                                        void *(*resize)(void *block, size_t size),
                                        void (*release)(void *block));

/* Makes timers with this table (enum timers_table), none of them pending, at the first tick. `t` holds them
 * until timers_free. It must begin as TIMERS_INIT or as zeros (rule 1).
 * TIMERS_OPEN, TIMERS_NO_TABLE, TIMERS_TOO_LATE, TIMERS_NO_MEMORY. */
TIMERS_CHECKED
enum timers_status timers_new(struct timers *t, uint32_t table, uint64_t first_tick);

/* Frees the timers: pending and expired ones are dropped. timers_new may follow. Does nothing if `t` is not
 * open, so it may be called twice. */
TIMERS_CALL
void timers_free(struct timers *t);

/* Drops all timers, pending or expired and not yet taken, and does not return their actions. Their handles are
 * dead. The clock, the serials, the counts and the memory stay, and so does the room of timers_reserve. Does
 * nothing if `t` is not open. Does not allocate. */
TIMERS_CALL
void timers_clear(struct timers *t);

/* Makes room for `most` timers held at once, pending or expired and not yet taken, with the ones that are held
 * already. While fewer are held, a start then allocates nothing and does not return
 * TIMERS_NO_MEMORY, whatever was started, stopped and taken before. The timers and the clock don't change.
 * Takes 40 bytes for each timer, of four at least; if it has to grow, of up to twice the most that were ever held.
 * Takes time for these, which it may move. The rest is allocated and not written. The memory is kept until
 * timers_free. TIMERS_NO_MEMORY leaves it as it was. If an earlier timers_reserve made as much room, it allocates
 * nothing and returns TIMERS_OK. TIMERS_NO_MEMORY is also returned if `most` is above some 4.29 billion; after an
 * earlier timers_reserve maybe above half as many.
 * TIMERS_NOT_OPEN, TIMERS_NO_MEMORY. */
TIMERS_CHECKED
enum timers_status timers_reserve(struct timers *t, size_t most);

/* Starts a timer that expires after `interval` ticks, 1 or more, and hands `action` back with it.
 * Writes `*handle` at TIMERS_OK.
 * TIMERS_NOT_OPEN, TIMERS_ZERO_INTERVAL, TIMERS_TOO_LATE, TIMERS_SERIALS_SPENT, TIMERS_NO_MEMORY. */
TIMERS_CHECKED
enum timers_status timers_start(struct timers *t, uint64_t interval, uint64_t action,
                                struct timers_handle *handle);

/* Starts a timer that expires at the tick `deadline`, as timers_start. If that is not after the present tick,
 * the timer has expired, with the present tick as its deadline. It is the last one that waits to be
 * taken. While the clock is at its last tick, TIMERS_TOO_LATE is returned for each deadline, also for a
 * passed one.
 * TIMERS_NOT_OPEN, TIMERS_TOO_LATE, TIMERS_SERIALS_SPENT, TIMERS_NO_MEMORY. */
TIMERS_CHECKED
enum timers_status timers_start_at(struct timers *t, uint64_t deadline, uint64_t action,
                                   struct timers_handle *handle);

/* Stops the timer with this handle, as timers_stop, and starts another in its place, as timers_start. On
 * failure the old one stays as it is. Writes `*restarted`, the new handle, at TIMERS_OK: `handle` is dead
 * then. If it expires no earlier than the old one, it is pushed back in place (COSTS). Does not allocate.
 * TIMERS_NOT_OPEN, TIMERS_NOT_PENDING, TIMERS_ZERO_INTERVAL, TIMERS_TOO_LATE, TIMERS_SERIALS_SPENT. */
TIMERS_CHECKED
enum timers_status timers_restart(struct timers *t, struct timers_handle handle, uint64_t interval,
                                  uint64_t action, struct timers_handle *restarted);

/* Stops the timer with this handle, as timers_restart, and starts one that expires at the tick `deadline`, as
 * timers_start_at. So a timer that waits to be taken goes behind the others if that tick is not after the
 * present one.
 * TIMERS_NOT_OPEN, TIMERS_NOT_PENDING, TIMERS_TOO_LATE, TIMERS_SERIALS_SPENT. */
TIMERS_CHECKED
enum timers_status timers_restart_at(struct timers *t, struct timers_handle handle, uint64_t deadline,
                                     uint64_t action, struct timers_handle *restarted);

/* Restarts the timer with the handle `*handle`, as timers_restart_at, and if there is none starts one, as
 * timers_start_at. Writes the new handle to `*handle` at TIMERS_OK. On failure a timer that has the old one
 * stays as it is. A handle with all its bytes 0 names none: so a struct that was set to 0 has one to begin with.
 * Allocates only if no timer has the handle, and only then returns TIMERS_NO_MEMORY.
 * TIMERS_NOT_OPEN, TIMERS_TOO_LATE, TIMERS_SERIALS_SPENT, TIMERS_NO_MEMORY. */
TIMERS_CHECKED
enum timers_status timers_set_at(struct timers *t, struct timers_handle *handle, uint64_t deadline,
                                 uint64_t action);

/* Stops the timer with this handle, which is pending, or has expired and was not yet taken: it is not
 * handed out any more. Writes `*action`, its action, at TIMERS_OK.
 * TIMERS_NOT_OPEN, TIMERS_NOT_PENDING. */
TIMERS_CALL
enum timers_status timers_stop(struct timers *t, struct timers_handle handle, uint64_t *action);

/* Writes `*out`, the timer with this handle, at TIMERS_OK. If its deadline is after timers_now, it is
 * pending, and the difference is the number of ticks that it has left. Otherwise it has expired and was not
 * yet taken.
 * TIMERS_NOT_OPEN, TIMERS_NOT_PENDING. */
TIMERS_CHECKED
enum timers_status timers_look(const struct timers *t, struct timers_handle handle, struct timers_expired *out);

/* Iterates over every timer, pending or expired and not yet taken, in no particular order. `*cursor` is 0 at
 * the first call. Each call that finds a timer writes it to `*out` and its handle to `*handle`, moves
 * `*cursor` past it and returns true. At the end, or if `t` is not open, it returns false and writes nothing.
 * Between two calls timers may be started, stopped, restarted and taken, and ticks may pass. One that is
 * held all the time, under one handle, is found exactly once. One that is restarted is found once as well. It keeps
 * its place, so it is not found again under its new handle. One that is started may be found or not. A whole
 * iteration takes time for the most timers that were ever held at once, whatever timers_reserve made room for. */
TIMERS_CALL
bool timers_each(const struct timers *t, uint64_t *cursor, struct timers_handle *handle,
                 struct timers_expired *out);

/* Advances the clock by one tick. The timers with that deadline expire, and wait for timers_expire. If many were pushed
 * back to it, they are sorted here (COSTS).
 * TIMERS_NOT_OPEN, TIMERS_DUE, TIMERS_CLOCK_END. */
TIMERS_CALL
enum timers_status timers_tick(struct timers *t);

/* Passes at most `most` ticks, and stops at the first at which a timer expires. Writes `*passed`, how many were
 * passed, at TIMERS_OK. It is 0 only if `most` is 0. It is less than `most` only if a timer has expired or the
 * clock has come to its last tick. A `most` of 0 succeeds also while an expired timer waits and at the last tick.
 * TIMERS_NOT_OPEN, TIMERS_DUE, TIMERS_CLOCK_END. */
TIMERS_CALL
enum timers_status timers_advance(struct timers *t, uint64_t most, uint64_t *passed);

/* Passes the ticks up to `tick`, and stops at the first at which a timer expires, or at the last tick of the
 * clock. If `tick` is not after the present one, nothing changes and the status is TIMERS_OK. This also holds while
 * an expired timer waits, and at the last tick.
 * TIMERS_NOT_OPEN, TIMERS_DUE, TIMERS_CLOCK_END. */
TIMERS_CALL
enum timers_status timers_advance_to(struct timers *t, uint64_t tick);

/* Takes the next timer that is due by `tick`, or by the present tick if that is later. If an expired timer
 * waits, it is the first of these, and no tick passes. Otherwise it is the first whose deadline is at most
 * `tick`, and the ticks up to that deadline pass. Returns whether there was one, and writes `*out` exactly then.
 * After false the ticks up to `tick` have passed, or those up to the last tick of the clock if that is before.
 * If `tick` is before the present tick, none passes. Returns false if not open. Does not allocate. */
TIMERS_CALL
bool timers_take(struct timers *t, uint64_t tick, struct timers_expired *out);

/* Takes the first of the expired timers, in the order of their starts. Returns whether there was one, and
 * writes `*out` exactly then. Returns false if not open. */
TIMERS_CALL
bool timers_expire(struct timers *t, struct timers_expired *out);

/* Takes the first of the expired timers, as many as there are and as fit into out[0] to out[room - 1].
 * Returns how many, and writes that many of `out`. `out` must not be NULL, even if `room` is 0. Returns 0
 * if not open. */
TIMERS_CALL
size_t timers_expire_batch(struct timers *t, struct timers_expired *out, size_t room);

/* Whether an expired timer was not yet taken. Returns false if not open. */
TIMERS_CALL
bool timers_has_due(const struct timers *t);

/* The present tick. Returns 0 if not open. */
TIMERS_CALL
uint64_t timers_now(const struct timers *t);

/* How many timers are pending. Expired timers are not counted (by the lengths of Python and Rust they are).
 * Returns 0 if not open. While expired timers wait, it takes time for each of them: timers_has_due returns in
 * constant time whether any wait. */
TIMERS_CALL
size_t timers_len(const struct timers *t);

/* The tick until which the caller may sleep. It is the present one if an expired timer waits to be taken,
 * and TIMERS_NEVER if nothing is pending or `t` is not open. Otherwise it is the first tick after the present
 * one at which a bucket with a timer is emptied; with TIMERS_SMOOTH, which also moves timers before, the one at which
 * the first timer expires or would move to a lower wheel. That is at most the first deadline, and nothing expires
 * before it. Call it again once the clock is there: if it is before the first deadline, nothing has expired. So a loop
 * wakes up for nothing only as a bucket is emptied in which nothing is due: once for all its timers, however often they
 * were pushed back. Constant time. */
TIMERS_CALL
uint64_t timers_wakeup(const struct timers *t);

/* Writes `*counts`, what the wheels have done since timers_new, at TIMERS_OK. `starts` counts each start and
 * restart that returned TIMERS_OK. `moves` is at most as many times `starts` as there are wheels, with TIMERS_WIDE 10
 * times. How many one call makes with TIMERS_SMOOTH is above, under WHICH TABLE. A stop and taking expired timers
 * count nothing, and timers_clear changes no count. Constant time. Does not allocate. TIMERS_NOT_OPEN. */
TIMERS_CHECKED
enum timers_status timers_counts(const struct timers *t, struct timers_counters *counts);

/* The version of the library, as the number TIMERS_VERSION_NUMBER of its header. If the library is newer than the
 * header that the program was built with, it is above this header's. */
TIMERS_CALL
uint32_t timers_version(void);

/* The text of a status, for messages. */
static TIMERS_INLINE const char *timers_message(enum timers_status status)
{
	const uint32_t number = status;   /* a number that is no status has a text too */

	switch (number) {
	/* made by tools/facts: texts of timers */
	case TIMERS_OK: return "done";
	case TIMERS_NOT_OPEN: return "not open";
	case TIMERS_OPEN: return "already open";
	case TIMERS_NO_TABLE: return "no such table";
	case TIMERS_NO_MEMORY: return "out of memory";
	case TIMERS_DUE: return "an expired timer was not yet taken";
	case TIMERS_NOT_PENDING: return "no timer has this handle";
	case TIMERS_ZERO_INTERVAL: return "the interval is 0";
	case TIMERS_TOO_LATE: return "after the last tick";
	case TIMERS_SERIALS_SPENT: return "every serial was used";
	case TIMERS_CLOCK_END: return "the clock is at its last tick";
	default: return "no status";
	}
}

/* The layout that the library was built for. */
#if defined(__cplusplus)
#define TIMERS_ASSERT(fact, says) static_assert(fact, says)
#elif defined(__GNUC__)
#define TIMERS_ASSERT(fact, says) __extension__ _Static_assert(fact, says)
#else
#define TIMERS_ASSERT(fact, says) _Static_assert(fact, says)
#endif
#if !defined(__ARM_EABI__) || defined(__linux__)   /* without a system Arm's compilers have short enums */
TIMERS_ASSERT(sizeof(enum timers_status) == 4, "a status is 32 bits: no -fshort-enums");
#endif
TIMERS_ASSERT(sizeof(bool) == 1, "a bool is one byte");
TIMERS_ASSERT(sizeof(struct timers) == 24 && offsetof(struct timers, at) == 0
              && offsetof(struct timers, mark) == 8 && offsetof(struct timers, last_serial) == 16,
              "struct timers");
TIMERS_ASSERT(sizeof(struct timers_handle) == 16 && offsetof(struct timers_handle, place) == 0
              && offsetof(struct timers_handle, serial) == 8, "struct timers_handle");
TIMERS_ASSERT(sizeof(struct timers_expired) == 24 && offsetof(struct timers_expired, deadline) == 0
              && offsetof(struct timers_expired, serial) == 8 && offsetof(struct timers_expired, action) == 16,
              "struct timers_expired");
TIMERS_ASSERT(sizeof(struct timers_counters) == 16 && offsetof(struct timers_counters, starts) == 0
              && offsetof(struct timers_counters, moves) == 8, "struct timers_counters");
#undef TIMERS_ASSERT
#undef TIMERS_CALL
#undef TIMERS_CHECKED
#undef TIMERS_INLINE

#ifdef __cplusplus
}
#endif
#ifdef TIMERS_OLD_C
#pragma GCC diagnostic pop
#undef TIMERS_OLD_C
#endif
#endif
