/* timers_desk.h - timers for a server with threads: one owner, and up to 64 clients, each in its own thread
 *
 * NAME
 *     timers_desk_new, timers_desk_free - make and free a desk with its clients' lines
 *     timers_desk_serve, timers_desk_serve_all - take requests
 *     timers_desk_flush, timers_desk_flush_all - put words into their lines
 *     timers_desk_tick, timers_desk_advance - pass ticks
 *     timers_desk_close, timers_desk_settle - close, settle a finished line
 *     timers_desk_end, timers_desk_end_all - end the words of finished lines
 *     timers_desk_stop_pending - stop the timers of a client that is gone
 *     timers_desk_open - open the line of a client that is gone again
 *     timers_desk_reserve - make room for all timers
 *     timers_desk_now, timers_desk_len, timers_desk_pending, timers_desk_outbox - read the state
 *     timers_desk_wakeup, timers_desk_next - learn until when the owner may sleep
 *     timers_desk_line_freed - learn that a client's line was freed
 *     timers_line_start, timers_line_stop, timers_line_restart - send a request
 *     timers_line_start_at, timers_line_restart_at - send a request with a deadline
 *     timers_line_receive - receive a word
 *     timers_line_finish, timers_line_ended - end the requests, learn that every word was received
 *     timers_line_abandoned - learn that the desk was freed
 *     timers_line_free - free a client's end
 *     timers_desk_message - the text of a status
 *
 * SYNOPSIS
 *     #include <timers_desk.h>
 *     cc -pthread prog.c $(pkg-config --cflags --libs timers)
 *
 * DESCRIPTION
 *     A `struct timers_desk` owns the timers of up to 64 clients, numbered from 0, and a clock of ticks.
 *     One thread, the owner, calls the timers_desk functions on it. Each client has a `struct timers_line`, and
 *     calls the timers_line functions on it from its own thread. It is the client's end of a line: a pair of
 *     wait-free rings between its thread and the owner. One carries requests to the owner, the other words back,
 *     each first in, first out. A word is the answer to a request, or the notice of a timer that came out.
 *
 *     No call blocks on another thread, and there is no lock: the two ends of a line share only the rings. A
 *     client's calls do not allocate, and take constant time. Exception: once the desk was freed,
 *     timers_line_finish and timers_line_free take time for each request or word in the line. If its line is full,
 *     a request is refused with TIMERS_DESK_LINE_FULL. Nothing has changed then, and it may be sent again.
 *
 *     A client's requests are numbered from 1 on. The owner takes requests by timers_desk_serve or
 *     timers_desk_serve_all, and each gets one word as its answer, in the order in which they were sent. Each timer
 *     that was started and neither stopped nor restarted gets one more word, at the tick of its deadline or at the
 *     close. So a client knows by counting that it has all its words: one for each request, and one for each such
 *     timer.
 *
 *     A client that does not count can ask the owner instead. The client finishes and hands its line over; the
 *     owner calls timers_desk_end and hands the line back. The call fails while something of the client is left at
 *     the desk. Afterwards only the words in the line are left. When the client has received them,
 *     timers_line_receive returns false for good, and timers_line_ended returns true. timers_desk_end_all does the
 *     same for all clients at once.
 *
 *     Either end may be freed while the other one is in use. timers_desk_line_freed tells the owner that a client has
 *     freed its line. The owner still takes the requests that were sent before, and the flushes drop words to the
 *     client. timers_line_abandoned tells a client that the desk was freed, once the client has received all words in
 *     its line. So it receives whatever was flushed before the free. Words in the outbox are lost. A client's loop ends
 *     once timers_line_ended or timers_line_abandoned returns true.
 *
 *     Clients come and go. If a client's line was freed, timers_desk_open opens one for another client under the
 *     same number. It requires that every request was taken, no word waits, and no timer is pending. The owner need
 *     not wait until the timers expire: timers_desk_stop_pending stops all of them in one call. The request numbers
 *     of the new client begin after the last one that was taken, since the desk counts them. The new line shares
 *     nothing with the old one, which was freed together with the words in it. So no word to the old client reaches
 *     the new one, and each word that the new one receives is about its own requests.
 *
 *     Words are queued in the client's outbox at the owner until a flush moves them into the line. A request is taken
 *     only if the outbox has room for its answer, a word of each of the client's pending timers, and one more. So no
 *     word is lost unless an end is freed. A client that does not read blocks only its own requests. A stop needs that
 *     room too: while the outbox lacks room (TIMERS_DESK_NO_ROOM), the client cannot stop a timer. Words leave the
 *     outbox by a flush, if the line has room for them, so the client has to read. If its pending timers alone take the
 *     room, one of them has to expire first. A `room` of k + q + 1 is enough for a client that keeps at most k timers,
 *     and has at most q requests without an answer. A request that runs out of memory is held, and retried first when
 *     its client is served the next time.
 *
 *     The owner's loop:
 *
 *         for (;;) {
 *             clear the signal by which clients wake the owner
 *             pass the ticks up to the real time, by timers_desk_advance
 *             enum timers_desk_status s = timers_desk_serve_all(&desk, 64);
 *             flush each client, and wake each that got words
 *             if (s != TIMERS_DESK_OK and no word was moved)
 *                 sleep until the signal or tick timers_desk_wakeup(&desk),
 *                     and only briefly after TIMERS_DESK_NO_MEMORY
 *         }
 *
 *     Ticks come first, since an interval counts from the tick at which its request is taken. If the owner took
 *     requests before the clock has caught up, their timers would expire too early, by as long as it slept. A client
 *     that knows the owner's clock can send a deadline instead (timers_line_start_at): then it does not matter when the
 *     request is taken. If the deadline has passed by then, the timer is due at once: its word comes right after the
 *     answer.
 *
 *     The program chooses how threads wake each other: an eventfd, a pipe, a condition variable with a flag. The
 *     order matters. The owner clears the signal before it looks at the lines, never between looking and sleeping.
 *     A client first sends its requests and then signals. So a request that the owner did not see is followed by a
 *     signal that ends its sleep, and no request waits forever. A client also signals after it has received words,
 *     since its line has room again. In the other direction the same holds: the client clears its signal, receives
 *     until there is no word, and then sleeps. timers_desk_bell.h does this; examples/c/desk_server.c uses it.
 *
 *     The functions were proved, and then translated into C. Each meets the contract stated in
 *     crates/timer_desk_c/src/desk_exports.rt or line_exports.rt, for every call that keeps the rules below. The
 *     library does not check the rules, except that the settling and ending calls check the client and the life of a
 *     line (rule 5). The compiler of the sources is trusted. A checker, which is trusted too, shows of each translated
 *     function that on x86-64 it does what that compiler wrote. Tests alone cover the C around them, which allocates,
 *     and timers_desk_message.
 *     Nothing is proved about time: when a thread runs, and when a word arrives. timers_desk_line_freed and
 *     timers_line_abandoned are proved to change nothing, and to record their checks in the right order: first whether
 *     the desk is gone, then whether a word is left in the line. Tests show that they return true exactly if the other
 *     end was freed. They also show that each check reads the ring, so that it misses no word that was put before. The
 *     same holds for a client's requests before its line is opened again.
 *
 * RULES
 *     1. A `struct timers_desk` begins as TIMERS_DESK_INIT and a `struct timers_line` as TIMERS_LINE_INIT,
 *        or with all bytes 0. Only these functions write them, except for `lives` (rule 5). They must not be
 *        copied, since they own memory; they may be moved by a memcpy after which the old one is not used.
 *     2. A pointer argument is not NULL. It points to an object of its type that this call alone uses;
 *        `lines` points to as many as are passed. No two arguments of one call overlap.
 *     3. An object that a call only writes (number, word, passed, returned, standing, unread, stopped, client) may
 *        be uninitialised. It is written only if the call returns TIMERS_DESK_OK or true. Exception:
 *        timers_desk_end_all writes `client` exactly if the error is a client's.
 *     4. Calls on one struct come one at a time, except for those that THREADS names. A struct may be handed from
 *        thread to thread: by a lock, by a thread's start or join, by an atomic with release and acquire order.
 *        Calls on two structs are independent: the owner's and its clients' may overlap in every way.
 *     5. timers_desk_settle, timers_desk_end and timers_desk_end_all are given lines of the same desk. A line of
 *        another client is refused with TIMERS_DESK_OTHER_LINE. So is a line of an earlier desk of the same struct: the
 *        struct counts the desks that were made in it, and each line has the count at which it was made.
 *        timers_desk_free keeps the count. So do not set a struct to TIMERS_DESK_INIT again while lines of it are held.
 *        A line of another struct with the same client and count is not detected. A program with several desks may set
 *        `lives` of each struct to another number before its first timers_desk_new, 2^32 times the desk's number, say.
 *        Then lines of the other desks are refused, too.
 *     6. malloc, realloc and free, or what timers_set_allocator (timers.h) was given in their place, are one
 *        allocator that threads may share, and align as C requires.
 *     7. No call comes from a signal handler. THREADS says which calls a forked child may make.
 *
 *     Nothing else is required. A call before timers_desk_new, after a free, or in the wrong order returns
 *     a status or nothing and changes nothing. Either end may be freed before the other, at any time.
 *
 * THREADS
 *     Calls whose only struct is const only read it, so that they may run beside each other while no other call
 *     uses the struct.
 *
 *     No call blocks on another thread, unless the allocator does. On a processor without atomics of 64 bits
 *     libatomic takes locks. malloc, realloc and free are called only by timers_desk_new, timers_desk_open,
 *     timers_desk_reserve, timers_desk_close, the serves, timers_line_finish and the frees. No call is a
 *     cancellation point. The only callbacks are the functions of timers_set_allocator, which must return.
 *
 *     A call must return. A longjmp out of a signal handler or an asynchronous cancellation may leave its struct
 *     inconsistent: then it must not be used again, not even freed. The other end of the line may go on.
 *
 *     A forked child has copies of the structs, which share nothing with the parent's, and one thread, the one that
 *     forked. It may use what no other thread was changing during the fork, by the calls that neither allocate nor
 *     free. It may make the other calls as well if the process had a single thread, or if the allocator works in such
 *     a child, as glibc's does.
 */
/* SPDX-License-Identifier: MIT OR Apache-2.0 */
#ifndef TIMERS_DESK_H
#define TIMERS_DESK_H

#include <stdbool.h>
#include <stddef.h>
#include <stdint.h>
#include "timers.h"

/* A file that includes timers.c may define TIMERS_STATIC before. Then the functions are static, so that the
 * compiler inlines their calls. */
#ifndef TIMERS_STATIC
#define TIMERS_CALL
#elif defined(__GNUC__) || defined(__clang__)
#define TIMERS_CALL static __attribute__((unused))
#else
#define TIMERS_CALL static
#endif

/* Marks calls whose result must not be ignored: the compiler warns. */
#if defined(__GNUC__) || defined(__clang__)
#define TIMERS_CHECKED TIMERS_CALL __attribute__((warn_unused_result))
#else
#define TIMERS_CHECKED TIMERS_CALL
#endif

/* C89 has no bool: see timers.h. */
#if defined(__GNUC__) && !defined(__cplusplus) && (!defined(__STDC_VERSION__) || __STDC_VERSION__ < 199901L)
#define TIMERS_OLD_C
#pragma GCC diagnostic push
#pragma GCC diagnostic ignored "-Wpedantic"
#define TIMERS_INLINE __inline
#else
#define TIMERS_INLINE inline
#endif

#ifdef __cplusplus
extern "C" {
#endif

/* The numbers up to TIMERS_CLOCK_END are the same as in enum timers_status. */
enum timers_desk_status {
	/* made by tools/facts: statuses of desks */
	TIMERS_DESK_OK = 0,              /* the call was done */
	TIMERS_DESK_NOT_OPEN = 1,        /* the struct holds nothing */
	TIMERS_DESK_OPEN = 2,            /* the desk or one of the lines holds something already */
	TIMERS_DESK_NO_MEMORY = 4,       /* out of memory: malloc or realloc returned NULL */
	TIMERS_DESK_NOT_PENDING = 6,     /* no pending timer of this client has this handle */
	TIMERS_DESK_ZERO_INTERVAL = 7,   /* the interval is 0 */
	TIMERS_DESK_TOO_LATE = 8,        /* the deadline is after the last tick, or has passed at the last tick */
	TIMERS_DESK_SERIALS_SPENT = 9,   /* the desk has started 2^60 - 1 timers */
	TIMERS_DESK_CLOCK_END = 10,      /* the clock is at its last tick */
	TIMERS_DESK_CLOSED = 11,         /* the desk was closed */
	TIMERS_DESK_CAPACITY = 12,       /* as many timers are pending as may be */
	TIMERS_DESK_NO_CLIENT = 13,      /* there is no client with this number */
	TIMERS_DESK_NUMBERS_SPENT = 14,  /* the client's numbers, up to 2^60 - 1, are used up */
	TIMERS_DESK_REPEATED = 15,       /* of a word: the number was taken before; no client gets it */
	TIMERS_DESK_AHEAD = 16,          /* of a word: an earlier number is missing; lines never cause it */
	TIMERS_DESK_LINE_FULL = 17,      /* the line has no room for another request now */
	TIMERS_DESK_FINISHED = 18,       /* the line has finished */
	TIMERS_DESK_OUT_OF_RANGE = 19,   /* a number of the configuration, or the number of lines, is out of its range */
	TIMERS_DESK_IDLE = 20,           /* no request was served */
	TIMERS_DESK_NO_ROOM = 21,        /* the outbox has no room for the words of another request */
	TIMERS_DESK_OTHER_LINE = 22,     /* the line is another client's, or of an earlier life of the desk's struct */
	TIMERS_DESK_NOT_FINISHED = 23,   /* the line has not finished */
	TIMERS_DESK_LEFT = 24,           /* something of the client is left at the desk */
	TIMERS_DESK_NOT_FREED = 25       /* the client's line was not freed */
};

#define TIMERS_DESK_CLIENTS 64   /* the most clients */

/* The kinds of words, and the members of a word that each one sets. A request gets the first reason that holds. CLOSED,
 * REPEATED, NUMBERS_SPENT and AHEAD are tested first, in this order: the request is not taken. Then a start is tested
 * for ZERO_INTERVAL, TOO_LATE, SERIALS_SPENT and CAPACITY; a restart for NOT_PENDING, ZERO_INTERVAL, TOO_LATE and
 * SERIALS_SPENT; and a stop for NOT_PENDING. A start or restart that was sent with a deadline is never refused for
 * ZERO_INTERVAL. `action` of an answer is the action of the start or restart, also of a refused one. */
enum timers_word_kind {
	/* made by tools/facts: kinds of words */
	TIMERS_WORD_STARTED = 1,    /* number, handle, deadline, action */
	TIMERS_WORD_RESTARTED = 2,  /* number, handle, deadline and action of the new timer, the old serial in `other` */
	TIMERS_WORD_STOPPED = 3,    /* number, handle.serial of the stopped timer */
	TIMERS_WORD_REFUSED = 4,    /* number, reason, action (0 of a stop): its number is used up, and nothing else changed
	                               */
	TIMERS_WORD_NOT_TAKEN = 5,  /* number, reason, action (REPEATED, AHEAD: next number in `other`); nothing changed */
	TIMERS_WORD_EXPIRED = 6,    /* number of its start or restart, handle.serial, deadline, action */
	TIMERS_WORD_RETURNED = 7    /* the same: the desk was closed before its deadline */
};

/* Private: see rule 1. */
struct timers_desk {
	uint64_t at;
	uint64_t mark;
	uint64_t lives;    /* how many desks were made in it: rule 5 */
};
struct timers_line {
	uint64_t at;
	uint64_t mark;
	uint64_t client;   /* the number of its client, which may be read */
	uint64_t life;     /* `lives` of its desk when it was made */
};
#define TIMERS_DESK_INIT { 0, 0, 0 }
#define TIMERS_LINE_INIT { 0, 0, 0, 0 }

/* The configuration of a desk: { .size = sizeof config, .capacity = 1000, .. }. `size` is sizeof(struct
 * timers_desk_config). It tells the library which header the program was built with: a later one may have more
 * members.
 *
 * `room`: a serve takes no request of a client while its pending timers and the words in its outbox are more than
 * room - 2. That includes stops. A room of k + q + 1 holds back no request of a client with at most k timers and q
 * requests without an answer. Here a timer counts from the request that starts it until its last word is received,
 * and a request until its answer is. With room 2 no request can stop or restart a timer. A client keeps at most
 * room - 1 timers. timers_desk_new allocates the outbox: 64 bytes for each word of room. */
struct timers_desk_config {
	uint64_t size;         /* sizeof(struct timers_desk_config) */
	uint64_t first_tick;   /* the clock begins at it: at most the last tick of the table */
	uint64_t capacity;     /* the most timers that may be pending at a time: 1 to 1,048,576 */
	uint64_t room;         /* how many words each client's outbox has room for: 2 to 65,536 */
	uint64_t line;         /* how many requests, and how many words, a line has room for: 1 to 65,536 */
	uint32_t table;        /* one of enum timers_table: TIMERS_WIDE is 0 */
	unsigned int : 32;     /* so that the size is the same on each platform */
};

/* A message to a client. A member that its kind does not set is 0. */
struct timers_word {
	uint32_t kind;      /* enum timers_word_kind */
	uint32_t reason;    /* enum timers_desk_status */
	uint64_t number;
	struct timers_handle handle;
	uint64_t deadline;
	uint64_t action;
	uint64_t other;
};

/* The owner's calls. */

/* Makes a desk with `clients` clients, 1 to 64, over the wheels of the table. Starts allocate memory for timers,
 * unless timers_desk_reserve has allocated all of it. From then on lines[0] to lines[clients - 1] hold the clients'
 * ends. `lines` must not be NULL, even if `clients` is 0.
 * TIMERS_DESK_OPEN, TIMERS_DESK_OUT_OF_RANGE (also: another size, no such table, or the first tick is after the
 * table's last tick), TIMERS_DESK_NO_MEMORY: nothing has changed then. */
TIMERS_CHECKED
enum timers_desk_status timers_desk_new(struct timers_desk *d, struct timers_line *lines, size_t clients,
                                        const struct timers_desk_config *config);

/* Frees the desk, if it holds one: pending timers, and words that no client's line has yet, are dropped.
 * Clients may continue to call: their requests are never taken, and they still receive what is in the line.
 * Afterwards timers_line_abandoned returns true. timers_desk_new may make a new desk in the struct: then the calls
 * that settle or end a line refuse earlier ones (rule 5). Serials begin at 1 again, so a handle of the earlier desk
 * may name a timer of the new one. */
TIMERS_CALL
void timers_desk_free(struct timers_desk *d);

/* Serves a client once: takes its held request, or else the next one of its line. At TIMERS_DESK_OK the
 * answer is in the outbox, and after it the word of a timer that is due at once. Allocates only for a start.
 * TIMERS_DESK_NOT_OPEN, TIMERS_DESK_NO_CLIENT, TIMERS_DESK_NO_ROOM, TIMERS_DESK_IDLE: nothing was taken. NO_ROOM
 * comes before IDLE, also if no request is in the line.
 * TIMERS_DESK_NO_MEMORY: the request is held, and is retried first. */
TIMERS_CALL
enum timers_desk_status timers_desk_serve(struct timers_desk *d, size_t client);

/* Serves each client in turn, from client 0 on: each until `most` of its requests were done or a serve did none.
 * Allocates only for starts.
 * TIMERS_DESK_NOT_OPEN.
 * TIMERS_DESK_NO_MEMORY: a request of at least one client ran out of memory and is held; others may have been done.
 * TIMERS_DESK_OK: at least one request was done. TIMERS_DESK_IDLE: none was. */
TIMERS_CALL
enum timers_desk_status timers_desk_serve_all(struct timers_desk *d, uint64_t most);

/* Moves words from each client's outbox into its line, in order, until the outbox is empty or the line
 * full. Drops what is left for a client whose line was freed. Returns whether a word has left its outbox. Nothing
 * else changes. Does not allocate. */
TIMERS_CALL
bool timers_desk_flush_all(struct timers_desk *d);

/* Does the same for one client, and returns how many words have left the outbox. 0 if there is no such client. */
TIMERS_CALL
size_t timers_desk_flush(struct timers_desk *d, size_t client);

/* Advances the clock by one tick. Queues a word for each timer with that deadline in its client's outbox. Does not
 * allocate.
 * TIMERS_DESK_NOT_OPEN, TIMERS_DESK_CLOSED, TIMERS_DESK_CLOCK_END: nothing has changed. */
TIMERS_CALL
enum timers_desk_status timers_desk_tick(struct timers_desk *d);

/* Passes at most `most` ticks, up to the first at which a timer expires. At TIMERS_DESK_OK it writes to `*passed`
 * how many. They are 0 only if `most` is 0. They are fewer than `most` only if a timer has expired or the clock is
 * at its last tick. A `most` of 0 succeeds also at a closed desk and at the last tick. Jumps over stretches in
 * which nothing happens. Does not allocate.
 * TIMERS_DESK_NOT_OPEN, TIMERS_DESK_CLOSED, TIMERS_DESK_CLOCK_END. */
TIMERS_CALL
enum timers_desk_status timers_desk_advance(struct timers_desk *d, uint64_t most, uint64_t *passed);

/* Closes the desk: each pending timer is returned by a word to its client, in order of deadline, then of serial. From
 * then on each request is answered by TIMERS_WORD_NOT_TAKEN. At TIMERS_DESK_OK it writes to `*returned` how many timers
 * were returned.
 * TIMERS_DESK_NOT_OPEN, TIMERS_DESK_CLOSED, TIMERS_DESK_NO_MEMORY: nothing has changed. After TIMERS_DESK_NO_MEMORY it
 * may be repeated. If timers_desk_reserve returned TIMERS_DESK_OK before, this call does not allocate and never returns
 * TIMERS_DESK_NO_MEMORY. */
TIMERS_CHECKED
enum timers_desk_status timers_desk_close(struct timers_desk *d, uint64_t *returned);

/* Settles the line of a client that has finished, once its thread has handed the line over (rule 4). At
 * TIMERS_DESK_OK it writes to `*standing` how many of the client's requests still are in the line.
 * At 0, with an empty outbox and no held request, only pending timers of this client are left at the desk. (After
 * TIMERS_DESK_NO_MEMORY a request is held.) Does not allocate.
 * TIMERS_DESK_NOT_OPEN (either struct), TIMERS_DESK_NO_CLIENT, TIMERS_DESK_OTHER_LINE (another client's, of an
 * earlier life of `d`, or its desk was freed before it finished), TIMERS_DESK_NOT_FINISHED: nothing has changed. */
TIMERS_CHECKED
enum timers_desk_status timers_desk_settle(struct timers_desk *d, size_t client,
                                           struct timers_line *line, uint64_t *standing);

/* Ends the words of a client that has finished, once its thread has handed the line over (rule 4). At
 * TIMERS_DESK_OK it writes to `*unread` how many words are in the line. With the received ones
 * they are all that the client was given. The line may then be handed back and read to its end. Does not
 * allocate.
 * TIMERS_DESK_NOT_OPEN (either struct), TIMERS_DESK_NO_CLIENT, TIMERS_DESK_OTHER_LINE (as above),
 * TIMERS_DESK_NOT_FINISHED.
 * TIMERS_DESK_LEFT: a request is held or is in the line, a word waits in the outbox, or a timer is
 * pending. */
TIMERS_CHECKED
enum timers_desk_status timers_desk_end(struct timers_desk *d, size_t client, struct timers_line *line,
                                        uint64_t *unread);

/* Ends the words of every client, each as timers_desk_end does. lines[0] to lines[clients - 1] are the clients'
 * lines, all of them handed over until it returns TIMERS_DESK_OK. It ends those that it can, whatever is left of
 * the others, and the call may be repeated. It skips a line that was freed, since no one reads its words. Does not
 * allocate.
 * TIMERS_DESK_OK: each line was freed, or its words have ended.
 * TIMERS_DESK_NOT_OPEN (the desk), TIMERS_DESK_OUT_OF_RANGE (`clients` is not the number of clients):
 * nothing has changed.
 * Otherwise it writes to `*client` the first client whose words have not ended, and returns why. That
 * client's line is as it was. TIMERS_DESK_NOT_FREED (the struct holds no line, and the client's was not freed: it was
 * moved elsewhere), TIMERS_DESK_OTHER_LINE (as above), TIMERS_DESK_NOT_FINISHED, TIMERS_DESK_LEFT. */
TIMERS_CHECKED
enum timers_desk_status timers_desk_end_all(struct timers_desk *d, struct timers_line *lines, size_t clients,
                                            uint64_t *client);

/* Stops all pending timers of a client whose line was freed, and writes to `*stopped` how many they were. The timers of
 * others stay. Each is stopped by a request of the client, which takes its next number; its answer is dropped. Nothing
 * else changes: words that wait for the client are dropped by a flush.
 *
 * Serve the client before, until that returns TIMERS_DESK_IDLE, or TIMERS_DESK_NO_ROOM because its timers take all
 * room. A request that is still in its line may be refused afterwards, since a stop took its number: it then starts and
 * stops nothing. After TIMERS_DESK_NO_ROOM flush the client, which drops its words, and repeat all three calls until a
 * serve returns TIMERS_DESK_IDLE.
 *
 * Takes time for each place in which there ever was a timer, of any client. Does not allocate.
 * TIMERS_DESK_NOT_OPEN, TIMERS_DESK_NO_CLIENT, TIMERS_DESK_NOT_FREED, TIMERS_DESK_CLOSED (the close has returned its
 * timers), TIMERS_DESK_NUMBERS_SPENT (fewer numbers are left than timers are pending): nothing has changed. */
TIMERS_CHECKED
enum timers_desk_status timers_desk_stop_pending(struct timers_desk *d, size_t client, uint64_t *stopped);

/* Opens a line for another client under the number of one whose line was freed. Every request of the old client must
 * have been taken, and none of its timers may be pending. No word may wait for it: a flush drops them. From then on
 * `line` holds the new client's end. It has room for `room` requests and as many words, like `line` in struct
 * timers_desk_config. The request numbers continue: the first is one above the last that was taken. Does not block.
 * TIMERS_DESK_NOT_OPEN (the desk), TIMERS_DESK_OPEN (`line` holds one), TIMERS_DESK_NO_CLIENT, TIMERS_DESK_OUT_OF_RANGE
 * (the room), TIMERS_DESK_NOT_FREED, TIMERS_DESK_LEFT (something of the client that is gone: serve and flush it, and
 * stop its timers), TIMERS_DESK_NUMBERS_SPENT, TIMERS_DESK_NO_MEMORY: nothing has changed. */
TIMERS_CHECKED
enum timers_desk_status timers_desk_open(struct timers_desk *d, size_t client, struct timers_line *line, size_t room);

/* Makes room for as many timers as may be pending, and for the list of them that a close makes. From then on no serve
 * and no timers_desk_close allocates or runs out of memory. Before the first start it takes 96 bytes for each of
 * `capacity` timers, and a little more below 4. Afterwards it takes up to 154, and more below 1,000 timers. A second
 * call allocates nothing.
 * TIMERS_DESK_NOT_OPEN, TIMERS_DESK_NO_MEMORY: no timer and no word has changed, and part of the memory may be kept. */
TIMERS_CHECKED
enum timers_desk_status timers_desk_reserve(struct timers_desk *d);

/* The present tick. 0 if it holds no desk. */
TIMERS_CALL
uint64_t timers_desk_now(const struct timers_desk *d);

/* How many timers are pending, of all clients. 0 if it holds no desk. */
TIMERS_CALL
size_t timers_desk_len(const struct timers_desk *d);

/* How many timers of one client are pending. 0 if there is no such client, or it holds no desk. */
TIMERS_CALL
size_t timers_desk_pending(const struct timers_desk *d, size_t client);

/* A tick after the present one and at most the first deadline, before which nothing expires. TIMERS_NEVER
 * if nothing is pending, or it holds no desk. */
TIMERS_CALL
uint64_t timers_desk_wakeup(const struct timers_desk *d);

/* The first deadline of all pending timers, exactly. TIMERS_NEVER if nothing is pending, or it holds no
 * desk. With TIMERS_SMOOTH it walks the timers of one bucket in each wheel. Otherwise it walks those of each bucket that
 * is emptied before the deadline: in the worst case all. A loop that only sleeps can use timers_desk_wakeup. Does not
 * allocate. */
TIMERS_CALL
uint64_t timers_desk_next(const struct timers_desk *d);

/* Whether a client's line was freed. False if there is no such client, or it holds no desk. Once true it
 * stays true until timers_desk_open opens the line again. Nothing changes: what the client sent before is still
 * taken, and its timers stay pending. Words to it are lost in its line, or dropped by a flush if the line is full.
 * Constant time. Does not allocate. */
TIMERS_CALL
bool timers_desk_line_freed(struct timers_desk *d, size_t client);

/* How many words wait in a client's outbox. 0 if there is no such client, or it holds no desk. */
TIMERS_CALL
size_t timers_desk_outbox(const struct timers_desk *d, size_t client);

/* A client's calls. None of them allocates or blocks. */

/* Sends the request to start a timer that expires `interval` ticks after it is taken, and hands `action`
 * back then. Writes `*number`, the request's number, at TIMERS_DESK_OK.
 * TIMERS_DESK_NOT_OPEN, TIMERS_DESK_FINISHED, TIMERS_DESK_NUMBERS_SPENT, TIMERS_DESK_LINE_FULL. */
TIMERS_CHECKED
enum timers_desk_status timers_line_start(struct timers_line *line, uint64_t interval, uint64_t action,
                                          uint64_t *number);

/* Sends the request to start a timer that expires at the tick `deadline`, and hands `action` back then. At the tick at
 * which the request is taken it is timers_line_start with the ticks that are left. If `deadline` is not after that
 * tick, the timer expires at it, as with timers_start_at (timers.h). The answer has that tick as deadline.
 * TIMERS_WORD_EXPIRED follows it in the same serve, after all words that were due before. Such a request is refused
 * exactly if a deadline at the next tick would be. So at the last tick it is refused with TIMERS_DESK_TOO_LATE, like
 * any deadline after the last tick. The same statuses. */
TIMERS_CHECKED
enum timers_desk_status timers_line_start_at(struct timers_line *line, uint64_t deadline, uint64_t action,
                                             uint64_t *number);

/* Sends the request to stop the timer with this handle, from the word that answered its start. The same statuses. */
TIMERS_CHECKED
enum timers_desk_status timers_line_stop(struct timers_line *line, struct timers_handle handle,
                                         uint64_t *number);

/* Sends the request to stop the timer with this handle and start another in its place. The same statuses. */
TIMERS_CHECKED
enum timers_desk_status timers_line_restart(struct timers_line *line, struct timers_handle handle,
                                            uint64_t interval, uint64_t action, uint64_t *number);

/* Does the same with a deadline for the new timer, which may have passed, as in timers_line_start_at. If it is refused,
 * the old timer stays. */
TIMERS_CHECKED
enum timers_desk_status timers_line_restart_at(struct timers_line *line, struct timers_handle handle,
                                               uint64_t deadline, uint64_t action, uint64_t *number);

/* Receives the next word. Returns whether there was one, and writes `*word` exactly then. After false more
 * may come, unless timers_line_ended or timers_line_abandoned returns true. */
TIMERS_CHECKED
bool timers_line_receive(struct timers_line *line, struct timers_word *word);

/* Ends the requests of this line. Words are still received.
 * TIMERS_DESK_NOT_OPEN, TIMERS_DESK_FINISHED. */
TIMERS_CALL
enum timers_desk_status timers_line_finish(struct timers_line *line);

/* Whether the owner has ended the words, by timers_desk_end or timers_desk_end_all, and all were received:
 * then no further word arrives. False if it holds no line. */
TIMERS_CALL
bool timers_line_ended(const struct timers_line *line);

/* Whether the desk was freed, and all words in the line were received: then no further word arrives. Words that
 * waited at the desk were dropped with it. Once true it stays true. False if it holds no line, or if
 * timers_desk_end has ended its words: then timers_line_ended returns true once all were received. Nothing changes.
 * Constant time. */
TIMERS_CALL
bool timers_line_abandoned(struct timers_line *line);

/* Frees the client's end, if it holds one. The owner still takes what it sent. Words to it are lost: the flushes
 * drop them, so that they take no room. */
TIMERS_CALL
void timers_line_free(struct timers_line *line);

/* The text of a status, for messages. */
static TIMERS_INLINE const char *timers_desk_message(enum timers_desk_status status)
{
	const uint32_t number = status;   /* a number that is no status has a text too */

	switch (number) {
	/* made by tools/facts: texts of desks */
	case TIMERS_DESK_OK: return "done";
	case TIMERS_DESK_NOT_OPEN: return "no desk or no line is held";
	case TIMERS_DESK_OPEN: return "a desk or a line is held already";
	case TIMERS_DESK_NO_MEMORY: return "out of memory";
	case TIMERS_DESK_NOT_PENDING: return "no timer of the client has this handle";
	case TIMERS_DESK_ZERO_INTERVAL: return "the interval is 0";
	case TIMERS_DESK_TOO_LATE: return "after the last tick";
	case TIMERS_DESK_SERIALS_SPENT: return "every serial was used";
	case TIMERS_DESK_CLOCK_END: return "the clock is at its last tick";
	case TIMERS_DESK_CLOSED: return "the desk was closed";
	case TIMERS_DESK_CAPACITY: return "as many timers are pending as may be";
	case TIMERS_DESK_NO_CLIENT: return "no such client";
	case TIMERS_DESK_NUMBERS_SPENT: return "every number of the client was used";
	case TIMERS_DESK_REPEATED: return "the number was taken before";
	case TIMERS_DESK_AHEAD: return "an earlier number is missing";
	case TIMERS_DESK_LINE_FULL: return "the line is full";
	case TIMERS_DESK_FINISHED: return "the line has finished";
	case TIMERS_DESK_OUT_OF_RANGE: return "a number of clients, room or configuration is out of range";
	case TIMERS_DESK_IDLE: return "no request was served";
	case TIMERS_DESK_NO_ROOM: return "the outbox has no room";
	case TIMERS_DESK_OTHER_LINE: return "the line is another client's, or of another desk";
	case TIMERS_DESK_NOT_FINISHED: return "the line has not finished";
	case TIMERS_DESK_LEFT: return "something of the client is left";
	case TIMERS_DESK_NOT_FREED: return "the client's line was not freed";
	default: return "no status";
	}
}

/* The layout that the library was built for. */
#if defined(__cplusplus)
#define TIMERS_DESK_ASSERT(fact, says) static_assert(fact, says)
#elif defined(__GNUC__)
#define TIMERS_DESK_ASSERT(fact, says) __extension__ _Static_assert(fact, says)
#else
#define TIMERS_DESK_ASSERT(fact, says) _Static_assert(fact, says)
#endif
TIMERS_DESK_ASSERT(sizeof(struct timers_desk) == 24 && offsetof(struct timers_desk, mark) == 8
                   && offsetof(struct timers_desk, lives) == 16, "struct timers_desk");
TIMERS_DESK_ASSERT(sizeof(struct timers_line) == 32 && offsetof(struct timers_line, mark) == 8
                   && offsetof(struct timers_line, client) == 16
                   && offsetof(struct timers_line, life) == 24, "struct timers_line");
TIMERS_DESK_ASSERT(sizeof(struct timers_word) == 56 && offsetof(struct timers_word, number) == 8
                   && offsetof(struct timers_word, handle) == 16
                   && offsetof(struct timers_word, deadline) == 32
                   && offsetof(struct timers_word, action) == 40
                   && offsetof(struct timers_word, other) == 48, "struct timers_word");
TIMERS_DESK_ASSERT(sizeof(struct timers_desk_config) == 48
                   && offsetof(struct timers_desk_config, first_tick) == 8
                   && offsetof(struct timers_desk_config, capacity) == 16
                   && offsetof(struct timers_desk_config, room) == 24
                   && offsetof(struct timers_desk_config, line) == 32
                   && offsetof(struct timers_desk_config, table) == 40, "struct timers_desk_config");
#undef TIMERS_DESK_ASSERT
#undef TIMERS_CALL
#undef TIMERS_CHECKED
#undef TIMERS_INLINE

#ifdef __cplusplus
}
#endif
#ifdef TIMERS_OLD_C
#pragma GCC diagnostic pop
#undef TIMERS_OLD_C
#endif
#endif
