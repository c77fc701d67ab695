/* What a random program did: each call with its arguments and answers, and how often what occurred. With `traces` each is a
 * line of text, too; with `hashes` it goes into a hash, and so does each request for memory. */
/* SPDX-License-Identifier: MIT OR Apache-2.0 */
#ifndef TRACE_H
#define TRACE_H

#include <stdbool.h>
#include <stddef.h>
#include <stdint.h>

enum { SEEN_MOST = 32 };

/* How often a call was made at one place of the source, and with each status how often, and for how many blocks it asked.
 * What returns no status counts as status 0. */
struct call {
	const char *name;
	struct call *next;
	uint64_t times, returned[SEEN_MOST], requests[SEEN_MOST];
};

/* TOLD(timers_tick, (), (status)): the call was made, with these arguments and these answers. */
#define UNPACK(...) __VA_ARGS__
#define TOLD(name, arguments, answers) \
	do { \
		const uint64_t got_[] = { 0, UNPACK answers }; \
		TOLD_LIST(name, arguments, got_ + 1, sizeof got_ / sizeof *got_ - 1); \
	} while (0)

/* The same, with as many answers as `count` says. */
#define TOLD_LIST(name, arguments, answers, count) \
	do { \
		static struct call call_ = { #name, NULL, 0, { 0 }, { 0 } }; \
		const uint64_t given_[] = { 0, UNPACK arguments }; \
		told(&call_, given_ + 1, sizeof given_ / sizeof *given_ - 1, (answers), (count)); \
	} while (0)

/* OCCURS("starts that pass", fact): each run of a table has to come to each of its cases. */
struct seen {
	const char *name;
	struct seen *next;
	uint64_t times;
	bool known;
};
#define OCCURS(what, so) \
	do { \
		static struct seen seen_ = { (what), NULL, 0, false }; \
		occurs(&seen_, (so)); \
	} while (0)

/* Ends the driver, unless the library does as the model. */
#define WANT(what, got, wanted) want((what), (uint64_t)(got), (uint64_t)(wanted))

/* The statuses of a call that a run has to come to: a bit for each. */
struct wanted {
	const char *name;
	uint32_t statuses;
};

extern bool traces, replays, hashes;
extern uint64_t calls;           /* calls of the program so far */
extern uint64_t program_seed;
extern bool may_allocate;        /* whether the call that is told next may ask for memory */
extern uint64_t refusals;        /* requests that were refused since the last call was told */

void told(struct call *call, const uint64_t *given, size_t givens, const uint64_t *got, size_t gots);
void occurs(struct seen *seen, bool so);
void want(const char *what, uint64_t got, uint64_t wanted);
uint32_t returned(uint32_t status);   /* the call that is told next returned it */
void forget_requests(void);           /* those since the call before were of calls that are not told */
void told_memory(const char *what, uint64_t size, uint64_t block);
void begin_trace(uint64_t seed);
void watch(const uint64_t *at);  /* from now on each call tells the block at this address, too: what it holds there */
void told_state(void);           /* the bytes of all blocks, as they are now */
uint64_t trace_hash(void);
void print_counts(void);
void forget_counts(void);
bool has_all(const struct wanted *wanted, size_t count);   /* if not, prints what never occurred */

/* A block of a model with another size. Without memory it ends the program. */
void *resized(void *block, size_t size);

/* The generator of random numbers, of one program. */
uint64_t next_random(void);
uint64_t below(uint64_t limit);      /* 0 to limit - 1 */
uint64_t below_power(uint64_t bits); /* below a power of two, which is 2 to the `bits` at most: small ones as often as large */

#endif
