/* What the program has to write for a script, by a second reading of docs/formats.md. */
#ifndef MODEL_H
#define MODEL_H
#include <stddef.h>
#include <stdint.h>

/* The page's numbers and words, some as lists in the order of their table, made by tools/formats.py. */
#include "formats.h"

enum scheme { SCHEMES_OF_THE_PROGRAM };

/* At most so many wheels has a table; a smooth wheel has so many. */
enum { WHEELS = 10 };

/* Which timers `show` shows, and at which ticks. */
struct filter {
	int is_new, of_client, of_timer, at_ticks;
	uint64_t client, timer, from, to;
};

struct options {
	uint64_t clients, capacity, first_tick, last_tick;
	/* What only `show` needs. */
	enum scheme scheme;
	uint64_t slots;
	int counts, moves;
	struct filter filter;
};

struct timer {
	uint64_t serial, client, deadline, action;
	/* In which it is, of a smooth wheel. */
	int wheel;
	/* Of the request that started it. */
	uint64_t number;
};

/* What a hierarchy counts. */
struct counts {
	uint64_t starts, moves, visits;
};

/* Text that grows. */
struct text {
	char *at;
	size_t len, room;
};

struct answer {
	struct text output, faults;
	int status;
};

/* What is done with the input. */
enum form { PLAY, SERVE, KEEP_GOING, WAKEUPS, KEEP_GOING_WAKEUPS, SHOW, CHECK };

/* Adds a line. */
void add(struct text *text, const char *format, ...);

/* How many revolutions of its wheels have slots: 0 if the scheme has no wheels, and 2 if timers move early. */
int revolutions_of(enum scheme scheme);

/* How many ticks a slot of a wheel is; and in which wheel a pending timer is. */
uint64_t unit_of(enum scheme scheme, int wheel);
int wheel_of(enum scheme scheme, uint64_t now, uint64_t deadline);

/* The tick at which a pending timer next moves to a lower wheel, or its deadline if it expires first. */
uint64_t next_move(enum scheme scheme, uint64_t now, uint64_t deadline);

/* The wheel of a smooth wheel to which a timer with this deadline comes, before it is one of these. */
int smooth_wheel(uint64_t now, uint64_t deadline, struct timer *pending, size_t len);

/* A timer has come to its wheel: others may move for it. Returns how many. */
uint64_t smooth_make_way(uint64_t now, const struct timer *timer, struct timer *pending, size_t len);

/* Moves timers as the tick after now comes, at a pace for each wheel. Returns how many. */
uint64_t smooth_tick(uint64_t *paces, uint64_t now, struct timer *pending, size_t len);

/* The next tick that changes a pace, moves a timer or has one due, or the end if that comes first. */
uint64_t smooth_event(const uint64_t *paces, uint64_t now, uint64_t end, const struct timer *pending, size_t len);

/* Adds the moves at a tick, of timers that were where they are now until then. */
void show_moves(struct text *text, const struct options *is, uint64_t now, uint64_t tick, const struct timer *pending,
                size_t len);

/* Adds what `show` does after a line, before which the next serial was this one: the pending timers are by deadline, then serial. */
void show(struct text *text, const struct options *is, const struct counts *counts, uint64_t serial, uint64_t now,
          const struct timer *pending, size_t len);

/* Which lines are read. */
enum grammar { SCRIPT, STREAM };

/* The lines of a stream, in the order of their tables: a word, and the names of its fields, at most five. */
struct layout {
	const char *word, *fields[6];
};
extern const struct layout FORMS[];

/* The one with whose word a line begins, or NULL. */
const struct layout *form_of(enum grammar grammar, const char *line, size_t len);

/* What is wrong with a line: the column, the field, if it is in one, and the reason; none if it is good. */
struct wrong {
	size_t column;
	const char *field, *reason;
};

/* Of a line with its line feed, if it has one. */
struct wrong diagnose(enum grammar grammar, const char *line, size_t len);

/* Plays a script, or does as the form says. A wake-up is the line `wakeup NOW FIRST`, with the present tick and the
 * first deadline, or `wakeup never`. The caller frees both texts. */
struct answer play(const char *script, size_t len, struct options options, enum form form);

#endif
