/* What timers.h says of each call, over a list that is sorted by deadline and serial. It knows nothing of wheels, but for
 * what the header says of them: when a bucket is emptied, and what is counted. */
/* SPDX-License-Identifier: MIT OR Apache-2.0 */
#ifndef TIMERS_MODEL_H
#define TIMERS_MODEL_H

#include <timers.h>

/* A timer, and the tick at which its bucket is emptied. (Smooth wheels may move it before.) */
struct held {
	uint64_t deadline, serial, action, place, emptied;
};

struct timers_model {
	bool open, smooth;
	uint64_t now, last_tick, last_serial;
	struct held *list;              /* by deadline, then serial; list[0] to list[due - 1] have expired */
	size_t count, room, due;
	size_t reserved, held_most;     /* for how many there is room by timers_reserve, and how many were held at most */
	uint64_t *deadlines, first;     /* of each timer that was started after the serial `first` */
	size_t deadlines_room;
	struct held replaced;           /* what a restart took out of the list, until it adds a timer; the serial is 0 if none did */
	struct timers_counters counted; /* of smooth wheels without moves */
	uint64_t units[10], wheels;     /* the ticks of a slot, from the highest wheel down */
	struct timers_counters looked_at; /* what smooth wheels had counted at the last look, which was then */
	uint64_t looked_when;
};

/* When a timer is to expire: a tick, or an interval. */
struct when {
	bool at_tick;
	uint64_t number;
};

void timers_model_begin(struct timers_model *m, uint64_t last_serial);
void timers_model_end(struct timers_model *m);

enum timers_status model_new(const struct timers_model *m, uint32_t table, uint64_t tick);
void model_open(struct timers_model *m, uint32_t table, uint64_t tick);
void model_clear(struct timers_model *m);

size_t model_find(const struct timers_model *m, struct timers_handle handle);   /* its index, or `count` */
bool has_room(const struct timers_model *m);
bool has_passed(const struct timers_model *m, struct when when);
enum timers_status model_start(const struct timers_model *m, struct when when);
enum timers_status model_restart(const struct timers_model *m, size_t index, struct when when);
void model_add(struct timers_model *m, struct when when, struct timers_handle handle, uint64_t action);
void model_remove(struct timers_model *m, size_t index);
void model_replace(struct timers_model *m, size_t index);   /* a timer is added in its place */

enum timers_status model_pass(const struct timers_model *m, bool some);   /* the status of passing ticks, or none */
uint64_t stop_before(const struct timers_model *m, uint64_t tick);   /* the first deadline on the way to a tick, or that */
void model_pass_to(struct timers_model *m, uint64_t tick);

bool model_has_due(const struct timers_model *m);
uint64_t model_now(const struct timers_model *m);
size_t model_len(const struct timers_model *m);
uint64_t model_wakeup(const struct timers_model *m);
uint64_t model_next(const struct timers_model *m);
void want_counts(struct timers_model *m, const struct timers_counters *counts);

#endif
