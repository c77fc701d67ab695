/* What timers_desk.h says of each call, in lists: requests that stand in a line, words that wait at the desk and in a line, and
 * the pending timers by deadline and serial. */
/* SPDX-License-Identifier: MIT OR Apache-2.0 */
#ifndef DESK_MODEL_H
#define DESK_MODEL_H

#include <timers_desk.h>

/* Items, first in, first out. */
struct queue {
	unsigned char *items;
	size_t first, count, room;
};

enum request_kind { START, STOP, RESTART };

/* `at_tick`: its interval is a deadline. */
struct request {
	enum request_kind kind;
	bool at_tick;
	uint64_t number, interval, action;
	struct timers_handle handle;
};

/* What both ends of a line share. */
struct line_model {
	struct line_model *next;                 /* of all that were made */
	const struct desk_model *desk;
	size_t client, room;
	uint64_t life, next_number;              /* of the request that the client sends next */
	bool freed, finished, ended, abandoned;  /* freed by the client, abandoned by the desk */
	struct queue requests, words;
};

/* A timer. Its place is known once a client was told its handle. */
struct pending {
	uint64_t deadline, serial, number, action, place;
	size_t client;
};

struct client_model {
	struct line_model *line;
	struct queue outbox;
	uint64_t next_number;                    /* of the request that the desk takes next */
	size_t pending;
	bool holds;                              /* a request that has run out of memory */
	struct request held;
	uint64_t held_since;                     /* the tick of that */
};

struct desk_model {
	bool open, closed, reserved;
	struct timers_desk_config config;
	uint64_t lives, now, last_tick, last_serial;
	size_t count;
	struct client_model clients[TIMERS_DESK_CLIENTS];
	struct pending *pending;
	size_t length, room;
};

void desk_model_end(struct desk_model *m);       /* the desk, and all lines, are forgotten */

enum timers_desk_status desk_model_new(const struct desk_model *m, struct line_model *const *lines, size_t count,
                                       const struct timers_desk_config *asked);
void desk_model_open(struct desk_model *m, struct line_model **lines, size_t count, const struct timers_desk_config *asked);
void desk_model_free(struct desk_model *m);

/* The status of a serve but for memory; whether it may ask for some; and what it does if it has all. */
enum timers_desk_status model_can_serve(const struct desk_model *m, size_t client);
bool model_serve_allocates(const struct desk_model *m, size_t client);
void model_serve(struct desk_model *m, size_t client);
void model_hold(struct desk_model *m, size_t client);   /* the request has run out of memory */

size_t model_flush(struct desk_model *m, size_t client);
enum timers_desk_status model_ticks(const struct desk_model *m, bool some);
uint64_t model_ticks_passed(struct desk_model *m, uint64_t most);
uint64_t model_close(struct desk_model *m);
enum timers_desk_status model_settle(const struct desk_model *m, size_t client, const struct line_model *line);
enum timers_desk_status model_end(const struct desk_model *m, size_t client, struct line_model *line);
enum timers_desk_status model_end_all(const struct desk_model *m, struct line_model *const *lines, uint64_t *blamed);
enum timers_desk_status model_can_stop_pending(const struct desk_model *m, size_t client);
size_t model_stop_pending(struct desk_model *m, size_t client);
enum timers_desk_status model_can_open(const struct desk_model *m, const struct line_model *line, size_t client, size_t room);
struct line_model *model_open_line(struct desk_model *m, size_t client, size_t room);
bool model_has_client(const struct desk_model *m, size_t client);

enum timers_desk_status model_can_send(const struct line_model *line);
void model_send(struct line_model *line, struct request request);
const struct timers_word *model_word(const struct line_model *line);   /* the next one, or NULL */
void model_receive(struct line_model *line, const struct timers_word *word);

#endif
