/* SPDX-License-Identifier: MIT OR Apache-2.0 */
#include "desk_model.h"

#ifndef TIMERS_NO_DESK
#include <stdlib.h>
#include <string.h>

#include "trace.h"

static struct line_model *all_lines;

/* A copy of the item comes last. */
static void put(struct queue *q, const void *item, size_t size)
{
	if (q->first + q->count == q->room) {
		if (q->first < q->room / 2 || q->room == 0)
			q->items = resized(q->items, (q->room = 2 * q->room + 4) * size);
		else
			memmove(q->items, q->items + q->first * size, q->count * size), q->first = 0;
	}
	memcpy(q->items + (q->first + q->count) * size, item, size);
	q->count++;
}

/* The first one, which is there, leaves the queue. */
static const void *get(struct queue *q, size_t size)
{
	q->count--;
	return q->items + q->first++ * size;
}

static void forget(struct queue *q)
{
	free(q->items);
	memset(q, 0, sizeof *q);
}

static struct line_model *add_line(const struct desk_model *m, size_t client, size_t room)
{
	const struct line_model made = { all_lines, m, client, room, m->lives, m->clients[client].next_number, false, false, false, false, { NULL, 0, 0, 0 }, { NULL, 0, 0, 0 } };

	all_lines = resized(NULL, sizeof made);
	*all_lines = made;
	return all_lines;
}

void desk_model_end(struct desk_model *m)
{
	struct line_model *line;

	desk_model_free(m);
	free(m->pending);
	memset(m, 0, sizeof *m);
	while ((line = all_lines) != NULL) {
		all_lines = line->next;
		forget(&line->requests);
		forget(&line->words);
		free(line);
	}
}

bool model_has_client(const struct desk_model *m, size_t client) { return m->open && client < m->count; }

static bool is_in_range(const struct timers_desk_config *asked)
{
	bool there = asked->table < TIMERS_TABLES;

#ifdef TIMERS_NO_SMOOTH
	there = there && asked->table != TIMERS_SMOOTH;
#endif
	return asked->size == sizeof *asked && there && asked->first_tick <= TIMERS_LAST_OF(asked->table) && asked->capacity >= 1
	       && asked->capacity <= 1048576 && asked->room >= 2 && asked->room <= 65536 && asked->line >= 1 && asked->line <= 65536;
}

enum timers_desk_status desk_model_new(const struct desk_model *m, struct line_model *const *lines, size_t count,
                                       const struct timers_desk_config *asked)
{
	bool held = false;
	size_t i;

	for (i = 0; i < count; i++)
		held = held || lines[i] != NULL;
	if (m->open || held)
		return TIMERS_DESK_OPEN;
	return count >= 1 && count <= TIMERS_DESK_CLIENTS && is_in_range(asked) ? TIMERS_DESK_OK : TIMERS_DESK_OUT_OF_RANGE;
}

void desk_model_open(struct desk_model *m, struct line_model **lines, size_t count, const struct timers_desk_config *asked)
{
	size_t i;

	m->open = true;
	m->closed = m->reserved = false;
	m->config = *asked;
	m->lives++;
	m->now = asked->first_tick;
	m->last_tick = TIMERS_LAST_OF(asked->table);
	m->last_serial = 0;
	m->length = 0;
	m->count = count;
	memset(m->clients, 0, sizeof m->clients);
	for (i = 0; i < count; i++) {
		m->clients[i].next_number = 1;
		m->clients[i].line = lines[i] = add_line(m, i, (size_t)asked->line);
	}
}

void desk_model_free(struct desk_model *m)
{
	size_t i;

	for (i = 0; i < m->count; i++) {
		m->clients[i].line->abandoned = true;
		forget(&m->clients[i].outbox);
	}
	m->open = false;
	m->count = m->length = 0;
}

/* The index at which a timer with this deadline and serial is, or would be. */
static size_t index_of(const struct desk_model *m, uint64_t deadline, uint64_t serial)
{
	size_t i = 0;

	while (i < m->length && (m->pending[i].deadline < deadline || (m->pending[i].deadline == deadline && m->pending[i].serial < serial)))
		i++;
	return i;
}

static size_t find(const struct desk_model *m, size_t client, struct timers_handle handle)
{
	size_t i = 0;

	while (i < m->length && !(m->pending[i].serial == handle.serial && m->pending[i].place == handle.place && m->pending[i].client == client))
		i++;
	return i;
}

static void drop(struct desk_model *m, size_t index)
{
	m->clients[m->pending[index].client].pending--;
	m->length--;
	memmove(m->pending + index, m->pending + index + 1, (m->length - index) * sizeof *m->pending);
}

static void put_word(struct desk_model *m, size_t client, struct timers_word word)
{
	put(&m->clients[client].outbox, &word, sizeof word);
}

/* The timers with deadlines up to a tick come out. */
static void hand_out(struct desk_model *m, enum timers_word_kind kind, uint64_t tick)
{
	while (m->length > 0 && m->pending[0].deadline <= tick) {
		const struct pending out = m->pending[0];
		const struct timers_word word = { kind, 0, out.number, { 0, out.serial }, out.deadline, out.action, 0 };
		put_word(m, out.client, word);
		drop(m, 0);
	}
}

static bool has_passed(const struct desk_model *m, const struct request *r) { return r->at_tick && r->interval <= m->now; }

/* Why a start or a restart is refused for when its timer is to expire: one that has passed as one at the next tick. */
static enum timers_desk_status refused_for_time(const struct desk_model *m, const struct request *r)
{
	const uint64_t interval = has_passed(m, r) ? 1 : r->at_tick ? r->interval - m->now : r->interval;

	return interval == 0 ? TIMERS_DESK_ZERO_INTERVAL : interval > m->last_tick - m->now ? TIMERS_DESK_TOO_LATE
	       : m->last_serial == TIMERS_LAST ? TIMERS_DESK_SERIALS_SPENT : TIMERS_DESK_OK;
}

static enum timers_desk_status refused_for(const struct desk_model *m, size_t client, const struct request *r)
{
	if (r->kind != START && find(m, client, r->handle) == m->length)
		return TIMERS_DESK_NOT_PENDING;
	if (r->kind == STOP)
		return TIMERS_DESK_OK;
	if (refused_for_time(m, r) == TIMERS_DESK_OK && r->kind == START && m->length == m->config.capacity)
		return TIMERS_DESK_CAPACITY;
	return refused_for_time(m, r);
}

/* A stop by the owner has taken its number. */
static bool is_repeated(const struct desk_model *m, size_t client, const struct request *r)
{
	return r->number < m->clients[client].next_number;
}

static void begin(struct desk_model *m, size_t client, const struct request *r, struct timers_word *word)
{
	const uint64_t deadline = has_passed(m, r) ? m->now : r->at_tick ? r->interval : m->now + r->interval;
	const struct pending made = { deadline, ++m->last_serial, r->number, r->action, UINT64_MAX, client };
	const size_t index = index_of(m, deadline, made.serial);

	if (m->length == m->room)
		m->pending = resized(m->pending, (m->room = 2 * m->room + 64) * sizeof made);
	memmove(m->pending + index + 1, m->pending + index, (m->length - index) * sizeof made);
	m->pending[index] = made;
	m->length++;
	m->clients[client].pending++;
	word->handle.serial = made.serial;
	word->deadline = deadline;
}

static struct timers_word answer(struct desk_model *m, size_t client, const struct request *r)
{
	static const enum timers_word_kind kinds[] = { TIMERS_WORD_STARTED, TIMERS_WORD_STOPPED, TIMERS_WORD_RESTARTED };
	struct timers_word word = { TIMERS_WORD_NOT_TAKEN, TIMERS_DESK_CLOSED, r->number, { 0, 0 }, 0, r->action, 0 };
	size_t old;

	if (m->closed)
		return word;
	if (is_repeated(m, client, r)) {
		word.reason = TIMERS_DESK_REPEATED;
		word.other = m->clients[client].next_number;
		return word;
	}
	m->clients[client].next_number++;
	word.reason = refused_for(m, client, r);
	word.kind = word.reason != TIMERS_DESK_OK ? TIMERS_WORD_REFUSED : kinds[r->kind];
	if (word.reason != TIMERS_DESK_OK)
		return word;
	old = find(m, client, r->handle);
	if (r->kind == STOP)
		word.handle.serial = r->handle.serial;
	if (r->kind == RESTART)
		word.other = r->handle.serial;
	if (r->kind != START)
		drop(m, old);
	if (r->kind != STOP)
		begin(m, client, r, &word);
	return word;
}

enum timers_desk_status model_can_serve(const struct desk_model *m, size_t client)
{
	const struct client_model *c;

	if (!model_has_client(m, client))
		return m->open ? TIMERS_DESK_NO_CLIENT : TIMERS_DESK_NOT_OPEN;
	c = &m->clients[client];
	if (c->outbox.count + c->pending + 2 > m->config.room)
		return TIMERS_DESK_NO_ROOM;
	return !c->holds && c->line->requests.count == 0 ? TIMERS_DESK_IDLE : TIMERS_DESK_OK;
}

static struct request next_request(const struct client_model *c)
{
	struct request r = c->held;

	if (!c->holds)
		memcpy(&r, c->line->requests.items + c->line->requests.first * sizeof r, sizeof r);
	return r;
}

bool model_serve_allocates(const struct desk_model *m, size_t client)
{
	struct request r;

	if (model_can_serve(m, client) != TIMERS_DESK_OK || m->reserved || m->closed)
		return false;
	r = next_request(&m->clients[client]);
	return r.kind == START && !is_repeated(m, client, &r) && refused_for(m, client, &r) == TIMERS_DESK_OK;
}

/* The request that is served leaves the line, or is no longer held. */
static struct request take_request(struct client_model *c)
{
	const struct request r = next_request(c);

	if (!c->holds)
		(void)get(&c->line->requests, sizeof r);
	c->holds = false;
	return r;
}

void model_serve(struct desk_model *m, size_t client)
{
	const struct request r = take_request(&m->clients[client]);

	put_word(m, client, answer(m, client, &r));
	if (!m->closed)
		hand_out(m, TIMERS_WORD_EXPIRED, m->now);
}

void model_hold(struct desk_model *m, size_t client)
{
	m->clients[client].held = take_request(&m->clients[client]);
	m->clients[client].held_since = m->clients[client].holds ? m->clients[client].held_since : m->now;
	m->clients[client].holds = true;
}

size_t model_flush(struct desk_model *m, size_t client)
{
	struct queue *outbox;
	struct line_model *line;
	size_t left;

	if (!model_has_client(m, client))
		return 0;
	outbox = &m->clients[client].outbox;
	line = m->clients[client].line;
	left = outbox->count;
	while (outbox->count > 0 && (line->freed || line->words.count < line->room)) {
		const void *const word = get(outbox, sizeof(struct timers_word));
		if (!line->freed)
			put(&line->words, word, sizeof(struct timers_word));
	}
	return left - outbox->count;
}

enum timers_desk_status model_ticks(const struct desk_model *m, bool some)
{
	return !m->open ? TIMERS_DESK_NOT_OPEN : !some ? TIMERS_DESK_OK : m->closed ? TIMERS_DESK_CLOSED
	       : m->now == m->last_tick ? TIMERS_DESK_CLOCK_END : TIMERS_DESK_OK;
}

uint64_t model_ticks_passed(struct desk_model *m, uint64_t most)
{
	const uint64_t first = m->length > 0 ? m->pending[0].deadline : m->last_tick;
	const uint64_t passed = most < first - m->now ? most : first - m->now;

	if (most == 0)
		return 0;
	m->now += passed;
	hand_out(m, TIMERS_WORD_EXPIRED, m->now);
	return passed;
}

uint64_t model_close(struct desk_model *m)
{
	const uint64_t returned = m->length;

	m->closed = true;
	hand_out(m, TIMERS_WORD_RETURNED, UINT64_MAX);
	return returned;
}

enum timers_desk_status model_settle(const struct desk_model *m, size_t client, const struct line_model *line)
{
	if (!m->open || line == NULL)
		return TIMERS_DESK_NOT_OPEN;
	if (client >= m->count)
		return TIMERS_DESK_NO_CLIENT;
	if (line->desk != m || line->life != m->lives || line->client != client)
		return TIMERS_DESK_OTHER_LINE;
	return line->finished ? TIMERS_DESK_OK : TIMERS_DESK_NOT_FINISHED;
}

static bool is_left(const struct desk_model *m, size_t client)
{
	const struct client_model *const c = &m->clients[client];

	return c->holds || c->line->requests.count > 0 || c->outbox.count > 0 || c->pending > 0;
}

enum timers_desk_status model_end(const struct desk_model *m, size_t client, struct line_model *line)
{
	const enum timers_desk_status settled = model_settle(m, client, line);

	if (settled == TIMERS_DESK_OK && is_left(m, client))
		return TIMERS_DESK_LEFT;
	if (settled == TIMERS_DESK_OK)
		line->ended = true;
	return settled;
}

enum timers_desk_status model_end_all(const struct desk_model *m, struct line_model *const *lines, uint64_t *blamed)
{
	enum timers_desk_status all = TIMERS_DESK_OK;
	size_t i;

	for (i = 0; i < m->count; i++) {
		enum timers_desk_status one = TIMERS_DESK_OK;
		if (lines[i] != NULL)
			one = model_end(m, i, lines[i]);
		else if (!m->clients[i].line->freed)
			one = TIMERS_DESK_NOT_FREED;
		if (all == TIMERS_DESK_OK && one != TIMERS_DESK_OK) {
			all = one;
			*blamed = i;
		}
	}
	return all;
}

enum timers_desk_status model_can_stop_pending(const struct desk_model *m, size_t client)
{
	if (!model_has_client(m, client))
		return m->open ? TIMERS_DESK_NO_CLIENT : TIMERS_DESK_NOT_OPEN;
	if (!m->clients[client].line->freed)
		return TIMERS_DESK_NOT_FREED;
	return m->closed ? TIMERS_DESK_CLOSED : m->clients[client].pending > TIMERS_LAST + 1 - m->clients[client].next_number
	       ? TIMERS_DESK_NUMBERS_SPENT : TIMERS_DESK_OK;
}

size_t model_stop_pending(struct desk_model *m, size_t client)
{
	const size_t stopped = m->clients[client].pending;
	size_t i;

	for (i = m->length; i > 0; i--) {
		if (m->pending[i - 1].client == client)
			drop(m, i - 1);
	}
	m->clients[client].next_number += stopped;
	return stopped;
}

enum timers_desk_status model_can_open(const struct desk_model *m, const struct line_model *line, size_t client, size_t room)
{
	if (!m->open || line != NULL)
		return m->open ? TIMERS_DESK_OPEN : TIMERS_DESK_NOT_OPEN;
	if (client >= m->count)
		return TIMERS_DESK_NO_CLIENT;
	if (room == 0 || room > 65536)
		return TIMERS_DESK_OUT_OF_RANGE;
	if (!m->clients[client].line->freed || is_left(m, client))
		return m->clients[client].line->freed ? TIMERS_DESK_LEFT : TIMERS_DESK_NOT_FREED;
	return m->clients[client].next_number > TIMERS_LAST ? TIMERS_DESK_NUMBERS_SPENT : TIMERS_DESK_OK;
}

struct line_model *model_open_line(struct desk_model *m, size_t client, size_t room)
{
	return m->clients[client].line = add_line(m, client, room);
}

enum timers_desk_status model_can_send(const struct line_model *line)
{
	if (line == NULL || line->finished)
		return line == NULL ? TIMERS_DESK_NOT_OPEN : TIMERS_DESK_FINISHED;
	if (line->next_number > TIMERS_LAST)
		return TIMERS_DESK_NUMBERS_SPENT;
	return line->requests.count == line->room ? TIMERS_DESK_LINE_FULL : TIMERS_DESK_OK;
}

void model_send(struct line_model *line, struct request request)
{
	request.number = line->next_number++;
	put(&line->requests, &request, sizeof request);
}

const struct timers_word *model_word(const struct line_model *line)
{
	if (line == NULL || line->words.count == 0)
		return NULL;
	return (const struct timers_word *)(const void *)(line->words.items + line->words.first * sizeof(struct timers_word));
}

/* Of an answer to a start the client learns the place of its timer. */
void model_receive(struct line_model *line, const struct timers_word *word)
{
	const struct desk_model *const m = line->desk;
	size_t i;

	(void)get(&line->words, sizeof(struct timers_word));
	for (i = 0; i < m->length && !line->abandoned; i++) {
		if (m->pending[i].serial == word->handle.serial && word->kind <= TIMERS_WORD_RESTARTED)
			m->pending[i].place = word->handle.place;
	}
}
#endif
