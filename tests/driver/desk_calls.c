/* Random programs over the functions of timers_desk.h: two desks, and the ends of their clients, in one thread. */
/* SPDX-License-Identifier: MIT OR Apache-2.0 */
#include "driver.h"

#ifndef TIMERS_NO_DESK
#include <string.h>

#include "desk_model.h"
#include "memory.h"
#include "trace.h"

/* Handles that are kept of each client; lines, some more than a desk may have. */
enum { NAMES = 8, LINES = TIMERS_DESK_CLIENTS + 8 };

/* A desk with its clients' ends, and what they should do. */
static struct side {
	struct timers_desk desk;
	struct desk_model model;
	struct timers_line lines[LINES];
	struct line_model *line_models[LINES];
	struct timers_handle names[TIMERS_DESK_CLIENTS][NAMES];
} sides[2], *side;

/* What the next steps are about. A line is at times another client's. */
static struct timers_desk *d;
static struct desk_model *m;
static struct timers_line *line;
static struct line_model **line_model;
static struct timers_handle *name;
static size_t client, line_index;
static uint64_t spread, most_clients;
static struct timers_desk_config config;

static const struct client_model *the_client(void)
{
	static const struct client_model none;

	return model_has_client(m, client) ? &m->clients[client] : &none;
}

static uint64_t status_seen(const char *call, enum timers_desk_status status, enum timers_desk_status wanted)
{
	WANT(call, status, wanted == TIMERS_DESK_OK && may_allocate && refusals > 0 ? TIMERS_DESK_NO_MEMORY : wanted);
	return returned((uint32_t)status);
}

static uint64_t random_ticks(uint64_t from)
{
	switch (below(16)) {
	case 0: return 0;
	case 1: return from;
	case 2: return UINT64_MAX - below(3);
	case 3: return (from / 64 + below(4)) * 64;
	case 4: return m->last_tick - below(4);
	default: return from + below_power(spread);
	}
}

/* One that a client was told, or another one: of an older timer, of another place, or of none. At another desk it might be that
 * of a timer whose place nobody was told. */
static struct timers_handle random_handle(void)
{
	static const struct timers_handle none = { 0, 0 };
	struct timers_handle handle = *name;

	if (*line_model == NULL || (*line_model)->desk != m)
		return none;
	if (m->length > 0 && below(2) == 0) {
		const struct pending *const e = &m->pending[below(m->length)];
		if (e->client == client && e->place != UINT64_MAX) {
			handle.place = e->place;
			handle.serial = e->serial;
		}
	}
	switch (below(24) | (replays ? 4 : 0)) {
	case 0: handle.place += below(3) - 1; break;
	case 1: handle.serial -= below(2); break;
	case 2: handle.place = next_random(); break;
	case 3: handle.serial = TIMERS_LAST + next_random() % TIMERS_LAST; break;
	}
	return handle;
}

/* What desks of this program are made with: often little room, so that it is used up. Wrappers have a sum for the room. */
static void choose_config(uint32_t table)
{
	memset(&config, 0, sizeof config);
	config.size = sizeof config;
	config.table = table;
	config.first_tick = below(4) == 0 ? below_power(23) : below(6) == 0 ? TIMERS_LAST_OF(table) - below(60) : 0;
	config.capacity = 1 + below_power(12);
	config.line = 1 + below_power(8);
	config.room = 2 + below_power(10) + (replays ? config.line : 0);
}

/* A number with as many bits, or one at the ends of its range. */
static uint64_t random_end(uint64_t least, uint64_t most, uint64_t bits)
{
	const uint64_t beside = below(2);

	switch (below(3)) {
	case 0: return least - beside;
	case 1: return most + beside;
	default: return below_power(bits);
	}
}

static void make_new(void)
{
	struct timers_desk_config asked = config;
	const size_t count = (size_t)(below(24) == 0 && !replays ? below(TIMERS_DESK_CLIENTS + 6) : most_clients);
	uint64_t status;

	switch (replays ? 48 : below(48)) {
	case 0: asked.size = random_end(asked.size, asked.size, 4); break;
	case 1: asked.table = (uint32_t)random_end(0, TIMERS_TABLES - 1, 2); break;
	case 2: asked.first_tick = random_end(0, TIMERS_LAST_OF(asked.table), 64); break;
	case 3: asked.capacity = random_end(1, 1048576, 25); break;
	case 4: asked.room = random_end(2, 65536, 18); break;
	case 5: asked.line = random_end(1, 65536, 18); break;
	}
	may_allocate = true;
	status = status_seen("new", timers_desk_new(d, side->lines, count, &asked), desk_model_new(m, side->line_models, count, &asked));
	if (status == TIMERS_DESK_OK) {
		desk_model_open(m, side->line_models, count, &asked);
		memset(side->names, 0, sizeof side->names);
	}
	TOLD(timers_desk_new, (count, asked.table, asked.first_tick, asked.capacity, asked.room, asked.line, asked.size), (status));
	WANT("lives", d->lives, m->lives);
}

static void make_free(void)
{
	timers_desk_free(d);
	desk_model_free(m);
	TOLD(timers_desk_free, (), ());
	WANT("lives that are kept", d->lives, m->lives);
}

static uint64_t make_serve(void)
{
	const bool held = the_client()->holds;
	enum timers_desk_status status;

	may_allocate = model_serve_allocates(m, client);
	status = timers_desk_serve(d, client);
	status_seen("serve", status, model_can_serve(m, client));
	OCCURS("what ran out of memory is served by a later call", held && status == TIMERS_DESK_OK);
	OCCURS("what ran out of memory is served after a tick", held && status == TIMERS_DESK_OK && m->now > the_client()->held_since);
	if (status == TIMERS_DESK_OK)
		model_serve(m, client);
	if (status == TIMERS_DESK_NO_MEMORY)
		model_hold(m, client);
	TOLD(timers_desk_serve, (client), (status));
	return status;
}

static void serve(void) { (void)make_serve(); }

/* Serves a client as far as a timers_desk_serve_all did. If that lacked memory, how far is read off the outbox. */
static bool serve_as_far(size_t of, uint64_t most, bool *done)
{
	const size_t outbox = timers_desk_outbox(d, of);

	for (; most > 0 && model_can_serve(m, of) == TIMERS_DESK_OK; most--) {
		if (refusals > 0 && m->clients[of].outbox.count == outbox && model_serve_allocates(m, of)) {
			model_hold(m, of);
			return true;
		}
		model_serve(m, of);
		*done = true;
	}
	return false;
}

static void make_serve_all(void)
{
	const uint64_t most = below_power(7);
	bool done = false, lacks = false;
	enum timers_desk_status status;
	size_t i;

	may_allocate = m->open && !m->reserved;
	status = timers_desk_serve_all(d, most);
	for (i = 0; i < m->count; i++)
		lacks = serve_as_far(i, most, &done) || lacks;
	WANT("that memory was refused", lacks, refusals > 0);
	status_seen("serve all", status, !m->open ? TIMERS_DESK_NOT_OPEN : done || lacks ? TIMERS_DESK_OK : TIMERS_DESK_IDLE);
	TOLD(timers_desk_serve_all, (most), (status));
}

static void make_flush(void)
{
	const size_t moved = timers_desk_flush(d, client);

	WANT("flush", moved, model_flush(m, client));
	TOLD(timers_desk_flush, (client), (moved));
}

static void make_flush_all(void)
{
	const bool moved = timers_desk_flush_all(d);
	size_t i, count = 0;

	for (i = 0; i < m->count; i++)
		count += model_flush(m, i);
	WANT("flush all", moved, count > 0);
	TOLD(timers_desk_flush_all, (), (moved));
}

static void make_tick(void)
{
	const enum timers_desk_status status = timers_desk_tick(d);

	status_seen("tick", status, model_ticks(m, true));
	if (status == TIMERS_DESK_OK)
		WANT("a tick", model_ticks_passed(m, 1), 1);
	TOLD(timers_desk_tick, (), (status));
}

static void make_advance(void)
{
	const uint64_t most = random_ticks(0);
	uint64_t passed = 76;
	const enum timers_desk_status status = timers_desk_advance(d, most, &passed);

	status_seen("advance", status, model_ticks(m, most > 0));
	WANT("ticks passed", passed, status == TIMERS_DESK_OK ? model_ticks_passed(m, most) : 76);
	TOLD(timers_desk_advance, (most), (status, passed));
}

static void make_reserve(void)
{
	enum timers_desk_status status;

	may_allocate = m->open && !m->reserved;
	status = timers_desk_reserve(d);
	status_seen("reserve", status, m->open ? TIMERS_DESK_OK : TIMERS_DESK_NOT_OPEN);
	m->reserved = m->reserved || status == TIMERS_DESK_OK;
	TOLD(timers_desk_reserve, (), (status));
}

static void make_close(void)
{
	uint64_t count = 75;
	enum timers_desk_status status;

	may_allocate = m->open && !m->closed && !m->reserved;
	status = timers_desk_close(d, &count);
	status_seen("close", status, !m->open ? TIMERS_DESK_NOT_OPEN : m->closed ? TIMERS_DESK_CLOSED : TIMERS_DESK_OK);
	WANT("timers returned", count, status == TIMERS_DESK_OK ? model_close(m) : 75);
	TOLD(timers_desk_close, (), (status, count));
}

static void make_settle(void)
{
	uint64_t standing = 74;
	const enum timers_desk_status status = timers_desk_settle(d, client, line, &standing);

	status_seen("settle", status, model_settle(m, client, *line_model));
	WANT("requests that stand", standing, status == TIMERS_DESK_OK ? (*line_model)->requests.count : 74);
	TOLD(timers_desk_settle, (client), (status, standing));
}

static void make_end(void)
{
	uint64_t unread = 73;
	const enum timers_desk_status status = timers_desk_end(d, client, line, &unread);

	status_seen("end", status, model_end(m, client, *line_model));
	WANT("words unread", unread, status == TIMERS_DESK_OK ? (*line_model)->words.count : 73);
	TOLD(timers_desk_end, (client), (status, unread));
}

static void make_end_all(void)
{
	const size_t count = below(8) == 0 ? (size_t)below(TIMERS_DESK_CLIENTS + 1) : m->count;
	uint64_t blamed = 72, wanted = 72;
	const enum timers_desk_status status = timers_desk_end_all(d, side->lines, count, &blamed);

	status_seen("end all", status, !m->open ? TIMERS_DESK_NOT_OPEN : count != m->count ? TIMERS_DESK_OUT_OF_RANGE
	            : model_end_all(m, side->line_models, &wanted));
	WANT("the client that is not ended", blamed, wanted);
	TOLD(timers_desk_end_all, (count), (status, blamed));
}

static void make_stop_pending(void)
{
	uint64_t stopped = 71;
	const enum timers_desk_status status = timers_desk_stop_pending(d, client, &stopped);

	status_seen("stop pending", status, model_can_stop_pending(m, client));
	WANT("timers stopped", stopped, status == TIMERS_DESK_OK ? model_stop_pending(m, client) : 71);
	TOLD(timers_desk_stop_pending, (client), (status, stopped));
}

static void make_open(void)
{
	const size_t room = (size_t)(below(8) == 0 ? below_power(18) : 1 + below_power(7));
	enum timers_desk_status status;

	may_allocate = model_can_open(m, *line_model, client, room) == TIMERS_DESK_OK;
	status = timers_desk_open(d, client, line, room);
	status_seen("open", status, model_can_open(m, *line_model, client, room));
	if (status == TIMERS_DESK_OK)
		*line_model = model_open_line(m, client, room);
	TOLD(timers_desk_open, (client, room), (status));
}

/* The client of the line sends a request, and tells the trace. */
static void send(struct request r)
{
	const struct timers_handle h = r.handle;
	const size_t of = line_index;
	const uint64_t wanted = model_can_send(*line_model);
	uint64_t number = 70, status;

	if (r.kind == STOP)
		status = timers_line_stop(line, h, &number);
	else if (r.kind == START)
		status = (r.at_tick ? timers_line_start_at : timers_line_start)(line, r.interval, r.action, &number);
	else
		status = (r.at_tick ? timers_line_restart_at : timers_line_restart)(line, h, r.interval, r.action, &number);
	status_seen("send", (enum timers_desk_status)status, (enum timers_desk_status)wanted);
	WANT("the number of a request", number, status == TIMERS_DESK_OK ? (*line_model)->next_number : 70);
	if (status == TIMERS_DESK_OK)
		model_send(*line_model, r);
	if (r.kind == STOP)
		TOLD(timers_line_stop, (of, h.place, h.serial), (status, number));
	else if (r.kind == START && r.at_tick)
		TOLD(timers_line_start_at, (of, r.interval, r.action), (status, number));
	else if (r.kind == START)
		TOLD(timers_line_start, (of, r.interval, r.action), (status, number));
	else if (r.at_tick)
		TOLD(timers_line_restart_at, (of, h.place, h.serial, r.interval, r.action), (status, number));
	else
		TOLD(timers_line_restart, (of, h.place, h.serial, r.interval, r.action), (status, number));
}

static void make_request(enum request_kind kind, bool at_tick)
{
	struct request r = { kind, at_tick, 0, 0, 0, { 0, 0 } };

	if (kind != START)
		r.handle = random_handle();
	if (kind != STOP) {
		r.interval = random_ticks(at_tick ? m->now : 0);
		r.action = next_random();
	}
	send(r);
}

static void make_start(void) { make_request(START, false); }
static void make_start_at(void) { make_request(START, true); }
static void make_stop(void) { make_request(STOP, false); }
static void make_restart(void) { make_request(RESTART, false); }
static void make_restart_at(void) { make_request(RESTART, true); }

static void want_word(const struct timers_word *got, const struct timers_word *wanted)
{
	const bool has_place = wanted->kind == TIMERS_WORD_STARTED || wanted->kind == TIMERS_WORD_RESTARTED;

	WANT("the kind of a word", got->kind, wanted->kind);
	WANT("the reason of a word", got->reason, wanted->reason);
	WANT("the number of a word", got->number, wanted->number);
	WANT("the serial of a word", got->handle.serial, wanted->handle.serial);
	WANT("the place of a word", has_place ? 0 : got->handle.place, 0);
	WANT("the deadline of a word", got->deadline, wanted->deadline);
	WANT("the action of a word", got->action, wanted->action);
	WANT("the old serial of a word", got->other, wanted->other);
}

static bool make_receive(void)
{
	static const struct timers_word old = { 1, 2, 3, { 4, 5 }, 6, 7, 8 };
	const struct timers_word *const wanted = model_word(*line_model);
	struct timers_word word = old;
	const bool received = timers_line_receive(line, &word);

	WANT("receive", received, wanted != NULL);
	want_word(&word, received ? wanted : &old);
	TOLD(timers_line_receive, (line_index), (received, word.kind, word.reason, word.number, word.handle.place,
	     word.handle.serial, word.deadline, word.action, word.other));
	if (!received)
		return false;
	TOLD(timers_word, (), (returned(word.kind)));
	TOLD(timers_word_reason, (), (returned(word.reason)));
	model_receive(*line_model, &word);
	if (word.kind <= TIMERS_WORD_RESTARTED && (*line_model)->desk == m && (*line_model)->client == client && !(*line_model)->abandoned)
		*name = word.handle;
	return true;
}

static void receive(void) { (void)make_receive(); }

static void make_finish(void)
{
	const bool is_held = *line_model != NULL;
	const enum timers_desk_status status = timers_line_finish(line);

	status_seen("finish", status, !is_held ? TIMERS_DESK_NOT_OPEN : (*line_model)->finished ? TIMERS_DESK_FINISHED : TIMERS_DESK_OK);
	if (is_held)
		(*line_model)->finished = true;
	TOLD(timers_line_finish, (line_index), (status));
}

static bool is_read_out(bool so) { return *line_model != NULL && so && (*line_model)->words.count == 0; }

static void make_ended(void)
{
	bool ended;

	READING(ended = timers_line_ended(line));
	WANT("ended", ended, is_read_out(*line_model != NULL && (*line_model)->ended));
	TOLD(timers_line_ended, (line_index), (returned(ended)));
}

static void make_abandoned(void)
{
	const bool abandoned = timers_line_abandoned(line);

	WANT("abandoned", abandoned, is_read_out(*line_model != NULL && (*line_model)->abandoned && !(*line_model)->ended));
	TOLD(timers_line_abandoned, (line_index), (returned(abandoned)));
}

static void make_line_free(void)
{
	timers_line_free(line);
	if (*line_model != NULL)
		(*line_model)->freed = true;
	*line_model = NULL;
	TOLD(timers_line_free, (line_index), ());
}

#define READ(name, arguments, wanted) \
	do { \
		uint64_t got; \
		READING(got = timers_desk_##name arguments); \
		WANT(#name, got, wanted); \
		TOLD(timers_desk_##name, (client), (got)); \
	} while (0)

static uint64_t first_deadline(void) { return m->length > 0 ? m->pending[0].deadline : TIMERS_NEVER; }
static void make_now(void) { READ(now, (d), m->open ? m->now : 0); }
static void make_len(void) { READ(len, (d), m->length); }
static void make_next(void) { READ(next, (d), first_deadline()); }
static void make_pending(void) { READ(pending, (d, client), the_client()->pending); }
static void make_outbox(void) { READ(outbox, (d, client), the_client()->outbox.count); }

/* It notes what it has found. */
static void make_line_freed(void)
{
	const bool freed = timers_desk_line_freed(d, client);

	WANT("line freed", freed, the_client()->line != NULL && the_client()->line->freed);
	TOLD(timers_desk_line_freed, (client), (freed));
}

static void make_wakeup(void)
{
	const uint64_t first = first_deadline();
	uint64_t wakeup;

	READING(wakeup = timers_desk_wakeup(d));
	WANT("wake-up", first == TIMERS_NEVER ? wakeup == first : wakeup > m->now && wakeup <= first, true);
	OCCURS("wake-ups before the next deadline", wakeup < first);
	TOLD(timers_desk_wakeup, (client), (wakeup));
}

/* Two lines change places. */
static void move(void)
{
	struct side *const other_side = &sides[below(2)];
	const size_t which = (size_t)(below(2) == 0 ? below(most_clients) : LINES - 1);
	const struct timers_line moved = *line;
	struct line_model *const moved_model = *line_model;

	*line = other_side->lines[which];
	other_side->lines[which] = moved;
	*line_model = other_side->line_models[which];
	other_side->line_models[which] = moved_model;
}

static void serve_client(void)
{
	serve();
	make_flush();
	receive();
}

static void receive_all(void)
{
	while (make_receive())
		;
}

/* Many timers at once. */
static void crowd(void)
{
	uint64_t left;

	for (left = below(256); left > 0; left--) {
		make_start();
		serve();
		if (left % 16 == 0)
			make_flush();
	}
	receive_all();
}

/* A client that is gone leaves nothing, and another one comes. */
static void succeed(void)
{
	make_line_free();
	make_serve_all();
	make_flush();
	make_stop_pending();
	make_flush();
	make_open();
}

static void choose_line(struct side *of, size_t which)
{
	line_index = which;
	line = &of->lines[which];
	line_model = &of->line_models[which];
}

/* The desk is made anew, with its lines. */
static void renew(void)
{
	size_t i;

	make_free();
	for (i = 0; i < LINES; i++) {
		choose_line(side, i);
		if (*line_model != NULL)
			make_line_free();
	}
	make_new();
}

/* The steps that follow are about another desk, client, line or name. */
static void choose(void)
{
	struct side *of;

	side = &sides[below(8) == 0 && !replays];
	d = &side->desk;
	m = &side->model;
	watch(&d->at);
	if (below(64) == 0 || ((!m->open || m->closed) && below(8) == 0))
		renew();
	while (!m->open && replays)
		renew();
	client = (size_t)(below(12) == 0 && !replays ? below(TIMERS_DESK_CLIENTS + 6) : below(most_clients));
	of = &sides[below(2)];
	if (below(24) == 0 && !replays)
		choose_line(of, (size_t)below(TIMERS_DESK_CLIENTS));
	else
		choose_line(side, client < m->count || (client < TIMERS_DESK_CLIENTS && below(2) == 0) ? client : (size_t)below(most_clients));
	name = &side->names[client % TIMERS_DESK_CLIENTS][below(NAMES)];
	if (!m->open && below(2) == 0)
		make_new();
	if (*line_model == NULL && client < m->count && below(4) != 0)
		succeed();
}

static void end_client(void)
{
	make_finish();
	make_serve_all();
	make_close();
	make_flush_all();
	make_end();
	receive_all();
	make_ended();
}

/* Has this request answered by a word of this kind, which is the next. */
static bool is_answered(struct request r, enum timers_word_kind kind, struct timers_handle *handle)
{
	const struct timers_word *word;

	send(r);
	make_serve();
	make_flush();
	word = model_word(*line_model);
	if (word == NULL || word->kind != kind)
		return false;
	receive();
	*handle = *name;
	return true;
}

static const struct request START_NEXT = { START, false, 0, 1, 0, { 0, 0 } }, START_PASSED = { START, true, 0, 0, 0, { 0, 0 } };

/* Starts a timer and stops it again, by two of the client's numbers. */
static bool is_started_and_stopped(void)
{
	struct request stop = { STOP, false, 0, 0, 0, { 0, 0 } };
	struct timers_handle handle;

	return is_answered(START_NEXT, TIMERS_WORD_STARTED, &stop.handle) && is_answered(stop, TIMERS_WORD_STOPPED, &handle);
}

/* The client's last four numbers are used up. Then no request has one, nor a stop of the timer that is left, nor another client. */
static void use_last_numbers(void)
{
	struct timers_handle handle;

	if (!is_started_and_stopped() || !is_answered(START_PASSED, TIMERS_WORD_STARTED, &handle) || !is_answered(START_NEXT, TIMERS_WORD_STARTED, &handle))
		return;
	send(START_NEXT);
	send(START_PASSED);
	make_line_free();
	make_stop_pending();
	make_tick();
	make_flush();
	make_open();
}

/* Almost all serials are used up, or the client's numbers, or they come to 33 bits. The words that count them, at the desk
 * and at the client's end, are those that follow what a few starts return. Each timer is stopped again, and the line is a
 * second one of the client's number, so that nothing else counts alike. */
static void use_up(void)
{
	static const struct followers none;
	static struct followers serials, next_serials, numbers, next_numbers;
	const uint64_t end = below(3) != 0 ? TIMERS_LAST : UINT64_C(1) << 32;
	const bool of_serials = below(2) == 0;
	uint64_t i;

	serials = next_serials = numbers = next_numbers = none;
	succeed();
	for (i = 0; i < 6; i++) {
		if (*line_model == NULL || (*line_model)->client != client || (*line_model)->desk != m || !is_started_and_stopped()
		    || m->clients[client].next_number <= 2 * i + 3)
			return;
		memory_follow(&serials, m->last_serial);
		memory_follow(&next_serials, m->last_serial + 1);
		memory_follow(&numbers, (*line_model)->next_number - 1);
		memory_follow(&next_numbers, (*line_model)->next_number);
	}
	if (of_serials && serials.count + next_serials.count > 0 && m->last_serial < end - 2) {
		memory_set(&serials, end - 2);
		memory_set(&next_serials, end - 1);
		m->last_serial = end - 2;
	} else if (!of_serials && numbers.count + next_numbers.count > 0 && m->clients[client].next_number < end - 3) {
		memory_set(&numbers, end - 4);
		memory_set(&next_numbers, end - 3);
		m->clients[client].next_number = (*line_model)->next_number = end - 3;
		if (end == TIMERS_LAST && below(2) == 0)
			use_last_numbers();
	}
}

/* Starts that are served in both ways follow. */
static void spend(void)
{
	uint64_t left;

	use_up();
	for (left = below(24); left > 0; left--) {
		make_request(START, below(2) == 0);
		if (below(2) == 0)
			serve();
		else
			make_serve_all();
		if (left % 4 == 1) {
			make_flush();
			receive_all();
		}
	}
	if (below(2) == 0)
		succeed();
}

/* What comes next runs out of memory, if it asks for some. */
static void lack_at_close(void)
{
	memory_refuse_next();
	make_close();
}

static void lack_at_serve(void)
{
	memory_refuse_next();
	if (below(2) == 0)
		make_serve_all();
	else
		serve();
}

/* The first start of a desk lacks memory, and is held. */
static void lack_first(void)
{
	renew();
	client = 0;
	choose_line(side, client);
	make_start();
	memory_refuse_next();
	serve();
}

/* The row held_request: the next serve takes what is held. */
static void held_request(void)
{
	lack_first();
	serve_client();
}

/* The row held_over_tick: so it does after a tick, from which the interval counts. */
static void held_over_tick(void)
{
	lack_first();
	make_tick();
	serve_client();
}

static void look(void)
{
	WANT("now", timers_desk_now(d), m->open ? m->now : 0);
	WANT("len", timers_desk_len(d), m->length);
	WANT("outbox", timers_desk_outbox(d, client), the_client()->outbox.count);
}

static const struct step STEPS[] = {
	{ choose, 60, false }, { serve_client, 40, false }, { receive_all, 10, false }, { succeed, 2, false }, { end_client, 1, false },
	{ move, 1, true }, { spend, 2, true }, { crowd, 1, false }, { make_new, 1, true }, { make_free, 1, true },
	{ serve, 20, false }, { make_serve_all, 10, false }, { make_flush, 10, false }, { make_flush_all, 10, false },
	{ make_tick, 20, false }, { make_advance, 10, false }, { make_close, 2, false }, { lack_at_close, 1, true },
	{ lack_at_serve, 2, true }, { held_request, 1, true }, { held_over_tick, 1, true }, { make_settle, 12, true },
	{ make_end, 6, false }, { make_end_all, 16, true }, { make_stop_pending, 2, false }, { make_open, 2, false },
	{ make_reserve, 3, false }, { make_now, 2, false }, { make_len, 2, false }, { make_pending, 2, false },
	{ make_outbox, 2, false }, { make_wakeup, 2, false }, { make_next, 2, false }, { make_line_freed, 2, false },
	{ make_start, 40, false }, { make_start_at, 20, false }, { make_stop, 15, false }, { make_restart, 15, false },
	{ make_restart_at, 15, false }, { receive, 20, false }, { make_finish, 1, false }, { make_ended, 2, false },
	{ make_abandoned, 2, false }, { make_line_free, 1, false },
};

void call_desks(uint32_t table, uint64_t length)
{
	size_t i;

	memset(sides, 0, sizeof sides);
	sides[1].desk.lives = sides[1].model.lives = UINT64_C(1) << 32;
	choose_config(table);
	spread = 2 + below(TIMERS_LAST_OF(config.table) == TIMERS_LAST ? 58 : 22);
	most_clients = below(12) == 0 ? TIMERS_DESK_CLIENTS : 1 + below(4);
	choose();
	make_steps(STEPS, sizeof STEPS / sizeof *STEPS, length, look);
	told_state();
	for (side = sides; side < sides + 2; side++) {
		d = &side->desk;
		m = &side->model;
		make_free();
		for (i = 0; i < LINES; i++) {
			choose_line(side, i);
			make_line_free();
		}
	}
	desk_model_end(&sides[0].model);
	desk_model_end(&sides[1].model);
}

/* No count of malloc's blocks is moved. */
#ifdef MALLOC_BLOCKS
#define HAS_COUNTS(statuses) 0
#else
#define HAS_COUNTS(statuses) (statuses)
#endif
#define BIT(status) (UINT32_C(1) << TIMERS_DESK_##status)
#define WORD(kind) (UINT32_C(1) << TIMERS_WORD_##kind)
#define FOUND (UINT32_C(1) << false | UINT32_C(1) << true)

bool desks_have_all(uint32_t table)
{
	const uint32_t opened = BIT(OK) | BIT(NOT_OPEN), of_client = opened | BIT(NO_CLIENT);
	const uint32_t ended = opened | BIT(OTHER_LINE) | BIT(NOT_FINISHED), ticks = opened | BIT(CLOSED) | BIT(CLOCK_END);
	const uint32_t asks = opened | BIT(FINISHED) | BIT(LINE_FULL);
	const struct wanted wanted[] = {
		{ "timers_desk_new", BIT(OK) | BIT(OPEN) | BIT(OUT_OF_RANGE) | BIT(NO_MEMORY) },
		{ "timers_desk_serve", of_client | BIT(NO_ROOM) | BIT(IDLE) | BIT(NO_MEMORY) },
		{ "timers_desk_serve_all", opened | BIT(IDLE) | BIT(NO_MEMORY) },
		{ "timers_desk_tick", ticks }, { "timers_desk_advance", ticks },
		{ "timers_desk_close", opened | BIT(CLOSED) | BIT(NO_MEMORY) },
		{ "timers_desk_settle", ended | BIT(NO_CLIENT) }, { "timers_desk_end", ended | BIT(NO_CLIENT) | BIT(LEFT) },
		{ "timers_desk_end_all", ended | BIT(OUT_OF_RANGE) | BIT(LEFT) | BIT(NOT_FREED) },
		{ "timers_desk_stop_pending", of_client | BIT(NOT_FREED) | BIT(CLOSED) | HAS_COUNTS(BIT(NUMBERS_SPENT)) },
		{ "timers_desk_open", of_client | BIT(OPEN) | BIT(OUT_OF_RANGE) | BIT(NOT_FREED) | BIT(LEFT) | BIT(NO_MEMORY)
		                      | HAS_COUNTS(BIT(NUMBERS_SPENT)) },
		{ "timers_desk_reserve", opened | BIT(NO_MEMORY) },
		{ "timers_line_start", asks | HAS_COUNTS(BIT(NUMBERS_SPENT)) }, { "timers_line_start_at", asks | HAS_COUNTS(BIT(NUMBERS_SPENT)) },
		{ "timers_line_stop", asks }, { "timers_line_restart", asks }, { "timers_line_restart_at", asks },
		{ "timers_line_finish", opened | BIT(FINISHED) },
		{ "timers_line_receive", 1 }, { "timers_line_ended", FOUND }, { "timers_line_abandoned", FOUND },
		{ "timers_word", WORD(STARTED) | WORD(RESTARTED) | WORD(STOPPED) | WORD(REFUSED) | WORD(NOT_TAKEN) | WORD(EXPIRED)
		                 | WORD(RETURNED) },
		{ "timers_word_reason", BIT(OK) | BIT(NOT_PENDING) | BIT(ZERO_INTERVAL) | BIT(TOO_LATE) | BIT(CLOSED) | BIT(CAPACITY)
		                        | HAS_COUNTS(BIT(SERIALS_SPENT)) },
	};

#ifdef TIMERS_NO_SMOOTH
	if (table == TIMERS_SMOOTH)
		return true;
#endif
	return has_all(wanted, table < TIMERS_TABLES ? sizeof wanted / sizeof *wanted : 0);
}
#endif
