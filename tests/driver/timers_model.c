/* SPDX-License-Identifier: MIT OR Apache-2.0 */
#include "timers_model.h"

#include <stdlib.h>
#include <string.h>

#include "../c/tables.h"
#include "trace.h"

void timers_model_begin(struct timers_model *m, uint64_t last_serial)
{
	m->last_serial = last_serial;
	m->first = last_serial;
}

void timers_model_end(struct timers_model *m)
{
	free(m->list);
	free(m->deadlines);
	memset(m, 0, sizeof *m);
}

enum timers_status model_new(const struct timers_model *m, uint32_t table, uint64_t tick)
{
	bool there = table < TIMERS_TABLES;

#ifdef TIMERS_NO_SMOOTH
	there = there && table != TIMERS_SMOOTH;
#endif
	return m->open ? TIMERS_OPEN : !there ? TIMERS_NO_TABLE : tick > TIMERS_LAST_OF(table) ? TIMERS_TOO_LATE : TIMERS_OK;
}

static void set_units(struct timers_model *m, uint32_t table)
{
	const uint64_t *const radices = TABLES[table].radices;
	uint64_t i;

	for (m->wheels = 0; m->wheels < 10 && radices[m->wheels] > 0;)
		m->wheels++;
	m->units[m->wheels - 1] = 1;
	for (i = m->wheels - 1; i > 0; i--)
		m->units[i - 1] = m->units[i] * radices[m->wheels - 1 - i];
}

void model_open(struct timers_model *m, uint32_t table, uint64_t tick)
{
	static const struct timers_counters none = { 0, 0 };

	m->open = true;
	m->smooth = TABLES[table].revolutions > 1;
	m->now = m->looked_when = tick;
	m->last_tick = TIMERS_LAST_OF(table);
	m->count = m->due = m->reserved = m->held_most = 0;
	m->counted = m->looked_at = none;
	set_units(m, table);
}

/* The index at which a timer with this deadline and serial is, or would be. */
static size_t index_of(const struct timers_model *m, uint64_t deadline, uint64_t serial)
{
	size_t low = 0, high = m->count;

	while (low < high) {
		const size_t middle = low + (high - low) / 2;
		const struct held *const e = &m->list[middle];
		if (e->deadline < deadline || (e->deadline == deadline && e->serial < serial))
			low = middle + 1;
		else
			high = middle;
	}
	return low;
}

size_t model_find(const struct timers_model *m, struct timers_handle handle)
{
	size_t index;

	if (handle.serial <= m->first || handle.serial > m->last_serial)
		return m->count;
	index = index_of(m, m->deadlines[handle.serial - m->first - 1], handle.serial);
	if (index < m->count && m->list[index].serial == handle.serial && m->list[index].place == handle.place)
		return index;
	return m->count;
}

/* When the bucket is emptied of a timer that is filed at a tick: at its deadline, rounded down to the unit of the highest
 * wheel in which that is not the present slot. */
static uint64_t emptied_at(const struct timers_model *m, uint64_t now, uint64_t deadline)
{
	uint64_t i;

	for (i = 0; i < m->wheels; i++) {
		const uint64_t emptied = deadline / m->units[i] * m->units[i];
		if (emptied != now / m->units[i] * m->units[i])
			return emptied;
	}
	return deadline;
}

void model_remove(struct timers_model *m, size_t index)
{
	m->due -= index < m->due;
	m->count--;
	memmove(m->list + index, m->list + index + 1, (m->count - index) * sizeof *m->list);
}

void model_replace(struct timers_model *m, size_t index)
{
	const struct held e = m->list[index];

	model_remove(m, index);
	m->replaced = e;
}

void model_clear(struct timers_model *m)
{
	while (m->count > 0)
		model_remove(m, m->count - 1);
}

bool has_room(const struct timers_model *m)
{
	return m->count < m->reserved || m->count < m->held_most;
}

bool has_passed(const struct timers_model *m, struct when when)
{
	return when.at_tick && when.number <= m->now;
}

/* A tick that is not after now is accepted if the next one is. */
enum timers_status model_start(const struct timers_model *m, struct when when)
{
	const uint64_t interval = !when.at_tick ? when.number : has_passed(m, when) ? 1 : when.number - m->now;

	if (!m->open)
		return TIMERS_NOT_OPEN;
	OCCURS("ticks that have passed, at the last one", has_passed(m, when) && m->now == m->last_tick);
	if (interval == 0)
		return TIMERS_ZERO_INTERVAL;
	if (interval > m->last_tick - m->now)
		return TIMERS_TOO_LATE;
	return m->last_serial == TIMERS_LAST ? TIMERS_SERIALS_SPENT : TIMERS_OK;
}

enum timers_status model_restart(const struct timers_model *m, size_t index, struct when when)
{
	return m->open && index == m->count ? TIMERS_NOT_PENDING : model_start(m, when);
}

static void keep_deadline(struct timers_model *m, uint64_t deadline)
{
	const size_t index = (size_t)(m->last_serial - m->first);

	if (index == m->deadlines_room) {
		m->deadlines_room = 2 * index + 64;
		m->deadlines = resized(m->deadlines, m->deadlines_room * sizeof *m->deadlines);
	}
	m->deadlines[index] = deadline;
	m->last_serial++;
}

/* A timer that was accepted: one whose deadline is not after now is due at once, behind the others. One that is pushed back
 * stays in its bucket. */
void model_add(struct timers_model *m, struct when when, struct timers_handle handle, uint64_t action)
{
	const uint64_t deadline = !when.at_tick ? m->now + when.number : has_passed(m, when) ? m->now : when.number;
	const bool stays = m->replaced.serial != 0 && m->replaced.deadline > m->now && deadline >= m->replaced.deadline;
	const uint64_t emptied = stays ? m->replaced.emptied : emptied_at(m, m->now, deadline);
	const struct held e = { deadline, handle.serial, action, handle.place, emptied };
	const size_t index = index_of(m, deadline, handle.serial);

	if (m->count == m->room) {
		m->room = 2 * m->count + 64;
		m->list = resized(m->list, m->room * sizeof *m->list);
	}
	keep_deadline(m, deadline);
	memmove(m->list + index + 1, m->list + index, (m->count - index) * sizeof *m->list);
	m->list[index] = e;
	m->count++;
	m->replaced.serial = 0;
	m->due += deadline == m->now;
	m->held_most = m->count > m->held_most ? m->count : m->held_most;
	m->counted.starts++;
}

enum timers_status model_pass(const struct timers_model *m, bool some)
{
	if (!m->open)
		return TIMERS_NOT_OPEN;
	return !some ? TIMERS_OK : m->due > 0 ? TIMERS_DUE : m->now == m->last_tick ? TIMERS_CLOCK_END : TIMERS_OK;
}

uint64_t stop_before(const struct timers_model *m, uint64_t tick)
{
	const uint64_t stop = tick < m->last_tick ? tick : m->last_tick;

	return m->count > 0 && m->list[0].deadline < stop ? m->list[0].deadline : stop;
}

/* What isn't due as its bucket is emptied moves to another one. */
void model_pass_to(struct timers_model *m, uint64_t tick)
{
	size_t i;

	if (tick == m->now)
		return;
	m->now = tick;
	for (m->due = 0; m->due < m->count && m->list[m->due].deadline == tick;)
		m->due++;
	for (i = 0; !m->smooth && i < m->count; i++) {
		struct held *const e = &m->list[i];
		for (; e->emptied <= tick && e->emptied < e->deadline; m->counted.moves++)
			e->emptied = emptied_at(m, e->emptied, e->deadline);
	}
}

bool model_has_due(const struct timers_model *m) { return m->open && m->due > 0; }
uint64_t model_now(const struct timers_model *m) { return m->open ? m->now : 0; }
size_t model_len(const struct timers_model *m) { return m->open ? m->count - m->due : 0; }

/* The tick at which the first bucket with a timer is emptied. Of smooth wheels it is that of the first timer, wherever it is. */
uint64_t model_wakeup(const struct timers_model *m)
{
	uint64_t first = TIMERS_NEVER;
	size_t i;

	if (!m->open || m->count == 0 || m->due > 0)
		return m->open && m->due > 0 ? m->now : TIMERS_NEVER;
	if (m->smooth)
		return emptied_at(m, m->now, m->list[0].deadline);
	for (i = 0; i < m->count; i++)
		first = m->list[i].emptied < first ? m->list[i].emptied : first;
	return first;
}

uint64_t model_next(const struct timers_model *m)
{
	return m->open && m->count > 0 ? m->list[0].deadline : TIMERS_NEVER;
}

/* Of one tick so many moves, of a start or restart two, and of a timer no more than nine. */
static void want_few_moves(struct timers_model *m, const struct timers_counters *counts)
{
	const uint64_t of_tick = 2 * (uint64_t)m->held_most / 63 + 18, passed = m->now - m->looked_when;
	const uint64_t more = counts->moves - m->looked_at.moves;

	WANT("no move is taken back", counts->moves >= m->looked_at.moves, true);
	if (passed < UINT64_MAX / of_tick - 1)
		WANT("moves within the bound", more <= passed * of_tick + 2 * (counts->starts - m->looked_at.starts), true);
	m->looked_at = *counts;
	m->looked_when = m->now;
}

void want_counts(struct timers_model *m, const struct timers_counters *counts)
{
	WANT("starts counted", counts->starts, m->counted.starts);
	OCCURS("counts with moves", counts->moves > 0);
	if (m->smooth)
		want_few_moves(m, counts);
	else
		WANT("moves counted", counts->moves, m->counted.moves);
	WANT("moves of all timers", counts->moves <= m->wheels * counts->starts, true);
}
