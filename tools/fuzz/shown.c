/* Where the pending timers are: what `timers show` adds. But for smooth wheels it follows from deadlines and the present tick. */
#include "model.h"

#include <inttypes.h>
#include <stdlib.h>

struct place {
	uint64_t bucket, serial, rounds, from;
};

/* Of a scheme with wheels: how many slots each has in a revolution, from the lowest; and the names of a clock's hands. */
static const struct {
	uint64_t radices[WHEELS];
	int revolutions;
	const char *hands[WHEELS];
} TABLES[] = {[PLAIN] = {{0}, 0, {0}}, TABLES_OF_SCHEMES};

int revolutions_of(enum scheme scheme)
{
	return TABLES[scheme].revolutions;
}

uint64_t unit_of(enum scheme scheme, int wheel)
{
	uint64_t ticks = 1;
	while (wheel-- > 0)
		ticks *= TABLES[scheme].radices[wheel];
	return ticks;
}

int wheel_of(enum scheme scheme, uint64_t now, uint64_t deadline)
{
	int wheel = 0;
	while (now / unit_of(scheme, wheel + 1) != deadline / unit_of(scheme, wheel + 1))
		wheel++;
	return wheel;
}

static uint64_t slot_of(enum scheme scheme, int wheel, uint64_t deadline)
{
	return deadline % unit_of(scheme, wheel + 1) / unit_of(scheme, wheel);
}

static void name_bucket(struct text *text, enum scheme scheme, uint64_t bucket)
{
	int wheel = (int)(bucket >> 8), slot = (int)(bucket & 255);
	if (scheme == HASHED)
		add(text, HASHED_PLACE, (int)bucket);
	else if (TABLES[scheme].hands[0])
		add(text, "%s %d", TABLES[scheme].hands[wheel], slot);
	else
		add(text, HIER_PLACE, wheel, slot);
}

static int by_bucket(const void *a, const void *b)
{
	const struct place *x = a, *y = b;
	if (x->bucket != y->bucket)
		return x->bucket < y->bucket ? -1 : 1;
	return x->serial < y->serial ? -1 : x->serial > y->serial;
}

static struct place place_of(const struct options *is, uint64_t now, const struct timer *timer)
{
	struct place place = {0, timer->serial, 0, 0};
	if (is->scheme == HASHED) {
		place.bucket = timer->deadline % is->slots;
		place.rounds = (timer->deadline - now - 1) / is->slots;
	} else if (is->scheme == SMOOTH) {
		place.bucket = (uint64_t)timer->wheel << 8 | timer->deadline / unit_of(SMOOTH, timer->wheel) % 128;
	} else {
		int wheel = wheel_of(is->scheme, now, timer->deadline);
		place.bucket = (uint64_t)wheel << 8 | slot_of(is->scheme, wheel, timer->deadline);
	}
	return place;
}

static int covers(const struct filter *filter, uint64_t tick)
{
	return !filter->at_ticks || (filter->from <= tick && tick <= filter->to);
}

static int keeps(const struct filter *filter, uint64_t least, const struct timer *timer)
{
	return (!filter->of_client || timer->client == filter->client) && (!filter->of_timer || timer->serial == filter->timer)
	       && timer->serial >= least;
}

static void show_plain(struct text *text, const struct timer *pending, size_t len)
{
	if (len == 0)
		return;
	add(text, "  " PLAIN_PLACE ":");
	for (size_t i = 0; i < len; i++)
		add(text, " %" PRIu64 ":%" PRIu64, pending[i].serial, pending[i].deadline);
	add(text, "\n");
}

static void show_buckets(struct text *text, const struct options *is, uint64_t now, const struct timer *pending, size_t len)
{
	struct place *places = malloc((len + 1) * sizeof *places);
	if (!places)
		exit(3);
	for (size_t i = 0; i < len; i++)
		places[i] = place_of(is, now, &pending[i]);
	qsort(places, len, sizeof *places, by_bucket);
	for (size_t i = 0; i < len; i++) {
		if (i == 0 || places[i].bucket != places[i - 1].bucket) {
			add(text, "%s  ", i == 0 ? "" : "\n");
			name_bucket(text, is->scheme, places[i].bucket);
			add(text, ":");
		}
		add(text, " %" PRIu64, places[i].serial);
		if (is->scheme == HASHED)
			add(text, ":%" PRIu64, places[i].rounds);
	}
	if (len > 0)
		add(text, "\n");
	free(places);
}

uint64_t next_move(enum scheme scheme, uint64_t now, uint64_t deadline)
{
	if (revolutions_of(scheme) != 1)
		return deadline;
	return deadline - deadline % unit_of(scheme, wheel_of(scheme, now, deadline));
}

void show_moves(struct text *text, const struct options *is, uint64_t now, uint64_t tick, const struct timer *pending,
                size_t len)
{
	struct place *places = malloc((len + 1) * sizeof *places);
	size_t moved = 0;
	if (!places)
		exit(3);
	for (size_t i = 0; i < len && covers(&is->filter, tick); i++)
		if (pending[i].deadline > tick && next_move(is->scheme, now, pending[i].deadline) == tick
		    && keeps(&is->filter, 0, &pending[i])) {
			places[moved] = place_of(is, tick, &pending[i]);
			places[moved++].from = place_of(is, now, &pending[i]).bucket;
		}
	qsort(places, moved, sizeof *places, by_bucket);
	for (size_t i = 0; i < moved; i++) {
		if (i == 0 || places[i].bucket != places[i - 1].bucket) {
			add(text, "%s  moved at %" PRIu64 " from ", i == 0 ? "" : "\n", tick);
			name_bucket(text, is->scheme, places[i].from);
			add(text, " to ");
			name_bucket(text, is->scheme, places[i].bucket);
			add(text, ":");
		}
		add(text, " %" PRIu64, places[i].serial);
	}
	if (moved > 0)
		add(text, "\n");
	free(places);
}

static void show_all(struct text *text, const struct options *is, const struct counts *counts, uint64_t now,
                     const struct timer *pending, size_t len)
{
	add(text, "  now %" PRIu64 "\n", now);
	if (is->counts && revolutions_of(is->scheme) == 1)
		add(text, "  starts %" PRIu64 " moves %" PRIu64 " visits %" PRIu64 "\n", counts->starts, counts->moves, counts->visits);
	if (is->counts && revolutions_of(is->scheme) == 2)
		add(text, "  starts %" PRIu64 " moves %" PRIu64 "\n", counts->starts, counts->moves);
	if (is->scheme == PLAIN)
		show_plain(text, pending, len);
	else
		show_buckets(text, is, now, pending, len);
}

void show(struct text *text, const struct options *is, const struct counts *counts, uint64_t serial, uint64_t now,
          const struct timer *pending, size_t len)
{
	struct timer *kept = malloc((len + 1) * sizeof *kept);
	size_t some = 0;
	if (!kept)
		exit(3);
	for (size_t i = 0; i < len; i++)
		if (keeps(&is->filter, is->filter.is_new ? serial : 0, &pending[i]))
			kept[some++] = pending[i];
	if (covers(&is->filter, now))
		show_all(text, is, counts, now, kept, some);
	free(kept);
}
