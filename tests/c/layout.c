/* Whether the fields of the crates' types lie where facts/layout.toml says: what calls leave there is compared with what calls
 * return. `layout.h` has all places by name (python3 -m translator.fields). */
#include <stddef.h>
#include <stdio.h>

#include <timers.h>
#include <timers_desk.h>
#include "layout.h"

static int failed;

static uint64_t number(const unsigned char *p, size_t place, size_t bytes)
{
	uint64_t n = 0;
	while (bytes-- != 0)                                    /* little-endian on each platform */
		n = n << 8 | p[place + bytes];
	return n;
}

#define AT(p, field) number(p, field, 8)
#define OF(address) ((const unsigned char *)(uintptr_t)(address))
#define SAME(one, other) same(__LINE__, #one, (uint64_t)(one), (uint64_t)(other))

static void same(int line, const char *what, uint64_t got, uint64_t wanted)
{
	if (got != wanted) {
		printf("layout.c:%d: %s is %llu, not %llu\n", line, what, (unsigned long long)got, (unsigned long long)wanted);
		failed = 1;
	}
}

/* How many bits of the words are set, and the number of the first. */
static unsigned bits(const unsigned char *words, unsigned n, unsigned *first)
{
	unsigned k, count = 0;
	for (k = 64 * n; k-- != 0;)
		if (words[k / 8] >> k % 8 & 1) {
			*first = k;
			count++;
		}
	return count;
}

/* The lists of a lazy wheel after those of its slots, in which what becomes due is sorted. */
#define SPARE 35

/* What both kinds of wheels begin with, of one timer that is pending. */
static void wheel(const unsigned char *w, uint64_t now, uint64_t last, uint64_t serial, uint64_t slots, uint64_t place)
{
	const unsigned char *links = w + Wheel_links;
	const unsigned char *root = OF(AT(links, Links_neighbours)) + Neighbours_size * (AT(links, Links_lists) + place);
	SAME(AT(w, Wheel_tick), now);
	SAME(AT(w, Wheel_last_tick), last);
	SAME(AT(w, Wheel_last_serial), serial);
	SAME(AT(w, Wheel_slots), slots);
	SAME(AT(links, Links_lists), slots + 1);
	SAME(AT(links, Links_nodes_used), 1);
	SAME(AT(links, Links_nodes_length) <= AT(links, Links_nodes_room), true);
	SAME(AT(links, Links_neighbours_length) <= AT(links, Links_neighbours_room), true);
	SAME(AT(links, Links_neighbours_length) >= slots + 1 + AT(links, Links_ready), true);
	SAME(AT(links, Links_nodes_room) >= AT(links, Links_ready), true);
	SAME(number(root, Neighbours_before, 4) < slots, true);     /* the only timer of its list is between its root and its root */
	SAME(number(root, Neighbours_after, 4), number(root, Neighbours_before, 4));
}

static void of_timers(uint32_t table, uint64_t slots)
{
	struct timers t = TIMERS_INIT;
	struct timers_handle h, due[2];
	struct timers_counters counts;
	struct timers_expired timer;
	const unsigned char *all, *w, *entry, *root;
	unsigned slot = 0;
	uint64_t moves, starts;

	SAME(timers_new(&t, table, 128), TIMERS_OK);
	SAME(timers_start(&t, 1, 0, &due[0]) | timers_start(&t, 5000, 77, &h) | timers_stop(&t, due[0], NULL), TIMERS_OK);
	SAME(timers_reserve(&t, 40), TIMERS_OK);
	all = OF(AT(OF(&t), CTimers_at)), w = all + TieredWheel_lazy_or_smooth;
	SAME(all[TieredWheel_is_smooth], table == TIMERS_SMOOTH);
	SAME(table == TIMERS_SMOOTH || w[LazyWheel_table] == (table == TIMERS_SMALL ? 2 : 0), true);
	SAME(AT(all, Timers_last_serial), h.serial);
	wheel(w, timers_now(&t), TIMERS_LAST_OF(table), h.serial, slots, h.place);
	SAME(AT(w, Wheel_links + Links_room), 40);
	SAME(AT(w, Wheel_links + Links_vacant), due[0].place);
	entry = OF(AT(w, Wheel_links + Links_nodes)) + UnownedEntry_size * h.place;
	SAME(entry[UnownedEntry_is_used], 1);
	SAME(timers_look(&t, h, &timer), TIMERS_OK);
	SAME(AT(entry, UnownedEntry_serial_or_next), timer.serial);
	SAME(AT(entry, UnownedEntry_deadline), timer.deadline);
	SAME(AT(entry, UnownedEntry_action), timer.action);
	SAME(bits(w + (table == TIMERS_SMOOTH ? SmoothWheel_filled : LazyWheel_occupied), table == TIMERS_SMOOTH ? 20 : 10, &slot), 1);
	if (table == TIMERS_SMOOTH) {
		/* A bucket of many timers moves while the clock comes near: a few at a tick. */
		uint64_t sum = 0, most = 0;
		struct timers_handle many[900];
		for (size_t k = 0; k < 900; k++)
			SAME(timers_start(&t, 300 + k % 40, 0, &many[k]), TIMERS_OK);
		for (int tick = 0; tick < 200; tick++) {
			SAME(timers_tick(&t), TIMERS_OK);
			sum = 0;
			for (size_t k = 0; k < 10; k++)
				sum += number(w, SmoothWheel_paces + 8 * k, 8);
			SAME(AT(w, SmoothWheel_paces_sum), sum);
			most = sum > most ? sum : most;
		}
		SAME(most > 0, true);
		for (size_t k = 0; k < 900; k++)
			SAME(timers_stop(&t, many[k], NULL), TIMERS_OK);
	}
	/* Two that are due: in the list behind the slots, in their order. */
	SAME(timers_start_at(&t, 0, 1, &due[0]) | timers_start_at(&t, 0, 2, &due[1]), TIMERS_OK);
	root = OF(AT(w, Wheel_links + Links_neighbours)) + Neighbours_size * slots;
	SAME(number(root, Neighbours_after, 4), slots + 1 + due[0].place);
	SAME(number(root, Neighbours_before, 4), slots + 1 + due[1].place);
	while (timers_take(&t, 0, &timer) || timers_expire(&t, &timer))
		continue;
	while (timers_advance(&t, UINT64_MAX, NULL) == TIMERS_OK && timers_len(&t) != 0)
		continue;
	SAME(timers_counts(&t, &counts), TIMERS_OK);
	starts = AT(w, table == TIMERS_SMOOTH ? SmoothWheel_starts : LazyWheel_starts);
	moves = AT(w, table == TIMERS_SMOOTH ? SmoothWheel_moves : LazyWheel_filings);
	SAME(starts, counts.starts);
	SAME(moves, counts.moves);
	SAME(starts != moves && moves != 0, true);
	timers_free(&t);
}

static void of_structs(void)
{
	SAME(CTimers_at, offsetof(struct timers, at));
	SAME(CTimers_mark, offsetof(struct timers, mark));
	SAME(CTimers_last_serial, offsetof(struct timers, last_serial));
	SAME(CHandle_place, offsetof(struct timers_handle, place));
	SAME(CHandle_serial, offsetof(struct timers_handle, serial));
	SAME(Expired_deadline, offsetof(struct timers_expired, deadline));
	SAME(Expired_serial, offsetof(struct timers_expired, serial));
	SAME(Expired_action, offsetof(struct timers_expired, action));
	SAME(Expired_size, sizeof(struct timers_expired));
	SAME(Counts_starts, offsetof(struct timers_counters, starts));
	SAME(Counts_moves, offsetof(struct timers_counters, moves));
	SAME(CDesk_at, offsetof(struct timers_desk, at));
	SAME(CDesk_mark, offsetof(struct timers_desk, mark));
	SAME(CDesk_lives, offsetof(struct timers_desk, lives));
}

static void of_desk(void)
{
	const struct timers_desk_config config = { .size = sizeof config, .first_tick = 128, .capacity = 50, .room = 9, .line = 8 };
	struct timers_desk d = TIMERS_DESK_INIT;
	struct timers_line lines[3] = { TIMERS_LINE_INIT, TIMERS_LINE_INIT, TIMERS_LINE_INIT };
	struct timers_word word;
	const unsigned char *desk, *entry;
	uint64_t sent;

	SAME(timers_desk_new(&d, lines, 3, &config), TIMERS_DESK_OK);
	desk = OF(AT(OF(&d), CDesk_at));
	SAME(desk[Desk_has_room], 0);
	SAME(timers_desk_reserve(&d), TIMERS_DESK_OK);
	SAME(desk[Desk_has_room], 1);
	/* The fourth serial, by the third request of client 2, and one that is pending. */
	SAME(timers_line_start(&lines[1], 1, 0, &sent) | timers_desk_serve(&d, 1) | timers_desk_tick(&d), TIMERS_DESK_OK);
	for (int k = 0; k < 3; k++)
		SAME(timers_line_start(&lines[2], k < 2 ? 1 : 5000, 77, &sent) | timers_desk_serve(&d, 2), TIMERS_DESK_OK);
	SAME(timers_desk_tick(&d), TIMERS_DESK_OK);
	SAME(timers_desk_flush(&d, 2), 5);
	while (timers_line_receive(&lines[2], &word) && word.deadline < 5000)
		continue;
	wheel(desk + TieredWheel_lazy_or_smooth, timers_desk_now(&d), TIMERS_LAST, word.handle.serial, 640 + SPARE, word.handle.place);
	entry = OF(AT(desk + TieredWheel_lazy_or_smooth, Wheel_links + Links_nodes)) + TimerEntry_size * word.handle.place;
	SAME(entry[TimerEntry_is_used], 1);
	SAME(AT(entry, TimerEntry_serial_or_next), word.handle.serial);
	SAME(AT(entry, TimerEntry_client), 2);
	SAME(AT(entry, TimerEntry_number), word.number);
	SAME(AT(entry, TimerEntry_deadline), word.deadline);
	SAME(AT(entry, TimerEntry_action), 77);
	SAME(AT(desk, Desk_clients), 3);
	SAME(AT(desk, Desk_capacity), 50);
	SAME(AT(desk, Desk_next_serial), word.handle.serial + 1);
	SAME(number(desk, Desk_numbers + 16, 8), word.number + 1);
	SAME(number(desk, Desk_counts + 16, 8), 1);
	SAME(AT(desk, Desk_inlets_length), 3);
	SAME(AT(desk, Desk_inlets_room), 3);
	SAME(AT(desk, Desk_backlogs_length), 3);
	SAME(AT(desk, Desk_backlogs_room), 3);
	SAME(AT(desk, Desk_kept_length) | AT(desk, Desk_kept_room), 0);
	SAME(AT(desk, Desk_returned_length), 0);
	SAME(AT(desk, Desk_returned_room), 50);
	SAME(desk[Desk_is_closed], 0);
	SAME(timers_desk_close(&d, &sent), TIMERS_DESK_OK);
	SAME(AT(desk, Desk_returned_length), sent);
	SAME(AT(desk, Desk_handed), sent);
	SAME(desk[Desk_is_closed], 1);
	timers_desk_free(&d);
	for (size_t k = 0; k < 3; k++)
		timers_line_free(&lines[k]);
}

int main(void)
{
	of_structs();
	of_timers(TIMERS_WIDE, 640 + SPARE);
	of_timers(TIMERS_SMALL, 96 + SPARE);
	of_timers(TIMERS_SMOOTH, 1280);
	of_desk();
	return failed;
}
