/* Clients that come and go in threads: LIVES clients have each of CLIENTS numbers, one after another. A client starts
 * and restarts timers, and checks its words and the sum of their actions. It frees its line once it has all its words,
 * or at any time before. The owner stops the timers of a client that is gone, and opens a line for the next one. Request
 * numbers continue, and no word to a client before arrives.
 *
 *     desk_lives CLIENTS LIVES [SEED] */
#include <inttypes.h>
#include <pthread.h>
#include <sched.h>
#include <stdatomic.h>
#include "timers_desk.h"
#include "check.h"

#define TIMERS 16       /* the most that a client keeps */
#define LINE 4          /* the most requests of a client without an answer */
#define MOST 40         /* the most requests of a client */

struct client {
	struct timers_line line;
	uint64_t life, seed, first, sent, words;        /* the number of its first request, and how many it sent */
	bool has_all;                                   /* it received all its words, and nothing of it is left */
	atomic_bool is_done;
};

static uint64_t action_of(const struct client *me, uint64_t request) { return me->life << 32 | request; }

static void *work(void *at)
{
	struct client *me = at;
	const uint64_t wanted = next_below(&me->seed, MOST), most = next_below(&me->seed, 2) ? UINT64_MAX : next_below(&me->seed, 400);
	uint64_t serial[MOST] = { 0 }, answered = 0, pending = 0, sum = 0, number, old;
	struct timers_handle again = { 0, 0 };          /* a timer to be restarted, if its serial is not 0 */
	struct timers_word w;

	for (uint64_t step = 0; step < most && (me->sent < wanted || answered < me->sent || pending); step++) {
		if (me->sent < wanted && me->sent - answered < LINE && pending + me->sent - answered < TIMERS) {
			const uint64_t interval = 1 + next_below(&me->seed, 30), action = action_of(me, me->sent);
			CHECK((again.serial ? timers_line_restart(&me->line, again, interval, action, &number)
				: timers_line_start(&me->line, interval, action, &number)) == TIMERS_DESK_OK);
			me->first = me->sent ? me->first : number;
			CHECK(number == me->first + me->sent++);
			again.serial = 0;
		}
		if (!timers_line_receive(&me->line, &w)) {
			sched_yield();
			continue;
		}
		me->words++;
		CHECK(w.number >= me->first && w.number < me->first + me->sent);
		const uint64_t request = w.number - me->first;
		if (w.kind == TIMERS_WORD_EXPIRED) {
			CHECK(w.action == action_of(me, request) && w.handle.serial == serial[request]);
			sum -= w.action, pending--;
			continue;
		}
		CHECK(request == answered++);
		if (w.kind == TIMERS_WORD_REFUSED) {
			CHECK(w.reason == TIMERS_DESK_NOT_PENDING);     /* it had expired */
			continue;
		}
		CHECK(w.kind == TIMERS_WORD_STARTED || w.kind == TIMERS_WORD_RESTARTED);
		serial[request] = w.handle.serial;
		sum += action_of(me, request), pending++;
		if (w.kind == TIMERS_WORD_RESTARTED) {
			for (old = 0; serial[old] != w.other; old++)
				CHECK(old < request);
			sum -= action_of(me, old), pending--;
		}
		if (next_below(&me->seed, 4) == 0)
			again = w.handle;
	}
	me->has_all = me->sent == wanted && answered == me->sent && pending == 0;
	CHECK(!me->has_all || sum == 0);
	timers_line_free(&me->line);
	atomic_store(&me->is_done, true);
	return NULL;
}

static struct client all[TIMERS_DESK_CLIENTS];
static pthread_t threads[TIMERS_DESK_CLIENTS];
static uint64_t seed = 1, words, stopped, had_all;

/* The next client with a number, whose line was opened. */
static void begin(size_t c, uint64_t life)
{
	all[c].life = life, all[c].seed = 1 + next_below(&seed, UINT32_MAX), all[c].words = all[c].sent = 0;
	atomic_store(&all[c].is_done, false);
	CHECK(pthread_create(&threads[c], NULL, work, &all[c]) == 0);
}

/* A client has ended: its line is opened for the next once nothing of it is left. Returns whether it was. */
static bool opens(struct timers_desk *d, size_t c, uint64_t *last)
{
	const struct client before = { .first = all[c].first, .sent = all[c].sent, .has_all = all[c].has_all };
	uint64_t count;
	enum timers_desk_status s;

	CHECK(timers_desk_line_freed(d, c));
	while ((s = timers_desk_serve(d, c)) == TIMERS_DESK_OK)
		timers_desk_flush(d, c);
	CHECK(s == TIMERS_DESK_IDLE);           /* it never lacked room */
	CHECK(timers_desk_stop_pending(d, c, &count) == TIMERS_DESK_OK && timers_desk_pending(d, c) == 0);
	CHECK(!before.has_all || count == 0);
	stopped += count;
	*last += count;
	timers_desk_flush(d, c);
	s = timers_desk_open(d, c, &all[c].line, LINE);
	CHECK(s == TIMERS_DESK_OK || (s == TIMERS_DESK_LEFT && !before.has_all));
	return s == TIMERS_DESK_OK;
}

int main(int argc, char **argv)
{
	CHECK(argc >= 3);
	const size_t clients = strtoul(argv[1], NULL, 10);
	const uint64_t lives = strtoull(argv[2], NULL, 10);
	struct timers_desk d = TIMERS_DESK_INIT;
	struct timers_line lines[TIMERS_DESK_CLIENTS] = { TIMERS_LINE_INIT };
	const struct timers_desk_config config = {
		.size = sizeof config, .capacity = 4096, .room = TIMERS + LINE + 1, .line = LINE,
	};
	bool joined[TIMERS_DESK_CLIENTS] = { false };
	uint64_t last[TIMERS_DESK_CLIENTS] = { 0 };     /* the number of the last request */
	size_t left = clients;

	seed = argc > 3 ? strtoull(argv[3], NULL, 10) : 1;
	CHECK(clients <= TIMERS_DESK_CLIENTS && timers_desk_new(&d, lines, clients, &config) == TIMERS_DESK_OK);
	for (size_t c = 0; c < clients; c++) {
		all[c].line = lines[c];
		begin(c, 1);
	}
	while (left > 0) {
		bool busy = timers_desk_serve_all(&d, 16) == TIMERS_DESK_OK;
		busy |= timers_desk_flush_all(&d);
		CHECK(timers_desk_tick(&d) == TIMERS_DESK_OK);
		for (size_t c = 0; c < clients; c++) {
			if (!atomic_load(&all[c].is_done) || all[c].life > lives)
				continue;
			if (!joined[c]) {
				CHECK(pthread_join(threads[c], NULL) == 0);
				joined[c] = true;
				/* its first number comes right after the last of the client before and the stops for that one */
				CHECK(all[c].sent == 0 || all[c].first == last[c] + 1);
				last[c] += all[c].sent;
				words += all[c].words;
				had_all += all[c].has_all;
			}
			if (!opens(&d, c, &last[c]))
				continue;
			joined[c] = false;
			if (all[c].life == lives) {
				timers_line_free(&all[c].line);
				all[c].life++, left--;
				continue;
			}
			begin(c, all[c].life + 1);
		}
		if (!busy)
			sched_yield();
	}
	CHECK(timers_desk_len(&d) == 0);
	timers_desk_free(&d);
	printf("%zu numbers, %" PRIu64 " lives each: %" PRIu64 " clients received all their words, ", clients, lives, had_all);
	printf("%" PRIu64 " words in all, %" PRIu64 " timers stopped\n", words, stopped);
	/* Of many clients some do each, however busy the machine is; of thirty perhaps none. */
	CHECK(clients * lives < 200 || (had_all > 0 && stopped > 0));
	return 0;
}
