/* Desks and lines that are freed while the other side is still at work: ROUNDS desks, each with CLIENTS threads. Each side
 * sees that the other was freed, and not before; a client receives first what was put into its line.
 *
 *     desk_frees ROUNDS CLIENTS [SEED] */
#include <pthread.h>
#include <sched.h>
#include "timers_desk.h"
#include "check.h"

struct client { struct timers_line *line; uint64_t seed; unsigned long words; bool abandoned; };

static void *work(void *at)
{
	struct client *me = at;
	unsigned long turns = next_below(&me->seed, 300);
	struct timers_word w;
	uint64_t number, sent = 0, answered = 0;
	for (unsigned long i = 0; i < turns; i++) {
		unsigned long d = next_below(&me->seed, 8);
		struct timers_handle h = { next_below(&me->seed, 5), next_below(&me->seed, 20) };
		enum timers_desk_status s;
		if (d < 4)
			s = timers_line_start(me->line, next_below(&me->seed, 6), i, &number);
		else if (d < 5)
			s = timers_line_stop(me->line, h, &number);
		else
			s = timers_line_restart(me->line, h, 1 + next_below(&me->seed, 3), i, &number);
		CHECK(s == TIMERS_DESK_OK || s == TIMERS_DESK_LINE_FULL);
		if (s == TIMERS_DESK_OK)
			CHECK(number == ++sent);
		for (unsigned long n = next_below(&me->seed, 4); n-- && timers_line_receive(me->line, &w); me->words++)
			if (w.kind <= TIMERS_WORD_NOT_TAKEN)
				CHECK(w.number == ++answered);
		if (next_below(&me->seed, 4) == 0 && timers_line_abandoned(me->line)) {
			me->abandoned = true;
			CHECK(!timers_line_receive(me->line, &w));
		}
		CHECK(!me->abandoned || timers_line_abandoned(me->line));
		if (next_below(&me->seed, 16) == 0)
			sched_yield();
	}
	if (next_below(&me->seed, 2))
		CHECK(timers_line_finish(me->line) == TIMERS_DESK_OK);
	if (next_below(&me->seed, 2))
		timers_line_free(me->line);
	return NULL;
}

int main(int argc, char **argv)
{
	CHECK(argc >= 3);
	unsigned long rounds = strtoul(argv[1], NULL, 10), clients = strtoul(argv[2], NULL, 10), words = 0;
	uint64_t seed = argc > 3 ? strtoul(argv[3], NULL, 10) : 1;
	CHECK(clients <= TIMERS_DESK_CLIENTS);
	for (unsigned long r = 0; r < rounds; r++) {
		struct timers_desk d = TIMERS_DESK_INIT;
		struct timers_line lines[TIMERS_DESK_CLIENTS] = { TIMERS_LINE_INIT };
		struct timers_desk_config config = {
			sizeof config, next_below(&seed, 3), 1 + next_below(&seed, 200), 2 + next_below(&seed, 40), 1 + next_below(&seed, 16),
			(uint32_t)next_below(&seed, 2),
		};
		struct client all[TIMERS_DESK_CLIENTS] = { { NULL, 0, 0, false } };
		pthread_t threads[TIMERS_DESK_CLIENTS];
		struct timers_word w;
		uint64_t passed, returned;
		bool freed[TIMERS_DESK_CLIENTS] = { false };
		CHECK(timers_desk_new(&d, lines, clients, &config) == TIMERS_DESK_OK);
		for (unsigned long c = 0; c < clients; c++) {
			all[c].line = &lines[c];
			all[c].seed = 1 + next_below(&seed, UINT32_MAX);
			CHECK(pthread_create(&threads[c], NULL, work, &all[c]) == 0);
		}
		for (unsigned long i = next_below(&seed, 200); i--;) {
			timers_desk_serve_all(&d, 1 + next_below(&seed, 9));
			timers_desk_flush_all(&d);
			if (next_below(&seed, 2))
				timers_desk_tick(&d);
			else
				timers_desk_advance(&d, next_below(&seed, 5), &passed);
			if (next_below(&seed, 64) == 0) {
				enum timers_desk_status closed = timers_desk_close(&d, &returned);
				CHECK(closed == TIMERS_DESK_OK || closed == TIMERS_DESK_CLOSED);
			}
			if (next_below(&seed, 16) == 0)
				sched_yield();
			unsigned long c = next_below(&seed, clients);
			bool now = timers_desk_line_freed(&d, c);
			CHECK(now || !freed[c]);
			freed[c] = now;
		}
		/* the desk is freed beside the threads, or after them */
		bool beside = next_below(&seed, 2);
		if (beside)
			timers_desk_free(&d);
		for (unsigned long c = 0; c < clients; c++)
			CHECK(pthread_join(threads[c], NULL) == 0);
		for (unsigned long c = 0; !beside && c < clients; c++) {
			CHECK(timers_desk_line_freed(&d, c) == (lines[c].mark == 0));
			CHECK(!all[c].abandoned && !timers_line_abandoned(&lines[c]));
		}
		if (!beside)
			timers_desk_free(&d);
		for (unsigned long c = 0; c < clients; c++) {
			bool held = lines[c].mark != 0;
			for (; timers_line_receive(&lines[c], &w); all[c].words++)
				CHECK(!all[c].abandoned);
			CHECK(timers_line_abandoned(&lines[c]) == held);
			words += all[c].words;
			timers_line_free(&lines[c]);
		}
	}
	printf("%lu rounds of %lu clients, %lu words\n", rounds, clients, words);
	return 0;
}
