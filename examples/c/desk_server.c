/* A server with eight threads, and one owner that keeps their time-outs. A tick is a millisecond.
 *
 *     cc -pthread desk_server.c $(pkg-config --cflags --libs timers)
 *
 * Each worker keeps three, as for three connections. One is left to expire. One is stopped, since its reply came. One is
 * restarted, since its peer was heard from. That makes seven words: five answers, and two timers that have expired. */
#define _POSIX_C_SOURCE 200809L
#include <pthread.h>
#include <stdio.h>
#include <stdlib.h>
#include <timers_desk_bell.h>
#include <timers_loop.h>

enum { WORKERS = 8, WORDS = 7 };
static unsigned got[WORKERS][WORDS];              /* words, by their kind */
static struct timers_line lines[WORKERS];
static struct timers_bell bells[WORKERS], owners;
static struct timers_desk desk = TIMERS_DESK_INIT;
static void need(bool fact, const char *what) { if (!fact) perror(what), exit(1); }

static void *work(void *at)
{
	struct timers_line *line = at;
	struct timers_bell *bell = &bells[line->client];
	struct timers_word word;
	uint64_t number = 0, words = 0, busy = 1;
	while (number < 3)
		need(timers_line_start(line, number == 0 ? 30 : 60000, number, &number) == TIMERS_DESK_OK, "start");
	for (; words < WORDS; timers_bell_rest(bell, busy, -1)) {
		if (busy)
			timers_bell_ring(&owners);      /* there are requests, or room in the line */
		for (busy = 0; timers_line_receive(line, &word); busy = 1, words++, got[line->client][word.kind]++)
			if (word.kind == TIMERS_WORD_STARTED && word.number > 1)
				need((word.number == 2 ? timers_line_stop(line, word.handle, &number)
				      : timers_line_restart(line, word.handle, 50, 3, &number)) == TIMERS_DESK_OK, "a request");
	}
	timers_line_free(line);
	timers_bell_ring(&owners);
	return NULL;
}
int main(void)
{
	struct timers_desk_config config = { .size = sizeof config, .capacity = 1000, .room = 16, .line = 8 };
	const uint64_t begin = timers_loop_monotonic(NULL);
	pthread_t threads[WORKERS];
	need(timers_desk_new(&desk, lines, WORKERS, &config) == TIMERS_DESK_OK && timers_bell_new(&owners), "a desk");
	for (size_t c = 0; c < WORKERS; c++)
		need(timers_bell_new(&bells[c]) && pthread_create(&threads[c], NULL, work, &lines[c]) == 0, "a thread");
	for (size_t c = 0; c < WORKERS;) {
		uint64_t now = (timers_loop_monotonic(NULL) - begin) / 1000000;
		enum timers_desk_status turn = timers_desk_turn(&desk, now, bells, WORKERS);
		timers_bell_rest(&owners, turn == TIMERS_DESK_OK, timers_desk_patience(&desk, now, turn));
		for (; c < WORKERS && timers_desk_line_freed(&desk, c) && pthread_join(threads[c], NULL) == 0; c++)
			printf("worker %zu: %u started, %u stopped, %u restarted, %u expired\n", c, got[c][TIMERS_WORD_STARTED],
			       got[c][TIMERS_WORD_STOPPED], got[c][TIMERS_WORD_RESTARTED], got[c][TIMERS_WORD_EXPIRED]);
	}
	return timers_desk_len(&desk) > 0;        /* the system frees the desk and the bells */
}
