/* One-shot and periodic jobs beside input, over poll. It reads what comes on standard input, prints how many bytes, and
 * ends with the last job.
 *
 *     cc -std=gnu11 event_loop.c $(pkg-config --cflags --libs timers) && ./a.out
 *
 * A tick is a millisecond since the program began. */
#define _POSIX_C_SOURCE 200809L
#include <inttypes.h>
#include <poll.h>
#include <stdio.h>
#include <stdlib.h>
#include <unistd.h>
#include <timers_loop.h>

enum { ONCE, TENS, SIXTEENS, NEVER, PUSHES, STOPS, JOBS };
static struct job {
	const char *name;
	uint64_t first;
	unsigned runs;                /* how often it is to run yet */
	struct timers_event event;
} jobs[JOBS] = {
	[ONCE] = { .name = "once after 25 ms", .first = 25, .runs = 1 },
	[TENS] = { .name = "every 10 ms, five times", .first = 10, .runs = 5, .event.period = 10 },
	[SIXTEENS] = { .name = "every 16 ms, three times", .first = 16, .runs = 3, .event.period = 16 },
	[NEVER] = { .name = "never: pushed back at 20 ms, cancelled at 70 ms", .first = 40, .runs = 1 },
	[PUSHES] = { .name = "pushes it back", .first = 20, .runs = 1 },
	[STOPS] = { .name = "cancels it", .first = 70, .runs = 1 },
};

/* Nanoseconds since the first call. */
static uint64_t since_begin(void *first)
{
	uint64_t *begin = first, now = timers_loop_monotonic(NULL);
	if (*begin == 0)
		*begin = now;
	return now - *begin;
}

static void run(struct timers_loop *loop, struct timers_event *event, uint64_t tick)
{
	struct job *job = timers_event_owner(event, struct job, event);
	printf("%3" PRIu64 " ms: %s\n", tick, job->name);
	if (job == &jobs[PUSHES])
		timers_event_push_back(loop, &jobs[NEVER].event, 60);
	if (job == &jobs[STOPS])
		timers_event_cancel(loop, &jobs[NEVER].event);
	if (--job->runs == 0)
		timers_event_cancel(loop, event);
}

int main(void)
{
	struct timers_loop loop = TIMERS_LOOP_INIT;
	struct pollfd input = { STDIN_FILENO, POLLIN, 0 };
	uint64_t begin = 0;
	if (timers_loop_new(&loop, since_begin, &begin, 1000000) != TIMERS_OK)
		return 1;
	for (struct job *job = jobs; job < jobs + JOBS; job++) {
		job->event.run = run;
		job->event.catches_up = true;
		if (timers_event_at(&loop, &job->event, job->first) != TIMERS_OK)
			return 1;
	}
	while (loop.alive > 0) {
		poll(&input, 1, timers_loop_timeout(&loop));
		if (input.revents != 0) {
			char line[256];
			ssize_t count = read(STDIN_FILENO, line, sizeof line);
			printf("%zd bytes of input\n", count);
			if (count <= 0)
				input.fd = -1;        /* poll ignores it from now on */
		}
		timers_loop_dispatch(&loop, 100);
	}
	timers_loop_free(&loop);
	return 0;
}
