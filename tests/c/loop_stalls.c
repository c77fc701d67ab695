/* A server over timers_loop.h, simulated, that stalls anywhere: no client that talks is hung up on, each silent one is.
 *
 *     loop_stalls [TURNS] [SEED]
 *
 * The poll is epoll's, of sockets that are a list here: it hands out as many as its array has room for, in turn. A client
 * that talks sends its next message at most TALK ticks after the answer to the last. The server hangs up after IDLE ticks
 * without input. Each call of the clock, the poll and the server may stall, for many times that. In every other run the
 * server is so busy that its array is always full. */
#define _POSIX_C_SOURCE 200809L
#include <timers_loop.h>
#include "check.h"

enum { CLIENTS = 200, IDLE = 300, TALK = 150, ROOM = 8, LENGTH = 1000, SILENT = 10 };

static struct client {
	struct timers_event idle;
	uint64_t sends;                  /* when, in nanoseconds, or never */
	bool ready, closed;              /* ready: in the list of sockets with input */
} clients[CLIENTS];
static size_t list[CLIENTS + ROOM], listed;

static struct timers_loop loop = TIMERS_LOOP_INIT;
static uint64_t now = 1000000, seed, hung_up, heard, stalls, longest, talk = TALK, handling;

static uint64_t below(uint64_t n) { return next_below(&seed, n); }

/* Time passes, and what is sent meanwhile arrives. */
static void pass(uint64_t time)
{
	size_t i;

	now += time;
	for (i = 0; i < CLIENTS; i++) {
		struct client *c = &clients[i];

		if (c->sends > now || c->closed)
			continue;
		c->sends = UINT64_MAX;
		c->ready = true;
		list[listed++] = i;
	}
}

static void maybe_stall(void)
{
	if (below(3000) > 0)
		return;
	pass(below(2) ? below(8 * IDLE) * LENGTH : below(60) * LENGTH);
	stalls++;
}

static uint64_t clock_of(void *data)
{
	const uint64_t time = now;

	(void)data;
	maybe_stall();
	return time;
}

/* As epoll_wait, but with a time until which it sleeps if there is no input. */
static int poll_sockets(size_t *out, uint64_t end)
{
	int n = 0;
	size_t i;

	maybe_stall();
	while (listed == 0 && now < end)
		pass(LENGTH / 4);
	for (; n < ROOM && listed > 0; n++) {
		out[n] = list[0];
		for (i = 0, listed--; i < listed; i++)
			list[i] = list[i + 1];
	}
	maybe_stall();
	return n;
}

static void hang_up(struct timers_loop *l, struct timers_event *event, uint64_t tick)
{
	struct client *c = timers_event_owner(event, struct client, idle);
	const size_t number = (size_t)(c - clients);

	(void)l, (void)tick;
	CHECK(number % SILENT == 0 && !c->closed);
	c->closed = true;
	hung_up++;
	maybe_stall();
}

static void serve(struct client *c)
{
	maybe_stall();
	CHECK(c->ready && !c->closed);
	c->ready = false;
	heard++;
	pass(handling);
	c->sends = now + below(talk * LENGTH);          /* the answer is sent before the time-out is pushed back */
	maybe_stall();
	CHECK(timers_event_push_back(&loop, &c->idle, IDLE));
	maybe_stall();
}

static void turn(void)
{
	size_t out[ROOM];
	int ready, i;

	maybe_stall();
	ready = poll_sockets(out, timers_loop_deadline(&loop));
	timers_loop_polled(&loop, ready, ROOM);
	for (i = 0; i < ready; i++)
		serve(&clients[out[i]]);
	maybe_stall();
	timers_loop_dispatch(&loop, below(2) ? 1 + below(3) : SIZE_MAX);
}

int main(int argc, char **argv)
{
	const uint64_t turns = argc > 1 ? strtoull(argv[1], NULL, 10) : 100000;
	const uint64_t run = argc > 2 ? strtoull(argv[2], NULL, 10) : 0;
	uint64_t i, started;

	seed = run * 2 + 1;
	if (run % 2) {                           /* some 180 talk every 20 ticks, and each takes one to handle */
		talk = 20;
		handling = LENGTH;
	}
	CHECK(timers_loop_new(&loop, clock_of, NULL, LENGTH) == TIMERS_OK);
	loop.watched = CLIENTS;
	started = now;
	for (i = 0; i < CLIENTS; i++) {
		clients[i].idle.run = hang_up;
		clients[i].sends = i % SILENT == 0 ? UINT64_MAX : now + below(talk * LENGTH);
		CHECK(timers_event_after(&loop, &clients[i].idle, IDLE) == TIMERS_OK);
	}
	for (i = 0; i < turns; i++) {
		turn();
		if (hung_up == CLIENTS / SILENT && longest == 0)
			longest = now;
	}
	CHECK(hung_up == CLIENTS / SILENT && loop.alive == CLIENTS - hung_up);
	printf("%llu turns, %llu stalls, %llu messages; the silent ones were hung up on after %llu ticks\n", (unsigned long long)turns,
	       (unsigned long long)stalls, (unsigned long long)heard, (unsigned long long)(longest - started) / LENGTH);
	timers_loop_free(&loop);
	return 0;
}
