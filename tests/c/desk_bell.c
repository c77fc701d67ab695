/* Threads that wake each other by timers_desk_bell.h: no ring is lost, and few are system calls.
 *
 *     desk_bell pass ROUNDS       two threads pass a number to and fro, and sleep in between, one in a poll of its own
 *     desk_bell load TIMERS       eight clients each start and stop TIMERS timers, 1,000 at a time, at a desk
 *
 * Before that it tests single calls. It links with --wrap=write, and prints how often threads rang, and how many system
 * calls that was. If a ring is lost, an alarm ends it. */
#define _POSIX_C_SOURCE 200809L
#include <pthread.h>
#include <string.h>
#include <timers_desk_bell.h>
#include <timers_loop.h>
#include "check.h"

enum { CLIENTS = 8, FLIGHT = 1000 };

static struct timers_bell bells[CLIENTS], owners;
static unsigned long rings, writes, most;

ssize_t __real_write(int file, const void *bytes, size_t size);
ssize_t __wrap_write(int file, const void *bytes, size_t size)
{
	__atomic_fetch_add(&writes, 1, __ATOMIC_RELAXED);
	return __real_write(file, bytes, size);
}

static void ring(struct timers_bell *bell)
{
	__atomic_fetch_add(&rings, 1, __ATOMIC_RELAXED);
	timers_bell_ring(bell);
}

/* Two threads: the one makes an even number odd, the other an odd one even. It isn't atomic with the rings around it. */
static unsigned long number;

static bool step(unsigned long parity, struct timers_bell *other)
{
	const unsigned long now = __atomic_load_n(&number, __ATOMIC_RELAXED);

	if (now % 2 != parity || now >= 2 * most)
		return false;
	__atomic_store_n(&number, now + 1, __ATOMIC_RELAXED);
	ring(other);
	return true;
}

static bool passed(void) { return __atomic_load_n(&number, __ATOMIC_RELAXED) >= 2 * most; }

static void *rests(void *at)
{
	(void)at;
	while (!passed())
		timers_bell_rest(&bells[0], step(0, &bells[1]), -1);
	return NULL;
}

static void *polls(void *at)
{
	struct pollfd wait = { bells[1].wakes, POLLIN, 0 };

	(void)at;
	while (!passed()) {
		if (step(1, &bells[0]))
			continue;
		timers_bell_listen(&bells[1]);
		if (!step(1, &bells[0]) && !passed())
			poll(&wait, 1, -1);
		timers_bell_hush(&bells[1]);
	}
	return NULL;
}

static void pass(void)
{
	pthread_t threads[2];

	CHECK(pthread_create(&threads[0], NULL, rests, NULL) == 0 && pthread_create(&threads[1], NULL, polls, NULL) == 0);
	pthread_join(threads[1], NULL);
	timers_bell_ring(&bells[0]);
	pthread_join(threads[0], NULL);
}

/* Clients at a desk. */
static struct timers_line lines[CLIENTS];
static struct timers_desk desk = TIMERS_DESK_INIT;

static void *work(void *at)
{
	struct timers_line *line = (struct timers_line *)at;
	unsigned long sent = 0, stopped = 0;
	struct timers_word word;
	uint64_t request;

	while (stopped < most) {
		bool busy = false;

		for (; sent < most && sent - stopped < FLIGHT
		       && timers_line_start(line, 60000, sent, &request) == TIMERS_DESK_OK; sent++)
			busy = true;
		for (; timers_line_receive(line, &word); busy = true)
			if (word.kind == TIMERS_WORD_STARTED)
				CHECK(timers_line_stop(line, word.handle, &request) == TIMERS_DESK_OK);
			else
				CHECK(word.kind == TIMERS_WORD_STOPPED && ++stopped > 0);
		if (busy)
			ring(&owners);
		timers_bell_rest(&bells[line->client], busy, -1);
	}
	timers_line_free(line);
	ring(&owners);
	return NULL;
}

static void load(void)
{
	struct timers_desk_config config;
	pthread_t threads[CLIENTS];
	size_t c, gone = 0;

	memset(&config, 0, sizeof config);
	config.size = sizeof config;
	config.capacity = CLIENTS * FLIGHT;
	config.room = 3 * FLIGHT;
	config.line = 2 * FLIGHT;
	CHECK(timers_desk_new(&desk, lines, CLIENTS, &config) == TIMERS_DESK_OK);
	for (c = 0; c < CLIENTS; c++)
		CHECK(pthread_create(&threads[c], NULL, work, &lines[c]) == 0);
	while (gone < CLIENTS) {
		enum timers_desk_status status = timers_desk_turn(&desk, 1, bells, CLIENTS);

		timers_bell_rest(&owners, status == TIMERS_DESK_OK, timers_desk_patience(&desk, 1, status));
		for (; gone < CLIENTS && timers_desk_line_freed(&desk, gone); gone++)
			pthread_join(threads[gone], NULL);
	}
	CHECK(timers_desk_len(&desk) == 0);
	timers_desk_free(&desk);
}

/* When a bell is heard: how many calls of write it took to ring. */
static unsigned long calls(struct timers_bell *bell)
{
	const unsigned long before = writes;

	timers_bell_ring(bell);
	return writes - before;
}

static bool readable(const struct timers_bell *bell)
{
	struct pollfd now = { bell->wakes, POLLIN, 0 };

	return poll(&now, 1, 0) == 1;
}

static void edges_of_bells(void)
{
	struct timers_bell *bell = &bells[0];
	uint64_t begin;
	int i;

	CHECK(calls(bell) == 0 && !readable(bell));
	for (i = 0; i <= TIMERS_BELL_LOOKS; i++) {
		CHECK(calls(bell) == 0);
		timers_bell_rest(bell, false, -1);          /* doesn't sleep yet */
	}
	CHECK(calls(bell) == 1 && calls(bell) == 0 && readable(bell));
	timers_bell_rest(bell, false, -1);                  /* is woken at once */
	CHECK(!readable(bell) && calls(bell) == 0);
	for (i = 0; i <= TIMERS_BELL_LOOKS; i++)
		timers_bell_rest(bell, false, -1);
	timers_bell_rest(bell, true, -1);                   /* there was work after all */
	CHECK(calls(bell) == 0);
	begin = timers_loop_monotonic(NULL);
	for (i = 0; i <= TIMERS_BELL_LOOKS + 1; i++)
		timers_bell_rest(bell, false, 20);
	CHECK(calls(bell) == 0 && timers_loop_monotonic(NULL) - begin >= 20000000);
}

/* The descriptors of a bell never wait, stay in no program that is called, and are given back. */
static void edges_of_descriptors(void)
{
	int wakes = -1, rung = -1, i;

	for (i = 0; i < 3; i++) {
		struct timers_bell bell;

		CHECK(timers_bell_new(&bell) && (i == 0 || (bell.wakes == wakes && bell.rung == rung)));
		wakes = bell.wakes;
		rung = bell.rung;
		CHECK((fcntl(wakes, F_GETFL) & O_NONBLOCK) != 0 && (fcntl(rung, F_GETFL) & O_NONBLOCK) != 0);
		CHECK((fcntl(wakes, F_GETFD) & FD_CLOEXEC) != 0 && (fcntl(rung, F_GETFD) & FD_CLOEXEC) != 0);
		timers_bell_free(&bell);
	}
}

/* Of turns at a desk with one client, and how long its owner may sleep. */
static void edges_of_turns(void)
{
	struct timers_desk_config config;
	struct timers_word word;
	uint64_t request;

	memset(&config, 0, sizeof config);
	config.size = sizeof config;
	config.capacity = config.room = config.line = 4;
	CHECK(timers_desk_turn(&desk, 1, bells, 1) == TIMERS_DESK_NOT_OPEN);
	CHECK(timers_desk_new(&desk, lines, 1, &config) == TIMERS_DESK_OK);
	CHECK(timers_desk_turn(&desk, 7, bells, 1) == TIMERS_DESK_IDLE && timers_desk_now(&desk) == 7);
	CHECK(timers_desk_patience(&desk, 7, TIMERS_DESK_IDLE) == -1);
	CHECK(timers_desk_patience(&desk, 7, TIMERS_DESK_NO_MEMORY) == 10);
	CHECK(timers_line_start(&lines[0], UINT64_C(1) << 36, 1, &request) == TIMERS_DESK_OK);
	CHECK(timers_desk_turn(&desk, 7, bells, 1) == TIMERS_DESK_OK && timers_line_receive(&lines[0], &word));
	CHECK(timers_desk_patience(&desk, 7, TIMERS_DESK_IDLE) == INT_MAX);
	CHECK(timers_line_stop(&lines[0], word.handle, &request) == TIMERS_DESK_OK);
	CHECK(timers_desk_turn(&desk, 7, bells, 1) == TIMERS_DESK_OK && timers_line_receive(&lines[0], &word));
	CHECK(timers_line_start(&lines[0], 20, 1, &request) == TIMERS_DESK_OK);
	CHECK(timers_desk_turn(&desk, 8, bells, 1) == TIMERS_DESK_OK && timers_line_receive(&lines[0], &word));
	CHECK(word.deadline == 28 && timers_desk_patience(&desk, 8, TIMERS_DESK_IDLE) == 20);
	CHECK(timers_desk_patience(&desk, 8, TIMERS_DESK_NO_MEMORY) == 10);
	CHECK(timers_desk_patience(&desk, 27, TIMERS_DESK_IDLE) == 1 && timers_desk_patience(&desk, 28, TIMERS_DESK_IDLE) == 0);
	CHECK(timers_desk_patience(&desk, 40, TIMERS_DESK_IDLE) == 0);

	/* Two timers expire in a turn that takes no request: words are moved. */
	CHECK(timers_line_start(&lines[0], 21, 2, &request) == TIMERS_DESK_OK);
	CHECK(timers_desk_turn(&desk, 8, bells, 1) == TIMERS_DESK_OK && timers_line_receive(&lines[0], &word));
	CHECK(timers_desk_turn(&desk, 40, bells, 1) == TIMERS_DESK_OK && timers_desk_now(&desk) == 40);
	CHECK(timers_line_receive(&lines[0], &word) && timers_line_receive(&lines[0], &word));
	CHECK(word.kind == TIMERS_WORD_EXPIRED && word.deadline == 29);
	CHECK(timers_desk_turn(&desk, 30, bells, 1) == TIMERS_DESK_IDLE && timers_desk_now(&desk) == 40);
	timers_line_free(&lines[0]);
	timers_desk_free(&desk);
}

int main(int argc, char **argv)
{
	size_t c;

	CHECK(argc == 3 && timers_bell_new(&owners));
	most = strtoul(argv[2], NULL, 10);
	for (c = 0; c < CLIENTS; c++)
		CHECK(timers_bell_new(&bells[c]));
	alarm(60);
	edges_of_bells();
	edges_of_descriptors();
	edges_of_turns();
	writes = 0;
	if (strcmp(argv[1], "pass") == 0)
		pass();
	else
		load();
	printf("%lu rings, without those of timers_desk_turn; %lu system calls\n", rings, writes);
	for (c = 0; c < CLIENTS; c++)
		timers_bell_free(&bells[c]);
	timers_bell_free(&owners);
	return 0;
}
