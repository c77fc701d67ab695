/* What the clients of desk_threads.c and desk_ring.cpp have in common, in C and in C++: what a client starts, what it checks,
 * and what is timed and printed. desk_threads.c describes it. */
#include <inttypes.h>
#include <pthread.h>
#include <sched.h>
#include <stdbool.h>
#include <stddef.h>
#include <stdio.h>
#include <stdlib.h>
#include <string.h>
#include <time.h>

#include "../include/timers_desk.h"

#define CHECK(fact) do { if (!(fact)) { fprintf(stderr, "line %d: %s\n", __LINE__, #fact); exit(1); } } while (0)

enum { MAX_CLIENTS = TIMERS_DESK_CLIENTS, AT_MOST = 960, IDLE_PASSES = 64 };

/* The times of a client, so that no two threads write to one place. */
struct times {
	uint32_t *ns;
	size_t kept;
};

struct client {
	size_t c;
	uint64_t timers, sent, answered, expired;
	uint64_t *deadline;      /* of the timer that request n started */
	uint64_t *asked;         /* when request n was first tried */
	struct times starts, answers;
	void *line;
	char apart[64];
};

static size_t clients;
static size_t at_work;

static size_t clients_at_work(void) { return __atomic_load_n(&at_work, __ATOMIC_SEQ_CST); }
static void *end_work(void)
{
	__atomic_fetch_sub(&at_work, 1, __ATOMIC_SEQ_CST);
	return NULL;
}

static uint64_t nanoseconds(void)
{
	struct timespec t;
	clock_gettime(CLOCK_MONOTONIC, &t);
	return (uint64_t)t.tv_sec * 1000000000u + (uint64_t)t.tv_nsec;
}

static void keep(struct times *times, uint64_t ns)
{
	times->ns[times->kept++] = ns < UINT32_MAX ? (uint32_t)ns : UINT32_MAX;
}

static uint64_t interval_of(const struct client *me, uint64_t n) { return 1 + (n * 7 + me->c) % 50; }
static uint64_t action_of(const struct client *me, uint64_t n) { return (uint64_t)me->c << 32 | n; }

static bool may_start(const struct client *me) { return me->sent < me->timers && me->sent - me->expired < AT_MOST; }

static void take_answer(struct client *me, uint64_t number, uint64_t deadline)
{
	CHECK(number == me->answered + 1 && number <= me->sent);
	me->answered = number;
	me->deadline[number] = deadline;
	keep(&me->answers, nanoseconds() - me->asked[number]);
}

static void take_expired(struct client *me, uint64_t number, uint64_t action, uint64_t deadline)
{
	CHECK(number >= 1 && number <= me->sent && action == action_of(me, number) && deadline == me->deadline[number]);
	me->deadline[number] = 0;
	me->expired++;
}

static void begin(pthread_t *threads, struct client *all, void *(*work)(void *))
{
	for (size_t c = 0; c < clients; c++)
		CHECK(pthread_create(&threads[c], NULL, work, &all[c]) == 0);
}

static void end(pthread_t *threads)
{
	for (size_t c = 0; c < clients; c++)
		CHECK(pthread_join(threads[c], NULL) == 0);
}

static int by_size(const void *a, const void *b)
{
	uint32_t x = *(const uint32_t *)a, y = *(const uint32_t *)b;
	return (x > y) - (x < y);
}

/* The median, the 99.9th and 99.99th percentiles and the most of all clients' times. */
static void print_times(const struct client *all, size_t offset)
{
	size_t many = 0, at = 0;
	for (size_t c = 0; c < clients; c++)
		many += ((const struct times *)((const char *)&all[c] + offset))->kept;
	uint32_t *ns = (uint32_t *)malloc((many + 1) * sizeof *ns);
	CHECK(ns && many > 0);
	for (size_t c = 0; c < clients; c++) {
		const struct times *times = (const struct times *)((const char *)&all[c] + offset);
		memcpy(ns + at, times->ns, times->kept * sizeof *ns);
		at += times->kept;
	}
	qsort(ns, many, sizeof *ns, by_size);
	printf(" %" PRIu32 " %" PRIu32 " %" PRIu32 " %" PRIu32, ns[many / 2], ns[many * 999 / 1000], ns[many * 9999 / 10000], ns[many - 1]);
	free(ns);
}

static struct times new_times(size_t count)
{
	struct times times = { (uint32_t *)malloc(count * sizeof(uint32_t)), 0 };
	CHECK(times.ns);
	memset(times.ns, 1, count * sizeof(uint32_t));     /* its pages are there before the threads run */
	return times;
}

/* All of them 0. They are written one by one, and not by calloc, so that no start is charged for the first use of a page. */
static uint64_t *new_numbers(size_t count)
{
	volatile uint64_t *numbers = (uint64_t *)malloc(count * sizeof *numbers);
	CHECK(numbers);
	for (size_t n = 0; n < count; n++)
		numbers[n] = 0;
	return (uint64_t *)numbers;
}

/* As many clients as `count`, none of which has sent anything. */
static struct client *new_clients(const char *count, const char *timers)
{
	clients = strtoul(count, NULL, 10);
	uint64_t each = strtoull(timers, NULL, 10);
	CHECK(clients >= 1 && clients <= MAX_CLIENTS && each >= 1);
	struct client *all = (struct client *)calloc(clients, sizeof *all);
	CHECK(all);
	for (size_t c = 0; c < clients; c++) {
		all[c].c = c;
		all[c].timers = each;
		all[c].deadline = new_numbers(each + 1);
		all[c].asked = new_numbers(each + 1);
		all[c].starts = new_times(each);
		all[c].answers = new_times(each);
	}
	at_work = clients;
	return all;
}

/* Checks that each client has started its timers and got all its words, and prints the line of numbers. */
static void print_run(const struct client *all, uint64_t ns, bool answers)
{
	uint64_t words = 0;
	for (size_t c = 0; c < clients; c++) {
		CHECK(all[c].sent == all[c].timers && all[c].expired == all[c].timers && (!answers || all[c].answered == all[c].timers));
		words += 2 * all[c].timers;
	}
	printf("%" PRIu64 " %.6f", words, 1e-9 * (double)ns);
	print_times(all, offsetof(struct client, starts));
	print_times(all, offsetof(struct client, answers));
	putchar('\n');
}
