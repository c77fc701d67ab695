/* Three loads of an event loop over the timers of peers.h, on a logical clock: a turn each tick, which takes what is due, sets
 * timers, and asks for the next deadline. Compiles as C and C++.
 *
 *     peers LOAD TIMERS TICKS SETS
 *
 *     idle      SETS of the owners, at random, push back a time-out of 6,000 ticks; one that expires is set again
 *     resend    one of 16 stops its time-out, the others set it to 200 to 3,000 ticks; one that expires doubles it
 *     expire    SETS timers are started, and all expire: some TIMERS of them are pending
 *
 * Prints nanoseconds of processor time for a set, a stop or an expiry, how many there were of each, at how many ticks a loop
 * has to wake up, and a sum of the order of expiries. Aborts if sleeping until the next deadline leads to no timer, or past one. */
#ifndef _GNU_SOURCE
#define _GNU_SOURCE
#endif
#include <stdbool.h>
#include <stdint.h>
#include <stdio.h>
#include <stdlib.h>
#include <string.h>
#include <time.h>
#include "peers.h"

struct owner {
	struct node node;
	uint64_t length, at;
	uint32_t more[10];                       /* what else a connection has */
};
static struct owner *owners, **spare;        /* spare: those without a timer, in another order than that of memory */
static size_t timers_in_all, spares;
static unsigned sets_a_tick;
static uint64_t seed = 88172645463325252, sets, stops, takes, wakes, sum;

static inline uint64_t draw(void)
{
	seed ^= seed << 13;
	seed ^= seed >> 7;
	seed ^= seed << 17;
	return seed;
}

static inline void set_for(struct owner *o, uint64_t now, uint64_t ticks)
{
	o->length = ticks;
	o->at = now + ticks;
	set(&o->node, o->at);
	sets++;
}

static inline void expire(char load, uint64_t now)
{
	for (struct node *n; (n = take(now)) != NULL; takes++) {
		struct owner *o = (struct owner *)n;
		sum = sum * 31 + (uint64_t)(o - owners) + now;
		if (load == 'e')
			spare[spares++] = o;
		else
			set_for(o, now, load == 'i' ? 6000 : o->length >= 60000 ? 60000 : o->length * 2 + 200);
	}
}

static inline void touch(char load, uint64_t now)
{
	uint64_t x;
	struct owner *o;
	if (load == 'e') {
		if (spares > 0)
			set_for(spare[--spares], now, 1 + draw() % (2 * timers_in_all / sets_a_tick));
		return;
	}
	o = &owners[draw() % timers_in_all];
	x = draw();
	if (load == 'r' && x % 16 == 0) {
		stop(&o->node);
		stops++;
	} else {
		set_for(o, now, load == 'i' ? 6000 : 200 + (x >> 8) % 2801);
	}
}

__attribute__((noinline)) static void run(char load, uint64_t ticks)
{
	for (uint64_t now = 1; now <= ticks; now++) {
		expire(load, now);
		for (unsigned i = 0; i < sets_a_tick; i++)
			touch(load, now);
		wakes += next() == now + 1;
	}
}

/* Sleeps until a timer expires, at its own tick. A sleep may be in vain: of wheels, and of a loop for each time-out that was
 * pushed back. */
static void sleep_once(uint64_t now)
{
	struct owner *o = NULL;
	for (size_t left = timers_in_all + 16; left > 0 && o == NULL; left--) {
		uint64_t tick = next();
		NEED(tick > now && tick <= now + 60000 + MOST_LATE);
		now = tick;
		o = (struct owner *)take(now);
	}
	NEED(o && o->at <= now && now <= o->at + MOST_LATE);
}

static uint64_t processor(void)
{
	struct timespec t;
	clock_gettime(CLOCK_PROCESS_CPUTIME_ID, &t);
	return (uint64_t)t.tv_sec * 1000000000 + (uint64_t)t.tv_nsec;
}

static void shuffle(size_t all)
{
	for (size_t i = 0; i < all; i++)
		spare[i] = &owners[i];
	for (size_t i = all - 1; i > 0; i--) {
		size_t j = draw() % (i + 1);
		struct owner *o = spare[i];
		spare[i] = spare[j];
		spare[j] = o;
	}
}

int main(int argc, char **argv)
{
	if (argc != 5)
		return 2;
	char load = argv[1][0];
	timers_in_all = strtoul(argv[2], NULL, 10);
	sets_a_tick = (unsigned)atoi(argv[4]);
	size_t all = load == 'e' ? 2 * timers_in_all : timers_in_all;
	NEED(owners = (struct owner *)malloc(all * sizeof *owners));
	NEED(spare = (struct owner **)malloc(all * sizeof *spare));
	memset((void *)owners, 1, all * sizeof *owners);         /* each page is there before the measurement */
	memset((void *)owners, 0, all * sizeof *owners);
	shuffle(all);
	spares = all;
	init(all);
	for (size_t i = 0; load != 'e' && i < all; i++)
		set_for(spare[i], 0, load == 'i' ? 1 + draw() % 6000 : 200 + draw() % 2801);
	sets = 0;
	uint64_t begin = processor(), ticks = strtoull(argv[3], NULL, 10);
	run(load, ticks);
	printf("%.1f %llu %llu %llu %llu %016llx\n", (double)(processor() - begin) / (double)(sets + stops + takes),
	       (unsigned long long)sets, (unsigned long long)stops, (unsigned long long)takes, (unsigned long long)wakes,
	       (unsigned long long)sum);
	if (HAS_NEXT && takes > 0 && !IS_COUNTED)   /* its calls would be counted */
		sleep_once(ticks);
	return 0;
}
