/* The timers of an event loop that had libuv's: docs/porting.md explains the calls. The clock is a number here, so
 * that the output is always the same. */
#include <inttypes.h>
#include <limits.h>
#include <stdio.h>
#include <stdlib.h>

#include <timers.h>

struct loop {
	struct timers timers;
	uint64_t now;                      /* the real time in ticks, as run_timers found it last */
	uint64_t asleep;                   /* how long the machine slept, which no timer counts */
};

struct my_timer {
	struct timers_handle handle;       /* all zeros at first: it names no timer */
	uint64_t repeat;
	void (*run)(struct loop *loop, struct my_timer *h);
	const char *name;
};

static uint64_t real_time;

static uint64_t clock_now(const struct loop *loop) { return real_time - loop->asleep; }

static int arm(struct loop *loop, struct my_timer *h, uint64_t timeout)
{
	uint64_t deadline = timeout < TIMERS_LAST - loop->now ? loop->now + timeout : TIMERS_LAST;
	return timers_set_at(&loop->timers, &h->handle, deadline, (uint64_t)(uintptr_t)h) == TIMERS_OK ? 0 : -1;
}

static void disarm(struct loop *loop, struct my_timer *h)
{
	timers_stop(&loop->timers, h->handle, NULL);
}

static int again(struct loop *loop, struct my_timer *h)
{
	if (h->run == NULL)
		return -1;                 /* it was never started */
	return h->repeat > 0 ? arm(loop, h, h->repeat) : 0;
}

static uint64_t due_in(struct loop *loop, const struct my_timer *h)
{
	struct timers_expired e;
	if (timers_look(&loop->timers, h->handle, &e) != TIMERS_OK || e.deadline <= loop->now)
		return 0;
	return e.deadline - loop->now;
}

static void run_timers(struct loop *loop)
{
	struct timers_expired e;
	loop->now = clock_now(loop);
	while (timers_take(&loop->timers, loop->now, &e)) {
		struct my_timer *h = (void *)(uintptr_t)e.action;
		if (h->repeat > 0)
			arm(loop, h, h->repeat);
		h->run(loop, h);
	}
}

static int patience(struct loop *loop)
{
	uint64_t next = timers_wakeup(&loop->timers), now = clock_now(loop);
	if (next == TIMERS_NEVER)
		return -1;
	return next <= now ? 0 : next - now < INT_MAX ? (int)(next - now) : INT_MAX;
}

static int open_server(struct loop *loop, size_t connections)
{
	if (timers_new(&loop->timers, TIMERS_WIDE, loop->now) != TIMERS_OK)
		return -1;
	return timers_reserve(&loop->timers, 2 * connections) == TIMERS_OK ? 0 : -1;
}

static void add_timer(struct loop *loop, struct my_timer *h, uint64_t timeout)
{
	if (arm(loop, h, timeout) != 0)
		abort();                   /* never: there is room for each timer of each connection */
}

static void shift(struct loop *loop, uint64_t ticks)
{
	loop->asleep += ticks;
}

static uint64_t widened(uint64_t before, uint32_t clock)
{
	uint32_t ahead = clock - (uint32_t)before;
	return ahead < UINT32_C(1) << 31 ? before + ahead : before;
}

static struct my_timer beat, idle, soon, last;

static void say(struct loop *loop, struct my_timer *h)
{
	printf("%3" PRIu64 ": %s\n", loop->now, h->name);
}

/* Each beat but those after tick 100 pushes the time-out back. The one at tick 80 takes 100 ticks. */
static void on_beat(struct loop *loop, struct my_timer *h)
{
	say(loop, h);
	if (loop->now <= 100)
		arm(loop, &idle, 60);
	if (loop->now == 80)
		real_time += 100;
}

static void on_idle(struct loop *loop, struct my_timer *h)
{
	say(loop, h);
	disarm(loop, &beat);
	arm(loop, &soon, 0);
}

/* After a sleep of the machine a time-out has as long to go as before. */
static void sleep_through(struct loop *loop, uint64_t ticks)
{
	arm(loop, &idle, 60);
	real_time += ticks;
	shift(loop, ticks);
	run_timers(loop);
	printf("     the machine slept, idle is due in %" PRIu64 "\n", due_in(loop, &idle));
	real_time += 60;
	run_timers(loop);
}

/* Two timers for each of a thousand connections: none is refused. A later time-out takes the place of the first. */
static int serve(void)
{
	static struct my_timer reading[1000], writing[1000];
	struct loop loop = { TIMERS_INIT, 7, 0 };
	if (open_server(&loop, 1000) != 0)
		return 1;
	for (size_t i = 0; i < 1000; i++) {
		add_timer(&loop, &reading[i], 60000);
		add_timer(&loop, &writing[i], UINT64_MAX);
		add_timer(&loop, &writing[i], 5000);
	}
	printf("     %zu timers\n", timers_len(&loop.timers));
	timers_free(&loop.timers);
	return 0;
}

int main(void)
{
	struct loop loop = { TIMERS_INIT, 0, 0 };
	struct my_timer never = { { 0, 0 }, 0, NULL, "never" };
	beat = (struct my_timer){ { 0, 0 }, 40, on_beat, "beat" };
	idle = (struct my_timer){ { 0, 0 }, 0, on_idle, "idle" };
	soon = (struct my_timer){ { 0, 0 }, 0, say, "soon" };
	last = (struct my_timer){ { 0, 0 }, 0, say, "last" };
	if (timers_new(&loop.timers, TIMERS_WIDE, loop.now) != TIMERS_OK)
		return 1;
	printf("     again: %d before any start, %d without a period\n", again(&loop, &never), again(&loop, &last));
	if (arm(&loop, &beat, 0) != 0 || arm(&loop, &idle, 60) != 0 || arm(&loop, &last, 500) != 0)
		return 1;
	for (int wait; (wait = patience(&loop)) >= 0;) {
		real_time += (uint64_t)wait;         /* poll waits so long, and nothing is ready */
		run_timers(&loop);                   /* maybe none is due: then poll again */
	}
	sleep_through(&loop, 1000);
	timers_free(&loop.timers);
	/* 2^32 - 6, and 9 ticks later; then a step back of 2 */
	printf("     a clock of 32 bits: %" PRIu64 ", %" PRIu64 "\n", widened(4294967290, 3), widened(4294967299, 1));
	return serve();
}
