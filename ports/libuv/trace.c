/* A random program over libuv's timers, and its trace.
 *
 *     trace SEED STEPS
 *
 * The clock and epoll_wait are replaced by functions of this file, so that a seed always gives the same trace with the
 * same timers. Two builds of libuv agree if their traces do: which callbacks run, in which order and at which time, when
 * each poll ends, and what each call returns. A poll of these timers may call epoll_wait more often. The clock moves within
 * callbacks, too. Each call that wants memory for these timers is refused once: it has to return UV_ENOMEM and leave the
 * timer as it was. */
#include <errno.h>
#include <inttypes.h>
#include <stdbool.h>
#include <stdio.h>
#include <stdlib.h>
#include <string.h>
#include <sys/epoll.h>
#include <time.h>

#include <uv.h>

#include "../memory.h"
#include "../random.h"

enum { TIMERS = 120, POLLS_A_RUN = 40, CALLS_A_RUN = 400, LONGEST_POLL = 2147483646, MS = 1000000 };

static uv_loop_t loop;
static uv_timer_t timers[TIMERS];
static uv_prepare_t before_poll;
static uv_check_t after_poll;
static uv_async_t input;
static uint64_t clock_ns;
/* What comes during a poll: input, before libuv's longest poll is over, and maybe an early end, late by some time. */
static uint64_t input_at, end_at, late_by;
static bool ends_early, by_a_signal;
static int polls_left, calls_left;

static void pass_ms(uint64_t ms) { clock_ns += ms * 1000000 + below(1000000); }

int clock_gettime(clockid_t id, struct timespec *now)
{
	(void)id;
	now->tv_sec = (time_t)(clock_ns / 1000000000);
	now->tv_nsec = (long)(clock_ns % 1000000000);
	return 0;
}

/* libuv waits too long by what the callbacks before a poll took, and these timers maybe by a part of it. So the time is read. */
static void on_prepare(uv_prepare_t *unused)
{
	const uint64_t how = below(10);
	(void)unused;
	uv_update_time(&loop);
	if (--polls_left <= 0)
		uv_stop(&loop);
	input_at = clock_ns + (below(4) ? LONGEST_POLL : below(5000)) * UINT64_C(1000000);
	ends_early = how < 3;
	by_a_signal = how == 2;
	end_at = clock_ns + below(100 * MS);
	late_by = how == 0 ? below(300 * MS) : 0;
}

static void on_check(uv_check_t *unused)
{
	(void)unused;
	printf("  polled until %" PRIu64 "\n", uv_now(&loop));
}

static void on_input(uv_async_t *unused)
{
	(void)unused;
	printf("  input\n");
}

int epoll_wait(int fd, struct epoll_event *events, int most, int timeout)
{
	const uint64_t end = clock_ns + (uint64_t)timeout * MS;
	(void)fd, (void)most;
	if (timeout < 0)
		abort();
	if (ends_early && end_at < end && end_at < input_at) {
		ends_early = false;
		clock_ns = end_at + late_by;
		errno = EINTR;
		return by_a_signal ? -1 : 0;
	}
	if (input_at > end) {
		clock_ns = end;
		return 0;
	}
	clock_ns = input_at > clock_ns ? input_at : clock_ns;
	uv_async_send(&input);
	events[0].events = EPOLLIN;
	events[0].data.fd = loop.async_io_watcher.fd;
	return 1;
}

static void init_around_polls(void)
{
	uv_prepare_init(&loop, &before_poll);
	uv_check_init(&loop, &after_poll);
	uv_async_init(&loop, &input, on_input);
	uv_prepare_start(&before_poll, on_prepare);
	uv_check_start(&after_poll, on_check);
	uv_unref((uv_handle_t *)&before_poll);
	uv_unref((uv_handle_t *)&after_poll);
	uv_unref((uv_handle_t *)&input);
}

/* Of each length that a wheel treats in its own way, and some that no clock reaches. */
static uint64_t some_timeout(void)
{
	switch (below(12)) {
	case 0: return 0;
	case 1: return 1 + below(3);
	case 2: case 3: case 4: return below(64);
	case 5: case 6: return below(5000);
	case 7: return below(300000);
	case 8: return 64 * below(100);
	case 9: return below(UINT64_C(1) << 34);
	case 10: return below(10) == 0 ? UINT64_MAX - below(3) : 4096 * below(20);
	default: return 50;
	}
}

static void print_timer(const char *did, size_t k, int result)
{
	const uv_timer_t *t = &timers[k];
	printf("%" PRIu64 ": %s %zu: %d, active %d, due in %" PRIu64 ", repeat %" PRIu64 "\n", uv_now(&loop), did, k,
	       result, uv_is_active((const uv_handle_t *)t), uv_timer_get_due_in(t), uv_timer_get_repeat(t));
}

static void some_steps(uint64_t most);

static void on_timer(uv_timer_t *t)
{
	size_t k = (size_t)(t - timers);
	print_timer("ran", k, 0);
	if (--calls_left <= 0) {
		uv_stop(&loop);
		uv_timer_stop(t);
		return;
	}
	some_steps(2);
}

static void on_other(uv_timer_t *t)
{
	print_timer("ran the other callback of", (size_t)(t - timers), 0);
	some_steps(1);
}

static void init(size_t k)
{
	/* What stands in the memory of a new handle is of no consequence. */
	memset(&timers[k], 0xa5, sizeof timers[k]);
	print_timer("init", k, uv_timer_init(&loop, &timers[k]));
}

static void on_close(uv_handle_t *h)
{
	size_t k = (size_t)((uv_timer_t *)h - timers);
	printf("closed %zu\n", k);
	init(k);
}

static void count_active(uv_handle_t *h, void *count) { *(int *)count += uv_is_active(h); }

/* Whether a call has failed for want of memory. Then there is some, for another try. */
static int is_for_memory(size_t k, const uv_timer_t *before, int result)
{
	if (result != UV_ENOMEM)
		return 0;
	if (memcmp(before, &timers[k], sizeof *before) != 0)
		print_timer("changed without memory", k, result);
	is_scarce = 0;
	return 1;
}

static void start(size_t k)
{
	uint64_t timeout = some_timeout(), repeat = below(3) == 0 ? some_timeout() : 0;
	/* What is due again at once would keep uv_run from ever ending. */
	if (calls_left <= 0 && timeout == 0)
		timeout = 1;
	uv_timer_cb callback = below(4) ? on_timer : on_other;
	const uv_timer_t before = timers[k];
	int result = uv_timer_start(&timers[k], callback, timeout, repeat);
	if (is_for_memory(k, &before, result)) {
		result = uv_timer_start(&timers[k], callback, timeout, repeat);
		is_scarce = 1;
	}
	print_timer("start", k, result);
}

static void again(size_t k)
{
	const uv_timer_t before = timers[k];
	int result = uv_timer_again(&timers[k]);
	if (is_for_memory(k, &before, result)) {
		result = uv_timer_again(&timers[k]);
		is_scarce = 1;
	}
	print_timer("again", k, result);
}

/* For how long a poll may wait: not at all, for ever, or some time, of which these timers may ask for a part. */
static void print_backend(void)
{
	const int timeout = uv_backend_timeout(&loop);
	printf("backend %s\n", timeout < 0 ? "for ever" : timeout == 0 ? "now" : "later");
}

static void step(void)
{
	size_t k = below(TIMERS);
	uv_timer_t *t = &timers[k];
	int active = 0;
	switch (below(20)) {
	default: start(k); break;
	case 1: case 2: case 3: print_timer("stop", k, uv_timer_stop(t)); break;
	case 4: case 5: again(k); break;
	case 6: uv_timer_set_repeat(t, below(3) ? some_timeout() : 0); print_timer("repeat", k, 0); break;
	case 7: uv_ref((uv_handle_t *)t); print_timer("ref", k, uv_loop_alive(&loop)); break;
	case 8: uv_unref((uv_handle_t *)t); print_timer("unref", k, uv_loop_alive(&loop)); break;
	case 9: uv_update_time(&loop); printf("now %" PRIu64 "\n", uv_now(&loop)); break;
	case 10: pass_ms(below(100)); break;
	case 11: pass_ms(below(10) ? 0 : below(10000000)); break;
	case 12: print_backend(); break;
	case 13: uv_walk(&loop, count_active, &active); printf("walk %d\n", active); break;
	case 14:
		if (!uv_is_closing((uv_handle_t *)t)) {
			uv_close((uv_handle_t *)t, on_close);
			print_timer("close", k, 0);
		}
		break;
	case 15: print_timer("look at", k, uv_is_closing((uv_handle_t *)t)); break;
	}
}

static void some_steps(uint64_t most)
{
	for (uint64_t left = below(most + 1); left > 0; left--)
		step();
}

static void run(void)
{
	static const uv_run_mode modes[] = { UV_RUN_ONCE, UV_RUN_NOWAIT, UV_RUN_DEFAULT };
	uv_run_mode mode = modes[below(3)];
	polls_left = POLLS_A_RUN;
	calls_left = CALLS_A_RUN;
	int alive = uv_run(&loop, mode);
	printf("run %d: %d at %" PRIu64 "\n", (int)mode, alive, uv_now(&loop));
	calls_left = 0;
}

static void forget(uv_handle_t *h, void *unused)
{
	(void)unused;
	if (!uv_is_closing(h))
		uv_close(h, NULL);
}

int main(int argc, char **argv)
{
	if (argc != 3)
		return 2;
	seed(argv[1]);
	clock_ns = below(3) ? below(UINT64_C(1) << 50) : (UINT64_C(1) << (6 * (1 + below(6)))) * 1000000 - below(64) * 1000000;
	make_memory_scarce(below(6));
	int made = uv_loop_init(&loop);
	if (made == UV_ENOMEM) {
		is_scarce = 0;
		made = uv_loop_init(&loop);
		is_scarce = 1;
	}
	if (made != 0)
		return 1;
	for (size_t k = 0; k < TIMERS; k++)
		init(k);
	init_around_polls();
	for (int left = atoi(argv[2]); left > 0; left--) {
		some_steps(30);
		run();
	}
	uv_walk(&loop, forget, NULL);
	polls_left = POLLS_A_RUN;
	uv_run(&loop, UV_RUN_NOWAIT);
	printf("close %d\n", uv_loop_close(&loop));
	return 0;
}
