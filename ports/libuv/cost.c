/* One kind of work over libuv's timers, for callgrind to count. The clock is a number, so that two counts are alike.
 *
 *     cost rearm COUNT       starts active timers again, 1,000 of them in turn, each a minute ahead
 *     cost again COUNT       uv_timer_again, the same
 *     cost stop COUNT        starts and stops a timer beside 1,000 others
 *     cost expire COUNT      COUNT timers, 1,000 a millisecond, run one after another
 *     cost idle COUNT N      COUNT turns of a loop that always has input, beside N timers 10 to 20 minutes ahead: an eighth of
 *                            them each 33 s later, since the wheels have other buckets then
 *     cost periodic COUNT N  the same, and each turn starts a timer of 100 ms and stops it after the poll
 *     cost memory N          prints the bytes of the heap that one of N timers takes
 *     cost loop 1            prints the bytes of the heap that a loop takes
 */
#define _GNU_SOURCE
#include <malloc.h>
#include <stdio.h>
#include <stdlib.h>
#include <string.h>
#include <sys/epoll.h>
#include <sys/eventfd.h>
#include <time.h>

#include <uv.h>

static uv_loop_t loop;
static uv_timer_t *timers;
static uv_timer_t beat;
static size_t made;
static uint64_t clock_ns = UINT64_C(1000000000000);

int clock_gettime(clockid_t id, struct timespec *now)
{
	(void)id;
	now->tv_sec = (time_t)(clock_ns / 1000000000);
	now->tv_nsec = (long)(clock_ns % 1000000000);
	return 0;
}

/* A wait passes at once. */
int epoll_wait(int fd, struct epoll_event *events, int most, int timeout)
{
	int found = epoll_pwait(fd, events, most, 0, NULL);
	if (found == 0 && timeout > 0)
		clock_ns += (uint64_t)timeout * 1000000;
	return found;
}

static void nothing(uv_timer_t *t) { (void)t; }
static void on_input(uv_poll_t *p, int status, int events) { (void)p, (void)status, (void)events; }

static void check(int status)
{
	if (status != 0) {
		fprintf(stderr, "libuv: %s\n", uv_strerror(status));
		exit(1);
	}
}

static void make_timers(size_t count)
{
	timers = calloc(count, sizeof *timers);
	if (timers == NULL)
		exit(1);
	for (made = 0; made < count; made++)
		check(uv_timer_init(&loop, &timers[made]));
}

static void start_all(uint64_t from, uint64_t spread)
{
	for (size_t k = 0; k < made; k++)
		check(uv_timer_start(&timers[k], nothing, from + k * UINT64_C(7919) % spread, from));
}

static void rearm(size_t count)
{
	make_timers(1000);
	start_all(60000, 1000);
	for (size_t k = 0; k < count; k++)
		check(uv_timer_start(&timers[k % 1000], nothing, 60000 + k / 100, 0));
}

static void again(size_t count)
{
	make_timers(1000);
	start_all(60000, 1000);
	for (size_t k = 0; k < count; k++)
		check(uv_timer_again(&timers[k % 1000]));
}

static void stop(size_t count)
{
	make_timers(1001);
	start_all(60000, 1000);
	for (size_t k = 0; k < count; k++) {
		check(uv_timer_stop(&timers[1000]));
		check(uv_timer_start(&timers[1000], nothing, 30000 + k % 1000, 0));
	}
}

static void expire(size_t count)
{
	make_timers(count);
	for (size_t k = 0; k < count; k++)
		check(uv_timer_start(&timers[k], nothing, 1 + k / 1000, 0));
	uv_run(&loop, UV_RUN_DEFAULT);
}

static void turns(size_t count, size_t idle, int is_periodic)
{
	uv_poll_t input;
	make_timers(idle);
	check(uv_poll_init(&loop, &input, eventfd(1, EFD_NONBLOCK)));
	check(uv_poll_start(&input, UV_READABLE, on_input));
	check(uv_timer_init(&loop, &beat));
	for (int phase = 0; phase < 8; phase++) {
		clock_ns += UINT64_C(32768000000);
		uv_update_time(&loop);
		start_all(600000, 600000);
		for (size_t k = 0; k < count / 8; k++) {
			clock_ns += 50000;
			if (is_periodic)
				check(uv_timer_start(&beat, nothing, 100, 0));
			uv_run(&loop, UV_RUN_ONCE);
			if (is_periodic)
				check(uv_timer_stop(&beat));
		}
	}
}

static size_t heap_bytes(void)
{
	struct mallinfo2 heap = mallinfo2();
	return heap.uordblks + heap.hblkhd;
}

static void memory(size_t count)
{
	make_timers(count);
	size_t before = heap_bytes();
	start_all(60000, 1000);
	printf("%zu\n", (heap_bytes() - before) / count);
}

static void second_loop(void)
{
	static uv_loop_t other;
	size_t before = heap_bytes();
	check(uv_loop_init(&other));
	printf("%zu\n", heap_bytes() - before);
}

int main(int argc, char **argv)
{
	if (argc < 3)
		return 2;
	size_t count = strtoul(argv[2], NULL, 10), idle = argc > 3 ? strtoul(argv[3], NULL, 10) : 0;
	check(uv_loop_init(&loop));
	if (strcmp(argv[1], "rearm") == 0)
		rearm(count);
	else if (strcmp(argv[1], "again") == 0)
		again(count);
	else if (strcmp(argv[1], "stop") == 0)
		stop(count);
	else if (strcmp(argv[1], "expire") == 0)
		expire(count);
	else if (strcmp(argv[1], "idle") == 0)
		turns(count, idle, 0);
	else if (strcmp(argv[1], "periodic") == 0)
		turns(count, idle, 1);
	else if (strcmp(argv[1], "memory") == 0)
		memory(count);
	else if (strcmp(argv[1], "loop") == 0)
		second_loop();
	else
		return 2;
	return 0;
}
