/* A clock for nginx under callgrind, and the marks between which it counts: loaded with LD_PRELOAD.
 *
 * Each turn of nginx's loop takes TURN_US microseconds: it looks at the monotonic clock once. So neither its own speed under
 * callgrind nor what else the machine does changes a count. A poll waits for what comes, since no timer is due meanwhile.
 *
 * At the signal SIGRTMIN, which a poll alone takes, callgrind writes what it counted since the last one. */
#define _GNU_SOURCE
#include <errno.h>
#include <signal.h>
#include <stdint.h>
#include <stdlib.h>
#include <sys/epoll.h>
#include <sys/time.h>
#include <time.h>
#include <valgrind/callgrind.h>

static uint64_t clock_us = UINT64_C(1700000000000000), turn_us;
static volatile sig_atomic_t is_marked;

static void mark(int number)
{
	(void)number;
	is_marked = 1;
}

__attribute__((constructor)) static void begin(void)
{
	const char *text = getenv("TURN_US");
	sigset_t marks;
	turn_us = text != NULL ? strtoul(text, NULL, 10) : 0;
	sigemptyset(&marks);
	sigaddset(&marks, SIGRTMIN);
	sigprocmask(SIG_BLOCK, &marks, NULL);
	signal(SIGRTMIN, mark);
}

int clock_gettime(clockid_t id, struct timespec *now)
{
	(void)id;
	clock_us += turn_us;
	now->tv_sec = (time_t)(clock_us / 1000000);
	now->tv_nsec = (long)(clock_us % 1000000 * 1000);
	return 0;
}

int gettimeofday(struct timeval *restrict now, void *restrict zone)
{
	(void)zone;
	now->tv_sec = (time_t)(clock_us / 1000000);
	now->tv_usec = (suseconds_t)(clock_us % 1000000);
	return 0;
}

int epoll_wait(int fd, struct epoll_event *events, int most, int timeout)
{
	sigset_t none;
	int found;
	sigemptyset(&none);
	while ((found = epoll_pwait(fd, events, most, timeout == 0 ? 0 : -1, &none)) < 0 && errno == EINTR && is_marked) {
		is_marked = 0;
		CALLGRIND_DUMP_STATS;
	}
	return found;
}
