/* A random program over nginx's event timers, and its trace.
 *
 *     trace SEED STEPS
 *
 * ngx_current_msec is a number here, which moves within handlers, too. Two builds agree if their traces do: which handlers
 * run, in which order and when. A third of the timers is cancelable. Memory is refused once where these timers want some:
 * while they are made, and beyond the room of the connections, each time with an alert. How long a loop waits is no part of the trace, since it may be less than up to the
 * first timer. It is checked here: never longer, no turn without any wait, and few turns up to the first timer. */
#include <inttypes.h>
#include <stdarg.h>
#include <stdio.h>
#include <stdlib.h>

#include <ngx_config.h>
#include <ngx_core.h>
#include <ngx_event.h>

#include "../memory.h"
#include "../random.h"

enum { EVENTS = 150, CONNECTIONS = 4, ROOM = 2 * CONNECTIONS + 64, MOST_TURNS = 12 };

static ngx_event_t events[EVENTS];
static int calls_left, alerts;

static ngx_cycle_t cycle;
static ngx_log_t standard_error;
volatile ngx_cycle_t *ngx_cycle = &cycle;
volatile ngx_msec_t ngx_current_msec;

void ngx_log_error_core(ngx_uint_t level, ngx_log_t *log, ngx_err_t err, const char *text, ...)
{
	(void)level, (void)log, (void)err, (void)text;
	alerts++;
}

static ngx_msec_t some_time(void)
{
	switch (below(10)) {
	case 0: return calls_left > 0 ? below(2) : 1;
	case 1: case 2: return below(64);
	case 3: return 64 * below(70);
	case 4: return below(10000);
	case 5: return below(300000);
	case 6: return below(UINT64_C(1) << 40);
	case 7: return below(8) == 0 ? (UINT64_C(1) << 62) : 4096 * below(70);
	default: return 60000;
	}
}

static void print_event(const char *did, size_t k)
{
	printf("%" PRIu64 ": %s %zu, set %d, timed out %d\n", (uint64_t)ngx_current_msec, did, k, events[k].timer_set,
	       events[k].timedout);
}

static void some_steps(uint64_t most);

static void on_timer(ngx_event_t *ev)
{
	print_event("ran", (size_t)(ev - events));
	ev->timedout = 0;
	if (below(8) == 0)
		ngx_current_msec += below(8) == 0 ? below(1000) : below(4);
	if (--calls_left > 0)
		some_steps(2);
}

/* What failed has to have left an alert. Then there is memory, for another try. */
static void allow_memory(const char *what)
{
	if (alerts != 1)
		printf("%s: %d alerts\n", what, alerts);
	alerts = 0;
	is_scarce = 0;
}

static void add(size_t k)
{
	ngx_msec_t ms = some_time();
	size_t set = 0;
	for (size_t i = 0; i < EVENTS; i++)
		set += events[i].timer_set;
	ngx_add_timer(&events[k], ms);
	if (!events[k].timer_set) {
		allow_memory("no memory for a timer");
		if (set < ROOM)
			printf("no room for a timer beside %zu\n", set);
		ngx_add_timer(&events[k], ms);
		is_scarce = 1;
	}
	print_event("add", k);
}

static void step(void)
{
	size_t k = below(EVENTS);
	switch (below(8)) {
	default: add(k); break;
	case 5: case 6:
		if (events[k].timer_set)
			ngx_del_timer(&events[k]);
		print_event("delete", k);
		break;
	case 7:
		printf("%" PRIu64 ": none left %d\n", (uint64_t)ngx_current_msec, (int)ngx_event_no_timers_left());
		break;
	}
}

static void some_steps(uint64_t most)
{
	for (uint64_t left = below(most + 1); left > 0; left--)
		step();
}

/* The ms up to the first timer. */
static ngx_msec_t first_timer(void)
{
	ngx_msec_t first = NGX_TIMER_INFINITE;
	for (size_t k = 0; k < EVENTS; k++)
		if (events[k].timer_set) {
			ngx_msec_t left = events[k].timer.key > ngx_current_msec ? events[k].timer.key - ngx_current_msec : 0;
			first = left < first ? left : first;
		}
	return first;
}

static void check_wait(ngx_msec_t wait)
{
	ngx_msec_t first = first_timer();
	if (wait > first || (wait == 0) != (first == 0) || (wait == NGX_TIMER_INFINITE) != (first == NGX_TIMER_INFINITE))
		printf("waits %" PRIu64 ", and the first timer is %" PRIu64 " ahead\n", (uint64_t)wait, (uint64_t)first);
}

static void expire(void)
{
	calls_left = 300;
	ngx_event_expire_timers();
	calls_left = 0;
}

/* Turns in which nothing comes but the first timer. */
static void sleep_to_first(void)
{
	ngx_msec_t first = first_timer(), at = ngx_current_msec + first;
	if (first > UINT64_C(1) << 41)
		return;
	for (int turns = 1; ngx_current_msec < at || first_timer() == 0; turns++) {
		ngx_msec_t wait = ngx_event_find_timer();
		check_wait(wait);
		ngx_current_msec += wait;
		if (turns > MOST_TURNS) {
			printf("%d turns up to the first timer\n", turns);
			exit(1);
		}
		if (ngx_current_msec >= at)
			break;
		expire();
	}
}

static void turn(void)
{
	check_wait(ngx_event_find_timer());
	switch (below(5)) {
	case 0: ngx_current_msec += below(5); break;
	case 1: ngx_current_msec += below(3000); break;
	case 2: ngx_current_msec += below(10) == 0 ? below(UINT64_C(1) << 38) : 1; break;
	default: sleep_to_first(); break;
	}
	expire();
}

int main(int argc, char **argv)
{
	if (argc != 3)
		return 2;
	seed(argv[1]);
	ngx_current_msec = below(UINT64_C(1) << 36);
	cycle.connection_n = CONNECTIONS;
	standard_error.log_level = NGX_LOG_ALERT;
	for (size_t k = 0; k < EVENTS; k++) {
		events[k].handler = on_timer;
		events[k].log = &standard_error;
		events[k].cancelable = k % 3 == 0;
	}
	make_memory_scarce(below(8));
	if (ngx_event_timer_init(&standard_error) != NGX_OK) {
		allow_memory("no memory for timers");
		if (ngx_event_timer_init(&standard_error) != NGX_OK)
			return 1;
	}
	is_scarce = 1;
	given_before = 0;
	for (int left = atoi(argv[2]); left > 0; left--) {
		some_steps(20);
		turn();
	}
	return 0;
}
