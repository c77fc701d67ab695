/* One kind of work over nginx's event timers, for callgrind to count.
 *
 *     cost add COUNT N       adds and deletes one beside N others
 *     cost turn COUNT N      the calls of a turn in which no timer runs: ngx_event_find_timer, ngx_event_expire_timers
 *     cost memory N          prints the bytes for each of N connections: their two events, and what the timers allocate
 */
#include <malloc.h>
#include <stdio.h>
#include <stdlib.h>
#include <string.h>

#include <ngx_config.h>
#include <ngx_core.h>
#include <ngx_event.h>

enum { MOST = 100000 };

static ngx_event_t events[MOST + 1];
static ngx_cycle_t cycle;
static ngx_log_t standard_error;
volatile ngx_cycle_t *ngx_cycle = &cycle;
volatile ngx_msec_t ngx_current_msec = 1000000;

void ngx_log_error_core(ngx_uint_t level, ngx_log_t *log, ngx_err_t err, const char *text, ...)
{
	(void)level, (void)log, (void)err;
	fprintf(stderr, "%s\n", text);
	exit(1);
}

static void nothing(ngx_event_t *ev) { (void)ev; }

static void make_timers(size_t count)
{
	cycle.connection_n = count;
	if (ngx_event_timer_init(&standard_error) != NGX_OK)
		exit(1);
	for (size_t k = 0; k <= count; k++) {
		events[k].handler = nothing;
		events[k].log = &standard_error;
	}
	for (size_t k = 0; k < count; k++)
		ngx_add_timer(&events[k], 600000 + k * 7919 % 60000);
}

static void add(size_t count, size_t beside)
{
	make_timers(beside);
	for (size_t k = 0; k < count; k++) {
		ngx_add_timer(&events[beside], 60000 + k % 1000);
		ngx_del_timer(&events[beside]);
	}
}

static void turn(size_t count, size_t idle)
{
	make_timers(idle);
	for (size_t k = 0; k < count; k++) {
		ngx_current_msec += ngx_event_find_timer() > 1 ? k % 4 == 0 : 1;
		ngx_event_expire_timers();
	}
}

static void memory(size_t connections)
{
	struct mallinfo2 before = mallinfo2(), after;
	make_timers(connections);
	after = mallinfo2();
	printf("%zu\n", 2 * sizeof(ngx_event_t)
	       + (after.uordblks + after.hblkhd - before.uordblks - before.hblkhd) / connections);
}

int main(int argc, char **argv)
{
	size_t count = argc > 2 ? strtoul(argv[2], NULL, 10) : 0, others = argc > 3 ? strtoul(argv[3], NULL, 10) : 0;
	if (argc == 3 && strcmp(argv[1], "memory") == 0 && count > 0 && count <= MOST)
		memory(count);
	else if (argc == 4 && strcmp(argv[1], "add") == 0 && others <= MOST)
		add(count, others);
	else if (argc == 4 && strcmp(argv[1], "turn") == 0 && others <= MOST)
		turn(count, others);
	else
		return 2;
	return 0;
}
