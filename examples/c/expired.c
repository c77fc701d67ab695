/* Two timers are due at one tick, and the work of the first closes the connection of the second. That one's timer is
 * stopped though it has expired, so that it does not come out with a pointer to freed memory. Then the rest is taken
 * out in the order of the deadlines, so that each connection is freed, before timers_free. */
#include <inttypes.h>
#include <stdio.h>
#include <stdlib.h>
#include <timers.h>

struct connection {
	int number;
	struct timers_handle idle;
	struct connection *peer;      /* closed with this one */
};

static struct timers timers = TIMERS_INIT;
static int open_ones;

static void check(enum timers_status status, const char *what)
{
	if (status != TIMERS_OK) {
		printf("%s: %s\n", what, timers_message(status));
		exit(1);
	}
}

static struct connection *connect_until(int number, uint64_t deadline)
{
	struct connection *c = malloc(sizeof *c);
	if (!c)
		exit(1);
	c->number = number;
	c->peer = NULL;
	check(timers_start_at(&timers, deadline, (uint64_t)(uintptr_t)c, &c->idle), "start_at");
	open_ones++;
	return c;
}

static void close_connection(struct connection *c)
{
	uint64_t action;
	enum timers_status status = timers_stop(&timers, c->idle, &action);
	printf("connection %d is closed; its timer: %s\n", c->number, timers_message(status));
	free(c);
	open_ones--;
}

static void time_out(const struct timers_expired *e)
{
	struct connection *c = (struct connection *)(uintptr_t)e->action;
	printf("tick %" PRIu64 ": connection %d was idle\n", e->deadline, c->number);
	if (c->peer)
		close_connection(c->peer);
	close_connection(c);
}

int main(void)
{
	struct timers_expired e;
	uint64_t passed;
	check(timers_new(&timers, TIMERS_WIDE, 100), "new");
	struct connection *first = connect_until(1, 105), *second = connect_until(2, 105), *third = connect_until(3, 105);
	connect_until(5, 400000);
	connect_until(4, 300);
	first->peer = second;

	check(timers_look(&timers, third->idle, &e), "look");
	printf("connection 3 has %" PRIu64 " ticks left\n", e.deadline - timers_now(&timers));
	check(timers_advance(&timers, 50, &passed), "advance");
	check(timers_look(&timers, second->idle, &e), "look");
	printf("tick %" PRIu64 ": connection 2 has %" PRIu64 " ticks left\n", timers_now(&timers), e.deadline - timers_now(&timers));
	check(timers_restart_at(&timers, third->idle, 120, (uint64_t)(uintptr_t)third, &third->idle), "restart_at");
	check(timers_restart(&timers, third->idle, 30, (uint64_t)(uintptr_t)third, &third->idle), "restart");
	while (timers_expire(&timers, &e))
		time_out(&e);
	printf("%d connections are left, %zu timers\n", open_ones, timers_len(&timers));

	enum timers_status status;
	do {
		while (timers_expire(&timers, &e)) {
			struct connection *c = (struct connection *)(uintptr_t)e.action;
			printf("connection %d would have timed out at tick %" PRIu64 "\n", c->number, e.deadline);
			free(c);
			open_ones--;
		}
		status = timers_advance(&timers, UINT64_MAX, &passed);
	} while (status == TIMERS_OK);
	printf("%s; %d connections are left\n", timers_message(status), open_ones);
	timers_free(&timers);
	return open_ones;
}
