/* Writes what a program does with its timers as a script: `./record | timers show` says where each timer was at each tick.
 *
 * A program calls these in place of timers_start_at, timers_stop and timers_take. Serials of the script count from 1, as those of
 * a struct do that was opened once.
 */
/* SPDX-License-Identifier: MIT OR Apache-2.0 */
#include <inttypes.h>
#include <stdio.h>
#include <timers.h>

static struct timers t = TIMERS_INIT;
static uint64_t number, written;    /* of requests, and of ticks */

static void write_ticks(void)
{
	if (timers_now(&t) > written)
		printf("tick %" PRIu64 "\n", timers_now(&t) - written);
	written = timers_now(&t);
}

static struct timers_handle start(uint64_t interval, uint64_t action)
{
	struct timers_handle handle = { 0, 0 };
	if (timers_start(&t, interval, action, &handle) == TIMERS_OK) {
		write_ticks();
		printf("start 0 %" PRIu64 " %" PRIu64 " %" PRIu64 "\n", ++number, interval, action);
	}
	return handle;
}

static void stop(struct timers_handle handle)
{
	if (timers_stop(&t, handle, NULL) == TIMERS_OK) {
		write_ticks();
		printf("stop 0 %" PRIu64 " %" PRIu64 "\n", ++number, handle.serial);
	}
}

int main(void)
{
	struct timers_expired e;
	if (timers_new(&t, TIMERS_WIDE, 0) != TIMERS_OK)
		return 1;
	const struct timers_handle idle = start(130, 'i');
	start(50, 'a');
	while (timers_take(&t, 100, &e))
		if (e.action == 'a')
			stop(idle), start(70, 'b');
	while (timers_take(&t, 200, &e))
		continue;
	write_ticks();
	timers_free(&t);
	return 0;
}
