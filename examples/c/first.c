/* The shortest whole use: three timers, of which one is stopped. */
#include <inttypes.h>
#include <stdio.h>

#include "timers.h"

int main(void)
{
	struct timers t = TIMERS_INIT;
	struct timers_handle tea, egg, call;
	struct timers_expired e;
	if (timers_new(&t, TIMERS_WIDE, 0) != TIMERS_OK               /* the usual wheels, at tick 0 */
	    || timers_start(&t, 300, 'T', &tea) != TIMERS_OK          /* 'T' comes back at tick 300 */
	    || timers_start(&t, 240, 'E', &egg) != TIMERS_OK
	    || timers_start(&t, 900, 'C', &call) != TIMERS_OK)
		return 1;
	timers_stop(&t, call, NULL);
	while (timers_take(&t, 1000, &e))          /* what is due by tick 1000; at the end the clock is there */
		printf("%" PRIu64 ": %c\n", e.deadline, (char)e.action);
	timers_free(&t);
	return 0;
}
