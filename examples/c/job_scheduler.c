/* A scheduler of jobs, as cron is one, over the table for small machines.
 *
 *     cc job_scheduler.c $(pkg-config --cflags --libs timers) && ./a.out
 *
 * A tick is a second. The clock here is a number that jumps from one job to the next, so that eight days
 * pass at once. A daemon would sleep until then, and may wake up some ticks for nothing. TIMERS_SMALL has 194 days of seconds. When they are over, the
 * timers are freed and made again at tick 0, and the jobs that are left are started anew. */
#include <inttypes.h>
#include <stdio.h>
#include <stdlib.h>

#include <timers.h>

enum { MINUTE = 60, HOUR = 60 * MINUTE, DAY = 24 * HOUR };
enum { FIRST_DAY = 191, LAST_DAY = 199, DAYS_OF_CLOCK = 194 };

/* A job runs `first` seconds after the first day began, then once each period; only once if that is 0. */
static struct job {
	const char *name;
	uint64_t first, period;
	uint64_t next;                    /* the second at which it runs next, from the beginning of day 0 */
	struct timers_handle timer;
} jobs[] = {
	{ "feed the cat", 7 * HOUR + 30 * MINUTE, 12 * HOUR, 0, { 0, 0 } },
	{ "turn the page of the calendar", DAY, DAY, 0, { 0, 0 } },
	{ "write the report of the day", 23 * HOUR + 59 * MINUTE + 59, DAY, 0, { 0, 0 } },
	{ "look after the boiler", 19 * HOUR + 30 * MINUTE, 3 * DAY, 0, { 0, 0 } },
	{ "take a picture", 12 * HOUR + 20, 33 * HOUR + 33 * MINUTE + 33, 0, { 0, 0 } },
	{ "renew the certificate", 6 * DAY + 4 * HOUR + 5 * MINUTE + 6, 0, 0, { 0, 0 } },
	{ "go to the dentist", 5 * DAY + 9 * HOUR, 0, 0, { 0, 0 } },
	{ "call the dentist, who is ill", 4 * DAY + 10 * HOUR, 0, 0, { 0, 0 } },
};
enum { JOBS = sizeof jobs / sizeof jobs[0], DENTIST = 6, CALL = 7 };
#define NO_MORE UINT64_MAX

static struct timers timers = TIMERS_INIT;
static uint64_t first_second;             /* that of tick 0, from the beginning of day 0 */

static void check(enum timers_status status, const char *call)
{
	if (status != TIMERS_OK) {
		fprintf(stderr, "job_scheduler: %s: %s\n", call, timers_message(status));
		exit(1);
	}
}

static void say(uint64_t second, const char *what)
{
	printf("day %" PRIu64 " %02" PRIu64 ":%02" PRIu64 ":%02" PRIu64 " %s\n", second / DAY,
	       second % DAY / HOUR, second % HOUR / MINUTE, second % MINUTE, what);
}

/* Starts the timer of a job. The clock may end before: then the job waits until the timers are made again. */
static void start(struct job *job)
{
	uint64_t action = (uint64_t)(uintptr_t)job;
	enum timers_status status = timers_start_at(&timers, job->next - first_second, action, &job->timer);
	if (status != TIMERS_TOO_LATE)
		check(status, "timers_start_at");
}

static void run(struct job *job)
{
	say(job->next, job->name);
	job->next = job->period > 0 ? job->next + job->period : NO_MORE;
	if (job->next != NO_MORE)
		start(job);
	if (job == &jobs[CALL]) {
		uint64_t action;
		check(timers_stop(&timers, jobs[DENTIST].timer, &action), "timers_stop");
		jobs[DENTIST].next = NO_MORE;
	}
}

/* Makes the timers again, so that the present second is tick 0. No timer may wait to be taken. */
static void begin_anew(void)
{
	first_second += timers_now(&timers);
	timers_free(&timers);
	check(timers_new(&timers, TIMERS_SMALL, 0), "timers_new");
	for (struct job *job = jobs; job < jobs + JOBS; job++)
		if (job->next != NO_MORE)
			start(job);
	say(first_second, "-- the clock begins anew");
}

/* Passes the ticks up to `tick`, and runs what is due at each on the way. */
static void catch_up(uint64_t tick)
{
	struct timers_expired expired;
	while (timers_take(&timers, tick, &expired))
		run((struct job *)(uintptr_t)expired.action);
}

static uint64_t least(uint64_t one, uint64_t other)
{
	return one < other ? one : other;
}

int main(void)
{
	const uint64_t begin = (uint64_t)FIRST_DAY * DAY, end = (uint64_t)LAST_DAY * DAY;
	check(timers_new(&timers, TIMERS_SMALL, begin), "timers_new");
	for (struct job *job = jobs; job < jobs + JOBS; job++) {
		job->next = begin + job->first;
		start(job);
	}
	while (first_second + timers_now(&timers) < end) {
		uint64_t tick = least(timers_wakeup(&timers), least(end - first_second, (uint64_t)DAYS_OF_CLOCK * DAY));
		catch_up(tick);                   /* a daemon sleeps until then first */
		if (tick == (uint64_t)DAYS_OF_CLOCK * DAY)
			begin_anew();
	}
	printf("%zu jobs wait\n", timers_len(&timers));
	timers_free(&timers);
	return 0;
}
