/* Timers for the tasks of FreeRTOS: each task may start and stop them, and one task runs what is due. It has no main: call
 * jobs_new before vTaskStartScheduler, and then job_start. docs/platforms.md has what it takes. */
#include "FreeRTOS.h"
#include "semphr.h"
#include "task.h"
#include "wheels/timers.h"                              /* a folder of its own: FreeRTOS has a timers.h, too */

#define LONGEST (portMAX_DELAY / 2)
#define STACK 800                                       /* bytes: those of timers_set_at */

struct job {
	void (*run)(struct job *);
	struct timers_handle handle;                    /* all 0 at first */
};
static struct timers timers;                            /* zeros, as TIMERS_INIT */
static SemaphoreHandle_t lock;                          /* whoever has it uses `timers`, and looks at the clock */
static TaskHandle_t runner;

bool jobs_new(size_t most, UBaseType_t priority);
bool job_start(struct job *job, TickType_t after);
bool job_stop(struct job *job);

/* The kernel's count of ticks goes round. It is looked at before it is half way, since the runner sleeps no longer. */
static uint64_t ticks_now(void)
{
	static uint64_t now;

	now += (TickType_t)(xTaskGetTickCount() - (TickType_t)now);
	return now;
}

/* Runs jobs without the lock, so that they may start and stop others. With tickless idle the processor sleeps as long. */
static void run_jobs(void *unused)
{
	struct timers_expired timer;

	(void)unused;
	for (;;) {
		xSemaphoreTake(lock, portMAX_DELAY);
		const uint64_t now = ticks_now();
		const bool is_due = timers_take(&timers, now, &timer);
		const uint64_t rest = timers_wakeup(&timers) - now;
		xSemaphoreGive(lock);
		if (is_due) {
			struct job *job = (struct job *)(uintptr_t)timer.action;
			job->run(job);
		} else {
			ulTaskNotifyTake(pdTRUE, rest < LONGEST ? (TickType_t)rest : LONGEST);
		}
	}
}

/* Makes room for so many jobs, and the task, whose stack has `STACK` bytes beyond those of a job that starts nothing. */
bool jobs_new(size_t most, UBaseType_t priority)
{
	lock = xSemaphoreCreateMutex();
	return lock != NULL && timers_set_allocator(pvPortMalloc, NULL, vPortFree) == TIMERS_OK
	    && timers_new(&timers, TIMERS_WIDE, 0) == TIMERS_OK && timers_reserve(&timers, most) == TIMERS_OK
	    && xTaskCreate(run_jobs, "timers", configMINIMAL_STACK_SIZE + STACK / sizeof(StackType_t), NULL, priority, &runner) == pdPASS;
}

/* Starts the job, or pushes it back: it runs once, after at least so many ticks. False: more than `most`, and no memory left. */
bool job_start(struct job *job, TickType_t after)
{
	xSemaphoreTake(lock, portMAX_DELAY);
	const uint64_t before = timers_wakeup(&timers);
	const bool is_started = timers_set_at(&timers, &job->handle, ticks_now() + after + 1, (uintptr_t)job) == TIMERS_OK;
	const bool is_first = timers_wakeup(&timers) < before;
	xSemaphoreGive(lock);
	if (is_first)
		xTaskNotifyGive(runner);
	return is_started;
}

/* False: it isn't started, or it has come out. Then it runs, or will in a moment, if the caller isn't the runner. */
bool job_stop(struct job *job)
{
	xSemaphoreTake(lock, portMAX_DELAY);
	const bool is_stopped = timers_stop(&timers, job->handle, NULL) == TIMERS_OK;
	xSemaphoreGive(lock);
	return is_stopped;
}
