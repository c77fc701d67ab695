/* A kernel for examples/c/freertos.c: it runs the one task that was made, and time passes while that sleeps. Meanwhile another
 * task makes the calls of `script`. The count of 32 bits begins shortly before its wrap, and wraps more than once. */
#include <stdbool.h>
#include <stdio.h>
#include <stdlib.h>

#include "../../../examples/c/freertos.c"

#define CHECK(fact) ((fact) ? (void)0 : (printf("line %d at %llu: %s\n", __LINE__, (unsigned long long)passed, #fact), exit(1)))
#define WRAP (UINT64_C(1) << 32)
#define BEGINNING (WRAP - 300)

static struct semaphore { bool is_held; } mutex;
static struct task { TaskFunction_t code; bool is_notified; } task;
static uint64_t passed;                                 /* ticks since the beginning */

TickType_t xTaskGetTickCount(void) { return (TickType_t)(BEGINNING + passed); }
SemaphoreHandle_t xSemaphoreCreateMutex(void) { return &mutex; }
void *pvPortMalloc(size_t size)
{
	CHECK(task.code == NULL);                       /* once there is room, nothing is allocated */
	return malloc(size);
}
void vPortFree(void *block) { free(block); }

BaseType_t xSemaphoreTake(SemaphoreHandle_t semaphore, TickType_t most)
{
	CHECK(!semaphore->is_held && most == portMAX_DELAY);
	semaphore->is_held = true;
	return pdTRUE;
}

BaseType_t xSemaphoreGive(SemaphoreHandle_t semaphore)
{
	CHECK(semaphore->is_held);
	semaphore->is_held = false;
	return pdTRUE;
}

BaseType_t xTaskCreate(TaskFunction_t code, const char *name, configSTACK_DEPTH_TYPE depth, void *parameters, UBaseType_t priority,
                       TaskHandle_t *created)
{
	CHECK(name[0] != '\0' && depth > configMINIMAL_STACK_SIZE && parameters == NULL && priority == 3);
	task.code = code;
	*created = &task;
	return pdPASS;
}

BaseType_t xTaskNotifyGive(TaskHandle_t notified)
{
	notified->is_notified = true;
	return pdPASS;
}

/* The jobs. Each notes when it has run. */
enum { FIRST, SOONER, PERIODIC, STOPPED, PUSHED, REMOTE, JOBS };
static struct job jobs[JOBS];
static unsigned runs[JOBS];
static uint64_t at[JOBS];

static void note(struct job *job)
{
	CHECK(!mutex.is_held);
	runs[job - jobs]++;
	at[job - jobs] = passed;
	if (job == &jobs[PERIODIC] && runs[PERIODIC] < 10)
		CHECK(job_start(job, 99));
}

static void starts_some(void)
{
	CHECK(job_start(&jobs[FIRST], 100) && job_start(&jobs[PERIODIC], 99) && job_start(&jobs[STOPPED], 80));
	CHECK(job_start(&jobs[PUSHED], 60));
}
static void starts_a_sooner_one(void) { CHECK(job_start(&jobs[SOONER], 10)); }
static void stops_and_pushes_back(void)
{
	CHECK(job_stop(&jobs[STOPPED]) && !job_stop(&jobs[STOPPED]) && job_start(&jobs[PUSHED], 500));
}
static void starts_a_remote_one(void) { CHECK(job_start(&jobs[REMOTE], portMAX_DELAY)); }
static void looks(void)
{
	static const uint64_t expected[JOBS] = { 101, 31, 1000, 0, 541, 2 * WRAP + 300 };

	for (int k = 0; k < JOBS; k++)
		CHECK(at[k] == expected[k] && runs[k] == (k == STOPPED ? 0 : k == PERIODIC ? 10 : 1));
	exit(0);
}

static const struct { uint64_t at; void (*call)(void); } script[] = {
	{ 20, starts_a_sooner_one }, { 40, stops_and_pushes_back }, { WRAP + 300, starts_a_remote_one }, { 4 * WRAP, looks },
};

uint32_t ulTaskNotifyTake(BaseType_t clears, TickType_t most)
{
	static size_t next;
	const uint64_t end = most == portMAX_DELAY ? UINT64_MAX : passed + most;

	CHECK(clears == pdTRUE && !mutex.is_held);
	while (!task.is_notified && script[next].at <= end) {
		passed = script[next].at;
		script[next++].call();
	}
	if (!task.is_notified)
		passed = end;
	task.is_notified = false;
	return 0;
}

int main(void)
{
	for (int k = 0; k < JOBS; k++)
		jobs[k].run = note;
	CHECK(jobs_new(5, 3));
	starts_some();
	task.code(NULL);
	return 1;
}
