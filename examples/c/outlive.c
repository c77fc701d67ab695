/* Timers that outlive their process: each change is followed by a save, and a process that begins reads the last one.
 *
 * What is saved is the tick, and the deadline and action of each timer, in order of serial. Started again in that order, the
 * timers come out as they would have: at the same ticks, and those of one tick in the same order. The handles are new, so
 * what owns a timer finds it by its action. Here a child makes timers, saves, and is killed.
 */
/* SPDX-License-Identifier: MIT OR Apache-2.0 */
#define _POSIX_C_SOURCE 200809L
#include <fcntl.h>
#include <inttypes.h>
#include <signal.h>
#include <stdio.h>
#include <stdlib.h>
#include <sys/wait.h>
#include <timers.h>
#include <unistd.h>

enum { MOST = 16 };
static const char path[] = "outlive.saved", fresh[] = "outlive.saved.new";
static struct timers t = TIMERS_INIT;
static struct timers_handle handles[MOST];      /* by action */

static int by_serial(const void *a, const void *b)
{
	const struct timers_expired *x = a, *y = b;
	return (x->serial > y->serial) - (x->serial < y->serial);
}

/* Keeps a file's bytes, or a folder's names, through a power cut. */
static bool sync_path(const char *name)
{
	int file = open(name, O_RDONLY);
	bool kept = file >= 0 && fsync(file) == 0;
	return (file < 0 || close(file) == 0) && kept;
}

/* Replaces the saved state as a whole: a crash leaves the old one or the new one. */
static bool save(void)
{
	struct timers_expired rows[MOST];
	struct timers_handle handle;
	uint64_t cursor = 0;
	size_t count = 0;
	while (count < MOST && timers_each(&t, &cursor, &handle, &rows[count]))
		count++;
	qsort(rows, count, sizeof rows[0], by_serial);
	FILE *f = fopen(fresh, "w");
	if (!f)
		return false;
	fprintf(f, "%" PRIu64 " %zu\n", timers_now(&t), count);
	for (size_t i = 0; i < count; i++)
		fprintf(f, "%" PRIu64 " %" PRIu64 "\n", rows[i].deadline, rows[i].action);
	bool written = !ferror(f);
	return fclose(f) == 0 && written && sync_path(fresh) && rename(fresh, path) == 0 && sync_path(".");
}

/* A deadline that is the saved tick itself is one of a timer that had expired: it has expired again. */
static bool restore(void)
{
	uint64_t now, deadline, action;
	size_t count;
	FILE *f = fopen(path, "r");
	bool read = f && fscanf(f, "%" SCNu64 " %zu", &now, &count) == 2 && timers_new(&t, TIMERS_WIDE, now) == TIMERS_OK;
	for (size_t i = 0; read && i < count; i++)
		read = fscanf(f, "%" SCNu64 " %" SCNu64, &deadline, &action) == 2 && action < MOST &&
		       timers_start_at(&t, deadline, action, &handles[action]) == TIMERS_OK;
	return (!f || fclose(f) == 0) && read;
}

static bool set(uint64_t action, uint64_t deadline)
{
	return timers_set_at(&t, &handles[action], deadline, action) == TIMERS_OK;
}

/* Timer 1 is pushed back behind 2 and 3; 4 has expired at tick 5, and was not taken yet. */
static void work_and_die(void)
{
	if (timers_new(&t, TIMERS_WIDE, 0) == TIMERS_OK && set(1, 10) && set(2, 30) && set(3, 30) && set(4, 5) && set(1, 30) &&
	    timers_advance_to(&t, 7) == TIMERS_OK && save())
		kill(getpid(), SIGKILL);
	_exit(1);
}

/* An argument names the folder for the file. */
int main(int argc, char **argv)
{
	struct timers_expired timer;
	int status;
	if (argc > 1 && chdir(argv[1]) != 0)
		return 1;
	pid_t child = fork();
	if (child == 0)
		work_and_die();
	if (child < 0 || waitpid(child, &status, 0) != child || !WIFSIGNALED(status) || !restore())
		return 1;
	printf("restored at tick %" PRIu64 ": %zu pending\n", timers_now(&t), timers_len(&t));
	timers_stop(&t, handles[3], NULL);
	while (timers_take(&t, 100, &timer))
		printf("tick %" PRIu64 ": timer %" PRIu64 "\n", timer.deadline, timer.action);
	timers_free(&t);
	return remove(path) == 0 ? 0 : 1;
}
