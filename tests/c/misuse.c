/* Mistakes of a caller, each of which a sanitizer has to find inside the library:
 *
 *     misuse short     each block of memory is 8 bytes too short
 *     misuse askew     no block is aligned
 *     misuse unset     the struct was not set before the first call
 *     misuse shared    two threads start timers of one struct at once
 *     misuse none      none of these */
#include <pthread.h>
#include <stdio.h>
#include <stdlib.h>
#include <string.h>

#include <timers.h>

enum { TIMERS = 1000 };

static void *take_short(size_t size) { return malloc(size - 8); }
static void *take_askew(size_t size)
{
	unsigned char *block = malloc(size + 1);
	return block ? block + 1 : NULL;
}
static void keep(void *block) { (void)block; }

static void *start(void *timers)
{
	struct timers_handle handle;
	for (uint64_t i = 0; i < TIMERS; i++)
		if (timers_start(timers, 1 + i, i, &handle) != TIMERS_OK)
			exit(2);
	return NULL;
}

static void share(struct timers *t)
{
	pthread_t other;
	if (pthread_create(&other, NULL, start, t) != 0)
		exit(2);
	start(t);
	pthread_join(other, NULL);
}

int main(int argc, char **argv)
{
	const char *mistake = argc == 2 ? argv[1] : "none";
	struct timers *t = malloc(sizeof *t);
	if (t == NULL)
		return 2;
	if (strcmp(mistake, "short") == 0 && timers_set_allocator(take_short, NULL, keep) != TIMERS_OK)
		return 2;
	if (strcmp(mistake, "askew") == 0 && timers_set_allocator(take_askew, NULL, keep) != TIMERS_OK)
		return 2;
	if (strcmp(mistake, "unset") != 0)
		memset(t, 0, sizeof *t);
	if (timers_new(t, TIMERS_WIDE, 0) != TIMERS_OK || timers_reserve(t, 2 * TIMERS) != TIMERS_OK)
		return 2;
	if (strcmp(mistake, "shared") == 0)
		share(t);
	else
		start(t);
	timers_free(t);
	free(t);
	puts("no mistake was seen");
	return 0;
}
