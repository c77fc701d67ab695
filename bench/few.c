/* What a push back takes on a small machine, of the timers of peers.h that a macro chooses.
 *
 *     few COUNT HELD   pushes one of HELD timers to a deadline at random, COUNT times; then all come out, by deadline. With
 *                      HELD 0 nothing is pushed: the rest is the same. */
#include <stdbool.h>
#include <stddef.h>
#include <stdint.h>
#include <stdlib.h>

#include "peers.h"

static struct node nodes[1000];
static uint64_t deadlines[1000];

static uint32_t random_number(void)
{
	static uint32_t state = 1;

	state = state * 1664525 + 1013904223;
	return state >> 16;
}

static void set_one(uint32_t k, bool is_set)
{
	deadlines[k] = 1 + random_number();
	if (is_set)
		set(&nodes[k], deadlines[k]);
}

int main(int argc, char **argv)
{
	const uint32_t held = argc == 3 ? (uint32_t)atoi(argv[2]) : 0;
	uint32_t k, out = 0;
	uint64_t last = 0;
	struct node *node;

	if (argc != 3 || held > 1000)
		return 2;
	init(1000);
	for (k = 0; k < held; k++)
		set_one(k, true);
	for (k = (uint32_t)atoi(argv[1]); k > 0; k--)
		set_one(random_number() % (held > 0 ? held : 1), held > 0);
	for (; (node = take(UINT32_MAX)) != NULL; out++) {
		if (deadlines[node - nodes] < last)
			return 1;
		last = deadlines[node - nodes];
	}
	return out != held;
}
