/* driver [OPTION..] timers|desk CALLS [SEED]   random programs, until they have made so many calls over each table
 *
 * Each call is compared with a model: the first difference ends the driver with status 1. So does a status, a step or a case
 * that should have occurred with a table and never did, from LEAST calls on.
 *
 *     --copies         the allocator has no function that resizes a block
 *     --hashes         prints a line for each program, with the hash of all its calls
 *     --counts         prints how often each call was made, and with which status
 *     --program SEED   makes this program alone, and prints each of its calls
 *     --replay TABLE   prints calls over one table and their answers, for a wrapper that replays them */
/* SPDX-License-Identifier: MIT OR Apache-2.0 */
#include "driver.h"

#include <inttypes.h>
#include <stdio.h>
#include <stdlib.h>
#include <string.h>

#include <timers.h>

#include "memory.h"
#include "trace.h"

#ifdef OBJECT
uint64_t unwanted[8];
#endif

enum { STEPS_MOST = 64, LEAST = 200000 };

static struct kind {
	void (*call)(uint32_t table, uint64_t length);
	bool (*have_all)(uint32_t table);
} kind;

static const struct step *last_steps;
static size_t last_count;
static uint64_t made_steps[STEPS_MOST];

void make_steps(const struct step *steps, size_t count, uint64_t length, void (*look)(void))
{
	uint64_t weights[STEPS_MOST], all = 0, lot;
	size_t i;

	last_steps = steps;
	last_count = count;
	for (i = 0; i < count; i++) {
		weights[i] = steps[i].weight * (i != 0 && below(3) == 0 ? 0 : 1 + below(8));
		if (replays && steps[i].not_replayed)
			weights[i] = 0;
		all += weights[i];
	}
	while (length-- > 0) {
		lot = below(all);
		for (i = 0; lot >= weights[i]; i++)
			lot -= weights[i];
		steps[i].make();
		made_steps[i]++;
		look();
	}
}

/* Of three programs one lacks no memory, one lacks it at random, and one at a single request: at each of the first 24 in turn. */
static void begin_memory(uint64_t seed)
{
	static const uint64_t refusals[] = { 3, 10, 30, 200 };
	const uint64_t number = seed / TIMERS_TABLES, lacks = number % 3, turn = 1 + number / 3 % 24, one_in = refusals[below(4)];

	memory_begin(seed, lacks == 1 && !replays ? one_in : 0, lacks == 2 && !replays ? turn : 0);
}

/* Returns how many calls the program made. */
static uint64_t run_program(uint64_t seed)
{
	begin_trace(seed);
	begin_memory(seed);
	kind.call((uint32_t)(seed % TIMERS_TABLES), UINT64_C(1) << (5 + below(9)));
	if (hashes)
		printf("program %" PRIu64 ", %" PRIu64 " calls, %016" PRIx64 "\n", seed, calls, trace_hash());
	WANT("blocks that were not freed", memory_blocks(), 0);
	WANT("bytes that were written outside of blocks", memory_overruns(), 0);
	return calls;
}

/* Random programs over one table, each with a seed of its own. Returns whether all occurred that should. */
static bool run_table(uint32_t table, uint64_t wanted, uint64_t seed, bool counts)
{
	uint64_t left = wanted, number = seed << 32, i;
	bool all = true;

	forget_counts();
	memset(made_steps, 0, sizeof made_steps);
	for (; left > 0; number++) {
		const uint64_t made = run_program(number * TIMERS_TABLES + table) + 1;
		left -= made < left ? made : left;
	}
	if (counts)
		print_counts();
	for (i = 0; i < last_count && wanted >= LEAST && !replays; i++)
		all = all && made_steps[i] > 0;
	if (!all)
		puts("a step was never made");
	return wanted < LEAST || replays || (kind.have_all(table) && all);
}

/* What the words of the command line ask for. */
static struct asked {
	bool copies, counts, one;
	uint32_t first, tables;      /* over which tables */
	uint64_t seed;               /* of the only program */
} asked = { false, false, false, 0, TIMERS_TABLES, 0 };

/* Reads an option, and returns of how many words it is. */
static int read_option(char **words)
{
	const uint64_t value = words[1] == NULL ? 0 : strtoull(words[1], NULL, 10);

	if (strcmp(words[0], "--copies") == 0) {
		asked.copies = true;
	} else if (strcmp(words[0], "--counts") == 0) {
		asked.counts = true;
	} else if (strcmp(words[0], "--hashes") == 0) {
		hashes = true;
	} else if (strcmp(words[0], "--program") == 0) {
		asked.one = traces = true;
		asked.seed = value;
		return 2;
	} else if (strcmp(words[0], "--replay") == 0) {
		replays = traces = true;
		asked.first = (uint32_t)value;
		asked.tables = 1;
		return 2;
	}
	return 1;
}

int main(int count, char **words)
{
#ifdef TIMERS_NO_DESK
	static const struct kind timers = { call_timers, timers_have_all }, desk = { NULL, NULL };
#else
	static const struct kind timers = { call_timers, timers_have_all }, desk = { call_desks, desks_have_all };
#endif
	uint64_t wanted, seed;
	uint32_t i;
	int at = 1;
	bool all = true;

	while (at < count && words[at][0] == '-')
		at += read_option(words + at);
	if (at >= count || (!asked.one && at + 1 >= count))
		return 2;
	kind = strcmp(words[at], "desk") == 0 ? desk : timers;
	if (!memory_set_up(asked.copies)) {
		puts("there is no memory at the wanted address, or no allocator may be given");
		return 2;
	}
	if (asked.one) {
		run_program(asked.seed);
		return 0;
	}
	wanted = strtoull(words[at + 1], NULL, 10);
	seed = at + 2 < count ? strtoull(words[at + 2], NULL, 10) : 0;
	for (i = 0; i < asked.tables; i++)
		all = run_table(asked.first + i, wanted, seed, asked.counts) && all;
	if (!traces && !hashes && all)
		printf("%" PRIu64 " calls over each of %d tables agree\n", wanted, TIMERS_TABLES);
	return !all;
}
