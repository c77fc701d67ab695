/* SPDX-License-Identifier: MIT OR Apache-2.0 */
#include "trace.h"

#include <inttypes.h>
#include <stdio.h>
#include <stdlib.h>
#include <string.h>

#include "memory.h"

bool traces, replays, hashes, may_allocate;
uint64_t calls, program_seed, refusals;

static uint64_t hash, state, requests;
static uint32_t status_of_call;
static struct call *known;
static struct seen *cases;
static const uint64_t *watched;

void want(const char *what, uint64_t got, uint64_t wanted)
{
	if (got == wanted)
		return;
	fflush(stdout);
	fprintf(stderr, "program %" PRIu64 ", call %" PRIu64 ": %s: got %" PRIu64 ", wanted %" PRIu64 "\n", program_seed, calls, what,
	        got, wanted);
	exit(1);
}

static void mix(uint64_t value)
{
	hash = (hash ^ value) * UINT64_C(0x9e3779b97f4a7c15);
	hash ^= hash >> 29;
}

static void mix_text(const char *text)
{
	while (*text != '\0')
		mix((unsigned char)*text++);
}

static void print_call(const char *name, const uint64_t *given, size_t givens, const uint64_t *got, size_t gots)
{
	size_t i;

	printf("%s", name);
	for (i = 0; i < givens; i++)
		printf(" %" PRIu64, given[i]);
	printf(" =");
	for (i = 0; i < gots; i++)
		printf(" %" PRIu64, got[i]);
	if (!replays)
		printf("; call %" PRIu64 ", memory %016" PRIx64, calls, memory_hash());
	printf("\n");
}

static void mix_call(const char *name, const uint64_t *given, size_t givens, const uint64_t *got, size_t gots)
{
	size_t i;

	mix_text(name);
	for (i = 0; i < givens; i++)
		mix(given[i]);
	for (i = 0; i < gots; i++)
		mix(got[i]);
	if (watched != NULL)
		mix(memory_hash_at(*watched));
}

void told(struct call *call, const uint64_t *given, size_t givens, const uint64_t *got, size_t gots)
{
	if (call->times++ == 0) {
		call->next = known;
		known = call;
	}
	call->returned[status_of_call]++;
	call->requests[status_of_call] += requests;
	calls++;
	if (hashes)
		mix_call(call->name, given, givens, got, gots);
	if (traces)
		print_call(call->name, given, givens, got, gots);
	if (!may_allocate)
		want(call->name, requests, 0);
	status_of_call = 0;
	forget_requests();
}

uint32_t returned(uint32_t status)
{
	status_of_call = status < SEEN_MOST ? status : SEEN_MOST - 1;
	return status;
}

void forget_requests(void)
{
	requests = 0;
	refusals = 0;
	may_allocate = false;
}

void told_memory(const char *what, uint64_t size, uint64_t block)
{
	requests += strcmp(what, "releases") != 0;
	refusals += strcmp(what, "refused") == 0;
	if (hashes) {
		mix_text(what);
		mix(size);
		mix(block);
	}
	if (traces && !replays)
		printf("  %s %" PRIu64 " bytes, block %" PRIu64 "\n", what, size, block);
}

void *resized(void *block, size_t size)
{
	void *const grown = realloc(block, size);

	if (grown == NULL)
		exit(2);
	return grown;
}

void watch(const uint64_t *at)
{
	watched = at;
}

void begin_trace(uint64_t seed)
{
	program_seed = seed;
	state = (seed + 1) * UINT64_C(0x9e3779b97f4a7c15);
	hash = 1;
	calls = 0;
	watched = NULL;
	forget_requests();
}

void told_state(void)
{
	if (hashes)
		mix(memory_hash());
}

uint64_t trace_hash(void)
{
	return hash;
}

void occurs(struct seen *seen, bool so)
{
	if (!seen->known) {
		seen->known = true;
		seen->next = cases;
		cases = seen;
	}
	seen->times += so;
}

static void print_statuses(const struct call *call)
{
	int i;

	for (i = 0; i < SEEN_MOST; i++) {
		if (call->returned[i] != 0)
			printf("status %s %d %" PRIu64 "\nrequests %s %d %" PRIu64 "\n", call->name, i, call->returned[i],
			       call->name, i, call->requests[i]);
	}
}

void print_counts(void)
{
	const struct call *call;
	const struct seen *seen;

	for (call = known; call != NULL; call = call->next) {
		printf("call %s %" PRIu64 "\n", call->name, call->times);
		print_statuses(call);
	}
	for (seen = cases; seen != NULL; seen = seen->next)
		printf("case %s: %" PRIu64 "\n", seen->name, seen->times);
}

void forget_counts(void)
{
	struct call *call;
	struct seen *seen;

	for (call = known; call != NULL; call = call->next) {
		memset(call->returned, 0, sizeof call->returned);
		memset(call->requests, 0, sizeof call->requests);
	}
	for (seen = cases; seen != NULL; seen = seen->next)
		seen->times = 0;
}

/* The statuses that this call returned, in this run. */
static uint32_t statuses_of(const char *name)
{
	const struct call *call;
	uint32_t found = 0;
	int i;

	for (call = known; call != NULL; call = call->next) {
		for (i = 0; i < SEEN_MOST && strcmp(call->name, name) == 0; i++)
			found |= (uint32_t)(call->returned[i] != 0) << i;
	}
	return found;
}

bool has_all(const struct wanted *wanted, size_t count)
{
	const struct seen *seen;
	bool all = true;
	size_t i;

	for (i = 0; i < count; i++) {
		const uint32_t missing = wanted[i].statuses & ~statuses_of(wanted[i].name);
		if (missing != 0)
			printf("%s has not returned each of its statuses: %#" PRIx32 "\n", wanted[i].name, missing);
		all = all && missing == 0;
	}
	for (seen = cases; seen != NULL; seen = seen->next) {
		if (seen->times == 0)
			printf("this never occurred: %s\n", seen->name);
		all = all && seen->times != 0;
	}
	return all;
}

uint64_t next_random(void)
{
	state ^= state << 13;
	state ^= state >> 7;
	state ^= state << 17;
	return state * UINT64_C(0x2545f4914f6cdd1d);
}

uint64_t below(uint64_t limit)
{
	return (next_random() >> 11) % limit;
}

uint64_t below_power(uint64_t bits)
{
	const uint64_t chosen = below(bits + 1);

	return chosen == 0 ? 0 : next_random() >> (64 - chosen);
}
