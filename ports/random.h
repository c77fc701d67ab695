/* xorshift64*: what the traces draw from their seed, the same in each build. */
#include <stdint.h>
#include <stdlib.h>

static uint64_t random_state;

static uint64_t random_bits(void)
{
	random_state ^= random_state >> 12;
	random_state ^= random_state << 25;
	random_state ^= random_state >> 27;
	return random_state * UINT64_C(2685821657736338717);
}

static uint64_t below(uint64_t bound) { return (random_bits() >> 11) % bound; }

/* The first draws of near seeds are alike. */
static void seed(const char *number)
{
	random_state = strtoull(number, NULL, 10) * 2 + 1;
	for (int skipped = 0; skipped < 20; skipped++)
		random_bits();
}
