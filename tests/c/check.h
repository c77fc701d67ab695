/* What programs of this folder share: a check that ends the program where it fails, and random numbers from a seed. */
/* SPDX-License-Identifier: MIT OR Apache-2.0 */
#ifndef CHECK_H
#define CHECK_H

#include <stdint.h>
#include <stdio.h>
#include <stdlib.h>

#define CHECK(fact) ((fact) ? (void)0 : (fprintf(stderr, "%s: line %d: %s\n", __FILE__, __LINE__, #fact), abort()))

/* The next number below n, by xorshift. The seed is not 0. */
static inline uint64_t next_below(uint64_t *seed, uint64_t n)
{
	*seed ^= *seed << 13;
	*seed ^= *seed >> 7;
	*seed ^= *seed << 17;
	return *seed % n;
}

#endif
