/* The memory of a random program: each request is told to the trace, and some are refused. */
/* SPDX-License-Identifier: MIT OR Apache-2.0 */
#ifndef MEMORY_H
#define MEMORY_H

#include <stdbool.h>
#include <stddef.h>
#include <stdint.h>

/* The library asks for its memory here from now on. With `copies` it has no function that resizes a block. Returns
 * whether that worked. */
bool memory_set_up(bool copies);

/* A program begins, without a block. One request in `refuses` is refused, none if that is 0, and the one after `turn`
 * others, if that is not 0. */
void memory_begin(uint64_t seed, uint64_t refuses, uint64_t turn);

/* The next request is refused. */
void memory_refuse_next(void);

/* Of all bytes that were asked for since the program began, freed ones too. */
uint64_t memory_hash(void);

/* The same of the block at this address, or 0 if it is not one of a block. */
uint64_t memory_hash_at(uint64_t address);

/* Words of blocks that count something: those that had its values at each call of memory_follow, or none if there were too
 * many. memory_set gives them another value. It is for counts that no program reaches by counting. */
struct followers {
	size_t count, at[8192];
	bool begun;
};
void memory_follow(struct followers *words, uint64_t value);
void memory_set(const struct followers *words, uint64_t value);

/* A call that is given a const pointer. It writes to no block: meanwhile none can be written. */
#define READING(call) do { memory_lock(true); call; memory_lock(false); } while (0)
void memory_lock(bool so);

/* How many blocks are held, and how often a byte beside a block was written. */
uint64_t memory_blocks(void);
uint64_t memory_overruns(void);

#endif
