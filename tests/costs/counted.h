/* Included before generated/*.c by the compiler's -include: what sets or moves many bytes at once counts as well, since it
 * has no branches that would be counted. */
/* SPDX-License-Identifier: MIT OR Apache-2.0 */
#include <stdint.h>
#include <stdlib.h>
#include <string.h>

extern uint64_t counted, resized;

/* A block for each 64 bytes. A compiler that sees few bytes still makes one instruction of it. */
#define memset(p, value, n) (counted += (uint64_t)(n) / 64, (memset)(p, value, n))
#define memcpy(p, from, n) (counted += (uint64_t)(n) / 64, (memcpy)(p, from, n))
#define memmove(p, from, n) (counted += (uint64_t)(n) / 64, (memmove)(p, from, n))

/* Blocks that grow. */
static void *counted_realloc(void *p, size_t n)
{
	resized++;
	return realloc(p, n);
}
#define realloc counted_realloc

/* The program reads by this: what it did between two reads of one line each is the cost of a line. */
#define read(from, p, n) counted_read(from, p, n)
