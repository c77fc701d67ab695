/* What the files of the driver share: the two kinds of random programs. */
/* SPDX-License-Identifier: MIT OR Apache-2.0 */
#ifndef DRIVER_H
#define DRIVER_H

#include <stdbool.h>
#include <stddef.h>
#include <stdint.h>

/* What stands for NULL where nobody wants an answer. The toolchain's object needs an object there. */
#ifdef OBJECT
extern uint64_t unwanted[8];
#define NONE ((void *)unwanted)
#else
#define NONE NULL
#endif

/* A step of a program, and how likely it is before the program chose its own likelihoods. Programs whose trace wrappers
 * replay leave out what a wrapper doesn't have. */
struct step {
	void (*make)(void);
	unsigned weight;
	bool not_replayed;
};

/* Makes `length` steps, and looks after each. Each program leaves out other ones, but never the first. */
void make_steps(const struct step *steps, size_t count, uint64_t length, void (*look)(void));

/* A random program of this length over timers.h, or over timers_desk.h, with wheels of this table. All is freed in the end.
 * The others say whether all that should occur has occurred. */
void call_timers(uint32_t table, uint64_t length);
bool timers_have_all(uint32_t table);
void call_desks(uint32_t table, uint64_t length);
bool desks_have_all(uint32_t table);

#endif
