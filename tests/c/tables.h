/* The tables of wheels by their numbers, as facts/tables.toml has them. */
#ifndef TABLES_H
#define TABLES_H

#include <timers.h>

/* A wheel has as many slots as its radix, or those of several revolutions. */
static const struct table {
	uint64_t radices[10]; /* from the lowest wheel up, and 0 where there is none */
	uint64_t revolutions;
	size_t buckets, more; /* bytes: of the wheels, and with the first timer */
} TABLES[TIMERS_TABLES] = {
	/* made by tools/facts: tables in tests */
	{ { 64, 64, 64, 64, 64, 64, 64, 64, 64, 64 }, 1, 5800, 5500 },
	{ { 64, 64, 64, 64, 64, 64, 64, 64, 64, 64 }, 2, 10700, 10500 },
	{ { 16, 16, 16, 16, 16, 16 }, 1, 1460, 1180 },
};

#endif
