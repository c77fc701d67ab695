/* Standard input of the program: the first BEFORE bytes as they come, and then a line at each read. How often the program read
 * these bytes, and made a block of memory grow meanwhile, goes to standard error; then how many blocks of code it ran for each of
 * the lines. */
/* SPDX-License-Identifier: MIT OR Apache-2.0 */
#include <inttypes.h>
#include <stdio.h>
#include <stdlib.h>
#include <unistd.h>

uint64_t counted, resized;
void __sanitizer_cov_trace_pc(void);
void __sanitizer_cov_trace_pc(void) { counted++; }

ssize_t counted_read(int from, void *to, size_t room);

static size_t left_before(void)
{
	static size_t left;
	static int begun;

	if (!begun) {
		const char *before = getenv("BEFORE");

		begun = 1;
		left = before != NULL ? strtoull(before, NULL, 10) : 0;
	}
	return left;
}

static ssize_t read_line(int from, char *to, size_t room)
{
	size_t length = 0;

	while (length < room && read(from, to + length, 1) == 1) {
		if (to[length++] == '\n')
			break;
	}
	return (ssize_t)length;
}

ssize_t counted_read(int from, void *to, size_t room)
{
	static size_t done, reads;
	static int lines;
	const size_t left = left_before() - done;
	ssize_t length;

	if (left > 0) {
		length = read(from, to, room < left ? room : left);
		done += length > 0 ? (size_t)length : 0;
		reads++;
		return length;
	}
	if (lines++ > 0)
		fprintf(stderr, "cost %" PRIu64 "\n", counted);
	else
		fprintf(stderr, "before %zu %" PRIu64 "\n", reads, resized);
	length = read_line(from, to, room);
	counted = 0;
	return length;
}
