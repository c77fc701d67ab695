/* Each allocation of some stories is refused in turn, over each table. The call that was out of memory has changed nothing, is
 * made once more, and then the story ends as if nothing had been refused. A run in which nothing was refused, or in which
 * nothing came of it, is a failure: with -DFORGETS no allocation is refused, which this test has to notice. */
#include <timers.h>
#include <timers_desk.h>
#include "check.h"

/* the number of the allocation that is refused, from 1 on, or 0; how many there were; how many calls were made again, and how
 * often a request was held */
static long refused, asked, again, holds;

static int is_refused(void)
{
	asked++;
#ifdef FORGETS
	return 0;
#endif
	return asked == refused;
}

static void *allocate(size_t size) { return is_refused() ? NULL : malloc(size); }
static void *resize(void *block, size_t size) { return is_refused() ? NULL : realloc(block, size); }

/* Makes a call, and once more if it was out of memory, after which nothing has changed. */
#define MAKE(call, prefix, unchanged) do { \
	int status = (int)(call); \
	if (status == prefix##_NO_MEMORY) { \
		again++; \
		CHECK(unchanged); \
		status = (int)(call); \
	} \
	CHECK(status == prefix##_OK); \
} while (0)

enum { STARTS = 100, MOST = 1000 };

/* A hundred timers with deadlines from 1 to 100, out of order, are all there, and each is taken at its tick. */
static void starts(uint32_t table)
{
	struct timers t = TIMERS_INIT;
	struct timers_handle handle;
	struct timers_expired out;
	MAKE(timers_new(&t, table, 0), TIMERS, !t.at && t.mark == 0);
	for (uint64_t n = 1; n <= STARTS; n++) {
		handle.serial = 0;
		MAKE(timers_start(&t, n * 37 % (STARTS + 1), n, &handle), TIMERS, timers_len(&t) == n - 1 && handle.serial == 0);
		CHECK(timers_len(&t) == n && handle.serial == n);
	}
	for (uint64_t tick = 1; tick <= STARTS; tick++)
		CHECK(timers_take(&t, STARTS, &out) && out.deadline == tick && out.action * 37 % (STARTS + 1) == tick);
	CHECK(!timers_take(&t, STARTS, &out) && timers_len(&t) == 0 && timers_now(&t) == STARTS);
	timers_free(&t);
}

static struct timers_desk_config config_of(uint32_t table)
{
	return (struct timers_desk_config){ .size = sizeof(struct timers_desk_config), .capacity = MOST, .room = 8, .line = 8, .table = table };
}

static void is_told(struct timers_line *line, uint32_t kind, uint64_t serial, uint64_t deadline)
{
	struct timers_word word;
	CHECK(timers_line_receive(line, &word) && word.kind == kind);
	CHECK(kind == TIMERS_WORD_NOT_TAKEN || (word.handle.serial == serial && word.deadline == deadline));
}

static void sends(struct timers_line *line, uint64_t interval)
{
	uint64_t number;
	CHECK(timers_line_start(line, interval, 7, &number) == TIMERS_DESK_OK);
}

/* Serves a client's start, which is held while memory is out, and is the next to be tried. */
static void serves(struct timers_desk *d, size_t c)
{
	size_t pending = timers_desk_len(d);
	MAKE(timers_desk_serve(d, c), TIMERS_DESK, timers_desk_len(d) == pending && timers_desk_outbox(d, c) == 0);
}

/* A close returns the timers of both clients, and a request after it is not taken. */
static void close_at_desk(uint32_t table)
{
	struct timers_desk d = TIMERS_DESK_INIT;
	struct timers_line l[2] = { TIMERS_LINE_INIT, TIMERS_LINE_INIT };
	struct timers_desk_config config = config_of(table);
	uint64_t count = 0;
	MAKE(timers_desk_new(&d, l, 2, &config), TIMERS_DESK, d.mark == 0 && l[0].mark == 0 && l[1].mark == 0);
	sends(&l[0], 5), sends(&l[0], 1), sends(&l[1], 3);
	serves(&d, 0), serves(&d, 1);
	timers_desk_flush_all(&d);
	MAKE(timers_desk_close(&d, &count), TIMERS_DESK, count == 0 && timers_desk_len(&d) == 2);
	CHECK(count == 2 && timers_desk_len(&d) == 0 && timers_desk_serve(&d, 0) == TIMERS_DESK_OK);
	timers_desk_flush_all(&d);
	is_told(&l[0], TIMERS_WORD_STARTED, 1, 5), is_told(&l[1], TIMERS_WORD_STARTED, 2, 3);
	is_told(&l[0], TIMERS_WORD_RETURNED, 1, 5), is_told(&l[1], TIMERS_WORD_RETURNED, 2, 3);
	is_told(&l[0], TIMERS_WORD_NOT_TAKEN, 0, 0);
	for (int c = 0; c < 2; c++) {
		struct timers_word none;
		CHECK(!timers_line_receive(&l[c], &none));
		timers_line_free(&l[c]);
	}
	timers_desk_free(&d);
}

/* A start that met want of memory is held over so many ticks, and its deadline counts from the tick at which it is taken. */
static void held(uint32_t table, uint64_t ticks)
{
	struct timers_desk d = TIMERS_DESK_INIT;
	struct timers_line l = TIMERS_LINE_INIT;
	struct timers_desk_config config = config_of(table);
	uint64_t deadline = 1, passed = 0;
	MAKE(timers_desk_new(&d, &l, 1, &config), TIMERS_DESK, d.mark == 0 && l.mark == 0);
	sends(&l, 1);
	enum timers_desk_status served = timers_desk_serve(&d, 0);
	if (served == TIMERS_DESK_NO_MEMORY) {
		again++, holds++;
		CHECK(timers_desk_len(&d) == 0 && timers_desk_outbox(&d, 0) == 0);
		CHECK(ticks == 0 || (timers_desk_advance(&d, ticks, &passed) == TIMERS_DESK_OK && passed == ticks));
		deadline += ticks;
		served = timers_desk_serve(&d, 0);
	}
	CHECK(served == TIMERS_DESK_OK && timers_desk_serve(&d, 0) == TIMERS_DESK_IDLE);
	CHECK(timers_desk_tick(&d) == TIMERS_DESK_OK);
	timers_desk_flush_all(&d);
	is_told(&l, TIMERS_WORD_STARTED, 1, deadline), is_told(&l, TIMERS_WORD_EXPIRED, 1, deadline);
	timers_desk_free(&d), timers_line_free(&l);
}

static void held_request(uint32_t table) { held(table, 0); }
static void held_over_tick(uint32_t table) { held(table, 1); }

static void refuse_each(const char *name, void (*story)(uint32_t), uint32_t table)
{
	refused = asked = again = 0;
	story(table);
	CHECK(again == 0);
	long all = asked;
	for (refused = 1; refused <= all; refused++) {
		asked = again = 0;
		story(table);
		if (again != 1) {
			fprintf(stderr, "%s, table %u: %ld calls were made again after allocation %ld of %ld was refused\n", name, (unsigned)table, again, refused, all);
			exit(1);
		}
	}
	printf("%s, table %u: %ld allocations, each refused in turn\n", name, (unsigned)table, all);
}

int main(void)
{
	CHECK(timers_set_allocator(allocate, resize, free) == TIMERS_OK);
	for (uint32_t table = 0; table < TIMERS_TABLES; table++) {
		refuse_each("starts", starts, table);
		refuse_each("close_at_desk", close_at_desk, table);
		holds = 0;
		refuse_each("held_request", held_request, table);
		refuse_each("held_over_tick", held_over_tick, table);
		CHECK(holds > 1);
	}
	return 0;
}
