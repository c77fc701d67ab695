/* How much room a client needs, however seldom it reads. */
#include "timers_desk.h"
#include "check.h"

static uint64_t seed = 1;

static uint64_t random_below(uint64_t limit) { return next_below(&seed, limit); }

/* What one client keeps, by its words: its timers, its requests without an answer, and of these the ones not yet served. */
struct kept {
	uint64_t timers, requests, standing;
	struct timers_handle handle;
};

static void receive_word(struct timers_line *l, struct kept *kept)
{
	struct timers_word w;
	if (!timers_line_receive(l, &w))
		return;
	kept->requests -= w.kind != TIMERS_WORD_EXPIRED;
	/* a refused start has its action, 1, and a refused restart 2; a stop has 0 */
	kept->timers -= w.kind == TIMERS_WORD_EXPIRED || w.kind == TIMERS_WORD_STOPPED || w.kind == TIMERS_WORD_RESTARTED;
	kept->timers -= w.kind == TIMERS_WORD_REFUSED && w.action > 0;
	if (w.kind == TIMERS_WORD_STARTED || w.kind == TIMERS_WORD_RESTARTED)
		kept->handle = w.handle;
}

/* A request of the client: a start or a restart is for one more timer. */
static void send(struct timers_line *l, struct kept *kept, uint64_t way)
{
	const uint64_t interval = 1 + random_below(9);
	uint64_t number;
	const enum timers_desk_status sent = way == 0 ? timers_line_stop(l, kept->handle, &number)
		: way == 1 ? timers_line_restart(l, kept->handle, interval, 2, &number) : timers_line_start(l, interval, 1, &number);
	if (sent == TIMERS_DESK_OK)
		kept->requests++, kept->standing++, kept->timers += way > 0;
}

/* Whether a request has to wait for room, of a client that keeps so many timers and requests. */
static bool lacks_room(uint64_t timers, uint64_t requests, uint64_t room)
{
	struct timers_desk d = TIMERS_DESK_INIT;
	struct timers_line l = TIMERS_LINE_INIT;
	const struct timers_desk_config config = { sizeof config, 0, 100, room, 1 + random_below(20), TIMERS_WIDE };
	struct kept kept = { 0, 0, 0, { 0, 0 } };
	bool lacks = false;
	uint64_t passed;
	CHECK(timers_desk_new(&d, &l, 1, &config) == TIMERS_DESK_OK);
	for (int step = 0; step < 3000 && !lacks; step++) {
		const uint64_t way = random_below(7);
		if (way < 4 && kept.requests < requests && (way == 0 || kept.timers < timers))
			send(&l, &kept, way);
		else if (way == 4)
			receive_word(&l, &kept);
		else if (way == 5)
			timers_desk_flush(&d, 0);
		else if (way == 6)
			CHECK(timers_desk_advance(&d, random_below(6), &passed) == TIMERS_DESK_OK);
		const enum timers_desk_status served = random_below(2) == 0 ? timers_desk_serve(&d, 0) : TIMERS_DESK_IDLE;
		lacks = served == TIMERS_DESK_NO_ROOM && kept.standing > 0;
		kept.standing -= served == TIMERS_DESK_OK;
	}
	timers_desk_free(&d), timers_line_free(&l);
	return lacks;
}

/* As timers_desk.h says, k + q + 1 is enough. With a word less some client lacks room. */
int main(void)
{
	bool too_few = false;
	for (uint64_t timers = 1; timers <= 12; timers++)
		for (uint64_t requests = 1; requests <= 12; requests += 1 + requests / 4) {
			CHECK(!lacks_room(timers, requests, timers + requests + 1));
			too_few = lacks_room(timers, requests, timers + requests) || too_few;
		}
	CHECK(too_few);
	return 0;
}
