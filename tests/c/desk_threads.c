/* Client threads beside one owner: each starts its timers, and checks its answers by number, its expiries by deadline,
 * serial and action, and their sums.
 *
 *     desk_threads CLIENTS TIMERS [mixed | deaf]
 *
 * With `mixed` about an eighth of the timers is stopped, and an eighth restarted. With `deaf` client 0 sends as much as
 * it can but reads nothing until all others are done. It stops no other, and gets all its words then. At the end each client's
 * words are ended, and it has read them all. With -DREFUSE five of six allocations of the owner are refused while the threads
 * work, and no call of a client allocates. */
#define _POSIX_C_SOURCE 200809L
#include <pthread.h>
#include <sched.h>
#include <stdatomic.h>
#include <string.h>
#include "timers_desk.h"
#include "check.h"

#ifdef REFUSE
static atomic_bool refusing;
static atomic_long asked;
static _Thread_local bool in_client;
static bool refused(void)
{
	CHECK(!in_client);
	return atomic_load(&refusing) && atomic_fetch_add(&asked, 1) % 6 != 5;
}
void *__real_malloc(size_t size);
void *__real_realloc(void *at, size_t size);
void *__wrap_malloc(size_t size) { return refused() ? NULL : __real_malloc(size); }
void *__wrap_realloc(void *at, size_t size) { return refused() ? NULL : __real_realloc(at, size); }
static void refuse(bool some) { atomic_store(&refusing, some); }
static void begin_client(void) { in_client = true; }
static void end_refusals(void) { refuse(false); CHECK(atomic_load(&asked) > 6); }
#else
static void refuse(bool some) { (void)some; }
static void begin_client(void) { }
static void end_refusals(void) { }
#endif

static size_t clients;
static uint64_t timers;
static bool mixed, deaf;
static atomic_size_t at_work;

struct client {
	size_t c;
	uint64_t *deadline, *serial;    /* of the timer that request n started */
	uint64_t *target;               /* the request whose timer request n stops or restarts */
	unsigned char *state;           /* 0 not answered, 1 pending, 2 gone */
	uint64_t started, expired, stopped, refused, sum;
	struct timers_line *line;
	char apart[64];
};

static uint64_t interval_of(size_t c, uint64_t n) { return 1 + (n * 7 + c) % 50; }
static uint64_t action_of(size_t c, uint64_t n) { return (uint64_t)c << 32 | n; }

/* Request n was to stop the timer of an earlier one, which had this serial, and did. */
static void note_stop(struct client *me, uint64_t n, uint64_t serial)
{
	uint64_t target = me->target[n];
	CHECK(me->state[target] == 1 && serial == me->serial[target]);
	me->state[target] = 2;
	me->sum -= action_of(me->c, target);
	me->stopped++;
}

/* requests are numbered from 1 on; request n's timer has action_of(c, n) */
static void *work(void *at)
{
	struct client *me = at;
	uint64_t sent = 0, answered = 0, last_deadline = 0, last_serial = 0, wanted = 0, idle = 0;
	struct timers_word w;
	struct timers_handle again = { 0, 0 };
	uint64_t target = 0;                    /* the request that started `again` */
	int ask = 0;                            /* 1 stop `again`, 2 restart it */
	begin_client();
	while (wanted < timers || ask || answered < sent || me->expired + me->stopped + me->refused < me->started) {
		bool did = false;
		uint64_t number;
		enum timers_desk_status s = TIMERS_DESK_LINE_FULL;
		if (ask == 1)
			s = timers_line_stop(me->line, again, &number);
		else if (ask == 2)
			s = timers_line_restart(me->line, again, 20, action_of(me->c, sent + 1), &number);
		else if (wanted < timers)
			s = timers_line_start(me->line, interval_of(me->c, sent + 1), action_of(me->c, sent + 1), &number);
		if (s == TIMERS_DESK_OK) {
			CHECK(number == sent + 1);
			sent++;
			if (ask)
				me->target[number] = target;
			else
				wanted++;
			ask = 0;
			did = true;
		} else {
			CHECK(s == TIMERS_DESK_LINE_FULL);
		}
		if (deaf && me->c == 0 && atomic_load(&at_work) > 1) {
			sched_yield();
			continue;
		}
		while (timers_line_receive(me->line, &w)) {
			did = true;
			CHECK(w.number >= 1 && w.number <= sent);
			switch (w.kind) {
			case TIMERS_WORD_STARTED:
			case TIMERS_WORD_RESTARTED:
				CHECK(w.number == answered + 1);
				answered = w.number;
				CHECK(me->state[w.number] == 0);
				me->state[w.number] = 1;
				me->deadline[w.number] = w.deadline;
				me->serial[w.number] = w.handle.serial;
				me->sum += action_of(me->c, w.number);
				me->started++;
				if (w.kind == TIMERS_WORD_RESTARTED)
					note_stop(me, w.number, w.other);
				if (mixed && w.kind == TIMERS_WORD_STARTED && !ask && w.number % 4 == 0) {
					ask = w.number % 8 ? 1 : 2;
					again = w.handle;
					target = w.number;
				}
				break;
			case TIMERS_WORD_STOPPED:
				CHECK(w.number == answered + 1);
				answered = w.number;
				note_stop(me, w.number, w.handle.serial);
				break;
			case TIMERS_WORD_REFUSED:
				CHECK(w.number == answered + 1);
				answered = w.number;
				CHECK(w.reason == TIMERS_DESK_NOT_PENDING && me->state[me->target[w.number]] == 2);     /* it had expired */
				break;
			case TIMERS_WORD_EXPIRED:
				CHECK(me->state[w.number] == 1);
				me->state[w.number] = 2;
				CHECK(w.deadline == me->deadline[w.number] && w.handle.serial == me->serial[w.number]);
				CHECK(w.action == action_of(me->c, w.number));
				CHECK(w.deadline > last_deadline || (w.deadline == last_deadline && w.handle.serial > last_serial));
				last_deadline = w.deadline;
				last_serial = w.handle.serial;
				me->sum -= w.action;
				me->expired++;
				break;
			default:
				CHECK(!"kind");
			}
		}
		if (!did && ++idle % 64 == 0)
			sched_yield();
	}
	CHECK(me->sum == 0);
	CHECK(timers_line_finish(me->line) == TIMERS_DESK_OK);
	atomic_fetch_sub(&at_work, 1);
	return NULL;
}

static void own(struct client *all, pthread_t *threads)
{
	struct timers_desk d = TIMERS_DESK_INIT;
	struct timers_line lines[TIMERS_DESK_CLIENTS] = { TIMERS_LINE_INIT };
	struct timers_desk_config config = { .size = sizeof config, .capacity = 1 << 20, .room = 1024, .line = 64 };
	CHECK(timers_desk_new(&d, lines, clients, &config) == TIMERS_DESK_OK);
	for (size_t c = 0; c < clients; c++) {
		all[c].line = &lines[c];
		CHECK(pthread_create(&threads[c], NULL, work, &all[c]) == 0);
	}
	refuse(true);
	while (atomic_load(&at_work) > 0) {
		bool busy = timers_desk_serve_all(&d, 64) == TIMERS_DESK_OK;
		busy |= timers_desk_flush_all(&d);
		CHECK(timers_desk_tick(&d) == TIMERS_DESK_OK);
		if (!busy)
			sched_yield();
	}
	end_refusals();
	for (size_t c = 0; c < clients; c++) {
		uint64_t standing = 99;
		CHECK(pthread_join(threads[c], NULL) == 0);
		CHECK(timers_desk_settle(&d, c, &lines[c], &standing) == TIMERS_DESK_OK);
		CHECK(standing == 0);
		CHECK(timers_desk_outbox(&d, c) == 0);
		CHECK(timers_desk_serve(&d, c) == TIMERS_DESK_IDLE);
		CHECK(!timers_line_ended(&lines[c]));
		CHECK(timers_desk_end(&d, c, &lines[c], &standing) == TIMERS_DESK_OK);
		CHECK(standing == 0 && timers_line_ended(&lines[c]));       /* it had counted right */
	}
	CHECK(timers_desk_len(&d) == 0);
	for (size_t c = 0; c < clients; c += 2)
		timers_line_free(&lines[c]);
	timers_desk_free(&d);
	for (size_t c = 0; c < clients; c++)
		timers_line_free(&lines[c]);
}

int main(int argc, char **argv)
{
	CHECK(argc >= 3);
	clients = strtoul(argv[1], NULL, 10);
	timers = strtoull(argv[2], NULL, 10);
	mixed = argc > 3 && strcmp(argv[3], "mixed") == 0;
	deaf = argc > 3 && strcmp(argv[3], "deaf") == 0;
	CHECK(clients >= 1 && clients <= TIMERS_DESK_CLIENTS);
	struct client *all = calloc(clients, sizeof *all);
	pthread_t threads[TIMERS_DESK_CLIENTS];
	for (size_t c = 0; c < clients; c++) {
		all[c].c = c;
		all[c].deadline = calloc(2 * timers + 2, sizeof(uint64_t));
		all[c].serial = calloc(2 * timers + 2, sizeof(uint64_t));
		all[c].target = calloc(2 * timers + 2, sizeof(uint64_t));
		all[c].state = calloc(2 * timers + 2, 1);
	}
	atomic_store(&at_work, clients);
	own(all, threads);
	for (size_t c = 0; c < clients; c++) {
		if (!mixed)
			CHECK(all[c].expired == timers && all[c].started == timers);
		CHECK(all[c].started == all[c].expired + all[c].stopped);
		free(all[c].deadline);
		free(all[c].serial);
		free(all[c].target);
		free(all[c].state);
	}
	free(all);
	printf("%zu clients received all their words\n", clients);
	return 0;
}
