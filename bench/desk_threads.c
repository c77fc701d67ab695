/* Client threads that keep timers in one of four ways.
 *
 *     desk_threads desk CLIENTS TIMERS LINE ROOM     over a desk of timers_desk.h, beside one owner
 *     desk_threads mutex CLIENTS TIMERS SHARDS       in SHARDS wheels, each under a mutex, beside one owner
 *     desk_threads locked CLIENTS TIMERS             in a wheel for each, under a mutex, without an owner
 *     desk_threads own CLIENTS TIMERS                in a wheel for each, without a mutex or an owner
 *
 * A client starts TIMERS timers of 1 to 50 ticks, with at most 960 of them not yet expired, and checks the deadline and the
 * action of each. An owner passes a tick a turn, and without an owner each client does. With `mutex` client c starts its timers
 * itself, in wheel c % SHARDS, and the owner hands out what expires by a queue for each client, which has a mutex of its own.
 *
 * Prints one line of numbers: words (an answer and an expiry a timer), seconds, then in nanoseconds the median, the 99.9th and
 * 99.99th percentiles and the most of a call to start, and the same of the time from a request to its answer. A desk's call is
 * timed if its line had room; a request begins at its first call, so it has the time in which the line was full. Without a desk
 * the call is the answer. */
#include "desk_clients.h"
#include "timers_desk.h"

enum { QUEUE = 1024, BATCH = 256 };
enum way { DESK, MUTEX, LOCKED, OWN, WAYS };

/* The desk. */

static bool start_at_desk(struct client *me)
{
	uint64_t n = me->sent + 1, number, began = nanoseconds();
	if (me->asked[n] == 0)
		me->asked[n] = began;
	enum timers_desk_status status = timers_line_start(me->line, interval_of(me, n), action_of(me, n), &number);
	uint64_t took = nanoseconds() - began;
	if (status == TIMERS_DESK_LINE_FULL)
		return false;
	keep(&me->starts, took);
	CHECK(status == TIMERS_DESK_OK && number == n);
	me->sent = n;
	return true;
}

static void take_word(struct client *me, const struct timers_word *w)
{
	if (w->kind == TIMERS_WORD_EXPIRED) {
		take_expired(me, w->number, w->action, w->deadline);
		return;
	}
	CHECK(w->kind == TIMERS_WORD_STARTED);
	take_answer(me, w->number, w->deadline);
}

static void *work_at_desk(void *at)
{
	struct client *me = at;
	struct timers_word word;
	uint64_t idle = 0;
	while (me->expired < me->timers) {
		bool did = may_start(me) && start_at_desk(me);
		while (timers_line_receive(me->line, &word)) {
			take_word(me, &word);
			did = true;
		}
		if (!did && ++idle % IDLE_PASSES == 0)
			sched_yield();
	}
	return end_work();
}

static void own_desk(struct client *all, pthread_t *threads, size_t line, size_t room)
{
	struct timers_desk d = TIMERS_DESK_INIT;
	struct timers_line lines[MAX_CLIENTS] = { TIMERS_LINE_INIT };
	struct timers_desk_config config = { .size = sizeof(struct timers_desk_config), .capacity = 1 << 20, .room = room, .line = line };
	CHECK(timers_desk_new(&d, lines, clients, &config) == TIMERS_DESK_OK);
	for (size_t c = 0; c < clients; c++)
		all[c].line = &lines[c];
	begin(threads, all, work_at_desk);
	while (clients_at_work() > 0) {
		bool busy = timers_desk_serve_all(&d, 64) == TIMERS_DESK_OK;
		CHECK(timers_desk_tick(&d) == TIMERS_DESK_OK);
		busy |= timers_desk_flush_all(&d);
		if (!busy)
			sched_yield();
	}
	end(threads);
	CHECK(timers_desk_len(&d) == 0);
	timers_desk_free(&d);
	for (size_t c = 0; c < clients; c++)
		timers_line_free(&lines[c]);
}

/* Wheels. */

static struct { pthread_mutex_t lock; size_t head, tail; struct timers_expired at[QUEUE]; char apart[64]; } queues[MAX_CLIENTS];
static struct shard { pthread_mutex_t lock; struct timers wheel; char apart[64]; } shards[MAX_CLIENTS];
static size_t shard_count;

/* A wheel that one thread alone uses has no lock. */
static void lock_wheel(pthread_mutex_t *lock)
{
	if (lock)
		pthread_mutex_lock(lock);
}

static void unlock_wheel(pthread_mutex_t *lock)
{
	if (lock)
		pthread_mutex_unlock(lock);
}

static void start_in(struct timers *wheel, pthread_mutex_t *lock, struct client *me)
{
	struct timers_handle handle;
	uint64_t n = me->sent + 1, began = nanoseconds();
	lock_wheel(lock);
	uint64_t now = timers_now(wheel);
	enum timers_status status = timers_start(wheel, interval_of(me, n), action_of(me, n), &handle);
	unlock_wheel(lock);
	uint64_t took = nanoseconds() - began;
	keep(&me->starts, took);
	keep(&me->answers, took);
	CHECK(status == TIMERS_OK);
	me->deadline[n] = now + interval_of(me, n);
	me->sent = n;
}

static void take_timer(struct client *me, const struct timers_expired *e)
{
	take_expired(me, e->action & UINT32_MAX, e->action, e->deadline);
}

/* Passes a tick, and returns how many timers it wrote to `batch`. */
static size_t pass_tick(struct timers *wheel, pthread_mutex_t *lock, struct timers_expired *batch)
{
	lock_wheel(lock);
	enum timers_status status = timers_tick(wheel);
	size_t n = timers_expire_batch(wheel, batch, BATCH);
	unlock_wheel(lock);
	CHECK(status == TIMERS_OK || status == TIMERS_DUE);
	return n;
}

static void *work_in(struct client *me, struct timers *wheel, pthread_mutex_t *lock)
{
	struct timers_expired batch[BATCH];
	while (me->expired < me->timers) {
		if (may_start(me))
			start_in(wheel, lock, me);
		size_t n = pass_tick(wheel, lock, batch);
		for (size_t i = 0; i < n; i++)
			take_timer(me, &batch[i]);
	}
	return end_work();
}

static void *work_alone(void *at)
{
	struct client *me = at;
	return work_in(me, &shards[me->c].wheel, NULL);
}

static void *work_locked(void *at)
{
	struct client *me = at;
	return work_in(me, &shards[me->c].wheel, &shards[me->c].lock);
}

static bool take_queue(struct client *me)
{
	bool did = false;
	pthread_mutex_lock(&queues[me->c].lock);
	while (queues[me->c].head != queues[me->c].tail) {
		take_timer(me, &queues[me->c].at[queues[me->c].head++ % QUEUE]);
		did = true;
	}
	pthread_mutex_unlock(&queues[me->c].lock);
	return did;
}

static void *work_under_mutex(void *at)
{
	struct client *me = at;
	struct shard *mine = &shards[me->c % shard_count];
	uint64_t idle = 0;
	while (me->expired < me->timers) {
		bool starts = may_start(me);
		if (starts)
			start_in(&mine->wheel, &mine->lock, me);
		if (!take_queue(me) && !starts && ++idle % IDLE_PASSES == 0)
			sched_yield();
	}
	return end_work();
}

/* Passes a tick of the shard, and puts what expired into the clients' queues. */
static bool serve_shard(struct shard *shard)
{
	static struct timers_expired batch[BATCH];
	size_t n = pass_tick(&shard->wheel, &shard->lock, batch);
	for (size_t i = 0; i < n; i++) {
		size_t c = batch[i].action >> 32;
		pthread_mutex_lock(&queues[c].lock);
		queues[c].at[queues[c].tail++ % QUEUE] = batch[i];
		pthread_mutex_unlock(&queues[c].lock);
	}
	return n > 0;
}

static void make_shards(size_t count)
{
	CHECK(count >= 1 && count <= clients);
	shard_count = count;
	for (size_t s = 0; s < count; s++) {
		pthread_mutex_init(&shards[s].lock, NULL);
		CHECK(timers_new(&shards[s].wheel, TIMERS_WIDE, 0) == TIMERS_OK);
	}
}

static void own_shards(struct client *all, pthread_t *threads)
{
	for (size_t c = 0; c < clients; c++)
		pthread_mutex_init(&queues[c].lock, NULL);
	begin(threads, all, work_under_mutex);
	while (clients_at_work() > 0) {
		bool busy = false;
		for (size_t s = 0; s < shard_count; s++)
			busy |= serve_shard(&shards[s]);
		if (!busy)
			sched_yield();
	}
}

static void free_shards(void)
{
	for (size_t s = 0; s < shard_count; s++) {
		CHECK(timers_len(&shards[s].wheel) == 0);
		timers_free(&shards[s].wheel);
	}
}

static void run_wheels(struct client *all, pthread_t *threads, enum way way, size_t count)
{
	make_shards(count);
	if (way == MUTEX)
		own_shards(all, threads);
	else
		begin(threads, all, way == LOCKED ? work_locked : work_alone);
	end(threads);
	free_shards();
}

int main(int argc, char **argv)
{
	static const struct { const char *name; int words; } ways[WAYS] =
		{ { "desk", 6 }, { "mutex", 5 }, { "locked", 4 }, { "own", 4 } };
	enum way way = DESK;
	while (way < WAYS && (argc != ways[way].words || strcmp(argv[1], ways[way].name) != 0))
		way++;
	if (way == WAYS)
		return 2;
	struct client *all = new_clients(argv[2], argv[3]);
	pthread_t threads[MAX_CLIENTS];
	uint64_t began = nanoseconds();
	if (way == DESK)
		own_desk(all, threads, strtoul(argv[4], NULL, 10), strtoul(argv[5], NULL, 10));
	else
		run_wheels(all, threads, way, way == MUTEX ? strtoul(argv[4], NULL, 10) : clients);
	print_run(all, nanoseconds() - began, way == DESK);
	return 0;
}
