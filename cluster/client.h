/* timers_cluster.h: a client of one shard. It is one of 64 of the shard, and used by one thread at a time.
 *
 * It sends requests to the worker that works, until it reads the answers. The machine takes number n of a client once, and only
 * after n - 1, so repeats do no harm. What it is shown stands in the log, and the worker says so if its log has another past. */
#ifndef TIMERS_CLUSTER_H
#define TIMERS_CLUSTER_H

#include <stdbool.h>
#include <stddef.h>
#include <stdint.h>

struct timers_client;

/* After which line of the log a client goes on. Whoever acts on a line keeps its place in one transaction with the act, and
 * so acts once. All 0: the beginning. */
struct timers_place {
	uint64_t record, line, number, chain;   /* of the client's last request that was taken before; the CHAIN of the record */
};

/* `workers` are the addresses of the shard's workers, as "10.0.0.1:7000,10.0.0.2:7000". Goes on after `from`; with NULL it learns
 * its last number from the snapshot and the log after it. Of its requests at most `window` are without an answer at a time.
 * Returns NULL if `workers` has another form. */
struct timers_client *timers_client_open(const char *workers, const char *shard, uint64_t client, const struct timers_place *from,
                                         size_t window);
void timers_client_close(struct timers_client *client);

/* Not taken, false: if a number isn't below 2^60, or if the window is full until timers_client_next. Answers come in the order of
 * the requests. */
bool timers_client_start(struct timers_client *client, uint64_t interval, uint64_t action);
bool timers_client_stop(struct timers_client *client, uint64_t serial);
bool timers_client_restart(struct timers_client *client, uint64_t serial, uint64_t interval, uint64_t action);
size_t timers_client_waiting(const struct timers_client *client);   /* requests without an answer */

enum timers_said {
	TIMERS_NOTHING,    /* in this time */
	TIMERS_ANSWER,     /* to the first request of this client that has none yet */
	TIMERS_FOREIGN,    /* to one that it didn't send: of an earlier life, or of another process that has its number */
	TIMERS_EXPIRED,
	TIMERS_CUT,        /* the log was cut after this place: what came there is known from a snapshot alone */
	TIMERS_WRONG       /* an answer that doesn't follow from its request, a log with another past, or another shard */
};

struct timers_line {
	const char *text;            /* as in docs/formats.md, without its end, until the next call; NULL if it is no line's */
	struct timers_place place;
};

/* Sends what waits, and reads the next line that concerns this client. A worker that doesn't read may take half a second more. */
enum timers_said timers_client_next(struct timers_client *client, int64_t ms, struct timers_line *line);

/* Which of `shards` shards gets new timers of this key. A timer that was started stays where it is. */
uint64_t timers_shard(const char *key, uint64_t shards);

#endif
