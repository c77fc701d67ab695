#include "client.h"

#include <errno.h>
#include <inttypes.h>
#include <netdb.h>
#include <poll.h>
#include <stdio.h>
#include <stdlib.h>
#include <string.h>
#include <sys/socket.h>
#include <sys/time.h>
#include <time.h>
#include <unistd.h>

#define PATIENCE 2000   /* ms in which a worker that works says something */
#define LINE 256        /* bytes: any line is shorter */

struct request {
	const char *word;
	uint64_t interval;             /* 0: it starts no timer */
	char values[64];               /* what its line has after the number */
	bool sent;                     /* ever */
};

struct timers_client {
	char *workers, shard[64];
	const char *worker;            /* the one to ask next */
	int socket;
	int64_t tried, heard;
	bool current;                  /* whether it was shown all, on this connection: before, its number isn't known */
	uint64_t client;
	struct timers_place place;     /* of what it was shown last */
	struct request *waiting;       /* a ring, whose first one has the number after that of the place */
	size_t window, first, count, sent;   /* how many were sent on this connection */
	size_t filled, taken;          /* bytes of input, and how many of those were read */
	char input[1 << 16];
};

static int64_t elapsed_ms(void)
{
	struct timespec time;
	clock_gettime(CLOCK_BOOTTIME, &time);
	return time.tv_sec * INT64_C(1000) + time.tv_nsec / 1000000;
}

uint64_t timers_shard(const char *key, uint64_t shards)   /* FNV-1a */
{
	uint64_t sum = UINT64_C(0xcbf29ce484222325);
	while (*key)
		sum = (sum ^ (unsigned char)*key++) * UINT64_C(0x100000001b3);
	return sum % shards;
}

size_t timers_client_waiting(const struct timers_client *c) { return c->count; }

static struct request *waits_at(const struct timers_client *c, size_t i) { return &c->waiting[(c->first + i) % c->window]; }

static bool asks(struct timers_client *c, const char *word, uint64_t interval, size_t count, const uint64_t values[])
{
	struct request request = {.word = word, .interval = interval};
	for (size_t i = 0, length = 0; i < count; i++) {
		if (values[i] >> 60)
			return false;
		length += (size_t)sprintf(request.values + length, " %" PRIu64, values[i]);
	}
	if (c->count == c->window)
		return false;
	*waits_at(c, c->count++) = request;
	return true;
}

bool timers_client_start(struct timers_client *c, uint64_t interval, uint64_t action)
{
	return asks(c, "start", interval, 2, (uint64_t[]){interval, action});
}

bool timers_client_stop(struct timers_client *c, uint64_t serial) { return asks(c, "stop", 0, 1, &serial); }

bool timers_client_restart(struct timers_client *c, uint64_t serial, uint64_t interval, uint64_t action)
{
	return asks(c, "restart", interval, 3, (uint64_t[]){serial, interval, action});
}

/* The request that waits at `i`, with the number that it has now. */
static size_t form(const struct timers_client *c, size_t i, char line[LINE])
{
	const struct request *request = waits_at(c, i);
	const uint64_t number = c->place.number + 1 + i;
	return (size_t)snprintf(line, LINE, "%s %" PRIu64 " %" PRIu64 "%s\n", request->word, c->client, number, request->values);
}

static void disconnect(struct timers_client *c)
{
	if (c->socket >= 0)
		close(c->socket);
	c->socket = -1;
	c->sent = c->filled = c->taken = 0;
	c->current = false;
}

/* All of it within half a second. Otherwise all is sent again on another connection. */
static void sends(struct timers_client *c, const char *text, size_t length)
{
	if (send(c->socket, text, length, MSG_NOSIGNAL) != (ssize_t)length)
		disconnect(c);
}

/* Reads HOST:PORT, and returns what comes after it; NULL if it has another form. */
static const char *address(const char *from, char host[256], char port[8])
{
	int length = 0;
	return sscanf(from, "%255[^:,]:%7[0-9]%n,%n", host, port, &length, &length) == 2 ? from + length : NULL;
}

/* Connects to one of the workers, in turn: who doesn't work says nothing. */
static void connects(struct timers_client *c)
{
	char host[256], port[8], line[LINE];
	struct addrinfo *found = NULL, hints = {.ai_socktype = SOCK_STREAM};
	c->tried = c->heard = elapsed_ms();
	c->worker = address(*c->worker ? c->worker : c->workers, host, port);
	if (getaddrinfo(host, port, &hints, &found) != 0)
		return;
	c->socket = socket(found->ai_family, SOCK_STREAM | SOCK_CLOEXEC, 0);
	setsockopt(c->socket, SOL_SOCKET, SO_SNDTIMEO, &(struct timeval){.tv_usec = 500000}, sizeof(struct timeval));
	const int length = snprintf(line, LINE, "%s %" PRIu64 " %" PRIu64 " %" PRIu64 " %016" PRIx64 "\n", c->shard, c->client,
	                            c->place.record, c->place.line, c->place.chain);
	if (connect(c->socket, found->ai_addr, found->ai_addrlen) != 0)
		disconnect(c);
	else
		sends(c, line, (size_t)length);
	freeaddrinfo(found);
}

/* Sends and receives, for at most so long. Requests go out once all that came before was shown. */
static void exchanges(struct timers_client *c, int64_t ms)
{
	char lines[1 << 14];
	size_t length = 0;
	if (c->socket < 0 && elapsed_ms() - c->tried >= 50)
		connects(c);
	while (c->current && c->sent < c->count && length < sizeof lines - LINE) {
		waits_at(c, c->sent)->sent = true;
		length += form(c, c->sent++, lines + length);
	}
	if (length)
		sends(c, lines, length);
	const bool more = c->current && c->sent < c->count;
	poll(&(struct pollfd){.fd = c->socket, .events = POLLIN}, 1, more ? 0 : ms < 50 ? (int)ms : 50);
	if (c->socket < 0)
		return;
	const ssize_t got = recv(c->socket, c->input + c->filled, sizeof c->input - c->filled, MSG_DONTWAIT);
	if (got > 0) {
		c->filled += (size_t)got;
		c->heard = elapsed_ms();
	} else if (got == 0 || (errno != EAGAIN && errno != EINTR) || elapsed_ms() - c->heard > PATIENCE) {
		disconnect(c);
	}
}

/* An answer to the next request of this client: the log has one with each number. What was never sent has none. */
static enum timers_said answered(struct timers_client *c, const char *asked, uint64_t tick, const char *answer)
{
	uint64_t number = 0;
	char own[LINE];
	if (sscanf(answer, "%*s %*u %" SCNu64, &number) != 1 || number != c->place.number + 1)
		return TIMERS_WRONG;
	const struct request *request = waits_at(c, 0);
	const bool waits = c->count && request->sent;
	own[waits ? form(c, 0, own) - 1 : 0] = 0;
	c->place.number++;
	if (!waits || strcmp(own, asked) != 0) {
		if (c->sent)
			disconnect(c);   /* what was sent has other numbers now */
		return TIMERS_FOREIGN;
	}
	c->count--;
	c->first = (c->first + 1) % c->window;
	c->sent -= c->sent > 0;
	const bool starts = request->interval && strncmp(answer, "refused", 7) != 0;
	return starts && strtoull(strrchr(answer, ' '), NULL, 10) != tick + request->interval ? TIMERS_WRONG : TIMERS_ANSWER;
}

/* A line of the worker, without its end: NOTHING if the caller need not know it. */
static enum timers_said takes(struct timers_client *c, char *said, struct timers_line *line)
{
	struct timers_place place = {0};
	uint64_t number;   /* the tick of what is said */
	char word[8];
	int begin = 0;
	if (sscanf(said, "%7s %" SCNu64 " %" SCNu64 " %" SCNx64 " %" SCNu64 " %n", word, &place.record, &place.line, &place.chain,
	           &number, &begin) < 5)
		return strcmp(said, "cut") == 0 ? TIMERS_CUT : TIMERS_WRONG;
	place.number = strcmp(word, "from") == 0 ? number : c->place.number;
	c->place = place;
	char *asked = said + begin, *answer = strchr(asked, '>');
	if (!answer) {
		c->current = strcmp(word, "here") == 0;
		return TIMERS_NOTHING;
	}
	*answer = 0;
	line->text = answer + 1;
	const enum timers_said what = *asked ? answered(c, asked, number, line->text) : TIMERS_EXPIRED;
	line->place = c->place;
	return what;
}

enum timers_said timers_client_next(struct timers_client *c, int64_t ms, struct timers_line *line)
{
	enum timers_said what = TIMERS_NOTHING;
	*line = (struct timers_line){0};
	for (int64_t end = elapsed_ms() + ms, left = 1; what == TIMERS_NOTHING;) {
		char *said = c->input + c->taken, *said_end = memchr(said, '\n', c->filled - c->taken);
		if (said_end) {
			*said_end = 0;
			c->taken += (size_t)(said_end + 1 - said);
			what = takes(c, said, line);
			continue;
		}
		memmove(c->input, said, c->filled -= c->taken);
		c->taken = 0;
		if (left <= 0)
			break;
		left = end - elapsed_ms();
		exchanges(c, left > 0 ? left : 0);
	}
	return what;
}

struct timers_client *timers_client_open(const char *workers, const char *shard, uint64_t client, const struct timers_place *from,
                                         size_t window)
{
	char host[256], port[8];
	struct timers_client *c = calloc(1, sizeof *c);
	const char *at = workers;
	if (!c)
		return NULL;
	c->waiting = calloc(window, sizeof *c->waiting);
	c->worker = c->workers = strdup(workers);
	c->client = client, c->window = window, c->socket = -1;
	c->place = from ? *from : c->place;
	snprintf(c->shard, sizeof c->shard, "%s", shard);
	while (at && *at)
		at = address(at, host, port);
	if (at && at > workers && c->waiting && c->workers)
		return c;
	timers_client_close(c);
	return NULL;
}

void timers_client_close(struct timers_client *c)
{
	disconnect(c);
	free(c->workers), free(c->waiting), free(c);
}
