/* A server whose clients come and go: twelve peers over three lines, which they take one after the other.
 *
 *     cc -pthread desk_sockets.c $(pkg-config --cflags --libs timers)
 *
 * A peer connects and sends bytes; the server sends each back after so many milliseconds. Each connection has a thread
 * with a client's line, and one owner keeps the time-outs of all. A peer may leave while some still run:
 *
 *     connection: frees its line, and ends
 *     owner:      takes what it had sent, stops its timers, drops the words to it, and opens the line again
 *
 * The owner sleeps until the next wake-up, a request, or a peer for whom a line is free. A connection has at most MOST
 * time-outs, and so at most MOST requests without an answer: with room 2 * MOST + 1 none is ever held back. */
#define _POSIX_C_SOURCE 200809L
#include <arpa/inet.h>
#include <limits.h>
#include <poll.h>
#include <pthread.h>
#include <stdatomic.h>
#include <stdio.h>
#include <stdlib.h>
#include <sys/eventfd.h>
#include <sys/socket.h>
#include <time.h>
#include <unistd.h>
#include "timers_desk.h"

enum { LINES = 3, PEERS = 12, MOST = 4 };

static struct connection {
	int bell, socket;
	bool taken;                     /* by a thread, or something of one is left at the desk */
	atomic_bool gone;               /* its thread has freed the line */
	struct timers_line line;
	unsigned timers;
} connections[LINES];
static struct timers_desk desk = TIMERS_DESK_INIT;
static struct sockaddr_in address = { .sin_family = AF_INET };
static int owners_bell;
static atomic_int peers = PEERS, answered, opened, admitted;
static void need(bool fact, const char *what) { if (!fact) perror(what), exit(1); }
static void ring(int bell) { need(write(bell, &(uint64_t){ 1 }, 8) == 8, "the bell"); }
static void hush(int bell) { uint64_t count; ssize_t n = read(bell, &count, 8); (void)n; }

static uint64_t milliseconds(void)
{
	struct timespec t;
	clock_gettime(CLOCK_MONOTONIC, &t);
	return (uint64_t)t.tv_sec * 1000 + (uint64_t)t.tv_nsec / 1000000;
}

/* A connection's thread: starts a time-out for the next byte. Returns false once the peer is gone. */
static bool take_byte(struct connection *me)
{
	unsigned char after;
	uint64_t number;
	if (recv(me->socket, &after, 1, 0) != 1)
		return false;
	need(timers_line_start(&me->line, after, after, &number) == TIMERS_DESK_OK, "a request was not sent");
	me->timers++;
	ring(owners_bell);
	return true;
}

static bool take_words(struct connection *me)
{
	struct timers_word word;
	bool some = false;
	for (; timers_line_receive(&me->line, &word); some = true) {
		if (word.kind == TIMERS_WORD_STARTED)
			continue;
		need(word.kind == TIMERS_WORD_EXPIRED, timers_desk_message((enum timers_desk_status)word.reason));
		me->timers--;
		send(me->socket, &(unsigned char){ (unsigned char)word.action }, 1, MSG_NOSIGNAL);   /* recv sees that a peer is gone */
	}
	return some;
}

static void *connected(void *at)
{
	struct connection *me = at;
	for (bool there = true; there;) {
		hush(me->bell);
		bool some = take_words(me);
		if (some)
			ring(owners_bell);              /* the line has room again */
		struct pollfd p[2] = { { me->bell, POLLIN, 0 }, { me->socket, me->timers < MOST ? POLLIN : 0, 0 } };
		poll(p, 2, some ? 0 : -1);
		if (p[1].revents)               /* without POLLIN: the peer is gone, whatever it sent before */
			there = me->timers < MOST && take_byte(me);
	}
	close(me->socket);
	timers_line_free(&me->line);
	atomic_store(&me->gone, true);
	ring(owners_bell);
	return NULL;
}

/* The owner's thread: a connection that waits gets a line. */
static void admit(int listener, struct connection *c)
{
	c->socket = accept(listener, NULL, NULL);
	c->taken = true, c->timers = 0;
	atomic_store(&c->gone, false);
	pthread_t thread;
	need(c->socket >= 0 && !pthread_create(&thread, NULL, connected, c) && !pthread_detach(thread), "no connection");
	admitted++;
}

/* Stops the time-outs of each client that is gone, and opens its line again. */
static void open_again(void)
{
	uint64_t stopped;
	for (size_t c = 0; c < LINES; c++)
		if (connections[c].taken && atomic_load(&connections[c].gone) /* TIMERS_DESK_LEFT: in a later round */
		    && timers_desk_stop_pending(&desk, c, &stopped) == TIMERS_DESK_OK
		    && timers_desk_open(&desk, c, &connections[c].line, 2 * MOST) == TIMERS_DESK_OK)
			connections[c].taken = false, opened++;
}

/* Ticks first, since an interval counts from the tick at which its request is taken. */
static bool serve_and_flush(uint64_t now)
{
	uint64_t passed;
	while (timers_desk_now(&desk) < now)
		need(timers_desk_advance(&desk, now - timers_desk_now(&desk), &passed) == TIMERS_DESK_OK, "the clock has ended");
	bool busy = timers_desk_serve_all(&desk, 64) == TIMERS_DESK_OK;
	for (size_t c = 0; c < LINES; c++)
		if (timers_desk_flush(&desk, c) > 0)
			ring(connections[c].bell), busy = true;
	return busy;
}

static void own(int listener, uint64_t began)
{
	for (;;) {
		hush(owners_bell);
		uint64_t now = milliseconds() - began;
		bool last = atomic_load(&peers) == 0, busy = serve_and_flush(now);
		size_t at_work = 0;
		struct connection *free_one = NULL;
		open_again();
		for (size_t c = 0; c < LINES; c++)
			if (connections[c].taken)
				at_work++;
			else
				free_one = &connections[c];
		if (last && at_work == 0 && admitted == PEERS)
			return;
		struct pollfd p[2] = { { owners_bell, POLLIN, 0 }, { listener, POLLIN, 0 } };
		uint64_t wakeup = timers_desk_wakeup(&desk), rest = wakeup <= now ? 0 : wakeup - now;
		poll(p, free_one ? 2 : 1, busy ? 0 : rest < INT_MAX ? (int)rest : -1);
		if (free_one && (p[1].revents & POLLIN))
			admit(listener, free_one);
	}
}

/* A peer, as a program elsewhere. One of three leaves before its time-outs have run. */
static void *peer(void *at)
{
	bool waits = (uintptr_t)at % 3 > 0;
	unsigned char got, sum = 0;
	int to = socket(AF_INET, SOCK_STREAM, 0);
	uint64_t began = milliseconds();
	need(connect(to, (struct sockaddr *)&address, sizeof address) == 0, "no server");
	need(send(to, (unsigned char[]){ 30, 10, 20 }, 3, 0) == 3, "nothing sent");
	for (size_t i = 0; i < 3 && waits; i++, sum += got) {
		need(recv(to, &got, 1, 0) == 1 && milliseconds() - began + 1 >= got, "an answer that is missing, or too early");
		atomic_fetch_add(&answered, 1);
	}
	need(sum == 60 || !waits, "another answer");
	close(to);
	atomic_fetch_sub(&peers, 1);
	ring(owners_bell);
	return NULL;
}

int main(void)
{
	struct timers_line lines[LINES] = { TIMERS_LINE_INIT };
	struct timers_desk_config config = { .size = sizeof config, .capacity = 1000, .room = 2 * MOST + 1, .line = 2 * MOST };
	socklen_t size = sizeof address;
	pthread_t threads[PEERS];
	int listener = socket(AF_INET, SOCK_STREAM, 0);
	address.sin_addr.s_addr = htonl(INADDR_LOOPBACK);
	need(bind(listener, (struct sockaddr *)&address, size) == 0 && listen(listener, PEERS) == 0, "no listener");
	need(getsockname(listener, (struct sockaddr *)&address, &size) == 0, "no port");
	need(!timers_desk_new(&desk, lines, LINES, &config) && !timers_desk_reserve(&desk), "no desk, or no room for its timers");
	owners_bell = eventfd(0, EFD_NONBLOCK);
	for (size_t c = 0; c < LINES; c++)              /* moved: lines[c] is not used from here on */
		connections[c].line = lines[c], connections[c].bell = eventfd(0, EFD_NONBLOCK);
	for (size_t i = 0; i < PEERS; i++)
		need(pthread_create(&threads[i], NULL, peer, (void *)(uintptr_t)i) == 0, "no thread");
	own(listener, milliseconds());
	for (size_t i = 0; i < PEERS; i++)
		pthread_join(threads[i], NULL);
	printf("%d peers over %d lines, opened again %d times\n", PEERS, LINES, atomic_load(&opened));
	printf("%d answers, none too early; %zu timers are left\n", atomic_load(&answered), timers_desk_len(&desk));
	for (size_t c = 0; c < LINES; c++)
		timers_line_free(&connections[c].line);
	timers_desk_free(&desk);
	return 0;                               /* the system closes the sockets and the bells */
}
