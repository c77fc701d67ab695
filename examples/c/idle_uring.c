/* A server that hangs up on clients that are silent for two seconds, as idle_server.c, over io_uring.
 *
 *     cc idle_uring.c $(pkg-config --cflags --libs timers liburing) && ./a.out 7000
 *
 * The ring has one operation of each connection, which names its struct. So a time-out only shuts the socket down: that
 * ends the operation, whose completion frees the struct. Otherwise one could name a struct that is gone. */
#define _GNU_SOURCE
#include <liburing.h>
#include <netinet/in.h>
#include <stdio.h>
#include <stdlib.h>
#include <unistd.h>
#include <timers_loop.h>

enum { IDLE = 2000, ROOM = 64 };

struct connection { int socket; bool sends; struct timers_event idle; char input[1024]; };
static struct timers_loop loop = TIMERS_LOOP_INIT;
static struct io_uring ring;
static int listener;
static void need(bool fact, const char *what) { if (!fact) perror(what), exit(1); }

/* Puts the next operation into the ring. That of no connection accepts one. */
static void submit(struct connection *c, int size)
{
	struct io_uring_sqe *next = io_uring_get_sqe(&ring);
	if (next == NULL && io_uring_submit(&ring) > 0)
		next = io_uring_get_sqe(&ring);
	need(next != NULL, "io_uring_submit");
	if (c == NULL)
		io_uring_prep_accept(next, listener, NULL, NULL, 0);
	else if (c->sends)
		io_uring_prep_send(next, c->socket, c->input, (size_t)size, MSG_NOSIGNAL | MSG_WAITALL);
	else
		io_uring_prep_recv(next, c->socket, c->input, sizeof c->input, 0);
	io_uring_sqe_set_data(next, c);
}
static void hang_up(struct timers_loop *l, struct timers_event *event, uint64_t tick)
{
	(void)l, (void)tick;
	shutdown(timers_event_owner(event, struct connection, idle)->socket, SHUT_RDWR);
}
static void greet(int socket)
{
	struct connection *c = calloc(1, sizeof *c);
	need(c != NULL && socket >= 0, "accept");
	c->socket = socket, c->idle.run = hang_up;
	need(timers_event_after(&loop, &c->idle, IDLE) == TIMERS_OK, "timers");
	submit(c, 0), submit(NULL, 0);
}
static void serve(struct connection *c, int result)
{
	if (result <= 0) {
		timers_event_cancel(&loop, &c->idle);
		close(c->socket), free(c);
		return;
	}
	timers_event_push_back(&loop, &c->idle, IDLE);
	c->sends = !c->sends;
	submit(c, result);
}
int main(int argc, char **argv)
{
	struct sockaddr_in at = { AF_INET, htons(argc > 1 ? (uint16_t)atoi(argv[1]) : 7000), { htonl(INADDR_LOOPBACK) }, { 0 } };
	listener = socket(AF_INET, SOCK_STREAM, 0);
	need(bind(listener, (struct sockaddr *)&at, sizeof at) == 0 && listen(listener, 4096) == 0, "listen");
	need(timers_loop_new(&loop, NULL, NULL, 1000000) == TIMERS_OK && io_uring_queue_init(1024, &ring, 0) == 0, "io_uring");
	for (submit(NULL, 0);;) {
		struct io_uring_cqe *done[ROOM];
		int rest = timers_loop_timeout(&loop);
		struct __kernel_timespec wait = { rest / 1000, rest % 1000 * 1000000L };
		io_uring_submit_and_wait_timeout(&ring, done, 1, rest < 0 ? NULL : &wait, NULL);
		unsigned ready = io_uring_peek_batch_cqe(&ring, done, ROOM);
		timers_loop_polled(&loop, (int)ready, ROOM);
		for (unsigned i = 0; i < ready; i++)
			done[i]->user_data == 0 ? greet(done[i]->res) : serve(io_uring_cqe_get_data(done[i]), done[i]->res);
		io_uring_cq_advance(&ring, ready);
		timers_loop_dispatch(&loop, 1000);
	}
}
