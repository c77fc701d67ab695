/* A server that sends back what it gets, and hangs up on clients that are silent for two seconds. Over epoll.
 *
 *     cc idle_server.c $(pkg-config --cflags --libs timers) && ./a.out 7000
 *
 * However late the loop is, it hangs up on no client that has written in time: input comes first, and then what was due
 * when the loop began to poll. A tick is a millisecond. idle_uring.c and idle_kqueue.c are the same over other calls. */
#define _GNU_SOURCE
#include <errno.h>
#include <netinet/in.h>
#include <stdio.h>
#include <stdlib.h>
#include <sys/epoll.h>
#include <unistd.h>
#include <timers_loop.h>

enum { IDLE = 2000, ROOM = 64 };

struct connection {
	int socket;
	struct timers_event idle;
};
static struct timers_loop loop = TIMERS_LOOP_INIT;
static int poller, listener;
static void need(bool fact, const char *what) { if (!fact) perror(what), exit(1); }

static void end(struct connection *c)
{
	timers_event_cancel(&loop, &c->idle);
	close(c->socket);                    /* epoll forgets it */
	free(c);
}

static void hang_up(struct timers_loop *l, struct timers_event *event, uint64_t tick)
{
	(void)l, (void)tick;
	end(timers_event_owner(event, struct connection, idle));
}

static void greet(void)
{
	for (int s; (s = accept4(listener, NULL, NULL, SOCK_NONBLOCK)) >= 0;) {
		struct connection *c = calloc(1, sizeof *c);
		need(c != NULL && epoll_ctl(poller, EPOLL_CTL_ADD, s, &(struct epoll_event){ EPOLLIN, { .ptr = c } }) == 0, "greet");
		c->socket = s;
		c->idle.run = hang_up;
		need(timers_event_after(&loop, &c->idle, IDLE) == TIMERS_OK, "timers");
	}
}

static void serve(struct connection *c)
{
	char input[4096];
	ssize_t size = recv(c->socket, input, sizeof input, 0);
	if (size > 0 && send(c->socket, input, (size_t)size, MSG_NOSIGNAL) == size)
		timers_event_push_back(&loop, &c->idle, IDLE);
	else if (size >= 0 || errno != EAGAIN)
		end(c);
}

int main(int argc, char **argv)
{
	struct sockaddr_in at = { .sin_family = AF_INET, .sin_addr.s_addr = htonl(INADDR_LOOPBACK),
	                          .sin_port = htons(argc > 1 ? (uint16_t)atoi(argv[1]) : 7000) };
	struct epoll_event events[ROOM] = { { EPOLLIN, { .ptr = NULL } } };
	poller = epoll_create1(0), listener = socket(AF_INET, SOCK_STREAM | SOCK_NONBLOCK, 0);
	need(bind(listener, (struct sockaddr *)&at, sizeof at) == 0 && listen(listener, 4096) == 0, "listen");
	need(epoll_ctl(poller, EPOLL_CTL_ADD, listener, events) == 0, "epoll");
	need(timers_loop_new(&loop, NULL, NULL, 1000000) == TIMERS_OK, "timers");
	for (;;) {
		int ready = epoll_wait(poller, events, ROOM, timers_loop_timeout(&loop));
		timers_loop_polled(&loop, ready, ROOM);
		for (int i = 0; i < ready; i++)
			events[i].data.ptr == NULL ? greet() : serve(events[i].data.ptr);
		timers_loop_dispatch(&loop, 1000);
	}
}
