/* A server that hangs up on clients that are silent for two seconds, as idle_server.c, over kqueue.
 *
 *     cc idle_kqueue.c $(pkg-config --cflags --libs timers) && ./a.out 7000 */
#include <errno.h>
#include <fcntl.h>
#include <netinet/in.h>
#include <stdio.h>
#include <stdlib.h>
#include <sys/event.h>
#include <sys/socket.h>
#include <unistd.h>
#include <timers_loop.h>

enum { IDLE = 2000, ROOM = 64, NANO = 1000000000 };

struct connection {
	int socket;
	struct timers_event idle;
};
static struct timers_loop loop = TIMERS_LOOP_INIT;
static int poller, listener;
static void need(bool fact, const char *what) { if (!fact) perror(what), exit(1); }

static void end(struct connection *c)
{
	timers_event_cancel(&loop, &c->idle);
	close(c->socket);                    /* kqueue forgets it */
	free(c);
}
static void hang_up(struct timers_loop *l, struct timers_event *event, uint64_t tick)
{
	(void)l, (void)tick;
	end(timers_event_owner(event, struct connection, idle));
}
static void watch(int socket, struct connection *c)
{
	struct kevent change;
	EV_SET(&change, socket, EVFILT_READ, EV_ADD, 0, 0, c);
	need(fcntl(socket, F_SETFL, O_NONBLOCK) == 0 && kevent(poller, &change, 1, NULL, 0, NULL) == 0, "kevent");
}
static void greet(void)
{
	for (int s; (s = accept(listener, NULL, NULL)) >= 0;) {
		struct connection *c = calloc(1, sizeof *c);
		need(c != NULL, "greet");
		c->socket = s;
		c->idle.run = hang_up;
		need(timers_event_after(&loop, &c->idle, IDLE) == TIMERS_OK, "timers");
		watch(s, c);
	}
}
static void serve(struct connection *c)
{
	char input[4096];
	ssize_t size = recv(c->socket, input, sizeof input, 0);
	if (size > 0 && send(c->socket, input, (size_t)size, MSG_NOSIGNAL) == size)
		timers_event_push_back(&loop, &c->idle, IDLE);
	else if (size >= 0 || errno != EAGAIN)
		end(c);
}
int main(int argc, char **argv)
{
	struct sockaddr_in at = { .sin_family = AF_INET, .sin_addr.s_addr = htonl(INADDR_LOOPBACK),
	                          .sin_port = htons(argc > 1 ? (uint16_t)atoi(argv[1]) : 7000) };
	struct kevent events[ROOM];
	poller = kqueue(), listener = socket(AF_INET, SOCK_STREAM, 0);
	need(bind(listener, (struct sockaddr *)&at, sizeof at) == 0 && listen(listener, 4096) == 0, "listen");
	need(timers_loop_new(&loop, NULL, NULL, 1000000) == TIMERS_OK, "timers");
	watch(listener, NULL);
	for (;;) {
		uint64_t until = timers_loop_deadline(&loop), rest = until > loop.time ? until - loop.time : 0;
		struct timespec wait = { (time_t)(rest / NANO), (long)(rest % NANO) };
		int ready = kevent(poller, NULL, 0, events, ROOM, until == TIMERS_NEVER ? NULL : &wait);
		timers_loop_polled(&loop, ready, ROOM);
		for (int i = 0; i < ready; i++)
			events[i].udata == NULL ? greet() : serve(events[i].udata);
		timers_loop_dispatch(&loop, 1000);
	}
}
