/* Clients of the servers examples/c/idle_*.c, which are told how they were treated.
 *
 *     idle_load CLIENTS PORT SERVER..
 *
 * Runs the server on the port, and stops it for three seconds, which is more than its time-out. Of ten clients nine talk,
 * each at most 150 ms after an answer, and one is silent. Status 0: it hung up on each silent one and no other. 1: it did
 * not. 77: the machine was so busy that the clients themselves were late. 78: the server ended at once, since another has
 * the port. */
#define _GNU_SOURCE
#include <fcntl.h>
#include <netinet/in.h>
#include <signal.h>
#include <stdio.h>
#include <stdlib.h>
#include <sys/epoll.h>
#include <sys/resource.h>
#include <sys/socket.h>
#include <sys/wait.h>
#include <timers_loop.h>
#include <unistd.h>

enum { MILLION = 1000000, TIMEOUT = 2000, STALL = 3000, LIMIT = 20000, ROOM = 256, LATE = 77, ENDED = 78 };

static struct client {
	int socket;
	bool talks;
	struct timers_event say;
} *clients;
static struct timers_loop loop = TIMERS_LOOP_INIT;
static size_t answers, hung_up[2], of[2];        /* [1]: of those that talk */
static uint64_t latest;                          /* how late a message was, in ticks */
static pid_t server;

static void need(bool fact, const char *what)
{
	if (fact)
		return;
	perror(what);
	if (server > 0)
		kill(server, SIGKILL);
	exit(1);
}

static void late(uint64_t tick)
{
	const uint64_t by = timers_loop_monotonic(NULL) / MILLION - tick;

	latest = by > latest ? by : latest;
}

static void say(struct timers_loop *l, struct timers_event *event, uint64_t tick)
{
	(void)l;
	late(tick);
	send(timers_event_owner(event, struct client, say)->socket, "hello", 5, MSG_NOSIGNAL);
}

static void stop(struct timers_loop *l, struct timers_event *event, uint64_t tick)
{
	(void)event, (void)tick, (void)l;
	need(kill(server, SIGSTOP) == 0, "kill");
}

static void go_on(struct timers_loop *l, struct timers_event *event, uint64_t tick)
{
	(void)l, (void)event;
	late(tick);
	need(kill(server, SIGCONT) == 0, "kill");
}

static void speak_later(struct client *c)
{
	need(timers_event_after(&loop, &c->say, 50 + (uint64_t)(rand() % 100)) == TIMERS_OK, "timers");
}

static void join(struct client *c, const struct sockaddr_in *at, int poller)
{
	struct epoll_event event = { .events = EPOLLIN, .data.ptr = c };
	int tries = 0;

	c->socket = socket(AF_INET, SOCK_STREAM, 0);
	while (connect(c->socket, (const struct sockaddr *)at, sizeof *at) != 0) {
		need(++tries < 500, "connect");              /* it has to begin first */
		if (waitpid(server, NULL, WNOHANG) != 0)
			exit(ENDED);
		usleep(10000);
	}
	need(fcntl(c->socket, F_SETFL, O_NONBLOCK) == 0 && epoll_ctl(poller, EPOLL_CTL_ADD, c->socket, &event) == 0, "client");
	of[c->talks]++;
	c->say.run = say;
	if (c->talks)
		speak_later(c);
}

static void hear(struct client *c)
{
	char input[64];
	const ssize_t size = recv(c->socket, input, sizeof input, 0);

	if (size > 0) {
		answers++;
		speak_later(c);
		return;
	}
	timers_event_cancel(&loop, &c->say);
	close(c->socket);
	hung_up[c->talks]++;
}

static void talk(int poller)
{
	struct epoll_event events[ROOM];
	struct timers_event limit = { .run = NULL }, rest = { .run = NULL }, stops = { .run = stop }, goes = { .run = go_on };

	need(timers_event_after(&loop, &limit, LIMIT) == TIMERS_OK && timers_event_after(&loop, &stops, 300) == TIMERS_OK
	     && timers_event_after(&loop, &goes, 300 + STALL) == TIMERS_OK
	     && timers_event_after(&loop, &rest, 300 + STALL + 1000) == TIMERS_OK, "timers");
	while (timers_event_armed(&limit) && (timers_event_armed(&rest) || hung_up[0] < of[0])) {
		const int ready = epoll_wait(poller, events, ROOM, timers_loop_timeout(&loop));

		timers_loop_polled(&loop, ready, ROOM);
		for (int i = 0; i < ready; i++)
			hear(events[i].data.ptr);
		timers_loop_dispatch(&loop, 10000);
	}
}

int main(int argc, char **argv)
{
	struct sockaddr_in at = { .sin_family = AF_INET, .sin_addr.s_addr = htonl(INADDR_LOOPBACK) };
	const size_t most = argc > 3 ? strtoul(argv[1], NULL, 10) : 0;
	const int poller = epoll_create1(EPOLL_CLOEXEC);
	struct rlimit files;

	need(most > 0 && getrlimit(RLIMIT_NOFILE, &files) == 0, "idle_load CLIENTS PORT SERVER..");
	files.rlim_cur = files.rlim_max;
	need(setrlimit(RLIMIT_NOFILE, &files) == 0, "setrlimit");
	at.sin_port = htons((uint16_t)atoi(argv[2]));
	clients = calloc(most, sizeof *clients);
	need(clients != NULL && timers_loop_new(&loop, NULL, NULL, MILLION) == TIMERS_OK, "timers");
	server = fork();
	if (server == 0) {
		execl(argv[3], argv[3], argv[2], (char *)NULL);
		_exit(1);
	}
	for (size_t i = 0; i < most; i++) {
		clients[i].talks = i % 10 > 0;
		join(&clients[i], &at, poller);
	}
	talk(poller);
	printf("%zu answers; hung up on %zu of %zu that talk and %zu of %zu that are silent; messages up to %llu ms late\n", answers,
	       hung_up[1], of[1], hung_up[0], of[0], (unsigned long long)latest);
	need(waitpid(server, NULL, WNOHANG) == 0, "the server has ended");
	kill(server, SIGKILL);
	waitpid(server, NULL, 0);
	return hung_up[0] == of[0] && hung_up[1] == 0 ? 0 : latest > TIMEOUT / 2 ? LATE : 1;
}
