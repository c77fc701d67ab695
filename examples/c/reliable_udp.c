/* A reliable protocol over UDP: each packet is sent until it is acknowledged, after waits that double.
 *
 *     cc reliable_udp.c $(pkg-config --cflags --libs timers) && ./a.out [SEED]
 *
 * Sender and receiver are two sockets on the loopback address, and a packet has one character of a text.
 * Packets and acknowledgements are lost as SEED says (`is_lost`): the same seed loses the same ones. Up to
 * WINDOW packets wait for their acknowledgements, each with a timer. A tick is a millisecond. */
#define _POSIX_C_SOURCE 200809L
#include <arpa/inet.h>
#include <errno.h>
#include <limits.h>
#include <poll.h>
#include <stdio.h>
#include <stdlib.h>
#include <string.h>
#include <sys/socket.h>
#include <time.h>
#include <timers.h>

static const char text[] = "Timers start, stop and expire in constant time.";
enum { PACKETS = sizeof text - 1, WINDOW = 8, FIRST_WAIT = 4, LONGEST_WAIT = 32, MAX_ATTEMPTS = 40 };

struct packet { unsigned number, attempt, character; };    /* an acknowledgement repeats all three */
static struct sent {
	unsigned attempts, acknowledged;             /* which attempt was acknowledged, or 0 */
	uint64_t first_at, wait, waited;             /* when it was first sent, its wait, the waits before */
	struct timers_handle timer;
} sent[PACKETS];

static unsigned next_to_send, first_open;
static unsigned arrived[PACKETS], delivered;     /* at which attempt, or 0; how many are delivered */
static char received[sizeof text];
static struct timers timers = TIMERS_INIT;
static int sender, receiver;
static uint64_t seed;

static void die(const char *call, const char *why)
{
	fprintf(stderr, "reliable_udp: %s: %s\n", call, why);
	exit(1);
}

static void check(enum timers_status status, const char *call)
{
	if (status != TIMERS_OK)
		die(call, timers_message(status));
}

static uint64_t milliseconds(void)
{
	struct timespec now;
	if (clock_gettime(CLOCK_MONOTONIC, &now) != 0)
		die("clock_gettime", strerror(errno));
	return (uint64_t)now.tv_sec * 1000 + (uint64_t)now.tv_nsec / 1000000;
}

/* One in three is lost: the third number of the generator x := 16807 x mod 2^31 - 1 decides. */
static bool is_lost(const struct packet *packet, bool back)
{
	uint64_t x = seed * 100000 + packet->number * 1000 + packet->attempt * 2 + back;
	for (int i = 0; i < 3; i++)
		x = x * 16807 % 2147483647;
	return x % 3 == 0;
}

static void transmit(int from, const struct packet *packet, bool back)
{
	if (!is_lost(packet, back) && send(from, packet, sizeof *packet, 0) != (ssize_t)sizeof *packet)
		die("send", strerror(errno));
}

/* Whether a packet was there. */
static bool receive(int at, struct packet *packet)
{
	ssize_t size = recv(at, packet, sizeof *packet, MSG_DONTWAIT);
	bool none = size < 0 && (errno == EAGAIN || errno == EWOULDBLOCK);
	if (!none && (size != (ssize_t)sizeof *packet || packet->number >= PACKETS))
		die("recv", size < 0 ? strerror(errno) : "not a packet");
	return !none;
}

/* Sends a packet, and starts its timer. The wait counts from the real clock, since the timers' clock may be
 * behind it. A tick is added, since the present one has begun already. */
static void attempt(unsigned number)
{
	struct sent *s = &sent[number];
	if (s->attempts == MAX_ATTEMPTS)
		die("send", "the receiver does not answer");
	struct packet packet = { number, ++s->attempts, (unsigned char)text[number] };
	transmit(sender, &packet, false);
	check(timers_start_at(&timers, milliseconds() + s->wait + 1, number, &s->timer), "timers_start_at");
}

static void attempt_again(unsigned number)
{
	struct sent *s = &sent[number];
	s->waited += s->wait;
	if (milliseconds() < s->first_at + s->waited)
		die("timers_take", "too early");
	s->wait = 2 * s->wait < LONGEST_WAIT ? 2 * s->wait : LONGEST_WAIT;
	attempt(number);
}

static void fill_window(void)
{
	while (first_open < PACKETS && sent[first_open].acknowledged)
		first_open++;
	for (; next_to_send < PACKETS && next_to_send < first_open + WINDOW; next_to_send++) {
		sent[next_to_send] = (struct sent){ .first_at = milliseconds(), .wait = FIRST_WAIT };
		attempt(next_to_send);
	}
}

/* The receiver acknowledges each copy, and delivers each packet once, in order. */
static void take_packets(void)
{
	struct packet packet;
	while (receive(receiver, &packet)) {
		received[packet.number] = (char)packet.character;
		if (!arrived[packet.number])
			arrived[packet.number] = packet.attempt;
		while (delivered < PACKETS && arrived[delivered])
			delivered++;
		transmit(receiver, &packet, true);
	}
}

static void take_acknowledgements(void)
{
	struct packet packet;
	uint64_t action;
	while (receive(sender, &packet)) {
		struct sent *s = &sent[packet.number];
		if (!s->acknowledged) {                  /* or else it is that of a second copy */
			s->acknowledged = packet.attempt;
			check(timers_stop(&timers, s->timer, &action), "timers_stop");
		}
	}
}

/* Passes the ticks up to now, and sends again what was not acknowledged in time. */
static void catch_up(uint64_t now)
{
	struct timers_expired expired;
	while (timers_take(&timers, now, &expired))
		attempt_again((unsigned)expired.action);
}

static int patience(uint64_t now)
{
	uint64_t wakeup = timers_wakeup(&timers);
	return wakeup <= now ? 0 : wakeup - now < INT_MAX ? (int)(wakeup - now) : INT_MAX;
}

/* Two sockets on the loopback address, each of which hears the other alone. */
static void open_sockets(struct pollfd sockets[2])
{
	struct sockaddr_in ends[2] = { { .sin_family = AF_INET }, { .sin_family = AF_INET } };
	for (int i = 0; i < 2; i++) {
		socklen_t length = sizeof ends[i];
		ends[i].sin_addr.s_addr = htonl(INADDR_LOOPBACK);
		sockets[i] = (struct pollfd){ .fd = socket(AF_INET, SOCK_DGRAM, 0), .events = POLLIN };
		if (sockets[i].fd < 0 || bind(sockets[i].fd, (struct sockaddr *)&ends[i], sizeof ends[i]) != 0
		    || getsockname(sockets[i].fd, (struct sockaddr *)&ends[i], &length) != 0)
			die("bind", strerror(errno));
	}
	sender = sockets[0].fd;
	receiver = sockets[1].fd;
	if (connect(sender, (struct sockaddr *)&ends[1], sizeof ends[1]) != 0
	    || connect(receiver, (struct sockaddr *)&ends[0], sizeof ends[0]) != 0)
		die("connect", strerror(errno));
}

int main(int count, char **arguments)
{
	struct pollfd sockets[2];
	seed = count == 2 ? strtoul(arguments[1], NULL, 10) : 1;
	if (count > 2 || seed == 0 || seed > 9999)
		die("usage", "reliable_udp [SEED], from 1 to 9999");
	open_sockets(sockets);
	check(timers_new(&timers, TIMERS_WIDE, milliseconds()), "timers_new");
	for (fill_window(); first_open < PACKETS; fill_window()) {
		if (poll(sockets, 2, patience(milliseconds())) < 0 && errno != EINTR)
			die("poll", strerror(errno));
		catch_up(milliseconds());                /* first: what follows starts timers */
		take_packets();
		take_acknowledgements();
	}
	for (int i = 0; i < PACKETS; i++)
		printf("packet %d: arrived at attempt %u, acknowledged at %u\n", i, arrived[i], sent[i].acknowledged);
	printf("%s\n%zu timers left\n", received, timers_len(&timers));
	timers_free(&timers);
	return 0;
}
