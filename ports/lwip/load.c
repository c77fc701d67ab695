/* An echo server and its clients over lwIP's loopback interface, with the clock of lwIP shortly before it wraps.
 *
 *     load CONNECTIONS MESSAGES
 *
 * Each client sends its next message some ms after each answer. Every hundredth packet is lost, so that TCP's timers
 * send again. Each client also has an idle timeout, which is started again with each message. It ends when all answers
 * came. */
#include <stdio.h>
#include <stdlib.h>
#include <string.h>

#include "lwip/init.h"
#include "lwip/netif.h"
#include "lwip/tcp.h"
#include "lwip/timeouts.h"

struct client {
	struct tcp_pcb *pcb;
	int left;
};

static u32_t clock_ms = (u32_t)-1 - 2000, begun_ms;
static int answers, idle_runs, ended, packets, lost;

u32_t sys_now(void) { return clock_ms; }

static void check(err_t status)
{
	if (status != ERR_OK) {
		fprintf(stderr, "lwIP: error %d\n", status);
		exit(1);
	}
}

static void on_idle(void *arg)
{
	(void)arg;
	idle_runs++;
}

/* Every hundredth packet is lost. */
int lose_packet(struct pbuf *p)
{
	if (++packets % 100 != 0)
		return 0;
	lost++;
	pbuf_free(p);
	return 1;
}

static void send_message(struct tcp_pcb *pcb)
{
	check(tcp_write(pcb, "a message of 32 bytes, with time", 32, TCP_WRITE_FLAG_COPY));
	check(tcp_output(pcb));
}

static void send_next(void *arg)
{
	struct client *c = arg;
	send_message(c->pcb);
	sys_untimeout(on_idle, c);
	sys_timeout(30000, on_idle, c);
}

static err_t echo(void *arg, struct tcp_pcb *pcb, struct pbuf *text, err_t status)
{
	(void)arg, (void)status;
	if (text == NULL)
		return tcp_close(pcb);
	tcp_recved(pcb, text->tot_len);
	pbuf_free(text);
	send_message(pcb);
	return ERR_OK;
}

static err_t on_accept(void *arg, struct tcp_pcb *pcb, err_t status)
{
	(void)arg, (void)status;
	tcp_recv(pcb, echo);
	return ERR_OK;
}

static err_t on_answer(void *arg, struct tcp_pcb *pcb, struct pbuf *text, err_t status)
{
	struct client *c = arg;
	(void)status;
	if (text == NULL)
		return ERR_OK;
	tcp_recved(pcb, text->tot_len);
	pbuf_free(text);
	answers++;
	if (--c->left > 0) {
		sys_timeout(1 + (u32_t)answers % 5, send_next, c);
		return ERR_OK;
	}
	sys_untimeout(on_idle, c);
	ended++;
	return tcp_close(pcb);
}

static err_t on_connected(void *arg, struct tcp_pcb *pcb, err_t status)
{
	(void)pcb;
	check(status);
	send_next(arg);
	return ERR_OK;
}

static void serve(void)
{
	struct tcp_pcb *server = tcp_new();
	check(tcp_bind(server, IP4_ADDR_ANY, 7));
	server = tcp_listen(server);
	tcp_accept(server, on_accept);
}

int main(int argc, char **argv)
{
	static struct client clients[16];
	ip_addr_t here;
	int k, count = argc > 2 ? atoi(argv[1]) : 0;
	if (count < 1 || count > 16)
		return 2;
	lwip_init();
	begun_ms = clock_ms;
	IP_ADDR4(&here, 127, 0, 0, 1);
	serve();
	for (k = 0; k < count; k++) {
		clients[k].left = atoi(argv[2]);
		clients[k].pcb = tcp_new();
		tcp_arg(clients[k].pcb, &clients[k]);
		tcp_recv(clients[k].pcb, on_answer);
		check(tcp_connect(clients[k].pcb, &here, 7, on_connected));
	}
	while (ended < count && (u32_t)(clock_ms - begun_ms) < 3600000) {
		netif_poll_all();
		clock_ms++;
		sys_check_timeouts();
	}
	printf("%d answers, %d packets, %d lost, %d idle timeouts, %lu ms\n", answers, packets, lost, idle_runs,
	       (unsigned long)(u32_t)(clock_ms - begun_ms));
	return ended == count ? 0 : 1;
}
