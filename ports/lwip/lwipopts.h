/* lwIP for the programs of this folder: one thread, TCP over its own loopback interface. */
#ifndef LWIP_HDR_LWIPOPTS_H
#define LWIP_HDR_LWIPOPTS_H

#define NO_SYS 1
#define SYS_LIGHTWEIGHT_PROT 0
#define LWIP_NETCONN 0
#define LWIP_SOCKET 0
#define LWIP_IPV6 0
#define LWIP_ARP 0
#define IP_REASSEMBLY 0
#define LWIP_HAVE_LOOPIF 1
#define LWIP_TESTMODE 1                   /* shows lwip_cyclic_timer */
#define MEMP_NUM_SYS_TIMEOUT 128
#define MEMP_NUM_TCP_PCB 64
#define MEMP_NUM_TCP_SEG 256
#define MEM_ALIGNMENT 8
#define MEM_SIZE 1000000
#define PBUF_POOL_SIZE 256
#define LWIP_STATS 0

/* load.c loses packets here. The other programs send none. */
struct pbuf;
int lose_packet(struct pbuf *p);
#define LWIP_HOOK_IP4_INPUT(p, netif) lose_packet(p)

#endif
