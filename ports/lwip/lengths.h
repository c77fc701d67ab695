/* Debian's lwIP takes these from the header of its own port, and the tests include lwIP's sockets.h. */
#define IP4ADDR_SOCKADDR_SET_LEN(a) ((a)->sin_len = sizeof(struct sockaddr_in))
#define IP6ADDR_SOCKADDR_SET_LEN(a) ((a)->sin6_len = sizeof(struct sockaddr_in6))
#define IPADDR_SOCKADDR_GET_LEN(a) ((a)->sa.sa_len)
