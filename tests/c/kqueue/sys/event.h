/* As much of kqueue as examples/c/idle_kqueue.c needs, over epoll: where there is none, the example runs on this. */
#include <stdint.h>
#include <sys/epoll.h>
#include <time.h>

struct kevent { uintptr_t ident; short filter; void *udata; };
enum { EVFILT_READ = -1, EV_ADD = 1 };
#define EV_SET(event, socket, kind, flags, fflags, data, owner) \
	(*(event) = (struct kevent){ (uintptr_t)(socket), (short)((kind) * (flags)), (owner) })

static inline int kqueue(void) { return epoll_create1(0); }

static inline int kevent(int queue, const struct kevent *changes, int changed, struct kevent *events, int room,
                         const struct timespec *wait)
{
	struct epoll_event found[64];
	int i, ready;

	for (i = 0; i < changed; i++) {
		struct epoll_event read = { .events = EPOLLIN, .data.ptr = changes[i].udata };

		if (epoll_ctl(queue, EPOLL_CTL_ADD, (int)changes[i].ident, &read) != 0)
			return -1;
	}
	if (room == 0)
		return 0;
	ready = epoll_wait(queue, found, room < 64 ? room : 64,
	                   wait == NULL ? -1 : (int)(wait->tv_sec * 1000 + (wait->tv_nsec + 999999) / 1000000));
	for (i = 0; i < ready; i++)
		events[i] = (struct kevent){ 0, EVFILT_READ, found[i].data.ptr };
	return ready;
}
