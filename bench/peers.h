/* Timers of peers.c, of which a macro chooses one: struct node, and init, set (start or push back), stop, take and next. Those
 * whose loop alone asks for the next deadline have not HAS_NEXT. */
#ifdef COUNT                                     /* out of line, so that callgrind counts each call */
#define CALL __attribute__((noipa)) static
#define IS_COUNTED 1
#else
#define CALL static inline
#define IS_COUNTED 0
#endif
#define NEED(fact) ((fact) ? (void)0 : abort())
#ifdef NO_CASCADES                               /* one of 60,000 ticks may come so much later */
#define MOST_LATE 4096
#else
#define MOST_LATE 0
#endif
#if defined(LIBEVENT) || defined(LIBEVENT_COMMON)
#define HAS_NEXT 0
#else
#define HAS_NEXT 1
#endif

#if defined(SET_AT)                              /* timers.h; next is timers_wakeup */
#include <timers.h>
struct node { struct timers_handle handle; };
static struct timers timers = TIMERS_INIT;
static void init(size_t n) { NEED(!timers_new(&timers, TIMERS_WIDE, 0) && !timers_reserve(&timers, n)); }
CALL void set(struct node *n, uint64_t at) { NEED(!timers_set_at(&timers, &n->handle, at, (uint64_t)(uintptr_t)n)); }
CALL void stop(struct node *n) { timers_stop(&timers, n->handle, NULL); }
CALL struct node *take(uint64_t now)
{
	struct timers_expired e;
	return timers_take(&timers, now, &e) ? (struct node *)(uintptr_t)e.action : NULL;
}
CALL uint64_t next(void) { return timers_wakeup(&timers); }

#elif defined(LOOP_CANCEL) || defined(LOOP_PAUSE)        /* timers_loop.h; a stop cancels or pauses */
#include <timers_loop.h>
struct node { struct timers_event event; };
static struct timers_loop loop = TIMERS_LOOP_INIT;
static uint64_t present;
static uint64_t the_clock(void *data) { return *(uint64_t *)data; }
static void init(size_t n) { NEED(!timers_loop_new(&loop, the_clock, &present, 1) && !timers_reserve(&loop.timers, n)); }
CALL void set(struct node *n, uint64_t at) { NEED(!timers_event_at(&loop, &n->event, at)); }
#ifdef LOOP_PAUSE
CALL void stop(struct node *n) { timers_event_pause(&loop, &n->event); }
#else
CALL void stop(struct node *n) { timers_event_cancel(&loop, &n->event); }
#endif
CALL struct node *take(uint64_t now)
{
	size_t most = SIZE_MAX;
	uint64_t tick;
	if (now != present) {
		present = now;
		timers_loop_tick(&loop);
	}
	return (struct node *)timers_loop_take(&loop, &most, &tick);
}
CALL uint64_t next(void) { return timers_loop_deadline(&loop); }

#elif defined(HEAP) || defined(HEAP_ORDERED) || defined(HEAP_LAZY) /* a heap with four children in an array; each node has its index */
struct node {
	size_t index;                            /* from 1; 0 while it is not in the heap */
#ifdef HEAP_LAZY                                 /* a push back is a store: its entry sinks at its old tick, for which a loop wakes up */
	uint64_t at;
#endif
};
#ifdef HEAP_ORDERED                              /* those of one tick in the order in which they were set */
struct entry { uint64_t at, serial; struct node *node; };
static uint64_t serial;
static inline bool less(struct entry a, struct entry b) { return a.at < b.at || (a.at == b.at && a.serial < b.serial); }
static inline struct entry entry_of(struct node *n, uint64_t at) { return (struct entry){ at, ++serial, n }; }
#else
struct entry { uint64_t at; struct node *node; };
static inline bool less(struct entry a, struct entry b) { return a.at < b.at; }
static inline struct entry entry_of(struct node *n, uint64_t at) { return (struct entry){ at, n }; }
#endif
static struct entry *heap;
static size_t length;
static void init(size_t n) { NEED(heap = (struct entry *)malloc((n + 4) * sizeof *heap)); }
static inline void place(size_t i, struct entry e) { heap[i] = e; e.node->index = i + 1; }
static void up(size_t i, struct entry e)
{
	for (; i > 0 && less(e, heap[(i - 1) / 4]); i = (i - 1) / 4)
		place(i, heap[(i - 1) / 4]);
	place(i, e);
}
static void down(size_t i, struct entry e)
{
	for (size_t child = 4 * i + 1, end, least; child < length; i = least, child = 4 * i + 1) {
		least = child;
		end = child + 4 < length ? child + 4 : length;
		while (++child < end)
			if (less(heap[child], heap[least]))
				least = child;
		if (!less(heap[least], e))
			break;
		place(i, heap[least]);
	}
	place(i, e);
}
CALL void set(struct node *n, uint64_t at)
{
	struct entry e = entry_of(n, at);
#ifdef HEAP_LAZY
	n->at = at;
	if (n->index && heap[n->index - 1].at <= at)
		return;
#endif
	if (n->index == 0)
		up(length++, e);
	else if (less(heap[n->index - 1], e))
		down(n->index - 1, e);
	else
		up(n->index - 1, e);
}
static inline void drop(struct node *n)
{
	size_t i = n->index - 1;
	struct entry e = heap[--length];
	n->index = 0;
	if (i == length)
		return;
	if (i > 0 && less(e, heap[(i - 1) / 4]))
		up(i, e);
	else
		down(i, e);
}
CALL void stop(struct node *n) { if (n->index) drop(n); }
CALL struct node *take(uint64_t now)
{
	struct node *n;
#ifdef HEAP_LAZY
	for (; length && heap[0].at <= now && heap[0].at < heap[0].node->at; down(0, entry_of(n, n->at)))
		n = heap[0].node;
#endif
	if (length == 0 || heap[0].at > now)
		return NULL;
	n = heap[0].node;
	drop(n);
	return n;
}
CALL uint64_t next(void) { return length ? heap[0].at : UINT64_MAX; }

#elif defined(WHEEL) || defined(WHEEL_LAZY)      /* wheels of 64 slots, as timeout.c has them: the nodes are the caller's */
struct node {
	struct node *next, **prev;
	uint64_t at;
#ifdef WHEEL_LAZY                                /* a push back is a store: the node moves once its slot is emptied, at this tick */
	uint64_t visit;
#endif
	uint16_t slot;
	bool on;
};
struct queue { struct node *first, **last; };
enum { WHEELS = 7, DUE = 0xffff };
static struct queue slots[WHEELS][64], due;
static uint64_t bits[WHEELS], current;
static void clear(struct queue *q) { q->first = NULL, q->last = &q->first; }
static void init(size_t n)
{
	(void)n;
	clear(&due);
	for (int i = 0; i < WHEELS * 64; i++)
		clear(&slots[i / 64][i % 64]);
}
static inline void insert(struct queue *q, struct node *n) { n->next = NULL, n->prev = q->last, *q->last = n, q->last = &n->next; }
static inline void drop(struct node *n)
{
	struct queue *q = n->slot == DUE ? &due : &slots[n->slot / 64][n->slot % 64];
	if (n->next)
		n->next->prev = n->prev;
	else
		q->last = n->prev;
	*n->prev = n->next;
	if (!q->first && n->slot != DUE)
		bits[n->slot / 64] &= ~(UINT64_C(1) << (n->slot % 64));
	n->on = false;
}
static inline void put(struct node *n)
{
	n->on = true;
	if (n->at <= current) {
		n->slot = DUE;
		insert(&due, n);
		return;
	}
	int level = (63 - __builtin_clzll(n->at ^ current)) / 6, slot = n->at >> 6 * level & 63;
	NEED(level < WHEELS);
	n->slot = (uint16_t)(level * 64 + slot);
	bits[level] |= UINT64_C(1) << slot;
#ifdef WHEEL_LAZY
	n->visit = n->at >> 6 * level << 6 * level;
#endif
	insert(&slots[level][slot], n);
}
CALL void set(struct node *n, uint64_t at)
{
	bool stays = false;
#ifdef WHEEL_LAZY
	stays = n->on && n->slot != DUE && at >= n->visit;
#endif
	n->at = at;
	if (!stays) {
		if (n->on)
			drop(n);
		put(n);
	}
}
CALL void stop(struct node *n) { if (n->on) drop(n); }
static inline uint64_t wake(void)
{
	for (int l = 0; l < WHEELS; l++)
		if (bits[l])
			return (current >> 6 * l >> 6 << 6 | (uint64_t)__builtin_ctzll(bits[l])) << 6 * l;
	return UINT64_MAX;
}
static void empty(int level, int slot)
{
	struct node *n = slots[level][slot].first, *after;
	clear(&slots[level][slot]);
	bits[level] &= ~(UINT64_C(1) << slot);
	for (; n; n = after) {
		after = n->next;
		put(n);
	}
}
CALL struct node *take(uint64_t now)
{
	while (!due.first) {
		uint64_t to = wake();
		if (to > now) {
			current = now > current ? now : current;
			return NULL;
		}
		current = to;
		for (int l = WHEELS - 1; l >= 0; l--)
			if ((current & ((UINT64_C(1) << 6 * l) - 1)) == 0 && (bits[l] >> (current >> 6 * l & 63) & 1))
				empty(l, current >> 6 * l & 63);
	}
	struct node *n = due.first;
	drop(n);
	return n;
}
CALL uint64_t next(void) { return due.first ? current : wake(); }

#elif defined(NO_CASCADES)                       /* wheels as Linux has them: no timer moves, and those far away come out late */
struct node { struct node *next, **prev; uint64_t at; uint16_t slot; bool on; };
struct queue { struct node *first; };
enum { WHEELS = 9, FINER = 3 };                  /* a slot is 8 times as long as one of the wheel before */
static struct queue slots[WHEELS][64];
static uint64_t bits[WHEELS], current = 1;       /* the tick that is run next */
static void init(size_t n) { (void)n; }
static inline void drop(struct node *n)
{
	if (n->next)
		n->next->prev = n->prev;
	*n->prev = n->next;
	if (!slots[n->slot / 64][n->slot % 64].first)
		bits[n->slot / 64] &= ~(UINT64_C(1) << n->slot % 64);
	n->on = false;
}
CALL void set(struct node *n, uint64_t at)
{
	int wheel = 0;
	uint64_t away = at > current ? at - current : 0;
	if (n->on)
		drop(n);
	while (away >= UINT64_C(63) << FINER * wheel)
		NEED(++wheel < WHEELS);
	uint64_t slot = (current + away + (UINT64_C(1) << FINER * wheel) - 1) >> FINER * wheel & 63;
	struct queue *q = &slots[wheel][slot];
	n->at = at, n->on = true, n->slot = (uint16_t)(wheel * 64 + slot);
	bits[wheel] |= UINT64_C(1) << slot;
	n->next = q->first, n->prev = &q->first, q->first = n;
	if (n->next)
		n->next->prev = &n->next;
}
CALL void stop(struct node *n) { if (n->on) drop(n); }
static inline uint64_t wake(void)
{
	uint64_t best = UINT64_MAX;
	for (int w = 0; w < WHEELS; w++)
		if (bits[w]) {
			uint64_t from = (current + (UINT64_C(1) << FINER * w) - 1) >> FINER * w, by = from & 63;
			uint64_t turned = bits[w] >> by | (by ? bits[w] << (64 - by) : 0);
			uint64_t at = (from + (uint64_t)__builtin_ctzll(turned)) << FINER * w;
			best = at < best ? at : best;
		}
	return best;
}
CALL struct node *take(uint64_t now)
{
	for (uint64_t at; (at = wake()) <= now; current = at + 1)
		for (int w = 0; current = at, w < WHEELS && at % (UINT64_C(1) << FINER * w) == 0; w++)
			if (bits[w] >> (at >> FINER * w & 63) & 1) {
				struct node *n = slots[w][at >> FINER * w & 63].first;
				drop(n);
				return n;
			}
	current = now + 1;
	return NULL;
}
CALL uint64_t next(void) { return wake(); }

#elif defined(TREE)                              /* a red-black tree, of BSD's macros: the nodes are the caller's */
#include <bsd/sys/tree.h>
struct node { RB_ENTRY(node) link; uint64_t at; bool on; };
static RB_HEAD(tree, node) tree = RB_INITIALIZER(&tree);
static inline int order(struct node *a, struct node *b) { return a->at < b->at ? -1 : 1; } /* of one tick: as they were set */
RB_PROTOTYPE(tree, node, link, order)
RB_GENERATE(tree, node, link, order)
static void init(size_t n) { (void)n; }
static inline void drop(struct node *n) { RB_REMOVE(tree, &tree, n); n->on = false; }
CALL void stop(struct node *n) { if (n->on) drop(n); }
CALL void set(struct node *n, uint64_t at)
{
	if (n->on)
		drop(n);
	n->at = at, n->on = true;
	RB_INSERT(tree, &tree, n);
}
CALL struct node *take(uint64_t now)
{
	struct node *n = RB_MIN(tree, &tree);
	return n && n->at <= now ? (drop(n), n) : NULL;
}
CALL uint64_t next(void)
{
	struct node *n = RB_MIN(tree, &tree);
	return n ? n->at : UINT64_MAX;
}

#elif defined(LIST)                              /* a list by deadline, in the order of setting; the nodes are the caller's */
struct node { struct node *next, *prev; uint64_t at; };
static struct node list = { &list, &list, 0 };
static void init(size_t n) { (void)n; }
CALL void stop(struct node *n)
{
	if (n->next)
		n->prev->next = n->next, n->next->prev = n->prev, n->next = NULL;
}
CALL void set(struct node *n, uint64_t at)
{
	struct node *before = (stop(n), list.prev);      /* from the back: where all have one length, none is passed */
	while (before->at > at)
		before = before->prev;
	n->at = at, n->prev = before, n->next = before->next;
	n->next->prev = before->next = n;
}
CALL struct node *take(uint64_t now)
{
	struct node *n = list.next;
	return n == &list || n->at > now ? NULL : (stop(n), n);
}
CALL uint64_t next(void) { return list.next == &list ? UINT64_MAX : list.next->at; }

#elif defined(QUEUE)                             /* std::priority_queue; what was set again or stopped is dropped at the top */
#include <queue>
struct node { uint64_t serial; };                /* of its entry; 0 if there is none */
struct entry {
	uint64_t at, serial;
	node *owner;
	bool operator<(const entry &other) const { return at > other.at; }
};
static std::priority_queue<entry> queue;
static uint64_t serial;
static uint64_t top()
{
	while (!queue.empty() && queue.top().serial != queue.top().owner->serial)
		queue.pop();
	return queue.empty() ? UINT64_MAX : queue.top().at;
}
static void init(size_t) {}
extern "C" {
CALL void set(node *n, uint64_t at) { queue.push(entry{ at, n->serial = ++serial, n }); }
CALL void stop(node *n) { n->serial = 0; }
CALL uint64_t next() { return top(); }
CALL node *take(uint64_t now)
{
	if (top() > now)
		return NULL;
	node *n = queue.top().owner;
	n->serial = 0;
	queue.pop();
	return n;
}
}

#else                                            /* libraries with callbacks: these keep what came out in an array */
static struct node *fired[1 << 21];
static size_t first, last;
static uint64_t present;
#ifdef LIBUV
#include <uv.h>
struct node { uv_timer_t timer; bool made; };
static uv_loop_t uv;
void uv__run_timers(uv_loop_t *);
int uv__next_timeout(const uv_loop_t *);
static void init(size_t n) { (void)n; uv_loop_init(&uv); uv.time = 0; }
static void fire(uv_timer_t *t) { fired[last++] = (struct node *)t; }
CALL void set(struct node *n, uint64_t at)
{
	if (!n->made)
		uv_timer_init(&uv, &n->timer), n->made = true;
	uv_timer_start(&n->timer, fire, at - uv.time, 0);
}
CALL void stop(struct node *n) { if (n->made) uv_timer_stop(&n->timer); }
static void run_due(void) { uv.time = present; uv__run_timers(&uv); }
CALL uint64_t next(void) { int t = uv__next_timeout(&uv); return t < 0 ? UINT64_MAX : present + (uint64_t)t; }
#else                                            /* libevent, which is given a clock of milliseconds; its loop asks for the next */
#include <event2/event.h>
#include <event2/event_struct.h>
struct node { struct event timer; bool made; };
static struct event_base *base;
int __wrap_clock_gettime(clockid_t clock, struct timespec *at);
int __real_clock_gettime(clockid_t clock, struct timespec *at);
int __wrap_clock_gettime(clockid_t clock, struct timespec *at)
{
	if (clock == CLOCK_PROCESS_CPUTIME_ID)
		return __real_clock_gettime(clock, at);
	at->tv_sec = (time_t)(1000 + present / 1000), at->tv_nsec = (long)(present % 1000 * 1000000);
	return 0;
}
static void init(size_t n) { (void)n; NEED(base = event_base_new()); }
static void fire(evutil_socket_t socket, short what, void *node) { (void)socket, (void)what; fired[last++] = (struct node *)node; }
CALL void set(struct node *n, uint64_t at)
{
	struct timeval rest = { (time_t)((at - present) / 1000), (suseconds_t)((at - present) % 1000 * 1000) };
	if (!n->made)
		evtimer_assign(&n->timer, base, fire, n), n->made = true;
#ifdef LIBEVENT_COMMON                           /* with a queue for time-outs of this length */
	static const struct timeval *common;
	static uint64_t of;
	if (at - present == 6000) {
		if (of == 0)
			of = at - present, common = event_base_init_common_timeout(base, &rest);
		NEED(!event_add(&n->timer, common));
		return;
	}
#endif
	NEED(!event_add(&n->timer, &rest));
}
CALL void stop(struct node *n) { if (n->made) event_del(&n->timer); }
static void run_due(void) { event_base_loop(base, EVLOOP_NONBLOCK); }
CALL uint64_t next(void) { return 0; }
#endif
CALL struct node *take(uint64_t now)
{
	if (first == last && now != present) {
		present = now, first = last = 0;
		run_due();
	}
	return first < last ? fired[first++] : NULL;
}
#endif
