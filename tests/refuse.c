/* Loaded before a program (LD_PRELOAD), refuses the Nth allocation by malloc or realloc, N being REFUSE, and the Nth
 * start of a thread, N being REFUSE_THREAD. As the program ends, it writes into the file GROWTHS how many allocations
 * and how many starts of threads there were, and the size of each allocation, one a line. Those before main are not
 * counted. A program that runs for ten minutes is ended by SIGALRM.
 *
 * Threads whose owner ended by the refusal try on until their limit of idle turns. From the refusal on they don't yield in
 * these, since a yield can take milliseconds on a busy machine.
 *
 * It includes no header, so that a compiler without the C library's headers builds it: the toolchain's own is one.
 * The numbers are those of Linux on x86-64. */
typedef __SIZE_TYPE__ size_t;

enum { SYS_SCHED_YIELD = 24, SYS_EXIT_GROUP = 231, O_WRONLY_CREAT_TRUNC = 01 | 0100 | 01000, EAGAIN = 11 };
enum { LIMIT = 600 };

void *dlsym(void *, const char *);
char *getenv(const char *);
unsigned long strtoul(const char *, char **, int);
int open(const char *, int, ...);
int dprintf(int, const char *, ...);
int close(int);
long syscall(long, ...);
unsigned alarm(unsigned);

/* Counts calls, and refuses one of them. */
struct refusal {
	_Atomic unsigned long count;
	unsigned long wanted;
};

static struct refusal allocations;
static struct refusal threads;

/* The sizes of the first allocations, in their order. */
enum { MAX_SIZES = 1 << 16 };
static size_t sizes[MAX_SIZES];

static _Atomic _Bool counts;

/* Whether a call was refused after threads had begun. */
static _Atomic _Bool was_refused;

static void *(*real_malloc)(size_t);
static void *(*real_realloc)(void *, size_t);
static int (*real_create)(void *, const void *, void *(*)(void *), void *);

static void *next_of(const char *name) { return dlsym((void *)-1L, name); }

static unsigned long number_of(const char *name)
{
	const char *text = getenv(name);
	return text ? strtoul(text, 0, 10) : 0;
}

__attribute__((constructor)) static void begin(void)
{
	allocations.wanted = number_of("REFUSE");
	threads.wanted = number_of("REFUSE_THREAD");
	real_malloc = (void *(*)(size_t))next_of("malloc");
	real_realloc = (void *(*)(void *, size_t))next_of("realloc");
	real_create = (int (*)(void *, const void *, void *(*)(void *), void *))next_of("pthread_create");
	alarm(LIMIT);
	counts = 1;
}

static void report(void)
{
	counts = 0;
	const char *file = getenv("GROWTHS");
	int fd = file ? open(file, O_WRONLY_CREAT_TRUNC, 0600) : -1;
	if (fd < 0)
		return;
	dprintf(fd, "%lu %lu\n", (unsigned long)allocations.count, (unsigned long)threads.count);
	for (unsigned long i = 0; i < allocations.count && i < MAX_SIZES; i++)
		dprintf(fd, "%zu\n", sizes[i]);
	close(fd);
}

__attribute__((destructor)) static void end(void) { report(); }

/* How a program with threads ends: without destructors. */
void _exit(int status)
{
	report();
	syscall(SYS_EXIT_GROUP, status);
	__builtin_unreachable();
}

/* Counts a call, and returns its number, or 0 if it isn't counted. */
static unsigned long counted(struct refusal *calls) { return counts ? ++calls->count : 0; }

static _Bool refuses(struct refusal *calls, unsigned long number)
{
	if (!number || number != calls->wanted)
		return 0;
	was_refused = threads.count > 0;
	return 1;
}

static _Bool refuses_size(size_t size)
{
	unsigned long number = counted(&allocations);
	if (number && number <= MAX_SIZES)
		sizes[number - 1] = size;
	return refuses(&allocations, number);
}

void *malloc(size_t size)
{
	if (!real_malloc)
		real_malloc = (void *(*)(size_t))next_of("malloc");
	return refuses_size(size) ? 0 : real_malloc(size);
}

void *realloc(void *block, size_t size)
{
	if (!real_realloc)
		real_realloc = (void *(*)(void *, size_t))next_of("realloc");
	return refuses_size(size) ? 0 : real_realloc(block, size);
}

int pthread_create(void *thread, const void *attributes, void *(*work)(void *), void *argument)
{
	return refuses(&threads, counted(&threads)) ? EAGAIN : real_create(thread, attributes, work, argument);
}

int sched_yield(void) { return was_refused ? 0 : (int)syscall(SYS_SCHED_YIELD); }
