/* compare PROGRAM [few] < SCRIPT   plays a script by the program, under several options, and by the model
 *
 * With `few` it plays each scheme and each form of output once, for a script that takes long.
 * Status 0 if all agree in the text, the fault and the status. Otherwise it says where they differ, and
 * aborts, so that a fuzzer keeps the script. Built by an instrumenting compiler, the model shows the fuzzer
 * which scripts are new. */
#define _GNU_SOURCE
#include "model.h"

#include <fcntl.h>
#include <inttypes.h>
#include <spawn.h>
#include <stdbool.h>
#include <stdio.h>
#include <stdlib.h>
#include <string.h>
#include <sys/mman.h>
#include <sys/stat.h>
#include <sys/wait.h>
#include <unistd.h>

extern char **environ;

struct run {
	const char *arguments[16];
	struct options options;
	enum form form;
};

#define ALL {0, 0, 0, 0, 0, 0, 0, 0}
#define DEFAULTS {MAX_CLIENTS, DEFAULT_CAPACITY, 0, LAST, HIER, 0, 0, 0, ALL}
#define NEAR_THE_END {MAX_CLIENTS, DEFAULT_CAPACITY, 8639000, LAST_OF_CLOCK, CLOCK, 0, 0, 0, ALL}

/* A scheme with the defaults of its options. */
#define OVER(name, scheme, last) \
	{{"play", "--scheme", name}, {MAX_CLIENTS, DEFAULT_CAPACITY, 0, last, scheme, DEFAULT_SLOTS, 0, 0, ALL}, PLAY}, \
	{{"show", "--moves", "--counts", "--scheme", name}, \
	 {MAX_CLIENTS, DEFAULT_CAPACITY, 0, last, scheme, DEFAULT_SLOTS, 1, 1, ALL}, SHOW},

/* Small limits, both ends of the clock, one bucket and many. */
static const struct run RUNS[] = {
	EACH_SCHEME(OVER)
	{{"play", "--scheme", "hashed", "--slots", "1", "--capacity", "3", "--clients", "2"},
	 {2, 3, 0, LAST, HASHED, 1, 0, 0, ALL}, PLAY},
	{{"play", "--scheme", "hier", "--first-tick", "1152921504606846900"},
	 {MAX_CLIENTS, DEFAULT_CAPACITY, LAST - 75, LAST, HIER, 0, 0, 0, ALL}, PLAY},
	{{"play", "--scheme", "hashed", "--slots", "8", "--first-tick", "4090"},
	 {MAX_CLIENTS, DEFAULT_CAPACITY, 4090, LAST, HASHED, 8, 0, 0, ALL}, PLAY},
	{{"play", "--scheme", "clock", "--first-tick", "8639000", "--capacity", "5"},
	 {MAX_CLIENTS, 5, 8639000, LAST_OF_CLOCK, CLOCK, 0, 0, 0, ALL}, PLAY},
	{{"serve"}, DEFAULTS, SERVE},
	{{"serve", "--keep-going", "--scheme", "plain"}, DEFAULTS, KEEP_GOING},
	{{"serve", "--wakeups"}, DEFAULTS, WAKEUPS},
	{{"serve", "--wakeups", "--scheme", "clock", "--first-tick", "8639000"}, NEAR_THE_END, WAKEUPS},
	{{"serve", "--wakeups", "--scheme", "hashed", "--slots", "8"}, DEFAULTS, WAKEUPS},
	{{"serve", "--wakeups", "--scheme", "smooth", "--first-tick", "4090"},
	 {MAX_CLIENTS, DEFAULT_CAPACITY, 4090, LAST, SMOOTH, 0, 0, 0, ALL}, WAKEUPS},
	{{"serve", "--wakeups", "--keep-going"}, DEFAULTS, KEEP_GOING_WAKEUPS},
	{{"show"}, DEFAULTS, SHOW},
	{{"show", "--counts", "--first-tick", "4000"}, {MAX_CLIENTS, DEFAULT_CAPACITY, 4000, LAST, HIER, 0, 1, 0, ALL}, SHOW},
	{{"show", "--counts", "--scheme", "hashed", "--slots", "5"},
	 {MAX_CLIENTS, DEFAULT_CAPACITY, 0, LAST, HASHED, 5, 1, 0, ALL}, SHOW},
	{{"show", "--scheme", "plain"}, {MAX_CLIENTS, DEFAULT_CAPACITY, 0, LAST, PLAIN, 0, 0, 0, ALL}, SHOW},
	{{"show", "--moves", "--counts", "--scheme", "clock", "--first-tick", "8600000"},
	 {MAX_CLIENTS, DEFAULT_CAPACITY, 8600000, LAST_OF_CLOCK, CLOCK, 0, 1, 1, ALL}, SHOW},
	{{"show", "--moves", "--scheme", "hashed", "--slots", "8"},
	 {MAX_CLIENTS, DEFAULT_CAPACITY, 0, LAST, HASHED, 8, 0, 1, ALL}, SHOW},
	{{"show", "--counts", "--scheme", "smooth", "--first-tick", "10"},
	 {MAX_CLIENTS, DEFAULT_CAPACITY, 10, LAST, SMOOTH, 0, 1, 0, ALL}, SHOW},
	{{"show", "--moves", "--counts", "--scheme", "smooth", "--first-tick", "4010"},
	 {MAX_CLIENTS, DEFAULT_CAPACITY, 4010, LAST, SMOOTH, 0, 1, 1, ALL}, SHOW},
	{{"show", "--client", "1", "--moves"},
	 {MAX_CLIENTS, DEFAULT_CAPACITY, 0, LAST, HIER, 0, 0, 1, {0, 1, 0, 0, 1, 0, 0, 0}}, SHOW},
	{{"show", "--timer", "2", "--scheme", "hashed", "--slots", "8"},
	 {MAX_CLIENTS, DEFAULT_CAPACITY, 0, LAST, HASHED, 8, 0, 0, {0, 0, 1, 0, 0, 2, 0, 0}}, SHOW},
	{{"show", "--new", "--moves", "--scheme", "clock"},
	 {MAX_CLIENTS, DEFAULT_CAPACITY, 0, LAST_OF_CLOCK, CLOCK, 0, 0, 1, {1, 0, 0, 0, 0, 0, 0, 0}}, SHOW},
	{{"show", "--new", "--client", "0", "--from", "1", "--to", "100", "--moves"},
	 {MAX_CLIENTS, DEFAULT_CAPACITY, 0, LAST, HIER, 0, 0, 1, {1, 1, 0, 1, 0, 0, 1, 100}}, SHOW},
	{{"show", "--new", "--client", "1", "--scheme", "hashed", "--slots", "8"},
	 {MAX_CLIENTS, DEFAULT_CAPACITY, 0, LAST, HASHED, 8, 0, 0, {1, 1, 0, 0, 1, 0, 0, 0}}, SHOW},
	{{"show", "--new", "--scheme", "smooth"}, {MAX_CLIENTS, DEFAULT_CAPACITY, 0, LAST, SMOOTH, 0, 0, 0, {1, 0, 0, 0, 0, 0, 0, 0}}, SHOW},
	{{"show", "--new", "--scheme", "plain"}, {MAX_CLIENTS, DEFAULT_CAPACITY, 0, LAST, PLAIN, 0, 0, 0, {1, 0, 0, 0, 0, 0, 0, 0}}, SHOW},
	{{"show", "--client", "1", "--scheme", "clock"},
	 {MAX_CLIENTS, DEFAULT_CAPACITY, 0, LAST_OF_CLOCK, CLOCK, 0, 0, 0, {0, 1, 0, 0, 1, 0, 0, 0}}, SHOW},
	{{"show", "--timer", "1", "--moves"}, {MAX_CLIENTS, DEFAULT_CAPACITY, 0, LAST, HIER, 0, 0, 1, {0, 0, 1, 0, 0, 1, 0, 0}}, SHOW},
	{{"show", "--moves", "--from", "65", "--to", "4096"},
	 {MAX_CLIENTS, DEFAULT_CAPACITY, 0, LAST, HIER, 0, 0, 1, {0, 0, 0, 1, 0, 0, 65, 4096}}, SHOW},
	{{"show", "--client", "0", "--timer", "1", "--scheme", "plain"},
	 {MAX_CLIENTS, DEFAULT_CAPACITY, 0, LAST, PLAIN, 0, 0, 0, {0, 1, 1, 0, 0, 1, 0, 0}}, SHOW},
	{{"check"}, DEFAULTS, CHECK},
};

static void fail(const char *what)
{
	perror(what);
	exit(3);
}

static int file_in_memory(const char *name)
{
	int fd = memfd_create(name, 0);
	if (fd < 0)
		fail("memfd_create");
	return fd;
}

/* What the file has, which is `len` bytes. */
static char *whole(int fd, size_t *len)
{
	struct stat of;
	if (fstat(fd, &of))
		fail("fstat");
	*len = (size_t)of.st_size;
	char *bytes = malloc(*len + 1);
	if (!bytes || pread(fd, bytes, *len, 0) != (ssize_t)*len)
		fail("pread");
	return bytes;
}

static int run(const char *program, const struct run *how, int in, int out, int err)
{
	char *words[14] = {(char *)program};
	for (int i = 0; how->arguments[i]; i++)
		words[i + 1] = (char *)how->arguments[i];
	posix_spawn_file_actions_t actions;
	posix_spawn_file_actions_init(&actions);
	posix_spawn_file_actions_adddup2(&actions, in, 0);
	posix_spawn_file_actions_adddup2(&actions, out, 1);
	posix_spawn_file_actions_adddup2(&actions, err, 2);
	pid_t child;
	int status;
	if (lseek(in, 0, SEEK_SET) || ftruncate(out, 0) || lseek(out, 0, SEEK_SET) || ftruncate(err, 0) || lseek(err, 0, SEEK_SET))
		fail("lseek");
	if (posix_spawn(&child, program, &actions, NULL, words, environ))
		fail("posix_spawn");
	posix_spawn_file_actions_destroy(&actions);
	if (waitpid(child, &status, 0) != child)
		fail("waitpid");
	return WIFEXITED(status) ? WEXITSTATUS(status) : 1000 + WTERMSIG(status);
}

static void differ(const struct run *how, const char *what)
{
	fprintf(stderr, "differs in %s:", what);
	for (int i = 0; how->arguments[i]; i++)
		fprintf(stderr, " %s", how->arguments[i]);
	fprintf(stderr, "\n");
	abort();
}

static int same(int fd, const struct text *wanted)
{
	size_t len;
	char *bytes = whole(fd, &len);
	int is = len == wanted->len && (len == 0 || !memcmp(bytes, wanted->at, len));
	free(bytes);
	return is;
}

/* A line of the text is the wanted one, or a wake-up after the present tick and at most at the first deadline. */
static int line_fits(const char *found, size_t len, const char *wanted, size_t wanted_len)
{
	uint64_t now, first, tick;
	char line[64] = {0}, rest;
	if (wanted_len < sizeof line)
		memcpy(line, wanted, wanted_len);
	if (sscanf(line, "wakeup %" SCNu64 " %" SCNu64, &now, &first) != 2)
		return len == wanted_len && !memcmp(found, wanted, len);
	memset(line, 0, sizeof line);
	if (len >= sizeof line)
		return 0;
	memcpy(line, found, len);
	return sscanf(line, "wakeup %" SCNu64 "%c", &tick, &rest) == 2 && rest == '\n' && now < tick && tick <= first;
}

static int fits(const struct text *found, const struct text *wanted)
{
	size_t at = 0, want = 0;
	while (at < found->len && want < wanted->len) {
		const char *feed = memchr(found->at + at, '\n', found->len - at);
		const char *end = memchr(wanted->at + want, '\n', wanted->len - want);
		size_t len = feed ? (size_t)(feed - found->at) + 1 - at : found->len - at;
		size_t wanted_len = (size_t)(end - wanted->at) + 1 - want;
		if (!line_fits(found->at + at, len, wanted->at + want, wanted_len))
			return 0;
		at += len;
		want += wanted_len;
	}
	return at == found->len && want == wanted->len;
}

/* Whether a run wrote what the model wants. */
static int is_answer(int fd, const struct text *wanted, enum form form)
{
	struct text found = {0};
	found.at = whole(fd, &found.len);
	int woken = form == WAKEUPS || form == KEEP_GOING_WAKEUPS;
	int is = woken ? fits(&found, wanted) : found.len == wanted->len && (found.len == 0 || !memcmp(found.at, wanted->at, found.len));
	free(found.at);
	return is;
}

/* Whether no option but a scheme is given, and that to `play`. */
static bool is_one_of_few(const char *const *arguments)
{
	return !arguments[1] || (!strcmp(arguments[0], "play") && !strcmp(arguments[1], "--scheme") && !arguments[3]);
}

int main(int count, char **words)
{
	bool few = count == 3 && !strcmp(words[2], "few");
	if (count != 2 + few) {
		fprintf(stderr, "compare PROGRAM [few] < SCRIPT\n");
		return 2;
	}
	int in = file_in_memory("in"), out = file_in_memory("out"), err = file_in_memory("err");
	char piece[65536];
	for (ssize_t n; (n = read(0, piece, sizeof piece)) != 0;)
		if (n < 0 || write(in, piece, (size_t)n) != n)
			fail("read");
	size_t len;
	char *script = whole(in, &len);
	for (size_t i = 0; i < sizeof RUNS / sizeof *RUNS; i++) {
		if (few && !is_one_of_few(RUNS[i].arguments))
			continue;
		struct answer wanted = play(script, len, RUNS[i].options, RUNS[i].form);
		int status = run(words[1], &RUNS[i], in, out, err);
		if (status != wanted.status)
			differ(&RUNS[i], "the status");
		if (!is_answer(out, &wanted.output, RUNS[i].form))
			differ(&RUNS[i], "the text");
		if (!same(err, &wanted.faults))
			differ(&RUNS[i], "the fault");
		free(wanted.output.at);
		free(wanted.faults.at);
	}
	free(script);
	return 0;
}
