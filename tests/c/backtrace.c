/* From inside each allocation of the library the stack is walked, and leads to main. So a debugger, valgrind and
 * backtrace(3) find who called the library, too. Link with -Wl,--wrap=malloc,--wrap=realloc. */
#include <stdint.h>
#include <stdio.h>
#include <stdlib.h>
#include <unwind.h>

#include <timers.h>
#include <timers_desk.h>

int main(void);
void *__real_malloc(size_t size);
void *__real_realloc(void *block, size_t size);

/* Whether main has called the library; how often that allocated; how often main was found; how many calls failed. */
static bool is_called;
static unsigned long walks, found, failed;

static _Unwind_Reason_Code see(struct _Unwind_Context *frame, void *walk)
{
	bool *has_main = walk;
	*has_main = (uintptr_t)_Unwind_GetRegionStart(frame) == (uintptr_t)main;
	return *has_main ? _URC_NORMAL_STOP : _URC_NO_REASON;
}

static void look(void)
{
	bool has_main = false;
	if (!is_called)
		return;
	_Unwind_Backtrace(see, &has_main);
	walks++;
	found += has_main;
}

void *__wrap_malloc(size_t size)
{
	look();
	return __real_malloc(size);
}

void *__wrap_realloc(void *block, size_t size)
{
	look();
	return __real_realloc(block, size);
}

#define CALL(call) (is_called = true, failed += (call) != 0, is_called = false)
enum { CLIENTS = 3, TIMERS = 100, REQUESTS = 8 };

static struct timers_desk desk = TIMERS_DESK_INIT;
static struct timers_line lines[CLIENTS];

int main(void)
{
	struct timers t = TIMERS_INIT;
	struct timers_handle handle;
	CALL(timers_new(&t, TIMERS_WIDE, 0));
	for (uint64_t timer = 0; timer < TIMERS; timer++)
		CALL(timers_start(&t, 1 + timer, timer, &handle));
	CALL(timers_reserve(&t, 10 * TIMERS));
	timers_free(&t);

	struct timers_desk_config config = { sizeof(struct timers_desk_config), 0, TIMERS, 16, 16, TIMERS_WIDE };
	CALL(timers_desk_new(&desk, lines, CLIENTS, &config));
	for (uint64_t request = 0; request < REQUESTS; request++) {
		uint64_t number;
		CALL(timers_line_start(&lines[0], 5, request, &number));
		CALL(timers_desk_serve(&desk, 0));
	}
	timers_desk_free(&desk);
	for (size_t line = 0; line < CLIENTS; line++)
		timers_line_free(&lines[line]);

	printf("main was found in %lu of %lu walks; %lu calls failed\n", found, walks, failed);
	return walks > 20 && found == walks && failed == 0 ? EXIT_SUCCESS : EXIT_FAILURE;
}
