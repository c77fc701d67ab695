/* Moves of timers_desk.hpp, and what it throws. Random calls are in replay.cpp. */
#include <cstring>
#include <type_traits>
#include <utility>

#include <timers_desk.hpp>
#include "check.h"

#define THROWS(says, call) do { try { (void)(call); CHECK(false && #call); } catch (const timing::desk_error &e) { CHECK(e.status() == says && std::strcmp(e.what(), timers_desk_message(says)) == 0); } } while (0)

static_assert(!std::is_copy_constructible_v<timing::desk> && !std::is_copy_assignable_v<timing::desk>);
static_assert(!std::is_copy_constructible_v<timing::line> && !std::is_copy_assignable_v<timing::line>);
static_assert(std::is_nothrow_move_constructible_v<timing::desk> && std::is_nothrow_move_assignable_v<timing::line>);

static void move()
{
	std::vector<timing::line> lines;
	timing::desk made(lines, 2, timing::desk::config(100, 4, 4)), desk = std::move(made);
	THROWS(TIMERS_DESK_NOT_OPEN, made.close());
	timing::line line = std::move(lines[0]), other = std::move(lines[1]), none;
	CHECK(line.client() == 0 && other.client() == 1);
	THROWS(TIMERS_DESK_NOT_OPEN, lines[0].start(1, 1));
	THROWS(TIMERS_DESK_NOT_OPEN, none.finish());
	line = timing::line();                  /* frees it */
	CHECK(desk.line_freed(0) && !desk.line_freed(1));
	line = desk.open(0, 4);
	THROWS(TIMERS_DESK_NOT_FREED, desk.open(0, 4));
	THROWS(TIMERS_DESK_NO_CLIENT, desk.stop_pending(2));
	timing::desk stranger(lines, 2, timing::desk::config(1, 1, 1));
	THROWS(TIMERS_DESK_OTHER_LINE, (lines[1].finish(), desk.end(1, lines[1])));
	CHECK(desk.serve(0) == TIMERS_DESK_IDLE && desk.serve(2) == TIMERS_DESK_NO_CLIENT);
	desk = timing::desk(lines, 1, timing::desk::config(1, 1, 1));
	CHECK(line.abandoned() && other.abandoned() && !lines[0].abandoned());
}

int main()
{
	move();
	std::vector<timing::line> lines;
	timers_desk_config most = timing::desk::config(1048576, 0, 65536);
	most.room = 65536;
	const timing::desk largest(lines, 1, most);
	most.room++;
	THROWS(TIMERS_DESK_OUT_OF_RANGE, timing::desk(lines, 1, most));
	const timing::desk kept(lines, 2, timing::desk::config(1, 1, 1));
	THROWS(TIMERS_DESK_OUT_OF_RANGE, timing::desk(lines, TIMERS_DESK_CLIENTS + 1, timing::desk::config(1, 1, 1)));
	CHECK(lines.size() == 2 && lines[0].start(1, 1) && lines[1].client() == 1);
	std::puts("ok");
}
