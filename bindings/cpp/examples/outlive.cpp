/* Timers that outlive their process, in C++: the tick is written, and each timer's deadline and action in order of serial. Started
 * again in that order, the timers come out as they would have. Here the text stays in memory: outlive.c has the file, of which a
 * crash leaves the old text or the new one.
 *
 *     c++ -std=c++17 outlive.cpp $(pkg-config --cflags --libs timers)
 */
#include <algorithm>
#include <chrono>
#include <iostream>
#include <sstream>
#include <vector>

#include <timers.hpp>

using namespace std::chrono_literals;
using numbered = timing::timers<>;            /* ticks of a millisecond; an action is a number that outlives the process */

static void save(const numbered &timers, std::ostream &to)
{
	std::vector<numbered::expired> rows;
	timers.each([&](timing::handle, const auto &timer) { rows.push_back(timer); });
	std::sort(rows.begin(), rows.end(), [](const auto &a, const auto &b) { return a.serial < b.serial; });
	to << timers.now().time_since_epoch().count() << '\n';
	for (const auto &timer : rows)
		to << timer.deadline.time_since_epoch().count() << ' ' << timer.action << '\n';
}

static numbered restored(std::istream &from)
{
	std::int64_t tick;
	std::uint64_t action;
	from >> tick;
	numbered timers(TIMERS_WIDE, numbered::at(numbered::ticks(tick)));
	while (from >> tick >> action)
		timers.start_at(numbered::at(numbered::ticks(tick)), action);      /* with a new handle: keep it by the action */
	return timers;
}

int main()
{
	std::stringstream saved;
	{
		numbered timers;
		timing::handle pushed = timers.start_at(numbered::at(10ms), 1);
		for (const auto &[at, action] : { std::pair(30ms, 2u), std::pair(30ms, 3u), std::pair(5ms, 4u) })
			timers.start_at(numbered::at(at), action);
		timers.set_at(pushed, numbered::at(30ms), 1);                      /* behind 2 and 3 */
		timers.advance_to(numbered::at(7ms));                              /* 4 has expired, and was not taken yet */
		save(timers, saved);
	}
	numbered timers = restored(saved);
	std::cout << "restored at tick " << timers.now().time_since_epoch().count() << ": " << timers.size() << " pending\n";
	timers.each([&](timing::handle of, const auto &timer) {
		if (timer.action == 3)
			timers.stop(of);
	});
	while (const auto timer = timers.take(numbered::at(100ms)))
		std::cout << "tick " << timer->deadline.time_since_epoch().count() << ": timer " << timer->action << '\n';
}
