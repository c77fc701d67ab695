/* Idle connections in C++, over a real clock: deadlines are its time points, and a connection that goes stops its timer.
 *
 *     c++ -std=c++17 connections.cpp $(pkg-config --cflags --libs timers)
 */
#include <chrono>
#include <iostream>
#include <memory>
#include <thread>

#include <timers.hpp>

using namespace std::chrono_literals;
using real = std::chrono::steady_clock;

struct connection;
using idle_timers = timing::timers<std::chrono::milliseconds, connection *, real>;

struct connection {
	const char *name;
	timing::timer<idle_timers> idle;      /* stopped by the destructor */

	connection(idle_timers &timers, const char *called) : name(called), idle(timers) { heard(30ms); }
	void heard(std::chrono::milliseconds patience) { idle.start_at(real::now() + patience, this); }
};

static void hang_up(const idle_timers::expired &timer)
{
	std::cout << timer.action->name << " is idle\n";
}

int main()
{
	idle_timers timers;
	connection slow(timers, "slow"), silent(timers, "silent");
	auto gone = std::make_unique<connection>(timers, "gone");
	slow.heard(60ms);                     /* pushed back */
	gone.reset();
	while (const auto next = timers.wakeup()) {
		std::this_thread::sleep_until(*next);
		timers.catch_up(real::now(), hang_up);
	}
}
