/* The shortest whole use in C++: three timers whose actions are functions, of which one is stopped.
 *
 *     c++ -std=c++17 first.cpp $(pkg-config --cflags --libs timers)
 */
#include <chrono>
#include <iostream>

#include <timers.hpp>

using namespace std::chrono_literals;

int main()
{
	timing::timers<std::chrono::milliseconds, void (*)()> timers;          /* a tick is a millisecond */
	timers.start(3s, [] { std::cout << "tea\n"; });
	timers.start(2400ms, [] { std::cout << "egg\n"; });
	const timing::handle call = timers.start(9s, [] { std::cout << "call\n"; });
	timers.stop(call);
	while (const auto next = timers.wakeup()) {                            /* a server sleeps until then */
		timers.catch_up(*next, [](const auto &timer) {
			std::cout << timer.deadline.time_since_epoch().count() << ": ";
			timer.action();
		});
	}
}
