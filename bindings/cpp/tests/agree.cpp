/* The edges of timers.hpp, and its memory: random calls of it are in replay.cpp.
 * It is linked with --wrap=malloc,--wrap=realloc,--wrap=free: so it can refuse memory, and count the library's blocks. */
#include <algorithm>
#include <chrono>
#include <cstdint>
#include <cstdlib>
#include <cstring>
#include <iostream>
#include <unordered_set>
#include <utility>
#include <vector>

#include <timers.hpp>
#include "check.h"

using namespace std::chrono_literals;
using Timers = timing::timers<std::chrono::milliseconds, const int *>;
using ticks = Timers::ticks;
using moment = Timers::time_point;

/* The time point of a tick. */
static constexpr moment at(std::uint64_t tick) { return moment(ticks(static_cast<std::int64_t>(tick))); }

static bool refusing;
static long blocks;     /* that were allocated and not freed */

extern "C" {
void *__real_malloc(std::size_t size);
void *__real_realloc(void *block, std::size_t size);
void __real_free(void *block);
void *__wrap_malloc(std::size_t size)
{
	blocks += !refusing;
	return refusing ? nullptr : __real_malloc(size);
}
void *__wrap_realloc(void *block, std::size_t size)
{
	blocks += !refusing && !block;
	return refusing ? nullptr : __real_realloc(block, size);
}
void __wrap_free(void *block)
{
	blocks -= block != nullptr;
	__real_free(block);
}
}

static_assert(sizeof(Timers) == 32);
static_assert(!std::is_copy_constructible_v<Timers> && !std::is_copy_assignable_v<Timers>);
static_assert(std::is_nothrow_move_constructible_v<Timers> && std::is_nothrow_move_assignable_v<Timers>);

/* The status with which a call is refused. */
template <class Call>
static enum timers_status refusal(Call call)
{
	try {
		call();
	} catch (const timing::error &error) {
		CHECK(std::strcmp(error.what(), timers_message(error.status())) == 0);
		return error.status();
	}
	return TIMERS_OK;
}

/* The first deadline of all. */
template <class Of>
static std::optional<typename Of::time_point> first_of(const Of &timers)
{
	std::optional<typename Of::time_point> first;
	timers.each([&first](timing::handle, const typename Of::expired &timer) {
		first = first ? std::min(*first, timer.deadline) : timer.deadline;
	});
	return first;
}

static void round_intervals()
{
	using frames = timing::timers<std::chrono::duration<int, std::ratio<1, 60>>>;
	CHECK(Timers::in_ticks(2s).count() == 2000);
	CHECK(Timers::in_ticks(1001us).count() == 2 && Timers::in_ticks(1000us).count() == 1);
	CHECK(frames::in_ticks(1s).count() == 60);
	CHECK(frames::in_ticks(17ms).count() == 2 && frames::in_ticks(16ms).count() == 1);
	CHECK(Timers::in_ticks(-1h).count() == 0 && Timers::in_ticks(0s).count() == 0);
	CHECK(Timers::in_ticks(1ns).count() == 1);
	CHECK(Timers::at_least(5ms).count() == 6 && Timers::at_least(4999us).count() == 6);
	CHECK(Timers::in_ticks(std::chrono::hours::max()) == ticks::max());
	CHECK(Timers::at_least(std::chrono::hours::max()) == ticks::max());
	/* 2^63 - 1 microseconds are 9223372036854775.807 milliseconds, or 553402322211286.5.. frames */
	CHECK(Timers::in_ticks(std::chrono::microseconds::max()).count() == 9223372036854776);
	CHECK(frames::in_ticks(std::chrono::microseconds::max()).count() == 553402322211287);
	/* times of 1.5 milliseconds: one of 2^63 - 2 ticks, and three that need more than 2^63 - 1 */
	using longer = std::chrono::duration<std::uint64_t, std::ratio<3, 2000>>;
	CHECK(Timers::in_ticks(longer(6148914691236517204u)).count() == 9223372036854775806);
	CHECK(Timers::in_ticks(longer(6148914691236517205u)) == ticks::max());
	CHECK(Timers::in_ticks(longer(6148914691236517206u)) == ticks::max());
	CHECK(Timers::in_ticks(longer(12297829382473034411u)) == ticks::max());
}

static void meet_the_edges()
{
	const int number = 3;
	Timers timers(TIMERS_SMALL, at(16777206));
	CHECK(refusal([&] { timers.start(0s, &number); }) == TIMERS_ZERO_INTERVAL);
	CHECK(refusal([&] { timers.start(-1s, &number); }) == TIMERS_ZERO_INTERVAL);
	CHECK(refusal([&] { timers.start(10ms, &number); }) == TIMERS_TOO_LATE);
	CHECK(refusal([&] { Timers(TIMERS_SMALL, at(16777216)); }) == TIMERS_TOO_LATE);
	CHECK(!timers.stop(timing::handle()) && !timers.look(timing::handle()) && !timers.wakeup());

	/* What is due at once goes to the back: the first is restarted, so that the second comes out before it. */
	timing::handle once = timers.start_at(timers.now(), nullptr);
	const timing::handle before = timers.start_at(at(3), &number);
	CHECK(timers.restart_at(once, at(0), nullptr));
	CHECK(timers.has_due() && timers.size() == 0 && timers.wakeup() == timers.now());
	Timers at_zero;
	at_zero.start_at(at(0), nullptr);
	CHECK(at_zero.wakeup() == at(0));
	CHECK(timers.look(before)->deadline == timers.now() && timers.expire()->serial == before.serial());
	CHECK(timers.expire()->serial == once.serial() && !timers.has_due());

	timing::handle first = timers.start(3ms, &number), second = timers.start(3ms, nullptr);
	CHECK(timers.advance(100ms) == 3ms && timers.has_due() && refusal([&] { timers.tick(); }) == TIMERS_DUE);
	CHECK(timers.stop(first) == &number && !timers.stop(first));          /* expired, and not yet taken */
	CHECK(refusal([&] { (void)timers.restart(second, 0ms, nullptr); }) == TIMERS_ZERO_INTERVAL);
	CHECK(refusal([&] { (void)timers.restart(second, 10ms, nullptr); }) == TIMERS_TOO_LATE);
	CHECK(refusal([&] { (void)timers.restart_at(second, at(16777216), nullptr); }) == TIMERS_TOO_LATE);
	CHECK(timers.look(second));
	const auto taken = timers.expire();
	CHECK(taken && taken->serial == second.serial() && !taken->action && !timers.expire());

	first = timers.start(2ms, &number);
	Timers moved = std::move(timers);
	CHECK(moved.size() == 1 && timers.size() == 0 && !timers.stop(first));
	CHECK(refusal([&] { timers.start(1ms, &number); }) == TIMERS_NOT_OPEN);
	CHECK(refusal([&] { timers.counts(); }) == TIMERS_NOT_OPEN);
	CHECK(refusal([&] { timers.catch_up(at(9), [](const auto &) {}); }) == TIMERS_NOT_OPEN);
	CHECK(refusal([&] { timers.advance_to(at(9)); }) == TIMERS_NOT_OPEN && !timers.take(at(9)));
	CHECK(refusal([&] { timers.set_at(first, at(9), &number); }) == TIMERS_NOT_OPEN);
	timers.clear();
	timers = std::move(moved);
	Timers &same = timers;
	timers = std::move(same);
	CHECK(timers.stop(first) == &number);
	timers.catch_up(at(16777215), [](const auto &) {});
	CHECK(timers.now() == at(16777215) && refusal([&] { timers.tick(); }) == TIMERS_CLOCK_END);
	CHECK(timers.advance(ticks(0)) == ticks(0));
	CHECK(refusal([&] { timers.advance_to(at(16777216)); }) == TIMERS_CLOCK_END);
	timers.advance_to(timers.now());
	CHECK(!timers.take(moment::max()));
	CHECK(refusal([&] { timers.start_at(timers.now(), &number); }) == TIMERS_TOO_LATE);
	CHECK(refusal([&] { timers.start_at(at(0), &number); }) == TIMERS_TOO_LATE);

	/* A lambda with one pointer is an action. */
	int runs = 0;
	const auto count = [&runs] { runs++; };
	timing::timers<std::chrono::seconds, decltype(count)> counters;
	counters.start(1min, count);
	counters.start(59s, count);
	counters.catch_up(counters.at(1min), [](const auto &timer) { timer.action(); });
	CHECK(runs == 2);
	std::cout << "the edges are as the header says\n";
}

/* A real time that is before the clock passes no tick, and runs nothing. One after the end of the clock is refused,
 * and nothing has run. */
static void catch_up_with_other_times()
{
	unsigned ran = 0;
	const auto run = [&ran](const Timers::expired &) { ran++; };
	Timers timers(TIMERS_SMALL, at(1000));
	timers.start(500ms, nullptr);
	timers.catch_up(at(999), run);
	timers.catch_up(at(0), run);
	timers.advance_to(at(3));
	CHECK(timers.now() == at(1000) && timers.size() == 1);
	timers.start_at(at(0), nullptr);
	timers.catch_up(at(999), run);
	CHECK(ran == 0 && timers.has_due());
	CHECK(refusal([&] { timers.catch_up(at(16777216), run); }) == TIMERS_TOO_LATE);
	CHECK(refusal([&] { timers.catch_up(moment::max(), run); }) == TIMERS_TOO_LATE);
	CHECK(ran == 0 && timers.has_due() && timers.now() == at(1000) && timers.size() == 1);
	timers.catch_up(at(1000), run);
	CHECK(ran == 1 && !timers.has_due() && timers.now() == at(1000));
	timers.catch_up(at(16777215), run);
	CHECK(ran == 2 && timers.now() == at(16777215));
	Timers wide;
	CHECK(refusal([&] { wide.catch_up(at(TIMERS_LAST + 1), run); }) == TIMERS_TOO_LATE && wide.now() == at(0));
	Timers moved(TIMERS_SMALL);
	moved = std::move(wide);
	moved.catch_up(at(TIMERS_LAST), run);
	CHECK(moved.now() == at(TIMERS_LAST));
	Timers clock(TIMERS_SMALL), by_move(std::move(clock));
	CHECK(refusal([&] { by_move.catch_up(at(16777216), run); }) == TIMERS_TOO_LATE && by_move.now() == at(0));
}

/* Handles are those of one timer if place and serial are. */
static void compare_handles()
{
	const timing::handle one(timers_handle{ 1, 7 }), later(timers_handle{ 1, 8 }), beside(timers_handle{ 2, 7 });
	CHECK(one == timing::handle(one.raw()) && !(one != timing::handle(one.raw())));
	CHECK(one != later && one != beside && later != beside);
	CHECK(!(one == later) && !(one == beside) && !(later == beside));
	std::unordered_set<timing::handle> set{ one, later };
	CHECK(set.count(timing::handle(one.raw())) == 1 && set.count(beside) == 0 && set.insert(beside).second && set.size() == 3);
}

/* A clock of nanoseconds, which may be before its epoch. */
struct fine_clock {
	using duration = std::chrono::nanoseconds;
	using rep = duration::rep;
	using period = duration::period;
	using time_point = std::chrono::time_point<fine_clock>;
	static constexpr bool is_steady = false;
};

/* Deadlines are rounded up and present times down, so no timer comes early, and none later than the next tick. */
static void follow_a_real_clock()
{
	using timers_of = timing::timers<std::chrono::milliseconds, int, fine_clock>;
	const auto time = [](std::int64_t ns) { return fine_clock::time_point(std::chrono::nanoseconds(ns)); };
	timers_of timers(TIMERS_WIDE, time(5999999));
	CHECK(timers.now() == time(5000000));
	timers.start_at(time(7000001), 1);
	timers.start_at(time(7000000), 2);
	CHECK(*first_of(timers) == time(7000000));
	CHECK(!timers.take(time(6999999)) && timers.now() == time(6000000));
	const auto second = timers.take(time(7000000));
	CHECK(second && second->action == 2 && second->deadline == time(7000000));
	CHECK(!timers.take(time(7000001)) && !timers.take(time(7999999)));
	unsigned ran = 0;
	timers.catch_up(time(8000000), [&](const auto &timer) { ran += timer.action == 1 && timer.deadline == time(8000000); });
	CHECK(ran == 1);
	timing::handle passed = timers.start_at(time(-3), 3);            /* before the epoch: due at once */
	CHECK(timers.has_due() && timers.look(passed)->deadline == timers.now());
	CHECK(timers.restart_at(passed, time(9000001), 3) && *first_of(timers) == time(10000000));
	timers.set_at(passed, time(8000001), 3);
	CHECK(*first_of(timers) == time(9000000));
	timers.advance_to(time(-1));
	CHECK(timers.now() == time(8000000));
	CHECK(*first_of(timers) - time(8999999) == std::chrono::nanoseconds(1));
	CHECK(*first_of(timers) - time(9000001) == std::chrono::nanoseconds(-1));
	CHECK(timers.advance(-1ms) == 0ms && timers.now() == time(8000000));

	timing::timers<std::chrono::milliseconds, int, std::chrono::steady_clock> steady;
	const auto begun = std::chrono::steady_clock::now();
	steady.start_at(begun + 2ms, 1);
	while (!steady.take(std::chrono::steady_clock::now()))
		;
	CHECK(std::chrono::steady_clock::now() >= begun + 2ms);
}

/* A timer is stopped when its object goes, and by nothing before. */
static void stop_by_scope()
{
	const int number = 3;
	Timers timers;
	using timer = timing::timer<Timers>;
	static_assert(!std::is_copy_constructible_v<timer> && !std::is_copy_assignable_v<timer>);
	static_assert(std::is_nothrow_move_constructible_v<timer> && std::is_nothrow_move_assignable_v<timer>);
	{
		timer idle(timers), never(timers);
		CHECK(!idle.look() && !idle.stop());
		idle.start(5ms, &number);
		idle.start(7ms, nullptr);                             /* the same one, anew */
		CHECK(timers.size() == 1 && idle.look()->deadline == at(7) && !idle.look()->action);
		idle.start_at(at(9), &number);
		CHECK(timers.size() == 1 && first_of(timers) == at(9));
		timer moved(std::move(idle));
		CHECK(timers.size() == 1 && !idle.look() && moved.look() && idle.stop() == std::nullopt);
		idle.start(2ms, nullptr);
		idle = std::move(moved);                              /* which stops what it had */
		CHECK(timers.size() == 1 && first_of(timers) == at(9) && !moved.look());
		timer &same = idle;
		idle = std::move(same);
		CHECK(timers.size() == 1 && idle.look());
		CHECK(idle.stop() == &number && timers.size() == 0);
		idle.start(1ms, &number);
		never.start(2ms, nullptr);
		CHECK(timers.size() == 2);
		CHECK(timers.take(at(1))->action == &number && !idle.look());     /* taken, so there is nothing to stop */
		timers.start(3ms, nullptr);                                     /* perhaps at its place */
	}
	CHECK(timers.size() == 1 && first_of(timers) == at(4));

	Timers others;                                            /* a move takes the owner along */
	timer here(timers), there(others);
	there.start(6ms, &number);
	here = std::move(there);
	CHECK(here.look() && here.look()->deadline == at(6));
	here.start(8ms, nullptr);
	CHECK(others.size() == 1 && first_of(others) == at(8) && timers.size() == 1 && here.stop() && others.size() == 0);
}

/* The work of one timer stops another of its tick, which is not handed out then, and starts one that is due at once. */
static void stop_what_expired()
{
	Timers timers;
	timers.start(5ms, nullptr);
	const timing::handle second = timers.start(5ms, nullptr);
	std::vector<std::uint64_t> ran;
	timers.catch_up(at(9), [&](const Timers::expired &timer) {
		ran.push_back(timer.serial);
		if (ran.size() == 1) {
			CHECK(timers.stop(second));
			timers.start_at(at(0), nullptr);
		}
	});
	CHECK((ran == std::vector<std::uint64_t>{ 1, 3 }) && timers.now() == at(9));
}

/* What `run` throws leaves catch_up. The timer is taken, and the others of its tick are not. */
static void throw_from_a_run()
{
	Timers timers;
	for (int i = 0; i < 100; i++)
		timers.start(5ms, nullptr);
	unsigned ran = 0, thrown = 0;
	const auto run = [&ran](const Timers::expired &timer) {
		CHECK(timer.serial == ++ran);
		if (ran % 3 == 0)
			throw ran;
	};
	for (int tries = 0; tries < 34; tries++) {
		try {
			timers.catch_up(at(9), run);
		} catch (unsigned last) {
			thrown++;
			CHECK(last == 3 * thrown && timers.now() == at(5) && timers.has_due() == (last < 100));
		}
	}
	CHECK(ran == 100 && thrown == 33 && timers.now() == at(9) && !timers.has_due());
}

/* Leaves ones on the stack, where a call puts its action next. */
static void fill_the_stack()
{
	volatile unsigned char ones[256];
	for (volatile unsigned char &byte : ones)
		byte = 0xff;
}

/* The bytes of the word of C are those of the action, and then 0. The action comes back. */
template <class Action>
static void keep(Action action)
{
	unsigned char word[8] = {};
	std::memcpy(word, &action, sizeof action);
	timing::timers<std::chrono::milliseconds, Action> timers;
	timing::handle h;
	const auto holds_word = [&] {
		timers_expired seen;
		CHECK(timers_look(timers.raw(), h.raw(), &seen) == TIMERS_OK && std::memcmp(&seen.action, word, sizeof word) == 0);
		const auto looked = timers.look(h);
		CHECK(looked && std::memcmp(&looked->action, &action, sizeof action) == 0);
	};
	fill_the_stack();
	h = timers.start(1ms, action);
	holds_word();
	fill_the_stack();
	CHECK(timers.restart(h, 2ms, action));
	holds_word();
	fill_the_stack();
	timers.set_at(h, at(3), action);
	holds_word();
	const auto taken = timers.take(at(3));
	CHECK(taken && std::memcmp(&taken->action, &action, sizeof action) == 0);
}

static void keep_small_actions()
{
	struct three { unsigned char bytes[3]; };
	enum class color : std::uint16_t { red = 0x1234 };
	keep<unsigned char>(0xab);
	keep<std::uint16_t>(0xfffe);
	keep<std::uint32_t>(0xfedcba98);
	keep<std::uint64_t>(0xfedcba9876543210);
	keep<std::int32_t>(-1);
	keep<color>(color::red);
	keep<three>({ { 1, 2, 3 } });
}

/* What a move leaves behind, or is put in place of, is freed, and nothing is freed twice. */
static void own_one_at_a_time()
{
	const long before = blocks;
	{
		Timers first;
		first.start(5ms, nullptr);
		const long of_one = blocks - before;
		CHECK(of_one > 0);
		Timers second(std::move(first));
		CHECK(blocks == before + of_one && second.size() == 1);
		Timers third;
		third.start(6ms, nullptr);
		CHECK(blocks == before + 2 * of_one);
		third = std::move(second);
		CHECK(blocks == before + of_one && third.size() == 1 && *first_of(third) == at(5));
		first = std::move(third);
		CHECK(blocks == before + of_one && first.size() == 1);
		first.clear();
		CHECK(blocks == before + of_one && first.size() == 0);
		first = Timers();
		CHECK(blocks < before + of_one);
	}
	CHECK(blocks == before);
	std::vector<Timers> several;
	for (int i = 0; i < 20; i++)          /* the vector moves those that it has */
		several.emplace_back().start(1ms, nullptr);
	several.erase(several.begin(), several.begin() + 7);
	CHECK(several.size() == 13 && several.front().size() == 1);
	several.clear();
	CHECK(blocks == before);
}

/* Whether this call is refused for memory, while none is given out. */
template <class Call>
static bool lacks_memory(Call call)
{
	bool thrown = false;
	refusing = true;
	try {
		call();
	} catch (const std::bad_alloc &) {
		thrown = true;
	}
	refusing = false;
	return thrown;
}

/* How many of 1,000 starts memory is refused to, while none is given out. */
static unsigned refused_starts(Timers &timers)
{
	unsigned refused = 0;
	for (int i = 0; i < 1000; i++) {
		const std::size_t before = timers.size();
		refused += lacks_memory([&] { timers.start(1s, nullptr); }) && timers.size() == before;
	}
	return refused;
}

static void run_out_of_memory()
{
	Timers timers;
	const unsigned refused = refused_starts(timers);
	CHECK(refused > 0 && timers.size() == 1000 - refused);
	timers.start(1s, nullptr);
	CHECK(timers.size() == 1001 - refused);
	CHECK(lacks_memory([] { Timers others; }));
}

/* While fewer timers are held than room was made for, no start is refused memory. */
static void make_room()
{
	Timers timers;
	timers.reserve(1000);
	CHECK(refused_starts(timers) == 0 && timers.size() == 1000);
	CHECK(lacks_memory([&] { timers.reserve(1000000); }) && timers.size() == 1000);
	while (!timers.has_due())
		timers.advance(ticks::max());
	CHECK(timers.expire());
	CHECK(!lacks_memory([&] { timers.start_at(timers.now(), nullptr); }));
}

int main()
{
	round_intervals();
	meet_the_edges();
	catch_up_with_other_times();
	compare_handles();
	follow_a_real_clock();
	stop_by_scope();
	stop_what_expired();
	throw_from_a_run();
	keep_small_actions();
	own_one_at_a_time();
	run_out_of_memory();
	make_room();
}
