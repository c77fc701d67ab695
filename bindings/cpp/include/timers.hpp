/* timers.hpp - timers.h for C++17 and later, header only
 *
 *     #include <timers.hpp>
 *     c++ -std=c++17 prog.cpp $(pkg-config --cflags --libs timers)
 *
 * A `timing::timers<Tick, Action>` owns timers and frees them. It can be moved and not copied. timers.h says what each
 * call does; this header says what differs. It takes no lock, and allocates only what it throws. The owner has 32
 * bytes: a `struct timers` and the last tick of its clock. Each call makes one call of C. Exceptions: catch_up and each
 * make several, and in_ticks, at_least, at and raw none.
 *
 * C has a `struct timers`, and C++ then allows no namespace of that name. So the namespace is `timing`. A using
 * directive for it makes a bare `timers` ambiguous: write `timing::timers`.
 *
 * TICKS. `Tick` is the length of a tick, a std::chrono::duration. A deadline is a std::chrono::time_point of `Clock`,
 * and so are `now` and the deadlines that come back. An interval in place of a time point does not compile. An interval
 * is a duration. Both are whole numbers, and are rounded up to ticks. An interval of n ticks lasts more than n - 1 and
 * at most n, since the present tick has begun. `at_least` adds the tick that a time-out needs if it must not come
 * early.
 *
 * CLOCKS. By default the clock has ticks alone, and the caller advances it: `timers.at(5s)` is a time point 5 seconds
 * after tick 0. With a real clock as the third parameter its time points are taken as they are. Tick 0 is the clock's
 * epoch, a deadline is rounded up to a tick, and a present time down, so that no timer comes early:
 *
 *     timing::timers<std::chrono::milliseconds, void (*)(), std::chrono::steady_clock> timers;
 *     timers.start_at(std::chrono::steady_clock::now() + 500ms, run);
 *     timers.catch_up(std::chrono::steady_clock::now(), [](const auto &timer) { timer.action(); });
 *
 * An interval counts from `now`, the tick up to which the timers were advanced. Over a real clock that lags behind, so
 * start and restart do not compile there. The clock of a table other than TIMERS_WIDE may be short (TIMERS_LAST_OF): a
 * real clock may be past its end.
 *
 * ACTIONS. An `Action` can be copied trivially, and has at most 8 bytes. It may be a pointer to an object or a
 * function, an index, an enum, or a lambda that captures one pointer. Its bytes are the action of C, so that it costs
 * nothing. A std::function does not fit: keep it in an object of yours, and give the pointer to that. What owns
 * something does not fit either, as it can't be copied, or not trivially.
 *
 * ERRORS. As in the standard library's containers, an unexpected failure is an exception. It is std::bad_alloc if a
 * call runs out of memory, and otherwise `timing::error` with the status of C. Expected outcomes are results: no
 * timer has the handle (it was stopped, restarted or taken), or nothing has expired. After an exception of the
 * library nothing has changed.
 *
 * WITHOUT EXCEPTIONS (-fno-exceptions) a call that would throw runs TIMERS_REFUSED(status) and then std::abort. A
 * program may define that, to log the status: on the command line, for all of its files alike. Compile all of them with
 * exceptions, or all without. After `reserve` no start runs out of memory; any other refusal is a bug of the caller. To
 * get each status, call timers.h. */
/* SPDX-License-Identifier: MIT OR Apache-2.0 */
#ifndef TIMERS_HPP
#define TIMERS_HPP

#if __cplusplus < 201703L
#error "timers.hpp needs C++17 or later: C++11 and C++14 have timers.h"
#else

#include <chrono>
#include <cstddef>
#include <cstdint>
#include <cstdlib>
#include <cstring>
#include <functional>
#include <limits>
#include <new>
#include <optional>
#include <ratio>
#include <stdexcept>
#include <type_traits>
#include <utility>

#include "timers.h"

#ifndef TIMERS_REFUSED
#define TIMERS_REFUSED(status) (void)(status)
#endif

namespace timing {

/* A call that was refused: `status` says why, and nothing has changed. */
class error : public std::runtime_error {
public:
	explicit error(enum timers_status status) : std::runtime_error(timers_message(status)), status_(status) {}
	enum timers_status status() const noexcept { return status_; }

private:
	enum timers_status status_;
};

[[noreturn]] inline void refuse(enum timers_status status)
{
#ifdef __cpp_exceptions
	if (status == TIMERS_NO_MEMORY)
		throw std::bad_alloc();
	throw error(status);
#else
	TIMERS_REFUSED(status);
	std::abort();
#endif
}

/* The clock of timers without a real one. Its time begins at tick 0. Each `timers` has a present time of its own. */
template <class Tick>
struct tick_clock {
	using duration = std::chrono::duration<std::int64_t, typename Tick::period>;
	using rep = typename duration::rep;
	using period = typename duration::period;
	using time_point = std::chrono::time_point<tick_clock>;
	static constexpr bool is_steady = true;
};

/* The name of a timer. `handle()` names none. */
class handle {
public:
	handle() noexcept : raw_{ 0, 0 } {}
	explicit handle(timers_handle raw) noexcept : raw_(raw) {}
	timers_handle raw() const noexcept { return raw_; }
	std::uint64_t serial() const noexcept { return raw_.serial; }
	friend bool operator==(handle a, handle b) noexcept
	{
		return a.raw_.place == b.raw_.place && a.raw_.serial == b.raw_.serial;
	}
	friend bool operator!=(handle a, handle b) noexcept { return !(a == b); }

private:
	timers_handle raw_;
};

template <class Tick = std::chrono::milliseconds, class Action = std::uint64_t, class Clock = tick_clock<Tick>>
class timers {
	/* A type that can only be moved may be trivially copyable all the same. */
	static_assert(std::is_trivially_copyable_v<Action> && std::is_copy_constructible_v<Action> && sizeof(Action) <= 8,
	              "an action can be copied, trivially, and has at most 8 bytes: for larger things give a pointer");

public:
	/* Signed, as all of std::chrono: the difference of two may be below 0. */
	using ticks = std::chrono::duration<std::int64_t, typename Tick::period>;
	using time_point = std::chrono::time_point<Clock, ticks>;
	using action_type = Action;
	using clock_type = Clock;

	struct expired {
		time_point deadline;
		std::uint64_t serial;     /* of its handle */
		Action action;
	};

	/* Throws error: TIMERS_TOO_LATE; std::bad_alloc. */
	explicit timers(enum timers_table table = TIMERS_WIDE) : timers(table, time_point()) {}
	template <class Duration>
	timers(enum timers_table table, std::chrono::time_point<Clock, Duration> present)
		: last_tick_(TIMERS_LAST_OF(table))
	{
		check(timers_new(&raw_, table, tick_by(present)));
	}
	~timers() { timers_free(&raw_); }
	timers(const timers &) = delete;
	timers &operator=(const timers &) = delete;

	/* The other one is left without timers. It may be destroyed and assigned to. Its stop, look and expire return
	 * nothing, each visits nothing, and now and size return 0. A call that may throw `error` throws it with
	 * TIMERS_NOT_OPEN. A `timer` below refers to its owner by address, so then the owner must not move. */
	timers(timers &&other) noexcept : raw_(std::exchange(other.raw_, none())), last_tick_(other.last_tick_) {}
	timers &operator=(timers &&other) noexcept
	{
		if (this != &other) {
			timers_free(&raw_);
			raw_ = std::exchange(other.raw_, none());
			last_tick_ = other.last_tick_;
		}
		return *this;
	}

	/* The ticks of an interval, rounded up. One that is too long for `ticks` becomes ticks::max(), which is after every
	 * last tick. One of 0 or less becomes 0. Calls that take an interval refuse both. */
	template <class Rep, class Period>
	static constexpr ticks in_ticks(std::chrono::duration<Rep, Period> interval) noexcept
	{
		return ticks(static_cast<std::int64_t>(scaled(interval, true)));
	}

	/* The interval of a time-out that must last no less than this: one tick more, as the present one has
	 * begun. */
	template <class Rep, class Period>
	static constexpr ticks at_least(std::chrono::duration<Rep, Period> time) noexcept
	{
		const ticks whole = in_ticks(time);
		return whole == ticks::max() ? whole : whole + ticks(1);
	}

	/* The time point that is so long after tick 0, rounded up. */
	template <class Rep, class Period>
	static constexpr time_point at(std::chrono::duration<Rep, Period> time) noexcept
	{
		return time_point(in_ticks(time));
	}

	/* timers_reserve: room for `most` timers at once. While fewer are held, no start throws std::bad_alloc.
	 * Throws error: TIMERS_NOT_OPEN; std::bad_alloc. */
	void reserve(std::size_t most) { check(timers_reserve(&raw_, most)); }

	/* timers_start. Throws error: TIMERS_NOT_OPEN, TIMERS_ZERO_INTERVAL (of 0 or less), TIMERS_TOO_LATE,
	 * TIMERS_SERIALS_SPENT; std::bad_alloc. */
	template <class Rep, class Period>
	handle start(std::chrono::duration<Rep, Period> interval, Action action)
	{
		has_own_time();
		timers_handle started;
		check(timers_start(&raw_, scaled(interval, true), bits(action), &started));
		return handle(started);
	}

	/* timers_start_at. If the deadline is not after now(), the timer is due at once: it is taken after those
	 * that have expired already. Throws as start, except TIMERS_ZERO_INTERVAL. */
	template <class Duration>
	handle start_at(std::chrono::time_point<Clock, Duration> deadline, Action action)
	{
		timers_handle started;
		check(timers_start_at(&raw_, tick_of(deadline), bits(action), &started));
		return handle(started);
	}

	/* timers_restart. If a timer has the handle, writes the new handle to `of` and returns true. Otherwise
	 * returns false. Throws error: TIMERS_NOT_OPEN, TIMERS_ZERO_INTERVAL, TIMERS_TOO_LATE,
	 * TIMERS_SERIALS_SPENT. */
	template <class Rep, class Period>
	[[nodiscard]] bool restart(handle &of, std::chrono::duration<Rep, Period> interval, Action action)
	{
		has_own_time();
		return restarted(of, [&](timers_handle *to) {
			return timers_restart(&raw_, of.raw(), scaled(interval, true), bits(action), to);
		});
	}

	/* timers_restart_at, as restart. The deadline is as in start_at. */
	template <class Duration>
	[[nodiscard]] bool restart_at(handle &of, std::chrono::time_point<Clock, Duration> deadline, Action action)
	{
		return restarted(of, [&](timers_handle *to) {
			return timers_restart_at(&raw_, of.raw(), tick_of(deadline), bits(action), to);
		});
	}

	/* timers_set_at: restarts the timer with the handle `of`, or starts one if there is none. Writes the new handle to
	 * `of`. Throws as start_at; std::bad_alloc only if no timer has the handle. */
	template <class Duration>
	void set_at(handle &of, std::chrono::time_point<Clock, Duration> deadline, Action action)
	{
		timers_handle to = of.raw();
		check(timers_set_at(&raw_, &to, tick_of(deadline), bits(action)));
		of = handle(to);
	}

	/* Stops the timer with this handle, pending or expired, and returns its action; nothing if there is
	 * none. */
	std::optional<Action> stop(handle of) noexcept
	{
		std::uint64_t action;
		if (timers_stop(&raw_, of.raw(), &action) != TIMERS_OK)
			return std::nullopt;
		return action_of(action);
	}

	/* The timer with this handle, pending or expired and not yet taken. */
	std::optional<expired> look(handle of) const noexcept
	{
		timers_expired timer;
		if (timers_look(&raw_, of.raw(), &timer) != TIMERS_OK)
			return std::nullopt;
		return cooked(timer);
	}

	/* Calls visit(handle, expired) for every timer, pending or expired, in no particular order. It may
	 * start, stop and restart timers, as timers_each says. */
	template <class Visit>
	void each(Visit &&visit) const
	{
		std::uint64_t cursor = 0;
		timers_handle of;
		timers_expired timer;
		while (timers_each(&raw_, &cursor, &of, &timer))
			visit(handle(of), cooked(timer));
	}

	/* timers_tick. Throws error: TIMERS_NOT_OPEN, TIMERS_DUE, TIMERS_CLOCK_END. */
	void tick() { check(timers_tick(&raw_)); }

	/* timers_advance: returns how many ticks were passed. Throws as tick. */
	ticks advance(ticks most)
	{
		std::uint64_t passed;
		check(timers_advance(&raw_, scaled(most, false), &passed));
		return ticks(static_cast<std::int64_t>(passed));
	}

	/* timers_advance_to: passes the ticks up to this one, or up to the first at which a timer expires. Does nothing
	 * if it is not after now(). Throws as tick. */
	template <class Duration>
	void advance_to(std::chrono::time_point<Clock, Duration> present)
	{
		check(timers_advance_to(&raw_, tick_by(present)));
	}

	/* timers_take: takes the next timer that is due by this tick, and passes the ticks up to it. */
	template <class Duration>
	std::optional<expired> take(std::chrono::time_point<Clock, Duration> present) noexcept
	{
		timers_expired timer;
		if (!timers_take(&raw_, tick_by(present), &timer))
			return std::nullopt;
		return cooked(timer);
	}

	/* Takes the first of the expired timers, if there is one. */
	std::optional<expired> expire() noexcept
	{
		timers_expired timer;
		if (!timers_expire(&raw_, &timer))
			return std::nullopt;
		return cooked(timer);
	}

	/* Passes the ticks up to `present`, and calls run(expired) for each timer that expires on the way. Does
	 * nothing if `present` is before now(), as after a step back of the real clock. It takes the timers one at a
	 * time, so `run` may start, stop and restart any. It returns only once nothing is due: a `run` that always
	 * starts a timer which is due at once keeps it from returning.
	 * Throws error: TIMERS_NOT_OPEN, TIMERS_TOO_LATE (`present` is after the last tick of the clock): nothing was
	 * run then. What `run` throws leaves the call: that timer is taken, and a further call continues. */
	template <class Duration, class Run>
	void catch_up(std::chrono::time_point<Clock, Duration> present, Run &&run)
	{
		const std::uint64_t tick = tick_by(present);
		check(timers_advance_to(&raw_, 0));
		if (tick > last_tick_)
			refuse(TIMERS_TOO_LATE);
		if (tick < timers_now(&raw_))
			return;
		while (const std::optional<expired> timer = take(present))
			run(*timer);
	}

	/* timers_clear: drops all timers, and does not return their actions. */
	void clear() noexcept { timers_clear(&raw_); }

	bool has_due() const noexcept { return timers_has_due(&raw_); }
	time_point now() const noexcept { return point(timers_now(&raw_)); }

	/* How many timers are pending. Expired ones, which wait to be taken, are not counted. */
	std::size_t size() const noexcept { return timers_len(&raw_); }

	/* A time until which the caller may sleep: it may be before the first deadline. Nothing if no timer is held. */
	std::optional<time_point> wakeup() const noexcept { return unless_never(timers_wakeup(&raw_)); }

	/* timers_counts: the starts and moves since the timers were made. Throws error: TIMERS_NOT_OPEN. */
	timers_counters counts() const
	{
		timers_counters so_far;
		check(timers_counts(&raw_, &so_far));
		return so_far;
	}

	/* For the calls of C that are not here. */
	::timers *raw() noexcept { return &raw_; }

private:
	static ::timers none() noexcept { return ::timers TIMERS_INIT; }

	static void check(enum timers_status status)
	{
		if (status != TIMERS_OK)
			refuse(status);
	}

	template <class Of = Clock>
	static constexpr void has_own_time() noexcept
	{
		static_assert(std::is_same_v<Of, tick_clock<Tick>>, "over a real clock give start_at a time point: an interval counts from a late one");
	}

	/* The tick at which a deadline has come, and the one that has come at a present time. */
	template <class Duration>
	static constexpr std::uint64_t tick_of(std::chrono::time_point<Clock, Duration> deadline) noexcept
	{
		return scaled(deadline.time_since_epoch(), true);
	}
	template <class Duration>
	static constexpr std::uint64_t tick_by(std::chrono::time_point<Clock, Duration> present) noexcept
	{
		return scaled(present.time_since_epoch(), false);
	}

	static constexpr time_point point(std::uint64_t tick) noexcept
	{
		return time_point(ticks(static_cast<std::int64_t>(tick)));
	}

	/* The ticks of a time, rounded up or down: 0 for one below 0, and at most the greatest number of `ticks`. */
	template <class Rep, class Period>
	static constexpr std::uint64_t scaled(std::chrono::duration<Rep, Period> time, bool up) noexcept
	{
		static_assert(std::is_integral_v<Rep> && sizeof(Rep) <= 8,
		              "an interval is a whole number: round it by std::chrono::ceil");
		using ratio = std::ratio_divide<Period, typename Tick::period>;
		constexpr std::uint64_t num = ratio::num, den = ratio::den;
		constexpr std::uint64_t most = std::numeric_limits<std::int64_t>::max();
		static_assert(num < most / den, "the lengths of a tick and of the interval's unit are too far apart");
		if (time.count() <= 0)
			return 0;
		const std::uint64_t count = static_cast<std::uint64_t>(time.count());
		const std::uint64_t rest = (count % den * num + (up ? den - 1 : 0)) / den;
		if (count / den > (most - rest) / num)
			return most;
		return count / den * num + rest;
	}

	static std::uint64_t bits(const Action &action) noexcept
	{
		std::uint64_t word = 0;
		std::memcpy(&word, &action, sizeof action);
		return word;
	}

	static Action action_of(std::uint64_t word) noexcept
	{
		alignas(Action) unsigned char bytes[sizeof(Action)];
		std::memcpy(bytes, &word, sizeof bytes);
		return *std::launder(reinterpret_cast<const Action *>(bytes));
	}

	static expired cooked(const timers_expired &timer) noexcept
	{
		return expired{ point(timer.deadline), timer.serial, action_of(timer.action) };
	}

	static std::optional<time_point> unless_never(std::uint64_t tick) noexcept
	{
		return tick == TIMERS_NEVER ? std::nullopt : std::optional<time_point>(point(tick));
	}

	template <class Call>
	static bool restarted(handle &of, Call call)
	{
		timers_handle to;
		const enum timers_status status = call(&to);
		if (status == TIMERS_NOT_PENDING)
			return false;
		check(status);
		of = handle(to);
		return true;
	}

	::timers raw_ = TIMERS_INIT;
	std::uint64_t last_tick_;
};

/* One timer, which is stopped when this object is destroyed: a member of what its action points to, say. By its handle
 * it knows whether the timer is still held. Its owner outlives it and does not move. It can be moved itself, and not
 * copied. A move leaves its action as it was: what that points to must not move, or has to start it again. `Timers` is
 * the owner's type. */
template <class Timers>
class timer {
public:
	explicit timer(Timers &owner) noexcept : owner_(&owner) {}
	~timer() { stop(); }
	timer(const timer &) = delete;
	timer &operator=(const timer &) = delete;
	timer(timer &&other) noexcept : owner_(other.owner_), handle_(std::exchange(other.handle_, handle())) {}
	timer &operator=(timer &&other) noexcept
	{
		if (this != &other) {
			stop();
			owner_ = other.owner_;
			handle_ = std::exchange(other.handle_, handle());
		}
		return *this;
	}

	/* Start it, or start it anew if it is pending or was not yet taken. They throw what the calls of the owner throw. */
	template <class Rep, class Period>
	void start(std::chrono::duration<Rep, Period> interval, typename Timers::action_type action)
	{
		if (!owner_->restart(handle_, interval, action))
			handle_ = owner_->start(interval, action);
	}
	template <class Duration>
	void start_at(std::chrono::time_point<typename Timers::clock_type, Duration> deadline, typename Timers::action_type action)
	{
		owner_->set_at(handle_, deadline, action);
	}

	/* Its action, if it was pending or not yet taken. */
	std::optional<typename Timers::action_type> stop() noexcept { return owner_->stop(std::exchange(handle_, handle())); }
	std::optional<typename Timers::expired> look() const noexcept { return owner_->look(handle_); }

private:
	Timers *owner_;
	handle handle_;
};

} // namespace timing

/* Serials differ within one `timers`. */
template <>
struct std::hash<timing::handle> {
	std::size_t operator()(timing::handle of) const noexcept { return std::hash<std::uint64_t>()(of.serial()); }
};

#endif
#endif
