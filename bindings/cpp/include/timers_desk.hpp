/* timers_desk.hpp - timers_desk.h for C++17 and later, one header that you can copy into your project
 *
 *     #include <timers_desk.hpp>
 *     c++ -std=c++17 -pthread prog.cpp $(pkg-config --cflags --libs timers)
 *
 * A `timing::desk` is the owner's, and a `timing::line` a client's end, for the client's thread. Both can be moved and
 * not copied, and free what they hold, in any order. This header says what differs from the calls of timers_desk.h. A
 * call that fails throws `timing::desk_error` with the status of C, and nothing has changed. `serve` and `serve_all`
 * return the status instead. Expected outcomes are return values: a line is full, no word has come, nothing was done.
 * Without exceptions (-fno-exceptions) a call that would throw runs TIMERS_DESK_REFUSED(status), which a program may
 * define before the include, and then std::abort. */
/* SPDX-License-Identifier: MIT OR Apache-2.0 */
#ifndef TIMERS_DESK_HPP
#define TIMERS_DESK_HPP

#if __cplusplus < 201703L
#error "timers_desk.hpp needs C++17 or later: C++11 and C++14 have timers_desk.h"
#else

#include <atomic>
#include <cstddef>
#include <cstdint>
#include <cstdlib>
#include <limits>
#include <optional>
#include <stdexcept>
#include <utility>
#include <vector>

#include "timers_desk.h"

#ifndef TIMERS_DESK_REFUSED
#define TIMERS_DESK_REFUSED(status) (void)(status)
#endif

namespace timing {

class desk_error : public std::runtime_error {
public:
	explicit desk_error(enum timers_desk_status status)
		: std::runtime_error(timers_desk_message(status)), status_(status) {}
	enum timers_desk_status status() const noexcept { return status_; }

private:
	enum timers_desk_status status_;
};

[[noreturn]] inline void refuse(enum timers_desk_status status)
{
#ifdef __cpp_exceptions
	throw desk_error(status);
#else
	TIMERS_DESK_REFUSED(status);
	std::abort();
#endif
}

/* A client's end of its line. One that was moved from holds none: its calls throw TIMERS_DESK_NOT_OPEN, or return
 * nothing. */
class line {
public:
	line() noexcept : raw_ TIMERS_LINE_INIT {}
	~line() { timers_line_free(&raw_); }
	line(const line &) = delete;
	line &operator=(const line &) = delete;
	line(line &&other) noexcept : raw_(std::exchange(other.raw_, timers_line TIMERS_LINE_INIT)) {}
	line &operator=(line &&other) noexcept
	{
		if (this != &other) {
			timers_line_free(&raw_);
			raw_ = std::exchange(other.raw_, timers_line TIMERS_LINE_INIT);
		}
		return *this;
	}

	std::size_t client() const noexcept { return static_cast<std::size_t>(raw_.client); }

	/* Send a request, and return its number; nothing if the line is full now. Throw desk_error: TIMERS_DESK_NOT_OPEN,
	 * TIMERS_DESK_FINISHED, TIMERS_DESK_NUMBERS_SPENT. */
	[[nodiscard]] std::optional<std::uint64_t> start(std::uint64_t interval, std::uint64_t action)
	{
		std::uint64_t number;
		return sent(timers_line_start(&raw_, interval, action, &number), number);
	}
	[[nodiscard]] std::optional<std::uint64_t> start_at(std::uint64_t deadline, std::uint64_t action)
	{
		std::uint64_t number;
		return sent(timers_line_start_at(&raw_, deadline, action, &number), number);
	}
	[[nodiscard]] std::optional<std::uint64_t> stop(timers_handle handle)
	{
		std::uint64_t number;
		return sent(timers_line_stop(&raw_, handle, &number), number);
	}
	[[nodiscard]] std::optional<std::uint64_t> restart(timers_handle handle, std::uint64_t interval, std::uint64_t action)
	{
		std::uint64_t number;
		return sent(timers_line_restart(&raw_, handle, interval, action, &number), number);
	}
	[[nodiscard]] std::optional<std::uint64_t> restart_at(timers_handle handle, std::uint64_t deadline, std::uint64_t action)
	{
		std::uint64_t number;
		return sent(timers_line_restart_at(&raw_, handle, deadline, action, &number), number);
	}

	/* The next word, if one is there. */
	std::optional<timers_word> receive() noexcept
	{
		timers_word word;
		return timers_line_receive(&raw_, &word) ? std::optional(word) : std::nullopt;
	}

	/* Throws desk_error: TIMERS_DESK_NOT_OPEN, TIMERS_DESK_FINISHED. */
	void finish()
	{
		const enum timers_desk_status status = timers_line_finish(&raw_);
		if (status != TIMERS_DESK_OK)
			refuse(status);
	}
	bool ended() const noexcept { return timers_line_ended(&raw_); }
	bool abandoned() noexcept { return timers_line_abandoned(&raw_); }

private:
	friend class desk;
	static std::optional<std::uint64_t> sent(enum timers_desk_status status, const std::uint64_t &number)
	{
		if (status == TIMERS_DESK_LINE_FULL)
			return std::nullopt;
		if (status != TIMERS_DESK_OK)
			refuse(status);
		return number;
	}
	timers_line raw_;
};

class desk {
public:
	/* The configuration for clients that keep at most `timers` timers each and have at most `requests` requests without an
	 * answer. No request is held back for lack of room. */
	static timers_desk_config config(std::uint64_t capacity, std::uint64_t timers, std::uint64_t requests) noexcept
	{
		timers_desk_config made = {};
		made.size = sizeof made;
		made.capacity = capacity;
		const std::uint64_t most = std::numeric_limits<std::uint64_t>::max();   /* which timers_desk_new refuses */
		made.room = requests < most && timers < most - requests ? timers + requests + 1 : most;
		made.line = requests;
		return made;
	}

	/* `lines` gets the clients' ends, and loses what it had. Throws desk_error: TIMERS_DESK_OUT_OF_RANGE,
	 * TIMERS_DESK_NO_MEMORY; std::bad_alloc. */
	desk(std::vector<line> &lines, std::size_t clients, const timers_desk_config &config) : raw_ TIMERS_DESK_INIT
	{
		raw_.lives = count();           /* so that a line of another desk is refused */
		if (clients > TIMERS_DESK_CLIENTS)
			refuse(TIMERS_DESK_OUT_OF_RANGE);
		std::vector<timers_line> raw(clients + 1, timers_line TIMERS_LINE_INIT);
		std::vector<line> ends(clients);
		check(timers_desk_new(&raw_, raw.data(), clients, &config));
		for (std::size_t c = 0; c < clients; c++)
			ends[c].raw_ = raw[c];          /* moved: raw[c] is not used from here on */
		lines = std::move(ends);
	}
	~desk() { timers_desk_free(&raw_); }
	desk(const desk &) = delete;
	desk &operator=(const desk &) = delete;
	desk(desk &&other) noexcept : raw_(std::exchange(other.raw_, timers_desk TIMERS_DESK_INIT)) {}
	desk &operator=(desk &&other) noexcept
	{
		if (this != &other) {
			timers_desk_free(&raw_);
			raw_ = std::exchange(other.raw_, timers_desk TIMERS_DESK_INIT);
		}
		return *this;
	}

	/* The status, which may well be TIMERS_DESK_IDLE, TIMERS_DESK_NO_ROOM or TIMERS_DESK_NO_MEMORY. */
	enum timers_desk_status serve(std::size_t client) noexcept { return timers_desk_serve(&raw_, client); }
	enum timers_desk_status serve_all(std::uint64_t most) noexcept { return timers_desk_serve_all(&raw_, most); }
	std::size_t flush(std::size_t client) noexcept { return timers_desk_flush(&raw_, client); }
	bool flush_all() noexcept { return timers_desk_flush_all(&raw_); }

	/* Returns how many ticks were passed. Throws desk_error: TIMERS_DESK_NOT_OPEN, TIMERS_DESK_CLOSED,
	 * TIMERS_DESK_CLOCK_END. */
	std::uint64_t advance(std::uint64_t most)
	{
		std::uint64_t passed;
		check(timers_desk_advance(&raw_, most, &passed));
		return passed;
	}
	/* Throws desk_error: TIMERS_DESK_NOT_OPEN, TIMERS_DESK_CLOSED; TIMERS_DESK_NO_MEMORY, unless reserve made room. */
	std::uint64_t close()
	{
		std::uint64_t returned;
		check(timers_desk_close(&raw_, &returned));
		return returned;
	}
	/* Throws desk_error, as timers_desk_end returns it. A line of another desk is TIMERS_DESK_OTHER_LINE. */
	std::uint64_t end(std::size_t client, line &of)
	{
		std::uint64_t unread;
		check(timers_desk_end(&raw_, client, &of.raw_, &unread));
		return unread;
	}
	/* Stops all pending timers of a client whose line was freed, and returns how many. Throws desk_error, as
	 * timers_desk_stop_pending returns it. */
	std::uint64_t stop_pending(std::size_t client)
	{
		std::uint64_t stopped;
		check(timers_desk_stop_pending(&raw_, client, &stopped));
		return stopped;
	}
	/* Opens a line for another client under the number of one that is gone. Throws desk_error, as
	 * timers_desk_open returns it, but never TIMERS_DESK_OPEN. */
	[[nodiscard]] line open(std::size_t client, std::size_t room)
	{
		line opened;
		check(timers_desk_open(&raw_, client, &opened.raw_, room));
		return opened;
	}
	/* Makes room for all timers: no serve and no close runs out of memory from then on. Throws desk_error:
	 * TIMERS_DESK_NOT_OPEN, TIMERS_DESK_NO_MEMORY. */
	void reserve() { check(timers_desk_reserve(&raw_)); }

	std::uint64_t now() const noexcept { return timers_desk_now(&raw_); }
	std::size_t size() const noexcept { return timers_desk_len(&raw_); }
	std::size_t pending(std::size_t client) const noexcept { return timers_desk_pending(&raw_, client); }
	std::size_t outbox(std::size_t client) const noexcept { return timers_desk_outbox(&raw_, client); }
	std::optional<std::uint64_t> wakeup() const noexcept { return tick(timers_desk_wakeup(&raw_)); }
	std::optional<std::uint64_t> next() const noexcept { return tick(timers_desk_next(&raw_)); }
	bool line_freed(std::size_t client) noexcept { return timers_desk_line_freed(&raw_, client); }

private:
	/* A different number for each desk of the program. */
	static std::uint64_t count() noexcept
	{
		static std::atomic<std::uint64_t> desks{0};
		return desks.fetch_add(1, std::memory_order_relaxed);
	}
	static void check(enum timers_desk_status status)
	{
		if (status != TIMERS_DESK_OK)
			refuse(status);
	}
	static std::optional<std::uint64_t> tick(std::uint64_t tick) noexcept
	{
		return tick == TIMERS_NEVER ? std::nullopt : std::optional(tick);
	}
	timers_desk raw_;
};

}

#endif
#endif
