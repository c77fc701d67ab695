/* replay < TRACE: makes the calls of a trace of tests/driver by timers.hpp or timers_desk.hpp. Each has the answers that stand
 * there, which the driver has compared with a model. */
#include <algorithm>
#include <iostream>
#include <map>
#include <sstream>
#include <string>
#include <vector>

#include <timers.hpp>
#include <timers_desk.hpp>

using Timers = timing::timers<std::chrono::milliseconds, std::uint64_t>;
using numbers = std::vector<std::uint64_t>;

static Timers timers;
static std::map<std::uint64_t, timing::handle> handles;     /* by serial */

static Timers::ticks in_ticks(std::uint64_t count) { return Timers::ticks(static_cast<std::int64_t>(count)); }
static Timers::time_point at(std::uint64_t tick) { return Timers::time_point(in_ticks(tick)); }
static std::uint64_t number_of(Timers::ticks ticks) { return static_cast<std::uint64_t>(ticks.count()); }
static std::uint64_t number_of(Timers::time_point tick) { return number_of(tick.time_since_epoch()); }
static numbers known(std::optional<Timers::time_point> tick) { return { tick ? number_of(*tick) : TIMERS_NEVER }; }

static void append(numbers &to, const Timers::expired &timer)
{
	const numbers shown{ number_of(timer.deadline), timer.serial, timer.action };
	to.insert(to.end(), shown.begin(), shown.end());
}

/* The answers of a call that may find a timer. */
static numbers found(const std::optional<Timers::expired> &timer, std::uint64_t some, std::uint64_t none)
{
	numbers all{ timer ? some : none };
	if (timer)
		append(all, *timer);
	return all;
}

static numbers listed(numbers all)
{
	all.insert(all.begin(), all.size());
	return all;
}

static numbers started(timing::handle made)
{
	handles[made.serial()] = made;
	return { TIMERS_OK, made.serial() };
}

static numbers make(const numbers &n)
{
	timers = Timers(static_cast<enum timers_table>(n[0]), at(n[1]));
	handles = { { 0, timing::handle() } };
	return { TIMERS_OK };
}

static numbers restart(const numbers &n, bool at_tick)
{
	timing::handle h = handles.at(n[0]);
	const bool there = at_tick ? timers.restart_at(h, at(n[1]), n[2]) : timers.restart(h, in_ticks(n[1]), n[2]);
	return there ? started(h) : numbers{ TIMERS_NOT_PENDING };
}

static numbers set_at(const numbers &n)
{
	timing::handle h = handles.at(n[0]);
	timers.set_at(h, at(n[1]), n[2]);
	return started(h);
}

static numbers stop(const numbers &n)
{
	const auto action = timers.stop(handles.at(n[0]));
	return action ? numbers{ TIMERS_OK, *action } : numbers{ TIMERS_NOT_PENDING };
}

static numbers visit(const numbers &)
{
	std::vector<numbers> all;
	numbers shown;
	timers.each([&all](timing::handle h, const Timers::expired &timer) {
		all.push_back({ number_of(timer.deadline), h.serial() == timer.serial ? timer.serial : 0, timer.action });
	});
	std::sort(all.begin(), all.end());
	for (const numbers &timer : all)
		shown.insert(shown.end(), timer.begin(), timer.end());
	return listed(shown);
}

static numbers expire_batch(const numbers &n)
{
	numbers all;
	for (std::uint64_t i = 0; i < n[0]; i++)
		if (const auto timer = timers.expire())
			append(all, *timer);
	return listed(all);
}

static numbers catch_up(const numbers &n)
{
	numbers all;
	timers.catch_up(at(n[0]), [&all](const Timers::expired &timer) { append(all, timer); });
	return listed(all);
}

static numbers counts(const numbers &)
{
	const timers_counters counted = timers.counts();
	return { TIMERS_OK, counted.starts, counted.moves };
}

/* A desk, its clients' ends, and the handles that clients were told, by serial. */
static std::optional<timing::desk> desk;
static std::vector<timing::line> lines;
static std::map<std::uint64_t, timers_handle> told;

static numbers make_desk(const numbers &n)
{
	timers_desk_config config = timing::desk::config(n[3], n[4] - n[5] - 1, n[5]);
	config.first_tick = n[2];
	config.table = static_cast<std::uint32_t>(n[1]);
	desk.emplace(lines, n[0], config);
	told = { { 0, { 0, 0 } } };
	return { TIMERS_DESK_OK };
}

static numbers open_line(const numbers &n)
{
	lines[n[0]] = desk->open(n[0], n[1]);
	return { TIMERS_DESK_OK };
}

static numbers free_line(const numbers &n)
{
	if (n[0] < lines.size())
		lines[n[0]] = timing::line();
	return {};
}

static numbers sent(std::optional<std::uint64_t> number)
{
	return number ? numbers{ TIMERS_DESK_OK, *number } : numbers{ TIMERS_DESK_LINE_FULL };
}

static numbers receive(const numbers &n)
{
	const auto w = lines[n[0]].receive();
	if (!w)
		return { false };
	told[w->handle.serial] = w->handle;
	return { true, w->kind, w->reason, w->number, w->handle.place, w->handle.serial, w->deadline, w->action, w->other };
}

static numbers known_tick(std::optional<std::uint64_t> tick) { return { tick ? *tick : TIMERS_NEVER }; }

static const struct {
	const char *name;
	numbers (*make)(const numbers &);
} calls[] = {
	{ "desk_new", make_desk }, { "desk_open", open_line }, { "line_free", free_line }, { "line_receive", receive },
	{ "desk_free", [](auto &) { return desk.reset(), numbers{}; } },
	{ "word", [](auto &) { return numbers{}; } }, { "word_reason", [](auto &) { return numbers{}; } },
	{ "desk_serve", [](auto &n) { return numbers{ desk->serve(n[0]) }; } },
	{ "desk_serve_all", [](auto &n) { return numbers{ desk->serve_all(n[0]) }; } },
	{ "desk_flush", [](auto &n) { return numbers{ desk->flush(n[0]) }; } },
	{ "desk_flush_all", [](auto &) { return numbers{ desk->flush_all() }; } },
	{ "desk_tick", [](auto &) { return numbers{ desk->advance(1) - 1 }; } },
	{ "desk_advance", [](auto &n) { return numbers{ TIMERS_DESK_OK, desk->advance(n[0]) }; } },
	{ "desk_close", [](auto &) { return numbers{ TIMERS_DESK_OK, desk->close() }; } },
	{ "desk_end", [](auto &n) { return numbers{ TIMERS_DESK_OK, desk->end(n[0], lines[n[0]]) }; } },
	{ "desk_stop_pending", [](auto &n) { return numbers{ TIMERS_DESK_OK, desk->stop_pending(n[0]) }; } },
	{ "desk_reserve", [](auto &) { return desk->reserve(), numbers{ TIMERS_DESK_OK }; } },
	{ "desk_now", [](auto &) { return numbers{ desk->now() }; } }, { "desk_len", [](auto &) { return numbers{ desk->size() }; } },
	{ "desk_pending", [](auto &n) { return numbers{ desk->pending(n[0]) }; } },
	{ "desk_outbox", [](auto &n) { return numbers{ desk->outbox(n[0]) }; } },
	{ "desk_wakeup", [](auto &) { return known_tick(desk->wakeup()); } },
	{ "desk_next", [](auto &) { return known_tick(desk->next()); } },
	{ "desk_line_freed", [](auto &n) { return numbers{ desk->line_freed(n[0]) }; } },
	{ "line_start", [](auto &n) { return sent(lines[n[0]].start(n[1], n[2])); } },
	{ "line_start_at", [](auto &n) { return sent(lines[n[0]].start_at(n[1], n[2])); } },
	{ "line_stop", [](auto &n) { return sent(lines[n[0]].stop(told.at(n[2]))); } },
	{ "line_restart", [](auto &n) { return sent(lines[n[0]].restart(told.at(n[2]), n[3], n[4])); } },
	{ "line_restart_at", [](auto &n) { return sent(lines[n[0]].restart_at(told.at(n[2]), n[3], n[4])); } },
	{ "line_finish", [](auto &n) { return lines[n[0]].finish(), numbers{ TIMERS_DESK_OK }; } },
	{ "line_ended", [](auto &n) { return numbers{ lines[n[0]].ended() }; } },
	{ "line_abandoned", [](auto &n) { return numbers{ lines[n[0]].abandoned() }; } },
	{ "new", make }, { "free", [](auto &) { return numbers{}; } }, { "counts", counts }, { "visit", visit },
	{ "clear", [](auto &) { return timers.clear(), numbers{ timers.size() }; } },
	{ "reserve", [](auto &n) { return timers.reserve(n[0]), numbers{ TIMERS_OK }; } },
	{ "start", [](auto &n) { return started(timers.start(in_ticks(n[0]), n[1])); } },
	{ "start_at", [](auto &n) { return started(timers.start_at(at(n[0]), n[1])); } },
	{ "restart", [](auto &n) { return restart(n, false); } }, { "restart_at", [](auto &n) { return restart(n, true); } },
	{ "set_at", set_at }, { "set_at_held", set_at }, { "stop", stop },
	{ "look", [](auto &n) { return found(timers.look(handles.at(n[0])), TIMERS_OK, TIMERS_NOT_PENDING); } },
	{ "tick", [](auto &) { return timers.tick(), numbers{ TIMERS_OK }; } },
	{ "advance", [](auto &n) { return numbers{ TIMERS_OK, number_of(timers.advance(in_ticks(n[0]))) }; } },
	{ "advance_to", [](auto &n) { return timers.advance_to(at(n[0])), numbers{ TIMERS_OK }; } },
	{ "catch_up", catch_up }, { "expire_batch", expire_batch },
	{ "take", [](auto &n) { return found(timers.take(at(n[0])), true, false); } },
	{ "expire", [](auto &) { return found(timers.expire(), true, false); } },
	{ "has_due", [](auto &) { return numbers{ timers.has_due() }; } },
	{ "now", [](auto &) { return numbers{ number_of(timers.now()) }; } },
	{ "len", [](auto &) { return numbers{ timers.size() }; } },
	{ "wakeup", [](auto &) { return known(timers.wakeup()); } },
};

static numbers answers(const std::string &name, const numbers &given)
{
	for (const auto &call : calls)
		if (name == call.name)
			return call.make(given);
	throw std::out_of_range(name);
}

static numbers read_numbers(const std::string &words)
{
	std::istringstream stream(words);
	numbers all;
	for (std::uint64_t number; stream >> number;)
		all.push_back(number);
	return all;
}

/* Whether a call has the answers of its line, as many as it has in C++. */
static bool agrees(const std::string &line)
{
	const auto equals = line.find(" ="), name = line.find_first_of(" ") < equals ? line.find(' ') : equals;
	numbers wanted = read_numbers(line.substr(equals + 2)), got;
	if (line.compare(7, 10, "desk_open ") == 0 && wanted[0] == TIMERS_DESK_OPEN)
		return true;             /* in C++ a line is made by the call */
	try {
		got = answers(line.substr(7, name - 7), read_numbers(line.substr(name, equals - name)));
	} catch (const timing::error &error) {
		got = { error.status() };
	} catch (const timing::desk_error &error) {
		got = { error.status() };
	}
	wanted.resize(std::min(wanted.size(), got.size()));
	return got == wanted;
}

int main()
{
	unsigned made = 0;
	for (std::string line; std::getline(std::cin, line); made++) {
		if (!agrees(line)) {
			std::cerr << "call " << made + 1 << ": not so: " << line << "\n";
			return 1;
		}
	}
	return made < 1000 ? 2 : 0;
}
