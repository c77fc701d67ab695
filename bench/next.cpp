// What a turn of an event loop takes that asks for its next deadline, by processor time.
//   next FACILITY PENDING TURN
// FACILITY is what is asked: timers_wakeup of the library for C, or libuv's heap.
// A tick is a millisecond. TURN is what happens between two questions, with PENDING timers:
//   same      a random one of timers with one deadline is pushed back to the same
//   minute    a random one of timers 60 to 61 s away is pushed back to 61 s
//   minutes   a random one of timers 10 to 20 minutes away is pushed back to 20 minutes
//   kept      a tick passes, 10 random ones are pushed back to 60 s, and what has expired starts again
//   first     the first one of timers 10 to 20 minutes away is pushed back by ten minutes
//   oldest    the same, of timers that were started in the order of their deadlines, as with one time-out
//   expiry    time passes until a timer of those over ten minutes expires, and it is taken
//   short     a timer of 100 ms is started and expires, before timers 60 to 61 s away
// Prints the nanoseconds of a turn. The status is 1 if a timer expires, or an answer is, other than an ordered set says. Of
// timers_wakeup an answer may come before the next deadline.
#include "facilities.hpp"
#include <algorithm>
#include <math.h>
#include <set>
#include <string.h>
#include <time.h>

static double now_ns() {
  timespec t;
  clock_gettime(CLOCK_PROCESS_CPUTIME_ID, &t);
  return (double)t.tv_sec * 1e9 + (double)t.tv_nsec;
}

// Deadlines are ticks. A facility begins at tick 0 with room for its owners.
#ifdef WITH_TIMERS_C
struct Asked : LibTimers {
  explicit Asked(size_t owners) : LibTimers(owners) {}
  void set(size_t i, uint64_t deadline) {
    if (timers_set_at(&held, &handles[i], deadline, i)) give_up("timers_set_at");
  }
  uint64_t ask() { return wakeup(); }
  // Passes the ticks up to this one, and adds the owners whose timers have expired.
  void pass_to(uint64_t tick, std::vector<uint32_t> &expired) {
    timers_expired one;
    while (timers_take(&held, tick, &one)) expired.push_back((uint32_t)one.action);
  }
};
#endif

#ifdef WITH_LIBUV
struct Heap : Libuv {
  static inline std::vector<uint32_t> *into;
  explicit Heap(size_t owners) : Libuv(owners) {}
  static void took(uv_timer_t *timer) { into->push_back((uint32_t)(uintptr_t)timer->data); }
  void set(size_t i, uint64_t deadline) {
    timers[i].data = (void *)(uintptr_t)i;
    uv_timer_start(&timers[i], took, deadline - loop.time, 0);
  }
  uint64_t ask() { return next(); }
  void pass_to(uint64_t tick, std::vector<uint32_t> &expired) {
    into = &expired;
    loop.time = tick;
    uv__run_timers(&loop);
  }
};
#endif

// What each facility is compared with.
struct Model {
  struct Timer {
    uint64_t deadline, serial;
    uint32_t owner;
    bool operator<(const Timer &other) const {
      return deadline < other.deadline || (deadline == other.deadline && serial < other.serial);
    }
  };
  std::vector<Timer> timers;
  std::set<Timer> held;
  uint64_t serial = 0;
  explicit Model(size_t owners) : timers(owners) {}
  void set(size_t i, uint64_t deadline) {
    held.erase(timers[i]);
    timers[i] = {deadline, ++serial, (uint32_t)i};
    held.insert(timers[i]);
  }
  uint64_t ask() { return held.empty() ? UINT64_MAX : held.begin()->deadline; }
  void pass_to(uint64_t tick, std::vector<uint32_t> &expired) {
    for (; ask() <= tick; held.erase(held.begin())) expired.push_back(held.begin()->owner);
  }
};

static constexpr uint64_t MINUTE = 60000;
static constexpr unsigned MOST_TURNS = 200000;
static constexpr double MOST_NS = 4e8;

template <class F> struct Loop {
  F &facility;
  size_t pending;
  size_t most = MOST_TURNS;
  double most_ns = MOST_NS;
  size_t count = 0;                   // turns so far
  uint64_t now = 0, sum = 0, came = 0;  // the answers, and what has expired, in its order
  Random random{5};
  std::vector<uint64_t> deadlines;
  std::vector<uint32_t> expired, order;

  void fill(uint64_t from, uint64_t span) {
    for (size_t i = 0; i < pending; ++i) {
      deadlines.push_back(from + random.below(span));
      facility.set(i, deadlines.back());
      order.push_back((uint32_t)i);
    }
    std::stable_sort(order.begin(), order.end(), [&](uint32_t a, uint32_t b) { return deadlines[a] < deadlines[b]; });
  }
  // As fill, but in the order of deadlines.
  void fill_in_order(uint64_t from, uint64_t span) {
    for (size_t i = 0; i < pending; ++i) {
      deadlines.push_back(from + i * span / pending);
      facility.set(i, deadlines.back());
      order.push_back((uint32_t)i);
    }
  }
  void ask() {
    const uint64_t tick = facility.ask();
    if (tick <= now) give_up("next: an answer that has passed");
    sum += tick;
  }
  void pass_to(uint64_t tick) {
    expired.clear();
    facility.pass_to(tick, expired);
    now = tick;
    for (uint32_t owner : expired) came = came * 31 + owner + tick;
  }
  // Sleeps until the answer, again and again, until a timer has expired.
  bool expires() {
    do {
      const uint64_t tick = facility.ask();
      if (tick > 100 * MINUTE) return false;
      pass_to(tick);
    } while (expired.empty());
    return true;
  }
  void keeps() {
    pass_to(now + 1);
    for (uint32_t owner : expired) facility.set(owner, now + MINUTE);
    for (int i = 0; i < 10; ++i) facility.set(random.below(pending), now + MINUTE);
    ask();
  }
  bool shorter() {
    facility.set(pending, now + 100);
    ask();
    pass_to(now + 100);
    ask();
    return now < MINUTE - 200;
  }
  void pushes_first(size_t turn) {
    const uint32_t owner = order[turn % pending];
    facility.set(owner, deadlines[owner] += 10 * MINUTE);
    ask();
  }
  // The nanoseconds of a turn. `turn` returns whether there is another.
  template <class Turn> double timed(Turn turn) {
    const double first = now_ns();
    bool more = true;
    while (more && count < most && ((count & 15) || now_ns() - first < most_ns)) more = turn(count++);
    return (now_ns() - first) / (double)count;
  }
  // A random timer is pushed back to the last deadline of all.
  double pushes_any(uint64_t from, uint64_t span) {
    fill(from, span);
    return timed([&](size_t) {
      facility.set(random.below(pending), from + span - 1);
      ask();
      return true;
    });
  }
  double run(const std::string &turn) {
    if (turn == "same") return pushes_any(MINUTE, 1);
    if (turn == "minute") return pushes_any(MINUTE, 1000);
    if (turn == "minutes") return pushes_any(10 * MINUTE, 10 * MINUTE);
    if (turn == "oldest") {
      fill_in_order(10 * MINUTE, 10 * MINUTE);
      return timed([&](size_t count) { return pushes_first(count), true; });
    }
    fill(turn == "short" ? MINUTE : turn == "first" ? 10 * MINUTE : 1,
         turn == "short" ? 1000 : turn == "kept" ? MINUTE : 10 * MINUTE);
    if (turn == "kept") return timed([&](size_t) { return keeps(), true; });
    if (turn == "first") return timed([&](size_t count) { return pushes_first(count), true; });
    if (turn == "expiry") return timed([&](size_t) { return expires(); });
    if (turn == "short") return timed([&](size_t) { return shorter(); });
    return -1;
  }
};

template <class F> static int report(F &facility, const char *turn, size_t pending, bool is_exact) {
  Loop<F> loop{facility, pending};
  const double ns = loop.run(turn);
  if (ns < 0) return 2;
  Model model(pending + 1);
  Loop<Model> wanted{model, pending, loop.count, INFINITY};
  wanted.run(turn);
  if (loop.came != wanted.came || loop.count != wanted.count) give_up("next: what expires");
  if (is_exact ? loop.sum != wanted.sum : loop.sum > wanted.sum) give_up("next: the answers");
  printf("turn %.1f\n", ns);
  return 0;
}

int main(int argc, char **argv) {
  if (argc != 4) {
    fprintf(stderr, "next FACILITY PENDING TURN\n");
    return 2;
  }
  const std::string name = argv[1];
  const size_t pending = strtoull(argv[2], nullptr, 10);
  if (!pending) return 2;
#ifdef WITH_TIMERS_C
  if (name == "timers_wakeup") {
    Asked asked(pending + 1);
    return report(asked, argv[3], pending, false);
  }
#endif
#ifdef WITH_LIBUV
  if (name == "libuv") {
    Heap heap(pending + 1);
    return report(heap, argv[3], pending, true);
  }
#endif
  return 2;
}
