// How long single ticks and starts take, by the clock on the wall. A tick is timed with all that is due handed out.
//   tail FACILITY PENDING spread TICKS      PENDING timers, evenly over the next 2^20 ticks, in memory in the order of
//                                           starting; then TICKS single ticks
//   tail FACILITY PENDING shuffled TICKS    the same, after each was pushed back once, in random order
//   tail FACILITY PENDING keep-alive TICKS  time-outs of 60,000 ticks. At each tick some owners push theirs back: one
//                                           of 20,000, at random, so some 5 % expire. An owner whose timer has expired
//                                           starts it again then
//   tail FACILITY PENDING moves             PENDING timers in one bucket of the third wheel, and each tick until the
//                                           last has expired
//   tail FACILITY PENDING moves-shuffled    the same, after each was pushed back once, in random order
//   tail FACILITY PENDING growth            PENDING starts, one by one: those that make a table grow are the longest
//   tail FACILITY PENDING reserved          the same, after timers_reserve
//   tail FACILITY PENDING room              the same, once all of them were stopped: the memory was used before
// One line for each figure: its name and its nanoseconds. A facility that can't do a load prints nothing. The status is
// 1 if at a tick another number of timers expires than the deadlines say.
#include "facilities.hpp"
#include <algorithm>
#include <numeric>
#include <time.h>

static constexpr uint64_t SPAN = 1 << 20, TIME_OUT = 60000, ROUND = 20000, SLOT = 1 << 12;

static double now_ns() {
  timespec t;
  clock_gettime(CLOCK_MONOTONIC, &t);
  return (double)t.tv_sec * 1e9 + (double)t.tv_nsec;
}

static void see(size_t expired, size_t wanted) {
  if (expired != wanted) give_up("tail: the timers that expire");
}

template <class F> struct Load {
  size_t pending;
  F facility{pending};
  Random random{7};
  uint64_t now = 0;
  std::vector<uint64_t> deadlines = std::vector<uint64_t>(pending);  // of each owner's timer, as it was set last
  std::vector<uint32_t> due{0};                                      // how many expire at each tick
  std::vector<float> took;                                           // ns of each tick or start

  uint64_t anywhere() { return 1 + random.below(SPAN); }
  // One slot of the third wheel, which isn't its next one.
  uint64_t in_one_bucket() { return 3 * SLOT + random.below(SLOT); }

  void set(size_t i, uint64_t interval) {
    deadlines[i] = now + interval;
    if (due.size() <= deadlines[i]) due.resize(deadlines[i] + 1);
    ++due[deadlines[i]];
  }
  void start(size_t i, uint64_t interval) {
    facility.start(i, interval);
    set(i, interval);
  }
  void push_back(size_t i, uint64_t interval) {
    if (deadlines[i] <= now) return start(i, interval);
    --due[deadlines[i]];
    facility.restart(i, interval);
    set(i, interval);
  }
  std::vector<uint32_t> owners_in_random_order() {
    std::vector<uint32_t> owners(pending);
    std::iota(owners.begin(), owners.end(), 0);
    for (size_t i = pending; i > 1; --i) std::swap(owners[i - 1], owners[random.below(i)]);
    return owners;
  }
  template <class Interval> void start_all(Interval interval, bool is_shuffled) {
    for (size_t i = 0; i < pending; ++i) start(i, interval());
    if (!is_shuffled) return;
    for (uint32_t owner : owners_in_random_order()) push_back(owner, interval());
  }

  // After each tick comes `more`, which isn't timed.
  template <class More> void ticks(size_t count, More more) {
    took.reserve(took.size() + count);
    while (count--) {
      double first = now_ns();
      facility.tick();
      size_t expired = facility.drain();
      took.push_back((float)(now_ns() - first));
      ++now;
      see(expired, now < due.size() ? due[now] : 0);
      more();
    }
  }
  void ticks(size_t count) {
    ticks(count, [] {});
  }
  // Until all have expired, in steps.
  void pass_the_rest() {
    while (now + 1 < due.size()) {
      const uint64_t end = std::min<uint64_t>(now + 1024, due.size() - 1);
      see(facility.pass(end - now), std::accumulate(due.begin() + now + 1, due.begin() + end + 1, size_t{0}));
      now = end;
    }
  }

  void keep_alive(size_t count) {
    const size_t at_a_tick = std::max<size_t>(pending / ROUND, 1);
    const std::vector<uint32_t> owners = owners_in_random_order();
    size_t next = 0;
    ticks((pending + at_a_tick - 1) / at_a_tick, [&] {
      for (size_t i = 0; i < at_a_tick && next < pending; ++i) start(owners[next++], TIME_OUT);
    });
    took.clear();
    ticks(count, [&] {
      for (size_t i = 0; i < at_a_tick; ++i) push_back(random.below(pending), TIME_OUT);
    });
    pass_the_rest();
  }
  void starts() {
    took.reserve(pending);
    for (size_t i = 0; i < pending; ++i) {
      const uint64_t interval = anywhere();
      double first = now_ns();
      facility.start(i, interval);
      took.push_back((float)(now_ns() - first));
      set(i, interval);
    }
    pass_the_rest();
  }
  void reserved() {
    if constexpr (F::HAS_ROOM) {
      facility.reserve(pending);
      starts();
    }
  }
  void room() {
    for (size_t i = 0; i < pending; ++i) facility.start(i, anywhere());
    for (size_t i = 0; i < pending; ++i) facility.stop(i);
    starts();
  }

  // False if there is no such load, or it lacks its number of ticks.
  bool run(const std::string &load, size_t count) {
    if (load == "spread" || load == "shuffled") {
      start_all([&] { return anywhere(); }, load == "shuffled");
      ticks(count);
      return count > 0;
    }
    if (load == "keep-alive") {
      keep_alive(count);
      return count > 0;
    }
    if (load == "moves" || load == "moves-shuffled") {
      start_all([&] { return in_one_bucket(); }, load == "moves-shuffled");
      ticks(4 * SLOT - 1);
    } else if (load == "growth") {
      if (!std::is_same_v<F, ArrayHeap>) starts();
    } else if (load == "reserved") {
      reserved();
    } else if (load == "room") {
      room();
    } else {
      return false;
    }
    return true;
  }

  void print() {
    std::sort(took.begin(), took.end());
    auto at = [&](double part) { return took[std::min(took.size() - 1, (size_t)(part * (double)took.size()))]; };
    if (took.empty()) return;
    printf("p50 %.0f\np99.9 %.0f\np99.99 %.0f\nlongest %.0f\n", at(.5), at(.999), at(.9999), took.back());
  }
};

struct Tail {
  size_t pending, count;
  std::string load;
  bool *is_known;
  template <class F> void of() {
    Load<F> run{pending};
    *is_known = run.run(load, count);
    run.print();
  }
};

int main(int argc, char **argv) {
  if (argc != 4 && argc != 5) {
    fprintf(stderr, "tail FACILITY PENDING spread|shuffled|keep-alive TICKS\n"
                    "tail FACILITY PENDING moves|moves-shuffled|growth|reserved|room\n");
    return 2;
  }
  bool is_known = false;
  const Tail tail{strtoull(argv[2], nullptr, 10), argc == 5 ? strtoull(argv[4], nullptr, 10) : 0, argv[3], &is_known};
  if (!tail.pending) return 2;
  return with_facility(argv[1], tail) && is_known ? 0 : 2;
}
