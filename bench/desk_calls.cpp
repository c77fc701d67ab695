// A desk's calls in one thread, where no end of a line waits for the other: ns of a word, with the calls of both ends.
//
//     desk_calls FACILITY CLIENTS TURNS         starts of 1 to 97 ticks: processor time
//     desk_calls flush-FACILITY WORDS ROUNDS    64 outboxes of so many words a round, into lines with room for as many:
//                                               the time of the flushes alone, by the clock, in the median round
//
// FACILITY: desk      timers_desk.h
//           ref       the owner in C++ (desk_ref.hpp); of flushes C++ rings, and one store for a whole outbox
//           timers    the same requests to a `struct timers`, without lines and desk: it has no flushes
//
// In a turn each client sends a request, the owner serves each client once, flushes each outbox and passes a tick, and each
// client receives its words: answers and expiries. They are compared with the deadlines that were set.
#include "desk_ref.hpp"
#include <algorithm>
#include <cstdio>
#include <cstdlib>
#include <string>
#include <time.h>
#include <timers_desk.h>

#define CHECK(fact) do { if (!(fact)) { fprintf(stderr, "line %d: %s\n", __LINE__, #fact); exit(1); } } while (0)

namespace {
constexpr uint64_t LONGEST = 97, SLOTS = 64, ROOM = 1024, OUTBOXES = TIMERS_DESK_CLIENTS;

// What the clients have received.
struct { uint64_t words, sum; } got;

void receive(uint64_t number, uint64_t deadline) { ++got.words, got.sum += number * deadline; }

// The product.
struct LibDesk {
  timers_desk desk = TIMERS_DESK_INIT;
  std::vector<timers_line> lines;
  LibDesk(size_t clients, size_t line, size_t room) : lines(clients) {
    timers_desk_config config{};
    config.size = sizeof config, config.capacity = CAPACITY, config.room = room, config.line = line;
    CHECK(timers_desk_new(&desk, lines.data(), clients, &config) == TIMERS_DESK_OK);
  }
  ~LibDesk() {
    timers_desk_free(&desk);
    for (timers_line &line : lines) timers_line_free(&line);
  }
  LibDesk(const LibDesk &) = delete;
  void send(size_t c, uint64_t interval, uint64_t number) {
    uint64_t given;
    CHECK(timers_line_start(&lines[c], interval, number, &given) == TIMERS_DESK_OK && given == number);
  }
  void serve(uint64_t most) { timers_desk_serve_all(&desk, most); }
  void flush() { timers_desk_flush_all(&desk); }
  void tick() { CHECK(timers_desk_tick(&desk) == TIMERS_DESK_OK); }
  void read(size_t c) {
    timers_word word;
    while (timers_line_receive(&lines[c], &word)) receive(word.number, word.deadline);
  }
};

// The owner in C++.
struct RefDesk {
  Owner owner;
  RefDesk(size_t clients, size_t line, size_t room) : owner(clients, line, room) {}
  void send(size_t c, uint64_t interval, uint64_t number) {
    CHECK(owner.served[c]->line.requests.push({number, START, 0, 0, interval, number}));
  }
  void serve(uint64_t most) { owner.serve_all(most); }
  void flush() { owner.flush_all(); }
  void tick() { owner.tick(); }
  void read(size_t c) {
    WordItem word;
    while (owner.served[c]->line.words.pop(word)) receive(word.a, word.d);
  }
};

// C++ rings alone, and words that wait to be moved into them.
struct RefLines {
  std::vector<std::vector<WordItem>> outboxes;
  std::vector<std::unique_ptr<RingRef<WordItem>>> lines;
  RefLines(size_t clients, size_t line, size_t room) : outboxes(clients) {
    for (auto &outbox : outboxes) outbox.reserve(room), lines.push_back(std::make_unique<RingRef<WordItem>>(line));
  }
  void send(size_t c, uint64_t, uint64_t number) { outboxes[c].push_back({REFUSED, number, 0, 0, 0, 0, 0}); }
  void serve(uint64_t) {}
  void flush() {
    for (size_t c = 0; c < lines.size(); ++c)
      lines[c]->push_all(outboxes[c].data(), outboxes[c].size()), outboxes[c].clear();
  }
  void read(size_t c) {
    WordItem word;
    while (lines[c]->pop(word)) receive(word.a, word.d);
  }
};

// The product's wheel without a desk: a start is answered as it returns.
struct Wheel {
  timers held = TIMERS_INIT;
  Wheel(size_t, size_t, size_t) { CHECK(timers_new(&held, TIMERS_WIDE, 0) == TIMERS_OK); }
  ~Wheel() { timers_free(&held); }
  void send(size_t, uint64_t interval, uint64_t number) {
    timers_handle handle;
    CHECK(timers_start(&held, interval, number, &handle) == TIMERS_OK);
    receive(number, timers_now(&held) + interval);
  }
  void serve(uint64_t) {}
  void flush() {}
  void tick() {
    timers_expired one;
    timers_tick(&held);
    while (timers_expire(&held, &one)) receive(one.action, one.deadline);
  }
  void read(size_t) {}
};

uint64_t nanoseconds(clockid_t clock) {
  timespec t;
  clock_gettime(clock, &t);
  return static_cast<uint64_t>(t.tv_sec) * 1000000000 + static_cast<uint64_t>(t.tv_nsec);
}

template <class Desk> uint64_t requests(size_t clients, uint64_t turns) {
  Desk desk(clients, SLOTS, ROOM);
  uint64_t sum = 0, began = nanoseconds(CLOCK_PROCESS_CPUTIME_ID);
  for (uint64_t now = 0; now <= turns + LONGEST; ++now) {
    uint64_t number = now + 1, interval = 1 + number % LONGEST;
    for (size_t c = 0; c < clients && now < turns; ++c) {
      desk.send(c, interval, number);
      sum += 2 * number * (now + interval);
    }
    desk.serve(1);
    desk.flush();
    desk.tick();
    for (size_t c = 0; c < clients; ++c) desk.read(c);
  }
  uint64_t took = nanoseconds(CLOCK_PROCESS_CPUTIME_ID) - began;
  CHECK(got.words == 2 * clients * turns && got.sum == sum);
  return took;
}

// The words are refusals of starts with interval 0.
template <class Desk> uint64_t flushes(size_t words, uint64_t rounds) {
  Desk desk(OUTBOXES, words, words + 1);
  std::vector<uint64_t> times(rounds);
  uint64_t number = 0;
  for (uint64_t &took : times) {
    for (size_t i = 0; i < words; ++i) {
      ++number;
      for (size_t c = 0; c < OUTBOXES; ++c) desk.send(c, 0, number);
    }
    desk.serve(words);
    uint64_t began = nanoseconds(CLOCK_MONOTONIC);
    desk.flush();
    took = nanoseconds(CLOCK_MONOTONIC) - began;
    for (size_t c = 0; c < OUTBOXES; ++c) desk.read(c);
  }
  CHECK(got.words == OUTBOXES * number);
  std::nth_element(times.begin(), times.begin() + rounds / 2, times.end());
  return times[rounds / 2] * rounds;
}
}  // namespace

int main(int argc, char **argv) {
  if (argc != 4) return 2;
  std::string what = argv[1];
  size_t first = strtoul(argv[2], nullptr, 10), second = strtoul(argv[3], nullptr, 10);
  auto work = what == "desk" ? requests<LibDesk> : what == "ref" ? requests<RefDesk> : what == "timers" ? requests<Wheel>
      : what == "flush-desk" ? flushes<LibDesk> : what == "flush-ref" ? flushes<RefLines> : nullptr;
  if (!work || !first || !second) return 2;
  uint64_t took = work(first, second);
  printf("%.3f\n", static_cast<double>(took) / static_cast<double>(got.words));
  return 0;
}
