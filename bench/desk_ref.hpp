// An owner in C++ with the desk's protocol: lines of two rings each (RingRef), the hand-tuned hierarchy of wheels, and
// an outbox for each client.
//
// A request is taken only if the outbox has room for its answer and for a word of each of the client's pending timers.
// What is done for a request is what the desk does: its number, its interval, the deadline and the capacity are tested,
// and its serial and the client's pending timers are counted. There are starts alone.
#pragma once
#include "ring_ref.hpp"
#include "wheels.hpp"
#include <memory>
#include <vector>

namespace {
constexpr uint64_t CAPACITY = 1 << 20, LAST = (1ull << 60) - 1;
enum Kind : uint64_t { START, STARTED, REFUSED, EXPIRED };

// The words of a client that wait at the owner, in order.
class Outbox {
  std::vector<WordItem> words;
  size_t first = 0, count = 0;

 public:
  explicit Outbox(size_t room) : words(room) {}
  size_t free() const { return words.size() - count; }
  bool empty() const { return count == 0; }
  const WordItem &front() const { return words[first]; }
  void put(const WordItem &word) {
    size_t at = first + count++;
    words[at < words.size() ? at : at - words.size()] = word;
  }
  void pop() {
    if (++first == words.size()) first = 0;
    --count;
  }
};

struct Served {
  LineRef line;
  Outbox outbox;
  uint64_t next = 1, pending = 0;
  Served(size_t line, size_t room) : line(line), outbox(room) {}
};

struct Owner {
  Hier wheel{0};
  std::vector<std::unique_ptr<Served>> served;
  uint64_t serial = 0;

  Owner(size_t clients, size_t line, size_t room) {
    for (size_t c = 0; c < clients; ++c) served.push_back(std::make_unique<Served>(line, room));
  }

  WordItem answer(size_t c, const RequestItem &request) {
    Served &from = *served[c];
    if (request.number != from.next) return {REFUSED, request.number, 0, 0, 0, 0, 0};
    ++from.next;
    if (request.kind != START || request.interval == 0 || request.interval > LAST - wheel.now() || serial == LAST ||
        wheel.len() >= CAPACITY)
      return {REFUSED, request.number, 0, 0, 0, 0, 0};
    uint64_t deadline = wheel.now() + request.interval;
    Handle handle = wheel.start({++serial, c, request.number, deadline, request.action});
    ++from.pending;
    return {STARTED, request.number, handle.place, handle.serial, deadline, 0, 0};
  }

  bool serve(size_t c) {
    Served &from = *served[c];
    RequestItem request;
    if (from.outbox.free() < from.pending + 2 || !from.line.requests.pop(request)) return false;
    from.outbox.put(answer(c, request));
    return true;
  }

  bool serve_all(uint64_t most) {
    bool busy = false;
    for (size_t c = 0; c < served.size(); ++c)
      for (uint64_t i = 0; i < most && serve(c); ++i) busy = true;
    return busy;
  }

  void tick() {
    Timer timer;
    wheel.tick();
    while (wheel.expire(timer)) {
      Served &to = *served[timer.client];
      --to.pending;
      to.outbox.put({EXPIRED, timer.number, 0, timer.serial, timer.deadline, timer.action, 0});
    }
  }

  bool flush_all() {
    bool busy = false;
    for (auto &to : served)
      while (!to->outbox.empty() && to->line.words.push(to->outbox.front())) {
        to->outbox.pop();
        busy = true;
      }
    return busy;
  }
};
}  // namespace
