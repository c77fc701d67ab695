// The program `timers threads` again, in C++: the same threads, rings of 64 items and the hand-tuned hierarchical wheel.
//   threads_ref CLIENTS TIMERS
// A client sends TIMERS starts of interval 1 + j mod 97 and action j, reads its words and checks them. The owner's turn serves each client
// that has requests left and room in its outbox, flushes each outbox and passes a tick. A side whose turn passed nothing on yields.
#include "ring_ref.hpp"
#include "wheels.hpp"
#include <cstdio>
#include <cstdlib>
#include <deque>
#include <memory>
#include <sched.h>
#include <string>
#include <thread>

static const uint64_t ROOM = 1024, CAPACITY = 65536, LIMIT = 10000000;
enum Kind : uint64_t { STARTED, REFUSED, EXPIRED };

// An outbox: a ring of one thread.
struct Outbox {
  std::vector<WordItem> words;
  size_t first = 0, count = 0;
  Outbox() : words(ROOM) {}
  void put(const WordItem &w) { words[(first + count++) % ROOM] = w; }
  WordItem &front() { return words[first]; }
  void pop() { first = (first + 1) % ROOM, --count; }
};

struct Client {
  LineRef line{64};
  uint64_t sent = 0, started = 0, expired = 0;
  bool failed = false;

  bool receive(uint64_t timers, uint64_t &deadline, uint64_t &serial) {
    WordItem w;
    if (!line.words.pop(w)) return false;
    if (w.kind == STARTED && started < timers && w.a == started + 1) ++started;
    else if (w.kind == EXPIRED && expired < timers && (w.d > deadline || (w.d == deadline && w.a > serial)))
      ++expired, deadline = w.d, serial = w.a;
    else failed = true;
    return true;
  }
  void work(uint64_t timers) {
    uint64_t idle = 0, deadline = 0, serial = 0;
    while (!failed && idle < LIMIT && (sent < timers || started < timers || expired < timers)) {
      bool passed = false;
      if (sent < timers && line.requests.push({sent + 1, 0, 0, 0, 1 + (sent + 1) % 97, sent + 1})) ++sent, passed = true;
      if (receive(timers, deadline, serial)) passed = true;
      if (passed) idle = 0;
      else ++idle, sched_yield();
    }
    failed = failed || sent < timers || started < timers || expired < timers;
  }
};

struct Owner {
  std::vector<std::unique_ptr<Client>> &clients;
  Hier wheel{0};
  std::vector<Outbox> outboxes;
  std::vector<uint64_t> served, flushed, pending, next;
  uint64_t serial = 0;
  explicit Owner(std::vector<std::unique_ptr<Client>> &c)
      : clients(c), outboxes(c.size()), served(c.size()), flushed(c.size()), pending(c.size()), next(c.size(), 1) {}

  bool serve(size_t c) {
    if (outboxes[c].count + pending[c] + 2 > ROOM) return false;
    RequestItem r;
    if (!clients[c]->line.requests.pop(r)) return false;
    ++served[c];
    if (r.number != next[c] || r.interval == 0 || wheel.len() == CAPACITY) { outboxes[c].put({REFUSED, r.number, 0, 0, 0, 0, 0}); return true; }
    ++next[c], ++pending[c];
    uint64_t deadline = wheel.now() + r.interval;
    Handle h = wheel.start(Timer{++serial, c, r.number, deadline, r.action});
    outboxes[c].put({STARTED, r.number, h.place, h.serial, deadline, 0, 0});
    return true;
  }
  uint64_t flush(size_t c) {
    uint64_t count = 0;
    while (outboxes[c].count && clients[c]->line.words.push(outboxes[c].front())) outboxes[c].pop(), ++count;
    flushed[c] += count;
    return count;
  }
  void tick() {
    Timer t;
    wheel.tick();
    while (wheel.expire(t)) --pending[t.client], outboxes[t.client].put({EXPIRED, t.serial, t.client, t.number, t.deadline, t.action, 0});
  }
  bool drive(uint64_t timers) {
    for (uint64_t idle = 0; idle < LIMIT;) {
      bool done = true, passed = false;
      for (size_t c = 0; c < clients.size(); ++c) done = done && served[c] >= timers && flushed[c] >= 2 * timers;
      if (done) return true;
      for (size_t c = 0; c < clients.size(); ++c) if (served[c] < timers) passed |= serve(c);
      for (size_t c = 0; c < clients.size(); ++c) passed |= flush(c) > 0;
      tick();
      if (passed) idle = 0;
      else ++idle, sched_yield();
    }
    return false;
  }
};

int main(int argc, char **argv) {
  if (argc != 3) return 2;
  size_t count = strtoull(argv[1], nullptr, 10);
  uint64_t timers = strtoull(argv[2], nullptr, 10);
  std::vector<std::unique_ptr<Client>> clients;
  for (size_t c = 0; c < count; ++c) clients.push_back(std::make_unique<Client>());
  std::vector<std::thread> threads;
  for (auto &c : clients) threads.emplace_back([&c, timers] { c->work(timers); });
  Owner owner(clients);
  bool done = owner.drive(timers);
  for (auto &t : threads) t.join();
  std::string out;
  for (size_t c = 0; c < count; ++c) {
    Client &client = *clients[c];
    if (client.failed) { fprintf(stderr, "client %zu failed\n", c); return 1; }
    out += "client " + std::to_string(c) + " sent " + std::to_string(client.sent) + " started " + std::to_string(client.started);
    out += " expired " + std::to_string(client.expired) + "\n";
  }
  if (!done) { fputs("desk failed\n", stderr); return 1; }
  out += "end\n";
  fwrite(out.data(), 1, out.size(), stdout);
  return 0;
}
