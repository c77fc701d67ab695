// Hand-tuned wheels: the practical limit on this machine. A hierarchy, and a hashed wheel.
#pragma once
#include <cstddef>
#include <cstdint>
#include <vector>

struct Timer { uint64_t serial, client, number, deadline, action; };
struct Handle { uint64_t place, serial; };

namespace {
constexpr uint32_t NONE = ~0u;

// Lists of timers in one growing array of nodes of 64 bytes, with 32-bit links. Free nodes are linked too.
struct Nodes {
  struct alignas(64) Node { Timer timer; uint32_t before, after, list, unused; uint64_t rounds; };
  std::vector<Node> nodes;
  std::vector<uint32_t> head, tail;
  uint32_t vacant = NONE;
  uint64_t count = 0;
  explicit Nodes(size_t lists) : head(lists, NONE), tail(lists, NONE) {}

  Timer &timer(uint32_t at) { return nodes[at].timer; }
  uint32_t first(uint32_t list) const { return head[list]; }
  uint32_t next(uint32_t at) const { return nodes[at].after; }
  bool is_end(uint32_t, uint32_t at) const { return at == NONE; }
  uint32_t at(Handle h) const { return (uint32_t)h.place; }
  uint64_t place_of(uint32_t at) const { return at; }
  bool holds(Handle h) const { return h.place < nodes.size() && nodes[h.place].timer.serial == h.serial && h.serial; }

  uint32_t make(const Timer &timer) {
    uint32_t at = vacant;
    if (at != NONE) vacant = nodes[at].after;
    else { at = (uint32_t)nodes.size(); nodes.emplace_back(); }
    nodes[at].timer = timer;
    ++count;
    return at;
  }
  void push_back(uint32_t list, uint32_t at) {
    Node &n = nodes[at];
    n.list = list; n.after = NONE; n.before = tail[list];
    if (n.before == NONE) head[list] = at; else nodes[n.before].after = at;
    tail[list] = at;
  }
  // The list, if it is empty now, or NONE.
  uint32_t remove(uint32_t at) {
    Node &n = nodes[at];
    if (n.before == NONE) head[n.list] = n.after; else nodes[n.before].after = n.after;
    if (n.after == NONE) tail[n.list] = n.before; else nodes[n.after].before = n.before;
    return head[n.list] == NONE ? n.list : NONE;
  }
  void clear(uint32_t list) { head[list] = tail[list] = NONE; }
  // All of one list, which isn't empty, to the back of another.
  void hand_over(uint32_t from, uint32_t to) {
    if (tail[to] == NONE) head[to] = head[from];
    else { nodes[tail[to]].after = head[from]; nodes[head[from]].before = tail[to]; }
    tail[to] = tail[from];
    clear(from);
  }
  void pop_front(uint32_t list, uint32_t at) {
    uint32_t next = nodes[at].after;
    head[list] = next;
    if (next == NONE) tail[list] = NONE; else nodes[next].before = NONE;
  }
  void release(uint32_t at) { Node &n = nodes[at]; n.timer.serial = 0; n.after = vacant; vacant = at; --count; }
};

// Ten wheels of 64 slots, with an occupancy word for each. Buckets of wheel 0 are handed over whole.
struct Hier {
  static constexpr uint32_t DUE = 640;
  Nodes lists{DUE + 1};
  uint64_t clock = 0, occupied[10] = {};
  explicit Hier(size_t) {}
  uint64_t now() const { return clock; }
  uint64_t len() const { return lists.count; }

  void place(uint32_t at) {
    uint64_t deadline = lists.timer(at).deadline;
    unsigned level = (63 - __builtin_clzll(clock ^ deadline)) / 6, slot = (deadline >> (6 * level)) & 63;
    lists.push_back(64 * level + slot, at);
    // The word is written only if the bit is new: a write that changes nothing still delays the next read.
    uint64_t &word = occupied[level], bit = 1ull << slot;
    if (!(word & bit)) word |= bit;
  }
  void remove(uint32_t at) {
    uint32_t emptied = lists.remove(at);
    if (emptied != NONE) occupied[emptied >> 6] &= ~(1ull << (emptied & 63));
  }
  Handle start(const Timer &timer) {
    uint32_t at = lists.make(timer);
    place(at);
    return {lists.place_of(at), timer.serial};
  }
  bool stop(Handle h, Timer &out) {
    if (!lists.holds(h)) return false;
    uint32_t at = lists.at(h);
    out = lists.timer(at);
    remove(at);
    lists.release(at);
    return true;
  }
  void visit() {
    unsigned level = (unsigned)__builtin_ctzll(clock) / 6, slot = (clock >> (6 * level)) & 63, list = 64 * level + slot;
    if (!(occupied[level] >> slot & 1)) return;
    occupied[level] &= ~(1ull << slot);
    if (level == 0) return lists.hand_over(list, DUE);
    uint32_t at = lists.first(list);
    lists.clear(list);
    while (!lists.is_end(list, at)) {
      uint32_t next = lists.next(at);
      if (lists.timer(at).deadline == clock) lists.push_back(DUE, at); else place(at);
      at = next;
    }
  }
  void tick() { ++clock; visit(); }
  uint64_t advance(uint64_t k) {
    uint64_t from = clock, end = clock + k;
    while (clock < end && lists.is_end(DUE, lists.first(DUE))) {
      unsigned level = 0;
      while (level < 10 && !occupied[level]) ++level;
      uint64_t at = level == 10 ? end + 1 : ((clock >> (6 * level) & ~63ull) + (uint64_t)__builtin_ctzll(occupied[level])) << (6 * level);
      if (at > end) {
        clock = end;
        break;
      }
      clock = at;
      visit();
    }
    return clock - from;
  }
  bool expire(Timer &out) {
    uint32_t at = lists.first(DUE);
    if (lists.is_end(DUE, at)) return false;
    out = lists.timer(at);
    lists.pop_front(DUE, at);
    lists.release(at);
    return true;
  }
};

template <unsigned SLOTS>
struct Hash {
  static constexpr uint32_t DUE = SLOTS;
  Nodes lists{SLOTS + 1};
  uint64_t clock = 0;
  explicit Hash(size_t) {}
  uint64_t now() const { return clock; }
  uint64_t len() const { return lists.count; }
  Handle start(const Timer &timer) {
    uint32_t at = lists.make(timer);
    lists.nodes[at].rounds = (timer.deadline - clock - 1) / SLOTS;
    lists.push_back(timer.deadline % SLOTS, at);
    return {lists.place_of(at), timer.serial};
  }
  bool stop(Handle h, Timer &out) {
    if (!lists.holds(h)) return false;
    uint32_t at = lists.at(h);
    out = lists.timer(at);
    lists.remove(at);
    lists.release(at);
    return true;
  }
  void tick() {
    ++clock;
    for (uint32_t at = lists.first(clock % SLOTS); at != NONE;) {
      Nodes::Node &n = lists.nodes[at];
      uint32_t next = n.after;
      if (n.rounds == 0) { lists.remove(at); lists.push_back(DUE, at); } else --n.rounds;
      at = next;
    }
  }
  uint64_t advance(uint64_t k) {
    uint64_t from = clock, end = clock + k;
    while (clock < end && lists.first(DUE) == NONE) tick();
    return clock - from;
  }
  bool expire(Timer &out) {
    uint32_t at = lists.first(DUE);
    if (at == NONE) return false;
    out = lists.timer(at);
    lists.remove(at);
    lists.release(at);
    return true;
  }
};
}  // namespace
