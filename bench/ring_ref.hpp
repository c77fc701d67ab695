// A ring of one producer and one consumer, with acquire and release: the practical limit on this machine. Each side keeps its own index
// and the last one that it saw of the other in a cache line of its own, and asks again only where that is not enough. With
// -DSTORE=std::memory_order_seq_cst a store waits for those before it, as in the ring of the product's toolchain.
#pragma once
#ifndef STORE
#define STORE std::memory_order_release
#endif
#include <atomic>
#include <cstddef>
#include <cstdint>
#include <vector>

template <class T>
struct RingRef {
  explicit RingRef(size_t capacity) : mask(round_up(capacity) - 1), capacity(capacity), slots(mask + 1) {}

  // Called by the producer alone.
  bool push(const T &item) {
    size_t t = tail.load(std::memory_order_relaxed);
    if (t - head_seen == capacity) {
      head_seen = head.load(std::memory_order_acquire);
      if (t - head_seen == capacity) return false;
    }
    slots[t & mask] = item;
    tail.store(t + 1, STORE);
    return true;
  }
  // Called by the producer alone: as many of the items as there is room for, shown to the consumer by one store.
  size_t push_all(const T *items, size_t count) {
    size_t t = tail.load(std::memory_order_relaxed);
    if (capacity - (t - head_seen) < count) head_seen = head.load(std::memory_order_acquire);
    size_t room = capacity - (t - head_seen), some = room < count ? room : count;
    for (size_t i = 0; i < some; ++i) slots[(t + i) & mask] = items[i];
    tail.store(t + some, STORE);
    return some;
  }
  // Called by the consumer alone.
  bool pop(T &item) {
    size_t h = head.load(std::memory_order_relaxed);
    if (h == tail_seen) {
      tail_seen = tail.load(std::memory_order_acquire);
      if (h == tail_seen) return false;
    }
    item = slots[h & mask];
    head.store(h + 1, STORE);
    return true;
  }

 private:
  static size_t round_up(size_t n) { size_t p = 1; while (p < n) p *= 2; return p; }
  const size_t mask, capacity;
  std::vector<T> slots;
  alignas(128) std::atomic<size_t> tail{0};
  size_t head_seen = 0;
  alignas(128) std::atomic<size_t> head{0};
  size_t tail_seen = 0;
};

// A request has as many bytes as the product's, and a word 8 fewer.
struct RequestItem { uint64_t number, kind, place, serial, interval, action; };
struct WordItem { uint64_t kind, a, b, c, d, e, f; };
struct LineRef {
  RingRef<RequestItem> requests;
  RingRef<WordItem> words;
  explicit LineRef(size_t capacity) : requests(capacity), words(capacity) {}
};
