// The facilities that tail.cpp and next.cpp measure, each behind the same calls. Owner i has one timer at
// most.
//   start(i, interval); stop(i); restart(i, interval); tick(); drain(): how many have expired; pass(k): k
//   ticks, with all that expires, and how many these are
// Those with HAS_ROOM also have reserve(most), which makes room.
#pragma once
#include "random.hpp"
#include "wheels.hpp"
#include <cstdio>
#include <cstdlib>
#include <cstring>
#include <string>
#include <type_traits>
#include <vector>
#ifdef WITH_TIMERS_C
#include <timers.h>
#endif
#ifdef WITH_LIBUV
#include <uv.h>
#endif

// The array heap of peers.h: those of one tick come in the order of starting. There is one a process.
namespace array_heap {
#define HEAP_ORDERED
#include "peers.h"
#undef HEAP_ORDERED
#undef HAS_NEXT
}  // namespace array_heap

namespace {
[[noreturn]] inline void give_up(const char *what) {
  fprintf(stderr, "%s failed\n", what);
  exit(1);
}

#ifdef WITH_TIMERS_C
// The product, through its library for C.
struct LibTimers {
  static constexpr bool HAS_ROOM = true;
  struct timers held = TIMERS_INIT;
  std::vector<timers_handle> handles;
  explicit LibTimers(size_t owners, uint32_t table = TIMERS_WIDE) : handles(owners) {
    if (timers_new(&held, table, 0)) give_up("timers_new");
  }
  ~LibTimers() { timers_free(&held); }
  LibTimers(const LibTimers &) = delete;
  void reserve(size_t most) {
    if (timers_reserve(&held, most)) give_up("timers_reserve");
  }
  void start(size_t i, uint64_t interval) {
    if (timers_start(&held, interval, i, &handles[i])) give_up("timers_start");
  }
  void stop(size_t i) {
    uint64_t action;
    if (timers_stop(&held, handles[i], &action)) give_up("timers_stop");
  }
  void restart(size_t i, uint64_t interval) {
    if (timers_restart(&held, handles[i], interval, i, &handles[i])) give_up("timers_restart");
  }
  void tick() {
    if (timers_tick(&held)) give_up("timers_tick");
  }
  size_t drain() {
    size_t count = 0;
    timers_expired one;
    while (timers_expire(&held, &one)) ++count;
    return count;
  }
  size_t pass(uint64_t k) {
    size_t count = 0;
    for (uint64_t passed = 0; k; k -= passed) {
      if (timers_advance(&held, k, &passed)) give_up("timers_advance");
      count += drain();
    }
    return count;
  }
  uint64_t wakeup() { return timers_wakeup(&held); }
};

struct SmoothTimers : LibTimers {
  explicit SmoothTimers(size_t owners) : LibTimers(owners, TIMERS_SMOOTH) {}
};
#endif

// Whether a wheel pushes a timer back by one call.
template <class W, class = void> struct HasRestart : std::false_type {};
template <class W> struct HasRestart<W, std::void_t<decltype(&W::restart)>> : std::true_type {};

// A wheel of this folder, or of its part in Rust.
template <class W> struct Reference {
  static constexpr bool HAS_ROOM = false;
  W wheel;
  uint64_t serial = 0;
  std::vector<Handle> handles;
  explicit Reference(size_t owners) : wheel(owners), handles(owners) {}
  Timer timer(size_t i, uint64_t interval) {
    ++serial;
    return {serial, 0, serial, wheel.now() + interval, i};
  }
  void start(size_t i, uint64_t interval) { handles[i] = wheel.start(timer(i, interval)); }
  void stop(size_t i) {
    Timer out;
    if (!wheel.stop(handles[i], out)) give_up("stop");
  }
  void restart(size_t i, uint64_t interval) {
    if constexpr (HasRestart<W>::value) {
      Timer out;
      if (!wheel.restart(handles[i], timer(i, interval), out)) give_up("restart");
    } else {
      stop(i);
      start(i, interval);
    }
  }
  void tick() { wheel.tick(); }
  size_t drain() {
    size_t count = 0;
    Timer out;
    while (wheel.expire(out)) ++count;
    return count;
  }
  size_t pass(uint64_t k) {
    size_t count = 0;
    while (k) {
      k -= wheel.advance(k);
      count += drain();
    }
    return count;
  }
};

#ifdef WITH_RUST
struct TokioWheel;
extern "C" {
TokioWheel *tokio_new();
void tokio_free(TokioWheel *wheel);
uint64_t tokio_now(const TokioWheel *wheel);
Handle tokio_start(TokioWheel *wheel, const Timer *timer);
bool tokio_stop(TokioWheel *wheel, const Handle *handle, Timer *out);
bool tokio_restart(TokioWheel *wheel, Handle *handle, const Timer *timer, Timer *out);
void tokio_tick(TokioWheel *wheel);
uint64_t tokio_advance(TokioWheel *wheel, uint64_t k);
bool tokio_expire(TokioWheel *wheel, Timer *out);
}

// tokio-util's wheel: rust/calls.rs.
struct Tokio {
  TokioWheel *wheel = tokio_new();
  explicit Tokio(size_t) {}
  ~Tokio() { tokio_free(wheel); }
  Tokio(const Tokio &) = delete;
  uint64_t now() const { return tokio_now(wheel); }
  Handle start(const Timer &timer) { return tokio_start(wheel, &timer); }
  bool stop(Handle h, Timer &out) { return tokio_stop(wheel, &h, &out); }
  bool restart(Handle &h, const Timer &timer, Timer &out) { return tokio_restart(wheel, &h, &timer, &out); }
  void tick() { tokio_tick(wheel); }
  uint64_t advance(uint64_t k) { return tokio_advance(wheel, k); }
  bool expire(Timer &out) { return tokio_expire(wheel, &out); }
};
#endif

// An object has its index in the heap and a cache line, as it would with what else it holds. The array has its room
// from the beginning.
struct ArrayHeap {
  static constexpr bool HAS_ROOM = false;
  struct alignas(64) Object { array_heap::node node; };
  std::vector<Object> objects;
  uint64_t now = 0;
  explicit ArrayHeap(size_t owners) : objects(owners) { array_heap::init(owners); }
  void start(size_t i, uint64_t interval) { array_heap::set(&objects[i].node, now + interval); }
  void stop(size_t i) { array_heap::stop(&objects[i].node); }
  void restart(size_t i, uint64_t interval) { start(i, interval); }
  void tick() { ++now; }
  size_t drain() {
    size_t count = 0;
    while (array_heap::take(now)) ++count;
    return count;
  }
  size_t pass(uint64_t k) {
    now += k;
    return drain();
  }
};

#ifdef WITH_LIBUV
extern "C" void uv__run_timers(uv_loop_t *loop);
extern "C" int uv__next_timeout(const uv_loop_t *loop);

// libuv's timers, with its loop's clock set by hand.
struct Libuv {
  static constexpr bool HAS_ROOM = false;
  uv_loop_t loop;
  std::vector<uv_timer_t> timers;
  static inline size_t fired = 0;
  static void fire(uv_timer_t *) { ++fired; }
  explicit Libuv(size_t owners) : timers(owners) {
    if (uv_loop_init(&loop)) give_up("uv_loop_init");
    loop.time = 0;
    for (auto &timer : timers) uv_timer_init(&loop, &timer);
  }
  void start(size_t i, uint64_t interval) { uv_timer_start(&timers[i], fire, interval, 0); }
  void stop(size_t i) { uv_timer_stop(&timers[i]); }
  void restart(size_t i, uint64_t interval) { start(i, interval); }
  void tick() {
    ++loop.time;
    uv__run_timers(&loop);
  }
  size_t drain() {
    size_t count = fired;
    fired = 0;
    return count;
  }
  size_t pass(uint64_t k) {
    loop.time += k;
    uv__run_timers(&loop);
    return drain();
  }
  // Its timeout is an int, and -1 if there is no timer.
  uint64_t next() {
    const int ticks = uv__next_timeout(&loop);
    return ticks < 0 ? UINT64_MAX : loop.time + (uint64_t)ticks;
  }
};
#endif

// Calls `run` with the type of the facility that has this name; false where there is none.
template <class Run> bool with_facility(const std::string &name, Run run) {
  if (name == "ref-hier")
    run.template of<Reference<Hier>>();
  else if (name == "ref-hash-64k")
    run.template of<Reference<Hash<65536>>>();
  else if (name == "array-heap")
    run.template of<ArrayHeap>();
#ifdef WITH_TIMERS_C
  else if (name == "timers-c")
    run.template of<LibTimers>();
  else if (name == "timers-c-smooth")
    run.template of<SmoothTimers>();
#endif
#ifdef WITH_RUST
  else if (name == "tokio-wheel")
    run.template of<Reference<Tokio>>();
#endif
#ifdef WITH_LIBUV
  else if (name == "libuv")
    run.template of<Libuv>();
#endif
  else
    return false;
  return true;
}
}  // namespace
