// The clients of desk_threads.c beside an owner in C++ (desk_ref.hpp).
//
//     desk_ring CLIENTS TIMERS LINE ROOM
//
// The owner's turn is the desk's: it serves each client up to 64 times, passes a tick and flushes each outbox. Prints what
// desk_threads prints.
#include "desk_clients.h"
#include "desk_ref.hpp"

namespace {
bool start_at_ring(client *me, LineRef &line) {
  uint64_t n = me->sent + 1, began = nanoseconds();
  if (me->asked[n] == 0) me->asked[n] = began;
  bool sent = line.requests.push({n, START, 0, 0, interval_of(me, n), action_of(me, n)});
  uint64_t took = nanoseconds() - began;
  if (!sent) return false;
  keep(&me->starts, took);
  me->sent = n;
  return true;
}

// A word's a is its number, b and c are the handle, d is the deadline and e the action.
void take_word(client *me, const WordItem &word) {
  if (word.kind == EXPIRED) {
    take_expired(me, word.a, word.e, word.d);
    return;
  }
  CHECK(word.kind == STARTED);
  take_answer(me, word.a, word.d);
}

void *work_at_ring(void *at) {
  client *me = static_cast<client *>(at);
  LineRef &line = *static_cast<LineRef *>(me->line);
  WordItem word;
  uint64_t idle = 0;
  while (me->expired < me->timers) {
    bool did = may_start(me) && start_at_ring(me, line);
    while (line.words.pop(word)) {
      take_word(me, word);
      did = true;
    }
    if (!did && ++idle % IDLE_PASSES == 0) sched_yield();
  }
  return end_work();
}

void own_rings(client *all, pthread_t *threads, size_t line, size_t room) {
  Owner owner(clients, line, room);
  for (size_t c = 0; c < clients; ++c) all[c].line = &owner.served[c]->line;
  begin(threads, all, work_at_ring);
  while (clients_at_work() > 0) {
    bool busy = owner.serve_all(64);
    owner.tick();
    busy |= owner.flush_all();
    if (!busy) sched_yield();
  }
  end(threads);
  CHECK(owner.wheel.len() == 0);
}
}  // namespace

int main(int argc, char **argv) {
  if (argc != 5) return 2;
  client *all = new_clients(argv[1], argv[2]);
  size_t line = strtoul(argv[3], nullptr, 10), room = strtoul(argv[4], nullptr, 10);
  CHECK(line >= 1 && room >= 2);
  pthread_t threads[MAX_CLIENTS];
  uint64_t began = nanoseconds();
  own_rings(all, threads, line, room);
  print_run(all, nanoseconds() - began, true);
  return 0;
}
