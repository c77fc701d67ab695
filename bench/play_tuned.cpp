// The program `timers play` again, in C++ over the hand-tuned hierarchy of wheels, and tuned as a process: the peer of
// the whole program. Buffers get their size once, each line is played as soon as it is parsed, numbers are written two
// digits at a time straight into the output, and room is made once for each line of it.
//
// It keeps the promise of `timers play`: the whole script is read, parsed and played before a byte is written;
// a bad line, an input that is too long or a lack of memory writes nothing. With --line it answers the lines of each
// read before it reads on, as `timers serve` does. Options: --clients N, --capacity N, --first-tick T; others are
// passed over.
#include "wheels.hpp"
#include "formats.h"
#include <algorithm>
#include <cstdio>
#include <cstdlib>
#include <cstring>
#include <new>
#include <unistd.h>

static const size_t LINE = 128;      // no line of input or output is longer
static const size_t PIECE = 65536;   // what is read of a stream at once

static int fail(const char *text) {
  fputs(text, stderr);
  return 1;
}

static const char PAIRS[] =
    "0001020304050607080910111213141516171819202122232425262728293031323334353637383940414243444546474849"
    "5051525354555657585960616263646566676869707172737475767778798081828384858687888990919293949596979899";

// The output: one piece of memory, grown by realloc.
static struct Out {
  char *base = nullptr, *at = nullptr, *end = nullptr;

  void room(size_t n) {
    if ((size_t)(end - at) >= n) return;
    size_t used = (size_t)(at - base), size = std::max(2 * (size_t)(end - base), used + n);
    char *grown = (char *)realloc(base, size);
    if (!grown) throw std::bad_alloc();
    base = grown, at = grown + used, end = grown + size;
  }
  template <size_t N> void word(const char (&text)[N]) {
    memcpy(at, text, N - 1);
    at += N - 1;
  }
  void item(uint64_t n) {
    *at++ = ' ';
    if (n < 10) {
      *at++ = char('0' + n);
      return;
    }
    char digits[20], *first = digits + 20;
    for (; n >= 100; n /= 100) memcpy(first -= 2, PAIRS + 2 * (n % 100), 2);
    if (n >= 10)
      memcpy(first -= 2, PAIRS + 2 * n, 2);
    else
      *--first = char('0' + n);
    size_t count = (size_t)(digits + 20 - first);
    memcpy(at, first, count);
    at += count;
  }
  template <class... Numbers> void items(Numbers... numbers) {
    (item(numbers), ...);
    *at++ = '\n';
  }
} out;

// The facility: the wheel, the numbers of the clients, and the handles by serial.
struct Facility {
  struct Given {
    Handle handle;
    uint64_t client;
  };
  Hier wheel{0};
  uint64_t clients, capacity;
  std::vector<uint64_t> next;
  std::vector<Given> given;  // by serial - 1
  bool closed = false;

  Facility(uint64_t clients, uint64_t capacity, uint64_t first)
      : clients(clients), capacity(capacity), next(clients, 1) {
    wheel.clock = first;
  }

  template <size_t N> void refuse(uint64_t client, uint64_t number, const char (&reason)[N]) {
    out.word("refused");
    out.item(client);
    out.item(number);
    out.word(reason);
  }
  // Whether the request is the client's next one; if not, it is refused.
  bool admit(uint64_t client, uint64_t number) {
    if (closed)
      refuse(client, number, " " CLOSED "\n");
    else if (client >= clients)
      refuse(client, number, " " NO_CLIENT "\n");
    else if (number < next[client])
      refuse(client, number, " " REPEATED "\n");
    else if (number > next[client])
      refuse(client, number, " " AHEAD "\n");
    else
      return ++next[client], true;
    return false;
  }
  void start(uint64_t client, uint64_t number, uint64_t interval, uint64_t action) {
    out.room(LINE);
    if (!admit(client, number)) return;
    if (interval == 0) return refuse(client, number, " " ZERO_INTERVAL "\n");
    if (interval > LAST - wheel.clock) return refuse(client, number, " " TOO_LATE "\n");
    if (wheel.len() == capacity) return refuse(client, number, " " FULL "\n");
    uint64_t serial = given.size() + 1, deadline = wheel.clock + interval;
    given.push_back({wheel.start(Timer{serial, client, number, deadline, action}), client});
    out.word("started");
    out.items(client, number, serial, deadline);
  }
  void stop(uint64_t client, uint64_t number, uint64_t serial) {
    out.room(LINE);
    if (!admit(client, number)) return;
    Timer timer;
    bool is_own = serial != 0 && serial <= given.size() && given[serial - 1].client == client;
    if (!is_own || !wheel.stop(given[serial - 1].handle, timer)) return refuse(client, number, " " NO_SUCH "\n");
    out.word("stopped");
    out.items(client, number, serial);
  }
  void ticks(uint64_t left) {
    Timer timer;
    out.room(LINE);
    if (closed) return out.word("tick refused " CLOSED "\n");
    while (left && wheel.clock < LAST) {
      left -= wheel.advance(std::min(left, LAST - wheel.clock));
      while (wheel.expire(timer)) {
        out.room(2 * LINE);
        out.word("expired");
        out.items(wheel.clock, timer.client, timer.serial, timer.action);
      }
    }
    if (left) out.word("tick refused " CLOCK_END "\n");
  }
  void close() {
    out.room(LINE);
    if (closed) return out.word("close refused " CLOSED "\n");
    closed = true;
    std::vector<Timer> all;
    all.reserve(wheel.len());
    for (auto &node : wheel.lists.nodes)
      if (node.timer.serial) all.push_back(node.timer);
    std::sort(all.begin(), all.end(), [](const Timer &x, const Timer &y) {
      return x.deadline != y.deadline ? x.deadline < y.deadline : x.serial < y.serial;
    });
    out.word("closed");
    out.items(all.size());
    for (auto &timer : all) {
      out.room(LINE);
      out.word("returned");
      out.items(timer.client, timer.serial, timer.deadline, timer.action);
    }
    wheel.lists.count = 0;
  }
  void end() {
    out.room(LINE);
    out.word("end");
    out.items(wheel.clock, wheel.len());
  }
};

// The lines. Bytes that are no digits stand behind the script, so no bound is tested at each byte.
struct Reader {
  const char *at;

  bool number(uint64_t &n, char after) {
    const char *first = at;
    uint64_t value = (unsigned char)(*at - '0');
    if (value > 9) return false;
    for (++at; first[0] != '0'; ++at) {
      unsigned digit = (unsigned char)(*at - '0');
      if (digit > 9) break;
      if (at - first >= 19) return false;
      value = value * 10 + digit;
    }
    if (value > LAST || *at != after) return false;
    ++at;
    n = value;
    return true;
  }
  template <size_t N> bool text(const char (&wanted)[N]) {
    if (memcmp(at, wanted, N - 1)) return false;
    at += N - 1;
    return true;
  }
  // Plays the line at the front; false if it is a bad one, and then nothing is played.
  bool play(Facility &facility) {
    uint64_t a, b, c, d;
    if (text("start ")) {
      if (!(number(a, ' ') && number(b, ' ') && number(c, ' ') && number(d, '\n'))) return false;
      facility.start(a, b, c, d);
    } else if (text("stop ")) {
      if (!(number(a, ' ') && number(b, ' ') && number(c, '\n'))) return false;
      facility.stop(a, b, c);
    } else if (text("tick ")) {
      if (!(number(a, '\n') && a >= 1 && a <= MAX_TICKS)) return false;
      facility.ticks(a);
    } else if (text("close\n")) {
      facility.close();
    } else {
      return false;
    }
    return true;
  }
};

// Plays the lines up to `end`, or up to the first bad one, and returns whether all are good. Counts those that it plays.
static bool play_lines(Reader &reader, const char *end, Facility &facility, size_t &played) {
  for (; reader.at < end; ++played)
    if (!reader.play(facility)) return false;
  return true;
}

static int bad_line(size_t number) {
  fprintf(stderr, "bad line %zu\n", number);
  return 1;
}

static bool write_out() {
  for (const char *from = out.base; from < out.at;) {
    ssize_t count = write(1, from, (size_t)(out.at - from));
    if (count <= 0) return false;
    from += count;
  }
  out.at = out.base;
  return true;
}

static int end(Facility &facility) {
  facility.end();
  return write_out() ? 0 : fail(WRITE_FAILED "\n");
}

static int play_whole(char *script, Facility &facility) {
  size_t length = 0, played = 0;
  for (ssize_t count; length <= MAX_SCRIPT; length += (size_t)count) {
    count = read(0, script + length, MAX_SCRIPT + 1 - length);
    if (count < 0) return fail(READ_FAILED "\n");
    if (count == 0) break;
  }
  if (length > MAX_SCRIPT) return fail(TOO_LONG "\n");
  memset(script + length, 0, 16);
  out.room(4 * length + 4096);  // pages that are not written cost nothing
  Reader reader{script};
  return play_lines(reader, script + length, facility, played) ? end(facility) : bad_line(played + 1);
}

static int play_stream(char *text, Facility &facility) {
  size_t held = 0, played = 0;
  for (;;) {
    ssize_t count = read(0, text + held, PIECE);
    if (count < 0) return fail(READ_FAILED "\n");
    if (count == 0) break;
    held += (size_t)count;
    size_t whole = held;
    while (whole && text[whole - 1] != '\n') --whole;
    Reader reader{text};
    bool is_good = play_lines(reader, text + whole, facility, played);
    if (!write_out()) return fail(WRITE_FAILED "\n");
    if (!is_good || held - whole > LINE) return bad_line(played + 1);
    memmove(text, text + whole, held -= whole);
  }
  return held ? bad_line(played + 1) : end(facility);
}

int main(int argc, char **argv) {
  uint64_t clients = MAX_CLIENTS, capacity = DEFAULT_CAPACITY, first = 0;
  bool is_stream = false;
  for (int i = 1; i < argc; ++i) {
    const char *value = i + 1 < argc ? argv[i + 1] : "0";
    if (!strcmp(argv[i], "--line")) is_stream = true;
    if (!strcmp(argv[i], "--clients")) clients = strtoull(value, nullptr, 10);
    if (!strcmp(argv[i], "--capacity")) capacity = strtoull(value, nullptr, 10);
    if (!strcmp(argv[i], "--first-tick")) first = strtoull(value, nullptr, 10);
  }
  char *script = (char *)malloc(MAX_SCRIPT + 64);
  if (!script) return fail(OUT_OF_MEMORY "\n");
  try {
    Facility facility(clients, capacity, first);
    // The process ends here, and nothing is freed one by one.
    _exit(is_stream ? play_stream(script, facility) : play_whole(script, facility));
  } catch (const std::bad_alloc &) {
    return fail(OUT_OF_MEMORY "\n");
  }
}
