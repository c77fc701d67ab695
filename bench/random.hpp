// Random numbers, the same on all machines.
#pragma once
#include <cstdint>

struct Random {  // splitmix64
  uint64_t s;
  uint64_t next() {
    uint64_t z = s += 0x9E3779B97F4A7C15ull;
    z = (z ^ z >> 30) * 0xBF58476D1CE4E5B9ull;
    z = (z ^ z >> 27) * 0x94D049BB133111EBull;
    return z ^ z >> 31;
  }
  uint64_t below(uint64_t n) { return (uint64_t)((unsigned __int128)next() * n >> 64); }
};
