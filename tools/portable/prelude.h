/* What the translated code needs of C: C99, or C++. What it takes for granted (docs/proof/proofs.md) is checked where it can be. */
#include <limits.h>
#include <stdbool.h>
#include <stddef.h>
#include <stdint.h>
#if !defined(TIMERS_NO_MALLOC) || !defined(__GNUC__)
#include <stdlib.h>
#include <string.h>
#elif __has_include(<string.h>)
#include <string.h>
#else                                                 /* without headers of C these three are still there: compilers call them */
void *memcpy(void *to, const void *from, size_t size);
void *memmove(void *to, const void *from, size_t size);
void *memset(void *to, int value, size_t size);
#endif

#if CHAR_BIT != 8 || UINT_MAX != 0xffffffffu
#error "the code needs bytes of 8 bits, and an int of 32"
#endif
typedef unsigned char byte;

#if defined(__GNUC__)
#define INLINE static inline __attribute__((unused))
#define ALWAYS_INLINE inline __attribute__((always_inline))
#define NOINLINE __attribute__((noinline))
#define COLD __attribute__((noinline, cold))
#define ALIGN(n) __attribute__((aligned(n)))
#define RARE(condition) __builtin_expect(condition, 0)
#define MOSTLY_0(number) __builtin_expect(number, 0)
#define TRAP() __builtin_trap()
#define UNREACHABLE() __builtin_unreachable()
#define ONE_VALUE(type, v) __asm__("" : "+r"(v))
#elif defined(_MSC_VER)
#define INLINE static __inline
#define ALWAYS_INLINE __forceinline
#define NOINLINE __declspec(noinline)
#define COLD __declspec(noinline)
#define ALIGN(n) __declspec(align(n))
#define RARE(condition) (condition)
#define MOSTLY_0(number) (number)
#define TRAP() __fastfail(7)
#define UNREACHABLE() __assume(0)
#define ONE_VALUE(type, v) do { type volatile one = v; v = one; } while (0)
#else
#define INLINE static inline
#define ALWAYS_INLINE inline
#define NOINLINE
#define COLD
#define ALIGN(n)
#define RARE(condition) (condition)
#define MOSTLY_0(number) (number)
#define TRAP() abort()
#define UNREACHABLE() abort()
#define ONE_VALUE(type, v) do { type volatile one = v; v = one; } while (0)
#endif

/* Alignment is told to compilers that use it, where callers' numbers of 64 bits have the module's: on i386 they have 4. */
#if defined(__GNUC__) && (__SIZEOF_POINTER__ == 8 || defined(__arm__) || defined(__riscv) || defined(__wasm__))
#define ALIGNED(p, n) __builtin_assume_aligned(p, n)
struct aligned_number { char before; uint64_t number; };
typedef char numbers_are_aligned[offsetof(struct aligned_number, number) == 8 ? 1 : -1];
#else
#define ALIGNED(p, n) (p)
#endif

/* Numbers are little-endian in memory on each platform: parts of one are read apart from the whole. */
#if defined(__BYTE_ORDER__) && __BYTE_ORDER__ == __ORDER_BIG_ENDIAN__
#define LITTLE16(x) ((uint16_t)((uint16_t)(x) >> 8 | (uint16_t)(x) << 8))
#define LITTLE32(x) ((uint32_t)(x) >> 24 | ((uint32_t)(x) >> 8 & 0xff00u) | ((uint32_t)(x) << 8 & 0xff0000u) | (uint32_t)(x) << 24)
#define LITTLE64(x) ((uint64_t)LITTLE32((uint64_t)(x) >> 32) | (uint64_t)LITTLE32((uint64_t)(x) & 0xffffffffu) << 32)
#define SWAPS 1
#else
#define LITTLE16(x) (x)
#define LITTLE32(x) (x)
#define LITTLE64(x) (x)
#define SWAPS 0
#endif
