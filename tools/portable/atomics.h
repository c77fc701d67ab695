/* Atomics, in the orders that the module asks for. Those of 64 bits need a processor that has them, or libatomic. */
#if defined(__GNUC__)
#define ORDER_RELAXED __ATOMIC_RELAXED
#define ORDER_ACQUIRE __ATOMIC_ACQUIRE
#define ORDER_RELEASE __ATOMIC_RELEASE
#define ORDER_ACQ_REL __ATOMIC_ACQ_REL
#define ORDER_SEQ_CST __ATOMIC_SEQ_CST
#define ATOMIC_LOAD(type, p, order) __atomic_load_n((type *)(p), order)
#define ATOMIC_STORE(type, p, v, order) __atomic_store_n((type *)(p), v, order)
#define ATOMIC_EXCHANGE(type, p, v, order) __atomic_exchange_n((type *)(p), v, order)
#define BARRIER() __asm__ volatile("" ::: "memory")
#elif defined(_MSC_VER)
/* Each is at least as strong as what is asked for. Not tried. */
#include <intrin.h>
enum { ORDER_RELAXED, ORDER_ACQUIRE, ORDER_RELEASE, ORDER_ACQ_REL, ORDER_SEQ_CST };
#define EXCHANGE(type, p, v) (sizeof(type) == 8 ? (type)_InterlockedExchange64((volatile __int64 *)(p), (__int64)(v)) \
                                                : (type)_InterlockedExchange8((volatile char *)(p), (char)(v)))
#define ATOMIC_LOAD(type, p, order) (sizeof(type) == 8 ? (type)_InterlockedCompareExchange64((volatile __int64 *)(p), 0, 0) \
                                                       : (type)_InterlockedCompareExchange8((volatile char *)(p), 0, 0))
#define ATOMIC_STORE(type, p, v, order) ((void)EXCHANGE(type, p, v))
#define ATOMIC_EXCHANGE(type, p, v, order) EXCHANGE(type, p, v)
#define BARRIER() _ReadWriteBarrier()
#elif defined(__STDC_VERSION__) && __STDC_VERSION__ >= 201112L && !defined(__STDC_NO_ATOMICS__)
#include <stdatomic.h>
#define ORDER_RELAXED memory_order_relaxed
#define ORDER_ACQUIRE memory_order_acquire
#define ORDER_RELEASE memory_order_release
#define ORDER_ACQ_REL memory_order_acq_rel
#define ORDER_SEQ_CST memory_order_seq_cst
#define ATOMIC_LOAD(type, p, order) atomic_load_explicit((_Atomic type *)(void *)(p), order)
#define ATOMIC_STORE(type, p, v, order) atomic_store_explicit((_Atomic type *)(void *)(p), v, order)
#define ATOMIC_EXCHANGE(type, p, v, order) atomic_exchange_explicit((_Atomic type *)(void *)(p), v, order)
#define BARRIER() atomic_signal_fence(memory_order_seq_cst)
#else
#error "the desk needs atomics: a C11 compiler, gcc or clang"
#endif
#define atomic_load8(p, order) ATOMIC_LOAD(uint8_t, p, order)
#define atomic_store8(p, v, order) ATOMIC_STORE(uint8_t, p, v, order)
#define atomic_exchange8(p, v, order) ATOMIC_EXCHANGE(uint8_t, p, v, order)
#define atomic_load64(p, order) little64(ATOMIC_LOAD(uint64_t, word_at(p), order))
#define atomic_store64(p, v, order) ATOMIC_STORE(uint64_t, word_at(p), little64(v), order)
#define atomic_exchange64(p, v, order) little64(ATOMIC_EXCHANGE(uint64_t, word_at(p), little64(v), order))
INLINE void *word_at(byte *p) { return ALIGNED(p, 8); }
INLINE uint64_t little64(uint64_t v) { return LITTLE64(v); }
