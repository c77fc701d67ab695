/* An address in an object, and one that is only used if it is in its object. */
INLINE byte *inside(const byte *p, uint64_t offset) { return (byte *)p + (ptrdiff_t)offset; }
INLINE byte *at(const byte *p, uint64_t offset) { return (byte *)((uintptr_t)p + (uintptr_t)offset); }

/* Memory: of what type it is, C does not know. With `u` it need not be aligned. A pointer takes 8 bytes there. */
INLINE uint8_t load8(const byte *p) { return *p; }
INLINE void store8(byte *p, uint8_t v) { *p = v; }
INLINE uint8_t load8_volatile(const byte *p) { return *(const volatile byte *)p; }
INLINE uintN_t loadN(const byte *p) { uintN_t v; memcpy(&v, ALIGNED(p, N / 8), N / 8); return LITTLEN(v); }
INLINE void storeN(byte *p, uintN_t v) { v = LITTLEN(v); memcpy(ALIGNED(p, N / 8), &v, N / 8); }
INLINE uintN_t loadNu(const byte *p) { uintN_t v; memcpy(&v, p, N / 8); return LITTLEN(v); }
INLINE void storeNu(byte *p, uintN_t v) { v = LITTLEN(v); memcpy(p, &v, N / 8); }
INLINE byte *loadptr(const byte *p) { return (byte *)(uintptr_t)load64(p); }
INLINE byte *loadptru(const byte *p) { return (byte *)(uintptr_t)load64u(p); }
INLINE void storeptr(byte *p, byte *v) { store64(p, (uint64_t)(uintptr_t)v); }
INLINE void storeptru(byte *p, byte *v) { store64u(p, (uint64_t)(uintptr_t)v); }
INLINE uintN_t frozenN(uintN_t v) { ONE_VALUE(uintN_t, v); return v; }
INLINE bool frozen1(bool v) { ONE_VALUE(bool, v); return v; }
INLINE byte *frozenptr(byte *v) { ONE_VALUE(byte *, v); return v; }

/* Arithmetic that C has no operator for. */
INLINE uintN_t uminN(uintN_t a, uintN_t b) { return a < b ? a : b; }
INLINE uintN_t umaxN(uintN_t a, uintN_t b) { return a > b ? a : b; }
INLINE uintN_t smaxN(uintN_t a, uintN_t b) { return (intN_t)a > (intN_t)b ? a : b; }
INLINE uintN_t usub_satN(uintN_t a, uintN_t b) { return (uintN_t)(a > b ? a - b : 0); }
INLINE uintN_t uadd_satN(uintN_t a, uintN_t b) { return (uintN_t)(a + b) < a ? UINTN_MAX : (uintN_t)(a + b); }
INLINE uintN_t absN(uintN_t a) { return (intN_t)a < 0 ? (uintN_t)(0u - a) : a; }
INLINE uint32_t fshl32(uint32_t a, uint32_t b, uint32_t n) { return n % 32 != 0 ? a << n % 32 | b >> (32 - n % 32) : a; }
#if defined(__GNUC__)
INLINE uint64_t cttz64(uint64_t x) { return x != 0 ? (uint64_t)__builtin_ctzll(x) : 64; }
INLINE uint64_t ctlz64(uint64_t x) { return x != 0 ? (uint64_t)__builtin_clzll(x) : 64; }
INLINE uint64_t ctpop64(uint64_t x) { return (uint64_t)__builtin_popcountll(x); }
#else
INLINE uint64_t ctpop64(uint64_t x)
{
	x -= x >> 1 & UINT64_C(0x5555555555555555);
	x = (x & UINT64_C(0x3333333333333333)) + (x >> 2 & UINT64_C(0x3333333333333333));
	return ((x + (x >> 4)) & UINT64_C(0x0f0f0f0f0f0f0f0f)) * UINT64_C(0x0101010101010101) >> 56;
}
INLINE uint64_t cttz64(uint64_t x) { return x != 0 ? ctpop64((x & (0 - x)) - 1) : 64; }
INLINE uint64_t ctlz64(uint64_t x)
{
	int n;
	for (n = 1; n < 64; n *= 2)
		x |= x >> n;
	return 64 - ctpop64(x);
}
#endif
INLINE uint32_t bswap32(uint32_t x) { return x >> 24 | (x >> 8 & 0xff00u) | (x << 8 & 0xff0000u) | x << 24; }
INLINE uint64_t bswap64(uint64_t x) { return (uint64_t)bswap32((uint32_t)(x >> 32)) | (uint64_t)bswap32((uint32_t)x) << 32; }
