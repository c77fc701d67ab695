/* Of 128 bits: multiplications of two numbers of 64. */
#if defined(__SIZEOF_INT128__)
__extension__ typedef unsigned __int128 u128;
INLINE u128 u128_of(uint64_t high, uint64_t low) { return (u128)high << 64 | low; }
INLINE uint64_t u128_low(u128 a) { return (uint64_t)a; }
INLINE uint64_t u128_high(u128 a) { return (uint64_t)(a >> 64); }
INLINE u128 u128_mul(u128 a, u128 b) { return a * b; }
#else
typedef struct { uint64_t high, low; } u128;
INLINE u128 u128_of(uint64_t high, uint64_t low) { u128 v; v.high = high; v.low = low; return v; }
INLINE uint64_t u128_low(u128 a) { return a.low; }
INLINE uint64_t u128_high(u128 a) { return a.high; }
INLINE u128 u128_mul(u128 a, u128 b)
{
	const uint64_t a0 = a.low & 0xffffffffu, a1 = a.low >> 32, b0 = b.low & 0xffffffffu, b1 = b.low >> 32;
	const uint64_t low = a0 * b0, middle = a1 * b0 + (low >> 32), other = a0 * b1 + (middle & 0xffffffffu);
	return u128_of(a1 * b1 + (middle >> 32) + (other >> 32) + a.high * b.low + a.low * b.high, other << 32 | (low & 0xffffffffu));
}
#endif
INLINE u128 u128_add(u128 a, u128 b)
{
	const uint64_t low = u128_low(a) + u128_low(b);
	return u128_of(u128_high(a) + u128_high(b) + (low < u128_low(a)), low);
}
INLINE u128 u128_sub(u128 a, u128 b)
{
	return u128_of(u128_high(a) - u128_high(b) - (u128_low(a) < u128_low(b)), u128_low(a) - u128_low(b));
}
INLINE of_i64_i1 umul_with_overflow64(uint64_t a, uint64_t b)
{
	return of_i64_i1_of(a * b, u128_high(u128_mul(u128_of(0, a), u128_of(0, b))) != 0);
}
INLINE u128 u128_and(u128 a, u128 b) { return u128_of(u128_high(a) & u128_high(b), u128_low(a) & u128_low(b)); }
INLINE u128 u128_or(u128 a, u128 b) { return u128_of(u128_high(a) | u128_high(b), u128_low(a) | u128_low(b)); }
INLINE u128 u128_xor(u128 a, u128 b) { return u128_of(u128_high(a) ^ u128_high(b), u128_low(a) ^ u128_low(b)); }
INLINE u128 u128_shl(u128 a, uint64_t n)
{
	n &= 127;
	if (n >= 64)
		return u128_of(u128_low(a) << (n - 64), 0);
	return n == 0 ? a : u128_of(u128_high(a) << n | u128_low(a) >> (64 - n), u128_low(a) << n);
}
INLINE u128 u128_lshr(u128 a, uint64_t n)
{
	n &= 127;
	if (n >= 64)
		return u128_of(0, u128_high(a) >> (n - 64));
	return n == 0 ? a : u128_of(u128_high(a) >> n, u128_high(a) << (64 - n) | u128_low(a) >> n);
}
INLINE bool u128_less(u128 a, u128 b) { return u128_high(a) != u128_high(b) ? u128_high(a) < u128_high(b) : u128_low(a) < u128_low(b); }
INLINE bool u128_equal(u128 a, u128 b) { return u128_high(a) == u128_high(b) && u128_low(a) == u128_low(b); }
INLINE u128 u128_sub_sat(u128 a, u128 b) { return u128_less(a, b) ? u128_of(0, 0) : u128_sub(a, b); }
INLINE u128 frozen128(u128 a) { return u128_of(frozen64(u128_high(a)), frozen64(u128_low(a))); }
INLINE u128 load128u(const byte *p) { return u128_of(load64u(p + 8), load64u(p)); }
INLINE u128 load128(const byte *p) { return u128_of(load64(p + 8), load64(p)); }
INLINE void store128u(byte *p, u128 v) { store64u(p, u128_low(v)); store64u(p + 8, u128_high(v)); }
INLINE void store128(byte *p, u128 v) { store64(p, u128_low(v)); store64(p + 8, u128_high(v)); }
INLINE uint64_t load40u(const byte *p) { return (uint64_t)load32u(p) | (uint64_t)p[4] << 32; }
INLINE void store40u(byte *p, uint64_t v) { store32u(p, (uint32_t)v); p[4] = (byte)(v >> 32); }
INLINE uint64_t load48u(const byte *p) { return (uint64_t)load32u(p) | (uint64_t)load16u(p + 4) << 32; }
INLINE void store48u(byte *p, uint64_t v) { store32u(p, (uint32_t)v); store16u(p + 4, (uint16_t)(v >> 32)); }
INLINE uint64_t load56u(const byte *p) { return load48u(p) | (uint64_t)p[6] << 48; }
INLINE void store56u(byte *p, uint64_t v) { store48u(p, v); p[6] = (byte)(v >> 48); }
/* Doubles. Each result is rounded to one: compilers may compute several operations at once, more precisely. */
INLINE double rounded(double v) { volatile double result = v; return result; }
INLINE double double_of(uint64_t bits) { double v; memcpy(&v, &bits, 8); return v; }
INLINE uint64_t bits_of(double v) { uint64_t bits; memcpy(&bits, &v, 8); return bits; }
INLINE double frozendouble(double v) { return double_of(frozen64(bits_of(v))); }
INLINE double loaddouble(const byte *p) { return double_of(load64(p)); }
INLINE double loaddoubleu(const byte *p) { return double_of(load64u(p)); }
INLINE void storedouble(byte *p, double v) { store64(p, bits_of(v)); }
INLINE void storedoubleu(byte *p, double v) { store64u(p, bits_of(v)); }

/* A pointer in a constant: 8 bytes, of which a pointer of 32 bits takes the lower ones. */
#if SWAPS
#error "the program is for little-endian processors: its constants have pointers (the library, timers.c, is for both)"
#endif
#if UINTPTR_MAX > 0xffffffffu
typedef const byte *POINTER;
#define AT(p) p
#else
typedef struct { const byte *p; uint32_t zero; } POINTER;
#define AT(p) { p, 0 }
#endif

/* 16 and 64 bytes at once: some code looks at as many. A bit for each is an answer. */
typedef struct { byte b[16]; } bytes16;
typedef struct { byte b[64]; } bytes64;
INLINE bytes16 loadbytes16(const byte *p) { bytes16 v; memcpy(&v, p, 16); return v; }
INLINE bytes64 loadbytes64(const byte *p) { bytes64 v; memcpy(&v, p, 64); return v; }
INLINE bytes16 bytes16_zero(void) { bytes16 v; memset(&v, 0, 16); return v; }
INLINE uint16_t bytes16_negative(bytes16 a)
{
	uint16_t bits = 0;
	int k;
	for (k = 0; k < 16; k++)
		bits = (uint16_t)(bits | (uint16_t)(a.b[k] >> 7) << k);
	return bits;
}
INLINE uint16_t bytes16_differ(bytes16 a, bytes16 b)
{
	uint16_t bits = 0;
	int k;
	for (k = 0; k < 16; k++)
		bits = (uint16_t)(bits | (uint16_t)(a.b[k] != b.b[k]) << k);
	return bits;
}
INLINE uint64_t bytes64_differ(bytes64 a, bytes64 b)
{
	uint64_t bits = 0;
	int k;
	for (k = 0; k < 64; k++)
		bits |= (uint64_t)(a.b[k] != b.b[k]) << k;
	return bits;
}
INLINE bytes64 bytes64_of(uint64_t bits)
{
	bytes64 v;
	int k;
	for (k = 0; k < 64; k++)
		v.b[k] = (byte)(bits >> k & 1 ? 255 : 0);
	return v;
}
INLINE bytes16 bytes64_part(bytes64 a, int part) { bytes16 v; memcpy(&v, a.b + 16 * part, 16); return v; }
