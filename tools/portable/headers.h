/* Without timers_desk.h the file has no desk. A compiler that can't tell needs -DTIMERS_NO_DESK. */
#if !defined(TIMERS_NO_DESK) && defined(__has_include)
#if !__has_include("timers_desk.h")
#define TIMERS_NO_DESK
#endif
#endif

/* What a shared object of the library exports is in the headers (-DTIMERS_SHARED). Otherwise nothing is exported. */
#if defined(__ELF__) && defined(__GNUC__) && !defined(TIMERS_SHARED)
#pragma GCC visibility push(hidden)
#endif
#include "timers.h"
#ifndef TIMERS_NO_DESK
#include "timers_desk.h"
#endif
#if defined(__ELF__) && defined(__GNUC__) && !defined(TIMERS_SHARED)
#pragma GCC visibility pop
#endif

/* With TIMERS_NO_SMOOTH no table is TIMERS_SMOOTH. The calls of its wheels are never made then, so that compilers leave out
 * their code, and the branches to them. */
#ifdef TIMERS_NO_SMOOTH
#define TABLE(table) ((table) == TIMERS_SMOOTH ? UINT32_MAX : (table))
#define SMOOTH inline
#define NO_CALL() UNREACHABLE()
#else
#define TABLE(table) (table)
#define SMOOTH NOINLINE
#define NO_CALL() (void)0
#endif
