/* Whether the library's code runs on this processor. On x86-64 it is for level x86-64-v2: an older one would stop at an instruction that it
   doesn't have. No proof covers this file. */
#ifndef JLS_PROCESSOR_H
#define JLS_PROCESSOR_H

#include <stdbool.h>

#if defined __x86_64__
#include <cpuid.h>

/* What x86-64-v2 has beyond x86-64. In ecx of leaf 1: SSE3, SSSE3, CMPXCHG16B, SSE4.1, SSE4.2, POPCNT; of leaf 0x80000001: LAHF. */
enum { NEEDED = 1 << 0 | 1 << 9 | 1 << 13 | 1 << 19 | 1 << 20 | 1 << 23, NEEDED_EXTENDED = 1 << 0 };

static inline bool has_level(void) {
    unsigned a, b, c, d;
    if (!__get_cpuid(1, &a, &b, &c, &d) || (c & NEEDED) != NEEDED) return false;
    return __get_cpuid(0x80000001, &a, &b, &c, &d) && (c & NEEDED_EXTENDED) == NEEDED_EXTENDED;
}
#else
static inline bool has_level(void) { return true; }
#endif

/* The answer: 0 until it is known, then 1 or 2. Threads that ask at once find the same. */
static inline bool runs_here(void) {
    static int known;
    int found = __atomic_load_n(&known, __ATOMIC_RELAXED);
#ifdef JLS_OLD_PROCESSOR /* for a test */
    found = 2;
#endif
    if (found == 0) {
        found = has_level() ? 1 : 2;
        __atomic_store_n(&known, found, __ATOMIC_RELAXED);
    }
    return found == 1;
}

#endif
