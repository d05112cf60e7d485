/* What the two programs call that no C library has. The toolchain declares each function to their code with a promise, and takes the
   promise as given: no proof covers this file. The promise stands above each function. Link with -Wl,--wrap=main. */
#define _GNU_SOURCE
#include <errno.h>
#include <stdbool.h>
#include <stdlib.h>
#include <sys/types.h>
#include <unistd.h>
#ifdef __x86_64__
#include <cpuid.h>
#endif
#ifndef __GLIBC__
#include <sys/syscall.h>
#endif

/* Memory ----------------------------------------------------------------------------------------------------------------------- */

/* If ok, p is the memory that was asked for. Otherwise there is none, and p points at a byte that nobody reads or writes. */
struct tried { bool ok; void *p; };

static struct tried tried(void *p) {
    static char nothing;
    return (struct tried){p != NULL, p != NULL ? p : &nothing};
}

/* New memory of n bytes, at a multiple of a. Here a divides 16, and n is a multiple of a below 2^63: so malloc aligns it. For n = 0 the
   memory is not null either, and can be freed. */
struct tried rattle_alloc(size_t n, size_t a) { return tried(malloc(n != 0 ? n : a)); }

/* The block p, which may move, has n bytes from now on, and its first `kept` bytes are as they were. If there is no memory, the block is
   as it was. */
struct tried rattle_realloc(void *p, size_t kept, size_t n, size_t a) {
    (void)kept;
    return tried(realloc(p, n != 0 ? n : a));
}

/* Frees what one of the two gave. */
void rattle_dealloc(void *p) { free(p); }

/* Errors ----------------------------------------------------------------------------------------------------------------------- */

/* The calling thread's errno. */
int rattle_errno(void) { return errno; }

/* Sets it. */
void rattle_set_errno(int error) { errno = error; }

/* Words ------------------------------------------------------------------------------------------------------------------------ */

static size_t count;
static char **words;

/* The program's own main, which the toolchain made. It takes no words: it asks for them. */
int __real_main(int, char **);

#ifdef __x86_64__
/* Whether the processor has what x86-64-v2 has beyond x86-64. In ecx of leaf 1 these are SSE3, SSSE3, CMPXCHG16B, SSE4.1, SSE4.2 and POPCNT;
   of leaf 0x80000001 LAHF. */
static bool has_level(void) {
    const unsigned needed = 1 << 0 | 1 << 9 | 1 << 13 | 1 << 19 | 1 << 20 | 1 << 23;
    unsigned a, b, c, d;
    if (!__get_cpuid(1, &a, &b, &c, &d) || (c & needed) != needed) return false;
    return __get_cpuid(0x80000001, &a, &b, &c, &d) && (c & 1) != 0;
}
#endif

/* What the C library calls in place of main. The program's own main refuses such a processor too, and names an option of the toolchain. */
int __wrap_main(int argc, char **argv) {
#ifdef __x86_64__
    static const char line[] = "this processor lacks a feature of x86-64-v2 (as SSE4.2 or POPCNT), which the program needs: use a newer one\n";
    if (!has_level()) {
        ssize_t done = write(2, line, sizeof line - 1);
        (void)done;
        return 127;
    }
#endif
    count = argc > 0 ? (size_t)argc : 0;
    words = argv;
    return __real_main(argc, argv);
}

/* Puts word i, of which the first is the program's own name, at the start of buf and gives its length. Gives -1 if there is no such word,
   and -2 if it has more than len bytes: then buf has the first len of them. */
ssize_t rattle_arg(size_t i, char *buf, size_t len) {
    if (i >= count) return -1;
    for (size_t at = 0; ; at++) {
        if (words[i][at] == 0) return (ssize_t)at;
        if (at == len) return -2;
        buf[at] = words[i][at];
    }
}

/* What glibc has and other C libraries lack ------------------------------------------------------------------------------------ */

#ifdef __x86_64__
/* What cpuid says of the processor in eax, ebx, ecx and edx, and which of that may be used, which is the same for what is asked here. 0
   asks for leaf 1, and 2 for leaf 0x80000001; `main` asks for no other. glibc has it too, from 2.33 on. This one is hidden, so that no
   library takes it for glibc's; and weak, as a static program may have both. */
struct leaf { unsigned said[4], usable[4]; };

__attribute__((weak, visibility("hidden"))) const struct leaf *__x86_get_cpuid_feature_leaf(unsigned which) {
    static struct leaf leaves[2];
    struct leaf *found = &leaves[which == 0 ? 0 : 1];
    unsigned *in = found->usable;
    if (!__get_cpuid(which == 0 ? 1 : 0x80000001, &in[0], &in[1], &in[2], &in[3])) in[0] = in[1] = in[2] = in[3] = 0;
    for (int at = 0; at < 4; at++) found->said[at] = in[at];
    return found;
}
#endif

#ifndef __GLIBC__
/* POSIX's write, and Linux's statx. */
__attribute__((weak)) ssize_t __write(int fd, const void *buf, size_t len) { return write(fd, buf, len); }

__attribute__((weak)) int statx(int dir, const char *name, int flags, unsigned mask, void *found) {
    return (int)syscall(SYS_statx, dir, name, flags, mask, found);
}
#endif
