/* What the library calls that no C library has: memory. The toolchain declares each function to the library's code with a promise, and
   takes the promise as given: no proof covers this file. The promises are those of runtime.c, where the programs have the same. */
#include "stop.h"
#include <stdlib.h>

/* After so many bytes a call asks its caller again. Mendings mostly take them in 1 to 3 ms. */
enum { ASKED_AFTER = 1 << 20 };

_Thread_local stopping *jls_stopping;

/* Whether the caller stops this thread's call, which asks for so many bytes. While it is asked it may call the library too. */
static bool is_stopped(size_t bytes) {
    stopping *call = jls_stopping;
    if (call == NULL || call->stop == NULL) return false;
    if (call->is_stopped) return true;
    if (bytes < call->left) return call->left -= bytes, false;
    call->left = ASKED_AFTER;
    jls_stopping = NULL;
    call->is_stopped = call->stop(call->context) != 0;
    jls_stopping = call;
    return call->is_stopped;
}

void *jls_resized(const memory *by, void *block, size_t size) {
    stopping *call = jls_stopping;
    if (by->resize == NULL) return size != 0 ? realloc(block, size) : (free(block), NULL);
    jls_stopping = NULL;
    void *found = by->resize(by->context, block, size);
    jls_stopping = call;
    return found;
}

/* The same by the one who gives memory to this thread's call. */
static void *resized(void *block, size_t size) {
    static const memory plain = {NULL, NULL};
    return jls_resized(jls_stopping != NULL ? &jls_stopping->memory : &plain, block, size);
}

/* If ok, p is the memory that was asked for. Otherwise there is none, and p points at a byte that nobody reads or writes. */
struct tried { bool ok; void *p; };

static struct tried tried(void *p) {
    static char nothing;
    return (struct tried){p != NULL, p != NULL ? p : &nothing};
}

/* New memory of n bytes, at a multiple of a, which divides 16 and n: so malloc aligns it. For n = 0 it is not null either. */
struct tried rattle_alloc(size_t n, size_t a) { return tried(is_stopped(n) ? NULL : resized(NULL, n != 0 ? n : a)); }

/* The block p, which may move, has n bytes from now on, and its first `kept` bytes are as they were. Without memory it is as it was. */
struct tried rattle_realloc(void *p, size_t kept, size_t n, size_t a) {
    (void)kept;
    return tried(is_stopped(n) ? NULL : resized(p, n != 0 ? n : a));
}

/* Frees what one of the two gave. */
void rattle_dealloc(void *p) { resized(p, 0); }
