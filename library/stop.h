/* A call that its caller may stop, or gives memory: memory.c asks the caller. It refuses memory once the caller stops it: then the proved
   function ends as it does for want of memory. No proof covers this file. */
#ifndef JLS_STOP_H
#define JLS_STOP_H

#include <stdbool.h>
#include <stddef.h>

/* Who gives memory, as the C library's realloc does; that itself where `resize` is NULL. */
typedef struct memory {
    void *(*resize)(void *, void *, size_t);
    void *context;
} memory;

typedef struct stopping {
    int (*stop)(void *); /* NULL if nobody stops it */
    void *context;
    memory memory;
    size_t left; /* how many bytes it takes before it asks again */
    bool is_stopped;
} stopping;

/* The call of this thread; NULL where it has none of this kind, and while its caller is asked. */
extern __attribute__((visibility("hidden"))) _Thread_local stopping *jls_stopping;

/* A block of so many bytes, which begin with those of an older one, if that isn't NULL. At 0 bytes it frees the older one. */
__attribute__((visibility("hidden"))) void *jls_resized(const memory *by, void *block, size_t size);

#endif
