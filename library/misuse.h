/* With -DJLS_CHECKS each function stops the program where its caller breaks a rule of jls_salvage.h: by a pointer that is NULL where it has
   elements, is not aligned or ends behind all memory, or by a buffer that is written and overlaps another one. One line on stderr names the
   function and the argument. Otherwise nothing of it is compiled. No proof covers this file. */
#ifndef JLS_MISUSE_H
#define JLS_MISUSE_H

#ifdef JLS_CHECKS
#include <stdbool.h>
#include <stddef.h>
#include <stdint.h>
#include <stdio.h>
#include <stdlib.h>

/* An argument that is a buffer: its name, where it is, how many elements of which size it has, and whether it is written. */
typedef struct buffer {
    const char *name;
    const void *at;
    size_t count, size, alignment;
    bool is_written;
} buffer;

static inline void stop_misuse(const char *function, const char *name, const char *what, const char *other) {
    fprintf(stderr, "libjls_salvage: %s: %s %s%s\n", function, name, what, other);
    abort();
}

static inline bool overlap(const buffer *one, const buffer *other) {
    uintptr_t first = (uintptr_t)one->at, second = (uintptr_t)other->at;
    if (one->count == 0 || other->count == 0 || !(one->is_written || other->is_written)) return false;
    return first < second ? second - first < one->count * one->size : first - second < other->count * other->size;
}

static inline void refuse_misuse(const char *function, const buffer *buffers, size_t count) {
    for (size_t at = 0; at < count; at++) {
        const buffer *it = &buffers[at];
        if (it->count == 0) continue;
        if (it->at == NULL) stop_misuse(function, it->name, "is NULL", "");
        if ((uintptr_t)it->at % it->alignment != 0) stop_misuse(function, it->name, "is not aligned", "");
        if (it->count > (UINTPTR_MAX - (uintptr_t)it->at) / it->size) stop_misuse(function, it->name, "ends behind all memory", "");
    }
    for (size_t at = 0; at < count; at++)
        for (size_t before = 0; before < at; before++)
            if (overlap(&buffers[before], &buffers[at])) stop_misuse(function, buffers[at].name, "overlaps ", buffers[before].name);
}

#define READ(at, count) {#at, at, count, sizeof *(at), _Alignof(__typeof__(*(at))), false}
#define WRITTEN(at, count) {#at, at, count, sizeof *(at), _Alignof(__typeof__(*(at))), true}
/* Options of jls_mend, of which the first version had 20 bytes, and was aligned as its size is. */
#define READ_OPTIONS(at) {#at, at, 5, sizeof(uint32_t), _Alignof(uint32_t), false}
/* Samples at any address, of so many bytes each. */
#define READ_BYTES(at, count, bytes) {#at, at, count, (bytes) == 2 ? 2 : 1, 1, false}
#define WRITTEN_BYTES(at, count, bytes) {#at, at, count, (bytes) == 2 ? 2 : 1, 1, true}
#define REFUSE_MISUSE(...)                                                                   \
    do {                                                                                     \
        const buffer buffers_[] = {__VA_ARGS__};                                             \
        refuse_misuse(__func__, buffers_, sizeof buffers_ / sizeof *buffers_);               \
    } while (0)
#else
#define REFUSE_MISUSE(...) ((void)0)
#endif

#endif
