/* refused FILE..: refuses the memory that each function asks for, one request after the other, until the call succeeds. A refusal has to
   answer JLS_OUT_OF_MEMORY, and to have written nothing. Link it with --wrap=malloc and --wrap=realloc. It prints each difference. */
#include <jls_salvage.h>
#include <stdio.h>
#include <stdlib.h>
#include <string.h>

void *__real_malloc(size_t size);
void *__real_realloc(void *old, size_t size);
static long left = -1, refusals;
static int differ;

static int is_refused(void) {
    if (left < 0) return 0;
    return left == 0 ? (refusals++, 1) : (left--, 0);
}

void *__wrap_malloc(size_t size) { return is_refused() ? NULL : __real_malloc(size); }
void *__wrap_realloc(void *old, size_t size) { return is_refused() ? NULL : __real_realloc(old, size); }

static void want(const char *what, int holds) {
    if (!holds) differ++, printf("%s\n", what);
}

#define ROOM (1 << 20)
static uint8_t copy[ROOM], partial[ROOM], other[ROOM], out[ROOM], blank[ROOM];
static uint16_t samples[ROOM];
static jls_line lines[4096];
static size_t size, partial_size, other_size;
static jls_info info = JLS_INFO;
static jls_header header = JLS_HEADER;
static jls_frame frame;
static const jls_layout layout = {.size = sizeof layout, .bytes = 2};
static uint16_t picture[ROOM];

static uint32_t call(int which) {
    switch (which) {
    case 0: return jls_check(copy, size, &info, (jls_piece *)out, ROOM / sizeof(jls_piece));
    case 1: return jls_read(copy, size, &info, samples, ROOM, out, ROOM);
    case 2: return jls_partial(copy, size, 7, &info, out, ROOM);
    case 3: return jls_join(partial, partial_size, other, other_size, &info, out, ROOM);
    case 4: return jls_lines(partial, partial_size, &info, samples, ROOM, lines, 4096);
    case 5: return jls_read_as(copy, size, &info, &layout, samples, ROOM, out, ROOM);
    case 6: return jls_write_as(&frame, &layout, picture, (size_t)frame.width * frame.height, out, ROOM, &info.bytes);
    case 7: return jls_read_header(copy, size, &header);
    default: return jls_write(&frame, picture, (size_t)frame.width * frame.height, out, ROOM, &info.bytes);
    }
}

static int is_untouched(void) {
    return memcmp(&info, blank, sizeof info) == 0 && memcmp(&header, blank, sizeof header) == 0 && memcmp(out, blank, ROOM) == 0
           && memcmp(samples, blank, ROOM) == 0 && memcmp(lines, blank, sizeof lines) == 0;
}

/* Refuses the first request, then the second, and so on; with many of them some are left out. */
static void refuse(int which) {
    uint32_t answer = JLS_OUT_OF_MEMORY;
    for (long number = 0; answer == JLS_OUT_OF_MEMORY; number += 1 + number / 16) {
        memset(&info, 0xA5, sizeof info), memset(&header, 0xA5, sizeof header);
        memset(out, 0xA5, ROOM), memset(samples, 0xA5, sizeof samples), memset(lines, 0xA5, sizeof lines);
        left = number;
        answer = call(which);
        int enough = left > 0 || refusals == 0;
        left = -1;
        want("want of memory isn't told", answer == JLS_OUT_OF_MEMORY || enough || answer == JLS_NO_PICTURE || answer == JLS_NO_PARTIAL);
        want("a refusal has written", answer != JLS_OUT_OF_MEMORY || is_untouched());
        refusals = 0;
    }
}

int main(int count, char **names) {
    memset(blank, 0xA5, ROOM);
    long all = 0;
    for (int at = 1; at < count; at++) {
        FILE *stream = fopen(names[at], "rb");
        if (stream == NULL) return 99;
        size = fread(copy, 1, ROOM, stream);
        fclose(stream);
        if (jls_partial(copy, size, 1, &info, partial, ROOM) != JLS_DONE) continue;
        partial_size = info.bytes;
        if (jls_partial(copy, size * 2 / 3, 2, &info, other, ROOM) != JLS_DONE) continue;
        other_size = info.bytes;
        frame = (jls_frame){(uint16_t)(3 + 7 * at), (uint16_t)(9 + at), (uint16_t)(at % 3), 16, 1, 0};
        for (size_t sample = 0; sample < 4096; sample++) picture[sample] = (uint16_t)(sample * sample * 40503u >> 7);
        for (int which = 0; which < 9; which++) refuse(which), all++;
    }
    want("no file gives a picture, so nothing was tried", all > 0);
    return printf("%ld calls, %d differ\n", all, differ), differ != 0;
}
