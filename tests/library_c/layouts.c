/* layouts: calls jls_write_as and jls_read_as with frames and layouts of all kinds: sizes of 0 and the largest, strides near 2^64, rooms that
   are one short. What is wanted is counted in 128 bits. Buffers have just the length that is told, and a page behind each can't be read;
   where they would be large there are none, and none may be touched. It prints each difference, and answers how many there are. */
#define _GNU_SOURCE
#include <jls_salvage.h>
#include <stdio.h>
#include <stdlib.h>
#include <string.h>
#include <sys/mman.h>

enum { PAGE = 4096, ROOM = 8 * PAGE };
typedef unsigned __int128 wide;
static uint64_t state = 0x9E3779B97F4A7C15u;
static int differ;
static long answers[16];
static uint8_t *ends[3]; /* of memory, behind which a page can't be touched */

static uint64_t chance(uint64_t below) {
    state ^= state << 13, state ^= state >> 7, state ^= state << 17;
    return (state >> 11) % below;
}

static void want(const char *what, int holds, const jls_frame *frame, const jls_layout *layout, uint64_t count) {
    if (holds) return;
    differ++;
    printf("%s: %u x %u x %u, %u bytes, interleaved %u, stride %llu, count %llu\n", what, frame->width, frame->height, frame->components,
           layout->bytes, layout->interleaved, (unsigned long long)layout->stride, (unsigned long long)count);
}

static uint16_t side(void) {
    static const uint16_t odd[] = {0, 1, 65535, 65535, 2};
    return chance(8) == 0 ? odd[chance(5)] : (uint16_t)(1 + chance(12));
}

static uint64_t stride_of(uint64_t line) {
    switch (chance(9)) {
    case 0: return line - 1;
    case 1: return UINT64_MAX - chance(3);
    case 2: return UINT64_MAX / (1 + chance(64)) + chance(3);
    case 3: return (uint64_t)1 << chance(64);
    case 4: return 0;
    default: return line + chance(6);
    }
}

/* What jls_write_as has to answer; JLS_SHORT_ROOM where it writes, or would. */
static uint32_t wanted_of(const jls_frame *frame, const jls_layout *layout, wide need, wide line, uint64_t count) {
    if (frame->width == 0 || frame->height == 0 || frame->components < 1 || frame->components > 4) return JLS_BAD_FRAME;
    if ((layout->bytes != 1 && layout->bytes != 2) || (layout->stride != 0 && layout->stride < line)) return JLS_BAD_LAYOUT;
    if (need > UINT64_MAX / 8) return JLS_BAD_LAYOUT; /* none can have so many; where there could, JLS_BAD_FRAME is right too */
    if (need > count || frame->precision < 2 || frame->precision > 16) return JLS_BAD_FRAME;
    return JLS_SHORT_ROOM;
}

static void turn(void) {
    jls_frame frame = {side(), side(), (uint16_t)(chance(3)), (uint8_t)(chance(9) == 0 ? chance(256) : 2 + chance(15)),
                       (uint8_t)(chance(9) == 0 ? chance(256) : 1 + chance(4)), (uint8_t)(chance(2) * chance(256))};
    jls_layout layout = {sizeof layout, (uint8_t)(chance(12) == 0 ? chance(256) : 1 + chance(2)), (uint8_t)(chance(2) * chance(256)), 0};
    wide line = layout.interleaved ? (wide)frame.width * frame.components : frame.width;
    wide lines = layout.interleaved ? frame.height : (wide)frame.height * frame.components;
    layout.stride = stride_of((uint64_t)line);
    wide need = lines == 0 ? 0 : (lines - 1) * (layout.stride == 0 ? line : layout.stride) + line;
    uint64_t count = need > ROOM / 2 ? ROOM / 2 : (uint64_t)need;
    if (chance(3) == 0) count = count > 0 ? count - 1 : 0;
    size_t size = (size_t)count * (layout.bytes == 2 ? 2 : 1), room = chance(4) ? ROOM : chance(200);
    uint8_t *samples = ends[0] - size, *file = ends[1] - room, *again = ends[2] - size;
    for (size_t at = 0; at < size; at++) samples[at] = layout.bytes != 2 || at % 2 == 0 ? (uint8_t)chance(4) : 0;
    uint64_t file_size = 0;
    uint32_t wanted = wanted_of(&frame, &layout, need, line, count);
    uint32_t answer = jls_write_as(&frame, &layout, samples, count, file, room, &file_size);
    answers[answer & 15]++;
    if (wanted != JLS_SHORT_ROOM) {
        int both = need > count && answer == JLS_BAD_FRAME;
        want("another refusal", answer == wanted || both, &frame, &layout, count);
        want("a size of no file", file_size == 0, &frame, &layout, count);
        return;
    }
    want("another answer", answer == (file_size > room ? JLS_SHORT_ROOM : JLS_DONE), &frame, &layout, count);
    if (answer != JLS_DONE) return;
    jls_info info = JLS_INFO;
    static uint8_t statuses[4 * 65535];
    int is_deep = layout.bytes == 1 && frame.precision > 8;
    memset(again, 0xA5, size);
    answer = jls_read_as(file, file_size, &info, &layout, again, (size_t)need - 1, statuses, sizeof statuses);
    want("room that is one short", answer == (is_deep ? JLS_LARGE_SAMPLE : JLS_SHORT_ROOM), &frame, &layout, count);
    for (size_t at = 0; at < size; at++)
        if (again[at] != 0xA5) want("a refusal has written", 0, &frame, &layout, count);
    answer = jls_read_as(file, file_size, &info, &layout, again, count, statuses, sizeof statuses);
    want("what was written isn't read", answer == (is_deep ? JLS_LARGE_SAMPLE : JLS_DONE), &frame, &layout, count);
    if (answer != JLS_DONE) return;
    uint64_t stride = layout.stride == 0 ? (uint64_t)line : layout.stride;
    for (size_t at = 0; at < size; at++) {
        int is_gap = at / layout.bytes % stride >= (uint64_t)line;
        if (again[at] != (is_gap ? 0xA5 : samples[at])) want(is_gap ? "a gap was written" : "another sample", 0, &frame, &layout, count);
    }
}

int main(void) {
    for (size_t at = 0; at < 3; at++) {
        uint8_t *room = mmap(NULL, ROOM + PAGE, PROT_READ | PROT_WRITE, MAP_PRIVATE | MAP_ANONYMOUS, -1, 0);
        if (room == MAP_FAILED || mprotect(room + ROOM, PAGE, PROT_NONE) != 0) return 98;
        ends[at] = room + ROOM;
    }
    long turns = getenv("LAYOUTS") != NULL ? atol(getenv("LAYOUTS")) : 10000;
    for (long left = turns; left > 0; left--) turn();
    printf("%ld layouts, %d differ; answers:", turns, differ);
    for (int at = 0; at < 16; at++) printf(" %ld", answers[at]);
    return puts(""), differ != 0;
}
