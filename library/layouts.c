/* Samples as callers hold them: of one byte or two, with a stride, by component or by pixel. They go through a buffer that stands as
   jls_read and jls_write have it. No proof covers this file. */
#include "../include/jls_salvage.h"
#include "misuse.h"
#include "processor.h"
#include <stdlib.h>
#include <string.h>

/* The size in the first version, which stays as it is when the structure grows. */
enum { FIRST_LAYOUT = 16 };

_Static_assert(sizeof(jls_layout) == FIRST_LAYOUT, "the size of the first version");

typedef struct place {
    uint64_t width, height, components;
    uint64_t stride;   /* from the first sample of a line to that of the next */
    uint64_t plane;    /* from the first sample of a component to that of the next */
    uint64_t step;     /* from a sample to the next of its line */
    uint64_t room;     /* all samples of the buffer that are used, or skipped */
} place;

/* Whether all that a caller of a later version sets is known here: the rest has to be 0. */
static bool is_known(const jls_layout *layout) {
    for (size_t at = sizeof *layout; at < layout->size; at++)
        if (((const uint8_t *)layout)[at] != 0) return false;
    return true;
}

/* Where samples of such a picture stand in a layout; false where there is no such layout. */
static bool place_of(const jls_layout *layout, uint64_t width, uint64_t height, uint64_t components, place *found) {
    uint64_t line = layout->interleaved ? width * components : width, stride = layout->stride != 0 ? layout->stride : line;
    uint64_t lines = layout->interleaved ? height : height * components;
    if ((layout->bytes != 1 && layout->bytes != 2) || stride < line || lines == 0 || !is_known(layout)) return false;
    if (lines > 1 && stride > (UINT64_MAX / 4 - line) / (lines - 1)) return false;
    *found = (place){width, height, components, stride, layout->interleaved ? 1 : height * stride, layout->interleaved ? components : 1,
                     (lines - 1) * stride + line};
    return true;
}

static uint64_t index_of(const place *at, uint64_t component, uint64_t line, uint64_t column) {
    return component * at->plane + line * at->stride + column * at->step;
}

static void spread(const uint16_t *from, const place *at, void *to, uint8_t bytes) {
    for (uint64_t component = 0; component < at->components; component++)
        for (uint64_t line = 0; line < at->height; line++)
            for (uint64_t column = 0; column < at->width; column++, from++) {
                uint64_t index = index_of(at, component, line, column);
                if (bytes == 1) ((uint8_t *)to)[index] = (uint8_t)*from;
                else memcpy((uint8_t *)to + 2 * index, from, 2); /* at any address */
            }
}

static void gather(const void *from, const place *at, uint16_t *to, uint8_t bytes) {
    for (uint64_t component = 0; component < at->components; component++)
        for (uint64_t line = 0; line < at->height; line++)
            for (uint64_t column = 0; column < at->width; column++, to++) {
                uint64_t index = index_of(at, component, line, column);
                if (bytes == 1) *to = ((const uint8_t *)from)[index];
                else memcpy(to, (const uint8_t *)from + 2 * index, 2);
            }
}

/* Room for samples; NULL where there is none, or they can't be so many. */
static uint16_t *room_for(uint64_t count) { return count > SIZE_MAX / 2 ? NULL : malloc(count != 0 ? 2 * (size_t)count : 1); }

/* What jls_read_as and jls_read_as_under do, under a profile that there is. */
static uint32_t read_as(const uint8_t *copy, size_t size, uint32_t profile, jls_info *info, const jls_layout *layout, void *samples,
                        size_t sample_room, uint8_t *statuses, size_t status_room) {
    jls_header header = JLS_HEADER;
    uint16_t *planes;
    place at;
    uint32_t answer = jls_read_header(copy, size, &header);
    if (answer == JLS_OUT_OF_MEMORY) return answer;
    if (answer == JLS_NO_PICTURE) return jls_check_under(copy, size, profile, info, NULL, 0);
    if (!place_of(layout, header.width, header.height, header.components, &at)) return JLS_BAD_LAYOUT;
    if (layout->bytes == 1 && header.precision > 8) return JLS_LARGE_SAMPLE;
    if (at.room > sample_room) {
        answer = jls_check_under(copy, size, profile, info, NULL, 0);
        return answer == JLS_DONE || answer == JLS_UNSUPPORTED ? JLS_SHORT_ROOM : answer;
    }
    planes = room_for(header.samples);
    if (planes == NULL) return JLS_OUT_OF_MEMORY;
    answer = jls_read_under(copy, size, profile, info, planes, (size_t)header.samples, statuses, status_room);
    if (answer == JLS_DONE || answer == JLS_UNSUPPORTED) spread(planes, &at, samples, layout->bytes);
    free(planes);
    return answer;
}

uint32_t jls_read_as(const uint8_t *copy, size_t size, jls_info *info, const jls_layout *layout, void *samples, size_t sample_room,
                     uint8_t *statuses, size_t status_room) {
    REFUSE_MISUSE(READ(layout, 1));
    REFUSE_MISUSE(READ(copy, size), WRITTEN(info, 1), READ(layout, 1), WRITTEN_BYTES(samples, sample_room, layout->bytes),
                  WRITTEN(statuses, status_room));
    if (!runs_here()) return JLS_PROCESSOR;
    if (layout->size < FIRST_LAYOUT) return JLS_BAD_SIZE;
    return read_as(copy, size, JLS_STRICT, info, layout, samples, sample_room, statuses, status_room);
}

uint32_t jls_read_as_under(const uint8_t *copy, size_t size, uint32_t profile, jls_info *info, const jls_layout *layout, void *samples,
                           size_t sample_room, uint8_t *statuses, size_t status_room) {
    REFUSE_MISUSE(READ(layout, 1));
    REFUSE_MISUSE(READ(copy, size), WRITTEN(info, 1), READ(layout, 1), WRITTEN_BYTES(samples, sample_room, layout->bytes),
                  WRITTEN(statuses, status_room));
    if (!runs_here()) return JLS_PROCESSOR;
    if (layout->size < FIRST_LAYOUT) return JLS_BAD_SIZE;
    if (profile > JLS_WIDE) return JLS_BAD_PROFILE;
    return read_as(copy, size, profile, info, layout, samples, sample_room, statuses, status_room);
}

uint32_t jls_write_as(const jls_frame *frame, const jls_layout *layout, const void *samples, size_t count, uint8_t *file, size_t room,
                      uint64_t *file_size) {
    REFUSE_MISUSE(READ(layout, 1));
    REFUSE_MISUSE(READ(frame, 1), READ(layout, 1), READ_BYTES(samples, count, layout->bytes), WRITTEN(file, room), WRITTEN(file_size, 1));
    place at;
    if (!runs_here()) return JLS_PROCESSOR;
    if (layout->size < FIRST_LAYOUT) return JLS_BAD_SIZE;
    if (frame->width == 0 || frame->height == 0 || frame->components < 1 || frame->components > 4) return JLS_BAD_FRAME;
    if (!place_of(layout, frame->width, frame->height, frame->components, &at)) return JLS_BAD_LAYOUT;
    if (at.room > count) return JLS_BAD_FRAME;
    uint64_t all = at.width * at.height * at.components;
    uint16_t *planes = room_for(all);
    if (planes == NULL) return JLS_OUT_OF_MEMORY;
    gather(samples, &at, planes, layout->bytes);
    uint32_t answer = jls_write(frame, planes, (size_t)all, file, room, file_size);
    free(planes);
    return answer;
}
