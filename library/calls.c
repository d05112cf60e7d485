/* The functions that jls_salvage.h declares. Each calls the proved function, to which library.mk gives a name that begins with "proved_",
   and adds four things: it refuses an old processor, and a profile that there isn't, where a proved function takes any other than 0 for
   JLS_WIDE; it writes no more of `info` than its caller has; and it says of a fault that the coding isn't supported. No proof covers this
   file. */
#include "../include/jls_salvage.h"
#include "misuse.h"
#include "processor.h"
#include <stddef.h>
#include <string.h>

/* What the proved functions write: jls_info without what stands before `samples`. */
typedef struct told {
    uint64_t samples, bytes, faulty_pieces, end_offset, lines, missing, settled, disputed;
    uint16_t width, height;
    uint8_t precision, components, end, fault;
} told;

_Static_assert(sizeof(told) == sizeof(jls_info) - offsetof(jls_info, samples), "jls_info ends with what is told");

/* The sizes in the first version, which stay as they are when a structure grows: callers that are older have these. */
enum { FIRST_INFO = 80, FIRST_HEADER = 48 };

_Static_assert(sizeof(jls_info) == FIRST_INFO && sizeof(jls_header) == FIRST_HEADER, "the sizes of the first version");

uint32_t proved_jls_check(const uint8_t *, size_t, told *, jls_piece *, size_t);
uint32_t proved_jls_read(const uint8_t *, size_t, told *, uint16_t *, size_t, uint8_t *, size_t);
uint32_t proved_jls_partial(const uint8_t *, size_t, uint32_t, told *, uint8_t *, size_t);
uint32_t proved_jls_check_under(const uint8_t *, size_t, uint32_t, told *, jls_piece *, size_t);
uint32_t proved_jls_read_under(const uint8_t *, size_t, uint32_t, told *, uint16_t *, size_t, uint8_t *, size_t);
uint32_t proved_jls_partial_under(const uint8_t *, size_t, uint32_t, uint32_t, told *, uint8_t *, size_t);
uint32_t proved_jls_join(const uint8_t *, size_t, const uint8_t *, size_t, told *, uint8_t *, size_t);
uint32_t proved_jls_lines(const uint8_t *, size_t, told *, uint16_t *, size_t, jls_line *, size_t);
uint32_t proved_jls_write(const jls_frame *, const uint16_t *, size_t, uint8_t *, size_t, uint64_t *);

/* Where the bytes of a segment's payload begin that ends a copy, and how many there are; none where it isn't whole. */
static const uint8_t *payload_at(const uint8_t *copy, size_t size, uint64_t marker, size_t *length) {
    size_t at = (size_t)marker;
    if (marker >= size) return NULL;
    while (at < size && copy[at] == 0xFF) at++;
    if (size - at < 3) return NULL;
    *length = (size_t)copy[at + 1] << 8 | copy[at + 2];
    if (*length < 2 || *length > size - at - 1) return NULL;
    *length -= 2;
    return copy + at + 3;
}

/* What isn't supported where a scan's interleave mode is the fault: its payload is Ns, two bytes a component, NEAR, ILV, Al and Ah. */
static uint32_t of_interleave(const uint8_t *copy, size_t size, uint64_t marker) {
    size_t length = 0;
    const uint8_t *payload = payload_at(copy, size, marker, &length);
    if (payload == NULL || length < 4) return JLS_SUPPORTED;
    uint8_t mode = payload[length - 2];
    return mode == 2 ? JLS_BY_SAMPLE : mode == 0 ? JLS_NOT_INTERLEAVED : JLS_SUPPORTED;
}

/* What a copy has that isn't supported, by the fault that ended it. */
static uint32_t unsupported_of(const uint8_t *copy, size_t size, uint8_t fault, uint64_t marker) {
    switch (fault) {
    case JLS_FAULT_LOSSY: return JLS_NEAR_LOSSLESS;
    case JLS_FAULT_INTERLEAVE: return of_interleave(copy, size, marker);
    case JLS_FAULT_SAMPLING: return JLS_SUBSAMPLED;
    case JLS_FAULT_MAPPING_TABLE: return JLS_MAPPING_TABLE;
    case JLS_FAULT_POINT_TRANSFORM: return JLS_POINT_TRANSFORM;
    case JLS_FAULT_INTERVAL: return JLS_LONG_INTERVAL;
    case JLS_FAULT_SCANS: return JLS_MANY_SCANS;
    default: return JLS_SUPPORTED;
    }
}

/* Writes what is told of a copy into the caller's structure, as much as that has room for. */
static void put_told(jls_info *info, const told *told, uint32_t unsupported) {
    jls_info all = {.size = info->size, .unsupported = unsupported};
    memcpy(&all.samples, told, sizeof *told);
    memcpy(info, &all, info->size < sizeof all ? info->size : sizeof all);
}

/* What to answer on a copy of which this is told: the same, or that the coding isn't supported. */
static uint32_t told_of_copy(uint32_t answer, const uint8_t *copy, size_t size, jls_info *info, const told *told) {
    if (answer == JLS_OUT_OF_MEMORY) return answer;
    uint32_t unsupported = told->end == JLS_END_HEADER ? unsupported_of(copy, size, told->fault, told->end_offset) : JLS_SUPPORTED;
    put_told(info, told, unsupported);
    return answer == JLS_DONE && unsupported != JLS_SUPPORTED ? JLS_UNSUPPORTED : answer;
}

/* The same on partial pictures. */
static uint32_t told_of_partial(uint32_t answer, jls_info *info, const told *told) {
    if (answer != JLS_OUT_OF_MEMORY && answer != JLS_SHAPES_DIFFER) put_told(info, told, JLS_SUPPORTED);
    return answer;
}

#define REFUSE_BAD(structure, first)        \
    if (!runs_here()) return JLS_PROCESSOR; \
    if ((structure)->size < (first)) return JLS_BAD_SIZE

uint32_t jls_check(const uint8_t *copy, size_t size, jls_info *info, jls_piece *pieces, size_t piece_room) {
    REFUSE_MISUSE(READ(copy, size), WRITTEN(info, 1), WRITTEN(pieces, piece_room));
    REFUSE_BAD(info, FIRST_INFO);
    told told = {0};
    uint32_t answer = proved_jls_check(copy, size, &told, pieces, piece_room);
    return told_of_copy(answer, copy, size, info, &told);
}

uint32_t jls_read(const uint8_t *copy, size_t size, jls_info *info, uint16_t *samples, size_t sample_room, uint8_t *statuses,
                  size_t status_room) {
    REFUSE_MISUSE(READ(copy, size), WRITTEN(info, 1), WRITTEN(samples, sample_room), WRITTEN(statuses, status_room));
    REFUSE_BAD(info, FIRST_INFO);
    told told = {0};
    uint32_t answer = proved_jls_read(copy, size, &told, samples, sample_room, statuses, status_room);
    return told_of_copy(answer, copy, size, info, &told);
}

uint32_t jls_partial(const uint8_t *copy, size_t size, uint32_t source, jls_info *info, uint8_t *partial, size_t room) {
    REFUSE_MISUSE(READ(copy, size), WRITTEN(info, 1), WRITTEN(partial, room));
    REFUSE_BAD(info, FIRST_INFO);
    told told = {0};
    uint32_t answer = proved_jls_partial(copy, size, source, &told, partial, room);
    return told_of_copy(answer, copy, size, info, &told);
}

uint32_t jls_check_under(const uint8_t *copy, size_t size, uint32_t profile, jls_info *info, jls_piece *pieces, size_t piece_room) {
    REFUSE_MISUSE(READ(copy, size), WRITTEN(info, 1), WRITTEN(pieces, piece_room));
    REFUSE_BAD(info, FIRST_INFO);
    if (profile > JLS_WIDE) return JLS_BAD_PROFILE;
    told told = {0};
    uint32_t answer = proved_jls_check_under(copy, size, profile, &told, pieces, piece_room);
    return told_of_copy(answer, copy, size, info, &told);
}

uint32_t jls_read_under(const uint8_t *copy, size_t size, uint32_t profile, jls_info *info, uint16_t *samples, size_t sample_room,
                        uint8_t *statuses, size_t status_room) {
    REFUSE_MISUSE(READ(copy, size), WRITTEN(info, 1), WRITTEN(samples, sample_room), WRITTEN(statuses, status_room));
    REFUSE_BAD(info, FIRST_INFO);
    if (profile > JLS_WIDE) return JLS_BAD_PROFILE;
    told told = {0};
    uint32_t answer = proved_jls_read_under(copy, size, profile, &told, samples, sample_room, statuses, status_room);
    return told_of_copy(answer, copy, size, info, &told);
}

uint32_t jls_partial_under(const uint8_t *copy, size_t size, uint32_t profile, uint32_t source, jls_info *info, uint8_t *partial,
                           size_t room) {
    REFUSE_MISUSE(READ(copy, size), WRITTEN(info, 1), WRITTEN(partial, room));
    REFUSE_BAD(info, FIRST_INFO);
    if (profile > JLS_WIDE) return JLS_BAD_PROFILE;
    told told = {0};
    uint32_t answer = proved_jls_partial_under(copy, size, profile, source, &told, partial, room);
    return told_of_copy(answer, copy, size, info, &told);
}

uint32_t jls_join(const uint8_t *first, size_t first_size, const uint8_t *second, size_t second_size, jls_info *info, uint8_t *joined,
                  size_t room) {
    REFUSE_MISUSE(READ(first, first_size), READ(second, second_size), WRITTEN(info, 1), WRITTEN(joined, room));
    REFUSE_BAD(info, FIRST_INFO);
    told told = {0};
    return told_of_partial(proved_jls_join(first, first_size, second, second_size, &told, joined, room), info, &told);
}

uint32_t jls_lines(const uint8_t *partial, size_t size, jls_info *info, uint16_t *samples, size_t sample_room, jls_line *lines,
                   size_t line_room) {
    REFUSE_MISUSE(READ(partial, size), WRITTEN(info, 1), WRITTEN(samples, sample_room), WRITTEN(lines, line_room));
    REFUSE_BAD(info, FIRST_INFO);
    told told = {0};
    return told_of_partial(proved_jls_lines(partial, size, &told, samples, sample_room, lines, line_room), info, &told);
}

uint32_t jls_write(const jls_frame *frame, const uint16_t *samples, size_t count, uint8_t *file, size_t room, uint64_t *file_size) {
    REFUSE_MISUSE(READ(frame, 1), READ(samples, count), WRITTEN(file, room), WRITTEN(file_size, 1));
    if (!runs_here()) return JLS_PROCESSOR;
    return proved_jls_write(frame, samples, count, file, room, file_size);
}

/* Headers -------------------------------------------------------------------------------------------------------------------------- */

/* What segments say up to the first scan's data, and where they end. */
typedef struct segments {
    size_t end;
    uint32_t restart_interval;
    uint8_t interleave, near_lossless;
} segments;

/* The number of these bytes, most significant first. */
static uint32_t number_of(const uint8_t *bytes, size_t count) {
    uint32_t number = 0;
    for (size_t at = 0; at < count; at++) number = number << 8 | bytes[at];
    return number;
}

/* What a scan's segment says, if it is laid out as one: Ns, two bytes a component, NEAR, ILV, Al and Ah. */
static void take_scan(segments *found, const uint8_t *payload, size_t length) {
    if (length < 6 || payload[0] > 4 || length != 2 * (size_t)payload[0] + 4) return;
    found->near_lossless = payload[length - 3];
    found->interleave = payload[length - 2];
}

/* Goes from segment to segment until after that of a scan, or to what is none. Of those that begin behind `last` it says nothing. Whether
   a segment may stand where it does, the proved function says. */
static segments walk(const uint8_t *copy, size_t size, uint64_t last) {
    segments found = {.end = size};
    size_t at = 0;
    while (at < size && copy[at] == 0xFF) at++;
    if (at == 0 || at >= size || copy[at] != 0xD8) return found;
    for (at++; at < size && at <= last;) {
        size_t length = 0, marker = at;
        while (at < size && copy[at] == 0xFF) at++;
        const uint8_t *payload = at > marker ? payload_at(copy, size, marker, &length) : NULL;
        if (payload == NULL) return found;
        uint8_t code = copy[at];
        at = (size_t)(payload - copy) + length;
        if (code == 0xDD && length >= 2 && length <= 4) found.restart_interval = number_of(payload, length);
        if (code == 0xDA) return take_scan(&found, payload, length), found.end = at, found;
    }
    return found;
}

uint32_t jls_read_header(const uint8_t *copy, size_t size, jls_header *header) {
    REFUSE_MISUSE(READ(copy, size), WRITTEN(header, 1));
    REFUSE_BAD(header, FIRST_HEADER);
    size_t end = walk(copy, size, UINT64_MAX).end;
    told told = {0};
    uint32_t answer = proved_jls_check(copy, end, &told, NULL, 0);
    if (answer == JLS_OUT_OF_MEMORY) return answer;
    /* behind a fault, or EOI, nothing belongs to the copy; the segment that has the fault may be the scan's */
    bool is_faulty = told.end == JLS_END_HEADER;
    segments found = walk(copy, end, told.end == JLS_END_EOI ? told.end_offset - 1 : told.end_offset);
    jls_header all;
    memset(&all, 0, sizeof all); /* what lies between and behind its fields too */
    all.size = header->size;
    all.unsupported = is_faulty ? unsupported_of(copy, end, told.fault, told.end_offset) : JLS_SUPPORTED;
    all.samples = told.samples;
    all.lines = told.lines;
    all.end_offset = told.end_offset;
    all.restart_interval = found.restart_interval;
    all.width = told.width;
    all.height = told.height;
    all.precision = told.precision;
    all.components = told.components;
    all.interleave = found.interleave;
    all.near_lossless = found.near_lossless;
    all.fault = is_faulty ? told.fault : JLS_FAULT_NONE;
    memcpy(header, &all, header->size < sizeof all ? header->size : sizeof all);
    return answer == JLS_DONE && all.unsupported != JLS_SUPPORTED ? JLS_UNSUPPORTED : answer;
}
