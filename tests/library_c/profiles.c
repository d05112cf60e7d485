/* profiles FOLDER: reads files whose components are interleaved by sample, under JLS_WIDE and under JLS_STRICT, whole, cut at each byte and
   damaged. CharLS 2.4.1 wrote them, of samples that `sample` tells; those with restart markers are pieces that it wrote, one behind the
   other, and it reads them. It writes the files to FOLDER, and prints each difference. */
#include <jls_salvage.h>
#include <stdio.h>
#include <stdlib.h>
#include <string.h>

static int differ;

static void want(const char *what, int holds) {
    if (!holds) differ++, printf("%s\n", what);
}

static const uint8_t EIGHT[] = {
    0xFF, 0xD8, 0xFF, 0xF7, 0x00, 0x11, 0x08, 0x00, 0x04, 0x00, 0x05, 0x03, 0x01, 0x11, 0x00, 0x02, 0x11, 0x00, 0x03, 0x11, 0x00, 0xFF,
    0xDA, 0x00, 0x0C, 0x03, 0x01, 0x00, 0x02, 0x00, 0x03, 0x00, 0x00, 0x02, 0x00, 0x40, 0x00, 0x40, 0x60, 0x00, 0x18, 0x00, 0x0A, 0x00,
    0x05, 0x05, 0x66, 0x93, 0x38, 0xCC, 0xE4, 0x71, 0x00, 0x00, 0x00, 0xB4, 0x8B, 0x3B, 0x00, 0x00, 0x00, 0x57, 0x40, 0x00, 0x00, 0x57,
    0x40, 0x00, 0x00, 0x57, 0x5C, 0x38, 0x70, 0x00, 0x00, 0x02, 0xB8, 0x7E, 0xC3, 0x12, 0x00, 0x00, 0x01, 0x5D, 0x12, 0x35, 0x1B, 0x1A,
    0x19, 0x6C, 0x5C, 0xC1, 0x5D, 0x65, 0x6F, 0xBD, 0x7A, 0xF2, 0xA2, 0x82, 0x64, 0x09, 0x14, 0x28, 0xA9, 0xAA, 0x81, 0xE1, 0xD8, 0xDD,
    0xB6, 0xFF, 0xD9};
static const uint8_t TWELVE[] = {
    0xFF, 0xD8, 0xFF, 0xF7, 0x00, 0x11, 0x0C, 0x00, 0x02, 0x00, 0x03, 0x03, 0x01, 0x11, 0x00, 0x02, 0x11, 0x00, 0x03, 0x11, 0x00, 0xFF,
    0xDA, 0x00, 0x0C, 0x03, 0x01, 0x00, 0x02, 0x00, 0x03, 0x00, 0x00, 0x02, 0x00, 0x40, 0x00, 0x04, 0x40, 0x62, 0x00, 0x01, 0x88, 0x00,
    0x0C, 0x20, 0x00, 0x61, 0x05, 0xBE, 0x6D, 0xD3, 0x6D, 0x80, 0x00, 0x00, 0xC4, 0x00, 0x00, 0x03, 0x10, 0x00, 0x00, 0x0C, 0x4E, 0x81,
    0xDF, 0x3D, 0xC0, 0x00, 0x00, 0x18, 0x84, 0x40, 0xCB, 0xC0, 0xFF, 0xD9};
static const uint8_t INTERVALS[] = {
    0xFF, 0xD8, 0xFF, 0xF7, 0x00, 0x11, 0x08, 0x00, 0x06, 0x00, 0x05, 0x03, 0x01, 0x11, 0x00, 0x02, 0x11, 0x00, 0x03, 0x11, 0x00, 0xFF,
    0xDD, 0x00, 0x04, 0x00, 0x02, 0xFF, 0xDA, 0x00, 0x0C, 0x03, 0x01, 0x00, 0x02, 0x00, 0x03, 0x00, 0x00, 0x02, 0x00, 0x40, 0x00, 0x40,
    0x60, 0x00, 0x18, 0x00, 0x0A, 0x00, 0x05, 0x05, 0x66, 0x93, 0x38, 0xCC, 0xE4, 0x71, 0x00, 0x00, 0x00, 0xB4, 0x8B, 0x3B, 0x00, 0x00,
    0x00, 0x57, 0x40, 0x00, 0x00, 0x57, 0x40, 0x00, 0x00, 0x57, 0x5C, 0x38, 0x70, 0x00, 0x00, 0x02, 0xB8, 0x7E, 0xC3, 0x12, 0x00, 0x00,
    0x01, 0x5D, 0x12, 0x35, 0x00, 0xFF, 0xD0, 0x00, 0x00, 0x01, 0xBB, 0x15, 0x9E, 0x00, 0x00, 0x57, 0x6F, 0x41, 0x39, 0xA4, 0xD6, 0x35,
    0x0C, 0x8D, 0xEF, 0x0E, 0xAE, 0x40, 0x00, 0x00, 0x15, 0xD3, 0xC5, 0xAE, 0x9E, 0x3E, 0x00, 0x00, 0x00, 0xAE, 0x1F, 0xB0, 0x8B, 0x82,
    0x50, 0x85, 0x36, 0xFF, 0xD1, 0x00, 0x00, 0x01, 0x86, 0x6D, 0x53, 0x00, 0x02, 0xBF, 0x25, 0x04, 0xE6, 0xD3, 0xA8, 0xD4, 0x30, 0x35,
    0xBC, 0x39, 0xB7, 0x00, 0x00, 0x00, 0x57, 0x4F, 0x16, 0x80, 0x00, 0xA4, 0x3C, 0x19, 0x1E, 0x84, 0x25, 0xF6, 0x36, 0x78, 0x00, 0x00,
    0x02, 0xBE, 0x68, 0xFF, 0xD9};

enum { COMPONENTS = 3, MOST = 3 * 5 * 6, SECOND_PIECE = 95 };

typedef struct file {
    const char *name;
    const uint8_t *bytes;
    size_t size;
    unsigned width, height, bits;
    uint64_t scan; /* where SOS is */
} file;

static const file FILES[] = {
    {"eight", EIGHT, sizeof EIGHT, 5, 4, 8, 21},
    {"twelve", TWELVE, sizeof TWELVE, 3, 2, 12, 21},
    {"intervals", INTERVALS, sizeof INTERVALS, 5, 6, 8, 27},
};

static uint16_t sample(const file *it, unsigned component, unsigned y, unsigned x) {
    unsigned eight = (x * x * 29 + y * 47 + component * 13 + x * y * component) % 256;
    return (uint16_t)(it->bits == 8 ? eight : 16 * eight + (x + y + component) % 16);
}

/* How many of the first rows are settled, if all lines of these are, those below are missing, and all samples are right. */
static int settled_rows(const file *it, const uint16_t *samples, const uint8_t *statuses) {
    unsigned rows = 0;
    while (rows < it->height && statuses[rows] == JLS_SETTLED) rows++;
    for (unsigned component = 0; component < COMPONENTS; component++)
        for (unsigned y = 0; y < it->height; y++) {
            unsigned line = component * it->height + y;
            if (statuses[line] != (y < rows ? JLS_SETTLED : JLS_MISSING)) return -1;
            for (unsigned x = 0; x < it->width; x++)
                if (samples[line * it->width + x] != (y < rows ? sample(it, component, y, x) : 0)) return -1;
        }
    return (int)rows;
}

static void whole(const file *it) {
    jls_info info = JLS_INFO, read = JLS_INFO;
    uint16_t samples[MOST];
    uint8_t statuses[MOST];
    jls_piece pieces[4];
    uint64_t lines = COMPONENTS * it->height, count = lines * it->width;
    want("a whole file isn't read", jls_check_under(it->bytes, it->size, JLS_WIDE, &info, pieces, 4) == JLS_DONE);
    want("lines are lost", info.settled == lines && info.missing == 0 && info.disputed == 0 && info.faulty_pieces == 0);
    want("another end", info.end == JLS_END_EOI && info.fault == JLS_FAULT_NONE && info.end_offset == it->size - 2);
    want("something isn't supported", info.unsupported == JLS_SUPPORTED);
    want("another shape", info.width == it->width && info.height == it->height && info.precision == it->bits && info.components == COMPONENTS);
    want("no samples", jls_read_under(it->bytes, it->size, JLS_WIDE, &read, samples, count, statuses, lines) == JLS_DONE);
    want("another info", memcmp(&info, &read, sizeof info) == 0);
    want("other samples", settled_rows(it, samples, statuses) == (int)it->height);
    want("room that is short", jls_read_under(it->bytes, it->size, JLS_WIDE, &read, samples, count - 1, statuses, lines) == JLS_SHORT_ROOM);
    want("too few statuses", jls_read_under(it->bytes, it->size, JLS_WIDE, &read, samples, count, statuses, lines - 1) == JLS_SHORT_ROOM);
}

/* By pixel, as CharLS was given them. */
static void by_pixel(const file *it) {
    jls_layout layout = {.size = sizeof layout, .bytes = 2, .interleaved = 1};
    jls_info info = JLS_INFO;
    uint16_t pixels[MOST];
    uint8_t statuses[MOST];
    size_t count = (size_t)COMPONENTS * it->height * it->width, lines = COMPONENTS * it->height;
    want("no pixels", jls_read_as_under(it->bytes, it->size, JLS_WIDE, &info, &layout, pixels, count, statuses, lines) == JLS_DONE);
    for (size_t at = 0; at < count; at++) {
        size_t pixel = at / COMPONENTS;
        unsigned y = (unsigned)(pixel / it->width), x = (unsigned)(pixel % it->width);
        want("another pixel", pixels[at] == sample(it, at % COMPONENTS, y, x));
    }
    want("pixels in short room", jls_read_as_under(it->bytes, it->size, JLS_WIDE, &info, &layout, pixels, count - 1, statuses, lines)
                                     == JLS_SHORT_ROOM && info.settled == lines);
    memset(pixels, 0xA5, sizeof pixels);
    want("strict pixels", jls_read_as(it->bytes, it->size, &info, &layout, pixels, count, statuses, lines) == JLS_UNSUPPORTED);
    for (size_t at = 0; at < count; at++) want("a strict pixel", pixels[at] == 0);
}

/* Under JLS_STRICT the scan ends the copy, and a call without a profile says the same. */
static void strictly(const file *it) {
    jls_info info = JLS_INFO, other = JLS_INFO;
    jls_header header = JLS_HEADER;
    uint16_t samples[MOST], others[MOST];
    uint8_t statuses[MOST], partial[4096], another[4096];
    uint64_t lines = COMPONENTS * it->height, count = lines * it->width;
    want("it is read strictly", jls_check_under(it->bytes, it->size, JLS_STRICT, &info, NULL, 0) == JLS_UNSUPPORTED);
    want("lines of a scan that isn't read", info.missing == lines && info.unsupported == JLS_BY_SAMPLE);
    want("another strict end", info.end == JLS_END_HEADER && info.fault == JLS_FAULT_INTERLEAVE && info.end_offset == it->scan);
    want("the default isn't strict", jls_check(it->bytes, it->size, &other, NULL, 0) == JLS_UNSUPPORTED);
    want("another strict info", memcmp(&info, &other, sizeof info) == 0);
    want("a header", jls_read_header(it->bytes, it->size, &header) == JLS_UNSUPPORTED && header.unsupported == JLS_BY_SAMPLE);
    want("strict samples", jls_read_under(it->bytes, it->size, JLS_STRICT, &info, samples, count, statuses, lines) == JLS_UNSUPPORTED);
    want("strict samples of none", settled_rows(it, samples, statuses) == 0);
    want("samples by default", jls_read(it->bytes, it->size, &other, others, count, statuses, lines) == JLS_UNSUPPORTED);
    want("others", memcmp(samples, others, 2 * count) == 0);
    want("a strict partial picture", jls_partial_under(it->bytes, it->size, JLS_STRICT, 3, &info, partial, 4096) == JLS_UNSUPPORTED);
    want("that by default", jls_partial(it->bytes, it->size, 3, &other, another, 4096) == JLS_UNSUPPORTED && info.bytes == other.bytes);
    want("another", memcmp(partial, another, info.bytes) == 0);
}

/* Cut at each byte: rows before the cut come back, whole ones alone, and never fewer of a longer copy. Joined with what the whole copy
   gives they give that. */
static void cut(const file *it) {
    jls_info info = JLS_INFO;
    uint16_t samples[MOST];
    uint8_t statuses[MOST], partial[4096], part[4096], joined[4096];
    jls_line shown[MOST];
    uint64_t lines = COMPONENTS * it->height, count = lines * it->width;
    int before = 0;
    want("no partial picture", jls_partial_under(it->bytes, it->size, JLS_WIDE, 7, &info, partial, 4096) == JLS_DONE);
    size_t bytes = info.bytes;
    want("its lines", jls_lines(partial, bytes, &info, samples, count, shown, lines) == JLS_DONE && info.settled == lines);
    memset(statuses, JLS_SETTLED, sizeof statuses);
    want("its samples", settled_rows(it, samples, statuses) == (int)it->height);
    for (size_t size = it->scan + 14; size <= it->size; size++) {
        want("a cut copy", jls_read_under(it->bytes, size, JLS_WIDE, &info, samples, count, statuses, lines) == JLS_DONE);
        int rows = settled_rows(it, samples, statuses);
        want("rows of a cut copy", rows >= before);
        before = rows;
        want("a part", jls_partial_under(it->bytes, size, JLS_WIDE, 7, &info, part, 4096) == JLS_DONE);
        want("a join", jls_join(part, info.bytes, partial, bytes, &info, joined, 4096) == JLS_DONE && info.bytes == bytes);
        want("another join", memcmp(joined, partial, bytes) == 0);
    }
    want("rows that don't come back", before == (int)it->height);
}

/* A byte of 0x80 or more behind 0xFF is in no code: the second of three pieces gives no line, and the others do. */
static void damaged(void) {
    const file *it = &FILES[2];
    uint8_t copy[sizeof INTERVALS], statuses[MOST];
    uint16_t samples[MOST];
    jls_piece pieces[2];
    jls_info info = JLS_INFO;
    memcpy(copy, INTERVALS, sizeof copy);
    copy[SECOND_PIECE + 9] = 0xFF, copy[SECOND_PIECE + 10] = 0x90;
    want("a damaged copy", jls_check_under(copy, sizeof copy, JLS_WIDE, &info, pieces, 2) == JLS_DONE);
    want("a piece is lost", info.faulty_pieces == 1 && info.settled == 12 && info.missing == 6);
    want("another piece", pieces[0].offset == SECOND_PIECE && pieces[0].interval == 1 && pieces[0].scan == 0 && pieces[0].kind == JLS_BROKEN);
    want("no lines of it", jls_read_under(copy, sizeof copy, JLS_WIDE, &info, samples, MOST, statuses, MOST) == JLS_DONE);
    for (unsigned component = 0; component < COMPONENTS; component++)
        for (unsigned y = 0; y < it->height; y++) {
            unsigned line = component * it->height + y;
            int is_lost = y / 2 == 1;
            want("another status", statuses[line] == (is_lost ? JLS_MISSING : JLS_SETTLED));
            for (unsigned x = 0; x < it->width; x++)
                want("another sample", samples[line * it->width + x] == (is_lost ? 0 : sample(it, component, y, x)));
        }
}

/* A profile that there isn't, no copy, and a structure without its size. */
static void refused(void) {
    const jls_layout layout = {.size = sizeof layout, .bytes = 2};
    static const uint32_t none[] = {2, 3, 256, 1u << 31, UINT32_MAX};
    jls_info info, blank;
    uint16_t samples[MOST];
    uint8_t statuses[MOST], partial[4096];
    memset(samples, 0x5A, sizeof samples), memset(statuses, 0x5A, sizeof statuses), memset(partial, 0x5A, sizeof partial);
    for (size_t at = 0; at < sizeof none / sizeof *none; at++) {
        memset(&info, 0x5A, sizeof info), blank = info;
        want("a check", jls_check_under(EIGHT, sizeof EIGHT, none[at], &info, NULL, 0) == JLS_BAD_PROFILE);
        want("a reading", jls_read_under(EIGHT, sizeof EIGHT, none[at], &info, samples, MOST, statuses, MOST) == JLS_BAD_PROFILE);
        want("pixels", jls_read_as_under(EIGHT, sizeof EIGHT, none[at], &info, &layout, samples, MOST, statuses, MOST) == JLS_BAD_PROFILE);
        want("a partial picture", jls_partial_under(EIGHT, sizeof EIGHT, none[at], 1, &info, partial, 4096) == JLS_BAD_PROFILE);
        want("no copy", jls_check_under(NULL, 0, none[at], &info, NULL, 0) == JLS_BAD_PROFILE);
        want("it was written", memcmp(&info, &blank, sizeof info) == 0);
    }
    for (size_t at = 0; at < MOST; at++) want("a sample was written", samples[at] == 0x5A5A && statuses[at] == 0x5A);
    for (size_t at = 0; at < sizeof partial; at++) want("a byte was written", partial[at] == 0x5A);
    for (uint32_t profile = JLS_STRICT; profile <= JLS_WIDE; profile++) {
        jls_info told = JLS_INFO;
        memset(&info, 0, sizeof info);
        want("a check without a size", jls_check_under(EIGHT, sizeof EIGHT, profile, &info, NULL, 0) == JLS_BAD_SIZE);
        want("a reading", jls_read_under(EIGHT, sizeof EIGHT, profile, &info, samples, MOST, statuses, MOST) == JLS_BAD_SIZE);
        want("a partial picture", jls_partial_under(EIGHT, sizeof EIGHT, profile, 1, &info, partial, 4096) == JLS_BAD_SIZE);
        want("nothing", jls_check_under(NULL, 0, profile, &told, NULL, 0) == JLS_NO_PICTURE && told.fault == JLS_FAULT_ENDED);
        want("nothing, read", jls_read_under(NULL, 0, profile, &told, NULL, 0, NULL, 0) == JLS_NO_PICTURE && told.fault == JLS_FAULT_ENDED);
        want("pixels of nothing", jls_read_as_under(NULL, 0, profile, &told, &layout, NULL, 0, NULL, 0) == JLS_NO_PICTURE);
        want("a partial picture of nothing", jls_partial_under(NULL, 0, profile, 1, &told, NULL, 0) == JLS_NO_PICTURE);
    }
}

/* One component by sample, and values that no mode has, are refused under both profiles. */
static void other_modes(void) {
    static const uint8_t grey[] = {0xFF, 0xD8, 0xFF, 0xF7, 0, 11, 8, 0, 1, 0, 1, 1, 1, 0x11, 0, 0xFF, 0xDA, 0, 8, 1, 1, 0, 0, 2, 0, 0x80, 0xFF, 0xD9};
    uint8_t copy[sizeof EIGHT];
    jls_info info = JLS_INFO;
    want("a component by sample", jls_check_under(grey, sizeof grey, JLS_WIDE, &info, NULL, 0) == JLS_UNSUPPORTED && info.missing == 1);
    want("what it says", info.unsupported == JLS_BY_SAMPLE && info.fault == JLS_FAULT_INTERLEAVE && info.end_offset == 15);
    memcpy(copy, EIGHT, sizeof copy);
    copy[33] = 3;
    want("another mode", jls_check_under(copy, sizeof copy, JLS_WIDE, &info, NULL, 0) == JLS_DONE && info.fault == JLS_FAULT_INTERLEAVE);
    copy[33] = 0;
    want("no mode", jls_check_under(copy, sizeof copy, JLS_WIDE, &info, NULL, 0) == JLS_UNSUPPORTED && info.unsupported == JLS_NOT_INTERLEAVED);
    copy[33] = 2, copy[32] = 1;
    want("near-lossless", jls_check_under(copy, sizeof copy, JLS_WIDE, &info, NULL, 0) == JLS_UNSUPPORTED && info.unsupported == JLS_NEAR_LOSSLESS);
}

static void put(const char *folder, const file *it) {
    char path[4096];
    snprintf(path, sizeof path, "%s/%s.jls", folder, it->name);
    FILE *stream = fopen(path, "wb");
    want("no file", stream != NULL && fwrite(it->bytes, 1, it->size, stream) == it->size && fclose(stream) == 0);
}

int main(int count, char **words) {
    if (count != 2) return 99;
    for (size_t at = 0; at < sizeof FILES / sizeof *FILES; at++) {
        const file *it = &FILES[at];
        put(words[1], it);
        whole(it);
        by_pixel(it);
        strictly(it);
        cut(it);
    }
    damaged();
    refused();
    other_modes();
    return printf("%d differ\n", differ), differ != 0;
}
