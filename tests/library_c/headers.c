/* headers: small files whose headers are written by hand, each with what jls_read_header has to say of it, and layouts that there are or
   aren't. It prints each difference, and answers how many there are. */
#include <jls_salvage.h>
#include <stdio.h>
#include <stdlib.h>
#include <string.h>

static int differ;

static void want(const char *what, int holds) {
    if (!holds) differ++, printf("%s\n", what);
}

typedef struct bytes { uint8_t at[256]; size_t size; } bytes;

static bytes hex(const char *text) {
    bytes found = {{0}, 0};
    char *end;
    for (unsigned long byte = strtoul(text, &end, 16); end != text; byte = strtoul(text, &end, 16)) found.at[found.size++] = (uint8_t)byte, text = end;
    return found;
}

/* What a header has to say: the answer, the fault and its place, the shape and the coding. */
static void wants(const char *what, const char *text, jls_header wanted, uint32_t answer) {
    bytes copy = hex(text);
    jls_header found = JLS_HEADER;
    want(what, jls_read_header(copy.at, copy.size, &found) == answer);
    wanted.size = sizeof wanted;
    int same = found.unsupported == wanted.unsupported && found.samples == wanted.samples && found.lines == wanted.lines
               && found.end_offset == wanted.end_offset && found.restart_interval == wanted.restart_interval && found.width == wanted.width
               && found.height == wanted.height && found.precision == wanted.precision && found.components == wanted.components
               && found.interleave == wanted.interleave && found.near_lossless == wanted.near_lossless && found.fault == wanted.fault;
    want(what, same);
    if (!same)
        printf("  %u %u, %u x %u, end %u, %u, interval %u, %u %u\n", found.unsupported, found.fault, found.width, found.height,
               (unsigned)found.end_offset, found.precision, (unsigned)found.restart_interval, found.interleave, found.near_lossless);
}

#define GREY "FF F7 00 0B 08 00 02 00 03 01 01 11 00 "
#define RED_GREEN_BLUE "FF F7 00 11 0C 00 02 00 03 03 01 11 00 02 11 00 03 11 00 "
#define SCAN "FF DA 00 08 01 01 00 00 00 00 "
#define LOSSY_SCAN "FF DA 00 08 01 01 00 05 02 00 "

static void of_headers(void) {
    jls_header grey = {.samples = 6, .lines = 2, .width = 3, .height = 2, .precision = 8, .components = 1, .end_offset = 25};
    jls_header colour = {.samples = 18, .lines = 6, .width = 3, .height = 2, .precision = 12, .components = 3, .end_offset = 35};
    wants("one component", "FF D8 " GREY SCAN "12 34", grey, JLS_DONE);
    wants("headers alone", "FF D8 " GREY SCAN, grey, JLS_DONE);
    jls_header other = grey;
    other.end_offset = 31, other.restart_interval = 258;
    wants("a restart interval", "FF D8 FF DD 00 04 01 02 " GREY SCAN, other, JLS_DONE);
    other.end_offset = 33, other.restart_interval = 65538;
    wants("a restart interval of four bytes", "FF D8 FF DD 00 06 00 01 00 02 " GREY SCAN, other, JLS_DONE);
    other = grey, other.end_offset = 34;
    wants("fill bytes, and a comment", "FF D8 FF FF FF FE 00 05 41 42 43 " GREY SCAN, other, JLS_DONE);
    other = colour, other.interleave = 1;
    wants("by line", "FF D8 " RED_GREEN_BLUE "FF DA 00 0C 03 01 00 02 00 03 00 00 01 00", other, JLS_DONE);
    other.interleave = 2, other.unsupported = JLS_BY_SAMPLE, other.fault = JLS_FAULT_INTERLEAVE, other.end_offset = 21;
    wants("by sample", "FF D8 " RED_GREEN_BLUE "FF DA 00 0C 03 01 00 02 00 03 00 00 02 00", other, JLS_UNSUPPORTED);
    other.interleave = 0, other.unsupported = JLS_NOT_INTERLEAVED;
    wants("not interleaved", "FF D8 " RED_GREEN_BLUE "FF DA 00 0C 03 01 00 02 00 03 00 00 00 00", other, JLS_UNSUPPORTED);
    other = grey, other.near_lossless = 2, other.unsupported = JLS_NEAR_LOSSLESS, other.fault = JLS_FAULT_LOSSY, other.end_offset = 15;
    wants("near-lossless", "FF D8 " GREY "FF DA 00 08 01 01 00 02 00 00", other, JLS_UNSUPPORTED);
    other.near_lossless = 0, other.unsupported = JLS_MAPPING_TABLE, other.fault = JLS_FAULT_MAPPING_TABLE;
    wants("a mapping table", "FF D8 " GREY "FF DA 00 08 01 01 01 00 00 00", other, JLS_UNSUPPORTED);
    other.unsupported = JLS_POINT_TRANSFORM, other.fault = JLS_FAULT_POINT_TRANSFORM;
    wants("a point transform", "FF D8 " GREY "FF DA 00 08 01 01 00 00 00 01", other, JLS_UNSUPPORTED);
    wants("no frame", "FF D8 FF D9", (jls_header){.fault = JLS_FAULT_NO_FRAME, .end_offset = 2}, JLS_NO_PICTURE);
    wants("no start", "12 34", (jls_header){.fault = JLS_FAULT_NO_SOI, .end_offset = 0}, JLS_NO_PICTURE);
    wants("nothing", "", (jls_header){.fault = JLS_FAULT_ENDED, .end_offset = 0}, JLS_NO_PICTURE);
    other = (jls_header){.fault = JLS_FAULT_SAMPLING, .unsupported = JLS_SUBSAMPLED, .end_offset = 2};
    wants("subsampled", "FF D8 FF F7 00 0B 08 00 02 00 03 01 01 21 00 " SCAN, other, JLS_NO_PICTURE);
    other = grey, other.end_offset = 32, other.restart_interval = 66051;
    wants("a restart interval of three bytes", "FF D8 FF DD 00 05 01 02 03 " GREY SCAN, other, JLS_DONE);
    other = (jls_header){.fault = JLS_FAULT_LENGTH, .end_offset = 2};
    wants("a restart interval of one byte", "FF D8 FF DD 00 03 01 " GREY SCAN, other, JLS_NO_PICTURE);
    wants("a restart interval of five bytes", "FF D8 FF DD 00 07 00 00 00 00 01 " GREY SCAN, other, JLS_NO_PICTURE);
    other = grey, other.end_offset = 39;
    wants("a scan in an application segment", "FF D8 FF E0 00 0C FF DA 00 08 01 01 00 05 02 00 " GREY SCAN, other, JLS_DONE);
    /* what stands behind the end of a copy, or behind a fault, says nothing */
    other = grey, other.end_offset = 15;
    wants("a frame alone", "FF D8 " GREY, other, JLS_DONE);
    wants("an end without a scan", "FF D8 " GREY "FF D9", other, JLS_DONE);
    wants("a scan behind the end", "FF D8 " GREY "FF D9 00 04 00 00 FF DD 00 04 00 07 " LOSSY_SCAN, other, JLS_DONE);
    other.end_offset = 16;
    wants("a scan behind an end with fill bytes", "FF D8 " GREY "FF FF D9 00 04 00 00 FF DD 00 04 00 07 " LOSSY_SCAN, other, JLS_DONE);
    other.end_offset = 15, other.fault = JLS_FAULT_SECOND_FRAME;
    wants("a scan behind a second frame", "FF D8 " GREY GREY "FF DD 00 04 00 07 " LOSSY_SCAN, other, JLS_DONE);
    other.fault = JLS_FAULT_UNKNOWN_MARKER;
    wants("a scan behind another coding's frame", "FF D8 " GREY "FF C0 00 04 00 00 FF DD 00 04 00 07 " LOSSY_SCAN, other, JLS_DONE);
    other.fault = JLS_FAULT_LENGTH;
    wants("a scan without components", "FF D8 " GREY "FF DA 00 06 00 05 01 00", other, JLS_DONE);
    wants("two starts", "FF D8 FF D8 00 02 " GREY SCAN, (jls_header){.fault = JLS_FAULT_UNKNOWN_MARKER, .end_offset = 2}, JLS_NO_PICTURE);
    other = grey, other.unsupported = JLS_NEAR_LOSSLESS, other.fault = JLS_FAULT_LOSSY, other.end_offset = 17, other.near_lossless = 5;
    other.interleave = 2;
    wants("a lossy scan behind fill bytes", "FF D8 " GREY "FF FF " LOSSY_SCAN, other, JLS_UNSUPPORTED);
    other = grey, other.fault = JLS_FAULT_ENDED, other.end_offset = 20;
    wants("a header that is cut off", "FF D8 " GREY "FF DA 00 08 01", other, JLS_DONE);
}

/* A buffer of 3 x 2 pixels of two components, 8 bits, each sample another: written and read in each layout. */
static void of_layouts(void) {
    const jls_frame frame = {.width = 3, .height = 2, .precision = 8, .components = 2};
    const uint8_t pixels[14] = {10, 20, 11, 21, 12, 22, 99, 13, 23, 14, 24, 15, 25, 99}; /* the stride is 7 */
    const uint16_t planes[12] = {10, 11, 12, 13, 14, 15, 20, 21, 22, 23, 24, 25};
    uint8_t file[256], other[256];
    uint64_t size = 0, other_size = 0;
    jls_layout layout = JLS_LAYOUT;
    want("samples are not written", jls_write(&frame, planes, 12, file, sizeof file, &size) == JLS_DONE);
    layout.bytes = 1, layout.interleaved = 1, layout.stride = 7;
    want("pixels are not written", jls_write_as(&frame, &layout, pixels, 13, other, sizeof other, &other_size) == JLS_DONE);
    want("another file", size == other_size && memcmp(file, other, size) == 0);
    want("too few pixels", jls_write_as(&frame, &layout, pixels, 12, other, sizeof other, &other_size) == JLS_BAD_FRAME);
    uint8_t out[14], statuses[4];
    memset(out, 99, sizeof out);
    jls_info info = JLS_INFO;
    want("pixels are not read", jls_read_as(file, size, &info, &layout, out, 13, statuses, 4) == JLS_DONE && info.settled == 4);
    want("other pixels", memcmp(out, pixels, sizeof out) == 0);
    want("room for the statuses", jls_read_as(file, size, &info, &layout, out, 13, statuses, 3) == JLS_SHORT_ROOM);
    uint16_t wide[12];
    layout = (jls_layout){.size = sizeof layout, .bytes = 2};
    want("samples are not read", jls_read_as(file, size, &info, &layout, wide, 12, statuses, 4) == JLS_DONE);
    want("other samples", memcmp(wide, planes, sizeof wide) == 0);
    jls_layout bad[] = {{.size = sizeof layout, .bytes = 0}, {.size = sizeof layout, .bytes = 3}, {.size = sizeof layout, .bytes = 2, .stride = 2},
                        {.size = sizeof layout, .bytes = 1, .interleaved = 1, .stride = 5}, {.size = sizeof layout, .bytes = 1, .stride = UINT64_MAX}};
    for (size_t at = 0; at < sizeof bad / sizeof *bad; at++) {
        want("a layout that there isn't", jls_read_as(file, size, &info, &bad[at], wide, 12, statuses, 4) == JLS_BAD_LAYOUT);
        want("it was written", jls_write_as(&frame, &bad[at], planes, 12, other, sizeof other, &other_size) == JLS_BAD_LAYOUT);
    }
    const jls_frame none[] = {{.height = 2, .precision = 8, .components = 1}, {.width = 3, .precision = 8, .components = 1}, {.width = 3, .height = 2, .precision = 8}};
    for (size_t at = 0; at < sizeof none / sizeof *none; at++)
        want("a frame of nothing", jls_write_as(&none[at], &layout, planes, 12, other, sizeof other, &other_size) == JLS_BAD_FRAME);
    struct { jls_layout layout; uint64_t unknown; } later = {.layout = {.size = sizeof later, .bytes = 2}};
    want("a layout of a later version", jls_read_as(file, size, &info, &later.layout, wide, 12, statuses, 4) == JLS_DONE);
    later.unknown = 1;
    want("with what isn't known", jls_read_as(file, size, &info, &later.layout, wide, 12, statuses, 4) == JLS_BAD_LAYOUT);
    want("the same, written", jls_write_as(&frame, &later.layout, planes, 12, other, sizeof other, &other_size) == JLS_BAD_LAYOUT);
    uint8_t odd[25];
    want("samples at an odd address", jls_read_as(file, size, &info, &layout, odd + 1, 12, statuses, 4) == JLS_DONE);
    want("others there", memcmp(odd + 1, planes, 24) == 0);
    want("written from there", jls_write_as(&frame, &layout, odd + 1, 12, other, sizeof other, &other_size) == JLS_DONE && other_size == size);
    layout.size = 8;
    want("a short layout", jls_read_as(file, size, &info, &layout, wide, 12, statuses, 4) == JLS_BAD_SIZE);
    const jls_frame deep = {.width = 1, .height = 1, .precision = 9, .components = 1};
    want("a deep sample", jls_write(&deep, planes, 1, file, sizeof file, &size) == JLS_DONE);
    layout = (jls_layout){.size = sizeof layout, .bytes = 1};
    want("it is put into a byte", jls_read_as(file, size, &info, &layout, out, 1, statuses, 1) == JLS_LARGE_SAMPLE);
}

/* A structure without its size is refused, and a longer one keeps what lies behind. */
static void of_sizes(void) {
    bytes copy = hex("FF D8 " GREY SCAN);
    struct { jls_info info; uint64_t behind; } longer = {.info = {.size = sizeof longer}, .behind = 7};
    jls_info unset;
    jls_header header;
    memset(&unset, 0, sizeof unset), memset(&header, 0, sizeof header);
    want("no size", jls_check(copy.at, copy.size, &unset, NULL, 0) == JLS_BAD_SIZE && unset.width == 0);
    want("no size of a header", jls_read_header(copy.at, copy.size, &header) == JLS_BAD_SIZE && header.width == 0);
    jls_header first = JLS_HEADER, second;
    memset(&second, 0x5A, sizeof second), second.size = sizeof second;
    want("two headers", jls_read_header(copy.at, copy.size, &first) == JLS_DONE && jls_read_header(copy.at, copy.size, &second) == JLS_DONE);
    want("all bytes of a header are written", memcmp(&first, &second, sizeof first) == 0);
    want("a longer one", jls_check(copy.at, copy.size, &longer.info, NULL, 0) == JLS_DONE && longer.info.size == sizeof longer);
    want("what lies behind", longer.behind == 7 && longer.info.width == 3);
}

#define AT(structure, field, offset) want(#structure " has " #field " elsewhere", offsetof(structure, field) == (offset))

/* Where fields are: a program that was built with 1.2.0 finds them there. */
static void of_places(void) {
    AT(jls_info, unsupported, 4), AT(jls_info, samples, 8), AT(jls_info, bytes, 16), AT(jls_info, faulty_pieces, 24);
    AT(jls_info, end_offset, 32), AT(jls_info, lines, 40), AT(jls_info, missing, 48), AT(jls_info, settled, 56), AT(jls_info, disputed, 64);
    AT(jls_info, width, 72), AT(jls_info, height, 74), AT(jls_info, precision, 76), AT(jls_info, components, 77), AT(jls_info, end, 78);
    AT(jls_info, fault, 79), AT(jls_header, unsupported, 4), AT(jls_header, samples, 8), AT(jls_header, lines, 16);
    AT(jls_header, end_offset, 24), AT(jls_header, restart_interval, 32), AT(jls_header, width, 36), AT(jls_header, height, 38);
    AT(jls_header, precision, 40), AT(jls_header, components, 41), AT(jls_header, interleave, 42), AT(jls_header, near_lossless, 43);
    AT(jls_header, fault, 44), AT(jls_layout, bytes, 4), AT(jls_layout, interleaved, 5), AT(jls_layout, stride, 8);
    AT(jls_piece, offset, 0), AT(jls_piece, interval, 8), AT(jls_piece, scan, 12), AT(jls_piece, kind, 13);
    AT(jls_line, readings, 0), AT(jls_line, status, 8), AT(jls_frame, width, 0), AT(jls_frame, height, 2), AT(jls_frame, restart_interval, 4);
    AT(jls_frame, precision, 6), AT(jls_frame, components, 7), AT(jls_frame, interleaved, 8);
    want("an element has another size", sizeof(jls_piece) == 16 && sizeof(jls_line) == 16 && sizeof(jls_frame) == 10);
}

int main(void) {
    of_places();
    of_headers();
    of_layouts();
    of_sizes();
    want("another version", jls_version() == JLS_VERSION);
    for (uint32_t number = 0; number < 64; number++)
        want("no text", jls_text(number)[0] != 0 && jls_fault_text(number)[0] != 0 && jls_unsupported_text(number)[0] != 0);
    want("a text", strcmp(jls_text(JLS_BAD_LAYOUT), "no such layout") == 0);
    want("a last text", strcmp(jls_text(JLS_BAD_PROFILE), "no such profile") == 0 && strcmp(jls_text(JLS_BAD_PROFILE + 1), "unknown") == 0);
    return differ;
}
