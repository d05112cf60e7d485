/* hostile: headers that were made of segments by chance, of which many are cut, changed, repeated or stand where they may not. For each
   jls_read_header and jls_check are asked, and must agree. A page behind the bytes can't be read. HEADERS says how many. What belongs to
   a first scan is counted here too, from the bytes. It prints each difference, and answers whether there is one. */
#define _GNU_SOURCE
#include <jls_salvage.h>
#include <stdio.h>
#include <stdlib.h>
#include <string.h>
#include <sys/mman.h>

enum { PAGE = 4096, MOST = 64 * PAGE };
static uint64_t state = 0x9E3779B97F4A7C15u;
static int differ;
static uint8_t *end_of_room; /* behind it nothing can be read */
static uint8_t made[MOST];
static size_t size;

static uint64_t chance(uint64_t below) {
    state ^= state << 13, state ^= state >> 7, state ^= state << 17;
    return (state >> 11) % below;
}

static void put(uint8_t byte) {
    if (size < MOST) made[size++] = byte;
}

/* FF, fill bytes at times, and the code. */
static void put_marker(uint8_t code) {
    for (uint64_t fill = chance(8) == 0 ? 1 + chance(5) : 1; fill > 0; fill--) put(0xFF);
    put(code);
}

static void put_segment(uint8_t code, const uint8_t *payload, size_t count) {
    size_t told = count + 2;
    if (chance(40) == 0) told = chance(65536);
    if (chance(60) == 0) told = count + chance(5);
    put_marker(code), put((uint8_t)(told >> 8)), put((uint8_t)told);
    for (size_t at = 0; at < count; at++) put(payload[at]);
}

static void put_frame(void) {
    uint8_t components = chance(12) == 0 ? (uint8_t)chance(256) : (uint8_t)(1 + chance(4)), frame[6 + 3 * 255];
    uint8_t shape[6] = {(uint8_t)(chance(10) == 0 ? chance(256) : 2 + chance(15)), 0, (uint8_t)(1 + chance(9)), 0, (uint8_t)(1 + chance(9)), components};
    if (chance(20) == 0) shape[1 + chance(4)] = (uint8_t)chance(256);
    memcpy(frame, shape, sizeof shape);
    for (size_t at = 0; at < components; at++) frame[6 + 3 * at] = (uint8_t)(at + 1), frame[7 + 3 * at] = chance(90) ? 0x11 : 0x21, frame[8 + 3 * at] = 0;
    put_segment(0xF7, frame, 6 + 3 * (size_t)components);
}

static void put_scan(void) {
    uint8_t scan[16] = {(uint8_t)(chance(20) == 0 ? chance(6) : 1 + chance(4))};
    size_t at = 1;
    for (uint8_t component = 1; component <= scan[0]; component++) scan[at++] = chance(50) ? component : 9, scan[at++] = chance(50) == 0;
    scan[at++] = chance(8) ? 0 : (uint8_t)chance(4), scan[at++] = (uint8_t)(chance(3) ? scan[0] > 1 : chance(4)), scan[at++] = chance(20) ? 0 : 1;
    put_segment(0xDA, scan, at);
    for (uint64_t data = chance(20); data > 0; data--) put((uint8_t)chance(256));
}

static void put_something(void) {
    uint8_t payload[32];
    for (size_t at = 0; at < sizeof payload; at++) payload[at] = chance(3) ? (uint8_t)chance(4) : (uint8_t)chance(256);
    if (chance(3) == 0) memcpy(payload, "\xFF\xDA\0\x08\1\1\0\5\2\0\xFF\xDD\0\4\0\x99", 16); /* no scan, where it stands */
    uint8_t preset[11] = {(uint8_t)(1 + chance(2)), 0, 255, 0, 3, 0, 7, 0, 21, 0, 64};
    switch (chance(12)) {
    case 0: case 1: put_frame(); break;
    case 2: case 3: put_scan(); break;
    case 4: case 5: put_segment(0xDD, payload, chance(10) ? 2 + chance(3) : chance(7)); break;
    case 6: put_segment(0xF8, preset, chance(6) ? sizeof preset : chance(12)); break;
    case 7: put_segment((uint8_t)(0xE0 + chance(16)), payload, chance(sizeof payload)); break;
    case 8: put_segment(0xFE, payload, chance(sizeof payload)); break;
    case 9: put_marker(chance(2) ? 0xD8 : (uint8_t)(0xD0 + chance(10))); break;
    case 10: put_segment((uint8_t)chance(256), payload, chance(8)); break;
    default: put((uint8_t)chance(256)); break;
    }
}

static void make(void) {
    size = 0;
    if (chance(20)) put_marker(0xD8);
    if (chance(4)) put_frame();
    for (uint64_t more = chance(6); more > 0; more--) put_something();
    if (chance(2)) put_scan();
    if (chance(4) == 0) put_something();
    for (uint64_t change = chance(3) == 0 ? 1 + chance(3) : 0; change > 0 && size > 0; change--) made[chance(size)] ^= (uint8_t)(1 << chance(8));
    if (chance(6) == 0) size = chance(size + 1);
}

static void want(const char *what, int holds, const jls_header *header, const jls_info *info) {
    if (holds) return;
    differ++;
    printf("%s: fault %u at %lu, and %u at %lu:", what, header->fault, (unsigned long)header->end_offset, info->fault, (unsigned long)info->end_offset);
    for (size_t at = 0; at < size && at < 80; at++) printf(" %02X", made[at]);
    puts("");
}

/* What the bytes before `end` say of a first scan: no marker in them is out of place. */
static jls_header counted(const uint8_t *bytes, size_t end) {
    jls_header found = JLS_HEADER;
    size_t at = 0;
    while (at < end && bytes[at] == 0xFF) at++;
    for (at++; at < end;) {
        while (at < end && bytes[at] == 0xFF) at++;
        if (at + 3 > end) break;
        size_t length = 256u * bytes[at + 1] + bytes[at + 2];
        if (bytes[at] == 0xDD) found.restart_interval = 0;
        for (size_t byte = 3; bytes[at] == 0xDD && byte <= length; byte++) found.restart_interval = found.restart_interval << 8 | bytes[at + byte];
        if (bytes[at] == 0xDA) found.near_lossless = bytes[at + length - 2], found.interleave = bytes[at + length - 1];
        at += 1 + length;
    }
    return found;
}

static void agree(void) {
    uint8_t *copy = end_of_room - size;
    memcpy(copy, made, size);
    jls_header header = JLS_HEADER;
    jls_info info = JLS_INFO;
    uint32_t told = jls_read_header(copy, size, &header), checked = jls_check(copy, size, &info, NULL, 0);
    int has_picture = told != JLS_NO_PICTURE;
#define WANT(what, holds) want(what, holds, &header, &info)
    WANT("a picture", has_picture == (checked != JLS_NO_PICTURE) && told != JLS_OUT_OF_MEMORY && checked != JLS_OUT_OF_MEMORY);
    WANT("another shape", header.width == info.width && header.height == info.height && header.precision == info.precision);
    WANT("other components", header.components == info.components && header.samples == info.samples && header.lines == info.lines);
    if (header.fault != JLS_FAULT_NONE) {
        WANT("another fault", info.end == JLS_END_HEADER && info.fault == header.fault && info.end_offset == header.end_offset);
        WANT("another answer", told == checked && header.unsupported == info.unsupported);
    } else {
        WANT("a fault before the scan's data", info.end_offset >= header.end_offset && header.unsupported == JLS_SUPPORTED && told == JLS_DONE);
        jls_header wanted = counted(copy, (size_t)header.end_offset);
        WANT("another interval", header.restart_interval == wanted.restart_interval);
        WANT("another scan", header.interleave == wanted.interleave && header.near_lossless == wanted.near_lossless);
    }
    /* the headers alone say the same, where they end before a scan's data */
    jls_header alone = JLS_HEADER;
    if (header.fault == JLS_FAULT_NONE && info.end_offset > header.end_offset) {
        WANT("the headers alone", jls_read_header(copy, (size_t)header.end_offset, &alone) == told && memcmp(&alone, &header, sizeof alone) == 0);
    }
}

int main(void) {
    long count = getenv("HEADERS") != NULL ? atol(getenv("HEADERS")) : 20000, faults[32] = {0}, pictures = 0;
    uint8_t *room = mmap(NULL, MOST + PAGE, PROT_READ | PROT_WRITE, MAP_PRIVATE | MAP_ANONYMOUS, -1, 0);
    if (room == MAP_FAILED || mprotect(room + MOST, PAGE, PROT_NONE) != 0) return 98;
    end_of_room = room + MOST;
    for (long left = count; left > 0; left--) {
        make();
        agree();
        jls_header header = JLS_HEADER;
        pictures += jls_read_header(made, size, &header) != JLS_NO_PICTURE;
        faults[header.fault]++;
    }
    printf("%ld headers, %ld of them with a picture, %d differ; faults:", count, pictures, differ);
    for (int at = 0; at < 20; at++) printf(" %ld", faults[at]);
    puts("");
    return differ != 0;
}
