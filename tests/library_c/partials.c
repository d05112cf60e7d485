/* partials: calls jls_partial, jls_join and jls_lines on small files and partial pictures, with room that is short, enough or more. The
   bytes that are wanted were written by hand from docs/FORMAT.md. It prints each difference, and answers how many there are. */
#include <jls_salvage.h>
#include <stdio.h>
#include <stdlib.h>
#include <string.h>

struct bytes { uint8_t at[256]; size_t size; };
static int differ;

static void want(const char *what, int holds) {
    if (!holds) differ++, printf("%s\n", what);
}

static struct bytes hex(const char *text) {
    struct bytes bytes = {{0}, 0};
    char *end;
    for (; *text != 0; text = end) bytes.at[bytes.size++] = (uint8_t)strtoul(text, &end, 16);
    return bytes;
}

static int is_all(const void *bytes, size_t size, int byte) {
    for (size_t at = 0; at < size; at++)
        if (((const unsigned char *)bytes)[at] != byte) return 0;
    return 1;
}

/* A file of one sample, whose scan data is this byte: 80 says 0, and 28 says 3. */
static struct bytes file_of(int data) {
    struct bytes file = hex("FF D8 FF F7 00 0B 08 00 01 00 01 01 01 11 00 FF DA 00 08 01 01 00 00 00 00 80 FF D9");
    file.at[25] = (uint8_t)data;
    return file;
}

/* Calls a function that writes a partial picture with each room around the size that is wanted. */
static void wants(const char *what, const struct bytes *first, const struct bytes *second, uint32_t source, const char *wanted_text) {
    struct bytes wanted = hex(wanted_text);
    for (size_t room = 0; room < wanted.size + 3; room++) {
        uint8_t *out = malloc(room + 1);
        jls_info info = JLS_INFO;
        memset(out, 0xA5, room + 1);
        memset(&info, 0xA5, sizeof info);
        uint32_t answer = second != NULL ? jls_join(first->at, first->size, second->at, second->size, &info, out, room)
                                         : jls_partial(first->at, first->size, source, &info, out, room);
        want(what, answer == (room < wanted.size ? JLS_SHORT_ROOM : JLS_DONE));
        want(what, info.bytes == wanted.size && info.width == 1 && info.height == 1 && info.lines == info.components);
        want(what, answer == JLS_DONE ? memcmp(out, wanted.at, wanted.size) == 0 && is_all(out + wanted.size, room - wanted.size, 0xA5)
                                      : is_all(out, room, 0xA5));
        want(what, out[room] == 0xA5);
        free(out);
    }
}

/* Bytes that are no partial picture, as the only ones, the first and the second. */
static void refused(const struct bytes *bytes, const struct bytes *good, int fault, uint64_t offset) {
    uint16_t sample = 7;
    jls_line line;
    uint8_t out[128];
    jls_info info = JLS_INFO;
    memset(&line, 0xA5, sizeof line);
    memset(out, 0xA5, sizeof out);
    uint32_t answers[3] = {JLS_NO_PARTIAL, JLS_NO_PARTIAL, JLS_NO_SECOND_PARTIAL};
    for (int at = 0; at < 3; at++) {
        memset(&info, 0xA5, sizeof info);
        uint32_t answer = at == 0   ? jls_lines(bytes->at, bytes->size, &info, &sample, 1, &line, 1)
                          : at == 1 ? jls_join(bytes->at, bytes->size, good->at, good->size, &info, out, sizeof out)
                                    : jls_join(good->at, good->size, bytes->at, bytes->size, &info, out, sizeof out);
        want("another end of a refusal", info.end == JLS_END_HEADER);
        if (answer != answers[at] || info.fault != fault || info.end_offset != offset)
            want("another refusal", 0), printf("  %d: %u, fault %d at %lu\n", fault, answer, info.fault, (unsigned long)info.end_offset);
        want("a refusal has written", sample == 7 && is_all(&line, sizeof line, 0xA5) && is_all(out, sizeof out, 0xA5));
    }
}

/* The one or two lines of a partial picture of one column. */
static void shown(const char *what, const struct bytes *partial, int status, uint64_t readings, int sample) {
    for (size_t room = 0; room < 4; room++)
        for (size_t lines = 0; lines < 4; lines++) {
            uint16_t samples[4] = {7, 7, 7, 7};
            jls_line told[4];
            jls_info info = JLS_INFO;
            memset(told, 0xA5, sizeof told);
            uint32_t answer = jls_lines(partial->at, partial->size, &info, samples, room, told, lines);
            want(what, answer == (room < info.samples || lines < info.lines ? JLS_SHORT_ROOM : JLS_DONE));
            size_t shown = answer == JLS_DONE ? (size_t)info.lines : 0;
            for (size_t at = 0; at < shown; at++)
                want(what, told[at].status == status && told[at].readings == readings && samples[at] == sample);
            want("more was written", samples[shown] == 7 && is_all(&told[shown], sizeof *told * (4 - shown), 0xA5));
            uint64_t counts[3] = {info.missing, info.settled, info.disputed};
            want("other counts", counts[status] == info.lines);
            want("an end", info.end == 0 && info.end_offset == 0 && info.fault == JLS_FAULT_NONE && info.unsupported == JLS_SUPPORTED);
        }
}

#define HEAD "08 00 01 00 01 01 01 00 00 00 01 00 00 00 00 00 00 00 00 00 00 "

static void faults(const struct bytes *good) {
    struct bytes text = hex("4A 4C 53 50 02 " HEAD "02 00 03 00 00 00 00 00 00 00 01 00 00 00 07 00 05 00 00 00 00 00 00 00 00"), other;
    other = text, other.at[42] = 3, refused(&other, good, JLS_FAULT_TEXT_ORDER, 41);
    other = text, other.at[41] = 1, other.at[42] = 0, refused(&other, good, JLS_FAULT_TEXT_SAMPLE, 41);
    other = text, other.size++, refused(&other, good, JLS_FAULT_TEXT_TRAILING, 51);
    other = text, other.size--, refused(&other, good, JLS_FAULT_TEXT_TRUNCATED, 50);
    other = text, other.at[50] = 1, refused(&other, good, JLS_FAULT_TEXT_TRUNCATED, 51);
    other = text, other.at[4] = 3, refused(&other, good, JLS_FAULT_TEXT_MAGIC, 4);
    other = text, other.at[5] = 1, refused(&other, good, JLS_FAULT_TEXT_SHAPE, 5);
    other = text, other.at[26] = 0, refused(&other, good, JLS_FAULT_TEXT_COUNT, 19);
    other = text, other.at[18] = 1, refused(&other, good, JLS_FAULT_TEXT_PLACE, 16);
    other.size = 0, refused(&other, good, JLS_FAULT_TEXT_TRUNCATED, 0);
}

int main(void) {
    struct bytes t = hex("4A 4C 53 50 01 " HEAD "02 00 03 00 05"), none = hex("4A 4C 53 50 01 08 00 01 00 01 01 01 00 00 00 00");
    struct bytes p = hex("4A 4C 53 50 02 " HEAD "01 00 03 00 00 00 00 00 00 00 01 00 00 00 07");
    struct bytes q = hex("4A 4C 53 50 02 " HEAD "01 00 03 00 00 00 00 00 00 00 01 00 00 00 02");
    struct bytes two = file_of(0x28), zero = file_of(0x80), nothing = {{0}, 0};
    struct bytes other = hex("4A 4C 53 50 01 08 00 01 00 01 02 01 02 00 00 00 00");
    wants("the copy as a partial picture", &two, NULL, 7, "4A 4C 53 50 02 " HEAD "01 00 03 00 00 00 00 00 00 00 01 00 00 00 07");
    wants("the largest source", &zero, NULL, 4294967295u, "4A 4C 53 50 02 " HEAD "01 00 00 00 00 00 00 00 00 00 01 FF FF FF FF");
    two.size -= 3; /* without its scan data */
    wants("a copy without a line", &two, NULL, 7, "4A 4C 53 50 02 08 00 01 00 01 01 01 00 00 00 00");
    const char *both = "4A 4C 53 50 02 " HEAD "01 00 03 00 00 00 00 00 00 00 02 00 00 00 02 00 00 00 07";
    wants("one reading under two sources", &p, &q, 0, both);
    wants("and in the other order", &q, &p, 0, both);
    wants("two of version 1", &t, &t, 0, "4A 4C 53 50 02 " HEAD "02 00 03 00 00 00 00 00 00 00 00 00 05 00 00 00 00 00 00 00 00");
    wants("two versions of a line", &t, &p, 0,
          "4A 4C 53 50 02 " HEAD "02 00 03 00 00 00 00 00 00 00 01 00 00 00 07 00 05 00 00 00 00 00 00 00 00");
    wants("with one that has no reading", &none, &none, 0, "4A 4C 53 50 02 08 00 01 00 01 01 01 00 00 00 00");
    shown("a disputed line", &t, JLS_DISPUTED, 2, 0);
    shown("a settled line", &p, JLS_SETTLED, 1, 3);
    shown("a missing line", &none, JLS_MISSING, 0, 0);
    shown("two missing lines", &other, JLS_MISSING, 0, 0);
    jls_info info = JLS_INFO;
    uint8_t out[64];
    memset(&info, 0xA5, sizeof info);
    memset(out, 0xA5, sizeof out);
    want("the shapes differ", jls_join(t.at, t.size, other.at, other.size, &info, out, sizeof out) == JLS_SHAPES_DIFFER);
    want("and something was written", is_all(&info, sizeof info, 0xA5) && is_all(out, sizeof out, 0xA5));
    want("no copy", jls_partial(NULL, 0, 1, &info, NULL, 0) == JLS_NO_PICTURE && info.fault == JLS_FAULT_ENDED);
    refused(&nothing, &t, JLS_FAULT_TEXT_TRUNCATED, 0);
    faults(&t);
    return differ;
}
