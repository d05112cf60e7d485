/* writing: writes small pictures by jls_write, with room that is short, enough or more, and reads them back. The files that are wanted are
   worked examples of the standard's coding, done by hand. It prints each difference, and answers how many there are. */
#define _GNU_SOURCE
#include <jls_salvage.h>
#include <stdio.h>
#include <stdlib.h>
#include <string.h>
#include <sys/mman.h>

static int differ;

static void want(const char *what, int holds) {
    if (!holds) differ++, printf("%s\n", what);
}

static int is_all(const uint8_t *bytes, size_t size, int byte) {
    for (size_t at = 0; at < size; at++)
        if (bytes[at] != byte) return 0;
    return 1;
}

/* The file is what is wanted, at each room, and gives the samples again. */
static void wants(const char *what, jls_frame frame, const uint16_t *samples, size_t count, const char *text) {
    uint8_t wanted[128];
    size_t size = 0;
    char *end;
    for (; *text != 0; text = end) wanted[size++] = (uint8_t)strtoul(text, &end, 16);
    for (size_t room = 0; room < size + 3; room++) {
        uint8_t *out = malloc(room + 1);
        uint64_t told = 7;
        memset(out, 0xA5, room + 1);
        uint32_t answer = jls_write(&frame, samples, count, out, room, &told);
        want(what, answer == (room < size ? JLS_SHORT_ROOM : JLS_DONE) && told == size);
        size_t written = answer == JLS_DONE ? size : 0;
        want(what, memcmp(out, wanted, written) == 0 && is_all(out + written, room + 1 - written, 0xA5));
        free(out);
    }
    jls_info info = JLS_INFO;
    uint16_t read[16];
    uint8_t statuses[16];
    want(what, jls_read(wanted, size, &info, read, 16, statuses, 16) == JLS_DONE && info.settled == info.lines && info.samples == count);
    want(what, memcmp(read, samples, 2 * count) == 0);
}

static void refused(const char *what, jls_frame frame, const uint16_t *samples, size_t count, uint32_t wanted) {
    uint8_t out[64];
    uint64_t size = 7;
    memset(out, 0xA5, sizeof out);
    want(what, jls_write(&frame, samples, count, out, sizeof out, &size) == wanted);
    want("a refusal has written", size == 7 && is_all(out, sizeof out, 0xA5));
}

int main(void) {
    const uint16_t square[] = {0, 0, 90, 74, 68, 50, 43, 205, 64, 145, 145, 145, 100, 145, 145, 145}, tens[] = {10, 10}, zero[12] = {0};
    const uint16_t column[] = {0, 1, 2, 3, 4, 5, 6, 7, 8, 9}, most[] = {65535}, three[] = {3}, large[] = {0, 256};
    wants("the example of the standard", (jls_frame){4, 4, 0, 8, 1, 0}, square, 16,
          "FF D8 FF F7 00 0B 08 00 04 00 04 01 01 11 00 FF DA 00 08 01 01 00 00 00 00 C0 00 00 6C 80 20 8E 01 C0 00 00 57 40 00 00 6E E6 "
          "00 00 01 BC 18 00 00 05 D8 00 00 91 60 FF D9");
    wants("one sample", (jls_frame){1, 1, 0, 8, 1, 0}, zero, 1,
          "FF D8 FF F7 00 0B 08 00 01 00 01 01 01 11 00 FF DA 00 08 01 01 00 00 00 00 80 FF D9");
    wants("16 bits", (jls_frame){1, 1, 0, 16, 1, 1}, most, 1,
          "FF D8 FF F7 00 0B 10 00 01 00 01 01 01 11 00 FF DA 00 08 01 01 00 00 00 00 40 00 FF D9");
    wants("2 bits", (jls_frame){1, 1, 0, 2, 1, 0}, three, 1,
          "FF D8 FF F7 00 0B 02 00 01 00 01 01 01 11 00 FF DA 00 08 01 01 00 00 00 00 40 FF D9");
    wants("two components in one scan", (jls_frame){1, 1, 0, 8, 2, 1}, tens, 2,
          "FF D8 FF F7 00 0E 08 00 01 00 01 02 01 11 00 02 11 00 FF DA 00 0A 02 01 00 02 00 00 01 00 07 16 FF D9");
    wants("two components in two scans", (jls_frame){1, 1, 0, 8, 2, 0}, tens, 2,
          "FF D8 FF F7 00 0E 08 00 01 00 01 02 01 11 00 02 11 00 FF DA 00 08 01 01 00 00 00 00 07 FF DA 00 08 01 02 00 00 00 00 07 FF D9");
    wants("three components", (jls_frame){4, 1, 0, 8, 3, 255}, zero, 12,
          "FF D8 FF F7 00 11 08 00 01 00 04 03 01 11 00 02 11 00 03 11 00 FF DA 00 0C 03 01 00 02 00 03 00 00 01 00 FF 78 FF D9");
    wants("restart markers", (jls_frame){1, 10, 1, 8, 1, 0}, column, 10,
          "FF D8 FF F7 00 0B 08 00 0A 00 01 01 01 11 00 FF DD 00 04 00 01 FF DA 00 08 01 01 00 00 00 00 80 FF D0 50 FF D1 70 FF D2 28 FF "
          "D3 38 FF D4 14 FF D5 1C FF D6 0A FF D7 0E FF D0 05 FF D9");
    refused("no samples", (jls_frame){1, 1, 0, 8, 1, 0}, NULL, 0, JLS_BAD_FRAME);
    refused("a sample too many", (jls_frame){1, 1, 0, 8, 1, 0}, zero, 2, JLS_BAD_FRAME);
    refused("no width", (jls_frame){0, 1, 0, 8, 1, 0}, NULL, 0, JLS_BAD_FRAME);
    refused("no height", (jls_frame){1, 0, 0, 8, 1, 0}, NULL, 0, JLS_BAD_FRAME);
    refused("no component", (jls_frame){1, 1, 0, 8, 0, 0}, NULL, 0, JLS_BAD_FRAME);
    refused("five components", (jls_frame){1, 1, 0, 8, 5, 0}, zero, 5, JLS_BAD_FRAME);
    refused("one bit", (jls_frame){1, 1, 0, 1, 1, 0}, zero, 1, JLS_BAD_FRAME);
    refused("17 bits", (jls_frame){1, 1, 0, 17, 1, 0}, zero, 1, JLS_BAD_FRAME);
    refused("many samples that aren't there", (jls_frame){65535, 65535, 0, 16, 4, 1}, zero, 12, JLS_BAD_FRAME);
    refused("a large sample", (jls_frame){2, 1, 0, 8, 1, 0}, large, 2, JLS_LARGE_SAMPLE);
    refused("a sample of 3 bits", (jls_frame){1, 1, 0, 2, 1, 0}, tens, 1, JLS_LARGE_SAMPLE);
    /* as many samples as any frame can have, of which none is looked at before the interval is refused */
    size_t all = (size_t)65535 * 65535;
    uint16_t *huge = mmap(NULL, 2 * all, PROT_NONE, MAP_PRIVATE | MAP_ANONYMOUS | MAP_NORESERVE, -1, 0);
    if (huge == MAP_FAILED) return puts("no memory to map"), 99;
    refused("a large interval", (jls_frame){65535, 65535, 0, 8, 1, 0}, huge, all, JLS_LARGE_INTERVAL);
    refused("a large restart interval", (jls_frame){65535, 65535, 4097, 8, 1, 0}, huge, all, JLS_LARGE_INTERVAL);
    return differ;
}
