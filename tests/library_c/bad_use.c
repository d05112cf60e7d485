/* bad_use FILE.jls: calls the library with buffers that are short, empty, or full of other values, and looks at what was written. It prints
   each difference, and answers how many there are. FILE has some settled lines. */
#include <jls_salvage.h>
#include <stdio.h>
#include <stdlib.h>
#include <string.h>

static int differ;

static void want(const char *what, int holds) {
    if (!holds) differ++, printf("%s\n", what);
}

static int is_all(const void *bytes, size_t size, int byte) {
    for (size_t at = 0; at < size; at++)
        if (((const unsigned char *)bytes)[at] != byte) return 0;
    return 1;
}

/* Rooms that are one short, or just enough, or one longer. */
static void rooms(const uint8_t *copy, size_t size, const jls_info *told) {
    for (int samples = -1; samples < 2; samples++)
        for (int lines = -1; lines < 2; lines++) {
            size_t count = (size_t)((int64_t)told->samples + samples), rows = (size_t)((int64_t)told->lines + lines);
            uint16_t *out = malloc(2 * count);
            uint8_t *statuses = malloc(rows);
            jls_info info = JLS_INFO;
            memset(out, 0xA5, 2 * count);
            memset(statuses, 0xA5, rows);
            uint32_t answer = jls_read(copy, size, &info, out, count, statuses, rows);
            want("another answer at short room", (answer == JLS_SHORT_ROOM) == (samples < 0 || lines < 0));
            want("a refusal has written", answer == JLS_DONE || (is_all(out, 2 * count, 0xA5) && is_all(statuses, rows, 0xA5)));
            want("more was written than there is", answer != JLS_DONE || (is_all(out + told->samples, 2 * (count - told->samples), 0xA5)
                                                                      && is_all(statuses + told->lines, rows - told->lines, 0xA5)));
            want("another info", memcmp(&info, told, sizeof info) == 0);
            free(out);
            free(statuses);
        }
}

/* Copies without a picture. */
static void nothing(const char *bytes, size_t size, int fault) {
    jls_info info = JLS_INFO;
    uint16_t sample = 7;
    uint8_t status = 7;
    jls_piece piece;
    memset(&piece, 0xA5, sizeof piece);
    want("another answer without a picture", jls_read((const uint8_t *)bytes, size, &info, &sample, 1, &status, 1) == JLS_NO_PICTURE);
    want("another fault", info.fault == fault && info.samples == 0 && info.lines == 0);
    want("a sample was written", sample == 7 && status == 7);
    want("another check", jls_check((const uint8_t *)bytes, size, &info, &piece, 1) == JLS_NO_PICTURE && info.fault == fault);
    want("a piece was written", is_all(&piece, sizeof piece, 0xA5));
}

int main(int count, char **words) {
    FILE *file = count > 1 ? fopen(words[1], "rb") : NULL;
    static uint8_t copy[1 << 20];
    if (file == NULL) return 99;
    size_t size = fread(copy, 1, sizeof copy, file);
    fclose(file);
    jls_info info = JLS_INFO;
    want("no check", jls_check(copy, size, &info, NULL, 0) == JLS_DONE);
    want("other counts", info.missing + info.settled + info.disputed == info.lines);
    want("another size", info.samples == (uint64_t)info.width * info.height * info.components);
    want("no room at all", jls_read(copy, size, &info, NULL, 0, NULL, 0) == JLS_SHORT_ROOM);
    rooms(copy, size, &info);
    nothing(NULL, 0, JLS_FAULT_ENDED);
    nothing("nonsense", 8, JLS_FAULT_NO_SOI);
    nothing("\xff\xd8", 2, JLS_FAULT_ENDED);
    nothing("\xff\xd8\xff\xd9", 4, JLS_FAULT_NO_FRAME);
    return differ;
}
