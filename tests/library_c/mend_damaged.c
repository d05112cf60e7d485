/* mend_damaged GROUPS [FIRST SECOND]..: damages so many groups of copies by chance, and calls jls_mend on each. Every other group is a pair of
   these files, in turn; the others, or all, are made here: a picture whose file has at most 4,096 bytes, in one coding or two, of which two or
   three copies are given. Bytes are zeroed, lost, inserted or noise, bits are flipped, or a copy is cut off, also to nothing. What comes of a
   call has to be whole: the picture is a partial picture, each of whose lines is settled if it is promised; the mended file reads; each file
   with a number is there. Where what the promise presumes is true, the picture has to be the true one. SEED=.. begins other groups. It
   prints each difference, and how many groups were promised. */
#include <jls_salvage.h>
#include <stdio.h>
#include <stdlib.h>
#include <string.h>

enum { MOST = 1 << 16, SMALL = 4096, SPARE = 64, TRIES = 64, COPIES = 3, SIDE = 48 };
static uint64_t state = 0x9E3779B97F4A7C15;
static int differ;
static long group;

static void want(const char *what, int holds) {
    if (!holds) differ++, printf("group %ld: %s\n", group, what);
}

static uint32_t chance(uint32_t below) {
    state ^= state << 13, state ^= state >> 7, state ^= state << 17;
    return (uint32_t)(state >> 32) % below;
}

static size_t content(const char *name, uint8_t *bytes) {
    FILE *file = fopen(name, "rb");
    size_t size = file != NULL ? fread(bytes, 1, MOST, file) : 0;
    if (file == NULL || fclose(file) != 0) exit(99);
    return size;
}

/* Damages a copy at one place, and returns how many bytes it has then. The headers are damaged seldom. */
static size_t damage(uint8_t *bytes, size_t size) {
    size_t at = size > 40 && chance(8) ? 40 + chance((uint32_t)size - 40) : chance((uint32_t)size), length = 1 + chance(SPARE);
    if (length > size - at) length = size - at;
    switch (chance(6)) {
    case 0: memset(bytes + at, 0, length); return size;
    case 1: memmove(bytes + at, bytes + at + length, size - at - length); return size - length;
    case 2: memmove(bytes + at + length, bytes + at, size - at); return size + length;
    case 3: for (size_t k = at; k < at + length; k++) bytes[k] = (uint8_t)chance(256); return size;
    case 4: bytes[at] ^= (uint8_t)(1u << chance(8)); return size;
    default: return at;
    }
}

/* True files, each with its picture where that is known. */
typedef struct true_file {
    uint8_t bytes[MOST];
    size_t size;
    const uint16_t *samples; /* NULL where it isn't known */
    size_t count;
} true_file;

/* Makes a picture of this frame: a slope with noise, or one value. */
static void make_picture(const jls_frame *frame, uint16_t *samples, size_t count) {
    uint32_t most = (1u << frame->precision) - 1, noise = chance(3) ? 1 + most / 50 : 1, step = chance(6) ? 1 + chance(1 + most / 40) : 0;
    for (size_t at = 0; at < count; at++) {
        uint32_t value = (uint32_t)(at % frame->width + at / frame->width % frame->height) * step + chance(noise);
        samples[at] = (uint16_t)(value < most ? value : most);
    }
}

/* Makes two files of one picture, in one coding or two, of at most 4,096 bytes each. */
static void make_files(true_file files[2]) {
    static uint16_t samples[SIDE * SIDE * 4];
    uint64_t sizes[2] = {0, 0};
    for (int is_made = 0; !is_made;) {
        jls_frame frame = {(uint16_t)(1 + chance(SIDE)), (uint16_t)(1 + chance(SIDE)), (uint16_t)(chance(2) * chance(9)), (uint8_t)(2 + chance(15)),
                           (uint8_t)(chance(3) ? 1 : 1 + chance(4)), (uint8_t)chance(2)};
        size_t count = (size_t)frame.width * frame.height * frame.components;
        make_picture(&frame, samples, count);
        is_made = jls_write(&frame, samples, count, files[0].bytes, SMALL, &sizes[0]) == JLS_DONE;
        if (chance(2)) frame.restart_interval = (uint16_t)chance(9), frame.interleaved = (uint8_t)chance(2);
        is_made = is_made && jls_write(&frame, samples, count, files[1].bytes, SMALL, &sizes[1]) == JLS_DONE;
        for (int at = 0; at < 2; at++) files[at].size = (size_t)sizes[at], files[at].samples = samples, files[at].count = count;
    }
}

/* Whether these bytes are a file that reads, whatever its lines are. */
static int reads(const uint8_t *bytes, size_t size) {
    jls_info info = JLS_INFO;
    return bytes != NULL && jls_check(bytes, size, &info, NULL, 0) == JLS_DONE;
}

static void look(const jls_mended *mended) {
    jls_mend_info info = JLS_MEND_INFO;
    jls_info told = JLS_INFO;
    size_t size = 0;
    want("no information", jls_mended_info(mended, &info) == JLS_DONE);
    const uint8_t *bytes = jls_mended_picture(mended, &size);
    uint32_t answer = bytes != NULL ? jls_lines(bytes, size, &told, NULL, 0, NULL, 0) : JLS_NO_PARTIAL;
    want("no partial picture", answer == JLS_SHORT_ROOM || answer == JLS_DONE);
    want("promised though lines aren't settled", !info.is_promised || told.settled == told.lines);
    bytes = jls_mended_file(mended, &size);
    want("a mended file that doesn't read", info.has_file ? reads(bytes, size) : bytes == NULL);
    for (uint32_t at = 0; at < info.files; at++) {
        bytes = jls_mended_numbered(mended, at, &size);
        want("a file with a number that isn't there", bytes != NULL && size > 0);
    }
    want("a file too many", jls_mended_numbered(mended, info.files, &size) == NULL && size == 0);
    bytes = jls_mended_lines(mended, &size);
    want("no lines", bytes != NULL && size > 0 && bytes[size - 1] == '\n');
}

/* Whether all copies are as long as the true file, and true between these places. */
static int are_true(const jls_copy *copies, size_t count, const true_file *file, size_t from, size_t to) {
    for (size_t at = 0; at < count; at++)
        if (copies[at].size != file->size || memcmp(copies[at].bytes + from, file->bytes + from, to - from) != 0) return 0;
    return 1;
}

/* Whether the lines tell the promise of one coding, and the true file has what one copy has at each differ, and what all have elsewhere. */
static int is_presumed(const char *lines, const jls_copy *copies, size_t count, const true_file *file) {
    size_t done = 0, offset = 0, length = 0;
    if (strstr(lines, "\npromise picture if the true file has what one copy has at each differ, and what all have elsewhere\n") == NULL) return 0;
    for (const char *line = lines; sscanf(line, "differ %zu %zu", &offset, &length) == 2; line = strchr(line, '\n') + 1) {
        int has_true = 0;
        if (offset < done || offset > file->size || length > file->size - offset) return 0;
        if (!are_true(copies, count, file, done, offset)) return 0;
        for (size_t at = 0; at < count; at++) has_true |= memcmp(copies[at].bytes + offset, file->bytes + offset, length) == 0;
        if (!has_true) return 0;
        done = offset + length;
    }
    return strstr(lines, "differ more") == NULL && are_true(copies, count, file, done, file->size);
}

/* Looks whether a promised picture is the true one, if what the promise presumes is true. Answers whether it is. */
static int look_at_truth(const jls_mended *mended, const jls_copy *copies, size_t count, const true_file *file) {
    static uint16_t samples[SIDE * SIDE * 4];
    static jls_line lines[SIDE * 4];
    static char told[MOST];
    jls_info info = JLS_INFO;
    size_t size = 0;
    const uint8_t *bytes = jls_mended_lines(mended, &size);
    if (file->samples == NULL || bytes == NULL || size >= sizeof told) return 0;
    memcpy(told, bytes, size), told[size] = 0;
    if (!is_presumed(told, copies, count, file)) return 0;
    bytes = jls_mended_picture(mended, &size);
    want("another shape than the true one",
         jls_lines(bytes, size, &info, samples, sizeof samples / 2, lines, sizeof lines / sizeof *lines) == JLS_DONE && info.samples == file->count);
    want("another picture than the true one", memcmp(samples, file->samples, 2 * file->count) == 0);
    return 1;
}

static long promised, presumed;

/* Damages copies of these files, and mends them. */
static void mend_group(const true_file files[2], size_t count, int is_one) {
    static uint8_t bytes[COPIES][2 * MOST];
    jls_mend_options options = JLS_MEND_OPTIONS;
    jls_mend_info info = JLS_MEND_INFO;
    jls_mended *mended = NULL;
    jls_copy copies[COPIES];
    for (size_t at = 0; at < count; at++) {
        const true_file *file = &files[is_one ? 0 : at % 2];
        size_t size = file->size;
        memcpy(bytes[at], file->bytes, size);
        for (uint32_t places = chance(3); places > 0 && size > 0; places--) size = damage(bytes[at], size);
        copies[at] = (jls_copy){bytes[at], size};
    }
    options.tries = 1 + chance(TRIES), options.files = (uint8_t)chance(2);
    options.has_ceiling = !chance(8), options.ceiling = 255;
    uint32_t answer = jls_mend(copies, count, &options, &mended);
    want("another answer", answer == JLS_DONE || answer == JLS_NOT_MENDED);
    if (answer == JLS_DONE) {
        look(mended), jls_mended_info(mended, &info);
        promised += info.is_promised;
        if (is_one && info.is_promised) presumed += look_at_truth(mended, copies, count, &files[0]);
    }
    jls_mended_free(mended);
}

int main(int count, char **words) {
    static true_file files[2];
    long groups = count > 1 ? strtol(words[1], NULL, 10) : 0, pairs = count > 2 ? (count - 2) / 2 : 0;
    if (groups <= 0) return 99;
    if (getenv("SEED") != NULL) state ^= strtoull(getenv("SEED"), NULL, 10) << 20;
    for (group = 0; group < groups; group++) {
        if (pairs > 0 && group % 2 == 0) {
            char **pair = words + 2 + group / 2 % pairs * 2;
            for (int at = 0; at < 2; at++) files[at].size = content(pair[at], files[at].bytes), files[at].samples = NULL;
            mend_group(files, 2, 0);
        } else {
            make_files(files);
            mend_group(files, 2 + chance(2), (int)chance(2));
        }
    }
    want("none is promised", promised > 0);
    want("no promise could be tried", presumed > 0);
    printf("%ld groups, %ld promised, %ld of them true as presumed, %d differ\n", groups, promised, presumed, differ);
    return differ != 0;
}
