/* mending TRIES SOURCE CEILING FILES FOLDER COPY.. [--bad N:LIST..]: calls jls_mend on these files, where `-` gives no source and no ceiling,
   and FILES is 0 or 1. Each LIST has bad places of the Nth COPY. What it gives goes into FOLDER under the names that jls-splice would use there: OUT, FILE, ALL-1 and so on; and the lines into LINES.
   It prints what came of it. Without words it looks at refusals, and at what is never given. It prints each difference. */
#include <jls_salvage.h>
#include <stdio.h>
#include <stdlib.h>
#include <string.h>

enum { MOST = 16, ROOM = 1 << 20 };
static int differ;

static void want(const char *what, int holds) {
    if (!holds) differ++, printf("%s\n", what);
}

static jls_copy read_file(const char *name) {
    FILE *file = fopen(name, "rb");
    if (file == NULL) exit(99);
    uint8_t *bytes = malloc(ROOM);
    jls_copy copy = {bytes, fread(bytes, 1, ROOM, file)};
    fclose(file);
    return copy;
}

static void put(const char *folder, const char *name, const uint8_t *bytes, size_t size) {
    char path[4096];
    if (bytes == NULL) return;
    snprintf(path, sizeof path, "%s/%s", folder, name);
    FILE *file = fopen(path, "wb");
    if (file == NULL || fwrite(bytes, 1, size, file) != size || fclose(file) != 0) exit(99);
}

static jls_bad_list lists[MOST];

/* Takes the words N:LIST, and answers how many there are. */
static int read_lists(char **words, int count) {
    if (count > MOST) exit(99);
    for (int at = 0; at < count; at++) {
        const char *name = strchr(words[at], ':');
        if (name == NULL) exit(99);
        jls_copy list = read_file(name + 1);
        lists[at] = (jls_bad_list){strtoul(words[at], NULL, 10) - 1, list.bytes, list.size};
    }
    return count;
}

/* Whether the places are those of the lines, which begin with them: all that are listed, and how many more there are. */
static void has_places(const jls_mended *mended) {
    enum { LISTED = 4096 };
    static jls_place places[LISTED + 1];
    uint64_t all = 0, again = 0;
    size_t size = 0, rooms[] = {0, 1, LISTED - 1, LISTED, LISTED + 1};
    const char *line = (const char *)jls_mended_lines(mended, &size), *end = size != 0 ? line + size : line;
    want("places are not counted", jls_mended_places(mended, NULL, 0, &all) == JLS_DONE);
    for (size_t at = 0; at < sizeof rooms / sizeof *rooms; at++) {
        size_t given = rooms[at] < all ? rooms[at] : (size_t)all;
        if (given > LISTED) given = LISTED;
        memset(places, 0xA5, sizeof places);
        want("other places", jls_mended_places(mended, places, rooms[at], &again) == JLS_DONE && again == all);
        for (size_t byte = 0; byte < sizeof *places; byte++) want("a place too many", ((uint8_t *)&places[given])[byte] == 0xA5);
    }
    uint64_t listed = all < LISTED ? all : LISTED;
    for (uint64_t at = 0; at < listed + (all > LISTED); at++) {
        char text[64];
        unsigned long long offset = places[at].offset, its = places[at].length, more = all - listed;
        int length = at < listed ? snprintf(text, sizeof text, "differ %llu %llu\n", offset, its)
                                 : snprintf(text, sizeof text, "differ more %llu\n", more);
        if (end - line < length || memcmp(line, text, (size_t)length) != 0) {
            want("another place", 0);
            return;
        }
        line += length;
    }
    want("a place is lost", end - line < 7 || memcmp(line, "differ ", 7) != 0);
}

static int mend_files(char **words, int count) {
    jls_mend_options options = JLS_MEND_OPTIONS;
    jls_mend_info info = JLS_MEND_INFO;
    jls_copy copies[MOST];
    jls_mended *mended = NULL;
    size_t size = 0;
    options.tries = (uint32_t)strtoul(words[0], NULL, 10);
    options.has_source = words[1][0] != '-', options.source = (uint32_t)strtoul(words[1], NULL, 10);
    options.has_ceiling = words[2][0] != '-', options.ceiling = (uint16_t)strtoul(words[2], NULL, 10);
    options.files = words[3][0] != '0';
    int number = 0, listed = 0;
    while (5 + number < count && strcmp(words[5 + number], "--bad") != 0) number++;
    if (number > MOST) return 99;
    for (int at = 0; at < number; at++) copies[at] = read_file(words[5 + at]);
    if (5 + number < count) listed = read_lists(words + 6 + number, count - 6 - number);
    options.bad = lists, options.bad_count = (size_t)listed;
    uint32_t answer = jls_mend(copies, (size_t)number, &options, &mended);
    for (int at = 0; at < number; at++) free((void *)(uintptr_t)copies[at].bytes);
    for (int at = 0; at < listed; at++) free((void *)(uintptr_t)lists[at].list);
    if (answer != JLS_DONE && answer != JLS_NOT_MENDED) return printf("answer %u\n", (unsigned)answer), 0;
    if (jls_mended_info(mended, &info) != JLS_DONE) return 99;
    printf("answer %u cause %u fault %u offset %llu copy %lld promised %u whole %u file %u files %u list %lld line %llu\n", (unsigned)answer, info.cause,
           info.fault, (unsigned long long)info.offset, info.has_copy ? (long long)info.copy : -1, info.is_promised, info.is_whole,
           info.has_file, (unsigned)info.files, info.has_list ? (long long)info.list : -1, (unsigned long long)info.line);
    has_places(mended);
    const uint8_t *bytes = jls_mended_picture(mended, &size);
    put(words[4], "OUT", bytes, size);
    bytes = jls_mended_file(mended, &size);
    if ((bytes != NULL) != info.has_file) return 99;
    put(words[4], "FILE", bytes, size);
    for (uint32_t at = 0; at < info.files; at++) {
        char name[32];
        snprintf(name, sizeof name, "ALL-%u", (unsigned)at + 1);
        bytes = jls_mended_numbered(mended, at, &size);
        if (bytes == NULL) return 99;
        put(words[4], name, bytes, size);
    }
    if (jls_mended_numbered(mended, info.files, &size) != NULL || size != 0) return 99;
    bytes = jls_mended_lines(mended, &size);
    put(words[4], "LINES", bytes, size);
    jls_mended_free(mended);
    return differ != 0;
}

/* A file of one sample, and one of two lines, by hand: each sample is 0. */
static const uint8_t one[] = {0xFF, 0xD8, 0xFF, 0xF7, 0, 11, 8, 0, 1, 0, 1, 1, 1, 0x11, 0, 0xFF, 0xDA, 0, 8, 1, 1, 0, 0, 0, 0, 0x80, 0xFF, 0xD9};
static const uint8_t two[] = {0xFF, 0xD8, 0xFF, 0xF7, 0, 11, 8, 0, 2, 0, 1, 1, 1, 0x11, 0, 0xFF, 0xDA, 0, 8, 1, 1, 0, 0, 0, 0, 0xC0, 0xFF, 0xD9};
static const uint8_t text[] = "JLSP 1\n";
#define ONE {one, sizeof one}
#define TWO {two, sizeof two}

/* Copies that can't be mended: why, at which copy, and which fault. */
static void stopped(const char *what, jls_copy first, jls_copy second, int cause, uint64_t copy, int fault, uint64_t offset) {
    jls_mend_options options = JLS_MEND_OPTIONS;
    jls_mend_info info = JLS_MEND_INFO;
    jls_mended *mended = NULL;
    size_t size = 7;
    const jls_copy copies[2] = {first, second};
    want(what, jls_mend(copies, 2, &options, &mended) == JLS_NOT_MENDED && mended != NULL);
    if (mended == NULL) return;
    want(what, jls_mended_info(mended, &info) == JLS_DONE);
    if (info.cause != cause || info.has_copy != 1 || info.copy != copy || info.fault != fault || info.offset != offset)
        want(what, 0), printf("  cause %u at copy %u, fault %u at %u\n", info.cause, (unsigned)info.copy, info.fault, (unsigned)info.offset);
    want(what, info.has_list == 0 && info.list == 0 && info.line == 0);
    want(what, info.files == 0 && info.has_file == 0 && info.is_promised == 0 && info.is_whole == 0);
    want(what, jls_mended_picture(mended, &size) == NULL && size == 0);
    want(what, jls_mended_file(mended, &size) == NULL && jls_mended_numbered(mended, 0, &size) == NULL);
    want(what, jls_mended_lines(mended, &size) == NULL && size == 0);
    has_places(mended);
    jls_mended_free(mended);
}

/* Calls that are refused: they write nothing. */
static void refused(const char *what, const jls_copy *copies, size_t count, const jls_mend_options *options, uint32_t wanted) {
    jls_mended *mended = (jls_mended *)&differ;
    want(what, jls_mend(copies, count, options, &mended) == wanted);
    want(what, mended == (jls_mended *)&differ);
}

/* Lists of bad places: of no copy, of one copy alone, and such that are none. */
static void with_lists(void) {
    static const uint8_t none[] = "# nothing is bad\n", words[] = "100 8\nat 300\n";
#define LIST(copy, bytes) {copy, bytes, sizeof bytes - 1}
    static const struct {
        const char *what;
        jls_bad_list lists[2];
        size_t copies, count;
        uint32_t answer;
        int cause;
        uint64_t list, line;
    } rows[] = {
        {"a list of no copy", {LIST(2, none)}, 2, 1, JLS_BAD_LISTS, 0, 0, 0},
        {"a second list of no copy", {LIST(1, none), LIST(2, none)}, 2, 2, JLS_BAD_LISTS, 0, 0, 0},
        {"a list of copy 2^32 - 1", {LIST(UINT32_MAX, none)}, 2, 1, JLS_BAD_LISTS, 0, 0, 0},
        {"a list of copy 2^64 - 1", {LIST(SIZE_MAX, none)}, 2, 1, JLS_BAD_LISTS, 0, 0, 0},
        {"a list without a copy", {LIST(0, none)}, 0, 1, JLS_BAD_COPIES, 0, 0, 0},
        {"no list of one copy", {LIST(0, none)}, 1, 0, JLS_BAD_COPIES, 0, 0, 0},
        {"a list of another copy than the one", {LIST(1, none)}, 1, 1, JLS_BAD_LISTS, 0, 0, 0},
        {"one copy, and nothing bad", {LIST(0, none)}, 1, 1, JLS_DONE, 0, 0, 0},
        {"an empty list", {{1, NULL, 0}}, 2, 1, JLS_DONE, 0, 0, 0},
        {"two lists of one copy", {LIST(1, none), LIST(1, none)}, 2, 2, JLS_DONE, 0, 0, 0},
        {"a list that is none", {LIST(0, none), LIST(1, words)}, 2, 2, JLS_NOT_MENDED, JLS_CAUSE_NO_LIST, 1, 2},
        {"a first list that is none", {LIST(1, words), LIST(0, words)}, 2, 2, JLS_NOT_MENDED, JLS_CAUSE_NO_LIST, 0, 2},
        {"a copy as a list", {LIST(0, one)}, 2, 1, JLS_NOT_MENDED, JLS_CAUSE_NO_LIST, 0, 1},
        {"a partial picture as a list", {LIST(0, text)}, 2, 1, JLS_NOT_MENDED, JLS_CAUSE_PARTIAL_PICTURE, 0, 0},
    };
    const jls_copy copies[2] = {ONE, ONE};
    for (size_t at = 0; at < sizeof rows / sizeof *rows; at++) {
        jls_mend_options options = JLS_MEND_OPTIONS;
        jls_mend_info info = JLS_MEND_INFO;
        jls_mended *mended = NULL;
        options.bad = rows[at].lists, options.bad_count = rows[at].count;
        want(rows[at].what, jls_mend(copies, rows[at].copies, &options, &mended) == rows[at].answer);
        want(rows[at].what, (mended != NULL) == (rows[at].answer == JLS_DONE || rows[at].answer == JLS_NOT_MENDED));
        if (mended == NULL) continue;
        want(rows[at].what, jls_mended_info(mended, &info) == JLS_DONE && info.cause == rows[at].cause && info.has_copy == 0);
        want(rows[at].what, info.has_list == (rows[at].answer != JLS_DONE) && info.list == rows[at].list && info.line == rows[at].line);
        want(rows[at].what, info.is_promised == (rows[at].answer == JLS_DONE));
        jls_mended_free(mended);
    }
}

/* What a caller of an earlier version says and is told: structures that are shorter, behind which anything may stand. */
static void earlier(void) {
    enum { WITH_STOP = 40, FIRST_INFO = 32 };
    const jls_copy copies[2] = {ONE, ONE};
    jls_mend_options options = JLS_MEND_OPTIONS;
    jls_mend_info told;
    jls_mended *mended = NULL;
    options.size = WITH_STOP;
    options.bad = (const jls_bad_list *)&differ, options.bad_count = SIZE_MAX;
    want("an earlier caller isn't served", jls_mend(copies, 2, &options, &mended) == JLS_DONE && mended != NULL);
    refused("one copy of an earlier caller", copies, 1, &options, JLS_BAD_COPIES);
    if (mended == NULL) return;
    memset(&told, 0xA5, sizeof told);
    told.size = FIRST_INFO;
    want("an earlier caller is told nothing", jls_mended_info(mended, &told) == JLS_DONE && told.is_promised == 1);
    for (size_t at = FIRST_INFO; at < sizeof told; at++) want("more is written than there is", ((const uint8_t *)&told)[at] == 0xA5);
    told.size = FIRST_INFO - 1;
    want("a short structure is filled", jls_mended_info(mended, &told) == JLS_BAD_SIZE);
    jls_mended_free(mended);
}

/* What a caller of a later version says: a structure that is larger. */
static void sizes(void) {
    struct { jls_mend_options options; uint8_t more[8]; } later = {{.size = sizeof later}, {0}};
    struct { jls_mend_info info; uint8_t more[8]; } told;
    const jls_copy copies[2] = {ONE, ONE};
    jls_mended *mended = NULL;
    memset(&told, 0xA5, sizeof told);
    told.info.size = sizeof told;
    want("a later caller isn't served", jls_mend(copies, 2, &later.options, &mended) == JLS_DONE && mended != NULL);
    if (mended == NULL) return;
    want("a later caller is told nothing", jls_mended_info(mended, &told.info) == JLS_DONE && told.info.is_promised == 1);
    for (size_t at = 0; at < sizeof told.more; at++) want("more is written than is known", told.more[at] == 0xA5);
    jls_mended_free(mended);
    later.more[3] = 1;
    refused("what isn't known is left out", copies, 2, &later.options, JLS_BAD_SIZE);
    later.options.size = sizeof later.options - 1;
    refused("short options are read", copies, 2, &later.options, JLS_BAD_SIZE);
}

int main(int count, char **words) {
    if (count > 6) return mend_files(words + 1, count - 1);
    const jls_mend_options options = JLS_MEND_OPTIONS;
    const jls_copy copies[2] = {ONE, ONE}, none = {NULL, 0}, is_text = {text, sizeof text - 1};
    refused("no copy", NULL, 0, &options, JLS_BAD_COPIES);
    refused("one copy", copies, 1, &options, JLS_BAD_COPIES);
    stopped("two shapes", copies[0], (jls_copy)TWO, JLS_CAUSE_SHAPE_DIFFERS, 1, JLS_FAULT_NONE, 0);
    stopped("no picture", (jls_copy){one, 2}, none, JLS_CAUSE_NO_PICTURE, 0, JLS_FAULT_ENDED, 2);
    stopped("empty copies", none, none, JLS_CAUSE_NO_PICTURE, 0, JLS_FAULT_ENDED, 0);
    stopped("a partial picture", copies[0], is_text, JLS_CAUSE_PARTIAL_PICTURE, 1, JLS_FAULT_NONE, 0);
    with_lists();
    earlier();
    sizes();
    jls_mended_free(NULL);
    return differ;
}
