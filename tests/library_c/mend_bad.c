/* mend_bad [trusting]: calls jls_mend with copies of no bytes. With a word it also calls it with sizes that add up to more than there is, of
   copies or of lists of bad places, and with more of them than there is memory for: a library with -DJLS_CHECKS would stop at these, and another one refuses them before it reads
   what isn't there. Each call has its answer, and one that is refused writes nothing. It prints each difference. */
#define _GNU_SOURCE
#include <jls_salvage.h>
#include <stdio.h>
#include <string.h>
#include <sys/mman.h>
#include <sys/resource.h>

static int differ;
static const jls_mend_options options = JLS_MEND_OPTIONS;

static void want(const char *what, int holds) {
    if (!holds) differ++, printf("%s\n", what);
}

/* A file of one sample, by hand. */
static const uint8_t one[] = {0xFF, 0xD8, 0xFF, 0xF7, 0, 11, 8, 0, 1, 0, 1, 1, 1, 0x11, 0, 0xFF, 0xDA, 0, 8, 1, 1, 0, 0, 0, 0, 0x80, 0xFF, 0xD9};
#define ONE {one, sizeof one}
#define SIZED(size) {one, size}
#define NOTHING {NULL, 0}
#define HALF (SIZE_MAX / 2)

static void refused(const char *what, const jls_copy *copies, size_t count) {
    jls_mended *mended = (jls_mended *)&differ;
    want(what, jls_mend(copies, count, &options, &mended) == JLS_OUT_OF_MEMORY);
    want(what, mended == (jls_mended *)&differ);
}

/* Copies that are mended to the file of one sample, which is promised. */
static void is_mended(const char *what, const jls_copy *copies, size_t count) {
    jls_mend_info info = JLS_MEND_INFO;
    jls_mended *mended = NULL;
    size_t size = 0;
    want(what, jls_mend(copies, count, &options, &mended) == JLS_DONE);
    if (mended == NULL) return;
    const uint8_t *file = jls_mended_file(mended, &size);
    want(what, jls_mended_info(mended, &info) == JLS_DONE && info.has_file == 1 && info.is_promised == 1 && info.is_whole == 1);
    want(what, file != NULL && size == sizeof one && memcmp(file, one, sizeof one) == 0);
    jls_mended_free(mended);
}

static void has_no_picture(const char *what, const jls_copy *copies, size_t count) {
    jls_mend_info info = JLS_MEND_INFO;
    jls_mended *mended = NULL;
    want(what, jls_mend(copies, count, &options, &mended) == JLS_NOT_MENDED);
    if (mended == NULL) return;
    want(what, jls_mended_info(mended, &info) == JLS_DONE && info.cause == JLS_CAUSE_NO_PICTURE && info.copy == 0);
    jls_mended_free(mended);
}

/* Sizes whose sum is 2^63 or more, or begins again at 0. */
static void sums(void) {
    const jls_copy one_beyond[] = {SIZED(HALF), SIZED(1)}, twice[] = {SIZED(HALF + 1), SIZED(HALF + 1)}, just[] = {SIZED(HALF), NOTHING};
    const jls_copy again[] = {SIZED(HALF + 1), SIZED(HALF + 1), ONE, ONE}, last[] = {ONE, ONE, SIZED(HALF)};
    refused("2^63 - 1 bytes", just, 2);
    refused("2^63 bytes", one_beyond, 2);
    refused("2^64 bytes", twice, 2);
    refused("2^64 bytes, and two files", again, 4);
    refused("two files, and 2^63 - 1 bytes", last, 3);
}

/* The same of lists, of which each is of the first copy. */
static void sums_of_lists(void) {
    static const struct {
        const char *what;
        jls_bad_list lists[3];
        size_t count;
    } rows[] = {
        {"a list of 2^63 - 1 bytes", {{0, one, HALF}}, 1},
        {"lists of 2^63 bytes", {{0, one, HALF}, {0, one, 1}}, 2},
        {"lists of 2^64 bytes", {{0, one, HALF + 1}, {0, one, HALF + 1}, {0, NULL, 0}}, 3},
        {"a list that ends behind all memory", {{0, one, SIZE_MAX}}, 1},
        {"lists that end behind all memory", {{0, NULL, 0}}, SIZE_MAX},
        {"2^59 lists", {{0, NULL, 0}}, SIZE_MAX / 32},
    };
    const jls_copy both[] = {ONE, ONE};
    for (size_t at = 0; at < sizeof rows / sizeof *rows; at++) {
        jls_mend_options listed = JLS_MEND_OPTIONS;
        jls_mended *mended = (jls_mended *)&differ;
        listed.bad = rows[at].lists, listed.bad_count = rows[at].count;
        want(rows[at].what, jls_mend(both, 2, &listed, &mended) == JLS_OUT_OF_MEMORY && mended == (jls_mended *)&differ);
    }
}

static void empty(void) {
    const jls_copy behind[] = {ONE, NOTHING}, before[] = {NOTHING, ONE}, here[] = {{one, 0}, ONE, ONE}, all[] = {NOTHING, {one, 0}, NOTHING};
    is_mended("a copy of no bytes, last", behind, 2);
    is_mended("a copy of no bytes, first", before, 2);
    is_mended("a copy of no bytes at an address", here, 3);
    static jls_copy thousand[1000];
    thousand[500] = thousand[999] = here[1];
    is_mended("998 copies of no bytes, and two files", thousand, 1000);
    has_no_picture("only copies of no bytes", all, 3);
}

/* More copies than there is memory for: their array is there, and stays unread. */
static void many(void) {
    const size_t count = ((size_t)1 << 32) + 2, most = (size_t)1 << 30;
    const jls_copy both[] = {ONE, ONE}, behind[] = {ONE, SIZED(SIZE_MAX)};
    refused("copies that end behind all memory", both, SIZE_MAX);
    refused("copies whose sizes end there", both, SIZE_MAX / 8);
    refused("2^59 copies", both, SIZE_MAX / 32);
    refused("a copy that ends behind all memory", behind, 2);
    jls_copy *copies = mmap(NULL, count * sizeof *copies, PROT_READ, MAP_PRIVATE | MAP_ANONYMOUS | MAP_NORESERVE, -1, 0);
    if (copies == MAP_FAILED) {
        puts("left out: 2^32 copies, as there is no room for their array");
        return;
    }
    struct rlimit limit = {0, 0};
    getrlimit(RLIMIT_AS, &limit);
    limit.rlim_cur = count * sizeof *copies + most;
    setrlimit(RLIMIT_AS, &limit);
    refused("2^32 copies", copies, count);
    munmap(copies, count * sizeof *copies);
}

int main(int count, char **words) {
    (void)words;
    empty();
    if (count > 1) sums(), sums_of_lists(), many();
    return differ != 0;
}
