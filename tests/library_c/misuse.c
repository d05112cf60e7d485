/* misuse: breaks each rule of jls_salvage.h for pointers, in a process of its own, against a library that was built with -DJLS_CHECKS. Each
   has to be stopped by abort, after the line on stderr that names the function and the argument. It prints each difference. */
#define _GNU_SOURCE
#include <jls_salvage.h>
#include <signal.h>
#include <stdio.h>
#include <stdlib.h>
#include <string.h>
#include <sys/resource.h>
#include <sys/wait.h>
#include <unistd.h>

static const uint8_t copy[] = {0xFF, 0xD8, 0xFF, 0xF7, 0, 11, 8, 0, 1, 0, 1, 1, 1, 0x11, 0, 0xFF, 0xDA, 0, 8, 1, 1, 0, 0, 0, 0, 0x80, 0xFF, 0xD9};
static union { uint8_t bytes[256]; uint16_t samples[128]; jls_piece pieces[4]; jls_line lines[4]; jls_info info; jls_header header; uint64_t size; jls_copy copies[2]; jls_mended *mended; jls_mend_info told; jls_mend_options options; size_t count; } one, two;
static const jls_frame frame = {.width = 1, .height = 1, .precision = 8, .components = 1};
static const jls_layout bytes = {.size = sizeof bytes, .bytes = 1}, pairs = {.size = sizeof pairs, .bytes = 2};
static const jls_mend_options options = JLS_MEND_OPTIONS;
static const jls_bad_list lost_list = {0, NULL, 9};
static const jls_mend_options without_lists = {.size = sizeof without_lists, .bad = NULL, .bad_count = 1};
static const jls_mend_options lost_lists = {.size = sizeof lost_lists, .bad = &lost_list, .bad_count = 1};
static const jls_copy both[2] = {{copy, sizeof copy}, {copy, sizeof copy}}, lost[2] = {{copy, sizeof copy}, {NULL, 1}};
static const jls_copy none[2] = {{copy, sizeof copy}, {NULL, 0}}, endless[2] = {{copy, sizeof copy}, {copy, SIZE_MAX}};
static const jls_copy written[2] = {{copy, sizeof copy}, {one.bytes, 9}}, parts[2] = {{copy, sizeof copy}, {copy + 1, sizeof copy - 1}};
static const struct { uint32_t before, size; uint8_t rest[16]; } first_version = {0, 20, {0}};
static jls_mended *mended;
static jls_info info;
static uint64_t size;
static size_t count;

#define COPY copy, sizeof copy
#define MENDED ((const jls_mended *)(const void *)&one)
#define AT(type, at) ((type *)(void *)(one.bytes + (at)))
#define WRONG(expression, told)                   \
    case __LINE__: return run ? (void)(expression) : (void)0, told
#define NULLS(expression, function, argument) WRONG(expression, "libjls_salvage: " function ": " argument " is NULL\n")

/* Runs the case of this line of the source, or doesn't, and answers what has to be told; NULL where no case stands there. */
static const char *told_of(int line, int run) {
    switch (line) {
    NULLS(jls_check(NULL, 1, &info, NULL, 0), "jls_check", "copy");
    NULLS(jls_check(COPY, NULL, NULL, 0), "jls_check", "info");
    NULLS(jls_check(COPY, &info, NULL, 1), "jls_check", "pieces");
    NULLS(jls_read(NULL, 1, &info, NULL, 0, NULL, 0), "jls_read", "copy");
    NULLS(jls_read(COPY, NULL, NULL, 0, NULL, 0), "jls_read", "info");
    NULLS(jls_read(COPY, &info, NULL, 1, one.bytes, 1), "jls_read", "samples");
    NULLS(jls_read(COPY, &info, one.samples, 1, NULL, 1), "jls_read", "statuses");
    NULLS(jls_read_header(NULL, 1, &one.header), "jls_read_header", "copy");
    NULLS(jls_read_header(COPY, NULL), "jls_read_header", "header");
    NULLS(jls_read_as(NULL, 1, &info, &bytes, NULL, 0, NULL, 0), "jls_read_as", "copy");
    NULLS(jls_read_as(COPY, NULL, &bytes, NULL, 0, NULL, 0), "jls_read_as", "info");
    NULLS(jls_read_as(COPY, &info, NULL, one.bytes, 1, two.bytes, 1), "jls_read_as", "layout");
    NULLS(jls_read_as(COPY, &info, &bytes, NULL, 1, two.bytes, 1), "jls_read_as", "samples");
    NULLS(jls_read_as(COPY, &info, &bytes, one.bytes, 1, NULL, 1), "jls_read_as", "statuses");
    NULLS(jls_check_under(NULL, 1, JLS_WIDE, &info, NULL, 0), "jls_check_under", "copy");
    NULLS(jls_check_under(COPY, JLS_WIDE, NULL, NULL, 0), "jls_check_under", "info");
    NULLS(jls_check_under(COPY, JLS_WIDE, &info, NULL, 1), "jls_check_under", "pieces");
    NULLS(jls_read_under(NULL, 1, JLS_WIDE, &info, NULL, 0, NULL, 0), "jls_read_under", "copy");
    NULLS(jls_read_under(COPY, JLS_WIDE, NULL, NULL, 0, NULL, 0), "jls_read_under", "info");
    NULLS(jls_read_under(COPY, JLS_WIDE, &info, NULL, 1, one.bytes, 1), "jls_read_under", "samples");
    NULLS(jls_read_under(COPY, JLS_WIDE, &info, one.samples, 1, NULL, 1), "jls_read_under", "statuses");
    NULLS(jls_read_as_under(NULL, 1, JLS_WIDE, &info, &bytes, NULL, 0, NULL, 0), "jls_read_as_under", "copy");
    NULLS(jls_read_as_under(COPY, JLS_WIDE, NULL, &bytes, NULL, 0, NULL, 0), "jls_read_as_under", "info");
    NULLS(jls_read_as_under(COPY, JLS_WIDE, &info, NULL, one.bytes, 1, two.bytes, 1), "jls_read_as_under", "layout");
    NULLS(jls_read_as_under(COPY, JLS_WIDE, &info, &bytes, NULL, 1, two.bytes, 1), "jls_read_as_under", "samples");
    NULLS(jls_read_as_under(COPY, JLS_WIDE, &info, &bytes, one.bytes, 1, NULL, 1), "jls_read_as_under", "statuses");
    NULLS(jls_partial(NULL, 1, 1, &info, NULL, 0), "jls_partial", "copy");
    NULLS(jls_partial(COPY, 1, NULL, NULL, 0), "jls_partial", "info");
    NULLS(jls_partial(COPY, 1, &info, NULL, 1), "jls_partial", "partial");
    NULLS(jls_partial_under(NULL, 1, JLS_WIDE, 1, &info, NULL, 0), "jls_partial_under", "copy");
    NULLS(jls_partial_under(COPY, JLS_WIDE, 1, NULL, NULL, 0), "jls_partial_under", "info");
    NULLS(jls_partial_under(COPY, JLS_WIDE, 1, &info, NULL, 1), "jls_partial_under", "partial");
    NULLS(jls_join(NULL, 1, COPY, &info, NULL, 0), "jls_join", "first");
    NULLS(jls_join(COPY, NULL, 1, &info, NULL, 0), "jls_join", "second");
    NULLS(jls_join(COPY, COPY, NULL, NULL, 0), "jls_join", "info");
    NULLS(jls_join(COPY, COPY, &info, NULL, 1), "jls_join", "joined");
    NULLS(jls_lines(NULL, 1, &info, NULL, 0, NULL, 0), "jls_lines", "partial");
    NULLS(jls_lines(COPY, NULL, NULL, 0, NULL, 0), "jls_lines", "info");
    NULLS(jls_lines(COPY, &info, NULL, 1, one.lines, 1), "jls_lines", "samples");
    NULLS(jls_lines(COPY, &info, one.samples, 1, NULL, 1), "jls_lines", "lines");
    NULLS(jls_write(NULL, one.samples, 1, two.bytes, 9, &size), "jls_write", "frame");
    NULLS(jls_write(&frame, NULL, 1, two.bytes, 9, &size), "jls_write", "samples");
    NULLS(jls_write(&frame, one.samples, 1, NULL, 9, &size), "jls_write", "file");
    NULLS(jls_write(&frame, one.samples, 1, two.bytes, 9, NULL), "jls_write", "file_size");
    NULLS(jls_write_as(NULL, &bytes, one.bytes, 1, two.bytes, 9, &size), "jls_write_as", "frame");
    NULLS(jls_write_as(&frame, NULL, one.bytes, 1, two.bytes, 9, &size), "jls_write_as", "layout");
    NULLS(jls_write_as(&frame, &bytes, NULL, 1, two.bytes, 9, &size), "jls_write_as", "samples");
    NULLS(jls_write_as(&frame, &bytes, one.bytes, 1, NULL, 9, &size), "jls_write_as", "file");
    NULLS(jls_write_as(&frame, &bytes, one.bytes, 1, two.bytes, 9, NULL), "jls_write_as", "file_size");
    NULLS(jls_mend(NULL, 2, &options, &mended), "jls_mend", "copies");
    NULLS(jls_mend(both, 2, NULL, &mended), "jls_mend", "options");
    NULLS(jls_mend(both, 2, &options, NULL), "jls_mend", "mended");
    NULLS(jls_mend(lost, 2, &options, &mended), "jls_mend", "copies[at].bytes");
    NULLS(jls_mend(both, 2, &without_lists, &mended), "jls_mend", "bad");
    NULLS(jls_mend(both, 2, &lost_lists, &mended), "jls_mend", "bad[at].list");
    NULLS(jls_mended_info(NULL, &two.told), "jls_mended_info", "mended");
    NULLS(jls_mended_places(NULL, NULL, 0, &size), "jls_mended_places", "mended");
    NULLS(jls_mended_places(MENDED, NULL, 1, &size), "jls_mended_places", "places");
    NULLS(jls_mended_places(MENDED, NULL, 0, NULL), "jls_mended_places", "count");
    NULLS(jls_mended_picture(NULL, &count), "jls_mended_picture", "mended");
    NULLS(jls_mended_file(NULL, &count), "jls_mended_file", "mended");
    NULLS(jls_mended_numbered(NULL, 0, &count), "jls_mended_numbered", "mended");
    NULLS(jls_mended_lines(NULL, &count), "jls_mended_lines", "mended");
    NULLS(jls_mended_info(MENDED, NULL), "jls_mended_info", "info");
    NULLS(jls_mended_picture(MENDED, NULL), "jls_mended_picture", "size");
    NULLS(jls_mended_file(MENDED, NULL), "jls_mended_file", "size");
    NULLS(jls_mended_numbered(MENDED, 0, NULL), "jls_mended_numbered", "size");
    NULLS(jls_mended_lines(MENDED, NULL), "jls_mended_lines", "size");
    WRONG(jls_mend(one.copies, 2, &options, &one.mended), "libjls_salvage: jls_mend: mended overlaps copies\n");
    WRONG(jls_mend(both, 2, &one.options, &one.mended), "libjls_salvage: jls_mend: mended overlaps options\n");
    WRONG(jls_mend(written, 2, &options, &one.mended), "libjls_salvage: jls_mend: mended overlaps copies[at].bytes\n");
    WRONG(jls_mended_info(MENDED, &one.told), "libjls_salvage: jls_mended_info: info overlaps mended\n");
    WRONG(jls_mended_places(MENDED, NULL, 0, &one.size), "libjls_salvage: jls_mended_places: count overlaps mended\n");
    WRONG(jls_mended_picture(MENDED, &one.count), "libjls_salvage: jls_mended_picture: size overlaps mended\n");
    WRONG(jls_mended_file(MENDED, &one.count), "libjls_salvage: jls_mended_file: size overlaps mended\n");
    WRONG(jls_mended_numbered(MENDED, 0, &one.count), "libjls_salvage: jls_mended_numbered: size overlaps mended\n");
    WRONG(jls_mended_lines(MENDED, &one.count), "libjls_salvage: jls_mended_lines: size overlaps mended\n");
    WRONG(jls_mend(AT(jls_copy, 4), 2, &options, &mended), "libjls_salvage: jls_mend: copies is not aligned\n");
    WRONG(jls_mend(both, 2, AT(jls_mend_options, 2), &mended), "libjls_salvage: jls_mend: options is not aligned\n");
    WRONG(jls_mend(both, 2, &options, AT(jls_mended *, 4)), "libjls_salvage: jls_mend: mended is not aligned\n");
    WRONG(jls_mend(both, SIZE_MAX / 8, &options, &mended), "libjls_salvage: jls_mend: copies ends behind all memory\n");
    WRONG(jls_mend(endless, 2, &options, &mended), "libjls_salvage: jls_mend: copies[at].bytes ends behind all memory\n");
    WRONG(jls_check(one.bytes, 256, &info, one.pieces, 1), "libjls_salvage: jls_check: pieces overlaps copy\n");
    WRONG(jls_check(one.bytes, 256, &one.info, NULL, 0), "libjls_salvage: jls_check: info overlaps copy\n");
    WRONG(jls_read(COPY, &info, one.samples, 2, one.bytes + 3, 1), "libjls_salvage: jls_read: statuses overlaps samples\n");
    WRONG(jls_read(one.bytes + 3, 9, &info, one.samples, 2, two.bytes, 1), "libjls_salvage: jls_read: samples overlaps copy\n");
    WRONG(jls_read_as(COPY, &info, &pairs, one.samples, 2, one.bytes + 3, 1), "libjls_salvage: jls_read_as: statuses overlaps samples\n");
    WRONG(jls_read_header(one.bytes, 256, &one.header), "libjls_salvage: jls_read_header: header overlaps copy\n");
    WRONG(jls_partial(one.bytes, 9, 1, &info, one.bytes + 8, 9), "libjls_salvage: jls_partial: partial overlaps copy\n");
    WRONG(jls_check_under(one.bytes, 256, JLS_WIDE, &info, one.pieces, 1), "libjls_salvage: jls_check_under: pieces overlaps copy\n");
    WRONG(jls_read_under(COPY, JLS_WIDE, &info, one.samples, 2, one.bytes + 3, 1), "libjls_salvage: jls_read_under: statuses overlaps samples\n");
    WRONG(jls_read_as_under(COPY, JLS_WIDE, &info, &pairs, one.samples, 2, one.bytes + 3, 1), "libjls_salvage: jls_read_as_under: statuses overlaps samples\n");
    WRONG(jls_partial_under(one.bytes, 9, JLS_WIDE, 1, &info, one.bytes + 8, 9), "libjls_salvage: jls_partial_under: partial overlaps copy\n");
    WRONG(jls_check_under(COPY, JLS_WIDE, (jls_info *)(void *)(one.bytes + 4), NULL, 0), "libjls_salvage: jls_check_under: info is not aligned\n");
    WRONG(jls_join(COPY, one.bytes, 9, &info, one.bytes, 9), "libjls_salvage: jls_join: joined overlaps second\n");
    WRONG(jls_lines(COPY, &info, one.samples, 9, one.lines, 1), "libjls_salvage: jls_lines: lines overlaps samples\n");
    WRONG(jls_write(&frame, one.samples, 1, one.bytes + 1, 9, &size), "libjls_salvage: jls_write: file overlaps samples\n");
    WRONG(jls_write(&frame, one.samples, 1, two.bytes, 9, &two.size), "libjls_salvage: jls_write: file_size overlaps file\n");
    WRONG(jls_write_as(&frame, &bytes, one.bytes, 9, one.bytes + 8, 9, &size), "libjls_salvage: jls_write_as: file overlaps samples\n");
    WRONG(jls_read(COPY, &info, (uint16_t *)(void *)(one.bytes + 1), 2, two.bytes, 1), "libjls_salvage: jls_read: samples is not aligned\n");
    WRONG(jls_check(COPY, (jls_info *)(void *)(one.bytes + 4), NULL, 0), "libjls_salvage: jls_check: info is not aligned\n");
    WRONG(jls_check(copy, SIZE_MAX, &info, NULL, 0), "libjls_salvage: jls_check: copy ends behind all memory\n");
    WRONG(jls_read(COPY, &info, one.samples, SIZE_MAX / 2, two.bytes, 1), "libjls_salvage: jls_read: samples ends behind all memory\n");
    /* and what breaks none: the same bytes twice that are only read, buffers side by side, bytes at an odd address, no elements */
    WRONG(jls_join(COPY, COPY, &info, NULL, 0), "");
    WRONG(jls_read(COPY, &info, one.samples, 2, one.bytes + 4, 1), "");
    WRONG(jls_read_as(COPY, &info, &pairs, one.bytes + 1, 2, one.bytes + 5, 1), "");
    WRONG(jls_check(NULL, 0, &info, NULL, 0), "");
    WRONG(jls_read_under(COPY, JLS_WIDE, &info, one.samples, 2, one.bytes + 4, 1), "");
    WRONG(jls_check_under(NULL, 0, JLS_WIDE, &info, NULL, 0), "");
    WRONG(jls_read_as_under(COPY, JLS_WIDE, &info, &pairs, one.bytes + 1, 2, one.bytes + 5, 1), "");
    WRONG(jls_partial_under(NULL, 0, JLS_WIDE, 1, &info, NULL, 0), "");
    WRONG(jls_write(&frame, NULL, 0, NULL, 0, &size), "");
    WRONG(jls_mend(none, 2, &options, &mended), "");
    WRONG(jls_mend(both, 2, &options, &mended), "");
    WRONG(jls_mend(parts, 2, &options, &mended), "");
    WRONG(jls_mend(both, 2, (const jls_mend_options *)(const void *)&first_version.size, &mended), "");
    WRONG(jls_mend(NULL, 0, &options, &mended), "");
    WRONG(jls_mended_free(NULL), "");
    default: return NULL;
    }
}

/* Whether the process of this case is stopped and tells what it has to; or runs, and tells nothing. */
static int is_right(int line, const char *wanted) {
    int ends[2], status = 0;
    char told[256] = "";
    if (pipe(ends) != 0) exit(98);
    pid_t child = fork();
    if (child == 0) {
        setrlimit(RLIMIT_CORE, &(struct rlimit){0, 0});
        dup2(ends[1], 2);
        told_of(line, 1);
        _exit(0);
    }
    close(ends[1]);
    size_t length = 0;
    for (ssize_t more = 1; more > 0; length += more > 0 ? (size_t)more : 0) more = read(ends[0], told + length, sizeof told - 1 - length);
    close(ends[0]);
    waitpid(child, &status, 0);
    int stopped = WIFSIGNALED(status) && WTERMSIG(status) == SIGABRT, runs = WIFEXITED(status) && WEXITSTATUS(status) == 0;
    return (*wanted != 0 ? stopped : runs) && strcmp(told, wanted) == 0;
}

int main(void) {
    int cases = 0, differ = 0;
    for (int line = 1; line < __LINE__; line++) {
        const char *wanted = told_of(line, 0);
        if (wanted == NULL) continue;
        cases++;
        if (!is_right(line, wanted)) differ++, printf("line %d doesn't tell: %s\n", line, wanted);
    }
    return printf("%d cases, %d differ\n", cases, differ), differ != 0 || cases < 110;
}
