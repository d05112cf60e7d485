/* damaged FILE..: changes bytes of copies and of the partial pictures that they give, and calls all functions on them, in buffers of just
   the length that is needed. A page behind each buffer can't be read or written, since the sanitizers don't see what the library itself
   reads. Four threads do so at once. What the functions say must agree. TURNS says how often each thread changes each file. It prints each
   difference, and answers whether there is one. */
#define _GNU_SOURCE
#include <jls_salvage.h>
#include <pthread.h>
#include <stdio.h>
#include <stdlib.h>
#include <string.h>
#include <sys/mman.h>

struct bytes { uint8_t *at; size_t size; };
static struct bytes files[64];
static int file_count;
static long turns = 100;
static _Thread_local uint64_t state, calls;
static _Thread_local long differ;

static void want(const char *what, int holds) {
    if (!holds) differ++, printf("%s\n", what);
}

static uint64_t chance(void) {
    state ^= state << 13, state ^= state >> 7, state ^= state << 17;
    return state >> 11;
}

enum { PAGE = 4096 };

static size_t pages_of(size_t size) { return (size + PAGE - 1) / PAGE * PAGE; }

/* Memory of this size that ends where a page begins that nobody may touch. */
static void *fenced(size_t size) {
    uint8_t *at = mmap(NULL, pages_of(size) + PAGE, PROT_READ | PROT_WRITE, MAP_PRIVATE | MAP_ANONYMOUS, -1, 0);
    if (at == MAP_FAILED || mprotect(at + pages_of(size), PAGE, PROT_NONE) != 0) exit(98);
    return at + pages_of(size) - size;
}

static void release(void *at, size_t size) {
    if (at != NULL) munmap((uint8_t *)at + size - pages_of(size), pages_of(size) + PAGE);
}

/* A copy of these bytes that was cut, or of which some bytes were changed, moved or lost. */
static struct bytes damaged(struct bytes from) {
    struct bytes to = {malloc(from.size + 1), from.size};
    if (from.size > 0) memcpy(to.at, from.at, from.size);
    for (uint64_t change = from.size == 0 ? 0 : chance() % 5; change > 0; change--)
        to.at[chance() % to.size] ^= (uint8_t)(1u << chance() % 8);
    if (chance() % 4 == 0 && to.size > 0) to.at[chance() % to.size] = 0xFF;
    if (chance() % 8 == 0) to.size = chance() % (to.size + 1);
    if (chance() % 8 == 0 && to.size > 0) {
        size_t at = chance() % to.size, length = chance() % (to.size - at) % 64;
        memmove(to.at + at, to.at + at + length, to.size - at - length);
        to.size -= length;
    }
    struct bytes fit = {fenced(to.size), to.size};
    memcpy(fit.at, to.at, to.size);
    free(to.at);
    return fit;
}

/* Whether a copy was read. */
static int is_read(uint32_t answer) { return answer == JLS_DONE || answer == JLS_UNSUPPORTED; }

/* Samples as they are laid out are written to the file that jls_write makes of them, in just its room. */
static void written(const jls_info *read, const uint16_t *samples, const jls_layout *layout, const void *out, uint64_t count) {
    jls_frame frame = {read->width, read->height, (uint16_t)(chance() % 4), read->precision, read->components, (uint8_t)(chance() % 2)};
    uint64_t size = 0, again = 0;
    calls++;
    want("no size of a file", jls_write(&frame, samples, read->samples, NULL, 0, &size) == JLS_SHORT_ROOM);
    uint8_t *file = fenced(size), *other = fenced(size);
    want("no file", jls_write(&frame, samples, read->samples, file, size, &again) == JLS_DONE && again == size);
    want("a file in short room", jls_write_as(&frame, layout, out, count, other, size - 1, &again) == JLS_SHORT_ROOM && again == size);
    want("samples that aren't there", jls_write_as(&frame, layout, out, count - 1, other, size, &again) == JLS_BAD_FRAME);
    want("no file of a layout", jls_write_as(&frame, layout, out, count, other, size, &again) == JLS_DONE && again == size);
    want("another file", memcmp(file, other, size) == 0);
    release(file, size);
    release(other, size);
}

/* The headers of a copy, and its samples by pixel and with a gap between lines: what jls_read says must agree. */
static void laid_out(struct bytes copy, const jls_info *read, const uint16_t *samples) {
    jls_header header = JLS_HEADER;
    uint32_t answer = jls_read_header(copy.at, copy.size, &header);
    calls++;
    want("no headers", is_read(answer));
    want("another size", header.samples == read->samples && header.lines == read->lines && header.width == read->width);
    jls_layout layout = JLS_LAYOUT;
    layout.bytes = read->precision > 8 || chance() % 2 == 0 ? 2 : 1;
    layout.interleaved = chance() % 2;
    uint64_t line = (uint64_t)read->width * (layout.interleaved ? read->components : 1), lines = read->lines;
    if (layout.interleaved) lines = read->height;
    layout.stride = chance() % 2 == 0 ? 0 : line + chance() % 5;
    uint64_t stride = layout.stride == 0 ? line : layout.stride, count = (lines - 1) * stride + line;
    uint64_t odd = chance() % 2; /* samples of two bytes may stand at any address */
    uint8_t *out = fenced(layout.bytes * count + odd), *statuses = fenced(read->lines);
    jls_info info = JLS_INFO;
    want("room that is short", jls_read_as(copy.at, copy.size, &info, &layout, out, count - 1, statuses, read->lines) == JLS_SHORT_ROOM);
    answer = jls_read_as(copy.at, copy.size, &info, &layout, out, count, statuses, read->lines);
    want("no samples as they are laid out", is_read(answer) && memcmp(&info, read, sizeof info) == 0);
    const uint16_t *planes = samples;
    for (uint64_t component = 0; component < read->components; component++)
        for (uint64_t y = 0; y < read->height; y++)
            for (uint64_t x = 0; x < read->width; x++) {
                uint64_t at = layout.interleaved ? y * stride + x * read->components + component : (component * read->height + y) * stride + x;
                uint16_t sample = out[at];
                if (layout.bytes == 2) memcpy(&sample, out + 2 * at, 2);
                if (sample != *samples++) want("another sample", 0);
            }
    written(read, planes, &layout, out, count);
    release(out, layout.bytes * count + odd);
    release(statuses, read->lines);
}

/* What a copy gives as a partial picture, in just the room that it needs. */
static struct bytes partial_of(struct bytes copy, uint32_t source) {
    struct bytes partial = {NULL, 0};
    jls_info info = JLS_INFO;
    uint32_t answer = jls_partial(copy.at, copy.size, source, &info, NULL, 0);
    calls++;
    if (answer != JLS_SHORT_ROOM) return partial;
    partial = (struct bytes){fenced(info.bytes), info.bytes};
    want("no partial picture", is_read(jls_partial(copy.at, copy.size, source, &info, partial.at, partial.size)));
    return partial;
}

/* Both partial pictures as one; no bytes where they don't join. */
static struct bytes joined(struct bytes first, struct bytes second) {
    struct bytes both = {NULL, 0};
    jls_info info = JLS_INFO;
    uint32_t answer = jls_join(first.at, first.size, second.at, second.size, &info, NULL, 0);
    calls++;
    if (answer != JLS_SHORT_ROOM) return both;
    both = (struct bytes){fenced(info.bytes), info.bytes};
    want("no join", jls_join(first.at, first.size, second.at, second.size, &info, both.at, both.size) == JLS_DONE);
    return both;
}

static int same(struct bytes one, struct bytes other) {
    return one.size == other.size && (one.size == 0 || memcmp(one.at, other.at, one.size) == 0);
}

/* The lines of a partial picture have to be those that were read, if any were. */
static void shown(struct bytes partial, const jls_info *read, const uint16_t *samples, const uint8_t *statuses) {
    jls_info info = JLS_INFO;
    uint32_t answer = jls_lines(partial.at, partial.size, &info, NULL, 0, NULL, 0);
    calls++;
    want("another answer about lines", answer == JLS_SHORT_ROOM || answer == JLS_NO_PARTIAL);
    if (answer != JLS_SHORT_ROOM || info.samples > 1u << 24) return;
    uint16_t *out = fenced(2 * info.samples);
    jls_line *lines = fenced(sizeof *lines * info.lines);
    want("no lines", jls_lines(partial.at, partial.size, &info, out, info.samples, lines, info.lines) == JLS_DONE);
    for (uint64_t at = 0; at < info.lines; at++) {
        uint64_t readings = lines[at].readings;
        want("another status", lines[at].status == (readings > 1 ? 2 : readings));
        want("another line", read == NULL || lines[at].status == statuses[at]);
    }
    want("other samples", read == NULL || (info.samples == read->samples && memcmp(out, samples, 2 * info.samples) == 0));
    release(out, 2 * info.samples);
    release(lines, sizeof *lines * info.lines);
}

/* A copy: what is checked, read, and made of it. */
static struct bytes tried(struct bytes copy) {
    jls_info info = JLS_INFO, read = JLS_INFO;
    jls_piece pieces[3];
    struct bytes partial = {NULL, 0};
    uint32_t answer = jls_check(copy.at, copy.size, &info, pieces, chance() % 4);
    calls++;
    int agrees = is_read(answer) || jls_read(copy.at, copy.size, &read, NULL, 0, NULL, 0) == answer;
    want("no picture, but one", agrees);
    if (!is_read(answer)) return partial;
    want("other counts", info.missing + info.settled + info.disputed == info.lines && info.bytes == 0);
    if (info.samples > 1u << 22) return partial;
    uint16_t *samples = fenced(2 * info.samples);
    uint8_t *statuses = fenced(info.lines);
    want("no lines of a copy", is_read(jls_read(copy.at, copy.size, &read, samples, info.samples, statuses, info.lines)));
    want("another info", memcmp(&info, &read, sizeof info) == 0);
    laid_out(copy, &read, samples);
    partial = partial_of(copy, (uint32_t)chance());
    shown(partial, &read, samples, statuses);
    release(samples, 2 * info.samples);
    release(statuses, info.lines);
    return partial;
}

/* A file changed: alone, with what came before it, and its partial picture changed. */
static void turn(struct bytes file, struct bytes whole) {
    struct bytes copy = damaged(file), partial = tried(copy);
    struct bytes both = joined(whole, partial), turned = joined(partial, whole), again = joined(both, partial);
    want("the order matters", same(both, turned));
    want("a second join changes it", same(again, both));
    struct bytes other = damaged(both.size > 0 ? both : whole), more = joined(whole, other);
    shown(other, NULL, NULL, NULL);
    struct bytes all[] = {copy, partial, both, turned, again, other, more};
    for (size_t at = 0; at < sizeof all / sizeof *all; at++) release(all[at].at, all[at].size);
}

/* A thread's turns at all files; it answers how many things differ. */
static void *run(void *number) {
    state = 0x9E3779B97F4A7C15u * (uint64_t)(uintptr_t)number;
    for (int at = 0; at < file_count; at++) {
        struct bytes whole = partial_of(files[at], 1);
        for (long left = turns; left > 0 && files[at].size > 0; left--) turn(files[at], whole);
        release(whole.at, whole.size);
    }
    printf("%lu calls, %ld differ\n", (unsigned long)calls, differ);
    return (void *)(intptr_t)differ;
}

int main(int count, char **names) {
    if (getenv("TURNS") != NULL) turns = atol(getenv("TURNS"));
    for (int at = 1; at < count && file_count < 64; at++) {
        FILE *stream = fopen(names[at], "rb");
        if (stream == NULL) return 99;
        struct bytes *file = &files[file_count++];
        file->at = malloc(1 << 22);
        file->size = fread(file->at, 1, 1 << 22, stream);
        fclose(stream);
    }
    pthread_t threads[4];
    intptr_t all = 0;
    for (uintptr_t at = 0; at < 4; at++)
        if (pthread_create(&threads[at], NULL, run, (void *)(at + 1)) != 0) return 98;
    for (int at = 0; at < 4; at++) {
        void *more = NULL;
        pthread_join(threads[at], &more);
        all += (intptr_t)more;
    }
    for (int at = 0; at < file_count; at++) free(files[at].at);
    return all != 0;
}
