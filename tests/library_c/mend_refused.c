/* mend_refused COPY COPY..: refuses memory that jls_mend asks for, with and without lists of bad places, of the C library and of `resize`:
   one request, or all from one on, until the call asks for no more. It has to answer JLS_OUT_OF_MEMORY, and to have written nothing; or it
   did without, and gives what it gives otherwise. No block may be left, and with `resize` none may come from elsewhere. And where a damaged
   header claims a large picture, no large block may be asked for. Link it with --wrap for malloc, calloc, realloc and free. It prints each
   difference. */
#include <jls_salvage.h>
#include <stdio.h>
#include <stdlib.h>
#include <string.h>

void *__real_malloc(size_t size);
void *__real_calloc(size_t count, size_t size);
void *__real_realloc(void *old, size_t size);
void __real_free(void *block);
static long left = -1, refusals, blocks, plain; /* plain: how often the C library was called */
static int once, differ;
static size_t largest; /* what was asked for at once */

static int is_refused(size_t size) {
    if (size > largest) largest = size;
    if (left < 0) return 0;
    if (left > 0) return left--, 0;
    if (once) left = -1;
    return refusals++, 1;
}

static void *counted(void *block) { return blocks += block != NULL, block; }

static void freed(void *block) {
    blocks -= block != NULL;
    __real_free(block);
}

static void *resized(void *old, size_t size) {
    if (is_refused(size)) return NULL;
    return old == NULL ? counted(__real_realloc(old, size)) : __real_realloc(old, size);
}

void *__wrap_malloc(size_t size) { return plain++, resized(NULL, size); }
void *__wrap_calloc(size_t count, size_t size) { return plain++, is_refused(count * size) ? NULL : counted(__real_calloc(count, size)); }
void *__wrap_realloc(void *old, size_t size) { return plain++, resized(old, size); }
void __wrap_free(void *block) { plain++, freed(block); }

static void want(const char *what, int holds) {
    if (!holds) differ++, printf("%s\n", what);
}

/* Memory of the caller's, with his context. */
static void *resize(void *memory, void *block, size_t size) {
    want("another context", memory == &blocks);
    if (size != 0) return resized(block, size);
    want("no block is freed", block != NULL);
    return freed(block), NULL;
}

enum { MOST = 4, ROOM = 1 << 20 };
static uint8_t rooms[MOST][ROOM];
static jls_copy copies[MOST];
static size_t number;
static jls_mend_options options = JLS_MEND_OPTIONS;

typedef const uint8_t *(*part)(const jls_mended *, size_t *);

static int is_same(const jls_mended *one, const jls_mended *other) {
    static const part parts[] = {jls_mended_picture, jls_mended_file, jls_mended_lines};
    jls_mend_info first = JLS_MEND_INFO, second = JLS_MEND_INFO;
    if (jls_mended_info(one, &first) != JLS_DONE || jls_mended_info(other, &second) != JLS_DONE) return 0;
    if (memcmp(&first, &second, sizeof first) != 0) return 0;
    for (size_t at = 0; at < sizeof parts / sizeof *parts; at++) {
        size_t size = 0, its = 0;
        const uint8_t *here = parts[at](one, &size), *there = parts[at](other, &its);
        if (size != its || (size != 0 && memcmp(here, there, size) != 0)) return 0;
    }
    return 1;
}

/* Refuses this request, and answers whether there was none so late. */
static int has_none(long request, const jls_mended *whole) {
    jls_mended *mended = (jls_mended *)&differ;
    long before = blocks;
    left = request, refusals = 0, plain = 0;
    uint32_t answer = jls_mend(copies, number, &options, &mended);
    left = -1;
    want("another answer", answer == JLS_DONE || (answer == JLS_OUT_OF_MEMORY && refusals > 0));
    if (answer == JLS_DONE) {
        want("something else came of it", is_same(mended, whole));
        jls_mended_free(mended);
    } else {
        want("a refusal has written", mended == (jls_mended *)&differ);
    }
    want("a block is left", blocks == before);
    want("a block of the C library", plain == 0 || options.resize == NULL);
    return refusals == 0;
}

/* The first copy claims 65535 x 65535 samples: height and width stand behind the frame's marker, length and precision. */
static void claims(void) {
    jls_mended *mended = NULL;
    uint8_t *frame = memchr(rooms[0] + 3, 0xF7, copies[0].size - 3);
    if (frame == NULL || copies[0].size - (size_t)(frame - rooms[0]) < 8) exit(97);
    memset(frame + 4, 0xFF, 4);
    largest = 0;
    uint32_t answer = jls_mend(copies, number, &options, &mended);
    want("another answer to a claim", answer == JLS_DONE || answer == JLS_NOT_MENDED);
    want("a large block for a claim", largest < 1 << 24);
    jls_mended_free(mended);
}

int main(int count, char **names) {
    long calls = 0;
    jls_mended *whole = NULL;
    for (int at = 1; at < count && number < MOST; at++, number++) {
        FILE *stream = fopen(names[at], "rb");
        if (stream == NULL) return 99;
        copies[number] = (jls_copy){rooms[number], fread(rooms[number], 1, ROOM, stream)};
        fclose(stream);
    }
    static const uint8_t place[] = "40 1\n", none[] = "# nothing is bad\n";
    static const jls_bad_list lists[] = {{0, place, sizeof place - 1}, {1, none, sizeof none - 1}};
    options.files = 1, options.bad = lists, options.memory = &blocks;
    for (options.bad_count = 0; options.bad_count <= 2; options.bad_count += 2) {
        options.resize = NULL;
        if (jls_mend(copies, number, &options, &whole) != JLS_DONE) return 98;
        for (int way = 0; way < 4; way++) { /* with many requests some are left out */
            once = way % 2, options.resize = way < 2 ? NULL : resize;
            for (long request = 0; calls++, !has_none(request, whole); request += 1 + request / 16) {}
        }
        jls_mended_free(whole);
    }
    options.bad_count = 0;
    claims();
    options.resize = NULL;
    claims();
    want("few requests were refused", calls > 20);
    return printf("%ld calls, %d differ\n", calls, differ), differ != 0;
}
