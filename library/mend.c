/* Copies that mend each other. jls_mend hands them to the proved function one behind the other, and lists of their bad places so too, and
   keeps what that writes. No proof covers this file. */
#include "../include/jls_salvage.h"
#include "misuse.h"
#include "processor.h"
#include "stop.h"
#include <stdlib.h>
#include <string.h>

/* What the proved function is asked for: jls_mend_options from `tries` to `files`. */
typedef struct asked {
    uint32_t tries, source;
    uint16_t ceiling;
    uint8_t has_source, has_ceiling, files;
} asked;

/* What it tells. */
typedef struct told {
    uint64_t bytes, outputs, lines, copy, offset;
    uint8_t has_copy, cause, fault, has_file, is_promised, is_whole, has_list;
    uint64_t list, line;
} told;

/* A list of bad places as it takes it: the number of its copy, and how many bytes it has. */
typedef struct listed {
    uint64_t copy, size;
} listed;

/* The sizes in earlier versions, which stay as they are when a structure grows: callers that are older have these. In the first version
   jls_mend_options ended with `files`, and was aligned as a number of 32 bits is. In the second it ended with `context`, and in the third
   with `bad_count`. */
enum { FIRST_OPTIONS = 20, SECOND_OPTIONS = 40, THIRD_OPTIONS = 56, FIRST_INFO = 32 };

_Static_assert(sizeof(jls_mend_options) == 72 && sizeof(jls_mend_info) == 48, "the sizes of this version");
_Static_assert(offsetof(jls_mend_options, tries) + sizeof(asked) == FIRST_OPTIONS, "what is asked ended the first version");
_Static_assert(offsetof(jls_mend_options, stop) >= FIRST_OPTIONS, "what came later stands behind it");
_Static_assert(offsetof(jls_mend_options, bad) == SECOND_OPTIONS, "and what came then behind the second");
_Static_assert(offsetof(jls_mend_options, resize) == THIRD_OPTIONS, "and behind the third");
_Static_assert(offsetof(jls_mend_info, list) == FIRST_INFO, "what came later stands behind the first version");

enum { TRIES = 4096, NUMBERED = 64, SPARE = 1 << 20, SAMPLES_A_BYTE = 64 };

uint32_t proved_jls_mend(const uint8_t *, size_t, const uint64_t *, size_t, const uint8_t *, size_t, const listed *, size_t, const asked *,
                         told *, uint8_t *, size_t, uint64_t *, size_t);

/* The outputs stand in `bytes` one behind the other: the picture, the mended file if there is one, those with numbers, and the lines.
   `sizes` has how many bytes each output has. */
struct jls_mended {
    memory memory;
    told told;
    uint8_t *bytes;
    uint64_t *sizes;
};

/* Copies one behind the other, and how many bytes each has. */
typedef struct joined {
    uint8_t *bytes;
    size_t size;
    uint64_t *sizes;
} joined;

/* Lists one behind the other, with the copy and the size of each. */
typedef struct joined_lists {
    uint8_t *texts;
    size_t size;
    listed *lists;
    size_t count;
} joined_lists;

/* Takes options of any version: what an older one doesn't have is 0. Answers whether there are such, and all that a caller of a later
   version sets is known here: the rest has to be 0. */
static bool take_options(const void *from, jls_mend_options *options) {
    const uint8_t *bytes = from;
    memset(options, 0, sizeof *options);
    memcpy(&options->size, bytes, sizeof options->size);
    size_t size = options->size;
    if (size != FIRST_OPTIONS && size != SECOND_OPTIONS && size != THIRD_OPTIONS && size < sizeof *options) return false;
    for (size_t at = sizeof *options; at < size; at++)
        if (bytes[at] != 0) return false;
    memcpy(options, bytes, size < sizeof *options ? size : sizeof *options);
    return true;
}

/* Room for so many elements, which are 0. */
static void *room_for(const memory *by, size_t count, size_t size) {
    if (count > SIZE_MAX / 2 / size) return NULL;
    if (count == 0) count = 1;
    if (by->resize == NULL) return calloc(count, size);
    void *room = jls_resized(by, NULL, count * size);
    return room != NULL ? memset(room, 0, count * size) : NULL;
}

static void give_back(const memory *by, void *block) {
    if (block != NULL) jls_resized(by, block, 0);
}

static bool join_copies(const memory *by, const jls_copy *copies, size_t count, joined *all) {
    *all = (joined){NULL, 0, room_for(by, count, sizeof *all->sizes)};
    if (all->sizes == NULL) return false;
    for (size_t at = 0; at < count; at++) {
        if (copies[at].size > SIZE_MAX / 2 - all->size) return false;
        all->size += copies[at].size;
    }
    all->bytes = room_for(by, all->size, 1);
    if (all->bytes == NULL) return false;
    uint8_t *to = all->bytes;
    for (size_t at = 0; at < count; to += copies[at++].size) {
        all->sizes[at] = copies[at].size;
        if (copies[at].size != 0) memcpy(to, copies[at].bytes, copies[at].size);
    }
    return true;
}

static bool join_lists(const memory *by, const jls_bad_list *bad, size_t count, joined_lists *all) {
    *all = (joined_lists){NULL, 0, room_for(by, count, sizeof *all->lists), count};
    if (all->lists == NULL) return false;
    for (size_t at = 0; at < count; at++) {
        if (bad[at].size > SIZE_MAX / 2 - all->size) return false;
        all->size += bad[at].size;
    }
    all->texts = room_for(by, all->size, 1);
    if (all->texts == NULL) return false;
    uint8_t *to = all->texts;
    for (size_t at = 0; at < count; to += bad[at++].size) {
        all->lists[at] = (listed){bad[at].copy, bad[at].size};
        if (bad[at].size != 0) memcpy(to, bad[at].list, bad[at].size);
    }
    return true;
}

/* How many bytes the outputs of most mendings have at most. What isn't written of them takes no memory. A damaged header can claim a large
   picture: few files have more than SAMPLES_A_BYTE. */
static size_t likely_room(const jls_copy *copies, size_t count, bool has_files) {
    uint64_t samples = 0, lines = 0, longest = 0;
    for (size_t at = 0; at < count; at++) {
        jls_header header = JLS_HEADER;
        uint32_t answer = jls_read_header(copies[at].bytes, copies[at].size, &header);
        if (copies[at].size > longest) longest = copies[at].size;
        if (answer != JLS_DONE && answer != JLS_UNSUPPORTED) continue;
        if (header.samples > samples) samples = header.samples;
        if (header.lines > lines) lines = header.lines;
    }
    uint64_t files = has_files ? NUMBERED + 1 : 1;
    if (samples / SAMPLES_A_BYTE > longest) samples = SAMPLES_A_BYTE * longest;
    if (longest > SIZE_MAX / 4 / (files + 1)) return SPARE;
    return (size_t)(SPARE + 6 * samples + 64 * lines + 2 * longest * files);
}

/* Takes so much room for the outputs. */
static bool take_room(jls_mended *it, size_t room, size_t count) {
    give_back(&it->memory, it->bytes);
    give_back(&it->memory, it->sizes);
    it->bytes = room_for(&it->memory, room, 1);
    it->sizes = room_for(&it->memory, count, sizeof *it->sizes);
    return it->bytes != NULL && it->sizes != NULL;
}

/* Mends copies. What is too short is taken once more, as long as it has to be. */
static uint32_t mend(const joined *all, size_t count, const joined_lists *bad, const asked *asked, size_t room, jls_mended *it) {
    size_t sizes = NUMBERED + 2;
    if (!take_room(it, room, sizes) && !take_room(it, room = SPARE, sizes)) return JLS_OUT_OF_MEMORY;
    uint32_t answer = JLS_SHORT_ROOM;
    for (;;) {
        answer = proved_jls_mend(all->bytes, all->size, all->sizes, count, bad->texts, bad->size, bad->lists, bad->count, asked, &it->told,
                                 it->bytes, room, it->sizes, sizes);
        if (answer != JLS_SHORT_ROOM) return answer;
        room = (size_t)it->told.bytes;
        sizes = (size_t)it->told.outputs;
        if (!take_room(it, room, sizes)) return JLS_OUT_OF_MEMORY;
    }
}

/* Gives back the room that wasn't needed. */
static void fit(jls_mended *it) {
    if (it->told.bytes == 0) {
        give_back(&it->memory, it->bytes);
        it->bytes = NULL;
        return;
    }
    uint8_t *bytes = jls_resized(&it->memory, it->bytes, (size_t)it->told.bytes);
    if (bytes != NULL) it->bytes = bytes;
}

/* Mends copies that are not joined yet, nor are the lists. */
static uint32_t join_and_mend(const jls_copy *copies, size_t count, const jls_mend_options *options, const asked *asked, jls_mended *it) {
    joined all = {NULL, 0, NULL};
    joined_lists bad = {NULL, 0, NULL, 0};
    uint32_t answer = JLS_OUT_OF_MEMORY;
    if (join_copies(&it->memory, copies, count, &all) && join_lists(&it->memory, options->bad, options->bad_count, &bad))
        answer = mend(&all, count, &bad, asked, likely_room(copies, count, asked->files != 0), it);
    give_back(&it->memory, all.bytes);
    give_back(&it->memory, all.sizes);
    give_back(&it->memory, bad.texts);
    give_back(&it->memory, bad.lists);
    return answer;
}

uint32_t jls_mend(const jls_copy *copies, size_t count, const jls_mend_options *options, jls_mended **mended) {
    REFUSE_MISUSE(READ(copies, count), READ_OPTIONS(options), WRITTEN(mended, 1));
    for (size_t at = 0; at < count; at++) REFUSE_MISUSE(READ(copies[at].bytes, copies[at].size), WRITTEN(mended, 1));
    if (!runs_here()) return JLS_PROCESSOR;
    jls_mend_options all;
    if (!take_options(options, &all)) return JLS_BAD_SIZE;
#ifdef JLS_CHECKS
    const jls_bad_list *bad = all.bad;
    REFUSE_MISUSE(READ(bad, all.bad_count), WRITTEN(mended, 1));
    for (size_t at = 0; at < all.bad_count; at++) REFUSE_MISUSE(READ(bad[at].list, bad[at].size), WRITTEN(mended, 1));
#endif
    asked asked;
    memcpy(&asked, &all.tries, sizeof asked);
    if (asked.tries == 0) asked.tries = TRIES;
    stopping call = {all.stop, all.context, {all.resize, all.memory}, 0, false};
    jls_mended *it = room_for(&call.memory, 1, sizeof *it);
    if (it == NULL) return JLS_OUT_OF_MEMORY;
    it->memory = call.memory;
    jls_stopping = all.stop != NULL || all.resize != NULL ? &call : NULL;
    uint32_t answer = join_and_mend(copies, count, &all, &asked, it);
    jls_stopping = NULL;
    if (call.is_stopped) answer = JLS_STOPPED;
    if (answer != JLS_DONE && answer != JLS_NOT_MENDED) return jls_mended_free(it), answer;
    fit(it);
    return *mended = it, answer;
}

uint32_t jls_mended_info(const jls_mended *mended, jls_mend_info *info) {
    REFUSE_MISUSE(READ(mended, 1), WRITTEN(info, 1));
    if (!runs_here()) return JLS_PROCESSOR;
    if (info->size < FIRST_INFO) return JLS_BAD_SIZE;
    const told *told = &mended->told;
    jls_mend_info all;
    memset(&all, 0, sizeof all); /* what lies behind its fields too */
    all.size = info->size;
    if (told->outputs > 1u + told->has_file) all.files = (uint32_t)(told->outputs - 1 - told->has_file);
    all.copy = told->copy;
    all.offset = told->offset;
    all.has_copy = told->has_copy;
    all.cause = told->cause;
    all.fault = told->fault;
    all.is_promised = told->is_promised;
    all.is_whole = told->is_whole;
    all.has_file = told->has_file;
    all.has_list = told->has_list;
    all.list = told->list;
    all.line = told->line;
    memcpy(info, &all, info->size < sizeof all ? info->size : sizeof all);
    return JLS_DONE;
}

/* Whether a line begins with these words, which then are left behind. */
static bool begins(const uint8_t **line, const uint8_t *end, const char *words) {
    size_t length = strlen(words);
    if ((size_t)(end - *line) < length || memcmp(*line, words, length) != 0) return false;
    return *line += length, true;
}

/* The number at the begin of a line, which is left behind with the byte after it. */
static uint64_t take_number(const uint8_t **line, const uint8_t *end) {
    uint64_t number = 0;
    for (; *line < end && **line >= '0' && **line <= '9'; ++*line) number = 10 * number + (uint64_t)(**line - '0');
    if (*line < end) ++*line;
    return number;
}

uint32_t jls_mended_places(const jls_mended *mended, jls_place *places, size_t room, uint64_t *count) {
    REFUSE_MISUSE(READ(mended, 1), WRITTEN(places, room), WRITTEN(count, 1));
    if (!runs_here()) return JLS_PROCESSOR;
    size_t size = 0;
    const uint8_t *line = jls_mended_lines(mended, &size), *end = size != 0 ? line + size : line;
    *count = 0;
    while (line < end) {
        const uint8_t *newline = memchr(line, '\n', (size_t)(end - line)), *next = newline != NULL ? newline + 1 : end;
        if (begins(&line, next, "differ more ")) {
            *count += take_number(&line, next);
        } else if (begins(&line, next, "differ ")) {
            jls_place place = {.offset = take_number(&line, next)};
            place.length = take_number(&line, next);
            if (*count < room) places[*count] = place;
            ++*count;
        }
        line = next;
    }
    return JLS_DONE;
}

/* The output of this number; NULL where there is none. */
static const uint8_t *output(const jls_mended *mended, uint64_t number, size_t *size) {
    const uint8_t *at = mended->bytes;
    *size = 0;
    if (number >= mended->told.outputs) return NULL;
    for (uint64_t before = 0; before < number; before++) at += mended->sizes[before];
    return *size = (size_t)mended->sizes[number], at;
}

const uint8_t *jls_mended_picture(const jls_mended *mended, size_t *size) {
    REFUSE_MISUSE(READ(mended, 1), WRITTEN(size, 1));
    return output(mended, 0, size);
}

const uint8_t *jls_mended_file(const jls_mended *mended, size_t *size) {
    REFUSE_MISUSE(READ(mended, 1), WRITTEN(size, 1));
    return output(mended, mended->told.has_file ? 1 : UINT64_MAX, size);
}

const uint8_t *jls_mended_numbered(const jls_mended *mended, size_t number, size_t *size) {
    REFUSE_MISUSE(READ(mended, 1), WRITTEN(size, 1));
    return output(mended, number < UINT64_MAX - 2 ? number + 1 + mended->told.has_file : UINT64_MAX, size);
}

const uint8_t *jls_mended_lines(const jls_mended *mended, size_t *size) {
    REFUSE_MISUSE(READ(mended, 1), WRITTEN(size, 1));
    *size = (size_t)mended->told.lines;
    return *size != 0 ? mended->bytes + (mended->told.bytes - mended->told.lines) : NULL;
}

void jls_mended_free(jls_mended *mended) {
    if (mended == NULL) return;
    memory by = mended->memory;
    give_back(&by, mended->bytes);
    give_back(&by, mended->sizes);
    give_back(&by, mended);
}
