/* mend_stopped COPY COPY..: stops jls_mend by `stop` at its first ask, at each later one, and never. A call that is stopped has to answer
   JLS_STOPPED, to write nothing, to ask no more, and to leave no block. One that isn't stopped gives what it gives without `stop`, also
   where its caller reads and mends while it is asked or gives memory, or has options of the first version. In four threads each call asks
   its own caller, and each has memory of its own. Link it with --wrap for malloc, calloc, realloc and free. It prints each difference. */
#include <jls_salvage.h>
#include <pthread.h>
#include <stdatomic.h>
#include <stdio.h>
#include <stdlib.h>
#include <string.h>

void *__real_malloc(size_t size);
void *__real_calloc(size_t count, size_t size);
void *__real_realloc(void *old, size_t size);
void __real_free(void *block);
static _Thread_local long blocks;
static atomic_int differ;

static void *counted(void *block) { return blocks += block != NULL, block; }
void *__wrap_malloc(size_t size) { return counted(__real_malloc(size)); }
void *__wrap_calloc(size_t count, size_t size) { return counted(__real_calloc(count, size)); }
void *__wrap_realloc(void *old, size_t size) { return old == NULL ? counted(__real_realloc(old, size)) : __real_realloc(old, size); }

void __wrap_free(void *block) {
    blocks -= block != NULL;
    __real_free(block);
}

static void want(const char *what, int holds) {
    if (holds) return;
    differ++;
    printf("%s\n", what);
}

enum { MOST = 4, ROOM = 1 << 20 };
static uint8_t rooms[MOST][ROOM];
static jls_copy copies[MOST];
static size_t number;
static jls_mended *whole; /* what comes of them without `stop` */

/* A caller: how often it was asked, the ask from which on it says to stop, and what it says then. `taken` is how many blocks of its own it
   has given and not got back, and `times` how often it was called for that. */
typedef struct caller {
    long asked, from;
    int says;
    void (*meanwhile)(void);
    long taken, times;
} caller;

static int stop(void *context) {
    caller *it = context;
    if (it->meanwhile != NULL) it->meanwhile();
    return it->asked++ >= it->from ? it->says : 0;
}

static jls_mend_options options_of(caller *it) {
    jls_mend_options options = JLS_MEND_OPTIONS;
    options.files = 1, options.stop = stop, options.context = it;
    return options;
}

/* A caller's memory: each block says behind which caller it stands. */
static void *resize(void *memory, void *block, size_t size) {
    enum { BEFORE = 16 };
    caller *it = memory, *whose = it;
    uint8_t *old = block != NULL ? (uint8_t *)block - BEFORE : NULL;
    if (it->meanwhile != NULL && it->times % 64 == 0) it->meanwhile();
    it->times++;
    if (old != NULL) memcpy(&whose, old, sizeof whose);
    want("another caller's block", whose == it);
    it->taken += (size != 0) - (old != NULL);
    if (size == 0) return __real_free(old), NULL;
    uint8_t *found = __real_realloc(old, BEFORE + size);
    if (found == NULL) exit(96);
    return memcpy(found, &it, sizeof it), found + BEFORE;
}

typedef const uint8_t *(*part)(const jls_mended *, size_t *);

static int is_whole(const jls_mended *it) {
    static const part parts[] = {jls_mended_picture, jls_mended_file, jls_mended_lines};
    jls_mend_info info = JLS_MEND_INFO, wanted = JLS_MEND_INFO;
    if (jls_mended_info(it, &info) != JLS_DONE || jls_mended_info(whole, &wanted) != JLS_DONE) return 0;
    if (memcmp(&info, &wanted, sizeof info) != 0) return 0;
    for (size_t at = 0; at < sizeof parts / sizeof *parts + info.files; at++) {
        size_t size = 0, its = 0, file = at - sizeof parts / sizeof *parts;
        const uint8_t *here = at < sizeof parts / sizeof *parts ? parts[at](it, &size) : jls_mended_numbered(it, file, &size);
        const uint8_t *there = at < sizeof parts / sizeof *parts ? parts[at](whole, &its) : jls_mended_numbered(whole, file, &its);
        if (size != its || (size != 0 && memcmp(here, there, size) != 0)) return 0;
    }
    return 1;
}

/* Mends with these options, and looks at what comes of it. Answers what the call does. */
static uint32_t mend(const jls_mend_options *options) {
    jls_mended *mended = (jls_mended *)&differ;
    long before = blocks;
    uint32_t answer = jls_mend(copies, number, options, &mended);
    if (answer == JLS_DONE) {
        want("another result", is_whole(mended));
        jls_mended_free(mended);
    } else {
        want("a call that was stopped has written", mended == (jls_mended *)&differ);
    }
    want("a block is left", blocks == before);
    return answer;
}

/* Stops at each ask in turn, until there is none so late. Answers how many there are. */
static long stop_at_each(int says) {
    for (long from = 0;; from++) {
        caller it = {0, from, says, NULL, 0, 0};
        jls_mend_options options = options_of(&it);
        uint32_t answer = mend(&options);
        want("another answer", answer == (it.asked > from ? JLS_STOPPED : JLS_DONE));
        want("it was asked after it had said so", it.asked <= from + 1);
        if (answer != JLS_STOPPED) return it.asked;
    }
}

/* What a caller may do while it is asked: calls that ask nobody, or another caller. */
static void reads(void) {
    jls_header header = JLS_HEADER;
    jls_info info = JLS_INFO;
    want("no header", jls_read_header(copies[0].bytes, copies[0].size, &header) == JLS_DONE);
    want("no check", jls_check(copies[0].bytes, copies[0].size, &info, NULL, 0) == JLS_DONE);
}

static void mends(void) {
    caller it = {0, 0, 1, NULL, 0, 0};
    jls_mend_options options = options_of(&it);
    want("another one is not stopped", mend(&options) == JLS_STOPPED && it.asked == 1);
}

/* Callers that go on. */
static void go_on(long asks) {
    void (*const meanwhile[])(void) = {NULL, reads, mends};
    for (size_t at = 0; at < sizeof meanwhile / sizeof *meanwhile; at++) {
        caller it = {0, asks + 1, 1, meanwhile[at], 0, 0};
        jls_mend_options options = options_of(&it);
        want("a call that goes on ends", mend(&options) == JLS_DONE && it.asked == asks);
        options.resize = resize, options.memory = &it, it.asked = 0;
        want("a call with memory of its own ends", mend(&options) == JLS_DONE && it.asked == asks);
        options.stop = NULL;
        want("one that nobody stops ends", mend(&options) == JLS_DONE && it.asked == asks);
        want("a block is not freed", it.taken == 0 && it.times > 0);
    }
    jls_mend_options none = options_of(NULL);
    none.stop = NULL;
    want("nobody is asked", mend(&none) == JLS_DONE);
    none.context = &none;
    want("context without stop", mend(&none) == JLS_DONE);
}

/* Options of each size, in blocks of just their length. The first version has no `stop`, and is aligned as a number of 32 bits is. The
   second has no lists, and the third no `resize`. */
static void versions(void) {
    enum { FIRST = 20, SECOND = 40, THIRD = 56 };
    caller it = {0, 0, 1, NULL, 0, 0};
    for (uint32_t size = sizeof size; size <= sizeof(jls_mend_options) + 8; size++) {
        jls_mend_options options = options_of(&it);
        size_t before = size == FIRST ? 4 : 0;
        uint8_t *block = __real_calloc(1, before + size);
        options.size = size;
        memcpy(block + before, &options, size < sizeof options ? size : sizeof options);
        uint32_t answer = mend((const jls_mend_options *)(const void *)(block + before));
        int is_known = size == SECOND || size == THIRD || size >= sizeof options;
        want("another answer to a size", answer == (size == FIRST ? JLS_DONE : is_known ? JLS_STOPPED : JLS_BAD_SIZE));
        __real_free(block);
    }
}

static void *thread(void *from) {
    caller it = {0, (long)(intptr_t)from, 1, NULL, 0, 0};
    jls_mend_options options = options_of(&it);
    options.resize = resize, options.memory = &it;
    want("another thread's answer", mend(&options) == (it.asked > it.from ? JLS_STOPPED : JLS_DONE));
    want("another thread's ask", it.asked <= it.from + 1);
    want("another thread's block", it.taken == 0 && it.times > 0);
    return NULL;
}

/* Threads that mend at once, of which one goes on. */
static void threads(long asks) {
    pthread_t all[4];
    for (int at = 0; at < 4; at++) {
        long from = asks * at / 3 + (at == 3);
        if (pthread_create(&all[at], NULL, thread, (void *)(intptr_t)from) != 0) exit(97);
    }
    for (int at = 0; at < 4; at++) pthread_join(all[at], NULL);
}

int main(int count, char **names) {
    for (int at = 1; at < count && number < MOST; at++, number++) {
        FILE *stream = fopen(names[at], "rb");
        if (stream == NULL) return 99;
        copies[number] = (jls_copy){rooms[number], fread(rooms[number], 1, ROOM, stream)};
        fclose(stream);
    }
    jls_mend_options options = JLS_MEND_OPTIONS;
    options.files = 1;
    if (jls_mend(copies, number, &options, &whole) != JLS_DONE) return 98;
    long asks = stop_at_each(1);
    want("an answer below 0 does not stop", stop_at_each(-1) == asks);
    go_on(asks);
    versions();
    threads(asks);
    jls_mended_free(whole);
    want("few asks", asks > 2);
    return printf("%ld asks, %d differ\n", asks, (int)differ), differ != 0;
}
