/* threads FILE.. : four threads read the files at once, in buffers of their own, each file many times. All have to read the same. Then
   each thread changes bytes of its own copies, and reads these: the sanitizers look on. It answers how many differ. */
#include <jls_salvage.h>
#include <pthread.h>
#include <stdio.h>
#include <stdlib.h>
#include <string.h>

struct file { uint8_t *bytes; size_t size; uint64_t sum; };
static struct file files[64];
static int count;
static long turns = 100;

static uint64_t sum_of(const uint8_t *copy, size_t size) {
    jls_info info = JLS_INFO;
    if (jls_read(copy, size, &info, NULL, 0, NULL, 0) != JLS_SHORT_ROOM) return 1 + info.fault;
    uint16_t *samples = malloc(2 * info.samples + 1);
    uint8_t *statuses = malloc(info.lines + 1);
    uint64_t sum = 0xCBF29CE484222325u;
    uint32_t answer = jls_read(copy, size, &info, samples, info.samples, statuses, info.lines);
    if (answer != JLS_DONE && answer != JLS_UNSUPPORTED) sum = 0;
    for (size_t at = 0; at < info.samples && sum != 0; at++) sum = (sum ^ samples[at]) * 0x100000001B3u;
    for (size_t at = 0; at < info.lines && sum != 0; at++) sum = (sum ^ statuses[at]) * 0x100000001B3u;
    free(samples);
    free(statuses);
    return sum;
}

static void *reads(void *number) {
    uint64_t state = 0x9E3779B97F4A7C15u * (uint64_t)(uintptr_t)number + 1;
    intptr_t differ = 0;
    for (long turn = 0; turn < turns; turn++)
        for (int at = 0; at < count; at++) {
            if (turn % 8 == 0) {
                differ += sum_of(files[at].bytes, files[at].size) != files[at].sum;
                continue;
            }
            uint8_t *damaged = malloc(files[at].size + 1);
            memcpy(damaged, files[at].bytes, files[at].size);
            for (int change = 0; change < 1 + turn % 5; change++) {
                state ^= state << 13, state ^= state >> 7, state ^= state << 17;
                damaged[state % files[at].size] = (uint8_t)(state >> 32);
            }
            size_t size = turn % 3 == 0 ? (size_t)(state >> 20) % (files[at].size + 1) : files[at].size;
            differ += sum_of(damaged, size) == 0;
            free(damaged);
        }
    return (void *)differ;
}

int main(int words, char **names) {
    if (getenv("TURNS") != NULL) turns = atol(getenv("TURNS"));
    for (int at = 1; at < words && count < 64; at++) {
        FILE *file = fopen(names[at], "rb");
        if (file == NULL) return 99;
        struct file *here = &files[count++];
        here->bytes = malloc(1 << 22);
        here->size = fread(here->bytes, 1, 1 << 22, file);
        here->sum = sum_of(here->bytes, here->size);
        fclose(file);
    }
    pthread_t threads[4];
    intptr_t differ = 0;
    for (uintptr_t at = 0; at < 4; at++)
        if (pthread_create(&threads[at], NULL, reads, (void *)(at + 1)) != 0) return 98;
    for (int at = 0; at < 4; at++) {
        void *more = NULL;
        pthread_join(threads[at], &more);
        differ += (intptr_t)more;
    }
    for (int at = 0; at < count; at++) free(files[at].bytes);
    return printf("%ld reads, %ld differ\n", 4 * turns * count, (long)differ), differ != 0;
}
