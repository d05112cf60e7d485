/* lines FILE.jls [FILE.pgm]: prints which lines of a damaged JPEG-LS file can't be read, and writes its first component as a PGM file. It
   answers 0 where all lines were read, 1 where some are lost, and 2 where there is no picture. docs/PROGRAMMERS.md says how to build it. */
#include <jls_salvage.h>
#include <stdio.h>
#include <stdlib.h>

static uint8_t *content(const char *name, size_t *size) {
    FILE *file = fopen(name, "rb");
    if (file == NULL) return NULL;
    long length = fseek(file, 0, SEEK_END) == 0 ? ftell(file) : -1;
    uint8_t *bytes = length < 0 ? NULL : malloc((size_t)length + 1);
    rewind(file);
    *size = bytes != NULL ? fread(bytes, 1, (size_t)length, file) : 0;
    fclose(file);
    return bytes;
}

static void write_pgm(const char *name, const jls_info *info, const uint16_t *samples) {
    FILE *file = fopen(name, "wb");
    if (file != NULL) {
        fprintf(file, "P5\n%u %u\n%u\n", info->width, info->height, (1u << info->precision) - 1);
        for (size_t at = 0; at < (size_t)info->width * info->height; at++) {
            if (info->precision > 8) putc(samples[at] >> 8, file);
            putc(samples[at] & 255, file);
        }
    }
    if (file == NULL || fclose(file) != 0) perror(name);
}

int main(int count, char **words) {
    size_t size = 0;
    uint8_t *copy = count > 1 ? content(words[1], &size) : NULL;
    if (copy == NULL) return fputs("lines FILE.jls [FILE.pgm]: no such file\n", stderr), 2;

    /* What do the headers say? They tell how much room is needed. */
    jls_header header = JLS_HEADER;
    uint32_t answer = jls_read_header(copy, size, &header);
    if (answer == JLS_NO_PICTURE)
        return fprintf(stderr, "%s\n", jls_fault_text(header.fault)), free(copy), 2;
    uint16_t *samples = calloc(header.samples, sizeof *samples);
    uint8_t *statuses = calloc(header.lines, 1);
    if (samples == NULL || statuses == NULL) return fputs("out of memory\n", stderr), 2;

    /* Which lines are there? At JLS_UNSUPPORTED those before what isn't read. */
    jls_info info = JLS_INFO;
    answer = jls_read(copy, size, &info, samples, header.samples, statuses, header.lines);
    if (answer != JLS_DONE) fprintf(stderr, "%s\n", jls_text(answer));
    if (answer != JLS_DONE && answer != JLS_UNSUPPORTED) return 2;
    printf("%ux%u: settled %lu, missing %lu, disputed %lu\n", info.width, info.height,
           (unsigned long)info.settled, (unsigned long)info.missing, (unsigned long)info.disputed);
    for (size_t line = 0; line < info.lines; line++)
        if (statuses[line] != JLS_SETTLED)
            printf("component %zu, line %zu\n", line / info.height, line % info.height);
    if (count > 2) write_pgm(words[2], &info, samples);

    free(samples), free(statuses), free(copy);
    return info.settled < info.lines;
}
