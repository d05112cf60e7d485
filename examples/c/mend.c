/* mend MENDED.jls FIRST.jls SECOND.jls: mends two damaged copies of one JPEG-LS file, or of one picture in two codings. It prints what
   jls-splice prints, and writes the mended file. It answers 0 where the picture is promised, 1 where it isn't, and 2 where nothing is made.
   docs/PROGRAMMERS.md says how to build it. */
#include <jls_salvage.h>
#include <stdio.h>
#include <stdlib.h>

static uint8_t *content(const char *name, size_t *size) {
    FILE *file = fopen(name, "rb");
    if (file == NULL) return NULL;
    long length = fseek(file, 0, SEEK_END) == 0 ? ftell(file) : -1;
    uint8_t *bytes = length < 0 ? NULL : malloc((size_t)length + 1);
    rewind(file);
    *size = bytes != NULL ? fread(bytes, 1, (size_t)length, file) : 0;
    fclose(file);
    return bytes;
}

int main(int count, char **words) {
    size_t first_size = 0, second_size = 0, lines_size = 0, file_size = 0;
    uint8_t *first = count == 4 ? content(words[2], &first_size) : NULL;
    uint8_t *second = count == 4 ? content(words[3], &second_size) : NULL;
    if (first == NULL || second == NULL) return fputs("mend MENDED.jls FIRST.jls SECOND.jls: no such files\n", stderr), 2;

    jls_copy copies[2] = {{first, first_size}, {second, second_size}};
    jls_mend_options options = JLS_MEND_OPTIONS;
    jls_mend_info info = JLS_MEND_INFO;
    jls_mended *mended = NULL;
    uint32_t answer = jls_mend(copies, 2, &options, &mended);
    if (answer != JLS_DONE) return fprintf(stderr, "%s\n", jls_text(answer)), jls_mended_free(mended), 2;
    jls_mended_info(mended, &info);
    const uint8_t *lines = jls_mended_lines(mended, &lines_size);
    const uint8_t *file = jls_mended_file(mended, &file_size); /* until jls_mended_free, and NULL if there is none */

    fwrite(lines, 1, lines_size, stdout);
    FILE *out = file != NULL ? fopen(words[1], "wb") : NULL;
    if (file != NULL && (out == NULL || fwrite(file, 1, file_size, out) != file_size || fclose(out) != 0)) perror(words[1]);
    jls_mended_free(mended), free(first), free(second);
    return !info.is_promised;
}
