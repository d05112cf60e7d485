/* Does each function answer JLS_PROCESSOR, and write nothing, where the processor is below x86-64-v2? It is linked with a library that was
   built for this test, or run on such a processor. */
#include <jls_salvage.h>
#include <stdio.h>
#include <string.h>

#define COUNT(array) (sizeof(array) / sizeof(array)[0])

int main(void) {
    static const uint8_t copy[64] = {0xff, 0xd8, 0xff, 0xf7};
    static const jls_layout layout = {.size = sizeof layout, .bytes = 2};
    static const jls_mend_options options = JLS_MEND_OPTIONS;
    static const jls_copy copies[2] = {{copy, sizeof copy}, {copy, sizeof copy}};
    static const jls_frame frame = {.width = 2, .height = 2, .precision = 8, .components = 1};
    static struct { jls_info info; jls_header header; jls_piece pieces[4]; jls_line lines[4]; uint16_t samples[8]; uint8_t bytes[64]; uint64_t size; jls_mended *mended; jls_mend_info told; } out, before;
    memset(&out, 0x5a, sizeof out);
    before = out;
    const uint32_t answers[] = {
        jls_check(copy, sizeof copy, &out.info, out.pieces, COUNT(out.pieces)),
        jls_read(copy, sizeof copy, &out.info, out.samples, COUNT(out.samples), out.bytes, COUNT(out.bytes)),
        jls_partial(copy, sizeof copy, 1, &out.info, out.bytes, COUNT(out.bytes)),
        jls_check_under(copy, sizeof copy, JLS_WIDE, &out.info, out.pieces, COUNT(out.pieces)),
        jls_read_under(copy, sizeof copy, JLS_WIDE, &out.info, out.samples, COUNT(out.samples), out.bytes, COUNT(out.bytes)),
        jls_partial_under(copy, sizeof copy, JLS_WIDE, 1, &out.info, out.bytes, COUNT(out.bytes)),
        jls_read_as_under(copy, sizeof copy, JLS_WIDE, &out.info, &layout, out.samples, COUNT(out.samples), out.bytes, COUNT(out.bytes)),
        jls_join(copy, sizeof copy, copy, sizeof copy, &out.info, out.bytes, COUNT(out.bytes)),
        jls_lines(copy, sizeof copy, &out.info, out.samples, COUNT(out.samples), out.lines, COUNT(out.lines)),
        jls_write(&frame, out.samples, 4, out.bytes, COUNT(out.bytes), &out.size),
        jls_read_header(copy, sizeof copy, &out.header),
        jls_read_as(copy, sizeof copy, &out.info, &layout, out.samples, COUNT(out.samples), out.bytes, COUNT(out.bytes)),
        jls_write_as(&frame, &layout, out.samples, 4, out.bytes, COUNT(out.bytes), &out.size),
        jls_mend(copies, COUNT(copies), &options, &out.mended),
        jls_mended_info((const jls_mended *)(const void *)&out, &out.told),
        jls_mended_places((const jls_mended *)(const void *)&out, NULL, 0, &out.size),
    };
    int status = 0;
    for (size_t at = 0; at < COUNT(answers); at++) {
        if (answers[at] == JLS_PROCESSOR) continue;
        printf("function %zu answers %u\n", at, (unsigned)answers[at]);
        status = 1;
    }
    if (memcmp(&out, &before, sizeof out) != 0) {
        puts("something was written");
        status = 1;
    }
    return status;
}
