/* The version, and answers in words. No proof covers this file. */
#include "../include/jls_salvage.h"
#include <stddef.h>

static const char *const ANSWERS[] = {
    [JLS_DONE] = "done",
    [JLS_OUT_OF_MEMORY] = "out of memory",
    [JLS_NO_PICTURE] = "no picture",
    [JLS_SHORT_ROOM] = "a buffer is too short",
    [JLS_NO_PARTIAL] = "no partial picture",
    [JLS_NO_SECOND_PARTIAL] = "the second is no partial picture",
    [JLS_SHAPES_DIFFER] = "the shapes differ",
    [JLS_BAD_FRAME] = "no picture has such a frame, or so many samples",
    [JLS_LARGE_SAMPLE] = "a sample has more bits than the precision",
    [JLS_LARGE_INTERVAL] = "a restart interval of more than 2^28 samples",
    [JLS_PROCESSOR] = "this processor is below x86-64-v2",
    [JLS_UNSUPPORTED] = "not supported",
    [JLS_BAD_SIZE] = "the size of a structure is not set",
    [JLS_BAD_LAYOUT] = "no such layout",
    [JLS_BAD_COPIES] = "fewer than two copies, or with a list none",
    [JLS_NOT_MENDED] = "the copies can't be mended",
    [JLS_STOPPED] = "stopped by the caller",
    [JLS_BAD_LISTS] = "a list of bad places is of no copy",
    [JLS_BAD_PROFILE] = "no such profile",
};

static const char *const FAULTS[] = {
    [JLS_FAULT_NONE] = "none",
    [JLS_FAULT_LENGTH] = "bad length",
    [JLS_FAULT_SHAPE] = "bad shape",
    [JLS_FAULT_SAMPLING] = "a component is subsampled",
    [JLS_FAULT_NO_FRAME] = "no frame",
    [JLS_FAULT_SECOND_FRAME] = "a second frame",
    [JLS_FAULT_LOSSY] = "not lossless",
    [JLS_FAULT_INTERLEAVE] = "interleave mode not supported",
    [JLS_FAULT_MAPPING_TABLE] = "a mapping table",
    [JLS_FAULT_POINT_TRANSFORM] = "a point transform",
    [JLS_FAULT_UNKNOWN_COMPONENT] = "unknown component",
    [JLS_FAULT_REPEATED_COMPONENT] = "a component stands twice",
    [JLS_FAULT_PARAMETERS] = "preset parameters out of range",
    [JLS_FAULT_LSE] = "unknown kind of preset parameters",
    [JLS_FAULT_UNKNOWN_MARKER] = "unknown marker",
    [JLS_FAULT_INTERVAL] = "a restart interval is too large",
    [JLS_FAULT_SCANS] = "too many scans",
    [JLS_FAULT_NO_MARKER] = "no marker",
    [JLS_FAULT_NO_SOI] = "no start of image",
    [JLS_FAULT_ENDED] = "the input ends too early",
    [JLS_FAULT_TEXT_MAGIC] = "no partial picture, or of an unknown version",
    [JLS_FAULT_TEXT_SHAPE] = "a shape that no picture has",
    [JLS_FAULT_TEXT_TRUNCATED] = "it ends too early",
    [JLS_FAULT_TEXT_PLACE] = "a line out of place",
    [JLS_FAULT_TEXT_COUNT] = "a line without a reading",
    [JLS_FAULT_TEXT_ORDER] = "readings out of order",
    [JLS_FAULT_TEXT_SAMPLE] = "a sample is too large",
    [JLS_FAULT_TEXT_TRAILING] = "bytes after the last line",
};

static const char *const KINDS[] = {
    [JLS_SUPPORTED] = "supported",
    [JLS_NEAR_LOSSLESS] = "near-lossless coding",
    [JLS_BY_SAMPLE] = "interleaved by sample",
    [JLS_NOT_INTERLEAVED] = "several components in a scan without interleaving",
    [JLS_SUBSAMPLED] = "subsampling",
    [JLS_MAPPING_TABLE] = "a mapping table",
    [JLS_POINT_TRANSFORM] = "a point transform",
    [JLS_LONG_INTERVAL] = "an interval of more than 2^28 samples",
    [JLS_MANY_SCANS] = "more than 16 scans",
};

#define TEXT_OF(texts, number) ((number) < sizeof(texts) / sizeof(texts)[0] ? (texts)[number] : "unknown")

uint32_t jls_version(void) { return JLS_VERSION; }

const char *jls_text(uint32_t answer) { return TEXT_OF(ANSWERS, answer); }

const char *jls_fault_text(uint32_t fault) { return TEXT_OF(FAULTS, fault); }

const char *jls_unsupported_text(uint32_t unsupported) { return TEXT_OF(KINDS, unsupported); }
