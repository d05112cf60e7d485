/* jls_salvage.h: what damaged lossless JPEG-LS files still give (ITU-T T.87), and what several of them give together.

   Each function reads whole buffers of the caller's, and answers a number of `enum jls_answer`. A buffer is a pointer and the number of
   its elements. At 0 elements the pointer may be NULL; otherwise no pointer may be NULL. What a pointer points at is aligned as its type
   wants it. A buffer that a function writes must not overlap another one, a structure, nor what it reads. The library keeps nothing
   between two calls, so threads may call it at once, on buffers of their own. It takes memory by malloc, or by `resize` of
   jls_mend_options, and gives all back: what jls_mend gives, by jls_mended_free.

   A library that was built by `make library CFLAGS='-O1 -DJLS_CHECKS'` looks at these rules. At a pointer that breaks one it writes a line
   to stderr, which names the function and the argument, and calls abort. Another library trusts its caller.

   A structure that begins with `size` can grow in a later version under the same soname. The caller sets `size` to the structure's size, as
   JLS_INFO, JLS_HEADER, JLS_LAYOUT and their like do. The library writes no more bytes than that, and none that it doesn't know. Of a
   jls_layout and of jls_mend_options all bytes that the library doesn't know have to be 0.

   Each function that has an answer can answer JLS_PROCESSOR. One with a structure that begins with `size` can answer JLS_BAD_SIZE too. */
#ifndef JLS_SALVAGE_H
#define JLS_SALVAGE_H

#include <stddef.h>
#include <stdint.h>

#ifdef __cplusplus
extern "C" {
#endif

/* The version of this header, as a number whose order is that of versions: jls_version answers that of the library. */
#define JLS_VERSION_MAJOR 1
#define JLS_VERSION_MINOR 2
#define JLS_VERSION_PATCH 0
#define JLS_VERSION (10000 * JLS_VERSION_MAJOR + 100 * JLS_VERSION_MINOR + JLS_VERSION_PATCH)

/* What the functions answer. */
enum jls_answer {
    JLS_DONE = 0,
    JLS_OUT_OF_MEMORY = 1, /* nothing was written */
    JLS_NO_PICTURE = 2,    /* the copy has no frame: `fault` and `end_offset` of jls_info say why */
    JLS_SHORT_ROOM = 3,    /* a buffer is too short: `samples`, `lines` and `bytes` of jls_info say how long they must be; of jls_read_as
                              see there */
    JLS_NO_PARTIAL = 4,    /* the bytes, of jls_join the first, are no partial picture: `fault` and `end_offset` of jls_info say why */
    JLS_NO_SECOND_PARTIAL = 5, /* the second bytes of jls_join are none: the same */
    JLS_SHAPES_DIFFER = 6,     /* the partial pictures of jls_join have different shapes: nothing was written */
    JLS_BAD_FRAME = 7,         /* no picture has such a frame, or so many samples: nothing was written */
    JLS_LARGE_SAMPLE = 8,      /* a sample has more bits than the precision: nothing was written */
    JLS_LARGE_INTERVAL = 9,    /* a restart interval would have more than 2^28 samples: nothing was written */
    JLS_PROCESSOR = 10,        /* x86-64: the processor is below x86-64-v2, which has SSE4.2 and POPCNT: nothing was written */
    JLS_UNSUPPORTED = 11,      /* the coding ends what can be read: `unsupported` says why. All is written as at JLS_DONE */
    JLS_BAD_SIZE = 12,         /* `size` of a structure is less than that of its first version, or that of no jls_mend_options: nothing was
                                  written */
    JLS_BAD_LAYOUT = 13,       /* there is no such jls_layout: nothing was written */
    JLS_BAD_COPIES = 14,       /* there are fewer than two copies, or with a list of bad places none: nothing was written */
    JLS_NOT_MENDED = 15,       /* copies can't be mended: `cause` of jls_mend_info says why */
    JLS_STOPPED = 16,          /* the caller stopped the mending by `stop` of jls_mend_options: nothing was written */
    JLS_BAD_LISTS = 17,        /* a list of bad places is of no copy: nothing was written */
    JLS_BAD_PROFILE = 18       /* there is no such profile: nothing was written */
};

/* Which scans are read. Under JLS_STRICT: scans of one component, and scans that are interleaved by line. Under JLS_WIDE also scans of two
   components or more that are interleaved by sample. Another copy gives the same under both, unless damage makes a header say so. */
enum jls_profile { JLS_STRICT = 0, JLS_WIDE = 1 };

/* What a copy has that this library doesn't read. A damaged header can say it too. */
enum jls_unsupported {
    JLS_SUPPORTED = 0,
    JLS_NEAR_LOSSLESS = 1,
    JLS_BY_SAMPLE = 2,       /* interleaved by sample: under JLS_WIDE only of one component */
    JLS_NOT_INTERLEAVED = 3, /* several components in a scan that doesn't interleave them */
    JLS_SUBSAMPLED = 4,
    JLS_MAPPING_TABLE = 5,
    JLS_POINT_TRANSFORM = 6,
    JLS_LONG_INTERVAL = 7, /* a restart interval of more than 2^28 samples */
    JLS_MANY_SCANS = 8     /* more than 16 scans */
};

/* How much is known of a line: it has no reading, one, or several that differ. */
enum jls_status { JLS_MISSING = 0, JLS_SETTLED = 1, JLS_DISPUTED = 2 };

/* Where a copy ends: at the marker EOI, with the input, or at the first fault of its headers. Of bytes that are no partial picture it is
   JLS_END_HEADER too. */
enum jls_end { JLS_END_EOI = 0, JLS_END_INPUT = 1, JLS_END_HEADER = 2 };

/* Faults of the headers of a copy, and of the bytes of a partial picture. */
enum jls_fault {
    JLS_FAULT_NONE = 0,
    JLS_FAULT_LENGTH = 1,              /* a length or layout that no such segment has */
    JLS_FAULT_SHAPE = 2,               /* a precision, a size or identifiers that are not supported */
    JLS_FAULT_SAMPLING = 3,            /* a component is subsampled */
    JLS_FAULT_NO_FRAME = 4,            /* a scan or the end of the image before the frame */
    JLS_FAULT_SECOND_FRAME = 5,        /* a frame after the frame */
    JLS_FAULT_LOSSY = 6,               /* NEAR isn't 0 */
    JLS_FAULT_INTERLEAVE = 7,          /* an interleave mode that is not supported */
    JLS_FAULT_MAPPING_TABLE = 8,       /* a component has a mapping table */
    JLS_FAULT_POINT_TRANSFORM = 9,     /* a point transform */
    JLS_FAULT_UNKNOWN_COMPONENT = 10,  /* a scan has a component that isn't in the frame */
    JLS_FAULT_REPEATED_COMPONENT = 11, /* a scan has a component twice */
    JLS_FAULT_PARAMETERS = 12,         /* preset parameters out of range */
    JLS_FAULT_LSE = 13,                /* an unknown kind of preset parameters */
    JLS_FAULT_UNKNOWN_MARKER = 14,     /* a marker without a segment here */
    JLS_FAULT_INTERVAL = 15,           /* a restart interval of more than 2^28 samples */
    JLS_FAULT_SCANS = 16,              /* the seventeenth scan */
    JLS_FAULT_NO_MARKER = 17,          /* another byte where a marker must be */
    JLS_FAULT_NO_SOI = 18,             /* the input doesn't begin with SOI */
    JLS_FAULT_ENDED = 19,              /* the input ends too early */
    JLS_FAULT_TEXT_MAGIC = 20,         /* no partial picture, or of an unknown version */
    JLS_FAULT_TEXT_SHAPE = 21,         /* a precision, a size or identifiers that no picture has */
    JLS_FAULT_TEXT_TRUNCATED = 22,     /* it ends too early */
    JLS_FAULT_TEXT_PLACE = 23,         /* a line that the picture doesn't have, or out of order */
    JLS_FAULT_TEXT_COUNT = 24,         /* a line without a reading */
    JLS_FAULT_TEXT_ORDER = 25,         /* readings or sources out of order */
    JLS_FAULT_TEXT_SAMPLE = 26,        /* a sample with more bits than the precision */
    JLS_FAULT_TEXT_TRAILING = 27       /* bytes after the last line */
};

/* Why a piece of scan data between restart markers doesn't read as the lines of its interval: it is no code of lines, more bits follow
   such code, or its number is beyond the last interval. */
enum jls_kind { JLS_BROKEN = 0, JLS_LONG = 1, JLS_BEYOND = 2 };

/* Why copies can't be mended. */
enum jls_cause {
    JLS_CAUSE_NONE = 0,
    JLS_CAUSE_NOT_OPENED = 1,      /* of files alone */
    JLS_CAUSE_INPUT = 2,           /* of files alone */
    JLS_CAUSE_PARTIAL_PICTURE = 3, /* a copy or a list begins as a partial picture does */
    JLS_CAUSE_NO_PICTURE = 4,      /* no copy has a frame: `fault` and `offset` are those of the first */
    JLS_CAUSE_NOT_READ = 5,        /* no copy has a frame, and the first was not read to its end; or a list was not */
    JLS_CAUSE_SHAPE_DIFFERS = 6,   /* files without a fault differ in shape */
    JLS_CAUSE_UNSETTLED = 7,       /* of files alone */
    JLS_CAUSE_TOO_LARGE = 8,       /* of files alone */
    JLS_CAUSE_NO_LIST = 9          /* a list of bad places is none, by `line` */
};

/* What a copy says of its picture, how many lines it gives, and how it ended. Of a partial picture the same is told, but no end:
   `end` and `end_offset` are 0. */
typedef struct jls_info {
    uint32_t size;          /* what the caller sets: sizeof(jls_info) */
    uint32_t unsupported;   /* enum jls_unsupported */
    uint64_t samples;       /* width * height * components: the numbers that jls_read and jls_lines write */
    uint64_t bytes;         /* of the partial picture that jls_partial or jls_join writes; otherwise 0 */
    uint64_t faulty_pieces; /* how many pieces of scan data didn't read as the lines of their intervals */
    uint64_t end_offset;    /* where the copy ends, in bytes */
    uint64_t lines;         /* height * components: what jls_read and jls_lines write of lines */
    uint64_t missing;       /* how many lines have no reading, */
    uint64_t settled;       /* one, */
    uint64_t disputed;      /* or several */
    uint16_t width, height;
    uint8_t precision; /* bits of a sample, from 2 to 16 */
    uint8_t components;
    uint8_t end;   /* enum jls_end */
    uint8_t fault; /* enum jls_fault */
} jls_info;

/* What the headers of a copy say, up to its first scan. What stands after a fault, or after EOI, says nothing. */
typedef struct jls_header {
    uint32_t size;             /* what the caller sets: sizeof(jls_header) */
    uint32_t unsupported;      /* enum jls_unsupported */
    uint64_t samples;          /* width * height * components: the numbers that jls_read writes */
    uint64_t lines;            /* height * components */
    uint64_t end_offset;       /* where a fault of the headers is, in bytes; otherwise where the first scan's data begin; otherwise, of
                                  a copy without a scan, where it ends */
    uint32_t restart_interval; /* in lines, or 0 for none */
    uint16_t width, height;
    uint8_t precision; /* bits of a sample, from 2 to 16 */
    uint8_t components;
    uint8_t interleave;    /* of the first scan: 0 for a component, 1 by line, 2 by sample; 0 without a scan */
    uint8_t near_lossless; /* NEAR of the first scan: 0 is lossless */
    uint8_t fault;         /* enum jls_fault: of a segment before the first scan's data, at JLS_DONE too */
} jls_header;

/* How samples stand in a buffer. Those of a line follow one another, by component or by pixel. */
typedef struct jls_layout {
    uint32_t size;       /* what the caller sets: sizeof(jls_layout) */
    uint8_t bytes;       /* of a sample: 1, or 2 in the order of the processor */
    uint8_t interleaved; /* whether the components of a pixel stand beside each other; otherwise the lines of a component follow those of
                            the one before */
    uint64_t stride;     /* from the first sample of a line to the first of the next, in samples, or 0 for no gap. With
                            height * components lines, or height where interleaved, and `line` samples in each, a buffer needs
                            (lines - 1) * stride + line samples */
} jls_layout;

/* A copy: its bytes, and how many there are. */
typedef struct jls_copy {
    const uint8_t *bytes;
    size_t size;
} jls_copy;

/* A list of bad places of a copy, as --bad of jls-splice takes it: GNU ddrescue's mapfile, or lines OFFSET LENGTH. The bytes of the copy
   there are taken as bad, and those of other copies stand in their place. */
typedef struct jls_bad_list {
    size_t copy;         /* the number of the copy, from 0 on */
    const uint8_t *list; /* the bytes of the list, */
    size_t size;         /* and how many there are */
} jls_bad_list;

/* What jls_mend is asked for. JLS_MEND_OPTIONS asks for what jls-splice does by default. */
typedef struct jls_mend_options {
    uint32_t size;       /* what the caller sets: sizeof(jls_mend_options) */
    uint32_t tries;      /* how many prefixes and files each search tries at most, or 0 for 4096 */
    uint32_t source;     /* under which the readings are taken, if has_source isn't 0 */
    uint16_t ceiling;    /* if has_ceiling isn't 0: only files whose samples are at most this are searched for */
    uint8_t has_source;
    uint8_t has_ceiling;
    uint8_t files;       /* whether each file without a fault is asked for, beside the mended one */
    int (*stop)(void *context); /* if it isn't NULL, it is asked whether to stop: 0 is no. A call asks in its own thread, when it first
                                   takes memory, and after each 2^20 bytes that it took, which is mostly every few milliseconds. After a
                                   yes it asks no more. The function has to return, and may call the library */
    void *context;              /* what it is given */
    const jls_bad_list *bad;    /* lists of bad places. A copy can have several */
    size_t bad_count;           /* how many there are. With one, one copy is enough */
    void *(*resize)(void *memory, void *block, size_t size); /* if it isn't NULL, all memory comes from it, in place of malloc, realloc and
                                  free. It gives `size` bytes, aligned as malloc aligns them, which begin with those of `block`, if that
                                  isn't NULL. If it gives NULL, `block` stays. At a `size` of 0 it frees `block`. It is called in the
                                  thread of the call, and of jls_mended_free. It has to return, and may call the library */
    void *memory;               /* what it is given. Both have to stay until jls_mended_free */
} jls_mend_options;

/* What came of a mending. */
typedef struct jls_mend_info {
    uint32_t size;       /* what the caller sets: sizeof(jls_mend_info) */
    uint32_t files;      /* how many files have numbers: none, if they weren't asked for */
    uint64_t copy;       /* at JLS_NOT_MENDED: the copy at which it showed, from 0 on, if has_copy is 1 */
    uint64_t offset;     /* and where its fault is, in bytes */
    uint8_t has_copy;
    uint8_t cause;       /* enum jls_cause: 0 at JLS_DONE */
    uint8_t fault;       /* enum jls_fault */
    uint8_t is_promised; /* at JLS_DONE: whether the picture is promised, as by status 0 of jls-splice */
    uint8_t is_whole;    /* whether each copy was read to its end: so is each of less than 4294967295 bytes */
    uint8_t has_file;    /* whether there is a mended file */
    uint8_t has_list;    /* at JLS_NOT_MENDED: whether it showed at a list of bad places, */
    uint64_t list;       /* which of them, from 0 on, */
    uint64_t line;       /* and at JLS_CAUSE_NO_LIST the first line that isn't understood, from 1 on */
} jls_mend_info;

/* A place where copies that were mended differ, as the first copy has it. */
typedef struct jls_place {
    uint64_t offset, length;
} jls_place;

/* What came of a mending, with its bytes. */
typedef struct jls_mended jls_mended;

/* Structures whose size is set, as in `jls_info info = JLS_INFO;`. */
#ifdef __cplusplus
#define JLS_INFO {sizeof(jls_info), 0, 0, 0, 0, 0, 0, 0, 0, 0, 0, 0, 0, 0, 0, 0}
#define JLS_HEADER {sizeof(jls_header), 0, 0, 0, 0, 0, 0, 0, 0, 0, 0, 0, 0}
#define JLS_LAYOUT {sizeof(jls_layout), 0, 0, 0}
#define JLS_MEND_OPTIONS {sizeof(jls_mend_options), 0, 0, 0, 0, 0, 0, 0, 0, 0, 0, 0, 0}
#define JLS_MEND_INFO {sizeof(jls_mend_info), 0, 0, 0, 0, 0, 0, 0, 0, 0, 0, 0, 0}
#else
#define JLS_INFO {.size = sizeof(jls_info)}
#define JLS_HEADER {.size = sizeof(jls_header)}
#define JLS_LAYOUT {.size = sizeof(jls_layout)}
#define JLS_MEND_OPTIONS {.size = sizeof(jls_mend_options)}
#define JLS_MEND_INFO {.size = sizeof(jls_mend_info)}
#endif

/* A piece of scan data that didn't read as the lines of its interval. */
typedef struct jls_piece {
    uint64_t offset;   /* of its first byte */
    uint32_t interval; /* its number among the restart intervals of the scan, from 0 */
    uint8_t scan;      /* from 0 */
    uint8_t kind;      /* enum jls_kind */
} jls_piece;

/* A line of a partial picture. */
typedef struct jls_line {
    uint64_t readings; /* how many readings it has, which all differ */
    uint8_t status;    /* enum jls_status */
} jls_line;

/* How samples are to be written. */
typedef struct jls_frame {
    uint16_t width, height;    /* from 1 to 65535 */
    uint16_t restart_interval; /* in lines, or 0 for none */
    uint8_t precision;         /* bits of a sample, from 2 to 16 */
    uint8_t components;        /* from 1 to 4 */
    uint8_t interleaved;       /* whether all components stand in one scan, line by line; otherwise each has a scan of its own */
} jls_frame;

/* The version of the library: JLS_VERSION of the header that it was built with. */
uint32_t jls_version(void);

/* An answer in words, in English, without a newline. It is never NULL, and stays there. jls_fault_text tells a fault, and
   jls_unsupported_text what isn't supported. */
const char *jls_text(uint32_t answer);
const char *jls_fault_text(uint32_t fault);
const char *jls_unsupported_text(uint32_t unsupported);

/* Tells what the headers of a copy say, up to the first scan. No scan data are read, so it is quick, and `copy` may end with the headers.
   They are judged as under JLS_STRICT. JLS_BY_SAMPLE says that the first scan is by sample: JLS_WIDE reads it if it has two components
   or more, and no other fault.
   Answers JLS_DONE, JLS_UNSUPPORTED, JLS_NO_PICTURE or JLS_OUT_OF_MEMORY. At JLS_NO_PICTURE `fault` and `end_offset` say why. */
uint32_t jls_read_header(const uint8_t *copy, size_t size, jls_header *header);

/* Tells what a copy, which may be damaged, says of its picture, how many of its lines it gives, and how it ended. `pieces` takes the
   first faulty pieces, as many as there is room for and at most 4096; `faulty_pieces` of `info` counts all.
   Answers JLS_DONE, JLS_UNSUPPORTED, JLS_NO_PICTURE or JLS_OUT_OF_MEMORY. */
uint32_t jls_check(const uint8_t *copy, size_t size, jls_info *info, jls_piece *pieces, size_t piece_room);

/* Reads a copy, which may be damaged. Line y of component c has its status in statuses[c * height + y], and its samples from
   samples[(c * height + y) * width] on. A line that is missing or disputed has zeros. What lies beyond the last line stays as it was.
   Answers JLS_DONE, JLS_UNSUPPORTED, JLS_SHORT_ROOM, JLS_NO_PICTURE or JLS_OUT_OF_MEMORY. At JLS_SHORT_ROOM and JLS_NO_PICTURE only `info`
   is written. */
uint32_t jls_read(const uint8_t *copy, size_t size, jls_info *info, uint16_t *samples, size_t sample_room, uint8_t *statuses,
                  size_t status_room);

/* Reads a copy as jls_read does, and puts its samples as `layout` says. What stands between lines stays as it was. Samples of two bytes
   may stand at any address. `sample_room` is how many samples the buffer has, those between lines among them. It takes memory for the
   picture once more.
   Answers what jls_read answers, JLS_BAD_LAYOUT, or JLS_LARGE_SAMPLE where samples of more than 8 bits don't fit into a byte. At
   JLS_SHORT_ROOM `samples` of `info` doesn't count what stands between lines: jls_layout says how long the buffer must be. */
uint32_t jls_read_as(const uint8_t *copy, size_t size, jls_info *info, const jls_layout *layout, void *samples, size_t sample_room,
                     uint8_t *statuses, size_t status_room);

/* The same under a profile: jls_check, jls_read and jls_read_as are those under JLS_STRICT. Under JLS_WIDE scans that are interleaved by
   sample are read too. Lines and samples stand in the same places.
   Answers what those answer, or JLS_BAD_PROFILE. */
uint32_t jls_check_under(const uint8_t *copy, size_t size, uint32_t profile, jls_info *info, jls_piece *pieces, size_t piece_room);
uint32_t jls_read_under(const uint8_t *copy, size_t size, uint32_t profile, jls_info *info, uint16_t *samples, size_t sample_room,
                        uint8_t *statuses, size_t status_room);
uint32_t jls_read_as_under(const uint8_t *copy, size_t size, uint32_t profile, jls_info *info, const jls_layout *layout, void *samples,
                           size_t sample_room, uint8_t *statuses, size_t status_room);

/* Reads a copy, which may be damaged, and writes what it gives as a partial picture: the bytes that `jls-salvage join` would write of it
   under this source, which is a number for the copy. `info` tells of the copy, and `bytes` how many bytes the partial picture has.
   Answers JLS_DONE, JLS_UNSUPPORTED, JLS_SHORT_ROOM, JLS_NO_PICTURE or JLS_OUT_OF_MEMORY. At JLS_SHORT_ROOM and JLS_NO_PICTURE only `info`
   is written. */
uint32_t jls_partial(const uint8_t *copy, size_t size, uint32_t source, jls_info *info, uint8_t *partial, size_t room);

/* The same under a profile: jls_partial is that under JLS_STRICT.
   Answers what that answers, or JLS_BAD_PROFILE. */
uint32_t jls_partial_under(const uint8_t *copy, size_t size, uint32_t profile, uint32_t source, jls_info *info, uint8_t *partial,
                           size_t room);

/* Joins two partial pictures of one shape: writes the one that has the readings of both, with their sources. The order doesn't matter,
   and joining a partial picture once more changes nothing. `info` tells of what is written, and `bytes` how many bytes it has.
   Answers JLS_DONE, JLS_SHORT_ROOM, JLS_NO_PARTIAL, JLS_NO_SECOND_PARTIAL, JLS_SHAPES_DIFFER or JLS_OUT_OF_MEMORY. At any but JLS_DONE
   at most `info` is written. */
uint32_t jls_join(const uint8_t *first, size_t first_size, const uint8_t *second, size_t second_size, jls_info *info, uint8_t *joined,
                  size_t room);

/* Shows the lines of a partial picture. Line y of component c is told in lines[c * height + y], and its samples begin at
   samples[(c * height + y) * width]. A line that is missing or disputed has zeros there. `info` tells of all lines.
   Answers JLS_DONE, JLS_SHORT_ROOM, JLS_NO_PARTIAL or JLS_OUT_OF_MEMORY. At JLS_SHORT_ROOM and JLS_NO_PARTIAL only `info` is written. */
uint32_t jls_lines(const uint8_t *partial, size_t size, jls_info *info, uint16_t *samples, size_t sample_room, jls_line *lines,
                   size_t line_room);

/* Writes samples as a JPEG-LS file. Those of line y of component c begin at samples[(c * height + y) * width], and `count` is
   width * height * components. *file_size is how many bytes the file has. Two bytes a sample and 1024 are room for most pictures. Noise
   can take more: at JLS_SHORT_ROOM call it again with *file_size bytes.
   Answers JLS_DONE, JLS_SHORT_ROOM, JLS_BAD_FRAME, JLS_LARGE_SAMPLE, JLS_LARGE_INTERVAL or JLS_OUT_OF_MEMORY. At JLS_SHORT_ROOM only
   *file_size is written. */
uint32_t jls_write(const jls_frame *frame, const uint16_t *samples, size_t count, uint8_t *file, size_t room, uint64_t *file_size);

/* Writes samples that stand as `layout` says, also at an odd address. `count` is how many samples the buffer has, those between lines among
   them. It takes memory for the picture once more.
   Answers what jls_write answers, or JLS_BAD_LAYOUT. At JLS_BAD_FRAME the buffer may be too short for the frame. */
uint32_t jls_write_as(const jls_frame *frame, const jls_layout *layout, const void *samples, size_t count, uint8_t *file, size_t room,
                      uint64_t *file_size);

/* Mends copies of one file, of which there are two or more, as `jls-splice --file FILE OUT 1 2 ..` does, and with `--files` if these are
   asked for. Scans that are interleaved by sample are read too, as by JLS_WIDE. Lists of bad places are those of `--bad`: with one, one
   copy is enough. At JLS_DONE and JLS_NOT_MENDED *mended is what came of it, which jls_mended_free frees; at any other answer it stays as
   it was.
   A search can take minutes: `tries` bounds it, and `stop` ends it. It takes memory for all copies and lists once more: there is none if
   the sizes of either add up to more than SIZE_MAX / 2.
   Answers JLS_DONE, JLS_NOT_MENDED, JLS_BAD_COPIES, JLS_BAD_LISTS, JLS_STOPPED or JLS_OUT_OF_MEMORY. */
uint32_t jls_mend(const jls_copy *copies, size_t count, const jls_mend_options *options, jls_mended **mended);

/* Tells what came of a mending. Answers JLS_DONE. */
uint32_t jls_mended_info(const jls_mended *mended, jls_mend_info *info);

/* Tells where the copies differ, as jls-splice prints it. *count is how many such places there are, and `places` takes the first, as many
   as there is room for and at most 4096. At JLS_NOT_MENDED there is none. Answers JLS_DONE. */
uint32_t jls_mended_places(const jls_mended *mended, jls_place *places, size_t room, uint64_t *count);

/* What was mended: its bytes, until jls_mended_free, and in *size how many there are. NULL and 0 where there is no such thing, and at
   JLS_NOT_MENDED. The picture is a partial picture, which jls_lines shows. The file is the mended one. A numbered one is one of `files`
   that have no fault, from 0 on. The lines are what jls-splice prints, as ASCII text without a 0 at its end. */
const uint8_t *jls_mended_picture(const jls_mended *mended, size_t *size);
const uint8_t *jls_mended_file(const jls_mended *mended, size_t *size);
const uint8_t *jls_mended_numbered(const jls_mended *mended, size_t number, size_t *size);
const uint8_t *jls_mended_lines(const jls_mended *mended, size_t *size);

/* Frees what jls_mend gave. At NULL it does nothing. */
void jls_mended_free(jls_mended *mended);

#ifdef __cplusplus
}
#endif

#endif
