/* The calls under JLS_WIDE in place of those under JLS_STRICT: a test that is compiled with `-include` of this file makes those. */
#ifndef WIDE_H
#define WIDE_H
#define _GNU_SOURCE

#include <jls_salvage.h>

#define jls_check(copy, size, ...) jls_check_under(copy, size, JLS_WIDE, __VA_ARGS__)
#define jls_read(copy, size, ...) jls_read_under(copy, size, JLS_WIDE, __VA_ARGS__)
#define jls_read_as(copy, size, ...) jls_read_as_under(copy, size, JLS_WIDE, __VA_ARGS__)
#define jls_partial(copy, size, ...) jls_partial_under(copy, size, JLS_WIDE, __VA_ARGS__)

#endif
