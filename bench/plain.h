/*
 * A plain C implementation of checking, columns read and the row test, to measure the library against: what a C
 * programmer would write who trusts his own loops. It gives the same answers as the library (bench.c compares them).
 */
#ifndef PLAIN_H
#define PLAIN_H

#include "screen_build.h"

/* As screen_check. */
uint32_t plain_check(const struct screen_lent *s);

/* As screen_columns_read. */
uint32_t plain_columns_read(const struct screen_lent *s, uint64_t *columns, uint64_t *count);

/* As screen_test_row. */
uint32_t plain_test_row(const struct screen_lent *s, const uint8_t *row, size_t row_len, uint64_t nulls);

/* The evaluation alone, of a screen and a row that were checked: 0 false, 1 unknown, 2 true. */
unsigned plain_evaluate(const struct screen_lent *s, const uint8_t *row, uint64_t nulls);

#endif
