/* What a line says of one column, where it is a comparison with a value. */
#ifndef RANGE_H
#define RANGE_H

#include "screen_build.h"

#include <stdbool.h>

/* column code value, code one of SCREEN_OP_EQ, NOT_EQ, LT, LT_EQ, GT, GT_EQ. */
struct comparison {
    size_t column;
    unsigned code;
    int64_t value;
    const uint8_t *symbol; /* of a Text column, in the screen's text; else NULL */
    size_t length;
};

/* The comparisons that a conjunct stands for: one, or the two of a between; 0 if it is of another kind. */
size_t comparisons_of(const struct screen_lent *screen, uint64_t record, struct comparison comparisons[2]);

/* Is `weak` true of every value of which `strong` is? Values between two whole numbers count too. */
bool implies(struct comparison strong, struct comparison weak);

/* Which value is the greater one: below 0, 0 or above 0, of two comparisons of one column. */
int value_order(struct comparison a, struct comparison b);

bool is_lower(struct comparison comparison);
bool is_upper(struct comparison comparison);

#endif
