/*
 * A chain of options as a CSV file: a line of column names, then a row a line. Every column that the screen reads must
 * be there once; other columns of the file are not read. An empty cell is null; a line without any text is no row.
 */
#ifndef CHAIN_H
#define CHAIN_H

#include "hedged.h"
#include "tidy.h"

struct chain {
    size_t columns;  /* of the screen */
    uint8_t *values; /* row after row, eight bytes a column, as the library takes them */
    size_t values_room;
    uint64_t *nulls; /* a word of marks a row; a column that the screen does not read may be missing, and is null */
    size_t nulls_room;
    size_t *lines; /* where a row stands in the file */
    size_t lines_room;
    size_t rows;
    uint8_t *text; /* the screen's text, and behind it the bytes of those of the rows' symbols that are not in it */
    size_t text_room;
    size_t text_len;
};

bool chain_read(struct slice text, const struct build *build, uint64_t read, struct chain *chain,
                struct faults *faults);

void chain_free(struct chain *chain);

/* The screen with the chain's text, as it is lent with the chain's rows. */
struct screen_lent chain_screen(const struct chain *chain, const struct screen_lent *screen);

/* The bytes of a row, and how many. */
const uint8_t *chain_row(const struct chain *chain, size_t row);
size_t chain_row_len(const struct chain *chain);

/* The answers of one screen on all rows. */
struct run {
    uint8_t *truths;  /* a row each: 0 false, 1 unknown, 2 true */
    size_t counts[3]; /* of each */
    uint32_t refusal; /* of the last row refused; 0 if none was */
};

/* What a chain says of a screen as typed, as returned and as copied out. */
struct outcome {
    struct run typed, returned, copied;
    struct hedged typed_hedge, copied_hedge; /* the same rows by the hedge list */
    bool same; /* rows pass as typed, as returned and as copied, row by row and by the hedge list */
    size_t unknown_by[SCREEN_MAX_COLUMNS];  /* rows that are unknown as typed for a null in this column */
    double typed_ns, returned_ns, copied_ns; /* a row */
    double hedge_ns;                         /* a row of the screen copied out, by the hedge list */
};

void chain_run(struct outcome *outcome, const struct chain *chain, const struct tidied *tidied);

void outcome_free(struct outcome *outcome);

#endif
