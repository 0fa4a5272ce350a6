/* One row that passes the screen, as people read it: 4800.5, a day half a day later, null. */
#ifndef ROW_H
#define ROW_H

#include "table.h"
#include "tidy.h"

/* What the library showed. */
struct shown_row {
    uint32_t answer; /* of screen_show_row */
    uint8_t cells[SCREEN_CELL_BYTES * SCREEN_MAX_COLUMNS];
    uint64_t nulls;
    bool right;  /* as promised: screen_check_row lets it pass, and it is shown only if rewriting lets some row pass */
    size_t line; /* with SCREEN_REFUSED_PLAIN: the first typed line that is not plain, from 0 */
};

/* Asks for a row of the screen as typed, which rewriting did not refuse. */
void row_show(struct shown_row *row, const struct tidied *tidied);

/* Is there a row to show? */
bool row_is_shown(const struct shown_row *row);

/* A column's value; a Day with a half is so many days and half a day later, or earlier. */
void add_cell_text(struct text *text, const struct tidied *tidied, const struct shown_row *row, size_t column);

/* What there is to say of the row or of its absence, in a sentence; nothing where all of its values are whole. */
void add_row_text(struct text *text, const struct tidied *tidied, const struct shown_row *row);

/* The row, column by column, or why there is none. */
void report_row(struct text *out, struct page page, const struct tidied *tidied, const struct shown_row *row);

#endif
