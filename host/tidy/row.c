#include "row.h"

#include "day.h"

#include <string.h>

/* The first line that is not plain by itself. */
static size_t line_not_plain(const struct tidied *tidied)
{
    struct shown_row one;
    struct screen_lent part = tidied->typed;
    size_t line = 0;
    for (; line + 1 < tidied->build->line_count; line++) {
        part.root = tidied->build->lines[line].root;
        if (screen_lent_show_row(&part, one.cells, sizeof one.cells, &one.nulls) == SCREEN_REFUSED_PLAIN)
            break;
    }
    return line;
}

void row_show(struct shown_row *row, const struct tidied *tidied)
{
    const struct screen_lent *typed = &tidied->typed;
    size_t len = SCREEN_CELL_BYTES * typed->table_len;
    memset(row, 0, sizeof *row);
    row->answer = screen_lent_show_row(typed, row->cells, sizeof row->cells, &row->nulls);
    row->right = !row_is_shown(row) || (tidied->answer != SCREEN_NOTHING_PASSES &&
                                        screen_lent_check_row(typed, row->cells, len, row->nulls) == SCREEN_PASSES);
    if (row->answer == SCREEN_REFUSED_PLAIN)
        row->line = line_not_plain(tidied);
}

bool row_is_shown(const struct shown_row *row)
{
    return row->answer == SCREEN_ROW_SHOWN;
}

/* A number and a half of it up or down: 3.5, -0.5. The digits before the point are of the number nearer to zero. */
static void add_half(struct text *text, int64_t whole, int64_t half)
{
    bool negative = whole < 0 || (whole == 0 && half < 0);
    uint64_t size = whole < 0 ? 0 - (uint64_t)whole : (uint64_t)whole;
    if (whole != 0 && negative == (half > 0))
        size--;
    text_add(text, "%s%llu.5", negative ? "-" : "", (unsigned long long)size);
}

void add_cell_text(struct text *text, const struct tidied *tidied, const struct shown_row *row, size_t column)
{
    int64_t whole = screen_whole_at(row->cells, column), half = screen_half_at(row->cells, column);
    unsigned type = tidied->build->lent.table[column];
    if (row->nulls >> column & 1)
        text_add(text, "null%s", tidied->columns >> column & 1 ? "" : ", not read");
    else if (half == 0)
        add_value(text, &tidied->typed, type, whole);
    else if (type == SCREEN_TYPE_DAY) {
        day_add(text, whole);
        text_add(text, ", half a day %s", half > 0 ? "later" : "earlier");
    } else
        add_half(text, whole, half);
}

static bool has_half(const struct tidied *tidied, const struct shown_row *row)
{
    for (size_t i = 0; i < tidied->build->lent.table_len; i++)
        if (screen_half_at(row->cells, i) != 0)
            return true;
    return false;
}

void add_row_text(struct text *text, const struct tidied *tidied, const struct shown_row *row)
{
    if (tidied->answer == SCREEN_NOTHING_PASSES)
        text_add(text, "There is no row to show: none passes.");
    else if (row->answer == SCREEN_REFUSED_PLAIN)
        text_add(text, "No row is shown: line %zu is not plain; tidy --help tells which lines are.",
                 tidied->build->lines[row->line].number);
    else if (row_is_shown(row) && has_half(tidied, row))
        text_add(text, "A half lies between two whole values, where no line can exclude it; rows of a chain have whole values only.");
}

void report_row(struct text *out, struct page page, const struct tidied *tidied, const struct shown_row *row)
{
    struct text said = {NULL, 0, 0};
    text_add(out, "\n");
    if (row_is_shown(row)) {
        struct table table = {NULL, 0, 0};
        for (size_t i = 0; i < tidied->build->lent.table_len; i++) {
            struct text left = {NULL, 0, 0}, right = {NULL, 0, 0};
            text_add(&left, "%s", tidied->build->columns[i].name);
            add_cell_text(&right, tidied, row, i);
            table_add(&table, left, 0, right, row->nulls >> i & 1 ? STYLE_GONE : STYLE_GOOD);
        }
        table_end(&table, out, page, "column", "a row that passes");
    }
    add_row_text(&said, tidied, row);
    if (said.len > 0)
        add_wrapped(out, page, tidied->answer == SCREEN_NOTHING_PASSES ? STYLE_BAD : STYLE_PLAIN, &said);
    text_free(&said);
}
