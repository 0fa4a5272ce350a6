#include "picture.h"

#include "range.h"
#include "report.h"

#include <stdlib.h>
#include <string.h>

/* Places in the drawing: its width, the plot's ends, the heights of a typed line, of the tidied one, of dots. */
enum { WIDTH = 560, LEFT = 74, RIGHT = 500, LINE = 18, THICK = 26, STRIP = 16, AXIS = 34, TOP = 6 };

/* ----------------------------------------------------------------------------------------- what is said of a column */

/* A list of values that a line allows or, under a Not, excludes. */
struct listed {
    bool is_list, excluded;
    struct screen_record list;
};

static struct listed list_of(const struct screen_lent *screen, uint64_t record, size_t column)
{
    struct listed none = {false, false, {0, 0, 0, 0, 0, 0, 0}}, found = none;
    struct screen_record fields = screen_record_at(screen, record);
    found.excluded = fields.kind == SCREEN_KIND_NOT;
    if (found.excluded)
        fields = screen_record_at(screen, fields.a);
    if (fields.kind != SCREEN_KIND_IS_IN)
        return none;
    struct screen_record value = screen_record_at(screen, fields.a);
    found.list = screen_record_at(screen, fields.b);
    found.is_list = value.kind == SCREEN_KIND_COLUMN && value.a == column;
    return found.is_list ? found : none;
}

/* All that some conjuncts say of a column: of a screen's 128 lines each gives two comparisons or a list at most. */
struct said {
    struct comparison comparisons[2 * SCREEN_MAX_CONJUNCTS];
    size_t count;
    struct listed lists[SCREEN_MAX_CONJUNCTS];
    size_t list_count;
};

static void add_said(struct said *said, const struct screen_lent *screen, uint64_t record, size_t column)
{
    struct comparison found[2];
    size_t count = comparisons_of(screen, record, found);
    struct listed listed = list_of(screen, record, column);
    for (size_t i = 0; i < count; i++)
        if (found[i].column == column && said->count < sizeof said->comparisons / sizeof *said->comparisons)
            said->comparisons[said->count++] = found[i];
    if (listed.is_list && said->list_count < sizeof said->lists / sizeof *said->lists)
        said->lists[said->list_count++] = listed;
}

static void said_typed(struct said *said, const struct tidied *tidied, size_t line, size_t column)
{
    struct conjuncts conjuncts = {NULL, 0, 0};
    said->count = said->list_count = 0;
    add_conjuncts(&conjuncts, &tidied->typed, tidied->build->lines[line].root);
    for (size_t i = 0; i < conjuncts.count; i++)
        add_said(said, &tidied->typed, conjuncts.records[i], column);
    free(conjuncts.records);
}

static void said_tidied(struct said *said, const struct tidied *tidied, size_t column)
{
    said->count = said->list_count = 0;
    for (size_t i = 0; i < tidied->line_count; i++)
        add_said(said, &tidied->returned, tidied->lines[i].record, column);
}

static bool says_nothing(const struct said *said)
{
    return said->count + said->list_count == 0;
}

static bool is_null(const struct chain *chain, size_t row, size_t column)
{
    return chain->nulls[row] >> column & 1;
}

static int64_t cell(const struct chain *chain, size_t row, size_t column)
{
    return screen_fetch_value(chain_row(chain, row) + SCREEN_VALUE_BYTES * column);
}

/* -------------------------------------------------------------------------------------------------------- the scale */

struct scale {
    double low, high; /* the values at the plot's ends */
    bool begun;
};

static void widen(struct scale *scale, int64_t value)
{
    double v = (double)value;
    scale->low = scale->begun && scale->low < v ? scale->low : v;
    scale->high = scale->begun && scale->high > v ? scale->high : v;
    scale->begun = true;
}

static void widen_said(struct scale *scale, const struct screen_lent *screen, const struct said *said)
{
    for (size_t i = 0; i < said->count; i++)
        widen(scale, said->comparisons[i].value);
    for (size_t i = 0; i < said->list_count; i++)
        for (uint32_t j = 0; j < said->lists[i].list.b; j++)
            widen(scale, screen_fetch_value(screen->pool + SCREEN_VALUE_BYTES * ((size_t)said->lists[i].list.a + j)));
}

/* From the lowest to the highest value of the lines and of the chain, and a little more. */
static struct scale scale_of(const struct tidied *tidied, const struct run_files *files, size_t column)
{
    struct scale scale = {0, 1, false};
    struct said said;
    for (size_t i = 0; i < tidied->build->line_count; i++) {
        said_typed(&said, tidied, i, column);
        widen_said(&scale, &tidied->typed, &said);
    }
    said_tidied(&said, tidied, column);
    widen_said(&scale, &tidied->returned, &said);
    for (size_t i = 0; files->chain != NULL && i < files->chain->rows; i++)
        if (!is_null(files->chain, i, column))
            widen(&scale, cell(files->chain, i, column));
    double size = scale.high < 0 ? -scale.high : scale.high; /* one value alone: as much as a double can tell apart */
    double margin = scale.high > scale.low ? (scale.high - scale.low) * 0.06 : 1 + size / 1e9;
    scale.low -= margin;
    scale.high += margin;
    return scale;
}

static double place(const struct scale *scale, double value)
{
    return LEFT + (RIGHT - LEFT) * (value - scale->low) / (scale->high - scale->low);
}

/* 1, 2 or 5 times a power of ten, so that the axis has three to six marks. */
static double step_of(const struct scale *scale)
{
    static const double TIMES[3] = {1, 2, 5};
    double power = 1, wanted = (scale->high - scale->low) / 6;
    for (;; power *= 10)
        for (unsigned i = 0; i < 3; i++)
            if (TIMES[i] * power >= wanted)
                return TIMES[i] * power;
}

/* The whole number of steps below a value; large numbers have no parts. */
static double steps_below(double value, double step)
{
    double steps = value / step;
    return steps > -1e15 && steps < 1e15 ? (double)(int64_t)steps - 1 : steps;
}

static void add_axis(struct text *out, const struct scale *scale, unsigned type, double y)
{
    double step = step_of(scale), first = steps_below(scale->low, step);
    text_add(out, "<line class=\"axis\" x1=\"%d\" x2=\"%d\" y1=\"%.0f\" y2=\"%.0f\"/>", LEFT, RIGHT, y, y);
    for (unsigned i = 0; i < 8; i++) {
        struct text label = {NULL, 0, 0};
        double value = (first + i) * step;
        if (value < scale->low || value > scale->high || value < -9.2e18 || value > 9.2e18 ||
            (type == SCREEN_TYPE_TRUTH && value != 0 && value != 1))
            continue;
        add_value(&label, NULL, type, (int64_t)value); /* never a symbol: their columns have no picture */
        text_add(out, "<line class=\"axis\" x1=\"%.1f\" x2=\"%.1f\" y1=\"%.0f\" y2=\"%.0f\"/>", place(scale, value),
                 place(scale, value), y, y + 4);
        text_add(out, "<text class=\"mark\" x=\"%.1f\" y=\"%.0f\" text-anchor=\"middle\">%s</text>",
                 place(scale, value), y + 17, label.bytes);
        text_free(&label);
    }
}

/* ------------------------------------------------------------------------------------------------- ranges and lists */

/* One end of a range: a full ring if it belongs to it, an empty one if not, an arrow if there is none. */
static void add_end(struct text *out, const struct scale *scale, const struct comparison *end, bool low, double y,
                    const char *style)
{
    if (end == NULL) {
        int at = low ? LEFT : RIGHT, back = low ? 7 : -7;
        text_add(out, "<path class=\"%s arrow\" d=\"M%d %.0fl%d -4v8z\"/>", style, at, y, back);
        return;
    }
    bool open = end->code == SCREEN_OP_GT || end->code == SCREEN_OP_LT;
    text_add(out, "<circle class=\"%s %s\" cx=\"%.1f\" cy=\"%.0f\" r=\"4\"/>", style, open ? "open" : "closed",
             place(scale, (double)end->value), y);
}

/* What the comparisons say together: a line from the highest lower end to the lowest upper one, crosses for values. */
static void add_range(struct text *out, const struct scale *scale, const struct said *said, double y, const char *style)
{
    const struct comparison *low = NULL, *high = NULL;
    for (size_t i = 0; i < said->count; i++) {
        const struct comparison *c = &said->comparisons[i];
        if ((is_lower(*c) || c->code == SCREEN_OP_EQ) && (low == NULL || implies(*c, *low)))
            low = c;
        if ((is_upper(*c) || c->code == SCREEN_OP_EQ) && (high == NULL || implies(*c, *high)))
            high = c;
    }
    if (said->count > 0) {
        double from = low == NULL ? LEFT : place(scale, (double)low->value);
        double to = high == NULL ? RIGHT : place(scale, (double)high->value);
        text_add(out, "<line class=\"%s\" x1=\"%.1f\" x2=\"%.1f\" y1=\"%.0f\" y2=\"%.0f\"/>", style, from, to, y, y);
        add_end(out, scale, low, true, y, style);
        add_end(out, scale, high, false, y, style);
    }
    for (size_t i = 0; i < said->count; i++)
        if (said->comparisons[i].code == SCREEN_OP_NOT_EQ)
            text_add(out, "<path class=\"cross\" d=\"M%.1f %.0fl8 8m0 -8l-8 8\"/>",
                     place(scale, (double)said->comparisons[i].value) - 4, y - 4);
}

static void add_lists(struct text *out, const struct screen_lent *screen, const struct scale *scale,
                      const struct said *said, double y, const char *style)
{
    for (size_t i = 0; i < said->list_count; i++)
        for (uint32_t j = 0; j < said->lists[i].list.b; j++) {
            size_t at = SCREEN_VALUE_BYTES * ((size_t)said->lists[i].list.a + j);
            double x = place(scale, (double)screen_fetch_value(screen->pool + at));
            if (said->lists[i].excluded)
                text_add(out, "<path class=\"cross\" d=\"M%.1f %.0fl8 8m0 -8l-8 8\"/>", x - 4, y - 4);
            else
                text_add(out, "<rect class=\"%s closed\" x=\"%.1f\" y=\"%.0f\" width=\"5\" height=\"10\"/>", style,
                         x - 2.5, y - 5);
        }
}

/* ------------------------------------------------------------------------------------------------------------- dots */

/* How many rows stand at each place of a strip. */
struct strip {
    size_t at[WIDTH];
    size_t rows, nulls;
};

static void gather(struct strip *strip, const struct scale *scale, const struct run_files *files, size_t column,
                   bool passed)
{
    memset(strip, 0, sizeof *strip);
    for (size_t i = 0; i < files->chain->rows; i++) {
        if ((files->outcome->typed.truths[i] == 2) != passed)
            continue;
        strip->rows++;
        if (is_null(files->chain, i, column))
            strip->nulls++;
        else
            strip->at[(size_t)place(scale, (double)cell(files->chain, i, column))]++;
    }
}

/* A dot for the rows of one place; the more they are, the larger. */
static void add_strip(struct text *out, const struct strip *strip, double y, const char *style, const char *title)
{
    text_add(out, "<text class=\"label\" x=\"%d\" y=\"%.0f\" text-anchor=\"end\">%s</text>", LEFT - 10, y + 4, title);
    for (size_t x = 0; x < WIDTH; x++) {
        double radius = strip->at[x] > 30 ? 6 : strip->at[x] > 5 ? 4.5 : 3;
        if (strip->at[x] > 0)
            text_add(out, "<circle class=\"%s\" cx=\"%zu\" cy=\"%.0f\" r=\"%.1f\" data-rows=\"%zu\"/>", style, x, y,
                     radius, strip->at[x]);
    }
    if (strip->nulls > 0)
        text_add(out, "<text class=\"mark\" x=\"%d\" y=\"%.0f\" data-nulls=\"%zu\">%zu null</text>", RIGHT + 8, y + 4,
                 strip->nulls, strip->nulls);
}

/* ------------------------------------------------------------------------------------------------------ the picture */

/* How many typed lines are drawn. */
static size_t drawn_lines(const struct tidied *tidied, size_t column)
{
    struct said said;
    size_t count = 0;
    for (size_t i = 0; i < tidied->build->line_count; i++) {
        said_typed(&said, tidied, i, column);
        count += !says_nothing(&said);
    }
    return count;
}

void undrawn_lines(struct numbers *numbers, const struct tidied *tidied, size_t column)
{
    struct said said;
    for (size_t i = 0; i < tidied->build->line_count; i++) {
        struct screen_lent part = tidied->typed;
        uint64_t columns = 0, count = 0;
        part.root = tidied->build->lines[i].root;
        said_typed(&said, tidied, i, column);
        if (says_nothing(&said) && screen_lent_columns_read(&part, &columns, &count) == SCREEN_COLUMNS &&
            columns >> column & 1)
            numbers_add(numbers, tidied->build->lines[i].number);
    }
}

bool has_picture(const struct tidied *tidied, const struct run_files *files, size_t column)
{
    bool number = tidied->build->lent.table[column] != SCREEN_TYPE_TEXT; /* symbols have no scale */
    return number && (tidied->columns >> column & 1) && (drawn_lines(tidied, column) > 0 || files->chain != NULL);
}

static void add_typed(struct text *out, const struct tidied *tidied, const struct scale *scale, size_t column,
                      double *y)
{
    struct said said;
    for (size_t i = 0; i < tidied->build->line_count; i++) {
        said_typed(&said, tidied, i, column);
        if (says_nothing(&said))
            continue;
        text_add(out, "<g data-line=\"%zu\"><title>", tidied->build->lines[i].number);
        html_text(out, tidied->build->lines[i].text);
        text_add(out, "</title><text class=\"label\" x=\"%d\" y=\"%.0f\" text-anchor=\"end\">line %zu</text>",
                 LEFT - 10, *y + 4, tidied->build->lines[i].number);
        add_lists(out, &tidied->typed, scale, &said, *y, "typed");
        add_range(out, scale, &said, *y, "typed");
        text_add(out, "</g>");
        *y += LINE;
    }
}

static void add_tidied(struct text *out, const struct tidied *tidied, const struct scale *scale, size_t column,
                       double *y)
{
    struct said said;
    said_tidied(&said, tidied, column);
    text_add(out, "<text class=\"label strong\" x=\"%d\" y=\"%.0f\" text-anchor=\"end\">tidied</text>", LEFT - 10,
             *y + 4);
    if (tidied->answer == SCREEN_NOTHING_PASSES)
        text_add(out, "<text class=\"mark bad\" x=\"%d\" y=\"%.0f\">nothing passes</text>", LEFT, *y + 4);
    else if (says_nothing(&said))
        text_add(out, "<text class=\"mark\" x=\"%d\" y=\"%.0f\">no range</text>", LEFT, *y + 4);
    add_lists(out, &tidied->returned, scale, &said, *y, "tidied");
    add_range(out, scale, &said, *y, "tidied");
    *y += THICK;
}

void picture(struct text *out, const struct tidied *tidied, const struct run_files *files, size_t column)
{
    struct scale scale = scale_of(tidied, files, column);
    struct strip strip;
    size_t lines = drawn_lines(tidied, column);
    double y = TOP + LINE / 2.0;
    size_t height = TOP + lines * LINE + THICK + (files->chain == NULL ? 0 : 2 * STRIP) + AXIS;
    text_add(out, "<svg viewBox=\"0 0 %d %zu\" role=\"img\" aria-label=\"%s as typed and as tidied\">", WIDTH, height,
             tidied->build->columns[column].name);
    add_typed(out, tidied, &scale, column, &y);
    add_tidied(out, tidied, &scale, column, &y);
    if (files->chain != NULL) {
        gather(&strip, &scale, files, column, true);
        add_strip(out, &strip, y, "passed", "passed");
        gather(&strip, &scale, files, column, false);
        add_strip(out, &strip, y + STRIP, "failed", "not");
        y += 2 * STRIP;
    }
    add_axis(out, &scale, tidied->build->lent.table[column], y);
    text_add(out, "</svg>\n");
}
