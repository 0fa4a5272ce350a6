#include "report.h"

#include <string.h>

void add_numbers(struct text *text, const struct numbers *numbers)
{
    for (size_t i = 0; i < numbers->count; i++)
        text_add(text, "%s%zu", i > 0 ? ", " : "", numbers->at[i]);
}

void add_fate_text(struct text *text, const struct tidied *tidied, size_t line)
{
    static const char *const WORDS[] = {"kept as ", "merged into ", "dropped because of ", ""};
    const struct typed_fate *fate = &tidied->fates[line];
    if (fate->lines.count == 0) {
        text_add(text, "%s", fate->fate == FATE_IN_THE_WAY ? "in the way" : "dropped: nothing passes");
        return;
    }
    text_add(text, "%s", WORDS[fate->fate]);
    add_numbers(text, &fate->lines);
}

void add_origin_text(struct text *text, const struct build *build, const struct tidied_line *line)
{
    for (size_t i = 0; i < line->behind.count; i++) {
        const struct typed_line *typed = &build->lines[line->behind.at[i]];
        text_add(text, "%s%zu: %.*s", i > 0 ? "; " : "", typed->number, (int)typed->text.len, typed->text.at);
    }
    text_add(text, "%s", line->opened ? "; end opened" : "");
}

const char *type_text(unsigned type)
{
    static const char *const NAMES[] = {"", "Int", "Day", "Truth", "Text"};
    return NAMES[type];
}

/* ------------------------------------------------------------------------------------------------------- the screen */

static int digits(size_t number)
{
    int count = 1;
    for (; number > 9; number /= 10)
        count++;
    return count;
}

static void add_typed(struct text *out, struct page page, const struct tidied *tidied)
{
    static const enum style STYLES[] = {STYLE_GOOD, STYLE_CHANGED, STYLE_GONE, STYLE_BAD};
    const struct build *build = tidied->build;
    struct table table = {NULL, 0, 0};
    int width = digits(build->lines[build->line_count - 1].number);
    for (size_t i = 0; i < build->line_count; i++) {
        struct text left = {NULL, 0, 0}, right = {NULL, 0, 0};
        text_add(&left, "%*zu  %.*s", width, build->lines[i].number, (int)build->lines[i].text.len,
                 build->lines[i].text.at);
        add_fate_text(&right, tidied, i);
        table_add(&table, left, (size_t)width + 2, right, STYLES[tidied->fates[i].fate]);
    }
    table_end(&table, out, page, "as typed", "what became of it");
}

static void add_tidied(struct text *out, struct page page, const struct tidied *tidied)
{
    struct table table = {NULL, 0, 0};
    int width = digits(tidied->line_count);
    for (size_t i = 0; i < tidied->line_count; i++) {
        struct text left = {NULL, 0, 0}, right = {NULL, 0, 0};
        text_add(&left, "%*zu  %s", width, i + 1, tidied->lines[i].text.bytes);
        add_origin_text(&right, tidied->build, &tidied->lines[i]);
        table_add(&table, left, (size_t)width + 2, right, tidied->lines[i].opened ? STYLE_CHANGED : STYLE_PLAIN);
    }
    table_end(&table, out, page, "as tidied", "the typed line behind it");
}

/* Where nothing passes: the line in the way. */
static void add_way(struct text *text, const struct tidied *tidied)
{
    if (tidied->way == SCREEN_LINE_FOUND)
        text_add(text, " Without line %zu some row passes; it is the first such line.",
                 tidied->build->lines[tidied->way_line].number);
    else if (tidied->way == SCREEN_NO_LINE)
        text_add(text, " No single line is in the way: whichever one is removed, nothing passes.");
    else
        text_add(text, " Which line is in the way is told of plain screens only.");
}

void add_answer(struct text *text, const struct tidied *tidied)
{
    size_t lines = tidied->build->line_count;
    switch (tidied->answer) {
    case SCREEN_UNCHANGED:
        text_add(text, "Unchanged: there is nothing to merge; the screen stays as typed.");
        break;
    case SCREEN_NOTHING_PASSES:
        text_add(text, "Nothing passes: no row of any chain can pass these lines together.");
        add_way(text, tidied);
        break;
    default:
        text_add(text, "Rewritten: %zu line%s as typed, %zu as tidied. The same rows pass.", lines,
                 lines == 1 ? "" : "s", tidied->line_count);
    }
}

static void add_columns(struct text *out, struct page page, const struct tidied *tidied)
{
    struct text line = {NULL, 0, 0};
    size_t columns = tidied->build->lent.table_len;
    const char *before = "";
    text_add(&line, "Columns read: ");
    for (size_t i = 0; i < columns; i++)
        if (tidied->columns >> i & 1) {
            text_add(&line, "%s%s", before, tidied->build->columns[i].name);
            before = ", ";
        }
    text_add(&line, "%s (%u of %zu).", tidied->column_count == 0 ? "none" : "", (unsigned)tidied->column_count,
             columns);
    add_wrapped(out, page, STYLE_PLAIN, &line);
    text_free(&line);
}

void report_screen(struct text *out, struct page page, const struct tidied *tidied)
{
    struct text answer = {NULL, 0, 0};
    add_typed(out, page, tidied);
    text_add(out, "\n");
    add_tidied(out, page, tidied);
    text_add(out, "\n");
    add_answer(&answer, tidied);
    add_wrapped(out, page, tidied->answer == SCREEN_NOTHING_PASSES ? STYLE_BAD : STYLE_GOOD, &answer);
    add_columns(out, page, tidied);
    text_free(&answer);
}

void report_passes(struct text *out, const struct tidied *tidied)
{
    text_add(out, "Passes over the equalities: %llu.\n", (unsigned long long)tidied->passes);
}

/* -------------------------------------------------------------------------------------------------------- the chain */

/* By their line in the file, which is the number that a spreadsheet shows. */
void add_passing(struct text *text, const struct chain *chain, const struct run *run)
{
    const char *separator = "";
    for (size_t i = 0; i < chain->rows; i++) {
        if (run->truths[i] != 2)
            continue;
        text_add(text, "%s%zu", separator, chain->lines[i]);
        size_t last = i;
        while (last + 1 < chain->rows && run->truths[last + 1] == 2 && chain->lines[last + 1] == chain->lines[last] + 1)
            last++;
        if (last > i)
            text_add(text, "-%zu", chain->lines[last]);
        separator = ", ";
        i = last;
    }
    text_add(text, "%s", separator[0] == '\0' ? "none" : "");
}

static void add_rows(struct text *out, struct page page, const char *title, const struct chain *chain,
                     const struct run *run)
{
    struct text rows = {NULL, 0, 0};
    text_add(&rows, "%s ", title);
    add_passing(&rows, chain, run);
    add_wrapped(out, page, STYLE_PLAIN, &rows);
    text_free(&rows);
}

/* Both views of the hedge list's tally. */
static void add_views(struct text *out, struct page page, const struct outcome *outcome)
{
    const struct hedged *hedges[2] = {&outcome->typed_hedge, &outcome->copied_hedge};
    static const char *const TITLES[2] = {"as typed", "as tidied"};
    bool trader = same_trader_view(hedges[0], hedges[1]), risk = same_risk_view(hedges[0], hedges[1]);
    struct text line = {NULL, 0, 0};
    for (unsigned i = 0; i < 2; i++)
        text_add(out, "    %-13s  %-9s  %6llu passed  %6llu not passed\n", i == 0 ? "trader's view" : "", TITLES[i],
                 (unsigned long long)hedges[i]->trader.passed, (unsigned long long)hedges[i]->trader.not_passed);
    for (unsigned i = 0; i < 2; i++)
        text_add(out, "    %-13s  %-9s  %6llu passed  %6llu false  %6llu unknown\n", i == 0 ? "risk view" : "",
                 TITLES[i], (unsigned long long)hedges[i]->risk.passed, (unsigned long long)hedges[i]->risk.is_false,
                 (unsigned long long)hedges[i]->risk.unknown);
    if (!trader)
        text_add(&line, "THE TRADER'S VIEW IS NOT THE SAME.");
    else if (!risk)
        text_add(&line, "The trader's view is the same as typed and as tidied. The risk view is not: a row that does not "
                        "pass may be unknown on one side and false on the other.");
    else
        text_add(&line, "Both views are the same as typed and as tidied.");
    add_wrapped(out, page, trader ? STYLE_PLAIN : STYLE_BAD, &line);
    text_free(&line);
}

/* A row that is unknown may be so for several columns. */
static void add_unknown(struct text *out, struct page page, const struct build *build, const struct outcome *outcome)
{
    struct text line = {NULL, 0, 0};
    const char *before = "Unknown as typed for a null in: ";
    for (size_t i = 0; i < build->lent.table_len; i++)
        if (outcome->unknown_by[i] > 0) {
            text_add(&line, "%s%s (%zu row%s)", before, build->columns[i].name, outcome->unknown_by[i],
                     outcome->unknown_by[i] == 1 ? "" : "s");
            before = ", ";
        }
    if (line.len > 0)
        add_wrapped(out, page, STYLE_PLAIN, &line);
    text_free(&line);
}

static void add_speed(struct text *out, struct page page, const struct outcome *outcome)
{
    struct text line = {NULL, 0, 0};
    text_add(&line, "A row takes %.0f ns as typed, %.0f ns as returned, %.0f ns as copied out, which is what to run.",
             outcome->typed_ns, outcome->returned_ns, outcome->copied_ns);
    add_wrapped(out, page, STYLE_PLAIN, &line);
    text_add(out, "A row of a hedge list takes %.0f ns as copied out.\n", outcome->hedge_ns);
    text_free(&line);
}

void report_chain(struct text *out, struct page page, const struct tidied *tidied, const struct chain *chain,
                  const struct outcome *outcome, const char *name)
{
    text_add(out, "\n%s: %zu row%s\n", name, chain->rows, chain->rows == 1 ? "" : "s");
    add_views(out, page, outcome);
    add_unknown(out, page, tidied->build, outcome);
    if (chain->rows > 0)
        add_speed(out, page, outcome);
    if (outcome->same) {
        text_add(out, "The same rows pass as typed and as tidied.\n");
        add_rows(out, page, "Rows that pass, by their line in the file:", chain, &outcome->typed);
        return;
    }
    add_styled(out, page, STYLE_BAD, "NOT THE SAME ROWS PASS.");
    text_add(out, "\n");
    add_rows(out, page, "Rows that pass as typed, by their line in the file:", chain, &outcome->typed);
    add_rows(out, page, "Rows that pass as tidied:", chain, &outcome->copied);
}

void report_only(struct text *out, const struct tidied *tidied)
{
    const struct build *build = tidied->build;
    for (size_t i = 0; i < build->lent.table_len; i++)
        text_add(out, "column %s %s\n", build->columns[i].name, type_text(build->lent.table[i]));
    for (size_t i = 0; i < tidied->line_count; i++)
        text_add(out, "%s\n", tidied->lines[i].text.bytes);
}
