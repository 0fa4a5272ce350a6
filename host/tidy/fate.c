#include "fate.h"

#include "range.h"

#include <stdlib.h>
#include <string.h>

/* The columns that a record reads, a bit each. */
static uint64_t columns_of(const struct screen_lent *screen, uint64_t record)
{
    struct screen_lent part = *screen;
    uint64_t columns = 0, count = 0;
    part.root = record;
    return screen_refused(screen_lent_columns_read(&part, &columns, &count)) ? 0 : columns;
}

static bool same(struct comparison a, struct comparison b)
{
    return a.column == b.column && a.code == b.code && value_order(a, b) == 0;
}

/* ------------------------------------------------------------------------------------- one conjunct, one typed line */

/* The worst that became of any part of a line; KEPT and DROPPED together are MERGED. */
static void add_fate(struct typed_fate *line, bool first, enum fate fate)
{
    line->fate = first || line->fate == fate ? fate : FATE_MERGED;
}

/* What became of one comparison: the tidied line that says as much. */
static bool trace_comparison(const struct tidied *t, struct comparison typed, bool first, struct typed_fate *line)
{
    bool found = false;
    for (size_t i = 0; i < t->line_count && !found; i++) {
        struct comparison tidied[2];
        size_t count = comparisons_of(&t->returned, t->lines[i].record, tidied);
        for (size_t j = 0; j < count && !found; j++) {
            if (!implies(tidied[j], typed))
                continue;
            found = true;
            numbers_add(&line->lines, i + 1);
            add_fate(line, first, same(tidied[j], typed)               ? FATE_KEPT
                                  : value_order(tidied[j], typed) == 0 ? FATE_MERGED
                                                                   : FATE_DROPPED);
        }
    }
    return found;
}

/* No tidied line says it by itself: those on its columns say it together. */
static void trace_columns(const struct tidied *t, uint64_t record, bool first, struct typed_fate *line)
{
    uint64_t columns = columns_of(&t->typed, record);
    for (size_t i = 0; i < t->line_count; i++)
        if (columns_of(&t->returned, t->lines[i].record) & columns)
            numbers_add(&line->lines, i + 1);
    add_fate(line, first, FATE_DROPPED);
}

static void trace_conjunct(const struct tidied *t, uint64_t record, bool first, struct typed_fate *line)
{
    struct comparison typed[2];
    size_t count = comparisons_of(&t->typed, record, typed);
    for (size_t i = 0; i < t->line_count; i++)
        if (t->lines[i].record == record) {
            numbers_add(&line->lines, i + 1);
            add_fate(line, first, FATE_KEPT);
            return;
        }
    bool traced = count > 0;
    for (size_t j = 0; j < count; j++)
        traced &= trace_comparison(t, typed[j], first && j == 0, line);
    if (!traced)
        trace_columns(t, record, first, line);
}

/* The first of two lines that say the same is kept, the other merged into it. */
static void only_first_kept(struct tidied *t, size_t line)
{
    struct typed_fate *fate = &t->fates[line];
    for (size_t i = 0; i < line && fate->fate == FATE_KEPT; i++) {
        const struct typed_fate *before = &t->fates[i];
        if (before->fate == FATE_KEPT && before->lines.count == fate->lines.count &&
            memcmp(before->lines.at, fate->lines.at, fate->lines.count * sizeof *fate->lines.at) == 0)
            fate->fate = FATE_MERGED;
    }
}

static void trace_line(struct tidied *t, size_t line)
{
    struct conjuncts conjuncts = {NULL, 0, 0};
    add_conjuncts(&conjuncts, &t->typed, t->build->lines[line].root);
    for (size_t i = 0; i < conjuncts.count; i++)
        trace_conjunct(t, conjuncts.records[i], i == 0, &t->fates[line]);
    free(conjuncts.records);
    only_first_kept(t, line);
}

/* ------------------------------------------------------------------------------------------------- nothing passes */

/* The typed line that has a conjunct of the screen, by its number among all conjuncts. */
static size_t line_of(const struct tidied *t, uint64_t conjunct)
{
    size_t line = 0;
    for (uint64_t before = 0; line + 1 < t->build->line_count; line++) {
        struct conjuncts conjuncts = {NULL, 0, 0};
        add_conjuncts(&conjuncts, &t->typed, t->build->lines[line].root);
        before += conjuncts.count;
        free(conjuncts.records);
        if (conjunct < before)
            break;
    }
    return line;
}

/* The first line whose removal makes some row pass, where the screen is plain and one does; the others are dropped. */
static void find_line_in_the_way(struct tidied *t)
{
    uint64_t conjunct = 0;
    t->way = screen_lent_line_in_the_way(&t->typed, &conjunct);
    t->way_line = t->way == SCREEN_LINE_FOUND ? line_of(t, conjunct) : 0;
    for (size_t i = 0; i < t->build->line_count; i++) {
        bool found = t->way == SCREEN_LINE_FOUND && i == t->way_line;
        t->fates[i].fate = found ? FATE_IN_THE_WAY : FATE_DROPPED;
        if (found || t->way != SCREEN_LINE_FOUND) {
            numbers_add(&t->lines[0].typed, t->build->lines[i].number);
            numbers_add(&t->lines[0].behind, i);
        }
    }
}

/* -------------------------------------------------------------------------------------------------- both directions */

/* Is the record one of the line's conjuncts? */
static bool has_conjunct(const struct tidied *t, size_t line, uint64_t record)
{
    struct conjuncts conjuncts = {NULL, 0, 0};
    bool found = false;
    add_conjuncts(&conjuncts, &t->typed, t->build->lines[line].root);
    for (size_t i = 0; i < conjuncts.count; i++)
        found |= conjuncts.records[i] == record;
    free(conjuncts.records);
    return found;
}

/* The typed lines that a record belongs to, where it is one of their conjuncts; else those that read its columns. */
static void trace_back(struct tidied *t, struct tidied_line *tidied)
{
    uint64_t columns = columns_of(&t->returned, tidied->record);
    const struct build *build = t->build;
    for (size_t i = 0; i < build->line_count; i++) {
        if (tidied->record < t->typed.used) { /* a typed record: of the lines that have it */
            if (has_conjunct(t, i, tidied->record)) {
                numbers_add(&tidied->typed, build->lines[i].number);
                numbers_add(&tidied->behind, i);
            }
        } else if (columns_of(&t->typed, build->lines[i].root) & columns) {
            numbers_add(&tidied->typed, build->lines[i].number);
        }
    }
}

/* The comparisons that rewriting added stand among the tidied lines in the order of the library's reasons. */
static void trace_reasons(struct tidied *t)
{
    size_t at = 0;
    for (size_t i = 0; i < t->line_count; i++) {
        struct screen_reason reason;
        if (t->lines[i].record >= t->typed.used &&
            screen_next_reason(t->reasons, (size_t)t->reasons_len, &at, &reason))
            numbers_add(&t->lines[i].behind, line_of(t, reason.line));
    }
}

/* Has a typed line this comparison? */
static bool is_typed(const struct tidied *t, struct comparison wanted)
{
    struct conjuncts conjuncts = {NULL, 0, 0};
    bool found = false;
    add_conjuncts(&conjuncts, &t->typed, t->typed.root);
    for (size_t i = 0; i < conjuncts.count && !found; i++) {
        struct comparison typed[2];
        size_t count = comparisons_of(&t->typed, conjuncts.records[i], typed);
        for (size_t j = 0; j < count; j++)
            found |= same(typed[j], wanted);
    }
    free(conjuncts.records);
    return found;
}

/* An open end that is typed closed, at the same value of the same column, and nowhere open. */
static bool only_opened(const struct tidied *t, uint64_t record)
{
    struct comparison tidied[2];
    size_t count = comparisons_of(&t->returned, record, tidied);
    bool opened = false;
    for (size_t i = 0; i < count; i++) {
        struct comparison closed = tidied[i];
        if (closed.code != SCREEN_OP_LT && closed.code != SCREEN_OP_GT)
            continue;
        closed.code = is_lower(closed) ? SCREEN_OP_GT_EQ : SCREEN_OP_LT_EQ;
        opened |= is_typed(t, closed) && !is_typed(t, tidied[i]);
    }
    return opened;
}

void fates_told(struct tidied *t)
{
    if (t->answer == SCREEN_NOTHING_PASSES) {
        find_line_in_the_way(t);
        return;
    }
    for (size_t i = 0; i < t->build->line_count; i++)
        trace_line(t, i);
    for (size_t i = 0; i < t->line_count; i++) {
        trace_back(t, &t->lines[i]);
        t->lines[i].opened = only_opened(t, t->lines[i].record);
    }
    trace_reasons(t);
}
