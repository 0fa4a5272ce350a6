#include "tidy.h"

#include "fate.h"

#include <stdlib.h>
#include <string.h>

void numbers_add(struct numbers *numbers, size_t number)
{
    size_t at = numbers->count;
    while (at > 0 && numbers->at[at - 1] > number)
        at--;
    if (at > 0 && numbers->at[at - 1] == number)
        return;
    numbers->at = grown(numbers->at, &numbers->room, numbers->count + 1, sizeof number);
    memmove(numbers->at + at + 1, numbers->at + at, (numbers->count - at) * sizeof number);
    numbers->at[at] = number;
    numbers->count++;
}

static void add_lines(struct tidied *tidied)
{
    struct conjuncts conjuncts = {NULL, 0, 0};
    size_t room = 0;
    add_conjuncts(&conjuncts, &tidied->returned, tidied->returned.root);
    tidied->lines = grown(NULL, &room, conjuncts.count, sizeof *tidied->lines);
    memset(tidied->lines, 0, conjuncts.count * sizeof *tidied->lines);
    for (size_t i = 0; i < conjuncts.count; i++) {
        tidied->lines[i].record = conjuncts.records[i];
        add_test(&tidied->lines[i].text, tidied->build, conjuncts.records[i]);
    }
    tidied->line_count = conjuncts.count;
    free(conjuncts.records);
}

/* The conjuncts of a loaded screen as its lines, numbered from 1. */
static void add_loaded_lines(struct build *build)
{
    struct conjuncts conjuncts = {NULL, 0, 0};
    struct slice rest;
    add_conjuncts(&conjuncts, &build->lent, build->lent.root);
    build->lines = grown(build->lines, &build->lines_room, conjuncts.count, sizeof *build->lines);
    for (size_t i = 0; i < conjuncts.count; i++) {
        struct typed_line line = {i + 1, {NULL, 0}, (uint32_t)conjuncts.records[i], build->lent.used,
                                  build->lent.pool_len, build->lent.text_len};
        build->lines[build->line_count++] = line;
        add_test(&build->printed, build, line.root);
        text_add(&build->printed, "\n");
    }
    rest.at = build->printed.bytes; /* which moves no more */
    rest.len = build->printed.len;
    for (size_t i = 0; i < build->line_count; i++)
        next_line(&rest, &build->lines[i].text);
    free(conjuncts.records);
}

/* What runs on every tick: every call checks all used records, and those of the typed screen are not needed. */
static uint32_t copy_out(struct tidied *tidied)
{
    size_t room = 0, len = SCREEN_RECORD_BYTES * SCREEN_MAX_RECORDS;
    return screen_copy_reached(&tidied->returned, grown(NULL, &room, len, 1), len, &tidied->copied);
}

void tidy(struct tidied *tidied, struct build *build)
{
    size_t room = 0, reasons_room = 0;
    memset(tidied, 0, sizeof *tidied);
    build_lend(build);
    tidied->build = build;
    tidied->typed = tidied->returned = build->lent;
    tidied->reasons = grown(NULL, &reasons_room, SCREEN_MAX_REASONS_BYTES, 1);
    tidied->answer = screen_lent_rewrite_told(&tidied->returned, tidied->reasons, SCREEN_MAX_REASONS_BYTES,
                                              &tidied->reasons_len, &tidied->passes);
    if (screen_refused(tidied->answer))
        return;
    uint32_t read = screen_lent_columns_read(&tidied->typed, &tidied->columns, &tidied->column_count);
    uint32_t copied = copy_out(tidied);
    if (screen_refused(read) || screen_refused(copied))
        abort(); /* both are promised of a screen that rewriting accepts */
    if (build->loaded) /* not before: the conjuncts of a screen that is refused may be beyond counting */
        add_loaded_lines(build);
    add_lines(tidied);
    tidied->fates = grown(NULL, &room, build->line_count, sizeof *tidied->fates);
    memset(tidied->fates, 0, build->line_count * sizeof *tidied->fates);
    fates_told(tidied);
}

void tidied_free(struct tidied *tidied)
{
    for (size_t i = 0; i < tidied->line_count; i++) {
        text_free(&tidied->lines[i].text);
        free(tidied->lines[i].typed.at);
        free(tidied->lines[i].behind.at);
    }
    for (size_t i = 0; tidied->fates != NULL && i < tidied->build->line_count; i++)
        free(tidied->fates[i].lines.at);
    free(tidied->lines);
    free(tidied->fates);
    free(tidied->copied.records);
    free(tidied->reasons);
}

const char *answer_text(uint32_t answer)
{
    switch (answer) {
    case SCREEN_UNCHANGED:
        return "unchanged";
    case SCREEN_NOTHING_PASSES:
        return "nothing passes";
    default:
        return "rewritten";
    }
}

/* ------------------------------------------------------------------------------------------------------- refusals */

static size_t conjunct_count(const struct build *build, uint32_t root)
{
    struct conjuncts conjuncts = {NULL, 0, 0};
    add_conjuncts(&conjuncts, &build->lent, root);
    free(conjuncts.records);
    return conjuncts.count;
}

/* The first line that, with those before it, is too much; the number of lines if none is. */
static size_t line_too_many(const struct build *build, uint32_t answer)
{
    size_t i = 0, conjuncts = 0;
    for (; i < build->line_count; i++) {
        const struct typed_line *line = &build->lines[i];
        struct screen_lent part = build->lent;
        part.used = line->used;
        part.root = line->root;
        if (answer == SCREEN_REFUSED_SIZE && (line->used > SCREEN_MAX_RECORDS ||
                                              line->pool_len > SCREEN_VALUE_BYTES * SCREEN_MAX_POOL_VALUES ||
                                              line->text_len > SCREEN_MAX_TEXT_BYTES))
            break;
        if (answer == SCREEN_REFUSED_CONJUNCTS &&
            (conjuncts += conjunct_count(build, line->root)) > SCREEN_MAX_CONJUNCTS)
            break;
        if (answer >= SCREEN_REFUSED_RECORD && answer <= SCREEN_REFUSED_TYPES && screen_lent_check(&part) == answer)
            break;
    }
    return i;
}

/* In the desk's words where the numbers of the header speak of records. */
static const char *sentence(const struct tidied *tidied)
{
    if (tidied->build->loaded)
        return screen_refusal_text(tidied->answer);
    bool pool = tidied->typed.pool_len > SCREEN_VALUE_BYTES * SCREEN_MAX_POOL_VALUES;
    bool text = tidied->typed.text_len > SCREEN_MAX_TEXT_BYTES;
    switch (tidied->answer) {
    case SCREEN_REFUSED_TABLE:
        return "more than 64 columns: this is the 65th";
    case SCREEN_REFUSED_SIZE:
        return text   ? "the symbols have more than 8,192 bytes together, from this line on"
               : pool ? "the lists have more than 8,192 values together, from this line on"
                      : "the lines have more than 4,096 columns, values and operators together, from this line on";
    case SCREEN_REFUSED_CONJUNCTS:
        return "more than 128 conditions, from this line on; those joined by and count each";
    case SCREEN_REFUSED_ROOM:
        return "the screen is too long to be tidied: typed and tidied it would have more than 4,096 columns, values "
               "and operators together";
    default:
        return screen_refusal_text(tidied->answer);
    }
}

void refusal_told(const struct tidied *tidied, struct faults *faults)
{
    const struct build *build = tidied->build;
    size_t line = line_too_many(build, tidied->answer), number = 0, place = 0;
    if (line < build->line_count) {
        number = build->lines[line].number;
        faults->text = build->lines[line].text;
        place = 1;
    } else if (tidied->answer == SCREEN_REFUSED_TABLE) {
        number = build->columns[SCREEN_MAX_COLUMNS].line;
    }
    fault_add(faults, number, place, "refused, number %u: %s", (unsigned)tidied->answer, sentence(tidied));
}
