#include "json.h"

#include "report.h"

#include <string.h>

static void add_string(struct text *out, const char *at, size_t len)
{
    text_add(out, "\"");
    for (size_t i = 0; i < len; i++) {
        unsigned char c = (unsigned char)at[i];
        if (c == '"' || c == '\\')
            text_add(out, "\\%c", c);
        else if (c < ' ' || c > 126)
            text_add(out, "\\u%04x", (unsigned)c);
        else
            text_add(out, "%c", c);
    }
    text_add(out, "\"");
}

static void add_word(struct text *out, const char *name, const char *value)
{
    text_add(out, "\"%s\": ", name);
    add_string(out, value, strlen(value));
}

static void add_list(struct text *out, const char *name, const struct numbers *numbers)
{
    text_add(out, "\"%s\": [", name);
    add_numbers(out, numbers);
    text_add(out, "]");
}

static const char *next_item(size_t i)
{
    return i > 0 ? ",\n    " : "\n    ";
}

static void add_faults(struct text *out, const struct faults *faults)
{
    text_add(out, "  \"faults\": [");
    for (size_t i = 0; i < faults->kept; i++) {
        const struct fault *fault = &faults->list[i];
        text_add(out, "%s{", next_item(i));
        add_word(out, "kind", fault->warning ? "warning" : "fault");
        text_add(out, ", ");
        add_word(out, "file", fault->file);
        text_add(out, ", \"line\": %zu, \"place\": %zu, ", fault->line, fault->place);
        add_word(out, "what", fault->what);
        text_add(out, "}");
    }
    text_add(out, "%s]", faults->kept > 0 ? "\n  " : "");
}

static void add_columns(struct text *out, const struct tidied *tidied)
{
    const struct build *build = tidied->build;
    text_add(out, "  \"columns\": [");
    for (size_t i = 0; i < build->lent.table_len; i++) {
        text_add(out, "%s{", next_item(i));
        add_word(out, "name", build->columns[i].name);
        text_add(out, ", ");
        add_word(out, "type", type_text(build->lent.table[i]));
        text_add(out, ", \"read\": %s}", tidied->columns >> i & 1 ? "true" : "false");
    }
    text_add(out, "%s],\n", build->lent.table_len > 0 ? "\n  " : "");
}

static void add_typed(struct text *out, const struct tidied *tidied)
{
    static const char *const FATES[] = {"kept", "merged", "dropped", "in the way"};
    const struct build *build = tidied->build;
    text_add(out, "  \"typed\": [");
    for (size_t i = 0; i < build->line_count; i++) {
        const struct typed_fate *fate = &tidied->fates[i];
        text_add(out, "%s{\"line\": %zu, \"text\": ", next_item(i), build->lines[i].number);
        add_string(out, build->lines[i].text.at, build->lines[i].text.len);
        text_add(out, ", ");
        add_word(out, "fate", FATES[fate->fate]);
        text_add(out, ", ");
        add_list(out, "tidied", &fate->lines);
        text_add(out, "}");
    }
    text_add(out, "\n  ],\n");
}

/* The typed lines behind a tidied one, by their number in the file and as typed. */
static void add_behind(struct text *out, const struct build *build, const struct numbers *behind)
{
    text_add(out, "\"behind\": [");
    for (size_t i = 0; i < behind->count; i++) {
        const struct typed_line *typed = &build->lines[behind->at[i]];
        text_add(out, "%s{\"line\": %zu, \"text\": ", i > 0 ? ", " : "", typed->number);
        add_string(out, typed->text.at, typed->text.len);
        text_add(out, "}");
    }
    text_add(out, "]");
}

static void add_tidied(struct text *out, const struct tidied *tidied)
{
    text_add(out, "  \"tidied\": [");
    for (size_t i = 0; i < tidied->line_count; i++) {
        text_add(out, "%s{\"number\": %zu, ", next_item(i), i + 1);
        add_word(out, "text", tidied->lines[i].text.bytes);
        text_add(out, ", ");
        add_list(out, "lines", &tidied->lines[i].typed);
        text_add(out, ", ");
        add_behind(out, tidied->build, &tidied->lines[i].behind);
        text_add(out, ", \"opened\": %s}", tidied->lines[i].opened ? "true" : "false");
    }
    text_add(out, "\n  ],\n");
}

static void add_counts(struct text *out, const char *name, const struct run *run, double ns)
{
    text_add(out, "    \"%s\": {\"passed\": %zu, \"false\": %zu, \"unknown\": %zu, \"ns\": %.0f},\n", name,
             run->counts[2], run->counts[0], run->counts[1], ns);
}

static void add_hedge(struct text *out, const char *name, const struct hedged *hedged)
{
    text_add(out, "      \"%s\": {\"trader\": {\"passed\": %llu, \"not_passed\": %llu}, \"risk\": {\"passed\": %llu, "
                  "\"false\": %llu, \"unknown\": %llu}},\n",
             name, (unsigned long long)hedged->trader.passed, (unsigned long long)hedged->trader.not_passed,
             (unsigned long long)hedged->risk.passed, (unsigned long long)hedged->risk.is_false,
             (unsigned long long)hedged->risk.unknown);
}

static void add_hedges(struct text *out, const struct outcome *outcome)
{
    const struct hedged *typed = &outcome->typed_hedge, *copied = &outcome->copied_hedge;
    text_add(out, "    \"hedge\": {\n");
    add_hedge(out, "typed", typed);
    add_hedge(out, "tidied", copied);
    text_add(out, "      \"same_trader_view\": %s,\n      \"same_risk_view\": %s,\n      \"ns\": %.0f\n    },\n",
             same_trader_view(typed, copied) ? "true" : "false", same_risk_view(typed, copied) ? "true" : "false",
             outcome->hedge_ns);
}

static void add_chain(struct text *out, const struct build *build, const struct run_files *files)
{
    const struct outcome *outcome = files->outcome;
    const char *before = "";
    text_add(out, "  \"chain\": {\n    ");
    add_word(out, "file", files->chain_name);
    text_add(out, ",\n    \"rows\": %zu,\n", files->chain->rows);
    add_counts(out, "typed", &outcome->typed, outcome->typed_ns);
    add_counts(out, "returned", &outcome->returned, outcome->returned_ns);
    add_counts(out, "copied", &outcome->copied, outcome->copied_ns);
    add_hedges(out, outcome);
    text_add(out, "    \"unknown_for_null\": {");
    for (size_t i = 0; i < build->lent.table_len; i++)
        if (outcome->unknown_by[i] > 0) {
            text_add(out, "%s\"%s\": %zu", before, build->columns[i].name, outcome->unknown_by[i]);
            before = ", ";
        }
    text_add(out, "},\n    \"same_rows_pass\": %s,\n    \"passing_lines\": [", outcome->same ? "true" : "false");
    before = "";
    for (size_t i = 0; i < files->chain->rows; i++)
        if (outcome->typed.truths[i] == 2) {
            text_add(out, "%s%zu", before, files->chain->lines[i]);
            before = ", ";
        }
    text_add(out, "]\n  },\n");
}

/* Of a null both parts are null. */
static void add_cell(struct text *out, const struct tidied *tidied, const struct shown_row *row, size_t column)
{
    struct text text = {NULL, 0, 0};
    add_word(out, "name", tidied->build->columns[column].name);
    text_add(out, ", ");
    add_cell_text(&text, tidied, row, column);
    add_word(out, "text", text.bytes);
    if (row->nulls >> column & 1)
        text_add(out, ", \"whole\": null, \"half\": null");
    else
        text_add(out, ", \"whole\": %lld, \"half\": %lld", (long long)screen_whole_at(row->cells, column),
                 (long long)screen_half_at(row->cells, column));
    text_free(&text);
}

static void add_row(struct text *out, const struct tidied *tidied, const struct shown_row *row)
{
    size_t columns = row_is_shown(row) ? tidied->build->lent.table_len : 0;
    bool none = tidied->answer == SCREEN_NOTHING_PASSES;
    text_add(out, "  \"row\": {\"answer\": \"%s\", ", none ? "none" : row_is_shown(row) ? "shown" : "not plain");
    if (!none && !row_is_shown(row))
        text_add(out, "\"line\": %zu, ", tidied->build->lines[row->line].number);
    text_add(out, "\"columns\": [");
    for (size_t i = 0; i < columns; i++) {
        text_add(out, "%s{", next_item(i));
        add_cell(out, tidied, row, i);
        text_add(out, "}");
    }
    text_add(out, "%s]},\n", columns > 0 ? "\n  " : "");
}

static void add_head(struct text *out, const char *screen, const char *answer)
{
    text_add(out, "{\n  \"version\": \"%s\",\n  ", SCREEN_VERSION);
    add_word(out, "screen", screen);
    text_add(out, ",\n  \"answer\": \"%s\",\n", answer);
}

void json_tidied(struct text *out, const struct tidied *tidied, const struct run_files *files,
                 const struct faults *faults)
{
    add_head(out, files->screen, answer_text(tidied->answer));
    text_add(out, "  \"passes\": %llu,\n", (unsigned long long)tidied->passes);
    add_columns(out, tidied);
    add_typed(out, tidied);
    add_tidied(out, tidied);
    if (files->row != NULL)
        add_row(out, tidied, files->row);
    if (files->chain != NULL)
        add_chain(out, tidied->build, files);
    add_faults(out, faults);
    text_add(out, "\n}\n");
}

void json_faulty(struct text *out, const char *screen, const struct faults *faults)
{
    add_head(out, screen, "faulty");
    add_faults(out, faults);
    text_add(out, "\n}\n");
}
