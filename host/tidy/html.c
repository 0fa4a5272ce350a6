#include "html.h"

#include "picture.h"
#include "report.h"

#include <stdlib.h>
#include <string.h>

enum { ROW = 28, LINKS = 110 }; /* the height of a line, the width of the links between the two screens */

static const char HEAD[] =
#include "page.inc"
    ;

void html_text(struct text *out, struct slice text)
{
    for (size_t i = 0; i < text.len; i++) {
        char c = text.at[i];
        switch (c) {
        case '<':
            text_add(out, "&lt;");
            break;
        case '>':
            text_add(out, "&gt;");
            break;
        case '&':
            text_add(out, "&amp;");
            break;
        case '"':
            text_add(out, "&quot;");
            break;
        default:
            text_add(out, "%c", c >= ' ' && c < 127 ? c : c == '\t' ? ' ' : '?');
        }
    }
}

static void add_word(struct text *out, const char *word)
{
    struct slice text = {word, strlen(word)};
    html_text(out, text);
}

/* A line of one of the two screens, with its whole text when the pointer rests on it. */
static void add_item(struct text *out, const char *id, size_t number, struct slice text, const char *style)
{
    text_add(out, "<li id=\"%s%zu\" class=\"%s\" title=\"", id, number, style);
    html_text(out, text);
    text_add(out, "\"><b>%zu</b><code>", number);
    html_text(out, text);
    text_add(out, "</code>");
}

static const char *const STYLES[] = {"kept", "merged", "dropped", "bad"};

static void add_typed(struct text *out, const struct tidied *tidied)
{
    const struct build *build = tidied->build;
    text_add(out, "<section><h3>as typed</h3><ul>\n");
    for (size_t i = 0; i < build->line_count; i++) {
        add_item(out, "typed", build->lines[i].number, build->lines[i].text, STYLES[tidied->fates[i].fate]);
        text_add(out, "<i>");
        add_fate_text(out, tidied, i);
        text_add(out, "</i></li>\n");
    }
    text_add(out, "</ul></section>\n");
}

/* The typed lines behind a tidied one. */
static void add_origin(struct text *out, const struct build *build, const struct tidied_line *line)
{
    struct text origin = {NULL, 0, 0};
    add_origin_text(&origin, build, line);
    if (origin.len > 0) {
        struct slice text = {origin.bytes, origin.len};
        html_text(out, text);
    }
    text_free(&origin);
}

static void add_tidied(struct text *out, const struct tidied *tidied)
{
    const char *usual = tidied->answer == SCREEN_NOTHING_PASSES ? "bad" : "tidied";
    text_add(out, "<section><h3>as tidied</h3><ul>\n");
    for (size_t i = 0; i < tidied->line_count; i++) {
        const struct tidied_line *line = &tidied->lines[i];
        struct slice text = {line->text.bytes, line->text.len};
        add_item(out, "tidied", i + 1, text, line->opened ? "opened" : usual);
        text_add(out, "<i>");
        add_origin(out, tidied->build, line);
        text_add(out, "</i></li>\n");
    }
    text_add(out, "</ul></section>\n");
}

/* From each typed line to what it became. */
static void add_links(struct text *out, const struct tidied *tidied)
{
    size_t rows = tidied->build->line_count > tidied->line_count ? tidied->build->line_count : tidied->line_count;
    text_add(out, "<svg class=\"links\" width=\"%d\" height=\"%zu\" aria-hidden=\"true\">", LINKS, rows * ROW);
    for (size_t i = 0; i < tidied->build->line_count; i++) {
        const struct typed_fate *fate = &tidied->fates[i];
        bool in_the_way = fate->fate == FATE_IN_THE_WAY;
        size_t count = in_the_way ? 1 : fate->lines.count;
        for (size_t j = 0; j < count; j++) {
            size_t from = i * ROW + ROW / 2, to = ((in_the_way ? 1 : fate->lines.at[j]) - 1) * ROW + ROW / 2;
            text_add(out, "<path class=\"%s\" d=\"M0 %zuC%d %zu %d %zu %d %zu\"/>", STYLES[fate->fate], from, LINKS / 2,
                     from, LINKS / 2, to, LINKS, to);
        }
    }
    text_add(out, "</svg>\n");
}

static void add_chain(struct text *out, const struct tidied *tidied, const struct run_files *files)
{
    const struct outcome *outcome = files->outcome;
    const struct run *runs[2] = {&outcome->typed, &outcome->copied};
    const char *before = "<p>Unknown as typed for a null in ";
    text_add(out, "<h2>");
    add_word(out, files->chain_name);
    text_add(out, ": %zu row%s</h2>\n<table><tr><th></th><th>passed</th><th>false</th><th>unknown</th></tr>\n",
             files->chain->rows, files->chain->rows == 1 ? "" : "s");
    for (unsigned i = 0; i < 2; i++)
        text_add(out, "<tr><th>%s</th><td>%zu</td><td>%zu</td><td>%zu</td></tr>\n", i == 0 ? "as typed" : "as tidied",
                 runs[i]->counts[2], runs[i]->counts[0], runs[i]->counts[1]);
    text_add(out, "</table>\n");
    for (size_t i = 0; i < tidied->build->lent.table_len; i++)
        if (outcome->unknown_by[i] > 0) {
            text_add(out, "%s%s (%zu)", before, tidied->build->columns[i].name, outcome->unknown_by[i]);
            before = ", ";
        }
    text_add(out, "%s<p class=\"%s\">%s</p>\n", before[0] == ',' ? ".</p>\n" : "", outcome->same ? "good" : "bad",
             outcome->same ? "The same rows pass as typed and as tidied." : "NOT THE SAME ROWS PASS.");
}

static void add_row(struct text *out, const struct tidied *tidied, const struct shown_row *row)
{
    struct text said = {NULL, 0, 0};
    text_add(out, "<h2>A row that passes</h2>\n");
    if (row_is_shown(row)) {
        text_add(out, "<table id=\"row\">\n");
        for (size_t i = 0; i < tidied->build->lent.table_len; i++) {
            text_add(out, "<tr><th>%s</th><td>", tidied->build->columns[i].name);
            add_cell_text(out, tidied, row, i);
            text_add(out, "</td></tr>\n");
        }
        text_add(out, "</table>\n");
    }
    add_row_text(&said, tidied, row);
    if (said.len > 0)
        text_add(out, "<p class=\"key\">%s</p>\n", said.bytes);
    text_free(&said);
}

/* A column's name and type, and the lines on it that the picture cannot show. */
static void add_caption(struct text *out, const struct tidied *tidied, size_t column)
{
    struct numbers undrawn = {NULL, 0, 0};
    const char *name = tidied->build->columns[column].name;
    undrawn_lines(&undrawn, tidied, column);
    text_add(out, "<figure id=\"%s\"><figcaption>%s <small>%s", name, name,
             type_text(tidied->build->lent.table[column]));
    if (undrawn.count > 0) {
        text_add(out, "; not drawn: line%s ", undrawn.count == 1 ? "" : "s");
        add_numbers(out, &undrawn);
    }
    text_add(out, "</small></figcaption>\n");
    free(undrawn.at);
}

static void add_columns(struct text *out, const struct tidied *tidied, const struct run_files *files)
{
    text_add(out, "<h2>Columns</h2>\n<p class=\"key\"><span class=\"ring closed\"></span> belongs to the range "
                  "<span class=\"ring open\"></span> does not");
    if (files->chain != NULL)
        text_add(out, " <span class=\"dot passed\"></span> rows that pass <span class=\"dot failed\"></span> "
                      "rows that do not");
    text_add(out, "</p>\n<div class=\"columns\">\n");
    for (size_t i = 0; i < tidied->build->lent.table_len; i++)
        if (has_picture(tidied, files, i)) {
            add_caption(out, tidied, i);
            picture(out, tidied, files, i);
            text_add(out, "</figure>\n");
        }
    text_add(out, "</div>\n");
}

void html_page(struct text *out, const struct tidied *tidied, const struct run_files *files)
{
    text_add(out, "%s", HEAD);
    text_add(out, "<title>");
    add_word(out, files->screen);
    text_add(out, ", tidied</title>\n</head>\n<body>\n<h1>");
    add_word(out, files->screen);
    text_add(out, "</h1>\n<p class=\"%s\">", tidied->answer == SCREEN_NOTHING_PASSES ? "bad" : "good");
    add_answer(out, tidied);
    text_add(out, "</p>\n<div class=\"lines\">\n");
    add_typed(out, tidied);
    add_links(out, tidied);
    add_tidied(out, tidied);
    text_add(out, "</div>\n");
    if (files->row != NULL)
        add_row(out, tidied, files->row);
    if (files->chain != NULL)
        add_chain(out, tidied, files);
    add_columns(out, tidied, files);
    text_add(out, "<footer>tidy %s</footer>\n</body>\n</html>\n", SCREEN_VERSION);
}
