#include "table.h"

#include <stdlib.h>
#include <string.h>

enum { HANGING = 2, GAP = 2, LEAST = 16, RIGHT = 44 }; /* widths: of an indent, between columns, of a column */

struct table_row {
    struct text left, right;
    size_t margin;
    enum style style;
};

void table_add(struct table *table, struct text left, size_t margin, struct text right, enum style style)
{
    struct table_row row = {left, right, margin, style};
    table->rows = grown(table->rows, &table->room, table->count + 1, sizeof row);
    table->rows[table->count++] = row;
}

/*
 * How much of the text stands on the next line: to the last blank or comma within the width that is past the margin,
 * else all of the width.
 */
static size_t fitting(struct slice text, size_t width, size_t margin)
{
    size_t len = width;
    if (text.len <= width)
        return text.len;
    while (len > margin && !is_blank(text.at[len]) && text.at[len - 1] != ',')
        len--;
    return len <= margin ? width : len;
}

/* The text's lines, each ended by a line end; those after the first begin a little right of the margin. */
static void add_lines(struct text *out, struct slice text, size_t width, size_t margin)
{
    size_t inside = 0, indent = margin + HANGING + LEAST / 2 > width ? 0 : margin + HANGING;
    do {
        size_t taken = fitting(text, width - inside, inside == 0 ? margin : 0), len = taken;
        while (len > 0 && is_blank(text.at[len - 1]))
            len--;
        text_add(out, "%*s%.*s\n", (int)inside, "", (int)len, text.at == NULL ? "" : text.at);
        text.at += taken;
        text.len -= taken;
        text = trimmed(text);
        inside = indent;
    } while (text.len > 0);
}

static const char *const CODES[] = {"", "\33[32m", "\33[33m", "\33[2m", "\33[1;31m"};

void add_styled(struct text *out, struct page page, enum style style, const char *text)
{
    bool paint = page.colored && style != STYLE_PLAIN && text[0] != '\0';
    text_add(out, "%s%s%s", paint ? CODES[style] : "", text, paint ? "\33[0m" : "");
}

static void add_pair(struct text *out, struct page page, struct slice left, struct slice right, size_t width,
                     enum style style)
{
    struct text painted = {NULL, 0, 0};
    text_add(&painted, "%.*s", (int)right.len, right.at == NULL ? "" : right.at);
    text_add(out, "%.*s", (int)left.len, left.at == NULL ? "" : left.at);
    if (right.len > 0) {
        text_add(out, "%*s", (int)(width - left.len + GAP), "");
        add_styled(out, page, style, painted.bytes);
    }
    text_add(out, "\n");
    text_free(&painted);
}

static void add_row(struct text *out, struct page page, const struct table_row *row, size_t left_width,
                    size_t right_width)
{
    struct text left = {NULL, 0, 0}, right = {NULL, 0, 0};
    struct slice left_text = {row->left.bytes, row->left.len}, right_text = {row->right.bytes, row->right.len};
    add_lines(&left, left_text, left_width, row->margin);
    add_lines(&right, right_text, right_width, 0);
    struct slice left_rest = {left.bytes, left.len}, right_rest = {right.bytes, right.len};
    for (;;) {
        struct slice typed = {NULL, 0}, became = {NULL, 0};
        bool more = next_line(&left_rest, &typed);
        more |= next_line(&right_rest, &became);
        if (!more)
            break;
        add_pair(out, page, typed, became, left_width, row->style);
    }
    text_free(&left);
    text_free(&right);
}

static void free_row(struct table_row *row)
{
    text_free(&row->left);
    text_free(&row->right);
}

static size_t at_most(size_t value, size_t most)
{
    return value > most ? most : value;
}

static void add_rule(struct text *out, size_t width)
{
    for (size_t i = 0; i < width; i++)
        text_add(out, "-");
}

void table_end(struct table *table, struct text *out, struct page page, const char *left, const char *right)
{
    struct table_row titles = {{NULL, 0, 0}, {NULL, 0, 0}, 0, STYLE_PLAIN};
    size_t left_width = strlen(left), right_width = strlen(right);
    for (size_t i = 0; i < table->count; i++) {
        left_width = table->rows[i].left.len > left_width ? table->rows[i].left.len : left_width;
        right_width = table->rows[i].right.len > right_width ? table->rows[i].right.len : right_width;
    }
    right_width = at_most(right_width, RIGHT);
    if (left_width + GAP + right_width > page.width)
        right_width = at_most(right_width, page.width / 3 > LEAST ? page.width / 3 : LEAST);
    size_t most = page.width > right_width + GAP + LEAST ? page.width - right_width - GAP : LEAST;
    left_width = at_most(left_width, most);
    text_add(&titles.left, "%s", left);
    text_add(&titles.right, "%s", right);
    add_row(out, page, &titles, left_width, right_width);
    free_row(&titles);
    add_rule(out, left_width);
    text_add(out, "%*s", GAP, "");
    add_rule(out, right_width);
    text_add(out, "\n");
    for (size_t i = 0; i < table->count; i++) {
        add_row(out, page, &table->rows[i], left_width, right_width);
        free_row(&table->rows[i]);
    }
    free(table->rows);
}

void add_wrapped(struct text *out, struct page page, enum style style, const struct text *text)
{
    struct text lines = {NULL, 0, 0};
    struct slice all = {text->bytes, text->len};
    add_lines(&lines, all, page.width > LEAST ? page.width : LEAST, 0);
    lines.bytes[lines.len - 1] = '\0'; /* the last line end is not painted */
    add_styled(out, page, style, lines.bytes);
    text_add(out, "\n");
    text_free(&lines);
}
