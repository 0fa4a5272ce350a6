/* Two columns of text, wrapped to the width of the page at blanks and commas, with colours or without. */
#ifndef TABLE_H
#define TABLE_H

#include "text.h"

struct page {
    size_t width;
    bool colored;
};

enum style { STYLE_PLAIN, STYLE_GOOD, STYLE_CHANGED, STYLE_GONE, STYLE_BAD };

struct table {
    struct table_row *rows;
    size_t room;
    size_t count;
};

/* The texts become the table's. A wrapped left text goes on two places right of `margin`. */
void table_add(struct table *table, struct text left, size_t margin, struct text right, enum style style);

/* Adds the table, a rule under each of its titles, and frees it. */
void table_end(struct table *table, struct text *out, struct page page, const char *left, const char *right);

/* One long line, wrapped. */
void add_wrapped(struct text *out, struct page page, enum style style, const struct text *text);

/* A part in a colour, if the page has them. */
void add_styled(struct text *out, struct page page, enum style style, const char *text);

#endif
