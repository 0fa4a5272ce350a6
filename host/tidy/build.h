/* A screen under construction: its columns' names, its lines as typed, and its bytes as the library is lent them. */
#ifndef BUILD_H
#define BUILD_H

#include "screen_build.h"
#include "text.h"

#include <stdint.h>

enum { NAME_MAX_LENGTH = 40 };

struct column {
    char name[NAME_MAX_LENGTH + 1];
    size_t line; /* where it is declared, from 1 */
};

/* A line as it was typed. */
struct typed_line {
    size_t number; /* in the file, from 1 */
    struct slice text;
    uint32_t root;
    uint64_t used;   /* records up to the end of this line */
    size_t pool_len; /* bytes of the pool up to there */
    size_t text_len; /* bytes of symbols up to there */
};

struct build {
    struct screen_lent lent; /* all columns, records and values that are typed; the library says if they are too many */
    struct column *columns;
    size_t columns_room;
    struct typed_line *lines;
    size_t lines_room;
    size_t line_count;
    uint32_t top; /* all lines joined */
    bool loaded;         /* from a saved screen, which has no typed lines: then they are its conjuncts */
    struct text printed; /* what these say */
};

void build_free(struct build *build);

/* Makes room for what a line of this length can hold: each record and each value takes a character at least. */
void build_room(struct build *build, size_t line_len);

/* Makes room for as many records as a screen can have, so that rewriting is limited by that number alone. */
void build_lend(struct build *build);

/* The number of the column of this name; the number of columns if there is none. */
size_t find_column(const struct build *build, struct slice name);

/* The column whose name is nearest to this one; the number of columns if none is near. */
size_t nearest_column(const struct build *build, struct slice name);

void add_column(struct build *build, struct slice name, uint8_t type, size_t line);

/* Is it // or %, whose value is an Int? */
bool is_division(struct screen_record fields);

/* The type of a record's value; 0 of a null or an empty list that has none yet. */
unsigned type_of(const struct build *build, uint32_t record);

/*
 * Nulls and empty lists are typed without a type: those among the inputs get the type of the first that has one, or
 * `otherwise`. False if that is 0 and none has one.
 */
bool fit_types(struct build *build, const uint32_t *inputs, size_t count, uint8_t otherwise);

/* Joins a finished line to the lines before it. */
void add_line(struct build *build, size_t number, struct slice text, uint32_t root);

#endif
