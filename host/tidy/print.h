/* Records back to the text that parse.h describes. */
#ifndef PRINT_H
#define PRINT_H

#include "build.h"

/* One record's text. */
void add_test(struct text *text, const struct build *build, uint64_t record);

void add_value(struct text *text, const struct screen_lent *screen, unsigned type, int64_t value);

/* The sign of a comparison or a division, or the word of logic. */
const char *operator_text(unsigned code);

/* A row of conjuncts: the records that a root joins by And and LogicalAnd, from left to right. */
struct conjuncts {
    uint64_t *records;
    size_t room;
    size_t count;
};

/* Adds those of a root that the library accepted. */
void add_conjuncts(struct conjuncts *conjuncts, const struct screen_lent *screen, uint64_t root);

#endif
