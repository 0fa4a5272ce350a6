/* What tidy prints for people. */
#ifndef REPORT_H
#define REPORT_H

#include "chain.h"
#include "table.h"

/* What became of a typed line, in words: kept as 5, merged into 8, 9, dropped because of 10. */
void add_fate_text(struct text *text, const struct tidied *tidied, size_t line);

/* 1, 2, 3 */
void add_numbers(struct text *text, const struct numbers *numbers);

/* The typed lines behind a tidied one, and whether its end was opened: 22: strike >= 4800; end opened. */
void add_origin_text(struct text *text, const struct build *build, const struct tidied_line *line);

/* The rows that pass, by their line in the file: neighbours as 12-15. */
void add_passing(struct text *text, const struct chain *chain, const struct run *run);

/* What rewriting did, in a sentence. */
void add_answer(struct text *text, const struct tidied *tidied);

/* Each typed line and what became of it, each tidied line and the typed ones behind it, the columns read. */
void report_screen(struct text *out, struct page page, const struct tidied *tidied);

/* How many passes over the equalities merging took. */
void report_passes(struct text *out, const struct tidied *tidied);

/* The rows that pass, before and after. */
void report_chain(struct text *out, struct page page, const struct tidied *tidied, const struct chain *chain,
                  const struct outcome *outcome, const char *name);

/* The tidied screen alone, as tidy reads it. */
void report_only(struct text *out, const struct tidied *tidied);

/* Int, Day or Truth. */
const char *type_text(unsigned type);

#endif
