/* The library's calls on a screen, and what became of each line. What is printed of it: report.h, json.h, html.h. */
#ifndef TIDY_H
#define TIDY_H

#include "print.h"

/* Numbers of lines, rising. */
struct numbers {
    size_t *at;
    size_t room;
    size_t count;
};

void numbers_add(struct numbers *numbers, size_t number);

enum fate {
    FATE_KEPT,      /* it stands among the tidied lines */
    FATE_MERGED,    /* tidied lines that say more hold its value, or another typed line says the same */
    FATE_DROPPED,   /* because of tidied lines that say more, or nothing passes */
    FATE_IN_THE_WAY /* nothing passes, and it is the first line without which some row does */
};

/* What became of a typed line. */
struct typed_fate {
    enum fate fate;
    struct numbers lines; /* the tidied lines that it became, from 1; none where nothing passes */
};

/* A line of the tidied screen. */
struct tidied_line {
    uint64_t record;
    struct text text;
    struct numbers typed;  /* the typed lines on its columns, by their number in the file */
    struct numbers behind; /* those behind it, as places among the typed lines: that first gave its value, or have it */
    bool opened; /* its end only became open: strike < 5300 from strike <= 5300 and strike != 5300 */
};

/* What rewriting answered, and the screens. */
struct tidied {
    const struct build *build;
    uint32_t answer; /* SCREEN_.., or a refusal */
    uint64_t passes; /* over the equalities, with an answer that is no refusal */
    uint8_t *reasons; /* the library's text of reasons */
    uint64_t reasons_len;
    struct screen_lent typed, returned;
    struct screen_lent copied; /* what the root of `returned` reaches, in a buffer of its own: the screen to run */
    struct tidied_line *lines; /* of a screen that is not refused */
    size_t line_count;
    struct typed_fate *fates; /* one a typed line */
    uint32_t way;             /* where nothing passes, what screen_line_in_the_way answered */
    size_t way_line;          /* with SCREEN_LINE_FOUND: the typed line, from 0 */
    uint64_t columns;         /* that are read, a bit each */
    uint64_t column_count;
};

void tidy(struct tidied *tidied, struct build *build);

void tidied_free(struct tidied *tidied);

/* The word for an answer that is no refusal: unchanged, nothing passes, rewritten. */
const char *answer_text(uint32_t answer);

/* Tells why the library refused the screen: with the line that is about it, if it is about one. */
void refusal_told(const struct tidied *tidied, struct faults *faults);

#endif
