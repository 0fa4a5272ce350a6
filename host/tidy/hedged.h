/* A chain through the hedge list: blocks of at most 1,024 rows, added up in one running tally, and its two views. */
#ifndef HEDGED_H
#define HEDGED_H

#include "screen_build.h"

#include <stdbool.h>

struct chain;

struct hedged {
    uint8_t *passes; /* a row each: 1 if its number stands in the list of its block */
    struct screen_tally tally;
    struct {
        uint64_t passed, not_passed;
    } trader;
    struct {
        uint64_t passed, is_false, unknown;
    } risk;
    uint32_t refusal; /* of the last block refused; 0 if none was */
};

void hedged_run(struct hedged *hedged, const struct chain *chain, const struct screen_lent *screen);

void hedged_free(struct hedged *hedged);

/* Do two chains' views tell the same? */
bool same_trader_view(const struct hedged *a, const struct hedged *b);
bool same_risk_view(const struct hedged *a, const struct hedged *b);

#endif
