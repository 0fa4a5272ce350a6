#include "hedged.h"

#include "chain.h"

#include <stdlib.h>
#include <string.h>

/* The rows from `first` on; their numbers in the list count from there. */
static void run_block(struct hedged *hedged, const struct chain *chain, const struct screen_lent *screen, size_t first,
                      size_t rows)
{
    uint8_t list[SCREEN_PLACE_BYTES * SCREEN_MAX_ROWS];
    uint64_t count = 0;
    struct screen_lent lent = chain_screen(chain, screen);
    uint32_t answer = screen_lent_hedge_list(&lent, chain_row(chain, first), chain_row_len(chain) * rows,
                                             chain->nulls + first, rows, list, sizeof list, &hedged->tally, &count);
    if (screen_refused(answer)) {
        hedged->refusal = answer;
        return;
    }
    for (uint64_t place = 0; place < count; place++)
        hedged->passes[first + screen_listed(list, place)] = 1;
}

void hedged_run(struct hedged *hedged, const struct chain *chain, const struct screen_lent *screen)
{
    size_t room = 0;
    memset(hedged, 0, sizeof *hedged);
    hedged->passes = grown(NULL, &room, chain->rows + 1, 1);
    memset(hedged->passes, 0, chain->rows + 1);
    for (size_t first = 0; first < chain->rows; first += SCREEN_MAX_ROWS) {
        size_t left = chain->rows - first;
        run_block(hedged, chain, screen, first, left < SCREEN_MAX_ROWS ? left : SCREEN_MAX_ROWS);
    }
    uint32_t trader = screen_trader_view(&hedged->tally, &hedged->trader.passed, &hedged->trader.not_passed);
    uint32_t risk = screen_risk_view(&hedged->tally, &hedged->risk.passed, &hedged->risk.is_false, &hedged->risk.unknown);
    if (screen_refused(trader) || screen_refused(risk))
        abort(); /* both are promised of a tally that only hedge lists have written */
}

void hedged_free(struct hedged *hedged)
{
    free(hedged->passes);
}

bool same_trader_view(const struct hedged *a, const struct hedged *b)
{
    return a->trader.passed == b->trader.passed && a->trader.not_passed == b->trader.not_passed;
}

bool same_risk_view(const struct hedged *a, const struct hedged *b)
{
    return a->risk.passed == b->risk.passed && a->risk.is_false == b->risk.is_false && a->risk.unknown == b->risk.unknown;
}
