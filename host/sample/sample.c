/*
 * A trader's screen over a small option chain, checked, merged, copied out and run row by row:
 *
 *     strike at least 90
 *     strike at most 110
 *     strike between 95 and 105
 *     expiry not after 2026-12-18
 *     surface_build == spot_build
 */
#include "screen_build.h"

#include <stdio.h>

enum { STRIKE, EXPIRY, SURFACE_BUILD, SPOT_BUILD, COLUMNS };

static const char *const NAMES[COLUMNS] = {"strike", "expiry", "surface_build", "spot_build"};
static const uint8_t TYPES[COLUMNS] = {SCREEN_TYPE_INT, SCREEN_TYPE_DAY, SCREEN_TYPE_INT, SCREEN_TYPE_INT};

/* Column against column or value; a record is put after those that it names. */
static uint32_t compare(struct screen_lent *s, unsigned op, uint32_t column, uint32_t other)
{
    return screen_put_binary(s, op, screen_put_column(s, column), other);
}

/* The record put last joins the lines and is the root. */
static void put_screen(struct screen_lent *s)
{
    for (unsigned c = 0; c < COLUMNS; c++)
        screen_declare(s, TYPES[c]);
    uint32_t low = compare(s, SCREEN_OP_GT_EQ, STRIKE, screen_put_int(s, 90));
    uint32_t high = compare(s, SCREEN_OP_LT_EQ, STRIKE, screen_put_int(s, 110));
    uint32_t from = screen_put_int(s, 95), to = screen_put_int(s, 105);
    uint32_t range = screen_put_between(s, SCREEN_CLOSED_BOTH, screen_put_column(s, STRIKE), from, to);
    uint32_t day = compare(s, SCREEN_OP_LT_EQ, EXPIRY, screen_put_day(s, screen_day(2026, 12, 18)));
    uint32_t builds = compare(s, SCREEN_OP_EQ, SURFACE_BUILD, screen_put_column(s, SPOT_BUILD));
    uint32_t strikes = screen_put_and(s, screen_put_and(s, low, high), range);
    screen_put_and(s, screen_put_and(s, strikes, day), builds);
}

struct option {
    int64_t values[COLUMNS];
    uint64_t nulls; /* bit i: column i is null, and its value zero */
};

static const struct option CHAIN[] = {
    {{90, 20777, 7, 7}, 0},
    {{95, 20777, 7, 7}, 0},
    {{100, 20805, 7, 7}, 0},
    {{100, 20806, 7, 7}, 0},
    {{105, 20805, 6, 7}, 0},
    {{105, 20805, 0, 7}, 1u << SURFACE_BUILD},
};

static const char *truth_text(uint32_t answer)
{
    switch (answer) {
    case SCREEN_TRUE:
        return "passes";
    case SCREEN_UNKNOWN:
        return "unknown, so it does not pass";
    case SCREEN_FALSE:
        return "does not pass";
    default:
        return screen_refusal_text(answer);
    }
}

/* A sentence for each answer of screen_rewrite that is no refusal. */
static const char *rewrite_text(uint32_t answer)
{
    switch (answer) {
    case SCREEN_UNCHANGED:
        return "nothing to merge";
    case SCREEN_NOTHING_PASSES:
        return "no row can pass";
    default:
        return "merged";
    }
}

static int refuse(uint32_t answer)
{
    printf("refused, number %u: %s\n", (unsigned)answer, screen_refusal_text(answer));
    return 1;
}

int main(void)
{
    uint8_t table[COLUMNS], records[16 * 64], reached[16 * 64]; /* with room for the merged screen */
    struct screen_lent s;
    uint64_t columns = 0, count = 0;
    screen_begin(&s, table, sizeof table, records, sizeof records, NULL, 0, NULL, 0);
    put_screen(&s);
    uint32_t answer = screen_lent_columns_read(&s, &columns, &count);
    if (screen_refused(answer))
        return refuse(answer);
    printf("accepted; it reads %u columns:", (unsigned)count);
    for (unsigned c = 0; c < COLUMNS; c++)
        if (columns >> c & 1)
            printf(" %s", NAMES[c]);
    answer = screen_lent_rewrite(&s);
    if (screen_refused(answer))
        return refuse(answer);
    printf("\n%s; %u records are used\n", rewrite_text(answer), (unsigned)s.used);
    answer = screen_copy_reached(&s, reached, sizeof reached, &s);
    if (screen_refused(answer))
        return refuse(answer);
    printf("copied out; %u records are used\n", (unsigned)s.used);
    for (unsigned i = 0; i < sizeof CHAIN / sizeof *CHAIN; i++) {
        uint8_t row[8 * COLUMNS];
        for (unsigned c = 0; c < COLUMNS; c++)
            screen_store_value(row + 8 * c, CHAIN[i].values[c]);
        printf("row %u: %s\n", i, truth_text(screen_lent_test_row(&s, row, sizeof row, CHAIN[i].nulls)));
    }
    return 0;
}
