/*
 * The row test beside plain C: one row of a 10-line screen (39 records), and one row of a screen of 4,096 records.
 *
 * The library's evaluation alone is the time of the call less the time of the same call with a row that is refused at
 * its very last value: that call has made all checks and evaluates nothing. Plain C's evaluation is called by itself.
 * Goal: the evaluation alone within 1.5x.
 *
 * The last line is a desk's screen, one row as typed, as rewriting returned it, and as screen_copy_reached copied that
 * out. Every call checks all used records, so the screen returned, which has the typed records below its own, is the
 * slowest; the copy is what a host should run.
 */
#define _POSIX_C_SOURCE 199309L
#include "make.h"
#include "measure.h"
#include "plain.h"

enum { COLUMNS = 8 };

static struct made now;
static uint8_t row[8 * COLUMNS];
static uint8_t refused[8 * COLUMNS];

/* A row under which every line below is true: column i holds 10 + i. The refused one has no Day in the last column. */
static void make_rows(void)
{
    for (unsigned i = 0; i < COLUMNS; i++)
        screen_store_value(row + 8 * i, 10 + i);
    memcpy(refused, row, sizeof row);
    refused[8 * COLUMNS - 1] = 1;
}

static uint32_t some_line(uint32_t n)
{
    uint32_t number = n % COLUMNS;
    switch (n % 10) {
    case 1: return range(&now, number, 0, 50);
    case 3: return member(&now, number, 6 + number, 5);
    case 5: return screen_put_is_not_null(&now.s, screen_put_column(&now.s, number));
    case 7: return line(&now, SCREEN_OP_NOT_EQ, number, 3);
    case 9: return line(&now, SCREEN_OP_EQ, number, 10 + number);
    default: return line(&now, n % 4 == 0 ? SCREEN_OP_GT : SCREEN_OP_GT_EQ, number, 2);
    }
}

static void make_lines(uint64_t most_records, uint32_t most_lines)
{
    uint32_t top;
    make(&now, COLUMNS, SCREEN_TYPE_DAY);
    top = some_line(0);
    for (uint32_t n = 1; n < most_lines && now.s.used + 5 <= most_records; n++)
        top = screen_put_and(&now.s, top, some_line(n));
}

static uint64_t call_ours(void) { return screen_lent_test_row(&now.s, row, sizeof row, 0); }
static uint64_t call_refused(void) { return screen_lent_test_row(&now.s, refused, sizeof refused, 0); }
static uint64_t call_plain(void) { return plain_test_row(&now.s, row, sizeof row, 0); }
static uint64_t evaluate_plain(void) { return plain_evaluate(&now.s, row, 0); }

static int beside(const char *name, unsigned times)
{
    static struct taken taken;
    const work works[4] = {call_ours, call_refused, call_plain, evaluate_plain};
    double alone[ROUNDS];
    char title[100];
    if (call_ours() != SCREEN_TRUE || call_plain() != SCREEN_TRUE || call_refused() != SCREEN_REFUSED_ROW) {
        printf("%s: other answers than expected\n", name);
        return 1;
    }
    measure(&taken, works, 4, ROUNDS, times);
    snprintf(title, sizeof title, "row test, %s (%u records)", name, (unsigned)now.s.used);
    print_ratio(title, taken.by[0], taken.by[2], ROUNDS, "plain C");
    for (unsigned r = 0; r < ROUNDS; r++)
        alone[r] = taken.by[0][r] - taken.by[1][r];
    snprintf(title, sizeof title, "evaluation alone, %s", name);
    print_ratio(title, alone, taken.by[3], ROUNDS, "plain C");
    return 0;
}

/* --------------------------------------------------------------------------------- as typed, as returned, as copied */

enum { SURFACE, SPOT, STRIKE, EXPIRY, BID, DELTA };

static struct made desk;
static struct screen_lent returned, copied;

static uint32_t desk_line(unsigned n)
{
    struct screen_lent *s = &desk.s;
    switch (n) {
    case 0: return screen_put_binary(s, SCREEN_OP_EQ, screen_put_column(s, SURFACE), screen_put_column(s, SPOT));
    case 1: return range(&desk, STRIKE, 4600, 5400);
    case 2: return line(&desk, SCREEN_OP_LT_EQ, EXPIRY, screen_day(2027, 3, 19));
    case 3: return screen_put_is_not_null(s, screen_put_column(s, BID));
    case 4: return line(&desk, SCREEN_OP_GT_EQ, STRIKE, 4800);
    case 5: return line(&desk, SCREEN_OP_LT_EQ, STRIKE, 5300);
    case 6: return line(&desk, SCREEN_OP_NOT_EQ, STRIKE, 5300);
    case 7: return line(&desk, SCREEN_OP_LT, EXPIRY, screen_day(2027, 3, 19));
    case 8: return screen_put_or(s, line(&desk, SCREEN_OP_GT_EQ, DELTA, 99), line(&desk, SCREEN_OP_LT_EQ, DELTA, -99));
    case 9: return line(&desk, SCREEN_OP_GT_EQ, SPOT, 418);
    case 10: return line(&desk, SCREEN_OP_GT_EQ, SURFACE, 415);
    case 11: return line(&desk, SCREEN_OP_GT, BID, 0);
    case 12: return line(&desk, SCREEN_OP_GT_EQ, BID, 50);
    default: return screen_put_not(s, member(&desk, STRIKE, 5000, 2));
    }
}

static void make_desk(void)
{
    uint32_t top;
    make(&desk, COLUMNS, SCREEN_TYPE_INT);
    desk.table[EXPIRY] = SCREEN_TYPE_DAY;
    top = desk_line(0);
    for (unsigned n = 1; n < 14; n++)
        top = screen_put_and(&desk.s, top, desk_line(n));
}

/* A row that passes. */
static void make_desk_row(void)
{
    static const int64_t values[COLUMNS] = {420, 420, 4900, 20000, 60, -150, 0, 0};
    for (unsigned i = 0; i < COLUMNS; i++)
        screen_store_value(row + 8 * i, values[i]);
}

static uint64_t run_typed(void) { return screen_lent_test_row(&desk.s, row, sizeof row, 0); }
static uint64_t run_returned(void) { return screen_lent_test_row(&returned, row, sizeof row, 0); }
static uint64_t run_copied(void) { return screen_lent_test_row(&copied, row, sizeof row, 0); }

static int three_forms(void)
{
    static struct taken taken;
    static uint8_t reached[16 * SCREEN_MAX_RECORDS];
    const work works[3] = {run_typed, run_returned, run_copied};
    make_desk();
    make_desk_row();
    returned = desk.s;
    if (screen_lent_rewrite(&returned) != SCREEN_REWRITTEN ||
        screen_copy_reached(&returned, reached, sizeof reached, &copied) != SCREEN_ACCEPTED ||
        run_typed() != SCREEN_TRUE || run_returned() != SCREEN_TRUE || run_copied() != SCREEN_TRUE) {
        printf("a desk's screen: other answers than expected\n");
        return 1;
    }
    measure(&taken, works, 3, ROUNDS, 1000);
    printf("row test, a desk's 14 lines: as typed (%u records) %.0f ns, as returned (%u) %.0f ns, as copied (%u) %.0f "
           "ns\n", (unsigned)desk.s.used, measure_median(taken.by[0], ROUNDS), (unsigned)returned.used,
           measure_median(taken.by[1], ROUNDS), (unsigned)copied.used, measure_median(taken.by[2], ROUNDS));
    return 0;
}

int main(void)
{
    int differ = 0;
    make_rows();
    make_lines(4096, 10);
    differ |= beside("10 lines", 1000);
    make_lines(4096, 4096);
    differ |= beside("full screen", 10);
    differ |= three_forms();
    return differ;
}
