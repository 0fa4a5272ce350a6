/*
 * Showing a row and checking one, on 3 lines and on 128: bounds, excluded values, lists, equalities that carry them. Showing
 * merges the lines once, so beside it stands screen_rewrite of the same screen, which does too; goals: no slower, and the
 * slowest within 47 ms of processor time. Checking stands beside the row test in plain C of the same row in whole numbers,
 * with all of its checks; goal: within 2x.
 */
#define _POSIX_C_SOURCE 199309L
#include "lines.h"
#include "measure.h"
#include "plain.h"

enum { LINES = 128, DESK_MS = 47 };

static uint8_t row[16 * 64], values[8 * 64], scratch[16 * 4096];
static uint64_t nulls;
static unsigned met, goals;
static double slowest; /* to show, in milliseconds of processor time, the least of some calls */

static uint64_t show_ours(void)
{
    return screen_lent_show_row(&now.s, row, sizeof row, &nulls);
}

static uint64_t rewrite_ours(void)
{
    static uint8_t text[SCREEN_MAX_REASONS_BYTES];
    uint64_t root = 0, used = 0, passes = 0, length = 0;
    return screen_rewrite(now.table, now.s.table_len, scratch, sizeof scratch, now.pool, now.s.pool_len, now.text,
                          now.s.text_len, now.s.used, now.s.root, text, sizeof text, &root, &used, &length, &passes);
}

static uint64_t check_ours(void)
{
    return screen_lent_check_row(&now.s, row, 16 * now.s.table_len, nulls);
}

static uint64_t check_plain(void)
{
    return plain_test_row(&now.s, values, 8 * now.s.table_len, nulls);
}

/* The row shown in whole numbers: of a half the lower one. That it passes too is not asked for. */
static void make_values(void)
{
    for (uint64_t c = 0; c < now.s.table_len; c++)
        screen_store_value(values + 8 * c, screen_whole_at(row, c) - (screen_half_at(row, c) < 0));
}

static double show_ms(void)
{
    double least = 0;
    for (unsigned i = 0; i < 5; i++) {
        struct timespec from, to;
        clock_gettime(CLOCK_PROCESS_CPUTIME_ID, &from);
        measure_sink += show_ours();
        clock_gettime(CLOCK_PROCESS_CPUTIME_ID, &to);
        double ms = (double)(to.tv_sec - from.tv_sec) * 1e3 + (double)(to.tv_nsec - from.tv_nsec) / 1e6;
        least = i == 0 || ms < least ? ms : least;
    }
    return least;
}

static int beside(const char *name, unsigned rounds, unsigned times)
{
    static struct taken taken;
    const work works[4] = {show_ours, rewrite_ours, check_ours, check_plain};
    char title[100];
    now.s.root = top;
    memcpy(scratch, now.records, sizeof scratch); /* what rewriting adds stands behind the used records */
    if (show_ours() != SCREEN_ROW_SHOWN || check_ours() != SCREEN_PASSES || screen_refused((uint32_t)rewrite_ours())) {
        printf("%s: other answers than expected\n", name);
        return 1;
    }
    make_values();
    measure(&taken, works, 4, rounds, times);
    snprintf(title, sizeof title, "show a row, %s", name);
    met += print_goal(title, taken.by[0], taken.by[1], rounds, "rewriting", 1.0);
    snprintf(title, sizeof title, "check a row, %s", name);
    met += print_goal(title, taken.by[2], taken.by[3], rounds, "plain C", 2.0);
    goals += 2;
    double ms = show_ms();
    slowest = ms > slowest ? ms : slowest;
    return 0;
}

int main(void)
{
    int other = 0;
    begin(2);
    compare(SCREEN_OP_GT, 0, 3);
    compare(SCREEN_OP_LT, 0, 9);
    compare(SCREEN_OP_NOT_EQ, 1, 5);
    other |= beside("3 lines", ROUNDS, 100);
    begin(2);
    chain(2);
    compare(SCREEN_OP_GT, 0, 3);
    list(1, 0, 0);
    other |= beside("3 lines, an equality and a list of 100", ROUNDS, 100);
    begin(64);
    while (lines < LINES)
        compare(lines % 2 ? SCREEN_OP_LT : SCREEN_OP_GT, lines / 2, lines % 2 ? 9 : 3);
    other |= beside("128 bounds on 64 columns", ROUNDS, 5);
    begin(64);
    while (lines < LINES)
        compare(SCREEN_OP_NOT_EQ, 0, lines);
    other |= beside("128 excluded values on one column", ROUNDS, 5);
    begin(64);
    chain(64);
    while (lines < LINES)
        compare(SCREEN_OP_GT, lines % 64, lines);
    other |= beside("63 equalities, 65 bounds", 21, 1);
    begin(64);
    chain(64);
    while (lines < LINES)
        list(lines % 64, 0, 0);
    other |= beside("63 equalities, 65 equal lists of 100 values", 21, 1);
    begin(64);
    chain(64);
    while (lines < LINES)
        list(lines % 64, (int64_t)lines * LIST, 1);
    other |= beside("63 equalities, 65 negated lists of 100 values", 21, 1);
    printf("the slowest row to show %40.3f ms   goal %d ms %s\n", slowest, DESK_MS, slowest <= DESK_MS ? "met" : "missed");
    printf("%u of %u goals met\n", met + (slowest <= DESK_MS), goals + 1);
    return other;
}
