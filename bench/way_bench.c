/*
 * Measures screen_line_in_the_way on screens that let nothing pass whichever single line is removed, or but for one of the last
 * lines, so that nearly every line is left out once: lines on one column, lines along a chain of equalities, equalities that
 * stand twice, lists, negated lists and excluded values. Beside it stands one screen_rewrite of the same screen; the goals are
 * 128 times that, and 47 ms. Processor time, the least of some calls.
 */
#define _POSIX_C_SOURCE 199309L
#include "lines.h"

#include <stdio.h>
#include <time.h>

enum { LINES = 128, DESK_MS = 47 };

static unsigned met, goals;
static uint8_t scratch[16 * 4096];

/* Both halves of the chain are impossible, which only the passes find out: then no single line helps. */
static void halves(void)
{
    chain(64);
    compare(SCREEN_OP_GT, 0, 5);
    compare(SCREEN_OP_LT, 31, 5);
    compare(SCREEN_OP_GT, 32, 5);
    compare(SCREEN_OP_LT, 63, 5);
}

static double seconds(void)
{
    struct timespec t;
    clock_gettime(CLOCK_PROCESS_CPUTIME_ID, &t);
    return (double)t.tv_sec + (double)t.tv_nsec / 1e9;
}

static uint32_t answer;

static double line_time(void)
{
    uint64_t line = 0;
    double from = seconds();
    answer = screen_lent_line_in_the_way(&now.s, &line);
    return seconds() - from;
}

static double rewrite_time(void)
{
    static uint8_t text[SCREEN_MAX_REASONS_BYTES];
    uint64_t root = 0, used = 0, passes = 0, length = 0;
    memcpy(scratch, now.records, sizeof scratch);
    double from = seconds();
    uint32_t got = screen_rewrite(now.table, now.s.table_len, scratch, sizeof scratch, now.pool, now.s.pool_len,
                                  now.text, now.s.text_len, now.s.used, now.s.root, text, sizeof text, &root, &used,
                                  &length, &passes);
    return got == SCREEN_NOTHING_PASSES ? seconds() - from : 0;
}

static double least(double (*time)(void))
{
    double best = time();
    for (unsigned i = 0; i < 4; i++) {
        double again = time();
        best = again < best ? again : best;
    }
    return best;
}

static void measure(const char *name, uint32_t expected)
{
    now.s.root = top;
    double one = least(rewrite_time), all = least(line_time);
    int right = answer == expected;
    printf("%-54s %9.3f ms   rewriting %7.3f ms, ratio %5.1f (goal 128)%s\n", name, all * 1e3, one * 1e3,
           one > 0 ? all / one : 0, right ? "" : "   ANOTHER ANSWER");
    goals += 2;
    met += (unsigned)(all <= 128 * one) + (unsigned)(all * 1e3 <= DESK_MS);
}

/* Lists on one column, no equality: a value of the first list is looked for in every other, and only the last two have none
 * of it, or are the only negated ones that have it. */
static void lists_alone(int negated)
{
    begin(1);
    uint32_t low = values_from(0), high = values_from(1000);
    if (negated) {
        listed(0, low, 0);
        listed(0, low, 0);
    }
    while (lines < LINES - 2)
        listed(0, negated ? high : low, negated);
    while (lines < LINES)
        listed(0, negated ? low : high, negated);
}

/* Each equality twice, the second time turned round, so that none of them helps; the bounds come last. */
static void doubled(uint32_t columns)
{
    for (uint32_t c = columns - 1; c-- > 0;) {
        uint32_t left = screen_put_column(&now.s, c);
        join(screen_put_binary(&now.s, SCREEN_OP_EQ, left, screen_put_column(&now.s, c + 1)));
        left = screen_put_column(&now.s, c + 1);
        join(screen_put_binary(&now.s, SCREEN_OP_EQ, left, screen_put_column(&now.s, c)));
    }
}

int main(void)
{
    begin(1);
    while (lines < LINES)
        compare(lines % 2 ? SCREEN_OP_LT : SCREEN_OP_GT, 0, 5);
    measure("128 bounds on one column", SCREEN_NO_LINE);
    begin(64);
    while (lines < LINES)
        compare(lines % 2 ? SCREEN_OP_LT : SCREEN_OP_GT, lines / 2, 5);
    measure("128 bounds on 64 columns", SCREEN_NO_LINE);
    begin(64);
    halves();
    while (lines < LINES)
        compare(lines % 64 < 32 ? SCREEN_OP_GT : SCREEN_OP_LT, lines % 64,
                lines % 64 < 32 ? 4 - (int64_t)lines % 64 : 6 + (int64_t)lines % 64);
    measure("63 equalities, 65 bounds", SCREEN_NO_LINE);
    begin(64);
    halves();
    while (lines < LINES)
        compare(SCREEN_OP_NOT_EQ, lines % 64, 100 + lines);
    measure("63 equalities, 61 excluded values", SCREEN_NO_LINE);
    begin(64);
    chain(64);
    while (lines < LINES)
        list(lines % 64, (int64_t)lines * LIST, 0);
    measure("63 equalities, 65 lists of 100 values", SCREEN_NO_LINE);
    begin(64);
    halves();
    while (lines < LINES)
        list(lines % 64, (int64_t)lines * LIST, 1);
    measure("63 equalities, 61 negated lists of 100 values", SCREEN_NO_LINE);
    begin(64);
    halves();
    while (lines < LINES)
        list(lines % 64, 0, 0);
    measure("63 equalities, 61 equal lists of 100 values", SCREEN_NO_LINE);
    begin(64);
    doubled(63);
    for (unsigned i = 0; i < 2; i++)
        compare(SCREEN_OP_GT, 0, 5), compare(SCREEN_OP_LT, 62, 5);
    measure("62 equalities twice, two contradictions", SCREEN_NO_LINE);
    begin(64);
    doubled(64);
    compare(SCREEN_OP_GT, 0, 5);
    compare(SCREEN_OP_LT, 63, 5);
    measure("63 equalities twice, the line in the way near the end", SCREEN_LINE_FOUND);
    begin(64);
    doubled(33);
    while (lines < LINES - 4)
        list(lines % 33, 0, 0);
    for (unsigned i = 0; i < 4; i++)
        list(i, 1000, 0);
    measure("32 equalities twice, 60 equal lists, 4 others", SCREEN_NO_LINE);
    begin(1);
    compare(SCREEN_OP_GT_EQ, 0, 5), compare(SCREEN_OP_LT_EQ, 0, 5);
    compare(SCREEN_OP_GT_EQ, 0, 5), compare(SCREEN_OP_LT_EQ, 0, 5);
    while (lines < LINES - 2)
        compare(SCREEN_OP_NOT_EQ, 0, 100 + lines);
    compare(SCREEN_OP_NOT_EQ, 0, 5), compare(SCREEN_OP_NOT_EQ, 0, 5);
    measure("124 excluded values on one column", SCREEN_NO_LINE);
    begin(1);
    compare(SCREEN_OP_GT_EQ, 0, 5), compare(SCREEN_OP_GT_EQ, 0, 5);
    while (lines < LINES - 2)
        compare(SCREEN_OP_NOT_EQ, 0, 100 + lines);
    compare(SCREEN_OP_LT, 0, 5), compare(SCREEN_OP_LT, 0, 5);
    measure("124 excluded values that are kept", SCREEN_NO_LINE);
    lists_alone(0);
    measure("126 equal lists of 100 values, 2 others, no equality", SCREEN_NO_LINE);
    lists_alone(1);
    measure("2 lists of 100 values, 126 negated ones, no equality", SCREEN_NO_LINE);
    begin(1);
    uint32_t low = values_from(0);
    while (lines < 2)
        listed(0, low, 0);
    while (lines < LINES - 2)
        compare(SCREEN_OP_NOT_EQ, 0, 1000 + lines);
    while (lines < LINES)
        listed(0, low, 1);
    measure("2 lists, 124 excluded values, 2 negated lists", SCREEN_NO_LINE);
    begin(2);
    low = values_from(0);
    join(screen_put_binary(&now.s, SCREEN_OP_EQ, screen_put_column(&now.s, 0), screen_put_column(&now.s, 1)));
    while (lines < LINES - 3)
        compare(SCREEN_OP_NOT_EQ, lines % 2, 1000 + lines);
    listed(0, low, 0);
    listed(0, low, 1);
    listed(1, low, 1);
    measure("an equality, 124 excluded values, the list in the way", SCREEN_LINE_FOUND);
    begin(64);
    doubled(64);
    compare(SCREEN_OP_GT, 63, 5);
    compare(SCREEN_OP_LT, 63, 5);
    measure("63 equalities twice, a column impossible by itself", SCREEN_LINE_FOUND);
    begin(64);
    low = values_from(0);
    uint32_t rest = some_values(0, LIST - 1);
    while (lines < 62)
        listed(lines, low, 0);
    while (lines < 124)
        listed(lines - 62, rest, 1);
    while (lines < LINES)
        listed(62 + lines % 2, low, lines > 125);
    measure("62 columns with one value of a list left", SCREEN_NO_LINE);
    begin(64);
    low = values_from(0);
    uint32_t high = values_from(50);
    while (lines < 64)
        listed(lines, low, 0);
    while (lines < LINES - 2)
        listed(lines % 64, high, 1);
    compare(SCREEN_OP_GT, 5, 1000);
    compare(SCREEN_OP_LT, 7, -1000);
    measure("64 columns with a list and most with a negated one", SCREEN_NO_LINE);
    printf("%u of %u goals met\n", met, goals);
    return 0;
}
