/*
 * Rewriting beside the Rust (tools/oracle): screen_rewrite with all its checks, from bytes to bytes, against the Rust's
 * merging alone, on nodes that are already in its arena. Each ratio stands beside its goal, the last line tells how many
 * are met. What of it screen_check takes by itself stands below each.
 *
 * The last screens are slow ones: what is asked of two sets is quadratic in the lengths of their lists. The slowest of
 * all are searched for by slowest.c. The Rust's sets are run here as vectors; polars hashes them, which is faster for
 * long ones.
 */
#define _POSIX_C_SOURCE 199309L
#include "lines.h"
#include "measure.h"

#include <stdbool.h>

struct prepared;
struct prepared *oracle_prepare(const uint8_t *records, size_t records_len, const uint8_t *pool, size_t pool_len,
                                const uint8_t *text, size_t text_len);
bool oracle_merge(struct prepared *prepared, size_t root);
void oracle_free(struct prepared *prepared);

static struct prepared *prepared;

static void equal_columns(uint32_t left, uint32_t right)
{
    uint32_t a = screen_put_column(&now.s, left);
    uint32_t b = screen_put_column(&now.s, right);
    join(screen_put_binary(&now.s, SCREEN_OP_EQ, a, b));
}

/* is_in of a column over values of the pool that stand there already. */
static uint32_t list_of(uint32_t number, uint32_t start, uint32_t count)
{
    uint32_t x = screen_put_column(&now.s, number);
    uint32_t values = screen_put(&now.s, SCREEN_KIND_LIST, 0, SCREEN_TYPE_INT, start, count, 0);
    return screen_put_is_in(&now.s, x, values, 0);
}

/* Appends `count` times a value to the pool and answers where they start. */
static uint32_t repeated(int64_t value, uint32_t count)
{
    uint32_t start = (uint32_t)(now.s.pool_len / 8);
    for (uint32_t i = 0; i < count; i++)
        screen_put_pool(&now.s, value);
    return start;
}

/* ------------------------------------------------------------------------------------------------------ the screens */

/* Two to four bounds a column, most of them merged away. */
static void make_bounds(unsigned count)
{
    begin(4);
    for (unsigned n = 0; n < count; n++)
        compare(n % 3 == 2 ? SCREEN_OP_LT_EQ : SCREEN_OP_GT, n / 4, n % 3 == 2 ? 100 + n : n);
}

/* What a trader types, of all kinds; the first twelve lines of it. */
static void make_typed(unsigned count)
{
    begin(6);
    for (unsigned n = 0; n < count; n++)
        switch (n) {
        case 0: compare(SCREEN_OP_GT_EQ, 0, 95); break;
        case 1: compare(SCREEN_OP_LT_EQ, 0, 105); break;
        case 2: compare(SCREEN_OP_LT_EQ, 1, 20805); break;
        case 3: equal_columns(2, 3); break;
        case 4: join(member(&now, 4, 1, 5)); break;
        case 5: compare(SCREEN_OP_GT, 0, 90); break;
        case 6: compare(SCREEN_OP_GT, 2, 7); break;
        case 7: join(screen_put_is_not_null(&now.s, screen_put_column(&now.s, 4))); break;
        case 8: compare(SCREEN_OP_NOT_EQ, 0, 100); break;
        case 9: join(range(&now, 5, 1, 9)); break;
        case 10: join(screen_put_not(&now.s, member(&now, 4, 3, 3))); break;
        default: compare(SCREEN_OP_GT, 5, 2); break;
        }
}

static void make_one_column(void)
{
    begin(1);
    for (unsigned n = 0; n < 128; n++)
        compare(n % 2 ? SCREEN_OP_GT : SCREEN_OP_NOT_EQ, 0, 1000 - n);
}

static void make_many_columns(void)
{
    begin(64);
    for (unsigned n = 0; n < 128; n++)
        compare(n < 64 ? SCREEN_OP_GT : SCREEN_OP_GT_EQ, n % 64, n);
}

/* 63 equalities over 64 columns, in order or from the far end on: then a bound takes 63 passes to get there. */
static void join_chain(int from_far_end)
{
    for (uint32_t n = 0; n < 63; n++) {
        uint32_t left = from_far_end ? 62 - n : n;
        equal_columns(left, left + 1);
    }
}

static void make_chain(void)
{
    begin(64);
    join_chain(0);
    equal_columns(0, 1);
    compare(SCREEN_OP_GT, 0, 5);
}

/* The library's own: as many passes as columns. */
static void make_slowest_chain(void)
{
    begin(64);
    if (screen_refused(screen_lent_slowest(&now.s, 64)))
        abort();
}

static void make_two_lists(void)
{
    begin(1);
    join(member(&now, 0, 0, 100));
    join(member(&now, 0, 50, 100));
    compare(SCREEN_OP_GT, 0, 3);
    compare(SCREEN_OP_GT, 0, 5);
}

static void make_many_lists(void)
{
    begin(60);
    for (uint32_t n = 0; n < 60; n++) {
        join(n % 2 ? screen_put_not(&now.s, member(&now, n, 0, 100)) : member(&now, n, 0, 100));
        compare(SCREEN_OP_GT, n, 5);
    }
}

/*
 * The slowest screen known: lists of 100 values on one column that each look for a value finds in its last place, one
 * list that has none of them, more such lists, and equalities that carry all lists to 64 columns one pass at a time.
 * Each new list looks for each of 100 values in up to 32 lists of 100.
 */
static void make_worst_allowed(void)
{
    uint32_t first, last, barred, other;
    begin(64);
    first = repeated(7, 100);
    last = repeated(8, 99);
    repeated(7, 1);
    barred = repeated(8, 100);
    other = repeated(9, 100);
    join(list_of(0, first, 100));
    for (uint32_t n = 0; n < 31; n++)
        join(list_of(0, last, 100));
    join(list_of(0, barred, 100));
    for (uint32_t n = 0; n < 32; n++)
        join(list_of(0, other, 100));
    join_chain(1);
}

/* 8 negated lists of 100 values, no two alike, carried to each of 64 columns. */
static void make_negated_lists(void)
{
    begin(64);
    for (uint32_t n = 0; n < 8; n++)
        join(screen_put_not(&now.s, member(&now, 0, 100 * n, 100)));
    join_chain(0);
}

/* As many excluded values as leave room for all of them on each of 64 columns. */
static void make_exclusions(void)
{
    begin(64);
    for (uint32_t n = 0; n < 14; n++)
        compare(SCREEN_OP_NOT_EQ, 0, n);
    join_chain(1);
}

/* Lines on two Text columns of symbols of three letters and of sixteen, equal bytes at several starts among them. */
static void make_symbols(unsigned count)
{
    static const char *const names[6] = {"SPX", "NDX", "RUT", "SPXW AM  2026-12", "SPXW PM  2026-12", "SP"};
    static const unsigned codes[6] = {SCREEN_OP_GT_EQ, SCREEN_OP_LT_EQ, SCREEN_OP_NOT_EQ, SCREEN_OP_LT, SCREEN_OP_GT,
                                      SCREEN_OP_NOT_EQ};
    begin(2);
    now.table[0] = now.table[1] = SCREEN_TYPE_TEXT;
    for (unsigned n = 0; n < count; n++) {
        uint32_t length = (uint32_t)strlen(names[n % 6]), start = (uint32_t)now.s.text_len;
        memcpy(now.s.text + start, names[n % 6], length);
        now.s.text_len += length;
        uint32_t left = screen_put_column(&now.s, n / 6 % 2);
        uint32_t right = screen_put_literal(&now.s, SCREEN_TYPE_TEXT, screen_symbol(start, length));
        join(screen_put_binary(&now.s, codes[n % 6], left, right));
    }
}

/* ---------------------------------------------------------------------------------------------------- the two sides */

static uint64_t ours(void)
{
    struct screen_lent returned = now.s;
    return screen_lent_rewrite(&returned);
}

static uint64_t checks(void)
{
    return screen_lent_check(&now.s);
}

static uint64_t rust(void)
{
    return oracle_merge(prepared, now.s.root);
}

static unsigned goals;
static unsigned goals_met;

static int beside(const char *name, double goal, unsigned rounds, unsigned times)
{
    static struct taken taken;
    const work works[3] = {ours, rust, checks};
    uint64_t answer = ours();
    prepared = oracle_prepare(now.s.records, 16 * (size_t)now.s.used, now.s.pool, now.s.pool_len,
                              now.s.text, now.s.text_len);
    if (answer < SCREEN_UNCHANGED || (answer != SCREEN_UNCHANGED) != rust()) {
        printf("%s: the answers differ\n", name);
        oracle_free(prepared);
        return 1;
    }
    measure(&taken, works, 3, rounds, times);
    goals++;
    goals_met += print_goal(name, taken.by[0], taken.by[1], rounds, "Rust", goal);
    print_ratio("    checking alone", taken.by[2], taken.by[1], rounds, "Rust");
    oracle_free(prepared);
    return 0;
}

int main(void)
{
    static const unsigned counts[4] = {3, 5, 8, 12};
    int differ = 0;
    char name[60];
    for (unsigned i = 0; i < 4; i++) {
        make_bounds(counts[i]);
        snprintf(name, sizeof name, "rewriting, %u bounds", counts[i]);
        differ |= beside(name, i == 0 ? 0.55 : 0.5, ROUNDS, 100);
        make_typed(counts[i]);
        snprintf(name, sizeof name, "rewriting, %u lines", counts[i]);
        differ |= beside(name, i == 0 ? 0.55 : 0.5, ROUNDS, 100);
    }
    make_one_column();
    differ |= beside("rewriting, 128 lines on one column", 0.5, ROUNDS, 50);
    make_many_columns();
    differ |= beside("rewriting, 128 lines on 64 columns", 0.5, ROUNDS, 50);
    make_chain();
    differ |= beside("rewriting, 64 equalities", 0.3, ROUNDS, 50);
    make_slowest_chain();
    differ |= beside("rewriting, 63 equalities from the far end on", 0.3, ROUNDS, 5);
    make_two_lists();
    differ |= beside("rewriting, two lists of 100 values", 0.3, ROUNDS, 50);
    make_many_lists();
    differ |= beside("rewriting, 60 lists of 100 values", 0.3, 21, 5);
    make_exclusions();
    differ |= beside("rewriting, 14 exclusions, 63 equalities", 1, 21, 1);
    make_negated_lists();
    differ |= beside("rewriting, 8 negated lists, 63 equalities", 1, 3, 1);
    make_worst_allowed();
    differ |= beside("rewriting, 65 lists of 100 values, 63 equalities", 1, 3, 1);
    printf("goals met: %u of %u\n", goals_met, goals);
    for (unsigned i = 0; i < 4; i++) {
        make_symbols(counts[i]);
        snprintf(name, sizeof name, "rewriting, %u lines of symbols", counts[i]);
        differ |= beside(name, 4, ROUNDS, 20);
    }
    return differ;
}
