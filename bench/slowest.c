/*
 * Searches for the screen that takes screen_rewrite longest, among those that the code's loops make slow: lists, negated
 * lists and excluded values, on one column or on many, carried along equalities that a pass follows whole or by one step;
 * lists on one column; lists that checking looks through; the same of symbols. Prints the slowest of each family and the
 * slowest of all, in processor time.
 * Every screen here is accepted, or refused only when the room for its comparisons is reckoned, which is the last thing.
 */
#define _POSIX_C_SOURCE 199309L
#include "make.h"

#include <stdio.h>
#include <time.h>

enum { LINES = 128, LIST = 100, DESK_MS = 47, CEILING_MS = 5 };

static struct made now;
static uint32_t top;
static unsigned lines;

static unsigned type = SCREEN_TYPE_INT;

/* Columns of the type, and for symbols a full text pool. */
static void begin(unsigned columns)
{
    uint32_t drawn = 1;
    make(&now, columns, type);
    for (unsigned i = 0; i < sizeof now.text && type == SCREEN_TYPE_TEXT; i++) {
        drawn = drawn * 1664525u + 1013904223u;
        now.text[i] = (uint8_t)(drawn >> 24);
    }
    now.s.text_len = type == SCREEN_TYPE_TEXT ? sizeof now.text : 0;
    lines = 0;
}

/* Different numbers from -5 up to 8,171 are different symbols of 16 bytes. */
static int64_t typed(int64_t number)
{
    return type == SCREEN_TYPE_TEXT ? screen_symbol((uint32_t)(number + 5), 16) : number;
}

static void join(uint32_t next)
{
    top = lines == 0 ? next : screen_put_and(&now.s, top, next);
    lines++;
}

static uint32_t not_of(uint32_t input)
{
    return screen_put_not(&now.s, input);
}

/* Equalities from column 0 to the last one, in order or from the far end on: then a pass carries a fact by one step. */
static void join_chain(unsigned columns, int from_far_end)
{
    for (uint32_t n = 0; n + 1 < columns; n++) {
        uint32_t left = from_far_end ? columns - 2 - n : n;
        uint32_t a = screen_put_column(&now.s, left);
        uint32_t b = screen_put_column(&now.s, left + 1);
        join(screen_put_binary(&now.s, SCREEN_OP_EQ, a, b));
    }
}

/* The value at place i of list n: all lists alike, each apart, one value in common at the end or the start, overlapping,
 * or the last of many lists leaving out what the others have. */
enum { ALIKE, APART, COMMON_LAST, COMMON_FIRST, OVERLAPPING, LATE, PATTERNS };

static int64_t value_of(int pattern, unsigned n, unsigned lists, unsigned i)
{
    switch (pattern) {
    case ALIKE: return i;
    case APART: return (int64_t)(LIST * n + i);
    case COMMON_LAST: return i + 1 == LIST ? -1 : (int64_t)(LIST * n + i);
    case COMMON_FIRST: return i == 0 ? -1 : (int64_t)(LIST * n + i);
    case OVERLAPPING: return (int64_t)((n + i) % (2 * LIST));
    default: return 2 * n < lists ? (i + 1 == LIST || n == 0 ? 7 : 8) : 2 * n == lists || 2 * n == lists + 1 ? 8 : 9;
    }
}

static uint32_t list_line(unsigned number, int pattern, unsigned n, unsigned lists)
{
    int64_t values[LIST];
    uint32_t x = screen_put_column(&now.s, number);
    for (unsigned i = 0; i < LIST; i++)
        values[i] = typed(value_of(pattern, n, lists, i));
    return screen_put_is_in(&now.s, x, screen_put_list(&now.s, type, values, LIST, 0), 0);
}

/* A list over values that the pool has already. */
static uint32_t shared_line(unsigned number, uint32_t start, uint32_t count)
{
    uint32_t x = screen_put_column(&now.s, number);
    return screen_put_is_in(&now.s, x, screen_put(&now.s, SCREEN_KIND_LIST, 0, type, start, count, 0), 0);
}

static void fill_pool(uint32_t values, int64_t modulus)
{
    int64_t list[LIST];
    for (uint32_t from = 0; from < values; from += LIST) {
        for (unsigned i = 0; i < LIST; i++)
            list[i] = typed((int64_t)(from + i) % modulus);
        screen_put_list(&now.s, type, list, LIST, 0);
    }
}

/* ---------------------------------------------------------------------------------------------------------- timing */

static uint8_t scratch[16 * 4096];
static uint8_t reasons[SCREEN_MAX_REASONS_BYTES];

static uint64_t rewrite(void)
{
    uint64_t root = 0;
    uint64_t used = 0;
    uint64_t reasons_used = 0;
    uint64_t passes = 0;
    memcpy(scratch, now.records, sizeof scratch);
    return screen_rewrite(now.table, now.s.table_len, scratch, sizeof scratch, now.pool, now.s.pool_len, now.text,
                          now.s.text_len, now.s.used, now.s.root, reasons, sizeof reasons, &root, &used,
                          &reasons_used, &passes);
}

static volatile uint64_t sink;
static double slowest_of_all;
static char slowest_name[160];
static double slowest_here;
static char here_name[120];

/* Processor time of one call, in nanoseconds. */
static double rewrite_time(void)
{
    struct timespec from, to;
    clock_gettime(CLOCK_PROCESS_CPUTIME_ID, &from);
    sink += rewrite();
    clock_gettime(CLOCK_PROCESS_CPUTIME_ID, &to);
    return (double)(to.tv_sec - from.tv_sec) * 1e9 + (double)(to.tv_nsec - from.tv_nsec);
}

/* The least of some runs, fewer of a slow screen: what else the machine does only adds. */
static void time_screen(const char *name)
{
    double least = rewrite_time();
    for (unsigned i = 0; i < 6 && least < 5e7; i++) {
        double again = rewrite_time();
        least = again < least ? again : least;
    }
    if (least > slowest_here) {
        slowest_here = least;
        snprintf(here_name, sizeof here_name, "%s", name);
    }
}

static void close_family(const char *family)
{
    const char *of = type == SCREEN_TYPE_TEXT ? "symbols: " : "";
    printf("%-32s %10.3f ms   %s%s\n", family, slowest_here / 1e6, of, here_name);
    if (slowest_here > slowest_of_all) {
        slowest_of_all = slowest_here;
        snprintf(slowest_name, sizeof slowest_name, "%s%s: %s", of, family, here_name);
    }
    slowest_here = 0;
}

/* -------------------------------------------------------------------------------------------------------- families */

static const char *const pattern_names[PATTERNS] = {"alike",        "apart",       "a common last",
                                                    "a common first", "overlapping", "a late stranger"};

static void search_lists(int negated, const char *family)
{
    static const unsigned chains[2] = {64, 32};
    char name[120];
    for (unsigned c = 0; c < 2; c++)
        for (int pattern = 0; pattern < PATTERNS; pattern++)
            for (int spread = 0; spread < 2; spread++)
                for (int far = 0; far < 2; far++) {
                    unsigned equalities = chains[c] - 1;
                    unsigned lists = LINES - equalities > 81 ? 81 : LINES - equalities;
                    begin(chains[c]);
                    for (unsigned n = 0; n < lists; n++) {
                        uint32_t listed = list_line(spread ? n % chains[c] : 0, pattern, n, lists);
                        join(negated == 2 ? (n % 2 ? not_of(listed) : listed) : negated ? not_of(listed) : listed);
                    }
                    join_chain(chains[c], far);
                    snprintf(name, sizeof name, "%u lists, %s, %s, %u equalities%s", lists, pattern_names[pattern],
                             spread ? "one a column" : "on one column", equalities, far ? " from the far end" : "");
                    time_screen(name);
                }
    close_family(family);
}

static void search_exclusions(void)
{
    char name[120];
    for (unsigned columns = 8; columns <= 64; columns *= 2)
        for (int spread = 0; spread < 2; spread++)
            for (int far = 0; far < 2; far++) {
                unsigned count = LINES - (columns - 1);
                begin(columns);
                for (unsigned n = 0; n < count; n++)
                    join(line(&now, SCREEN_OP_NOT_EQ, spread ? n % columns : 0, typed(n)));
                join_chain(columns, far);
                snprintf(name, sizeof name, "%u, %s, %u equalities%s", count, spread ? "on all columns" : "on one column",
                         columns - 1, far ? " from the far end" : "");
                time_screen(name);
            }
    close_family("exclusions");
}

/* What an index of the lists does not make cheaper, or should not be made for: as many lists as lines allow, over one part of
 * the pool, with few equalities or many; lists that change nothing while a bound still moves, so that each is looked at in vain;
 * one long list among short ones; numbers that stand for one value. `lists` of the lines are lists, `short_ones` have one value. */
static void search_shared(void)
{
    static const unsigned counts[8] = {4, 8, 12, 24, 48, 64, 96, 126};
    char name[120];
    for (unsigned c = 0; c < 8; c++)
        for (int pattern = 0; pattern < 4; pattern++)
            for (int negated = 0; negated < 3; negated++)
                for (int far = 0; far < 2; far++) {
                    unsigned lists = counts[c];
                    unsigned columns = LINES - lists > 64 ? 64 : LINES - lists;
                    begin(columns);
                    fill_pool(8000, pattern == 3 ? 150 : 8000);
                    for (unsigned n = 0; n < lists; n++) {
                        uint32_t start = pattern == 0 ? 0 : pattern == 1 ? n : 61 * n;
                        uint32_t listed = shared_line(pattern == 2 ? 0 : n % columns, start, LIST);
                        join(negated == 2 ? (n % 2 ? not_of(listed) : listed) : negated ? not_of(listed) : listed);
                    }
                    join(line(&now, SCREEN_OP_GT, 0, typed(-5)));
                    join_chain(columns, far);
                    snprintf(name, sizeof name, "%u lists, parts %d, %s, a bound, %u equalities%s", lists, pattern,
                             negated == 2 ? "in turn" : negated ? "negated" : "allowed", columns - 1,
                             far ? " from the far end" : "");
                    time_screen(name);
                }
    close_family("shared lists, a bound");
    for (unsigned short_ones = 4; short_ones <= 60; short_ones += 8)
        for (int negated = 0; negated < 3; negated++)
            for (int far = 0; far < 2; far++) {
                begin(64);
                fill_pool(200, 200);
                join(shared_line(0, 0, LIST));
                for (unsigned n = 0; n < short_ones; n++) {
                    uint32_t listed = shared_line(n, 99 + n % 2, 1);
                    join(negated == 2 ? (n % 2 ? not_of(listed) : listed) : negated ? not_of(listed) : listed);
                }
                join_chain(64, far);
                snprintf(name, sizeof name, "%u of one value and one of 100, %s%s", short_ones,
                         negated == 2 ? "in turn" : negated ? "negated" : "allowed", far ? ", far end" : "");
                time_screen(name);
            }
    close_family("short lists");
    for (unsigned different = 1; different <= 64; different *= 2)
        for (int far = 0; far < 2; far++) {
            begin(64);
            for (unsigned n = 0; n < 64; n++)
                join(line(&now, SCREEN_OP_NOT_EQ, n, typed(n % different)));
            join_chain(64, far);
            snprintf(name, sizeof name, "64 of %u values, one a column%s", different, far ? ", far end" : "");
            time_screen(name);
        }
    close_family("equal exclusions");
}

static void search_one_column(void)
{
    char name[120];
    for (int pattern = 0; pattern < PATTERNS; pattern++)
        for (int negated = 0; negated < 3; negated++) {
            begin(1);
            for (unsigned n = 0; n < 81; n++) {
                uint32_t listed = list_line(0, pattern, n, 81);
                join(negated == 2 ? (n % 2 ? not_of(listed) : listed) : negated ? not_of(listed) : listed);
            }
            snprintf(name, sizeof name, "81 lists, %s, %s", pattern_names[pattern],
                     negated == 2 ? "every other negated" : negated ? "negated" : "allowed");
            time_screen(name);
        }
    close_family("lists on one column");
}

static void search_checking(void)
{
    static const char *const names[4] = {"", "Int", "Day", "Truth"};
    char name[120];
    for (unsigned listed = SCREEN_TYPE_INT; listed <= SCREEN_TYPE_TRUTH; listed++) {
        begin(1);
        now.table[0] = SCREEN_TYPE_TRUTH;
        now.s.pool_len = sizeof now.pool;
        for (unsigned n = 0; n + 1 < 4096; n++)
            screen_put(&now.s, SCREEN_KIND_LIST, 0, listed, 0, 8192, 0);
        screen_put_column(&now.s, 0);
        snprintf(name, sizeof name, "4095 lists of %s over the whole pool", names[listed]);
        time_screen(name);
    }
    close_family("checking");
}

/* ------------------------------------------------------------------------------------------- numbers beside symbols */

/* What there is of type Text: one literal; lists that stand before the lists of numbers, behind them or at the same places; or a
 * list of the whole pool that no line reads, beside such lists. */
enum { LITERAL, BEFORE, BEHIND, SAME, WHOLE, STANDS };

static const char *const stands_names[STANDS] = {"a literal", "before them", "behind them", "the same places", "a list of all"};

/* A chain of equalities from one column to another, as join_chain makes it. */
static void join_columns(uint32_t first, uint32_t last, int from_far_end)
{
    for (uint32_t n = first; n < last; n++) {
        uint32_t left = from_far_end ? first + last - 1 - n : n;
        uint32_t a = screen_put_column(&now.s, left);
        uint32_t b = screen_put_column(&now.s, left + 1);
        join(screen_put_binary(&now.s, SCREEN_OP_EQ, a, b));
    }
}

/* Columns of type Int and then of type Text, lists of both, `step` places from one to the next, in a pool full of symbols, which
 * as numbers are different ones too; two lines more, if there is room. */
struct mixed {
    int stands;
    unsigned numbers, texts;           /* columns */
    unsigned number_lists, text_lists; /* lines */
    unsigned step;
    int negated, far;
};

static void list_mixed(const struct mixed *m, unsigned of, unsigned first, unsigned columns, unsigned lists, unsigned at)
{
    type = of;
    for (unsigned n = 0; n < lists; n++) {
        uint32_t start = (at + n) * m->step % (SCREEN_MAX_POOL_VALUES - LIST + 1);
        uint32_t listed = shared_line(first + n % columns, start, LIST);
        join(m->negated == 2 ? (n % 2 ? not_of(listed) : listed) : m->negated ? not_of(listed) : listed);
    }
}

static void make_mixed(const struct mixed *m)
{
    int numbers_later = m->stands == BEFORE || m->stands == WHOLE;
    type = SCREEN_TYPE_TEXT;
    begin(m->numbers + m->texts);
    memset(now.table, SCREEN_TYPE_INT, m->numbers);
    for (unsigned i = 0; i < SCREEN_MAX_POOL_VALUES; i++)
        screen_put_pool(&now.s, typed((int64_t)(i * 2731 % 8170)));
    if (m->stands == WHOLE)
        screen_put(&now.s, SCREEN_KIND_LIST, 0, SCREEN_TYPE_TEXT, 0, SCREEN_MAX_POOL_VALUES, 0);
    screen_put_literal(&now.s, SCREEN_TYPE_TEXT, typed(0));
    list_mixed(m, SCREEN_TYPE_INT, 0, m->numbers, m->number_lists, numbers_later ? m->text_lists : 0);
    list_mixed(m, SCREEN_TYPE_TEXT, m->numbers, m->texts, m->text_lists, m->stands == BEHIND ? m->number_lists : 0);
    if (lines + m->numbers + m->texts <= LINES)
        join(line(&now, SCREEN_OP_GT, 0, -1));
    join_columns(0, m->numbers - 1, m->far);
    if (m->texts > 0)
        join_columns(m->numbers, m->numbers + m->texts - 1, m->far);
    type = SCREEN_TYPE_TEXT;
}

static void time_mixed(const struct mixed *m)
{
    char name[120];
    make_mixed(m);
    snprintf(name, sizeof name, "%u of numbers, %u of symbols, %s, step %u, %s, %u + %u columns%s", m->number_lists, m->text_lists,
             stands_names[m->stands], m->step, m->negated == 2 ? "in turn" : m->negated ? "negated" : "allowed", m->numbers,
             m->texts, m->far ? ", far end" : "");
    time_screen(name);
}

/* Lists of numbers, beside lists of symbols in shares from none to all but one. */
static void search_mixed(int stands)
{
    static const unsigned steps[4] = {0, 1, 61, 97};
    static const unsigned shares[4] = {64, 56, 32, 1};
    static const unsigned lists[3] = {64, 84, 100};
    struct mixed m = {.stands = stands};
    for (unsigned s = 0; s < 4; s++)
        for (unsigned share = 0; share < (stands == LITERAL ? 1 : 4); share++)
            for (unsigned l = 0; l < 3; l++)
                for (m.negated = 0; m.negated < 3; m.negated++)
                    for (m.far = 0; m.far < 2; m.far++) {
                        unsigned columns = LINES - lists[l] > 64 ? 64 : LINES - lists[l];
                        m.step = steps[s];
                        m.numbers = shares[share] * columns / 64 > 0 ? shares[share] * columns / 64 : 1;
                        m.texts = columns - m.numbers;
                        m.number_lists = m.texts == 0 ? lists[l] : lists[l] * m.numbers / columns;
                        m.text_lists = lists[l] - m.number_lists;
                        time_mixed(&m);
                    }
    close_family(stands_names[stands]);
}

static void search(void)
{
    search_one_column();
    search_exclusions();
    search_lists(0, "lists, equalities");
    search_lists(1, "negated, equalities");
    search_lists(2, "in turn, equalities");
    search_shared();
}

int main(void)
{
    search_checking();
    search();
    type = SCREEN_TYPE_TEXT;
    search();
    for (int stands = 0; stands < STANDS; stands++)
        search_mixed(stands);
    printf("slowest screen found: %.3f ms (%s); ceiling %d ms %s, desk's %d ms %s\n", slowest_of_all / 1e6, slowest_name,
           CEILING_MS, slowest_of_all <= CEILING_MS * 1e6 ? "met" : "missed", DESK_MS,
           slowest_of_all <= DESK_MS * 1e6 ? "met" : "missed");
    return 0;
}
