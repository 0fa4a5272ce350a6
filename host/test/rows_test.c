/*
 * screen_show_row and screen_check_row: every refusal in its order, buffers exactly as long as needed, longer and too short,
 * rows shown by hand, values at the ends of 64 bits, and random plain screens: the row shown passes the check and, if it is
 * whole, the row test, and none is shown exactly if rewriting says that nothing passes.
 */
#define _POSIX_C_SOURCE 200809L
#include "typed_lines.h"

#include "stack.h"

enum { INT = SCREEN_TYPE_INT, DAY = SCREEN_TYPE_DAY, TRUTH = SCREEN_TYPE_TRUTH };
enum { EQ = SCREEN_OP_EQ, NOT_EQ = SCREEN_OP_NOT_EQ, LT = SCREEN_OP_LT, LT_EQ = SCREEN_OP_LT_EQ };
enum { GT = SCREEN_OP_GT, GT_EQ = SCREEN_OP_GT_EQ };
enum { NO_ROW = SCREEN_NO_ROW, SHOWN = SCREEN_ROW_SHOWN, FAILS = SCREEN_DOES_NOT_PASS, PASSES = SCREEN_PASSES };
enum { CELL = SCREEN_CELL_BYTES, ROOM = CELL * 64 };
#define LEAST INT64_MIN
#define MOST INT64_MAX

/* ------------------------------------------------------------------------------------------------------- both calls */

static uint8_t filler(size_t at)
{
    return (uint8_t)(7 * at + 3);
}

static int filled(const uint8_t *row, size_t from, size_t to)
{
    while (from < to && row[from] == filler(from))
        from++;
    return from >= to;
}

/* A buffer of exactly row_len bytes is lent. What is written there is copied to `row`, which has ROOM bytes. */
static uint32_t show(const char *name, size_t row_len, uint8_t *row, uint64_t *nulls)
{
    struct slices s = lend();
    size_t written = CELL * sent.table_len;
    uint8_t *buffer = row_len > 0 ? malloc(row_len) : NULL;
    uint64_t marks = MARK;
    for (size_t i = 0; i < row_len; i++)
        buffer[i] = filler(i);
    uint32_t got = screen_show_row(s.table, sent.table_len, s.records, sent.records_len, s.pool, sent.pool_len,
                                   s.text, sent.text_len, sent.used, sent.root, buffer, row_len, &marks);
    report(all_kept(&s), name, "a lent byte changed");
    if (got == SHOWN) {
        report(row_len >= written && filled(buffer, written, row_len), name, "a byte behind the row changed");
        if (written > 0)
            memcpy(row, buffer, written);
        *nulls = marks;
    } else {
        report(filled(buffer, 0, row_len) && marks == MARK, name, "written without a row shown");
    }
    free(buffer);
    give_back(&s);
    return got;
}

static uint32_t check(const char *name, const uint8_t *row, size_t row_len, uint64_t nulls)
{
    struct slices s = lend();
    uint8_t *copy = lent(row, row_len);
    uint32_t got = screen_check_row(s.table, sent.table_len, s.records, sent.records_len, s.pool, sent.pool_len,
                                    s.text, sent.text_len, sent.used, sent.root, copy, row_len, nulls);
    report(all_kept(&s) && kept(copy, row, row_len), name, "a lent byte changed");
    free(copy);
    give_back(&s);
    return got;
}

/* A row of nulls. */
static const uint8_t ZEROS[ROOM + 64];

static uint64_t all_null(void)
{
    return sent.table_len == 64 ? UINT64_MAX : (UINT64_C(1) << sent.table_len) - 1;
}

/* ------------------------------------------------------------------------------------------------------ rows by hand */

struct cell {
    int null;
    int64_t whole, half;
};

static const struct cell NUL = {1, 0, 0};

static struct cell at(int64_t whole, int64_t half)
{
    struct cell cell = {0, whole, half};
    return cell;
}

static int is_cell(const uint8_t *row, uint64_t nulls, uint64_t column, struct cell want)
{
    return (int)(nulls >> column & 1) == want.null && screen_whole_at(row, column) == want.whole &&
           screen_half_at(row, column) == want.half;
}

/* The lines joined show this row in c0, c1 and c3; c2, a Truth, is never read by a plain screen. It passes the check. */
static void shows_three(const char *name, struct cell c0, struct cell c1, struct cell c3)
{
    uint8_t row[ROOM];
    uint64_t nulls = 0;
    join();
    uint32_t got = show(name, CELL * 4, row, &nulls);
    report(got == SHOWN, name, got < 256 ? "refused" : "no row");
    if (got != SHOWN)
        return;
    report(is_cell(row, nulls, 0, c0), name, "another c0");
    report(is_cell(row, nulls, 1, c1), name, "another c1");
    report(is_cell(row, nulls, 2, NUL), name, "another c2");
    report(is_cell(row, nulls, 3, c3), name, "another c3");
    report(nulls >> 4 == 0, name, "a null mark above the columns");
    report(check(name, row, CELL * 4, nulls) == PASSES, name, "the row shown does not pass");
}

/* Of c0 alone. */
static void shows(const char *name, struct cell c0)
{
    shows_three(name, c0, NUL, NUL);
}

static void shows_none(const char *name)
{
    uint8_t row[ROOM];
    uint64_t nulls = 0;
    join();
    report(show(name, CELL * 4, row, &nulls) == NO_ROW, name, "another answer");
    report(check(name, ZEROS, CELL * 4, all_null()) == FAILS, name, "nulls pass");
}

static void compares(unsigned code, int64_t value)
{
    add(line(code, 0, INT, value));
}

static uint32_t list_of(const int64_t *values, uint32_t many)
{
    uint32_t start = (uint32_t)(sent.pool_len / SCREEN_VALUE_BYTES);
    for (uint32_t i = 0; i < many; i++)
        pool_value(values[i]);
    return list(0, INT, start, many);
}

static uint32_t in_list(uint32_t number, int64_t a, int64_t b, unsigned nulls_equal)
{
    const int64_t values[2] = {a, b};
    uint32_t value = column(number);
    return is_in(nulls_equal, value, list_of(values, 2));
}

static uint32_t in_three(uint32_t number, int64_t a, int64_t b, int64_t c)
{
    const int64_t values[3] = {a, b, c};
    uint32_t value = column(number);
    return is_in(0, value, list_of(values, 3));
}

static uint32_t in_none(uint32_t number, unsigned nulls_equal)
{
    uint32_t value = column(number);
    return is_in(nulls_equal, value, list(0, INT, 0, 0));
}

static uint32_t equal(uint32_t a, uint32_t b)
{
    uint32_t left = column(a);
    return binary(EQ, left, column(b));
}

static uint32_t range(unsigned closed, int64_t low, int64_t high)
{
    uint32_t value = column(0), from = literal(INT, low);
    return is_between(closed, value, from, literal(INT, high));
}

static void test_bounds(void)
{
    static const struct {
        unsigned code, mirrored;
        struct cell want, turned;
    } ONE[6] = {{EQ, EQ, {0, 3, 0}, {0, 0, 1}},      {NOT_EQ, NOT_EQ, {0, 0, 1}, {0, 3, 0}},
                {LT, GT, {0, 3, -1}, {0, 3, 1}},     {LT_EQ, GT_EQ, {0, 3, -1}, {0, 3, 1}},
                {GT, LT, {0, 3, 1}, {0, 3, -1}},     {GT_EQ, LT_EQ, {0, 3, 1}, {0, 3, -1}}};
    for (int i = 0; i < 6; i++) {
        begin_lines();
        compares(ONE[i].code, 3);
        shows("one comparison", ONE[i].want);
        begin_lines();
        add(not_of(line(ONE[i].code, 0, INT, 3)));
        shows("Not of one comparison", ONE[i].turned);
        begin_lines();
        uint32_t value = literal(INT, 3);
        add(binary(ONE[i].mirrored, value, column(0)));
        shows("the same the other way round", ONE[i].want);
    }
    begin_lines();
    compares(GT, 3);
    compares(LT, 4);
    shows("between two neighbours", at(3, 1));
    begin_lines();
    compares(GT_EQ, 3);
    compares(LT_EQ, 3);
    shows("two bounds that fix it", at(3, 0));
    begin_lines();
    compares(GT, 3);
    compares(GT, 5);
    compares(LT_EQ, 9);
    shows("the greater lower bound", at(5, 1));
    begin_lines();
    compares(LT, 9);
    compares(LT, 7);
    shows("the lesser upper bound", at(7, -1));
    begin_lines();
    compares(GT_EQ, 3);
    compares(NOT_EQ, 3);
    shows("an end that an excluded value opens", at(3, 1));
    begin_lines();
    compares(NOT_EQ, 0);
    compares(NOT_EQ, 1);
    shows("excluded values alone", at(0, 1));
    for (unsigned closed = 0; closed < 4; closed++) {
        begin_lines();
        add(range(closed, 2, 3));
        shows("a range", at(2, 1));
    }
    begin_lines();
    add(range(SCREEN_CLOSED_BOTH, 2, 2));
    shows("a range of one value", at(2, 0));
    begin_lines();
    add(line(GT_EQ, 1, DAY, 20000));
    add(line(LT, 3, INT, -7));
    shows_three("a Day and another Int", NUL, at(20000, 1), at(-7, -1));
}

static void test_nulls_shown(void)
{
    begin_lines();
    add(is_null(column(0)));
    shows("is_null", NUL);
    begin_lines();
    add(not_of(is_not_null(column(0))));
    shows("Not is_not_null", NUL);
    begin_lines();
    add(is_not_null(column(0)));
    shows("is_not_null", at(0, 1));
    begin_lines();
    add(not_of(is_null(column(0))));
    shows("Not is_null", at(0, 1));
    begin_lines();
    add(is_null(column(0)));
    add(not_of(in_list(0, 1, 2, 1)));
    shows("is_null and a negated list with nulls_equal", NUL);
    begin_lines();
    add(is_null(column(0)));
    add(not_of(in_none(0, 0)));
    shows("is_null and a negated empty list", NUL);
    begin_lines();
    add(not_of(in_list(0, 0, 1, 1)));
    shows("a negated list with nulls_equal", at(0, 1));
    begin_lines();
    add(not_of(in_list(0, 0, 1, 0)));
    shows("a negated list", at(0, 1));
    begin_lines();
    add(not_of(in_none(0, 0)));
    shows("a negated empty list", at(0, 1));
    begin_lines();
    add(not_of(in_list(0, 3, 1, 1)));
    compares(GT_EQ, 3);
    compares(LT_EQ, 4);
    shows("a negated list with nulls_equal at a bound", at(3, 1));
    begin_lines();
    add(is_null(column(3)));
    compares(GT, 1);
    add(is_null(column(1)));
    shows("a null beside a value", at(1, 1));
}

static void test_lists_shown(void)
{
    begin_lines();
    add(in_three(0, 7, 5, 6));
    shows("the smallest of a list", at(5, 0));
    compares(NOT_EQ, 5);
    shows("but not an excluded one", at(6, 0));
    add(not_of(in_list(0, 6, 9, 0)));
    shows("nor a disallowed one", at(7, 0));
    begin_lines();
    add(in_three(0, 7, 5, 6));
    add(not_of(in_list(0, 5, 6, 1)));
    shows("nor one that is disallowed with nulls_equal", at(7, 0));
    begin_lines();
    add(in_three(0, 7, 5, 6));
    compares(GT, 5);
    shows("above an open bound", at(6, 0));
    begin_lines();
    add(in_three(0, 7, 5, 6));
    compares(GT_EQ, 6);
    shows("at a closed bound", at(6, 0));
    begin_lines();
    add(in_three(0, 7, 5, 6));
    compares(EQ, 7);
    shows("a list and a fixed value", at(7, 0));
    begin_lines();
    add(in_three(0, 7, 5, 6));
    add(in_three(0, 9, 6, 7));
    shows("the smallest of two lists", at(6, 0));
    begin_lines();
    add(in_three(0, -1, 2, -3));
    compares(LT, 0);
    compares(GT, -2);
    shows("a negative one", at(-1, 0));
    begin_lines();
    add(in_list(0, MOST, LEAST, 1));
    shows("the least of all", at(LEAST, 0));
    begin_lines();
    for (int64_t v = 0; v < 100; v++)
        pool_value(99 - v);
    uint32_t value = column(0);
    add(is_in(0, value, list(0, INT, 0, 100)));
    compares(GT, 41);
    shows("of 100 values", at(42, 0));
}

static void test_equalities(void)
{
    begin_lines();
    add(equal(0, 3));
    shows_three("two equal columns", at(0, 1), NUL, at(0, 1));
    begin_lines();
    add(equal(0, 0));
    shows("a column equal to itself", at(0, 1));
    begin_lines();
    add(equal(0, 3));
    compares(GT, 5);
    shows_three("a bound is carried", at(5, 1), NUL, at(5, 1));
    begin_lines();
    add(equal(0, 3));
    add(line(LT, 3, INT, 5));
    shows_three("an upper bound is carried back", at(5, -1), NUL, at(5, -1));
    begin_lines();
    add(equal(3, 0));
    add(line(EQ, 3, INT, 7));
    shows_three("a fixed value is carried", at(7, 0), NUL, at(7, 0));
    begin_lines();
    add(in_list(0, 2, 1, 0));
    add(in_list(3, 1, 2, 0));
    add(equal(0, 3));
    shows_three("equal columns with lists in two orders", at(1, 0), NUL, at(1, 0));
    begin_lines();
    add(in_three(0, 4, 2, 1));
    add(in_three(3, 3, 2, 4));
    add(equal(0, 3));
    shows_three("equal columns, the lists' common values", at(2, 0), NUL, at(2, 0));
    begin_lines();
    add(in_three(0, 4, 2, 1));
    add(not_of(in_list(3, 1, 2, 1)));
    add(equal(0, 3));
    shows_three("equal columns, a list and a negated one", at(4, 0), NUL, at(4, 0));
    begin_lines();
    add(in_three(0, 4, 2, 1));
    add(line(GT_EQ, 3, INT, 2));
    add(line(NOT_EQ, 3, INT, 2));
    add(equal(0, 3));
    shows_three("equal columns, a list and an opened bound", at(4, 0), NUL, at(4, 0));
    begin_lines();
    compares(GT_EQ, 3);
    add(line(NOT_EQ, 3, INT, 3));
    add(equal(3, 0));
    shows_three("an excluded value opens the other's bound", at(3, 1), NUL, at(3, 1));
}

static void test_ends(void)
{
    static const struct {
        unsigned code;
        int64_t value;
        struct cell want;
    } ENDS[8] = {{GT, MOST, {0, MOST, 1}},      {GT_EQ, MOST, {0, MOST, 1}},    {LT, LEAST, {0, LEAST, -1}},
                 {LT_EQ, LEAST, {0, LEAST, -1}}, {LT, MOST, {0, MOST, -1}},      {GT, LEAST, {0, LEAST, 1}},
                 {EQ, MOST, {0, MOST, 0}},       {EQ, LEAST, {0, LEAST, 0}}};
    for (int i = 0; i < 8; i++) {
        begin_lines();
        compares(ENDS[i].code, ENDS[i].value);
        shows("at an end of 64 bits", ENDS[i].want);
    }
    begin_lines();
    compares(GT, MOST - 1);
    compares(LT, MOST);
    shows("below the greatest", at(MOST - 1, 1));
    begin_lines();
    compares(LT, LEAST + 1);
    compares(NOT_EQ, LEAST);
    shows("above the least", at(LEAST + 1, -1));
    begin_lines();
    compares(GT, MOST);
    compares(LT, LEAST);
    shows_none("beyond both ends");
    begin_lines();
    compares(GT, LEAST);
    compares(LT, MOST);
    shows("between both ends", at(LEAST, 1));
    begin_lines();
    add(equal(0, 3));
    compares(GT, MOST);
    shows_three("above the greatest, carried", at(MOST, 1), NUL, at(MOST, 1));
    begin_lines();
    add(line(GT, 1, DAY, INT32_MAX));
    shows_three("above the last Day", NUL, at(INT32_MAX, 1), NUL);
    begin_lines();
    add(line(LT_EQ, 1, DAY, INT32_MIN));
    shows_three("below the first Day", NUL, at(INT32_MIN, -1), NUL);
}

static void test_none(void)
{
    begin_lines();
    compares(GT, 3);
    compares(LT, 3);
    shows_none("crossed bounds");
    begin_lines();
    compares(GT_EQ, 3);
    compares(LT, 3);
    shows_none("bounds that meet, one open");
    begin_lines();
    compares(EQ, 3);
    compares(NOT_EQ, 3);
    shows_none("a fixed value that is excluded");
    begin_lines();
    compares(EQ, 3);
    add(not_of(in_list(0, 3, 4, 1)));
    shows_none("a fixed value that is disallowed");
    begin_lines();
    add(is_null(column(0)));
    add(is_not_null(column(0)));
    shows_none("null and not");
    begin_lines();
    add(not_of(in_list(0, 1, 2, 0)));
    add(is_null(column(0)));
    shows_none("null and a negated list");
    begin_lines();
    add(is_null(column(0)));
    add(equal(0, 3));
    shows_none("null and equal to another");
    begin_lines();
    add(is_null(column(0)));
    add(equal(0, 0));
    shows_none("null and equal to itself");
    begin_lines();
    add(in_none(0, 1));
    shows_none("an empty list");
    begin_lines();
    add(in_list(0, 1, 2, 0));
    add(in_list(0, 3, 4, 0));
    shows_none("lists without a common value");
    begin_lines();
    add(in_list(0, 1, 2, 0));
    add(in_list(3, 3, 4, 0));
    add(equal(0, 3));
    shows_none("equal columns without a common value");
    begin_lines();
    add(in_list(0, 1, 2, 0));
    compares(NOT_EQ, 1);
    add(not_of(in_list(0, 2, 7, 1)));
    shows_none("a list of which nothing is left");
    begin_lines();
    compares(GT, 5);
    add(equal(3, 0));
    add(line(LT_EQ, 3, INT, 5));
    shows_none("equal columns with crossed bounds");
}

/* ----------------------------------------------------------------------------------------------------------- buffers */

static void test_buffers(void)
{
    static const size_t LONGER[] = {0, 1, 8, 15, 16, 17, 200};
    static const size_t SHORTER[] = {1, 8, 15, 16, 17, 48, 64};
    uint8_t row[ROOM];
    uint64_t nulls = 0;
    begin_lines();
    compares(GT, 3);
    join();
    for (size_t i = 0; i < sizeof LONGER / sizeof LONGER[0]; i++)
        report(show("a long buffer", CELL * 4 + LONGER[i], row, &nulls) == SHOWN, "a long buffer", "another answer");
    for (size_t i = 0; i < sizeof SHORTER / sizeof SHORTER[0]; i++)
        report(show("a short buffer", CELL * 4 - SHORTER[i], row, &nulls) == 14, "a short buffer", "another answer");
    compares(LT, 3);
    join();
    report(show("14, though nothing passes", CELL * 4 - 1, row, &nulls) == 14, "14, though nothing passes", "not 14");
    report(show("long enough, nothing passes", CELL * 4, row, &nulls) == NO_ROW, "nothing passes", "not told");
}

/* 64 equal columns. */
static void test_wide(void)
{
    static uint8_t table[64];
    uint8_t row[ROOM];
    uint64_t nulls = MARK;
    memset(table, INT, sizeof table);
    begin(table, sizeof table);
    count = 0;
    for (uint32_t c = 63; c-- > 0;)
        add(equal(c, c + 1));
    add(line(GT, 63, INT, 9));
    join();
    report(show("64 equal columns", ROOM, row, &nulls) == SHOWN && nulls == 0, "64 equal columns", "not shown");
    for (uint64_t c = 0; c < 64; c++)
        report(is_cell(row, 0, c, at(9, 1)), "64 equal columns", "another value");
    for (uint64_t c = 0; c < 64; c += 2)
        screen_store_cell(row, c, 10, -1);
    report(check("64 equal columns, two spellings", row, ROOM, 0) == PASSES, "two spellings", "do not pass");
    screen_store_cell(row, 40, 10, 0);
    report(check("64 equal columns, one other", row, ROOM, 0) == FAILS, "one other value", "passes");
    begin(table, sizeof table);
    count = 0;
    add(is_null(column(63)));
    join();
    report(show("64 nulls", ROOM, row, &nulls) == SHOWN && nulls == UINT64_MAX, "64 nulls", "not shown");
    report(kept(row, ZEROS, ROOM), "64 nulls", "parts that are not zero");
    report(check("64 nulls", ZEROS, ROOM, UINT64_MAX) == PASSES, "64 nulls", "do not pass");
    report(check("63 nulls", ZEROS, ROOM, UINT64_MAX >> 1) == FAILS, "63 nulls", "pass");
}

/* ---------------------------------------------------------------------------------------------------------- refusals */

/* Both calls give this number of the screen, whatever is wrong with the row as well. */
static void refused(const char *name, uint32_t number)
{
    uint8_t row[ROOM + 64], halves[ROOM + 64];
    uint64_t nulls = 0;
    size_t whole = CELL * sent.table_len;
    memset(halves, 0, sizeof halves);
    halves[8] = 2;
    report(show(name, whole, row, &nulls) == number, name, "another answer of showing");
    report(whole == 0 || show(name, whole - 1, row, &nulls) == number, name, "14 came before it");
    report(show(name, 0, row, &nulls) == number, name, "14 came before it");
    report(check(name, ZEROS, whole, 0) == number, name, "another answer of checking");
    report(check(name, ZEROS, whole + 1, 0) == number, name, "18 came before it: the length");
    report(check(name, ZEROS, 0, 0) == number, name, "18 came before it: no row");
    report(check(name, ZEROS, whole, UINT64_MAX) == number, name, "18 came before it: null marks");
    report(check(name, halves, whole, 0) == number, name, "18 came before it: a half part");
}

/* The numbers of checking, each beside a line that is not plain. */
static void test_checked(void)
{
    begin_lines();
    compares(GT, 3);
    add(not_of(is_not_null(column(2))));
    join();
    sent.root = sent.used;
    refused("3, before 17", 3);
    sent.pool_len = 5;
    refused("2, before 3", 2);
    sent.table[0] = 9;
    refused("1, before 2", 1);
    begin_lines();
    add(is_not_null(column(2)));
    put(77, 0, 0, 0, 0, 0);
    join();
    refused("4, before 17", 4);
    begin_lines();
    add(is_not_null(column(2)));
    column(4);
    join();
    refused("5, before 17", 5);
    begin_lines();
    add(is_not_null(column(2)));
    uint32_t value = column(0);
    binary(8, value, value);
    join();
    refused("6, before 17", 6);
    begin_lines();
    add(is_not_null(column(2)));
    value = column(0);
    binary(EQ, value, column(1));
    join();
    refused("7, before 17", 7);
    begin_lines();
    add(column(0));
    join();
    refused("7, of the root", 7);
}

static void test_counted(void)
{
    begin_lines();
    uint32_t truth = is_not_null(column(2));
    for (int i = 0; i < 129; i++)
        add(truth);
    join();
    refused("9, before 17", 9);
    begin_lines();
    uint32_t tree = is_not_null(column(2));
    for (int i = 0; i < 12; i++)
        tree = binary(SCREEN_OP_AND, tree, tree);
    sent.root = tree;
    refused("8, before 9 and 17", 8);
    begin_lines();
    uint32_t plain = line(GT, 0, INT, 3);
    for (int i = 0; i < 129; i++)
        add(plain);
    join();
    refused("9, of plain lines", 9);
    count = 128;
    shows("128 lines", at(3, 1));
}

static void test_not_plain(void)
{
    uint32_t left;
    begin_lines();
    compares(GT, 3);
    add(is_not_null(column(2)));
    join();
    refused("17: a Truth column", 17);
    begin_lines();
    compares(GT, 3);
    compares(LT, 3);
    add(column(2));
    join();
    refused("17, though nothing passes", 17);
    begin_lines();
    left = column(0);
    add(binary(LT, left, column(3)));
    join();
    refused("17: two columns by Lt", 17);
    begin_lines();
    left = column(0);
    add(not_of(binary(NOT_EQ, left, column(3))));
    join();
    refused("17: Not of a difference", 17);
    begin_lines();
    left = column(0);
    add(binary(SCREEN_OP_EQ_VALIDITY, left, literal(INT, 3)));
    join();
    refused("17: EqValidity", 17);
    begin_lines();
    left = column(0);
    add(binary(EQ, left, null_of(INT)));
    join();
    refused("17: a null literal", 17);
    begin_lines();
    left = column(0);
    add(is_in(0, left, list(1, INT, 0, 0)));
    join();
    refused("17: a list that holds a null", 17);
    begin_lines();
    for (int64_t v = 0; v < 101; v++)
        pool_value(v);
    left = column(0);
    add(is_in(0, left, list(0, INT, 0, 101)));
    join();
    refused("17: a list of 101 values", 17);
    begin_lines();
    left = line(GT, 0, INT, 3);
    add(binary(SCREEN_OP_OR, left, left));
    join();
    refused("17: Or", 17);
    begin_lines();
    left = column(0);
    left = binary(SCREEN_OP_FLOOR_DIVIDE, left, literal(INT, 2));
    add(binary(GT, left, literal(INT, 1)));
    join();
    refused("17: a division", 17);
    begin(NULL, 0);
    count = 0;
    add(literal(TRUTH, 1));
    join();
    refused("17: no column", 17);
    begin_lines();
    left = column(3);
    binary(SCREEN_OP_MODULUS, left, literal(INT, 2));
    column(2);
    compares(GT, 3);
    shows("records that are not reached", at(3, 1));
}

/* 18 by itself: each of the four reasons, in columns that are read and in those that are not. */
static void test_cells(void)
{
    static const int64_t HALVES[] = {2, -2, 3, 256, 257, MOST, LEAST, LEAST + 1, INT64_C(1) << 32};
    static const size_t LENGTHS[] = {0, 1, 15, 16, 48, 63, 65, 72, 80, 128};
    uint8_t row[ROOM];
    begin_lines();
    compares(GT, 3);
    join();
    memset(row, 0, sizeof row);
    screen_store_cell(row, 0, 4, 0);
    report(check("right", row, CELL * 4, 14) == PASSES, "right", "does not pass");
    for (size_t i = 0; i < sizeof LENGTHS / sizeof LENGTHS[0]; i++)
        report(check("18: a length", row, LENGTHS[i], 14) == 18, "18: a length", "another answer");
    for (unsigned bit = 4; bit < 64; bit++)
        report(check("18: a null mark", row, CELL * 4, 14 | UINT64_C(1) << bit) == 18, "18: a null mark", "another answer");
    report(check("18: a null whose whole part is not zero", row, CELL * 4, 15) == 18, "18: a null", "another answer");
    for (uint64_t c = 0; c < 4; c++) {
        for (size_t i = 0; i < sizeof HALVES / sizeof HALVES[0]; i++) {
            screen_store_cell(row, c, 4, HALVES[i]);
            report(check("18: a half part", row, CELL * 4, 0) == 18, "18: a half part", "another answer");
        }
        for (int64_t half = -1; half < 2; half++)
            for (int64_t whole = -1; whole < 2; whole++) {
                memset(row, 0, sizeof row);
                screen_store_cell(row, 0, 4, 0);
                screen_store_cell(row, c, whole, half);
                uint32_t got = check("18: a null with parts", row, CELL * 4, UINT64_C(1) << c);
                report((got == 18) == (whole != 0 || half != 0), "18: a null with parts", "another answer");
            }
        memset(row, 0, sizeof row);
        screen_store_cell(row, 0, 4, 0);
    }
    screen_store_cell(row, 2, LEAST, -1);
    screen_store_cell(row, 1, MOST, 1);
    report(check("any whole part, not read", row, CELL * 4, 8) == PASSES, "any whole part, not read", "refused");
    report(strstr(screen_refusal_text(SCREEN_REFUSED_CELLS), "16 bytes") != NULL, "the text of 18", "another");
    report(strstr(screen_refusal_text(SCREEN_REFUSED_SHORT), "row shown") != NULL, "the text of 14", "another");
}

/* ------------------------------------------------------------------------------------------------- the check by keys */

/* Twice the value, so that a half is a whole number; 65 bits and a sign. */
__extension__ typedef __int128 wide;

static wide key(int64_t whole, int64_t half)
{
    return 2 * (wide)whole + half;
}

static const int64_t WHOLES[] = {LEAST, LEAST + 1, -2, -1, 0, 1, 2, 3, MOST - 1, MOST};
enum { WHOLE_COUNT = sizeof WHOLES / sizeof WHOLES[0] };

static int holds(unsigned code, wide a, wide b)
{
    switch (code) {
    case EQ:
        return a == b;
    case NOT_EQ:
        return a != b;
    case LT:
        return a < b;
    case LT_EQ:
        return a <= b;
    case GT:
        return a > b;
    default:
        return a >= b;
    }
}

/* The screen answers of c0 at each of these values, and of null. */
static void check_c0(const char *name, int (*want)(wide value), int null_passes)
{
    uint8_t row[CELL * 4];
    memset(row, 0, sizeof row);
    report(check(name, row, sizeof row, 15) == (null_passes ? PASSES : FAILS), name, "another answer of null");
    for (int i = 0; i < WHOLE_COUNT; i++)
        for (int64_t half = -1; half < 2; half++) {
            screen_store_cell(row, 0, WHOLES[i], half);
            uint32_t got = check(name, row, sizeof row, 14);
            report(got == (want(key(WHOLES[i], half)) ? PASSES : FAILS), name, "another answer");
        }
}

static unsigned tried_code;
static int64_t tried_value, tried_other;
static int tried_turned;

static int as_compared(wide value)
{
    return holds(tried_code, value, key(tried_value, 0)) != tried_turned;
}

static int as_listed(wide value)
{
    return (value == key(tried_value, 0) || value == key(tried_other, 0)) != tried_turned;
}

static int as_ranged(wide value)
{
    int above = tried_code == SCREEN_CLOSED_BOTH || tried_code == SCREEN_CLOSED_LEFT ? GT_EQ : GT;
    int below = tried_code == SCREEN_CLOSED_BOTH || tried_code == SCREEN_CLOSED_RIGHT ? LT_EQ : LT;
    return holds((unsigned)above, value, key(tried_value, 0)) && holds((unsigned)below, value, key(tried_other, 0));
}

static int always(wide value)
{
    (void)value;
    return 1;
}

static int never(wide value)
{
    (void)value;
    return 0;
}

static void one_line(uint32_t record)
{
    add(tried_turned ? not_of(record) : record);
    join();
}

static void test_values(void)
{
    static const unsigned CODES[6] = {EQ, NOT_EQ, LT, LT_EQ, GT, GT_EQ};
    for (int i = 0; i < WHOLE_COUNT; i++)
        for (tried_turned = 0; tried_turned < 2; tried_turned++) {
            tried_value = WHOLES[i];
            tried_other = WHOLES[(i + 3) % WHOLE_COUNT];
            for (int j = 0; j < 6; j++) {
                tried_code = CODES[j];
                begin_lines();
                one_line(line(tried_code, 0, INT, tried_value));
                check_c0("a comparison", as_compared, 0);
            }
            for (unsigned nulls_equal = 0; nulls_equal < 2; nulls_equal++) {
                begin_lines();
                one_line(in_list(0, tried_value, tried_other, nulls_equal));
                check_c0("a list", as_listed, tried_turned && nulls_equal);
            }
        }
    tried_turned = 0;
    for (tried_code = 0; tried_code < 4; tried_code++)
        for (int i = 0; i < WHOLE_COUNT; i++) {
            tried_value = WHOLES[i];
            tried_other = WHOLES[(i + 4) % WHOLE_COUNT];
            begin_lines();
            one_line(range(tried_code, tried_value, tried_other));
            check_c0("a range", as_ranged, 0);
        }
    for (tried_turned = 0; tried_turned < 2; tried_turned++) {
        begin_lines();
        one_line(is_null(column(0)));
        check_c0("is_null", tried_turned ? always : never, !tried_turned);
        begin_lines();
        one_line(is_not_null(column(0)));
        check_c0("is_not_null", tried_turned ? never : always, tried_turned);
        begin_lines();
        one_line(in_none(0, 1));
        check_c0("an empty list", tried_turned ? always : never, tried_turned);
    }
}

/* Two equal columns at all pairs of values: (w, +1) is (w + 1, -1), and nothing is beyond 64 bits by accident. */
static void test_pairs(void)
{
    uint8_t row[CELL * 4];
    begin_lines();
    add(equal(0, 3));
    join();
    memset(row, 0, sizeof row);
    for (int i = 0; i < WHOLE_COUNT; i++)
        for (int j = 0; j < WHOLE_COUNT; j++)
            for (int64_t a = -1; a < 2; a++)
                for (int64_t b = -1; b < 2; b++) {
                    screen_store_cell(row, 0, WHOLES[i], a);
                    screen_store_cell(row, 3, WHOLES[j], b);
                    uint32_t want = key(WHOLES[i], a) == key(WHOLES[j], b) ? PASSES : FAILS;
                    report(check("equal columns", row, sizeof row, 6) == want, "equal columns", "another answer");
                }
    memset(row, 0, sizeof row);
    for (uint64_t nulls = 6; nulls < 16; nulls++)
        if ((nulls & 9) != 0)
            report(check("equal nulls", row, sizeof row, nulls) == FAILS, "equal nulls", "pass");
    begin_lines();
    add(equal(0, 0));
    join();
    screen_store_cell(row, 0, MOST, 1);
    report(check("equal to itself", row, sizeof row, 14) == PASSES, "equal to itself", "does not pass");
    screen_store_cell(row, 0, 0, 0);
    report(check("null equal to itself", row, sizeof row, 15) == FAILS, "null equal to itself", "passes");
    begin_lines();
    add(line(GT, 1, DAY, INT32_MAX));
    join();
    screen_store_cell(row, 1, MOST, 0);
    report(check("a Day beyond 32 bits", row, sizeof row, 13) == PASSES, "a Day beyond 32 bits", "does not pass");
    screen_store_cell(row, 1, INT32_MAX, 0);
    report(check("the last Day", row, sizeof row, 13) == FAILS, "the last Day", "passes");
}

/* ----------------------------------------------------------------------------------------------------------- at random */

static uint64_t state = 1;

static uint32_t draw(uint32_t below)
{
    state = state * UINT64_C(6364136223846793005) + UINT64_C(1442695040888963407);
    return (uint32_t)((state >> 33) % below);
}

static int64_t draw_value(void)
{
    static const int64_t FAR[4] = {LEAST, MOST, LEAST + 1, MOST - 1};
    return draw(20) == 0 ? FAR[draw(4)] : (int64_t)draw(5) - 1;
}

static uint32_t random_line(void)
{
    static const uint32_t COLUMNS[3] = {0, 3, 1};
    static const unsigned CODES[6] = {EQ, NOT_EQ, LT, LT_EQ, GT, GT_EQ};
    uint32_t number = COLUMNS[draw(3)], record;
    int day = number == 1;
    switch (draw(9)) {
    case 0:
        record = is_null(column(number));
        break;
    case 1:
        record = is_not_null(column(number));
        break;
    case 2:
        return day ? line(LT, 1, DAY, draw(4)) : equal(draw(2) ? 0 : 3, draw(4) ? 3 : 0);
    case 3:
    case 4:
        record = day ? line(GT, 1, DAY, draw(4)) : in_list(number, draw_value(), draw_value(), draw(2));
        break;
    case 5:
        return day ? line(EQ, 1, DAY, 2) : range(draw(4), draw_value(), draw_value());
    default:
        record = line(CODES[draw(6)], number, day ? DAY : INT, day ? (int64_t)draw(4) : draw_value());
    }
    return draw(3) == 0 ? not_of(record) : record;
}

/* What rewriting says of the lines. */
static int nothing_passes(void)
{
    struct screen_lent part = sent;
    static uint8_t records[LEND_RECORDS];
    memcpy(records, sent.records, sent.records_len);
    part.records = records;
    part.records_room = part.records_len = sizeof records;
    return screen_lent_rewrite(&part) == SCREEN_NOTHING_PASSES;
}

/* The row test of a row whose half parts are zero; 0 if one is not, or a value is outside its type. */
static uint32_t tested(const uint8_t *row, uint64_t nulls)
{
    uint8_t values[8 * 4];
    for (uint64_t c = 0; c < 4; c++) {
        if (screen_half_at(row, c) != 0)
            return 0;
        screen_store_value(values + 8 * c, screen_whole_at(row, c));
    }
    uint32_t got = screen_lent_test_row(&sent, values, sizeof values, nulls);
    return screen_refused(got) ? 0 : got;
}

/* Anyone's row of whole numbers: the check and the row test say the same. */
static void propose(uint8_t *row, uint64_t *nulls)
{
    *nulls = 4;
    memset(row, 0, CELL * 4);
    for (uint64_t c = 0; c < 4; c++) {
        if (c == 2 || draw(4) == 0)
            *nulls |= UINT64_C(1) << c;
        else
            screen_store_cell(row, c, c == 1 ? (int64_t)draw(4) : draw_value(), 0);
    }
    if (*nulls == 4 && draw(2) == 0)
        memcpy(row + 3 * CELL, row, CELL);
}

static void test_random(void)
{
    unsigned seen[2] = {0, 0}, whole_rows = 0, passing = 0;
    for (int round = 0; round < 3000; round++) {
        uint8_t row[ROOM];
        uint64_t nulls = 0;
        begin_lines();
        size_t most = 1 + draw(7);
        while (count < most)
            add(random_line());
        join();
        uint32_t got = show("random lines", CELL * 4 + draw(20), row, &nulls);
        report(got == (nothing_passes() ? NO_ROW : SHOWN), "random lines", "another answer than rewriting's");
        seen[got == SHOWN]++;
        if (got == SHOWN) {
            report(check("random lines", row, CELL * 4, nulls) == PASSES, "random lines", "the row shown does not pass");
            uint32_t truth = tested(row, nulls);
            whole_rows += truth != 0;
            report(truth == 0 || truth == SCREEN_TRUE, "random lines", "the row test says otherwise");
        }
        for (int i = 0; i < 4; i++) {
            propose(row, &nulls);
            uint32_t truth = tested(row, nulls), answer = check("a row", row, CELL * 4, nulls);
            passing += answer == PASSES;
            report(truth == 0 || (answer == PASSES) == (truth == SCREEN_TRUE), "a row", "the row test says otherwise");
            report(got == SHOWN || answer == FAILS, "a row", "passes a screen without a row");
        }
    }
    report(seen[0] > 300 && seen[1] > 300 && whole_rows > 100 && passing > 300, "random lines", "an answer is rare");
}

/* ---------------------------------------------------------------------------------------------------------- the stack */

static void *show_there(void *answer)
{
    uint8_t row[ROOM];
    uint64_t nulls = 0;
    *(uint32_t *)answer = screen_lent_show_row(&sent, row, sizeof row, &nulls);
    return NULL;
}

static void *check_there(void *answer)
{
    *(uint32_t *)answer = screen_lent_check_row(&sent, ZEROS, ROOM, 0);
    return NULL;
}

/* Lists carried by many equalities, the screens that need most, on threads with as much stack as the header asks for. */
static void test_stack(void)
{
    static uint8_t table[64];
    int64_t values[100];
    memset(table, INT, sizeof table);
    begin(table, sizeof table);
    count = 0;
    for (uint32_t c = 63; c-- > 0;)
        add(equal(c, c + 1));
    for (uint32_t n = 0; n < 65; n++) {
        for (int64_t v = 0; v < 100; v++)
            values[v] = 99 - v;
        uint32_t value = column(n % 64);
        add(is_in(n % 2, value, list_of(values, 100)));
    }
    join();
    on_thread("showing a row of 65 lists", show_there, (size_t)400 << 10, SHOWN);
    on_thread("checking a row of 65 lists", check_there, (size_t)104 << 10, PASSES);
}

int main(void)
{
    test_bounds();
    test_nulls_shown();
    test_lists_shown();
    test_equalities();
    test_ends();
    test_none();
    test_buffers();
    test_wide();
    test_checked();
    test_counted();
    test_not_plain();
    test_cells();
    test_values();
    test_pairs();
    test_random();
    test_stack();
    return finish();
}
