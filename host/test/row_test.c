/* screen_test_row: every refusal in its order, every kind of record on nulls, and that nothing lent is written. */
#define _POSIX_C_SOURCE 200809L
#include "lend.h"

#include "stack.h"

enum { INT = SCREEN_TYPE_INT, DAY = SCREEN_TYPE_DAY, TRUTH = SCREEN_TYPE_TRUTH };
enum { F = SCREEN_FALSE, U = SCREEN_UNKNOWN, T = SCREEN_TRUE };

static uint8_t row[8 * LEND_TABLE];
static size_t row_len;
static uint64_t nulls;

/* A row of zeros for the screen under construction, nothing null. */
static void zero_row(void)
{
    memset(row, 0, sizeof row);
    row_len = 8 * sent.table_len;
    nulls = 0;
}

static void cell(unsigned number, int64_t value)
{
    screen_store_value(row + 8 * number, value);
}

static void null_cell(unsigned number)
{
    cell(number, 0);
    nulls |= UINT64_C(1) << number;
}

static void expect(const char *name, uint32_t want)
{
    struct slices s = lend();
    uint8_t *lent_row = lent(row, row_len);
    uint32_t got = screen_test_row(s.table, sent.table_len, s.records, sent.records_len, s.pool, sent.pool_len,
                                   s.text, sent.text_len, sent.used, sent.root, lent_row, row_len, nulls);
    report(got == want, name, got < 256 ? screen_refusal_text(got) : "another truth");
    report(all_kept(&s) && kept(lent_row, row, row_len), name, "a lent byte changed");
    free(lent_row);
    give_back(&s);
}

/* ------------------------------------------------------------------------------------- refused as by screen_check */

static void test_check_refusals(void)
{
    uint8_t table[65];
    memset(table, INT, sizeof table);
    begin(table, 65);
    literal(TRUTH, 1);
    zero_row();
    expect("65 columns", SCREEN_REFUSED_TABLE);
    sent.table_len = 64;
    sent.table[3] = 9;
    expect("no type", SCREEN_REFUSED_TABLE);

    begin_mixed();
    literal(TRUTH, 1);
    zero_row();
    sent.used = UINT64_C(1) << 60;
    expect("a large used", SCREEN_REFUSED_SIZE);
    sent.used = 1;
    sent.pool_len = 9;
    expect("a cut-off pool", SCREEN_REFUSED_SIZE);
    sent.pool_len = 0;
    sent.root = 1;
    expect("root equal to used", SCREEN_REFUSED_ROOT);
    sent.root = UINT64_MAX;
    expect("root at its largest", SCREEN_REFUSED_ROOT);
    sent.root = 0;
    sent.records[3] = 1;
    expect("a nonzero unused field", SCREEN_REFUSED_RECORD);
    sent.records[3] = 0;
    sent.records[0] = 11;
    expect("an unknown kind", SCREEN_REFUSED_RECORD);

    begin_mixed();
    is_null(column(4));
    expect("a column not in the table", SCREEN_REFUSED_REFERENCE);
    begin_mixed();
    is_null(0);
    expect("its own input", SCREEN_REFUSED_REFERENCE);
    begin_mixed();
    binary(10, column(0), column(3));
    expect("arithmetic", SCREEN_REFUSED_OPERATOR);
    begin_mixed();
    not_of(binary(10, column(0), column(3)));
    expect("Not above arithmetic", SCREEN_REFUSED_OPERATOR);
    for (unsigned code = 8; code <= 12; code++) {
        begin_mixed();
        is_null(binary(code, column(0), column(3)));
        expect("arithmetic that is left out", SCREEN_REFUSED_OPERATOR);
    }
    for (unsigned code = SCREEN_OP_FLOOR_DIVIDE; code <= SCREEN_OP_MODULUS; code++) {
        begin_mixed();
        is_null(binary(code, column(1), column(1)));
        expect("a Day divided", SCREEN_REFUSED_TYPES);
        begin_mixed();
        is_null(binary(code, column(0), column(2)));
        expect("a division by a Truth", SCREEN_REFUSED_TYPES);
    }
    begin_mixed();
    binary(SCREEN_OP_EQ, column(0), column(1));
    expect("two types", SCREEN_REFUSED_TYPES);
    begin_mixed();
    column(0);
    expect("an Int root", SCREEN_REFUSED_TYPES);
}

/* ----------------------------------------------------------------------------------------- 8: the tree of the root */

/* `doublings` levels of And above a Truth column: a tree of 2^(doublings + 1) - 1 records. */
static uint32_t doubled(unsigned doublings)
{
    uint32_t top = column(2);
    for (unsigned i = 0; i < doublings; i++)
        top = binary(SCREEN_OP_AND, top, top);
    return top;
}

static void test_tree(void)
{
    begin_mixed();
    doubled(11);
    zero_row();
    expect("a tree of 4,095", F);
    is_null(11);
    expect("a tree of 4,096", F);
    is_not_null(12);
    expect("a tree of 4,097", SCREEN_REFUSED_TREE);
    sent.root = 12;
    expect("a tree of 4,096 below a larger one that the root does not reach", F);
    begin_mixed();
    doubled(12);
    zero_row();
    expect("a tree of 8,191", SCREEN_REFUSED_TREE);
    /* A count that is small, or nothing, once cut to 32 or 64 bits. */
    begin_mixed();
    doubled(31);
    expect("a tree of 2^32 - 1", SCREEN_REFUSED_TREE);
    begin_mixed();
    doubled(63);
    is_null(63);
    expect("a tree of 2^64", SCREEN_REFUSED_TREE);
    begin_mixed();
    doubled(4095);
    expect("a tree of 2^4096 - 1", SCREEN_REFUSED_TREE);

    /* Lists count, too: is_in has three records, and each Or above it adds four. */
    begin_mixed();
    uint32_t x = column(0);
    uint32_t in = is_in(0, x, list(0, INT, 0, 0));
    uint32_t top = in;
    for (unsigned i = 0; i < 1023; i++)
        top = binary(SCREEN_OP_OR, top, in);
    expect("a tree of 4,095 with lists", F);
    is_not_null(is_not_null(top));
    expect("a tree of 4,097 with lists", SCREEN_REFUSED_TREE);
}

/* --------------------------------------------------------------------------------------- 12 and 13: the row itself */

static void test_row_refusals(void)
{
    begin_mixed();
    literal(TRUTH, 1);
    zero_row();
    expect("a row of zeros", T);
    static const size_t lengths[] = {0, 1, 8, 24, 31, 33, 40, 64};
    for (size_t i = 0; i < sizeof lengths / sizeof lengths[0]; i++) {
        zero_row();
        row_len = lengths[i];
        expect("a row of another length", SCREEN_REFUSED_ROW_LENGTH);
    }
    row_len = 0;
    nulls = UINT64_MAX;
    expect("12 before 13", SCREEN_REFUSED_ROW_LENGTH);

    for (unsigned bit = 0; bit < 64; bit++) {
        zero_row();
        nulls = UINT64_C(1) << bit;
        expect("a null mark", bit < 4 ? (uint32_t)T : (uint32_t)SCREEN_REFUSED_ROW);
    }
    zero_row();
    nulls = UINT64_MAX;
    expect("all null marks", SCREEN_REFUSED_ROW);
    for (unsigned number = 0; number < 4; number++)
        for (unsigned byte = 0; byte < 8; byte++) {
            zero_row();
            nulls = UINT64_C(1) << number;
            row[8 * number + byte] = 1;
            expect("a null column whose value is not zero", SCREEN_REFUSED_ROW);
        }

    static const struct { unsigned number; int64_t value; int fine; } values[] = {
        {0, INT64_MAX, 1},         {0, INT64_MIN, 1}, {3, -1, 1},
        {1, INT32_MAX, 1},         {1, INT32_MIN, 1}, {1, (int64_t)INT32_MAX + 1, 0}, {1, (int64_t)INT32_MIN - 1, 0},
        {1, (int64_t)1 << 32, 0},  {1, INT64_MIN, 0}, {1, UINT32_MAX, 0},
        {2, 0, 1},                 {2, 1, 1},         {2, 2, 0},                      {2, -1, 0},
        {2, (int64_t)1 << 32, 0},
    };
    for (size_t i = 0; i < sizeof values / sizeof values[0]; i++) {
        zero_row();
        cell(values[i].number, values[i].value);
        expect("a value and its type, in a column not read",
               values[i].fine ? (uint32_t)T : (uint32_t)SCREEN_REFUSED_ROW);
    }
    begin_mixed();
    doubled(12);
    zero_row();
    row_len = 1;
    expect("8 before 12", SCREEN_REFUSED_TREE);
}

static void test_column_counts(void)
{
    uint8_t table[64];
    memset(table, INT, sizeof table);
    begin(NULL, 0);
    literal(TRUTH, 1);
    zero_row();
    expect("no columns", T);
    nulls = 1;
    expect("no columns and a null mark", SCREEN_REFUSED_ROW);
    nulls = UINT64_C(1) << 63;
    expect("no columns and the highest null mark", SCREEN_REFUSED_ROW);
    nulls = 0;
    row_len = 8;
    expect("no columns and a value", SCREEN_REFUSED_ROW_LENGTH);

    begin(table, 63);
    is_null(column(62));
    zero_row();
    nulls = UINT64_MAX >> 1;
    expect("63 columns, all null", T);
    nulls = UINT64_MAX;
    expect("63 columns and 64 null marks", SCREEN_REFUSED_ROW);

    begin(table, 64);
    is_null(column(63));
    zero_row();
    expect("64 columns, none null", F);
    nulls = UINT64_MAX;
    expect("64 columns, all null", T);
    nulls = UINT64_C(1) << 63;
    expect("64 columns, the last null", T);
    nulls = ~(UINT64_C(1) << 63);
    cell(63, INT64_MIN);
    expect("64 columns, all null but the last", F);
    uint8_t one[16] = {SCREEN_KIND_NULL, 0, TRUTH};
    report(screen_test_row(NULL, 0, one, 16, NULL, 0, NULL, 0, 1, 0, NULL, 0, 0) == U, "all NULL but the records", "not U");
    report(screen_test_row(NULL, 0, NULL, 0, NULL, 0, NULL, 0, 0, 0, NULL, 0, 0) == SCREEN_REFUSED_ROOT, "all NULL", "not 3");
}

/* ------------------------------------------------------------------------------------------------------ the truths */

/* Columns c0, c1 Truth: each pair of truths, null standing for unknown, under one operator. */
static void table_is(unsigned code, const char *name, const uint32_t want[3][3])
{
    static const uint8_t table[2] = {TRUTH, TRUTH};
    begin(table, 2);
    binary(code, column(0), column(1));
    for (unsigned a = 0; a < 3; a++)
        for (unsigned b = 0; b < 3; b++) {
            zero_row();
            if (a == 1)
                null_cell(0);
            else
                cell(0, a / 2);
            if (b == 1)
                null_cell(1);
            else
                cell(1, b / 2);
            expect(name, want[a][b]);
        }
}

static void test_tables(void)
{
    static const uint32_t and3[3][3] = {{F, F, F}, {F, U, U}, {F, U, T}};
    static const uint32_t or3[3][3] = {{F, U, T}, {U, U, T}, {T, T, T}};
    static const uint32_t xor3[3][3] = {{F, U, T}, {U, U, U}, {T, U, F}};
    static const uint32_t eq[3][3] = {{T, U, F}, {U, U, U}, {F, U, T}};
    static const uint32_t not_eq[3][3] = {{F, U, T}, {U, U, U}, {T, U, F}};
    static const uint32_t lt[3][3] = {{F, U, T}, {U, U, U}, {F, U, F}};
    static const uint32_t lt_eq[3][3] = {{T, U, T}, {U, U, U}, {F, U, T}};
    static const uint32_t gt[3][3] = {{F, U, F}, {U, U, U}, {T, U, F}};
    static const uint32_t gt_eq[3][3] = {{T, U, F}, {U, U, U}, {T, U, T}};
    static const uint32_t same[3][3] = {{T, F, F}, {F, T, F}, {F, F, T}};
    static const uint32_t differs[3][3] = {{F, T, T}, {T, F, T}, {T, T, F}};
    table_is(SCREEN_OP_AND, "And", and3);
    table_is(SCREEN_OP_LOGICAL_AND, "LogicalAnd", and3);
    table_is(SCREEN_OP_OR, "Or", or3);
    table_is(SCREEN_OP_LOGICAL_OR, "LogicalOr", or3);
    table_is(SCREEN_OP_XOR, "Xor", xor3);
    table_is(SCREEN_OP_EQ, "Eq", eq);
    table_is(SCREEN_OP_NOT_EQ, "NotEq", not_eq);
    table_is(SCREEN_OP_LT, "Lt, false below true", lt);
    table_is(SCREEN_OP_LT_EQ, "LtEq", lt_eq);
    table_is(SCREEN_OP_GT, "Gt", gt);
    table_is(SCREEN_OP_GT_EQ, "GtEq", gt_eq);
    table_is(SCREEN_OP_EQ_VALIDITY, "EqValidity", same);
    table_is(SCREEN_OP_NOT_EQ_VALIDITY, "NotEqValidity", differs);
}

/* One Int column, one record above it; its truth with the column null, and with these values. */
static void one_line(const char *name, uint32_t of_null, const int64_t *values, const uint32_t *wants, size_t n)
{
    zero_row();
    null_cell(0);
    expect(name, of_null);
    for (size_t i = 0; i < n; i++) {
        zero_row();
        cell(0, values[i]);
        expect(name, wants[i]);
    }
}

static void test_single(void)
{
    static const int64_t extremes[] = {INT64_MIN, -1, 0, 1, INT64_MAX};
    static const uint32_t none[] = {F, F, F, F, F};
    static const uint32_t all[] = {T, T, T, T, T};
    static const uint32_t negative[] = {T, T, F, F, F};
    begin_mixed();
    is_null(column(0));
    one_line("is_null", T, extremes, none, 5);
    begin_mixed();
    is_not_null(column(0));
    one_line("is_not_null", F, extremes, all, 5);
    begin_mixed();
    line(SCREEN_OP_LT, 0, INT, 0);
    one_line("below zero", U, extremes, negative, 5);
    begin_mixed();
    binary(SCREEN_OP_GT, literal(INT, 0), column(0));
    one_line("zero above", U, extremes, negative, 5);

    static const uint8_t table[1] = {TRUTH};
    static const int64_t truths[] = {0, 1};
    static const uint32_t negated[] = {T, F};
    begin(table, 1);
    not_of(column(0));
    one_line("Not", U, truths, negated, 2);
    begin(table, 1);
    is_null(not_of(column(0)));
    one_line("a Not that is unknown is null", T, truths, none, 2);
    begin(table, 1);
    binary(SCREEN_OP_EQ_VALIDITY, not_of(column(0)), null_of(TRUTH));
    one_line("a Not that is unknown equals null", T, truths, none, 2);
}

static void test_between(void)
{
    static const int64_t values[] = {0, 1, 3, 5, 6};
    static const uint32_t wants[4][5] = {{F, T, T, T, F}, {F, T, T, F, F}, {F, F, T, T, F}, {F, F, T, F, F}};
    for (unsigned closed = 0; closed < 4; closed++) {
        begin_mixed();
        uint32_t low = literal(INT, 1);
        uint32_t high = literal(INT, 5);
        is_between(closed, column(0), low, high);
        one_line("is_between", U, values, wants[closed], 5);
    }
    static const uint32_t no_low[] = {U, U, U, U, F};
    static const uint32_t no_high[] = {F, U, U, U, U};
    begin_mixed();
    is_between(SCREEN_CLOSED_BOTH, column(0), null_of(INT), literal(INT, 5));
    one_line("is_between without a low end", U, values, no_low, 5);
    begin_mixed();
    is_between(SCREEN_CLOSED_BOTH, column(0), literal(INT, 1), null_of(INT));
    one_line("is_between without a high end", U, values, no_high, 5);
}

/* The list rule: a list of 7 and 9, with a null or without, and a list without a value. */
static void test_members(void)
{
    static const int64_t values[] = {4, 7, 8, 9};
    for (unsigned holds_null = 0; holds_null < 2; holds_null++)
        for (unsigned nulls_equal = 0; nulls_equal < 2; nulls_equal++) {
            uint32_t miss = holds_null && !nulls_equal ? U : F;
            uint32_t of_null = !nulls_equal ? U : holds_null ? T : F;
            const uint32_t found[] = {miss, T, miss, T};
            const uint32_t not_found[] = {miss, miss, miss, miss};
            begin_mixed();
            pool_value(4);
            pool_value(7);
            pool_value(9);
            is_in(nulls_equal, column(0), list(holds_null, INT, 1, 2));
            one_line("is_in", of_null, values, found, 4);
            begin_mixed();
            pool_value(7);
            is_in(nulls_equal, column(0), list(holds_null, INT, 1, 0));
            one_line("is_in of a list without a value", holds_null ? of_null : F, values, not_found, 4);
        }
}

/* ------------------------------------------------------------------------------------------------------- divisions */

/* The four columns are Int: a, b, and what a // b and a % b are to be, null or a number. */
static void division_is(int64_t a, int64_t b, int null, int64_t quotient, int64_t remainder)
{
    static const uint8_t table[4] = {INT, INT, INT, INT};
    const int64_t wants[2] = {quotient, remainder};
    for (uint32_t which = 0; which < 2; which++)
        for (unsigned literals = 0; literals < 4; literals++) {
            begin(table, 4);
            uint32_t left = literals & 1 ? literal(INT, a) : column(0);
            uint32_t right = literals & 2 ? literal(INT, b) : column(1);
            uint32_t divided = binary(SCREEN_OP_FLOOR_DIVIDE + which, left, right);
            binary(SCREEN_OP_EQ_VALIDITY, divided, column(2));
            zero_row();
            cell(0, a);
            cell(1, b);
            if (null)
                null_cell(2);
            else
                cell(2, wants[which]);
            expect(which == 0 ? "a quotient" : "a remainder", T);
            if (null) {
                cell(2, 0);
                nulls = 0;
            } else {
                cell(2, wants[which] == INT64_MAX ? 0 : wants[which] + 1);
            }
            expect("another number", F);
        }
}

/* Rounded down, the remainder with the divisor's sign: quotient * divisor + remainder is the dividend. */
static void test_divisions(void)
{
    static const struct { int64_t a, b, quotient, remainder; } known[] = {
        {7, 2, 3, 1},     {-7, 2, -4, 1},   {7, -2, -4, -1},  {-7, -2, 3, -1}, {6, 3, 2, 0},     {-6, 3, -2, 0},
        {6, -3, -2, 0},   {-6, -3, 2, 0},   {0, 5, 0, 0},     {0, -5, 0, 0},   {1, 5, 0, 1},     {-1, 5, -1, 4},
        {1, -5, -1, -4},  {-1, -5, 0, -1},  {399, 100, 3, 99}, {-1, 100, -1, 99}, {-100, 100, -1, 0},
        {-101, 100, -2, 99},
        {INT64_MIN, 1, INT64_MIN, 0},
        {INT64_MAX, 1, INT64_MAX, 0},
        {INT64_MAX, -1, -INT64_MAX, 0},
        {-INT64_MAX, -1, INT64_MAX, 0},
        {INT64_MIN, 2, INT64_MIN / 2, 0},
        {INT64_MIN, -2, INT64_MAX / 2 + 1, 0},
        {INT64_MIN, 3, -3074457345618258603, 1},
        {INT64_MAX, 2, INT64_MAX / 2, 1},
        {INT64_MIN, INT64_MIN, 1, 0},
        {INT64_MAX, INT64_MAX, 1, 0},
        {INT64_MIN, INT64_MAX, -2, INT64_MAX - 1},
        {INT64_MAX, INT64_MIN, -1, -1},
        {1, INT64_MIN, -1, -INT64_MAX},
        {-1, INT64_MIN, 0, -1},
        {1, INT64_MAX, 0, 1},
        {-1, INT64_MAX, -1, INT64_MAX - 1},
    };
    for (size_t i = 0; i < sizeof known / sizeof known[0]; i++)
        division_is(known[i].a, known[i].b, 0, known[i].quotient, known[i].remainder);
    division_is(INT64_MIN, -1, 1, 0, 0);
    static const int64_t some[] = {INT64_MIN, -7, -1, 0, 1, 7, INT64_MAX};
    for (size_t i = 0; i < sizeof some / sizeof some[0]; i++)
        division_is(some[i], 0, 1, 0, 0);
    for (int64_t a = -9; a <= 9; a++) /* C's own, corrected where the remainder's sign is not the divisor's */
        for (int64_t b = -4; b <= 4; b++) {
            if (b == 0)
                continue;
            int64_t up = a % b != 0 && (a % b < 0) != (b < 0);
            division_is(a, b, 0, a / b - up, a % b + up * b);
        }
}

/* A null on either side, from a column or written, is null; so is what is divided further. */
static void test_divided_nulls(void)
{
    for (unsigned code = SCREEN_OP_FLOOR_DIVIDE; code <= SCREEN_OP_MODULUS; code++) {
        begin_mixed();
        is_null(binary(code, column(0), column(3)));
        zero_row();
        cell(0, 7);
        cell(3, 2);
        expect("no null", F);
        null_cell(3);
        expect("a null divisor is not zero, and not a number", T);
        cell(3, 2);
        nulls = 0;
        null_cell(0);
        expect("a null dividend", T);
        null_cell(3);
        expect("two nulls", T);
        zero_row();
        cell(0, 7);
        expect("a zero divisor", T);

        begin_mixed();
        binary(SCREEN_OP_EQ, binary(code, column(0), null_of(INT)), literal(INT, 0));
        zero_row();
        expect("a comparison with what a null divides", U);
        begin_mixed();
        binary(SCREEN_OP_EQ, binary(code, null_of(INT), column(0)), literal(INT, 0));
        cell(0, 5);
        expect("a comparison with a null that is divided", U);
        begin_mixed();
        uint32_t null = binary(code, column(0), literal(INT, 0));
        is_null(binary(code, literal(INT, 100), binary(code, literal(INT, 7), null)));
        zero_row();
        expect("a division of a division of null", T);
        begin_mixed();
        null = binary(code, column(0), literal(INT, 0));
        not_of(binary(SCREEN_OP_EQ, null, null));
        expect("Not of a comparison that is unknown", U);
        begin_mixed();
        null = binary(code, column(0), literal(INT, 0));
        pool_value(0);
        is_in(0, null, list(0, INT, 0, 1));
        expect("a null quotient in a list", U);
        begin_mixed();
        null = binary(code, column(0), literal(INT, 0));
        binary(SCREEN_OP_OR, binary(SCREEN_OP_GT, null, literal(INT, 1)), literal(TRUTH, 1));
        expect("unknown Or true", T);
    }
}

/* "size // 100 >= 3", "size % 100 == 0", and a division in every other place of an Int. */
static void test_divided_lines(void)
{
    static const int64_t sizes[] = {-100, -1, 0, 299, 300, 399};
    static const uint32_t lots[] = {F, F, F, F, T, T}, whole[] = {T, F, T, F, T, F}, ranges[] = {F, F, F, T, T, T};
    static const uint32_t in[] = {F, F, F, F, T, T};
    begin_mixed();
    binary(SCREEN_OP_GT_EQ, binary(SCREEN_OP_FLOOR_DIVIDE, column(0), literal(INT, 100)), literal(INT, 3));
    one_line("size // 100 >= 3", U, sizes, lots, 6);
    begin_mixed();
    binary(SCREEN_OP_EQ, binary(SCREEN_OP_MODULUS, column(0), literal(INT, 100)), literal(INT, 0));
    one_line("size % 100 == 0", U, sizes, whole, 6);
    begin_mixed();
    uint32_t hundreds = binary(SCREEN_OP_FLOOR_DIVIDE, column(0), literal(INT, 100));
    is_between(SCREEN_CLOSED_BOTH, hundreds, binary(SCREEN_OP_FLOOR_DIVIDE, literal(INT, 5), literal(INT, 2)),
               literal(INT, 3));
    one_line("size // 100 between 5 // 2 and 3", U, sizes, ranges, 6);
    begin_mixed();
    pool_value(3);
    hundreds = binary(SCREEN_OP_FLOOR_DIVIDE, column(0), literal(INT, 100));
    is_in(0, hundreds, list(0, INT, 0, 1));
    one_line("size // 100 in (3)", U, sizes, in, 6);
}

/* The deepest screens, on a thread with as much stack as the header asks for. */
static void *deep(void *unused)
{
    begin_mixed();
    uint32_t top = column(2);
    while (sent.used < 4096)
        top = not_of(top);
    zero_row();
    expect("4,095 Nots", T);
    null_cell(2);
    expect("4,095 Nots of null", U);

    /* Truths that are compared as values: each level goes through both evaluators. */
    begin_mixed();
    uint32_t truth = literal(TRUTH, 1);
    top = column(2);
    while (sent.used < 2048)
        top = binary(SCREEN_OP_EQ, top, truth);
    zero_row();
    cell(2, 1);
    expect("2,046 comparisons of truths", T);

    begin_mixed();
    uint32_t low = literal(TRUTH, 0);
    top = column(2);
    while (sent.used < 1366)
        top = is_between(SCREEN_CLOSED_BOTH, top, low, low);
    zero_row();
    expect("1,364 ranges of truths, each the negation of the one before", F);

    begin_mixed();
    top = column(2);
    while (sent.used < 4096)
        top = is_not_null(top);
    zero_row();
    expect("4,095 null tests", T);

    /* Divisions of divisions: a tree of 4,090, the divisor in it each time. */
    begin_mixed();
    uint32_t divisor = literal(INT, 1);
    top = column(0);
    while (sent.used < 2046)
        top = binary(SCREEN_OP_FLOOR_DIVIDE, top, divisor);
    is_not_null(top);
    zero_row();
    cell(0, INT64_MIN);
    expect("2,044 divisions", T);
    null_cell(0);
    expect("2,044 divisions of null", F);
    return unused;
}

static void test_deep(void)
{
    on_stack(deep, NULL, (size_t)3 << 19);
}

static void test_texts(void)
{
    static const uint32_t own[] = {SCREEN_REFUSED_TREE, SCREEN_REFUSED_ROW_LENGTH, SCREEN_REFUSED_ROW};
    for (size_t i = 0; i < sizeof own / sizeof own[0]; i++)
        report(strcmp(screen_refusal_text(own[i]), screen_refusal_text(0)) != 0, "screen_refusal_text", "no sentence");
}

int main(void)
{
    test_check_refusals();
    test_tree();
    test_row_refusals();
    test_column_counts();
    test_tables();
    test_single();
    test_between();
    test_members();
    test_divisions();
    test_divided_nulls();
    test_divided_lines();
    test_deep();
    test_texts();
    return finish();
}
