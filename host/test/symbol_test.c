/*
 * Symbols in every call: the refusals at the ends of the text, comparisons byte by byte, equal bytes at several starts, which
 * start a rewritten screen has, the text of its reasons, rows and chains; the largest screens on the stack that the header
 * asks for.
 */
#define _POSIX_C_SOURCE 200809L
#include "lend.h"
#include "stack.h"

enum { INT = SCREEN_TYPE_INT, TRUTH = SCREEN_TYPE_TRUTH, TEXT = SCREEN_TYPE_TEXT };
enum { EQ = SCREEN_OP_EQ, NE = SCREEN_OP_NOT_EQ, LT = SCREEN_OP_LT, LE = SCREEN_OP_LT_EQ, GT = SCREEN_OP_GT, GE = SCREEN_OP_GT_EQ };
enum { SAME = SCREEN_OP_EQ_VALIDITY, OTHER = SCREEN_OP_NOT_EQ_VALIDITY };
enum { F = SCREEN_FALSE, U = SCREEN_UNKNOWN, T = SCREEN_TRUE };

/* s0 and s1 Text, c2 Int; the text is SPXaNDXa and sixteen bytes, with 0 and 255 among them. */
static void begin_symbols(void)
{
    static const uint8_t table[3] = {TEXT, TEXT, INT};
    static const char text[] = "SPXaNDXa\0\377bcdefghijklmn";
    begin(table, sizeof table);
    memcpy(sent.text, text, 24);
    sent.text_len = 24;
}

static uint32_t says(unsigned op, uint32_t number, uint32_t start, uint32_t length)
{
    uint32_t left = column(number);
    return binary(op, left, symbol_at(start, length));
}

static uint32_t both(uint32_t left, uint32_t right)
{
    return binary(SCREEN_OP_AND, left, right);
}

static uint32_t check(const char *name)
{
    struct slices s = lend();
    uint32_t got = screen_check(s.table, sent.table_len, s.records, sent.records_len, s.pool, sent.pool_len, s.text,
                                sent.text_len, sent.used, sent.root);
    report(all_kept(&s), name, "a lent byte changed");
    give_back(&s);
    return got;
}

/* ---------------------------------------------------------------------------------------------------------- refusals */

static void literal_is(const char *name, uint32_t start, uint32_t length, uint32_t want)
{
    begin_symbols();
    says(EQ, 0, start, length);
    report(check(name) == want, name, "another answer");
}

static void entry_is(const char *name, uint32_t start, uint32_t length, uint32_t want)
{
    begin_symbols();
    uint32_t entry = pool_value(screen_symbol(start, length));
    uint32_t left = column(0);
    is_in(0, left, list(0, TEXT, entry, 1));
    report(check(name) == want, name, "another answer");
}

static void test_refusals(void)
{
    static const struct {
        const char *name;
        uint32_t start, length;
        int fine;
    } symbols[] = {
        {"the first byte", 0, 1, 1},           {"sixteen bytes", 8, 16, 1},
        {"seventeen bytes", 7, 17, 0},         {"the last byte", 23, 1, 1},
        {"one byte past the text", 24, 1, 0},  {"no byte at the very end", 24, 0, 1},
        {"no byte past the end", 25, 0, 0},    {"two bytes over the end", 23, 2, 0},
        {"a start that wraps", UINT32_MAX, 1, 0}, {"both that wrap", UINT32_MAX, UINT32_MAX, 0},
        {"a length of 2^32 - 1", 0, UINT32_MAX, 0},
    };
    for (size_t i = 0; i < sizeof symbols / sizeof symbols[0]; i++) {
        literal_is(symbols[i].name, symbols[i].start, symbols[i].length, symbols[i].fine ? SCREEN_ACCEPTED : SCREEN_REFUSED_RECORD);
        entry_is(symbols[i].name, symbols[i].start, symbols[i].length, symbols[i].fine ? SCREEN_ACCEPTED : SCREEN_REFUSED_REFERENCE);
    }
    begin_symbols();
    says(EQ, 0, 0, 3);
    sent.text_len = 8192;
    report(check("a text of 8,192 bytes") == SCREEN_ACCEPTED, "a text of 8,192 bytes", "refused");
    sent.text_len = 8193;
    report(check("a text of 8,193 bytes") == SCREEN_REFUSED_SIZE, "a text of 8,193 bytes", "not 2");
    sent.text_len = 0;
    report(check("no text") == SCREEN_REFUSED_RECORD, "no text", "not 4");
    begin_symbols();
    sent.text_len = 0;
    is_null(column(0));
    report(check("a Text column and no text") == SCREEN_ACCEPTED, "a Text column and no text", "refused");
    begin_symbols();
    uint32_t left = column(0);
    binary(EQ, left, column(2));
    report(check("a symbol beside a number") == SCREEN_REFUSED_TYPES, "a symbol beside a number", "not 7");
    begin_symbols();
    left = column(0);
    binary(SCREEN_OP_FLOOR_DIVIDE, left, column(1));
    report(check("symbols divided") == SCREEN_REFUSED_TYPES, "symbols divided", "not 7");
    begin_symbols();
    column(0);
    report(check("a root that is a symbol") == SCREEN_REFUSED_TYPES, "a root that is a symbol", "not 7");
}

/* -------------------------------------------------------------------------------------------------------------- rows */

static uint8_t row[24];

static void row_of(uint32_t start0, uint32_t length0, uint32_t start1, uint32_t length1)
{
    memset(row, 0, sizeof row);
    screen_store_value(row, screen_symbol(start0, length0));
    screen_store_value(row + 8, screen_symbol(start1, length1));
}

static void truth(const char *name, uint64_t nulls, uint32_t want)
{
    struct slices s = lend();
    uint8_t *copy = lent(row, 8 * sent.table_len);
    uint32_t got = screen_test_row(s.table, sent.table_len, s.records, sent.records_len, s.pool, sent.pool_len, s.text,
                                   sent.text_len, sent.used, sent.root, copy, 8 * sent.table_len, nulls);
    report(got == want, name, got < 256 ? screen_refusal_text(got) : "another truth");
    report(all_kept(&s) && kept(copy, row, 8 * sent.table_len), name, "a lent byte changed");
    free(copy);
    give_back(&s);
}

static uint32_t columns_compared(unsigned op)
{
    begin_symbols();
    uint32_t left = column(0);
    return binary(op, left, column(1));
}

static void test_order(void)
{
    static const struct {
        const char *name;
        uint32_t a, a_len, b, b_len;
        int order;
    } pairs[] = {
        {"equal bytes at two starts", 3, 1, 7, 1, 0}, {"two bytes at two starts", 2, 2, 6, 2, 0},
        {"a prefix", 0, 2, 0, 3, -1},                 {"the empty symbol", 24, 0, 8, 1, -1},
        {"two empty symbols", 0, 0, 24, 0, 0},        {"NDX below SPX", 4, 3, 0, 3, -1},
        {"byte 255 above a letter", 9, 1, 3, 1, 1},   {"byte 0 below a letter", 8, 1, 0, 1, -1},
        {"sixteen bytes and their first fifteen", 8, 16, 8, 15, 1},
    };
    for (size_t i = 0; i < sizeof pairs / sizeof pairs[0]; i++) {
        int o = pairs[i].order;
        row_of(pairs[i].a, pairs[i].a_len, pairs[i].b, pairs[i].b_len);
        columns_compared(EQ), truth(pairs[i].name, 0, o == 0 ? T : F);
        columns_compared(NE), truth(pairs[i].name, 0, o != 0 ? T : F);
        columns_compared(LT), truth(pairs[i].name, 0, o < 0 ? T : F);
        columns_compared(LE), truth(pairs[i].name, 0, o <= 0 ? T : F);
        columns_compared(GT), truth(pairs[i].name, 0, o > 0 ? T : F);
        columns_compared(GE), truth(pairs[i].name, 0, o >= 0 ? T : F);
        columns_compared(SAME), truth(pairs[i].name, 0, o == 0 ? T : F);
    }
    row_of(0, 0, 3, 1);
    columns_compared(EQ), truth("a null symbol", 1, U);
    columns_compared(SAME), truth("a null beside a symbol", 1, F);
    columns_compared(OTHER), truth("a null beside a symbol", 1, T);
    row_of(0, 0, 0, 0);
    columns_compared(SAME), truth("two null symbols", 3, T);
    columns_compared(GE), truth("two null symbols", 3, U);
}

static void test_lists(void)
{
    for (unsigned holds = 0; holds < 2; holds++)
        for (unsigned equal = 0; equal < 2; equal++) {
            begin_symbols();
            pool_value(screen_symbol(0, 3));
            pool_value(screen_symbol(3, 1));
            uint32_t left = column(0);
            is_in(equal, left, list(holds, TEXT, 0, 2));
            row_of(7, 1, 0, 0);
            truth("found at another start", 0, T);
            row_of(4, 3, 0, 0);
            truth("not found", 0, holds && !equal ? U : F);
            row_of(0, 0, 0, 0);
            truth("null", 1, equal ? (holds ? T : F) : U);
        }
    begin_symbols();
    uint32_t x = column(0);
    uint32_t low = symbol_at(4, 3);
    is_between(SCREEN_CLOSED_LEFT, x, low, symbol_at(0, 3));
    static const struct {
        const char *name;
        uint32_t start, length, want;
    } rows[] = {{"at the low end", 4, 3, T},
                {"at the high end", 0, 3, F},
                {"between", 0, 2, T},
                {"a row's symbol past the text", 24, 1, SCREEN_REFUSED_ROW},
                {"a row's symbol of 17 bytes", 0, 17, SCREEN_REFUSED_ROW}};
    for (unsigned i = 0; i < sizeof rows / sizeof *rows; i++) {
        row_of(rows[i].start, rows[i].length, 0, 0);
        truth(rows[i].name, 0, rows[i].want);
    }
    row_of(0, 0, 3, 1);
    truth("a null that is not zero", 2, SCREEN_REFUSED_ROW);
}

/* --------------------------------------------------------------------------------------------------------- rewriting */

/* The reasons' text, and the bytes of the literal of the first comparison added. */
static void rewrites(const char *name, uint32_t want, const char *told, uint32_t start, uint32_t length)
{
    uint8_t reasons[256];
    uint64_t before = sent.used, used = 0, passes = 0;
    sent.records_len = sizeof sent_store.records / 4;
    uint32_t got = screen_lent_rewrite_told(&sent, reasons, sizeof reasons, &used, &passes);
    report(got == want, name, got < 256 ? screen_refusal_text(got) : "another answer");
    report(used == strlen(told) && memcmp(reasons, told, strlen(told)) == 0, name, "another text");
    if (got == SCREEN_REWRITTEN) {
        struct screen_record r = screen_record_at(&sent, before + 1);
        report(r.kind == SCREEN_KIND_LITERAL && r.type == TEXT && r.b == start && r.c == length, name, "another literal");
        report(check(name) == SCREEN_ACCEPTED, name, "the screen returned is refused");
        report(screen_lent_rewrite_told(&sent, reasons, sizeof reasons, &used, &passes) == SCREEN_UNCHANGED, name, "not quiet");
    }
}

/* Two lines on s0, and the answer, the reasons and the symbol of the first comparison written. */
struct said {
    unsigned op;
    uint32_t start, length;
};
static const struct {
    const char *name;
    struct said a, b;
    uint32_t answer;
    const char *reasons;
    uint32_t start, length;
} pairs[] = {
    {"opened by an excluded symbol", {GE, 3, 1}, {NE, 7, 1}, SCREEN_REWRITTEN, "0 Gt t61 0\n", 7, 1},
    {"an upper end opened", {LE, 7, 1}, {NE, 3, 1}, SCREEN_REWRITTEN, "0 Lt t61 0\n", 3, 1},
    {"the one already held", {GE, 3, 1}, {GE, 7, 1}, SCREEN_REWRITTEN, "0 GtEq t61 0\n", 3, 1},
    {"opened by an open end", {GE, 3, 1}, {GT, 7, 1}, SCREEN_REWRITTEN, "0 Gt t61 0\n", 3, 1},
    {"a fixed value has the lower end's start", {LE, 7, 1}, {GE, 3, 1}, SCREEN_REWRITTEN, "0 Eq t61 1\n", 3, 1},
    {"a prefix is below what extends it", {GE, 0, 2}, {GE, 0, 3}, SCREEN_REWRITTEN, "0 GtEq t535058 1\n", 0, 3},
    {"the empty symbol", {GT, 24, 0}, {GT, 0, 0}, SCREEN_REWRITTEN, "0 Gt t 0\n", 24, 0},
    {"bytes 0 and 255", {GT, 8, 2}, {GT, 8, 1}, SCREEN_REWRITTEN, "0 Gt t00ff 0\n", 8, 2},
    {"two symbols at once", {EQ, 0, 3}, {EQ, 4, 3}, SCREEN_NOTHING_PASSES, "", 0, 0},
};

static void test_rewriting(void)
{
    begin_symbols();
    says(EQ, 0, 0, 3);
    rewrites("one line", SCREEN_UNCHANGED, "", 0, 0);
    for (size_t i = 0; i < sizeof pairs / sizeof pairs[0]; i++) {
        begin_symbols();
        uint32_t first = says(pairs[i].a.op, 0, pairs[i].a.start, pairs[i].a.length);
        both(first, says(pairs[i].b.op, 0, pairs[i].b.start, pairs[i].b.length));
        rewrites(pairs[i].name, pairs[i].answer, pairs[i].reasons, pairs[i].start, pairs[i].length);
    }
    begin_symbols();
    uint32_t left = column(0);
    uint32_t a = binary(EQ, left, column(1));
    both(a, says(EQ, 1, 7, 1));
    rewrites("carried along an equality", SCREEN_REWRITTEN, "0 Eq t61 1\n1 Eq t61 1\n", 7, 1);
    begin_symbols();
    pool_value(screen_symbol(0, 3));
    pool_value(screen_symbol(3, 1));
    left = column(0);
    a = is_in(0, left, list(0, TEXT, 0, 2));
    both(a, says(LT, 0, 0, 2));
    rewrites("a list and a bound below it", SCREEN_NOTHING_PASSES, "", 0, 0);
}

/* ------------------------------------------------------------------------------------------------- the other calls */

static void test_others(void)
{
    uint64_t line = 0, nulls = 0, columns = 0, count = 0;
    uint8_t cells[3 * SCREEN_CELL_BYTES] = {0};
    begin_symbols();
    says(EQ, 0, 0, 3);
    report(screen_lent_line_in_the_way(&sent, &line) == SCREEN_REFUSED_PLAIN, "a symbol's line", "not 17");
    report(screen_lent_show_row(&sent, cells, sizeof cells, &nulls) == SCREEN_REFUSED_PLAIN, "a symbol's line", "not 17");
    report(screen_lent_check_row(&sent, cells, sizeof cells, 0) == SCREEN_REFUSED_PLAIN, "a symbol's line", "not 17");
    report(screen_lent_columns_read(&sent, &columns, &count) == SCREEN_COLUMNS && columns == 1 && count == 1, "columns read", "others");
    begin_symbols();
    says(EQ, 0, 0, 3);
    uint32_t left = column(2);
    binary(GT, left, literal(INT, 3));
    report(screen_lent_line_in_the_way(&sent, &line) == SCREEN_ROW_PASSES, "a symbol that is not reached", "refused");
    report(screen_lent_show_row(&sent, cells, sizeof cells, &nulls) == SCREEN_ROW_SHOWN && nulls == 3 &&
               screen_whole_at(cells, 2) == 3 && screen_half_at(cells, 2) == 1, "a symbol that is not reached", "another row");
    screen_store_cell(cells, 0, 12345, 1);
    report(screen_lent_check_row(&sent, cells, sizeof cells, 2) == SCREEN_PASSES, "any whole part in a Text column", "refused");
}

static void test_chain(void)
{
    static const uint32_t starts[6] = {3, 7, 0, 4, 24, 8};
    static const uint32_t lengths[6] = {1, 1, 3, 3, 0, 16};
    uint8_t values[6 * 24] = {0}, listed[12];
    uint64_t marks[6] = {0}, count = 0;
    struct screen_tally tally = {1, 1, 1};
    begin_symbols();
    uint32_t a = says(GE, 0, 0, 1);
    both(a, says(LE, 0, 3, 1));
    for (size_t i = 0; i < 6; i++)
        screen_store_value(values + 24 * i, screen_symbol(starts[i], lengths[i]));
    memset(values + 24 * 2, 0, 8);
    marks[2] = 1;
    report(screen_lent_hedge_list(&sent, values, sizeof values, marks, 6, listed, sizeof listed, &tally, &count) == SCREEN_HEDGED &&
               count == 2 && screen_listed(listed, 0) == 0 && screen_listed(listed, 1) == 1, "a chain of symbols", "another list");
    report(tally.passed == 3 && tally.is_false == 4 && tally.unknown == 2, "a chain of symbols", "another tally");
    screen_store_value(values + 24 * 5, screen_symbol(20, 5));
    report(screen_lent_hedge_list(&sent, values, sizeof values, marks, 6, listed, sizeof listed, &tally, &count) == SCREEN_REFUSED_ROW &&
               tally.passed == 3, "a last row past the text", "not 13");
}

/* --------------------------------------------------------------------------------------------------------- the stack */

static void *check_there(void *answer)
{
    *(uint32_t *)answer = screen_lent_check(&sent);
    return NULL;
}

static void *rewrite_there(void *answer)
{
    static uint8_t reasons[SCREEN_MAX_REASONS_BYTES];
    uint64_t length = 0, passes = 0;
    *(uint32_t *)answer = screen_lent_rewrite_told(&sent, reasons, sizeof reasons, &length, &passes);
    return NULL;
}

static void *read_there(void *answer)
{
    uint64_t columns = 0, count = 0;
    *(uint32_t *)answer = screen_lent_columns_read(&sent, &columns, &count);
    return NULL;
}

static void *way_there(void *answer)
{
    uint64_t line = 0;
    *(uint32_t *)answer = screen_lent_line_in_the_way(&sent, &line);
    return NULL;
}

static void *show_there(void *answer)
{
    static uint8_t cells[3 * SCREEN_CELL_BYTES];
    uint64_t nulls = 0;
    *(uint32_t *)answer = screen_lent_show_row(&sent, cells, sizeof cells, &nulls);
    return NULL;
}

static void *check_row_there(void *answer)
{
    static const uint8_t cells[3 * SCREEN_CELL_BYTES];
    *(uint32_t *)answer = screen_lent_check_row(&sent, cells, sizeof cells, 0);
    return NULL;
}

static void *test_row_there(void *answer)
{
    static const uint8_t cells[24];
    *(uint32_t *)answer = screen_lent_test_row(&sent, cells, sizeof cells, 0);
    return NULL;
}

static void *hedge_there(void *answer)
{
    static const uint8_t cells[2 * 24];
    static const uint64_t marks[2];
    static uint8_t listed[2 * SCREEN_PLACE_BYTES];
    struct screen_tally tally = {0, 0, 0};
    uint64_t count = 0;
    *(uint32_t *)answer = screen_lent_hedge_list(&sent, cells, sizeof cells, marks, 2, listed, sizeof listed, &tally, &count);
    return NULL;
}

/* 63 lists of 100 symbols along 63 equalities of Text columns, and two lines on the first. */
static void carry_lists(void)
{
    static uint8_t table[SCREEN_MAX_COLUMNS];
    memset(table, TEXT, sizeof table);
    begin(table, sizeof table);
    memcpy(sent.text, "abcdefghijklmnopqrstuvwx", 24);
    sent.text_len = 24;
    for (unsigned i = 0; i < 100; i++)
        pool_value(screen_symbol(i % 8, 1 + i / 8));
    uint32_t top = says(GE, 0, 1, 1);
    top = both(top, says(GE, 0, 0, 2));
    for (uint32_t c = 0; c + 1 < SCREEN_MAX_COLUMNS; c++) {
        uint32_t left = column(c);
        top = both(top, binary(EQ, left, column(c + 1)));
    }
    for (uint32_t n = 0; n < 63; n++) {
        uint32_t value = column(n);
        top = both(top, is_in(0, value, list(0, TEXT, 0, 100)));
    }
    sent.records_len = 16 * SCREEN_MAX_RECORDS; /* room for the records added */
}

/* A full screen and a full pool with a symbol or a Text column, and the deepest one. */
static void test_stack(void)
{
    carry_lists();
    on_thread("rewriting with lists of symbols carried far", rewrite_there, 896 << 10, SCREEN_REWRITTEN);
    sent.records_len = 16 * sent.used;

    begin_symbols();
    for (unsigned i = 0; i < SCREEN_MAX_POOL_VALUES; i++)
        pool_value(screen_symbol(i % 8, 1));
    while (sent.used < SCREEN_MAX_RECORDS - 1000)
        column(0);
    uint32_t left = says(GE, 0, 0, 3);
    both(left, says(GE, 0, 0, 2));
    on_thread("checking with symbols", check_there, 72 << 10, SCREEN_ACCEPTED);
    on_thread("columns read with symbols", read_there, 104 << 10, SCREEN_COLUMNS);
    struct screen_lent before = sent;
    sent.records_len = 16 * SCREEN_MAX_RECORDS; /* room for the records added */
    on_thread("rewriting with symbols", rewrite_there, 576 << 10, SCREEN_REWRITTEN);
    sent = before;

    begin_symbols();
    for (unsigned i = 0; i < SCREEN_MAX_POOL_VALUES; i++)
        pool_value(i);
    while (sent.used < SCREEN_MAX_RECORDS - 3)
        column(0);
    left = column(2);
    binary(GE, left, literal(INT, 0));
    on_thread("the line in the way beside a Text column", way_there, 512 << 10, SCREEN_ROW_PASSES);
    on_thread("a row shown beside a Text column", show_there, 512 << 10, SCREEN_ROW_SHOWN);
    on_thread("a row checked beside a Text column", check_row_there, 208 << 10, SCREEN_PASSES);

    begin_symbols();
    uint32_t top = says(GE, 0, 24, 0);
    while (sent.used < SCREEN_MAX_RECORDS)
        top = is_not_null(top);
    on_thread("4,093 null tests of a symbol's line", test_row_there, (size_t)3 << 19, T);
    on_thread("the same for two rows", hedge_there, (size_t)3 << 19, SCREEN_HEDGED);
}

int main(void)
{
    test_refusals();
    test_order();
    test_lists();
    test_rewriting();
    test_others();
    test_chain();
    test_stack();
    return finish();
}
