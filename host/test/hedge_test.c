/*
 * screen_hedge_list and the two views: every refusal in its order, chains of every length at the limits, list buffers exact
 * and one place short, tallies near 2^64, and each row's class beside what screen_test_row answers of it.
 */
#define _POSIX_C_SOURCE 200809L
#include "lend.h"

#include "stack.h"

enum { INT = SCREEN_TYPE_INT, DAY = SCREEN_TYPE_DAY, TRUTH = SCREEN_TYPE_TRUTH };
enum { ROWS = 1100, MARK = 0xa5 };

/* The chain under construction. */
static uint8_t values[8 * 64 * ROWS];
static size_t values_len;
static uint64_t nulls[ROWS];
static size_t rows;
static size_t list_len;
static struct screen_tally tally;
static struct screen_tally seen; /* the rows of all chains that were not refused */

static void zero_chain(size_t n)
{
    rows = n;
    values_len = 8 * sent.table_len * n;
    list_len = 2 * n;
    memset(values, 0, sizeof values);
    memset(nulls, 0, sizeof nulls);
    memset(&tally, 0, sizeof tally);
}

static void cell(size_t row, unsigned number, int64_t value)
{
    screen_store_value(values + 8 * (row * sent.table_len + number), value);
}

static void null_cell(size_t row, unsigned number)
{
    cell(row, number, 0);
    nulls[row] |= UINT64_C(1) << number;
}

static int same_tally(struct screen_tally a, struct screen_tally b)
{
    return a.passed == b.passed && a.is_false == b.is_false && a.unknown == b.unknown;
}

/* The call on exact copies; with SCREEN_HEDGED everything written is compared with screen_test_row, row by row. */
static void expect(const char *name, uint32_t want)
{
    struct slices s = lend();
    uint8_t *lent_values = lent(values, values_len);
    uint64_t *lent_nulls = rows ? malloc(8 * rows) : NULL;
    uint8_t *list = list_len ? malloc(list_len) : NULL;
    struct screen_tally sums = tally, grown = tally;
    uint64_t count = UINT64_C(0x0123456789abcdef), listed = 0;
    struct screen_lent exact = sent;
    exact.table = s.table;
    exact.records = s.records;
    exact.pool = s.pool;
    exact.text = s.text;
    if (rows)
        memcpy(lent_nulls, nulls, 8 * rows);
    if (list_len)
        memset(list, MARK, list_len);
    uint32_t got = screen_lent_hedge_list(&exact, lent_values, values_len, lent_nulls, rows, list, list_len, &sums, &count);
    report(got == want, name, got < 256 ? "refused, or by another number" : "not refused");
    report(all_kept(&s) && kept(lent_values, values, values_len) && (!rows || !memcmp(lent_nulls, nulls, 8 * rows)), name,
           "a lent byte changed");
    if (got == SCREEN_HEDGED) {
        size_t width = 8 * sent.table_len;
        for (size_t r = 0; r < rows; r++) {
            const uint8_t *row = width ? lent_values + width * r : NULL;
            uint32_t truth = screen_lent_test_row(&exact, row, width, nulls[r]);
            if (truth == SCREEN_TRUE) {
                report(list[2 * listed] == r % 256 && list[2 * listed + 1] == r / 256 && screen_listed(list, listed) == r,
                       name, "another number in the list");
                listed++;
            }
            grown.passed += truth == SCREEN_TRUE;
            grown.is_false += truth == SCREEN_FALSE;
            grown.unknown += truth == SCREEN_UNKNOWN;
        }
        report(count == listed, name, "another count");
    } else {
        report(count == UINT64_C(0x0123456789abcdef), name, "the count of a refused chain changed");
    }
    report(same_tally(sums, grown), name, "another tally");
    seen.passed += grown.passed - tally.passed;
    seen.is_false += grown.is_false - tally.is_false;
    seen.unknown += grown.unknown - tally.unknown;
    int behind = 1;
    for (size_t i = 2 * listed; i < list_len; i++)
        behind = behind && list[i] == MARK;
    report(behind, name, "the list was written where no row passes");
    free(list);
    free(lent_nulls);
    free(lent_values);
    give_back(&s);
}

/* ------------------------------------------------------------------------------------------------ the chain's length */

/* c0 > 5 over rows 0 to 9 again and again, every seventh null: all three classes. */
static void all_classes(size_t n)
{
    begin_mixed();
    binary(SCREEN_OP_GT, column(0), literal(INT, 5));
    zero_chain(n);
    for (size_t r = 0; r < n; r++)
        if (r % 7 == 3)
            null_cell(r, 0);
        else
            cell(r, 0, (int64_t)(r % 10));
}

static void test_lengths(void)
{
    static const size_t lengths[] = {0, 1, 2, 63, 64, 65, 255, 256, 257, 1023, 1024};
    for (size_t i = 0; i < sizeof lengths / sizeof lengths[0]; i++) {
        all_classes(lengths[i]);
        expect("all classes", SCREEN_HEDGED);
        list_len += 5;
        expect("a longer list", SCREEN_HEDGED);
        if (lengths[i] == 0)
            continue;
        list_len = 2 * rows - 1;
        expect("half a place short", SCREEN_REFUSED_CHAIN);
        list_len = 2 * rows - 2;
        expect("one place short", SCREEN_REFUSED_CHAIN);
        list_len = 0;
        expect("no list", SCREEN_REFUSED_CHAIN);
    }
    all_classes(1025);
    expect("1,025 rows", SCREEN_REFUSED_CHAIN);

    begin(NULL, 0);
    literal(TRUTH, 1);
    zero_chain(1024);
    expect("no column, all pass", SCREEN_HEDGED);
    zero_chain(0);
    expect("no column and no row", SCREEN_HEDGED);
    zero_chain(3);
    values_len = 8;
    expect("no column, yet values", SCREEN_REFUSED_ROW_LENGTH);
}

/* A chain whose rows are all of one class: the literals true and false, and a null. */
static void test_one_class(void)
{
    static const size_t lengths[] = {0, 1, 64, 1023, 1024};
    for (size_t i = 0; i < sizeof lengths / sizeof lengths[0]; i++)
        for (unsigned class = 0; class < 3; class++) {
            struct screen_tally before = seen;
            begin_mixed();
            if (class == 1)
                null_of(TRUTH);
            else
                literal(TRUTH, class == 2);
            zero_chain(lengths[i]);
            expect("one class", SCREEN_HEDGED);
            report(seen.passed - before.passed == (class == 2 ? rows : 0) &&
                   seen.is_false - before.is_false == (class == 0 ? rows : 0) &&
                   seen.unknown - before.unknown == (class == 1 ? rows : 0), "one class", "other rows");
        }
}

/* -------------------------------------------------------------------------------------------------- refusals in order */

static void test_refusals(void)
{
    all_classes(4);
    sent.root = sent.used;
    list_len = 0;
    expect("3 before 20", SCREEN_REFUSED_ROOT);

    all_classes(4);
    uint32_t top = 2;
    for (unsigned i = 0; i < 12; i++)
        top = binary(SCREEN_OP_AND, top, top);
    list_len = 0;
    expect("8 before 20", SCREEN_REFUSED_TREE);

    all_classes(4);
    list_len = 6;
    values_len -= 8;
    expect("20 before 12", SCREEN_REFUSED_CHAIN);
    list_len = 8;
    expect("values one short", SCREEN_REFUSED_ROW_LENGTH);
    values_len += 16;
    expect("values one long", SCREEN_REFUSED_ROW_LENGTH);
    values_len = 0;
    expect("no values", SCREEN_REFUSED_ROW_LENGTH);

    all_classes(1024);
    nulls[1023] = UINT64_C(1) << 60;
    tally.passed = UINT64_MAX;
    expect("13 of the last row, before 21", SCREEN_REFUSED_ROW);
    values_len -= 1;
    expect("12 before 13", SCREEN_REFUSED_ROW_LENGTH);
    all_classes(1024);
    cell(0, 2, 7);
    expect("13 of the first row", SCREEN_REFUSED_ROW);
    all_classes(1024);
    nulls[1000] |= 1;
    cell(1000, 0, 1);
    expect("13 of a null column that is not zero", SCREEN_REFUSED_ROW);
}

/* ----------------------------------------------------------------------------------------------------------- the tally */

static void test_tally(void)
{
    all_classes(100);
    uint64_t p = 0, f = 0, u = 0;
    for (size_t r = 0; r < 100; r++) {
        u += r % 7 == 3;
        p += r % 7 != 3 && r % 10 > 5;
        f += r % 7 != 3 && r % 10 <= 5;
    }
    tally.passed = UINT64_MAX - p;
    expect("passed to the last", SCREEN_HEDGED);
    tally.passed++;
    expect("passed one over", SCREEN_REFUSED_TALLY);
    tally.passed = 0;
    tally.is_false = UINT64_MAX - f - u;
    expect("false and unknown to the last", SCREEN_HEDGED);
    tally.is_false++;
    expect("false and unknown one over", SCREEN_REFUSED_TALLY);
    tally.is_false = UINT64_MAX;
    expect("false at its largest", SCREEN_REFUSED_TALLY);
    tally.is_false = 0;
    tally.unknown = UINT64_MAX - u + 1;
    expect("unknown one over", SCREEN_REFUSED_TALLY);
    zero_chain(0);
    tally.is_false = tally.unknown = UINT64_C(1) << 63;
    expect("no rows, and a tally that is over", SCREEN_REFUSED_TALLY);
    tally.unknown--;
    expect("no rows, and a tally to the last", SCREEN_HEDGED);
}

static void views(const char *name, struct screen_tally t, uint32_t want)
{
    struct screen_tally before = t;
    uint64_t p = 11, m = 12, q = 13, f = 14, u = 15;
    uint32_t got = screen_trader_view(&t, &p, &m);
    report(got == want, name, "another answer of the trader's view");
    report(got == SCREEN_VIEWED ? p == t.passed && m == t.is_false + t.unknown : p == 11 && m == 12, name,
           "another trader's view");
    got = screen_risk_view(&t, &q, &f, &u);
    report(got == SCREEN_VIEWED && q == t.passed && f == t.is_false && u == t.unknown, name, "another risk view");
    report(same_tally(t, before), name, "a view wrote the tally");
}

static void test_views(void)
{
    static const uint64_t ends[] = {0, 1, 2, UINT64_C(1) << 63, (UINT64_C(1) << 63) - 1, UINT64_MAX - 1, UINT64_MAX};
    size_t n = sizeof ends / sizeof ends[0];
    for (size_t i = 0; i < n; i++)
        for (size_t j = 0; j < n; j++) {
            struct screen_tally t = {ends[(i + j) % n], ends[i], ends[j]};
            views("a view", t, ends[i] > UINT64_MAX - ends[j] ? (uint32_t)SCREEN_REFUSED_TALLY : (uint32_t)SCREEN_VIEWED);
        }
}

/* ----------------------------------------------------------------------------------------------------- random screens */

static uint64_t state = 88172645463325252u;

static unsigned below(unsigned n)
{
    state ^= state << 13;
    state ^= state >> 7;
    state ^= state << 17;
    return (unsigned)((state >> 11) % n);
}

static int64_t some_int(void)
{
    static const int64_t ends[] = {INT64_MIN, INT64_MIN + 1, -3, -2, -1, INT64_MAX};
    return below(4) == 0 ? ends[below(6)] : (int64_t)below(5);
}

/* A value of a type: a column, a literal or null; of Ints also the quotient or the remainder of two. */
static uint32_t operand(unsigned type)
{
    if (type == INT && below(5) == 0) {
        uint32_t dividend = operand(INT), divisor = operand(INT);
        return binary(below(2) ? SCREEN_OP_FLOOR_DIVIDE : SCREEN_OP_MODULUS, dividend, divisor);
    }
    unsigned number = type == INT ? 3 * below(2) : type == DAY ? 1 : 2;
    switch (below(6)) {
    case 0:
        return null_of((uint8_t)type);
    case 1:
    case 2:
        return literal(type, type == INT ? some_int() : (int64_t)below(type == TRUTH ? 2 : 5));
    default:
        return column(number);
    }
}

static uint32_t truth(unsigned depth)
{
    unsigned type = 1 + below(3);
    if (depth == 0 || below(3) == 0)
        switch (below(6)) {
        case 0:
            return is_null(operand(type));
        case 1:
            return is_not_null(operand(type));
        case 2: {
            uint32_t x = operand(type), low = operand(type), high = operand(type);
            return is_between((uint8_t)below(4), x, low, high);
        }
        case 3: {
            uint32_t x = operand(type);
            return is_in((uint8_t)below(2), x, list((uint8_t)below(2), (uint8_t)type, below(2), below(3)));
        }
        default: {
            uint32_t x = operand(type), y = operand(type);
            return binary((uint8_t)below(8), x, y);
        }
        }
    if (below(4) == 0)
        return not_of(truth(depth - 1));
    uint32_t x = truth(depth - 1), y = truth(depth - 1);
    return binary((uint8_t)(below(4) == 0 ? below(8) : 15 + below(5)), x, y);
}

static void test_random(void)
{
    memset(&seen, 0, sizeof seen);
    for (unsigned k = 0; k < 150; k++) {
        begin_mixed();
        for (unsigned i = 0; i < 4; i++)
            pool_value(i == 1 || i == 2);
        truth(4);
        zero_chain(below(8) == 0 ? 1024 : below(200));
        for (size_t r = 0; r < rows; r++)
            for (unsigned c = 0; c < 4; c++)
                if (below(4) == 0)
                    null_cell(r, c);
                else
                    cell(r, c, c % 3 == 0 ? some_int() : (int64_t)below(c == 2 ? 2 : 5));
        tally.passed = below(1000);
        tally.unknown = below(1000);
        expect("a random screen", SCREEN_HEDGED);
    }
    report(seen.passed > 1000 && seen.is_false > 1000 && seen.unknown > 1000, "random screens", "a class is rare");
}

/* 64 columns, of which the last is read, and a list over the whole pool. */
static void test_wide(void)
{
    static uint8_t table[64];
    memset(table, DAY, sizeof table);
    table[63] = INT;
    begin(table, sizeof table);
    for (int64_t i = 0; i < SCREEN_MAX_POOL_VALUES; i++)
        pool_value(3 * i);
    is_in(0, column(63), list(0, INT, 0, SCREEN_MAX_POOL_VALUES));
    zero_chain(1024);
    for (size_t r = 0; r < rows; r++)
        if (r % 5 == 0)
            null_cell(r, 63);
        else
            cell(r, 63, 24 * (int64_t)r + (int64_t)r % 3);
    expect("64 columns and the longest list", SCREEN_HEDGED);
}

/* Lists long enough that the pool is put in order, parts of one pool of `different` values: Xor, so that each of them counts. */
static void long_lists(unsigned lists, unsigned longest, unsigned different, size_t n)
{
    uint32_t top = 0;
    begin_mixed();
    for (unsigned i = 0; i < SCREEN_MAX_POOL_VALUES; i++)
        pool_value((int64_t)below(different) - different / 2);
    for (unsigned k = 0; k < lists; k++) {
        uint32_t count = longest - below(longest / 2);
        uint32_t part = list(below(2), INT, below(SCREEN_MAX_POOL_VALUES - count + 1), count);
        uint32_t next = is_in(below(2), below(4) == 0 ? binary(SCREEN_OP_MODULUS, column(0), literal(INT, 7)) : column(0), part);
        top = k == 0 ? next : binary(SCREEN_OP_XOR, top, next);
    }
    zero_chain(n);
    for (size_t r = 0; r < n; r++)
        if (below(9) == 0)
            null_cell(r, 0);
        else
            cell(r, 0, (int64_t)below(2 * different) - different);
    expect("long lists", SCREEN_HEDGED);
}

static void test_lists(void)
{
    static const unsigned different[] = {2, 50, 3000, 100000};
    for (unsigned i = 0; i < 4; i++) {
        long_lists(60, 150, different[i], 300);
        long_lists(50, 2000, different[i], 40);
    }
    long_lists(1, SCREEN_MAX_POOL_VALUES, 5000, 200);
}

/* Divisions in divisions, in the first input, the second or both. */
static void test_divisions(void)
{
    for (unsigned k = 0; k < 40; k++) {
        begin_mixed();
        uint32_t last = column(0), top = last;
        while (sent.used < 60 + 40 * (k % 4)) {
            uint32_t leaf = below(2) == 0 ? column(3) : literal(INT, (int64_t)below(9) - 4);
            unsigned code = below(3) == 0 ? SCREEN_OP_MODULUS : SCREEN_OP_FLOOR_DIVIDE;
            unsigned shape = k % 5 == 4 ? below(4) : k % 5;
            uint32_t next = shape == 0 ? binary(code, top, leaf)
                : shape == 1           ? binary(code, leaf, top)
                : shape == 2           ? binary(code, binary(code, leaf, leaf), top)
                                       : binary(code, top, binary(code, leaf, leaf));
            last = top;
            top = next;
        }
        binary(SCREEN_OP_LT, last, top);
        zero_chain(70);
        for (size_t r = 0; r < rows; r++)
            for (unsigned c = 0; c < 4; c += 3)
                if (below(8) == 0)
                    null_cell(r, c);
                else
                    cell(r, c, some_int());
        expect("divisions in divisions", SCREEN_HEDGED);
    }
}

/* ----------------------------------------------------------------------------------------------------------- symbols */

enum { TEXT = SCREEN_TYPE_TEXT, POOLED = 40 };

/* A text of few different letters: many symbols in it are equal, or one is the front of another. */
static void some_text(uint32_t length)
{
    static const char letters[] = {'A', 'A', 'A', 'B', '\0', '\xff'};
    static char text[SCREEN_MAX_TEXT_BYTES];
    for (uint32_t i = 0; i < length; i++)
        text[i] = letters[below(6)];
    screen_put_text(&sent, text, length);
}

static int64_t some_symbol(void)
{
    uint32_t length = below(6) == 0 ? 16 : below(4);
    return screen_symbol(below((unsigned)sent.text_len - length + 1), length);
}

static uint32_t symbol_operand(void)
{
    switch (below(6)) {
    case 0:
        return null_of(TEXT);
    case 1:
    case 2:
        return literal(TEXT, some_symbol());
    default:
        return column(4 + below((unsigned)sent.table_len - 4));
    }
}

/* The pool begins with four values for lists of any type; lists of symbols lie behind them in its first half, those of Ints in
   the second, or where `shared` is set in either. */
static uint32_t symbol_line(int shared)
{
    uint32_t x = symbol_operand();
    switch (below(7)) {
    case 0:
        return below(2) ? is_null(x) : is_not_null(x);
    case 1: {
        uint32_t low = symbol_operand(), high = symbol_operand();
        return is_between(below(4), x, low, high);
    }
    case 2:
    case 3: {
        uint32_t start = shared ? below(POOLED / 2) : 4 + below(POOLED / 2 - 4);
        return is_in(below(2), x, list(below(2), TEXT, start, below(POOLED / 2 - start)));
    }
    case 4: {
        uint32_t start = shared ? below(POOLED) : POOLED / 2 + below(POOLED / 2);
        uint32_t number = column(3);
        return is_in(below(2), number, list(below(2), INT, start, below(POOLED - start)));
    }
    default: {
        uint32_t y = symbol_operand();
        return binary(below(8), x, y);
    }
    }
}

static uint32_t symbol_truth(unsigned depth, int shared)
{
    if (depth == 0)
        return symbol_line(shared);
    if (below(6) == 0)
        return truth(1);
    if (below(6) == 0)
        return not_of(symbol_truth(depth - 1, shared));
    uint32_t x = symbol_truth(depth - 1, shared), y = symbol_truth(depth - 1, shared);
    return binary(15 + below(5), x, y);
}

/* The four columns of begin_mixed and behind them `texts` Text columns. */
static void begin_texts(unsigned texts)
{
    uint8_t table[64] = {INT, DAY, TRUTH, INT};
    memset(table + 4, TEXT, texts);
    begin(table, 4 + texts);
}

static void some_rows(size_t n)
{
    zero_chain(n);
    for (size_t r = 0; r < n; r++)
        for (unsigned c = 0; c < sent.table_len; c++)
            if (below(5) == 0)
                null_cell(r, c);
            else
                cell(r, c, c >= 4 ? some_symbol() : c % 3 == 0 ? some_int() : (int64_t)below(c == 2 ? 2 : 5));
}

static void test_symbols(void)
{
    static const unsigned texts[] = {1, 2, 3, 8, 60};
    memset(&seen, 0, sizeof seen);
    for (unsigned k = 0; k < 200; k++) {
        begin_texts(texts[k % 5]);
        some_text(k % 7 == 0 ? 16 : 200);
        for (unsigned i = 0; i < POOLED; i++)
            pool_value(i < 4 ? i == 1 || i == 2 : i < POOLED / 2 || k % 3 == 0 ? some_symbol() : some_int());
        symbol_truth(3 + k % 3, k % 3 == 0);
        some_rows(k % 10 == 0 ? 1024 : k % 10 == 1 ? below(12) : below(300));
        expect("a random screen with symbols", SCREEN_HEDGED);
    }
    report(seen.passed > 1000 && seen.is_false > 1000 && seen.unknown > 1000, "random screens with symbols", "a class is rare");
}

/* Long lists of symbols, parts of one pool; and the last row's symbol past the text. */
static void test_symbol_lists(void)
{
    for (unsigned k = 0; k < 6; k++) {
        uint32_t top = 0;
        begin_texts(2);
        some_text(k % 2 == 0 ? 40 : SCREEN_MAX_TEXT_BYTES);
        for (unsigned i = 0; i < SCREEN_MAX_POOL_VALUES; i++)
            pool_value(k % 3 == 2 && i >= 4096 ? some_int() : some_symbol());
        for (unsigned n = 0; n < 12; n++) {
            uint32_t x = column(4 + n % 2);
            uint32_t next = is_in(below(2), x, list(below(2), TEXT, below(2000), below(2000)));
            top = n == 0 ? next : binary(SCREEN_OP_XOR, top, next);
        }
        some_rows(k == 0 ? 1024 : 150);
        expect("long lists of symbols", SCREEN_HEDGED);
        cell(rows - 1, 5, screen_symbol((uint32_t)sent.text_len, 1));
        nulls[rows - 1] = 0;
        expect("a symbol past the text in the last row", SCREEN_REFUSED_ROW);
    }
}

/* Lists of symbols and of Ints over the same values of the pool, in pools of one part and of two; few rows and many. */
static void test_shared_lists(void)
{
    static const unsigned sizes[] = {40, 4096, 4097, SCREEN_MAX_POOL_VALUES};
    static const size_t chains[] = {3, 31, 150, 1024};
    static int64_t pooled[SCREEN_MAX_POOL_VALUES];
    memset(&seen, 0, sizeof seen);
    for (unsigned k = 0; k < 16; k++) {
        uint32_t top = 0;
        unsigned size = sizes[k % 4];
        begin_texts(k < 8 ? 2 : 20);
        some_text(200);
        for (unsigned i = 0; i < size; i++)
            pool_value(pooled[i] = some_symbol());
        for (unsigned n = 0; n < 12; n++) {
            uint32_t x = column(n % 2 == 0 ? 4 : 0), length = below(size + 1);
            uint32_t next = is_in(below(2), x, list(below(2), n % 2 == 0 ? TEXT : INT, below(size - length + 1), length));
            top = n == 0 ? next : binary(SCREEN_OP_XOR, top, next);
        }
        some_rows(chains[k / 4]);
        for (size_t r = 0; r < rows; r += 2)
            if ((nulls[r] & 1) == 0)
                cell(r, 0, pooled[below(size)]);
        expect("lists of symbols and of Ints in the same places", SCREEN_HEDGED);
    }
    report(seen.passed > 500 && seen.is_false > 500 && seen.unknown > 500, "lists in the same places", "a class is rare");
}

/* ----------------------------------------------------------------------------------------------------------- the stack */

static void *deep(void *unused)
{
    begin_mixed();
    uint32_t top = column(2);
    while (sent.used < SCREEN_MAX_RECORDS)
        top = not_of(top);
    zero_chain(3);
    cell(1, 2, 1);
    null_cell(2, 2);
    expect("4,095 Nots", SCREEN_HEDGED);

    begin_mixed();
    top = column(2);
    while (sent.used < SCREEN_MAX_RECORDS)
        top = is_not_null(top);
    zero_chain(1024);
    expect("4,095 null tests", SCREEN_HEDGED);
    return unused;
}

/* The call alone, since screen_test_row needs more. */
static void *alone(void *answer)
{
    static uint8_t list[2 * 128];
    struct screen_tally sums = {0, 0, 0};
    uint64_t count = 0;
    uint32_t got = screen_lent_hedge_list(&sent, values, values_len, nulls, rows, list, sizeof list, &sums, &count);
    *(uint32_t *)answer = got == SCREEN_HEDGED && count == rows ? got : 0;
    return NULL;
}

/* A call alone on a thread of so many KB. */
static void alone_on(unsigned kilobytes, const char *name)
{
    uint32_t answer = 0;
    on_stack(alone, &answer, (size_t)kilobytes << 10);
    report(answer == SCREEN_HEDGED, name, "not every row on a thread of the header's stack");
}

/* c0, divided by -1 so many times. */
static uint32_t divided(unsigned times)
{
    uint32_t divisor = literal(INT, -1), top = column(0);
    for (unsigned n = 0; n < times; n++)
        top = binary(SCREEN_OP_FLOOR_DIVIDE, top, divisor);
    return top;
}

/* A value in the longest list. */
static uint32_t in_longest(uint32_t value)
{
    for (unsigned i = 0; i < SCREEN_MAX_POOL_VALUES; i++)
        pool_value(i);
    return is_in(0, value, list(0, INT, 0, SCREEN_MAX_POOL_VALUES));
}

/* The deepest screens, on threads with as much stack as the header asks for. */
static void test_deep(void)
{
    on_stack(deep, NULL, (size_t)3 << 19);

    begin_mixed();
    uint32_t top = is_not_null(column(0));
    for (unsigned n = 0; n < 4094; n++)
        top = not_of(top);
    zero_chain(64);
    alone_on(128, "4,094 Nots");

    begin_mixed();
    is_not_null(divided(2046));
    zero_chain(64);
    alone_on(768, "2,046 divisions");

    begin_mixed();
    in_longest(column(0));
    zero_chain(128);
    alone_on(384, "the longest list");

    begin_mixed();
    in_longest(divided(2044));
    zero_chain(128);
    alone_on(1088, "2,044 divisions and the longest list");

    begin_texts(1);
    some_text(200);
    top = in_longest(divided(2038));
    binary(SCREEN_OP_AND, top, is_not_null(column(4)));
    zero_chain(128);
    alone_on(1536, "the same and a symbol");
}

static void test_texts(void)
{
    report(strstr(screen_refusal_text(SCREEN_REFUSED_CHAIN), "1,024 rows") != NULL, "the text of 20", "another");
    report(strstr(screen_refusal_text(SCREEN_REFUSED_TALLY), "64 bits") != NULL, "the text of 21", "another");
    report(strcmp(screen_refusal_text(22), screen_refusal_text(10)) == 0, "a number that is not used", "has a text");
}

int main(void)
{
    test_lengths();
    test_one_class();
    test_refusals();
    test_tally();
    test_views();
    test_random();
    test_wide();
    test_lists();
    test_divisions();
    test_symbols();
    test_symbol_lists();
    test_shared_lists();
    test_deep();
    test_texts();
    return finish();
}
