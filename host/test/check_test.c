/* screen_check and screen_columns_read: every refusal, every limit, and that nothing lent is written. */
#include "lend.h"

enum { INT = SCREEN_TYPE_INT, DAY = SCREEN_TYPE_DAY, TRUTH = SCREEN_TYPE_TRUTH };

/* Out-parameters before a call, to see that a refusal keeps them. */
#define MARK_COLUMNS UINT64_C(0x0123456789abcdef)
#define MARK_COUNT UINT64_C(0xfedcba9876543210)

/* Both calls answer `want`, which is a refusal or 256, and columns read gives these two words. */
static void expect_words(const char *name, uint32_t want, uint64_t want_columns, uint64_t want_count)
{
    struct slices s = lend();
    uint64_t columns = MARK_COLUMNS;
    uint64_t count = MARK_COUNT;
    uint32_t got = screen_check(s.table, sent.table_len, s.records, sent.records_len, s.pool, sent.pool_len, s.text,
                                sent.text_len, sent.used, sent.root);
    report(got == want, name, screen_refusal_text(got));
    report(all_kept(&s), name, "screen_check changed a lent byte");
    got = screen_columns_read(s.table, sent.table_len, s.records, sent.records_len, s.pool, sent.pool_len, s.text,
                              sent.text_len, sent.used, sent.root, &columns, &count);
    report(got == want, name, screen_refusal_text(got));
    report(all_kept(&s), name, "screen_columns_read changed a lent byte");
    report(columns == want_columns && count == want_count, name, "other columns than expected");
    give_back(&s);
}

static void refuse(const char *name, uint32_t want)
{
    expect_words(name, want, MARK_COLUMNS, MARK_COUNT);
}

static void accept(const char *name, uint64_t columns, uint64_t count)
{
    expect_words(name, SCREEN_ACCEPTED, columns, count);
}

/* --------------------------------------------------------------------------------------------- 1: the column table */

static void table_of(size_t columns)
{
    uint8_t table[LEND_TABLE];
    memset(table, INT, sizeof table);
    begin(table, columns);
    literal(TRUTH, 1);
}

static void test_table(void)
{
    table_of(0);
    accept("no column", 0, 0);
    table_of(63);
    accept("63 columns", 0, 0);
    table_of(64);
    accept("64 columns", 0, 0);
    table_of(65);
    refuse("65 columns", SCREEN_REFUSED_TABLE);
    table_of(128);
    refuse("128 columns", SCREEN_REFUSED_TABLE);
    static const uint8_t no_types[4] = {0, 5, 128, 255};
    for (size_t i = 0; i < sizeof no_types; i++) {
        table_of(3);
        sent.table[0] = no_types[i];
        refuse("first column of unknown type", SCREEN_REFUSED_TABLE);
        table_of(64);
        sent.table[63] = no_types[i];
        refuse("last column of unknown type", SCREEN_REFUSED_TABLE);
    }
}

/* ---------------------------------------------------------------------------------- 2: used, records lent and pool */

/* `count` records that are all fine, a column and then literals, the last of them the root. */
static void full(uint32_t count)
{
    begin_mixed();
    column(0);
    while (sent.used < count)
        literal(TRUTH, 0);
}

static void test_used(void)
{
    full(4095);
    accept("4,095 used", 0, 0);
    full(4096);
    accept("4,096 used", 0, 0);
    full(4097);
    refuse("4,097 used", SCREEN_REFUSED_SIZE);
    full(4097);
    sent.used = 4096;
    sent.root = 4095;
    accept("4,097 lent and 4,096 used", 0, 0);
    full(4096);
    sent.records_len -= 1;
    refuse("4,096 used and a byte short", SCREEN_REFUSED_SIZE);
    full(10);
    sent.records_len += 15;
    memset(sent.records + 160, 0xff, 15);
    accept("whole records and 15 bytes more", 0, 0);
    sent.used = 11;
    refuse("used counts a record that is not whole", SCREEN_REFUSED_SIZE);
    full(10);
    sent.used = 11;
    refuse("used one over the records lent", SCREEN_REFUSED_SIZE);
    full(10);
    sent.used = 9;
    sent.root = 8;
    accept("used below the records lent", 0, 0);
    full(1);
    sent.records_len = 15;
    refuse("no whole record lent", SCREEN_REFUSED_SIZE);

    /* Counts that are small, or nothing, once cut to 32 bits or multiplied by 16. */
    static const uint64_t large[] = {
        UINT64_C(1) << 16, UINT64_C(1) << 32, (UINT64_C(1) << 32) + 2, UINT64_C(1) << 59, UINT64_C(1) << 60,
        (UINT64_C(1) << 60) + 2, UINT64_C(1) << 63, UINT64_MAX / 16, UINT64_MAX - 1, UINT64_MAX,
    };
    for (size_t i = 0; i < sizeof large / sizeof large[0]; i++) {
        full(2);
        sent.used = large[i];
        refuse("a large used", SCREEN_REFUSED_SIZE);
    }
}

static void pool_of(size_t bytes)
{
    full(2);
    memset(sent.pool, 0xff, bytes);
    sent.pool_len = bytes;
}

static void test_pool(void)
{
    pool_of(0);
    accept("no pool", 0, 0);
    pool_of((size_t)8 * 8191);
    accept("8,191 values", 0, 0);
    pool_of((size_t)8 * 8192);
    accept("8,192 values", 0, 0);
    pool_of((size_t)8 * 8193);
    refuse("8,193 values", SCREEN_REFUSED_SIZE);
    static const size_t cut[] = {1, 7, 9, 15, (size_t)8 * 8192 - 1, (size_t)8 * 8192 + 1};
    for (size_t i = 0; i < sizeof cut / sizeof cut[0]; i++) {
        pool_of(cut[i]);
        refuse("a pool that is not whole values", SCREEN_REFUSED_SIZE);
    }
}

/* ---------------------------------------------------------------------------------------------------- 3: the root */

static void test_root(void)
{
    full(5);
    accept("root just below used", 0, 0);
    static const uint64_t roots[] = {
        5, 6, 4096, UINT64_C(1) << 32, (UINT64_C(1) << 32) + 4, UINT64_C(1) << 60, UINT64_MAX,
    };
    for (size_t i = 0; i < sizeof roots / sizeof roots[0]; i++) {
        full(5);
        sent.root = roots[i];
        refuse("root not below used", SCREEN_REFUSED_ROOT);
    }
    full(1);
    sent.used = 0;
    sent.root = 0;
    refuse("nothing used", SCREEN_REFUSED_ROOT);
    sent.records_len = 0;
    refuse("nothing lent and nothing used", SCREEN_REFUSED_ROOT);
    sent.used = 1;
    refuse("nothing lent and one used", SCREEN_REFUSED_SIZE);
}

/* Slices of length 0 may come with any pointer. */
static void test_empty_slices(void)
{
    uint8_t one[16] = {SCREEN_KIND_NULL, 0, TRUTH};
    uint64_t columns = MARK_COLUMNS;
    uint64_t count = MARK_COUNT;
    uint8_t *odd = (uint8_t *)(uintptr_t)1;
    report(screen_check(NULL, 0, NULL, 0, NULL, 0, NULL, 0, 0, 0) == SCREEN_REFUSED_ROOT, "all NULL", "not 3");
    report(screen_check(odd, 0, odd, 0, odd, 0, odd, 0, 0, 0) == SCREEN_REFUSED_ROOT, "all at address 1", "not 3");
    report(screen_check(NULL, 0, NULL, 0, NULL, 0, NULL, 0, UINT64_MAX, UINT64_MAX) == SCREEN_REFUSED_SIZE, "all NULL", "not 2");
    report(screen_check(NULL, 0, one, 16, NULL, 0, NULL, 0, 1, 0) == SCREEN_ACCEPTED, "a null alone", "not accepted");
    report(screen_check(odd, 0, one, 16, odd, 0, odd, 0, 1, 0) == SCREEN_ACCEPTED, "a null alone", "not accepted");
    report(screen_columns_read(NULL, 0, NULL, 0, NULL, 0, NULL, 0, 0, 0, &columns, &count) == SCREEN_REFUSED_ROOT, "all NULL",
           "not 3");
    report(columns == MARK_COLUMNS && count == MARK_COUNT, "all NULL", "out-parameters written");
    report(screen_columns_read(odd, 0, one, 16, NULL, 0, NULL, 0, 1, 0, &columns, &count) == SCREEN_COLUMNS, "a null alone",
           "not accepted");
    report(columns == 0 && count == 0, "a null alone", "reads a column");
}

/* ---------------------------------------------------------------------------- 4: a record by itself is not known */

/* One record of each kind at number 8 to 17, all fine; inputs 0 Int column, 1 Int literal, 2 Truth column, 3 list. */
static void one_of_each(void)
{
    begin_mixed();
    pool_value(1);
    pool_value(0);
    column(0);
    literal(INT, 7);
    column(2);
    list(0, INT, 0, 2);
    literal(TRUTH, 1);
    null_of(DAY);
    column(1);
    column(3);
    column(2);
    literal(DAY, 5);
    null_of(TRUTH);
    binary(SCREEN_OP_AND, 2, 4);
    not_of(2);
    is_null(0);
    is_not_null(1);
    is_between(SCREEN_CLOSED_LEFT, 0, 1, 7);
    list(1, TRUTH, 0, 2);
    is_in(1, 0, 3);
}

/* Bit i is set if byte i of a record of this kind must be zero. */
static unsigned unused_bytes(unsigned kind)
{
    enum { CODE = 1 << 1, TYPE = 1 << 2, ZERO = 1 << 3, A = 0xf << 4, B = 0xf << 8, C = 0xf << 12 };
    switch (kind) {
    case SCREEN_KIND_COLUMN:
    case SCREEN_KIND_NOT:
    case SCREEN_KIND_IS_NULL:
    case SCREEN_KIND_IS_NOT_NULL:
        return CODE | TYPE | ZERO | B | C;
    case SCREEN_KIND_LITERAL:
        return CODE | ZERO | A;
    case SCREEN_KIND_NULL:
        return CODE | ZERO | A | B | C;
    case SCREEN_KIND_BINARY:
    case SCREEN_KIND_IS_IN:
        return TYPE | ZERO | C;
    case SCREEN_KIND_IS_BETWEEN:
        return TYPE | ZERO;
    default: /* a list */
        return ZERO | C;
    }
}

static void refuse_byte(const char *name, uint32_t record, uint32_t at, unsigned value)
{
    one_of_each();
    sent.records[16 * record + at] = (uint8_t)value;
    refuse(name, SCREEN_REFUSED_RECORD);
}

static void test_unknown(void)
{
    one_of_each();
    accept("one of each kind", 1 << 0, 1);
    for (uint32_t kind = 1; kind <= 10; kind++) {
        uint32_t record = 7 + kind;
        for (uint32_t at = 1; at < 16; at++)
            if (unused_bytes(kind) >> at & 1) {
                refuse_byte("an unused field", record, at, 1);
                refuse_byte("an unused field", record, at, 128);
            }
    }
    static const uint8_t no_kinds[] = {0, 11, 12, 128, 255};
    for (size_t i = 0; i < sizeof no_kinds; i++) {
        refuse_byte("an unknown kind", 0, 0, no_kinds[i]);
        refuse_byte("an unknown kind", 17, 0, no_kinds[i]);
    }
    static const struct { uint32_t record; unsigned code; } no_codes[] = {
        {11, 20}, {11, 255}, {15, 4}, {15, 255}, {16, 2}, {16, 255}, {17, 2}, {17, 255},
    };
    for (size_t i = 0; i < sizeof no_codes / sizeof no_codes[0]; i++)
        refuse_byte("an unknown code", no_codes[i].record, 1, no_codes[i].code);
    static const uint32_t typed[] = {9, 10, 16};
    for (size_t i = 0; i < 3; i++) {
        refuse_byte("type 0", typed[i], 2, 0);
        refuse_byte("type 5", typed[i], 2, 5);
        refuse_byte("type 255", typed[i], 2, 255);
    }
}

static void literal_is(const char *name, unsigned type, int64_t value, int fine)
{
    begin_mixed();
    literal(type, value);
    literal(TRUTH, 1);
    if (fine)
        accept(name, 0, 0);
    else
        refuse(name, SCREEN_REFUSED_RECORD);
}

static void test_literals(void)
{
    literal_is("largest Int", INT, INT64_MAX, 1);
    literal_is("smallest Int", INT, INT64_MIN, 1);
    literal_is("largest Day", DAY, INT32_MAX, 1);
    literal_is("smallest Day", DAY, INT32_MIN, 1);
    literal_is("Day one too large", DAY, (int64_t)INT32_MAX + 1, 0);
    literal_is("Day one too small", DAY, (int64_t)INT32_MIN - 1, 0);
    literal_is("Day with an unsigned value", DAY, UINT32_MAX, 0);
    literal_is("Day far out", DAY, INT64_MIN, 0);
    literal_is("false", TRUTH, 0, 1);
    literal_is("true", TRUTH, 1, 1);
    literal_is("Truth 2", TRUTH, 2, 0);
    literal_is("Truth -1", TRUTH, -1, 0);
    literal_is("Truth with a high bit", TRUTH, INT64_MIN, 0);
    literal_is("Truth with bit 32", TRUTH, (int64_t)1 << 32, 0);
}

/* ------------------------------------------------------------------------------- 5: what a record refers to */

static void test_inputs(void)
{
    /* Each input of each kind, at its own record, the one after and the far end. */
    static const struct { uint32_t record, at; } inputs[] = {
        {11, 4}, {11, 8}, {12, 4}, {13, 4}, {14, 4}, {15, 4}, {15, 8}, {15, 12}, {17, 4}, {17, 8},
    };
    for (size_t i = 0; i < sizeof inputs / sizeof inputs[0]; i++) {
        const uint32_t far[] = {inputs[i].record, inputs[i].record + 1, 4096, UINT32_MAX};
        for (size_t j = 0; j < sizeof far / sizeof far[0]; j++) {
            one_of_each();
            screen_store(sent.records + 16 * inputs[i].record + inputs[i].at, 4, far[j]);
            refuse("an input not below its record", SCREEN_REFUSED_REFERENCE);
        }
    }
    static const uint32_t columns[] = {4, 5, 64, 256, UINT32_MAX};
    for (size_t i = 0; i < sizeof columns / sizeof columns[0]; i++) {
        begin_mixed();
        column(columns[i]);
        literal(TRUTH, 1);
        refuse("a column not in the table", SCREEN_REFUSED_REFERENCE);
    }
    begin(NULL, 0);
    is_null(column(0));
    refuse("column 0 of none", SCREEN_REFUSED_REFERENCE);
    table_of(64);
    is_null(column(63));
    accept("column 63 of 64", UINT64_C(1) << 63, 1);
    is_null(column(64));
    refuse("column 64 of 64", SCREEN_REFUSED_REFERENCE);
}

/* Value `odd`, stored at one of three places, in a list of this type over all three. */
static void list_holds(const char *name, unsigned type, int64_t odd, int fine)
{
    for (unsigned place = 0; place < 3; place++) {
        begin_mixed();
        for (unsigned i = 0; i < 3; i++)
            pool_value(i == place ? odd : 1);
        list(0, type, 0, 3);
        literal(TRUTH, 1);
        if (fine)
            accept(name, 0, 0);
        else
            refuse(name, SCREEN_REFUSED_REFERENCE);
    }
}

/* A list of `count` from `start`, over a pool of three values. */
static void list_at(const char *name, uint32_t start, uint32_t count, int fine)
{
    begin_mixed();
    for (unsigned i = 0; i < 3; i++)
        pool_value(i);
    list(1, INT, start, count);
    literal(TRUTH, 1);
    if (fine)
        accept(name, 0, 0);
    else
        refuse(name, SCREEN_REFUSED_REFERENCE);
}

static void test_lists(void)
{
    list_at("the whole pool", 0, 3, 1);
    list_at("one past the pool", 0, 4, 0);
    list_at("the last value", 2, 1, 1);
    list_at("past the last value", 2, 2, 0);
    list_at("empty at the end", 3, 0, 1);
    list_at("empty past the end", 4, 0, 0);
    list_at("a start past the end", 3, 1, 0);
    list_at("start and count wrap to 0", UINT32_MAX, 1, 0);
    list_at("start and count wrap to 1", 2, UINT32_MAX, 0);
    list_at("both at their largest", UINT32_MAX, UINT32_MAX, 0);
    list_at("a start that wraps as bytes", UINT32_C(1) << 29, 1, 0);
    list_at("a count that wraps as bytes", 0, UINT32_C(1) << 29, 0);
    list_holds("Int extremes", INT, INT64_MIN, 1);
    list_holds("largest Day", DAY, INT32_MAX, 1);
    list_holds("smallest Day", DAY, INT32_MIN, 1);
    list_holds("Day one too large", DAY, (int64_t)INT32_MAX + 1, 0);
    list_holds("Day one too small", DAY, (int64_t)INT32_MIN - 1, 0);
    list_holds("Truth 0", TRUTH, 0, 1);
    list_holds("Truth 2", TRUTH, 2, 0);
    list_holds("Truth -1", TRUTH, -1, 0);

    begin_mixed();
    pool_value(5);
    pool_value(1);
    pool_value(INT64_MAX);
    list(0, TRUTH, 1, 1);
    literal(TRUTH, 1);
    accept("pool values that no list holds", 0, 0);

    begin_mixed();
    sent.pool_len = (size_t)8 * 8192;
    sent.pool[sent.pool_len - 8] = 2;
    list(0, TRUTH, 8191, 1);
    literal(TRUTH, 1);
    refuse("a full pool, its last value outside the type", SCREEN_REFUSED_REFERENCE);
    sent.pool[sent.pool_len - 8] = 1;
    accept("a full pool, its last value in the type", 0, 0);
}

/* ------------------------------------------------------------------------------------ 6: operators left out */

static void test_operators(void)
{
    for (unsigned code = 0; code < 20; code++) {
        int logic = code >= SCREEN_OP_AND;
        begin_mixed();
        binary(code, column(logic ? 2 : 0), column(logic ? 2 : 3));
        if (code >= 8 && code <= 12)
            refuse("an arithmetic operator", SCREEN_REFUSED_OPERATOR);
        else if (code == SCREEN_OP_FLOOR_DIVIDE || code == SCREEN_OP_MODULUS)
            refuse("a division as the root", SCREEN_REFUSED_TYPES);
        else
            accept("an operator", logic ? 1 << 2 : 1 << 0 | 1 << 3, logic ? 1 : 2);
    }
    begin_mixed();
    not_of(line(SCREEN_OP_GT, 0, INT, 3));
    accept("Not above a comparison", 1 << 0, 1);
    begin_mixed();
    uint32_t truth = column(2);
    not_of(binary(SCREEN_OP_OR, truth, truth));
    accept("Not above logic", 1 << 2, 1);
    begin_mixed();
    not_of(binary(10, column(0), column(3)));
    refuse("Not above arithmetic", SCREEN_REFUSED_OPERATOR);
    literal(TRUTH, 1);
    refuse("Not above arithmetic, not reached", SCREEN_REFUSED_OPERATOR);
    begin_mixed();
    not_of(not_of(is_null(column(0))));
    accept("Not of Not", 1 << 0, 1);
}

/* FloorDivide and Modulus take two Ints and give an Int, which may stand wherever an Int may. */
static void test_divisions(void)
{
    for (unsigned code = SCREEN_OP_FLOOR_DIVIDE; code <= SCREEN_OP_MODULUS; code++) {
        for (uint32_t left = 0; left < 3; left++)
            for (uint32_t right = 0; right < 3; right++) {
                begin_mixed();
                is_null(binary(code, column(left), column(right)));
                if (left == 0 && right == 0)
                    accept("a division of two Ints", 1 << 0, 1);
                else
                    refuse("a division of other types", SCREEN_REFUSED_TYPES);
                literal(TRUTH, 1);
                if (left != 0 || right != 0)
                    refuse("a division of other types, not reached", SCREEN_REFUSED_TYPES);
            }
        begin_mixed();
        uint32_t quotient = binary(code, column(0), literal(INT, 100));
        uint32_t again = binary(code, quotient, binary(code, null_of(INT), column(3)));
        uint32_t low = binary(SCREEN_OP_GT_EQ, again, literal(INT, 3));
        uint32_t listed = is_in(0, quotient, list(0, INT, 0, 0));
        uint32_t range = is_between(SCREEN_CLOSED_BOTH, column(3), quotient, again);
        binary(SCREEN_OP_AND, binary(SCREEN_OP_AND, low, listed), range);
        accept("divisions of divisions, in every place", 1 << 0 | 1 << 3, 2);
        begin_mixed();
        quotient = binary(code, column(0), literal(INT, 100));
        binary(SCREEN_OP_EQ, quotient, column(1));
        refuse("a quotient beside a Day", SCREEN_REFUSED_TYPES);
        begin_mixed();
        quotient = binary(code, column(0), literal(INT, 100));
        not_of(quotient);
        refuse("Not of a quotient", SCREEN_REFUSED_TYPES);
        begin_mixed();
        quotient = binary(code, column(0), literal(INT, 100));
        binary(SCREEN_OP_AND, quotient, quotient);
        refuse("logic of quotients", SCREEN_REFUSED_TYPES);
        begin_mixed();
        uint32_t x = column(0);
        binary(code, x, list(0, INT, 0, 0));
        refuse("a division by a list", SCREEN_REFUSED_TYPES);
        begin_mixed();
        x = column(0);
        is_in(0, x, binary(code, x, x));
        refuse("a quotient as a list", SCREEN_REFUSED_TYPES);
        begin_mixed();
        binary(code, 0, 1);
        refuse("a division of itself", SCREEN_REFUSED_REFERENCE);
    }
}

/* -------------------------------------------------------------------------------------------------- 7: types */

static void test_types(void)
{
    for (unsigned code = SCREEN_OP_EQ; code <= SCREEN_OP_GT_EQ; code++)
        for (uint32_t left = 0; left < 3; left++)
            for (uint32_t right = 0; right < 3; right++) {
                begin_mixed();
                binary(code, column(left), column(right));
                if (left == right)
                    accept("a comparison of one type", UINT64_C(1) << left, 1);
                else
                    refuse("a comparison of two types", SCREEN_REFUSED_TYPES);
            }
    for (unsigned code = SCREEN_OP_AND; code <= SCREEN_OP_LOGICAL_OR; code++)
        for (uint32_t other = 0; other < 2; other++) {
            begin_mixed();
            binary(code, column(2), column(other));
            refuse("logic on the right of no Truth", SCREEN_REFUSED_TYPES);
            begin_mixed();
            binary(code, column(other), column(2));
            refuse("logic on the left of no Truth", SCREEN_REFUSED_TYPES);
        }
    for (uint32_t number = 0; number < 3; number++) {
        begin_mixed();
        not_of(column(number));
        if (number == 2)
            accept("Not of a Truth", 1 << 2, 1);
        else
            refuse("Not of no Truth", SCREEN_REFUSED_TYPES);
        begin_mixed();
        is_null(column(number));
        accept("is_null of any type", UINT64_C(1) << number, 1);
        begin_mixed();
        is_not_null(column(number));
        accept("is_not_null of any type", UINT64_C(1) << number, 1);
        for (uint32_t odd = 0; odd < 3; odd++)
            for (uint32_t place = 0; place < 3; place++) {
                begin_mixed();
                column(number);
                column(odd);
                is_between(SCREEN_CLOSED_BOTH, place == 0, place == 1, place == 2);
                if (number == odd)
                    accept("is_between of one type", UINT64_C(1) << number, 1);
                else
                    refuse("is_between of two types", SCREEN_REFUSED_TYPES);
            }
        for (unsigned type = 1; type <= 3; type++) {
            begin_mixed();
            list(0, type, 0, 0);
            is_in(0, column(number), 0);
            if (type == number + 1)
                accept("is_in of one type", UINT64_C(1) << number, 1);
            else
                refuse("is_in of two types", SCREEN_REFUSED_TYPES);
        }
    }
}

/* A list serves is_in alone, and only as its second input. */
static void test_list_places(void)
{
    for (unsigned place = 0; place < 9; place++) {
        begin_mixed();
        list(0, TRUTH, 0, 0);
        column(2);
        switch (place) {
        case 0: binary(SCREEN_OP_EQ, 0, 1); break;
        case 1: binary(SCREEN_OP_AND, 1, 0); break;
        case 2: not_of(0); break;
        case 3: is_null(0); break;
        case 4: is_not_null(0); break;
        case 5: is_between(0, 0, 1, 1); break;
        case 6: is_between(0, 1, 1, 0); break;
        case 7: is_in(0, 0, 0); break;
        default: is_in(0, 1, 1); break;
        }
        refuse("a list out of place, or no list in its place", SCREEN_REFUSED_TYPES);
    }
}

static void test_root_type(void)
{
    begin_mixed();
    list(0, TRUTH, 0, 0);
    refuse("a list as root", SCREEN_REFUSED_TYPES);
    begin_mixed();
    column(0);
    refuse("an Int column as root", SCREEN_REFUSED_TYPES);
    begin_mixed();
    column(2);
    accept("a Truth column as root", 1 << 2, 1);
    begin_mixed();
    literal(DAY, 1);
    refuse("a Day literal as root", SCREEN_REFUSED_TYPES);
    begin_mixed();
    null_of(INT);
    refuse("an Int null as root", SCREEN_REFUSED_TYPES);
    begin_mixed();
    null_of(TRUTH);
    accept("a Truth null as root", 0, 0);
}

/* ------------------------------------------------------------------------------ which of several faults is given */

static void test_order(void)
{
    table_of(65);
    sent.used = UINT64_MAX;
    sent.root = UINT64_MAX;
    sent.pool_len = 3;
    refuse("1 before 2 and 3", SCREEN_REFUSED_TABLE);
    sent.table_len = 64;
    refuse("2 before 3", SCREEN_REFUSED_SIZE);
    begin_mixed();
    put(0, 0, 0, 0, 0, 0);
    sent.root = 1;
    refuse("3 before a record's 4", SCREEN_REFUSED_ROOT);
    begin_mixed();
    put(SCREEN_KIND_NOT, 0, 1, 5, 0, 0);
    refuse("4 before 5 of one record", SCREEN_REFUSED_RECORD);
    begin_mixed();
    binary(8, 5, 0);
    refuse("5 before 6 of one record", SCREEN_REFUSED_REFERENCE);
    begin_mixed();
    binary(12, column(0), column(1));
    refuse("6 before 7 of one record", SCREEN_REFUSED_OPERATOR);
    begin_mixed();
    not_of(column(0));
    put(0, 0, 0, 0, 0, 0);
    refuse("7 of an earlier record before 4 of a later one", SCREEN_REFUSED_TYPES);
    begin_mixed();
    column(9);
    put(0, 0, 0, 0, 0, 0);
    refuse("5 of an earlier record before 4 of a later one", SCREEN_REFUSED_REFERENCE);
    begin_mixed();
    column(0);
    put(0, 0, 0, 0, 0, 0);
    sent.root = 0;
    refuse("a record's 4 before the root's 7", SCREEN_REFUSED_RECORD);
    begin_mixed();
    literal(TRUTH, 1);
    put(11, 0, 0, 0, 0, 0);
    sent.root = 0;
    refuse("a fault that the root does not reach", SCREEN_REFUSED_RECORD);
    full(4096);
    sent.records[16 * 4095] = 0;
    sent.root = 1;
    refuse("a fault in the last record", SCREEN_REFUSED_RECORD);
    full(10);
    sent.used = 9;
    sent.root = 8;
    sent.records[16 * 9] = 0;
    accept("a fault past the used records", 0, 0);
}

/* -------------------------------------------------------------------------------------------------- columns read */

static void test_columns(void)
{
    uint8_t table[64];
    memset(table, TRUTH, sizeof table);

    begin(table, 64);
    uint32_t all = column(0);
    for (uint32_t i = 1; i < 64; i++)
        all = binary(SCREEN_OP_AND, all, column(i));
    accept("all 64 columns", UINT64_MAX, 64);

    begin(table, 64);
    column(5);
    column(63);
    accept("a column that the root does not reach", UINT64_C(1) << 63, 1);

    begin(table, 64);
    binary(SCREEN_OP_OR, column(5), column(5));
    accept("one column twice", UINT64_C(1) << 5, 1);

    begin_mixed();
    pool_value(0);
    uint32_t value = column(0);
    uint32_t low = column(3);
    uint32_t range = is_between(SCREEN_CLOSED_NONE, value, low, literal(INT, 9));
    uint32_t members = list(0, DAY, 0, 1);
    binary(SCREEN_OP_XOR, range, is_in(0, column(1), members));
    accept("through is_between and is_in", 1 << 0 | 1 << 1 | 1 << 3, 3);

    /* Each record uses the one before twice: a walk without a table would not end. */
    begin_mixed();
    uint32_t top = column(2);
    while (sent.used < 4096)
        top = binary(SCREEN_OP_AND, top, top);
    accept("4,095 records that double", 1 << 2, 1);

    begin_mixed();
    top = column(2);
    while (sent.used < 4096)
        top = not_of(top);
    accept("a chain of 4,095 Nots", 1 << 2, 1);
}

static void test_texts(void)
{
    for (uint32_t i = SCREEN_REFUSED_TABLE; i <= SCREEN_REFUSED_TYPES; i++)
        for (uint32_t j = 0; j <= 300; j++)
            if (j != i && strcmp(screen_refusal_text(i), screen_refusal_text(j)) == 0)
                report(0, "screen_refusal_text", "two numbers have one sentence");
    report(strcmp(screen_refusal_text(0), screen_refusal_text(255)) == 0, "screen_refusal_text", "0 is no refusal");
    report(strcmp(screen_refusal_text(256), screen_refusal_text(UINT32_MAX)) == 0, "screen_refusal_text", "256");
}

int main(void)
{
    test_table();
    test_used();
    test_pool();
    test_root();
    test_empty_slices();
    test_unknown();
    test_literals();
    test_inputs();
    test_lists();
    test_operators();
    test_divisions();
    test_types();
    test_list_places();
    test_root_type();
    test_order();
    test_columns();
    test_texts();
    return finish();
}
