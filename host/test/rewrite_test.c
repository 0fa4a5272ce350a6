/*
 * screen_rewrite: the paper's cases, every refusal, every limit, the text of reasons, and that no byte is written but
 * the records added and that text.
 *
 * A test builds a screen line by line, runs the call, and then goes on building: what it appends after the call is what
 * the call must have appended. So the lent buffers are compared whole, the room behind the added records too.
 */
#include "lend.h"

enum { INT = SCREEN_TYPE_INT, DAY = SCREEN_TYPE_DAY, TRUTH = SCREEN_TYPE_TRUTH };
enum { EQ = SCREEN_OP_EQ, NE = SCREEN_OP_NOT_EQ, LT = SCREEN_OP_LT, LE = SCREEN_OP_LT_EQ, GT = SCREEN_OP_GT,
       GE = SCREEN_OP_GT_EQ, AND = SCREEN_OP_AND, OR = SCREEN_OP_OR };
enum { PLENTY = 700 }; /* more records than any screen here adds */

/* Out-parameters before a call, to see that a refusal and an unchanged screen keep them. */
#define MARK_ROOT UINT64_C(0x0123456789abcdef)
#define MARK_USED UINT64_C(0xfedcba9876543210)
#define MARK_PASSES UINT64_C(0x5555aaaa5555aaaa)
#define MARK_TEXT UINT64_C(0x00ff00ff00ff00ff)

/* ---------------------------------------------------------------------------------------- screens of joined lines */

static uint32_t top;   /* the lines joined so far, if there are any */
static unsigned lines; /* how many there are */

static void join(uint32_t next)
{
    top = lines == 0 ? next : binary(AND, top, next);
    lines++;
}

/* A new screen with this many Int columns. */
static void begin_ints(size_t columns)
{
    uint8_t table[LEND_TABLE];
    memset(table, INT, sizeof table);
    begin(table, columns);
    lines = 0;
}

/* A new screen with columns of all three types. */
static void begin_types(void)
{
    begin_mixed();
    lines = 0;
}

static void compare(unsigned code, uint32_t number, int64_t value)
{
    join(line(code, number, INT, value));
}

/* Answers the record of the equality. */
static uint32_t equal_columns(uint32_t left, uint32_t right)
{
    uint32_t a = column(left);
    uint32_t b = column(right);
    uint32_t equality = binary(EQ, a, b);
    join(equality);
    return equality;
}

/* is_in of a column over the pool's next values, first, first + 1, .. */
static uint32_t member(unsigned nulls_equal, unsigned holds_null, uint32_t number, int64_t first, uint32_t count)
{
    uint32_t start = (uint32_t)(sent.pool_len / 8);
    uint32_t x = column(number);
    for (uint32_t i = 0; i < count; i++)
        pool_value(first + i);
    return is_in(nulls_equal, x, list(holds_null, INT, start, count));
}

static void null_test(uint32_t number)
{
    join(is_null(column(number)));
}

/* Unreached literals until so many records are used. The root stays. */
static void fill_to(uint64_t used)
{
    uint64_t root = sent.root;
    while (sent.used < used)
        literal(INT, 0);
    sent.root = root;
}

/* A line that the merging does not read, whose tree has so many records, 3 at least: shared inputs and null tests. */
static uint32_t opaque_tree(uint32_t size)
{
    uint32_t ladder[16]; /* the tree of ladder[i] has 2^(i+1) - 1 records */
    unsigned n = 1;
    uint32_t count;
    uint32_t made;
    ladder[0] = column(2);
    for (; (2u << n) - 1 <= size; n++)
        ladder[n] = binary(OR, ladder[n - 1], ladder[n - 1]);
    made = ladder[n - 1];
    count = (1u << n) - 1;
    while (n-- > 0)
        if (count + (2u << n) <= size) {
            made = binary(OR, made, ladder[n]);
            count += 2u << n;
        }
    for (; count < size; count++)
        made = is_not_null(made);
    return made;
}

/* ------------------------------------------------------------------------------------------------ running the call */

static struct screen_lent before; /* as it was sent, its room filled with marks */
static struct store before_store;
static uint8_t records_after[LEND_RECORDS];
static uint32_t answer;
static uint64_t new_root;
static uint64_t new_used;
static uint64_t new_passes;
static int others_kept; /* table and pool */
static size_t text_room = SCREEN_MAX_REASONS_BYTES; /* of the buffer lent for the text */
static uint8_t text_before[SCREEN_MAX_REASONS_BYTES];
static uint8_t text_after[SCREEN_MAX_REASONS_BYTES];
static uint64_t text_used;

/* Lends so many records behind the used ones, and some bytes more, with values that no record has. */
static void room(size_t records, size_t bytes)
{
    size_t len = 16 * records + bytes;
    for (size_t i = 0; i < len; i++)
        sent.records[16 * sent.used + i] = (uint8_t)(0xa0 + i % 23);
    sent.records_len = 16 * (size_t)sent.used + len;
}

static void run(void)
{
    struct slices s = lend();
    uint8_t *text;
    for (size_t i = 0; i < text_room; i++)
        text_before[i] = (uint8_t)(0xb0 + i % 29);
    text = lent(text_before, text_room);
    before_store = sent_store;
    before = sent;
    before.table = before_store.table;
    before.records = before_store.records;
    before.pool = before_store.pool;
    before.text = before_store.text;
    new_root = MARK_ROOT;
    new_used = MARK_USED;
    new_passes = MARK_PASSES;
    text_used = MARK_TEXT;
    answer = screen_rewrite(s.table, sent.table_len, s.records, sent.records_len, s.pool, sent.pool_len, s.text,
                            sent.text_len, sent.used, sent.root, text, text_room, &new_root, &new_used, &text_used,
                            &new_passes);
    if (text_room > 0)
        memcpy(text_after, text, text_room);
    free(text);
    if (sent.records_len > 0)
        memcpy(records_after, s.records, sent.records_len);
    others_kept = kept(s.table, sent.table, sent.table_len) && kept(s.pool, sent.pool, sent.pool_len) &&
                  kept(s.text, sent.text, sent.text_len);
    give_back(&s);
}

/* ------------------------------------------------------------------------- which rows pass, before and after a call */

static int64_t values[24];
static size_t values_len;

static void try_value(int64_t value)
{
    for (size_t i = 0; i < values_len; i++)
        if (values[i] == value)
            return;
    if (values_len < sizeof values / sizeof values[0])
        values[values_len++] = value;
}

/* The values of the screen sent and their neighbours, those of the last lines first. */
static void gather_values(void)
{
    values_len = 0;
    for (size_t n = before.used; n-- > 0;)
        if (before.records[16 * n] == SCREEN_KIND_LITERAL) {
            int64_t value = screen_fetch_value(before.records + 16 * n + 8);
            try_value(value);
            try_value(value == INT64_MAX ? value : value + 1);
            try_value(value == INT64_MIN ? value : value - 1);
        }
    for (size_t at = 0; at < before.pool_len; at += 8)
        try_value(screen_fetch_value(before.pool + at));
}

/* Even columns hold the first value, odd ones the second; values_len stands for null. */
static uint64_t make_row(uint8_t *row, size_t even, size_t odd)
{
    uint64_t nulls = 0;
    for (size_t c = 0; c < before.table_len; c++) {
        size_t choice = c % 2 == 0 ? even : odd;
        int64_t value = choice < values_len ? values[choice] : 0;
        if (before.table[c] == DAY && (value < INT32_MIN || value > INT32_MAX))
            value = 0;
        if (before.table[c] == TRUTH)
            value = value > 0;
        screen_store_value(row + 8 * c, value);
        if (choice == values_len)
            nulls |= UINT64_C(1) << c;
    }
    return nulls;
}

static int passes(const uint8_t *records, uint64_t used, uint64_t root, const uint8_t *row, uint64_t nulls)
{
    return screen_test_row(before.table, before.table_len, records, before.records_len, before.pool, before.pool_len,
                           before.text, before.text_len, used, root, row, 8 * before.table_len, nulls) == SCREEN_TRUE;
}

/* Each row passes the screen returned exactly if it passes the screen sent. Answers how many passed. */
static unsigned same_rows(const char *name)
{
    uint8_t row[8 * LEND_TABLE];
    unsigned passing = 0;
    int same = 1;
    gather_values();
    for (size_t even = 0; even <= values_len; even++)
        for (size_t odd = 0; odd <= values_len; odd++) {
            uint64_t nulls = make_row(row, even, odd);
            int was = passes(before.records, before.used, before.root, row, nulls);
            same &= was == passes(records_after, new_used, new_root, row, nulls);
            passing += (unsigned)was;
        }
    report(same, name, "a row passes before and not after, or the other way round");
    return passing;
}

/* ------------------------------------------------------------------------------------------ what the call must say */

/* All bytes of the text buffer from this one on are as they were. */
static int text_kept(uint64_t from)
{
    return from <= text_room && kept(text_after + from, text_before + from, text_room - from);
}

/* The text is this one, and nothing behind it was written. */
static void reasons_are(const char *name, const char *want)
{
    size_t len = strlen(want);
    report(text_used == len && kept(text_after, (const uint8_t *)want, len), name, "another text of reasons");
    report(text_kept(len), name, "a byte behind the text was written");
}

static void nothing_written(const char *name, uint32_t want)
{
    report(answer == want, name, answer < 256 ? screen_refusal_text(answer) : "another answer");
    report(new_root == MARK_ROOT && new_used == MARK_USED, name, "an out-parameter was written");
    report((new_passes == MARK_PASSES) == (want < 256), name, "passes are written exactly if the screen is not refused");
    report(text_used == (want < 256 ? MARK_TEXT : 0), name, "the text's length is 0 if the screen is not refused, else kept");
    report(others_kept && kept(records_after, before.records, before.records_len) && text_kept(0), name,
           "a lent byte changed");
}

static void refused(const char *name, uint32_t want)
{
    run();
    nothing_written(name, want);
}

static void unchanged(const char *name)
{
    run();
    nothing_written(name, SCREEN_UNCHANGED);
}

/* The call added exactly the records that stand in `sent` since. */
static void added_these(const char *name, uint32_t want, uint64_t added)
{
    report(answer == want, name, answer < 256 ? screen_refusal_text(answer) : "another answer");
    report(sent.used - before.used == added, name, "the test expects another number of records");
    report(new_root == sent.root && new_used == sent.used, name, "another root or used count");
    report(others_kept && kept(records_after, sent.records, before.records_len), name, "other records than expected");
    report((text_used > 0) == (want == SCREEN_REWRITTEN) && text_kept(text_used), name, "another length of the text");
    if (new_used <= SCREEN_MAX_RECORDS)
        report(screen_check(before.table, before.table_len, records_after, before.records_len, before.pool,
                            before.pool_len, before.text, before.text_len, new_used, new_root) == SCREEN_ACCEPTED, name, "no well-formed screen");
}

/* After run() and the records expected. Some of the rows must pass, so that the comparison says something. */
static void rewritten(const char *name, uint64_t added)
{
    added_these(name, SCREEN_REWRITTEN, added);
    if (answer == SCREEN_REWRITTEN)
        report(same_rows(name) > 0, name, "no row passed");
}

static void nothing_passes(const char *name)
{
    run();
    literal(TRUTH, 0);
    added_these(name, SCREEN_NOTHING_PASSES, 1);
    if (answer == SCREEN_NOTHING_PASSES)
        report(same_rows(name) == 0, name, "a row passed");
}

/* ------------------------------------------------------------------------------------------ the cases of the paper */

/* Two comparisons of c0 that become one, with room for it. */
static void two_become_one(const char *name, unsigned code1, int64_t value1, unsigned code2, int64_t value2,
                           unsigned code, int64_t value)
{
    begin_ints(2);
    compare(code1, 0, value1);
    compare(code2, 0, value2);
    room(5, 7);
    run();
    line(code, 0, INT, value);
    rewritten(name, 3);
}

static void two_lines(unsigned code1, int64_t value1, unsigned code2, int64_t value2)
{
    begin_ints(2);
    compare(code1, 0, value1);
    compare(code2, 0, value2);
    room(5, 7);
}

static void test_bounds(void)
{
    two_become_one("c0>3, c0>5", GT, 3, GT, 5, GT, 5);
    two_become_one("c0>=3, c0<=3", GE, 3, LE, 3, EQ, 3);
    two_lines(GE, 3, LT, 3);
    nothing_passes("c0>=3, c0<3");
    two_lines(GT, 3, LT, 4);
    unchanged("c0>3, c0<4");
    two_become_one("c0>=3, c0!=3", GE, 3, NE, 3, GT, 3);

    begin_ints(2);
    uint32_t five = literal(INT, 5);
    join(binary(LT, five, column(0)));
    compare(GT, 0, 4);
    room(3, 0);
    run();
    line(GT, 0, INT, 5);
    rewritten("5<c0, c0>4", 3);

    two_become_one("a negative bound", LT, 3, LT, -1, LT, -1);
    two_become_one("extremes", GE, INT64_MIN, GE, INT64_MAX, GE, INT64_MAX);
    two_become_one("an equal bound that is open", LE, 3, LT, 3, LT, 3);
    two_become_one("an exclusion outside", GT, 5, NE, 5, GT, 5);
    two_lines(NE, 5, NE, 4);
    unchanged("two exclusions");
}

static void test_equalities(void)
{
    begin_ints(2);
    uint32_t equality = equal_columns(0, 1);
    compare(GT, 0, 5);
    room(9, 3);
    run();
    uint32_t left = line(GT, 0, INT, 5);
    uint32_t right = line(GT, 1, INT, 5);
    binary(AND, binary(AND, equality, left), right);
    rewritten("c0==c1, c0>5", 8);

    begin_ints(2);
    equal_columns(0, 1);
    compare(EQ, 0, 7);
    room(9, 3);
    run();
    left = line(EQ, 0, INT, 7);
    right = line(EQ, 1, INT, 7);
    binary(AND, left, right);
    rewritten("c0==c1, c0==7", 7);

    begin_ints(2);
    equal_columns(0, 0);
    room(5, 0);
    unchanged("c0==c0");
    compare(EQ, 0, 4);
    room(5, 0);
    run();
    line(EQ, 0, INT, 4);
    rewritten("c0==c0, c0==4", 3);

    begin_ints(2);
    equal_columns(0, 1);
    compare(EQ, 0, 7);
    compare(EQ, 1, 8);
    room(5, 0);
    nothing_passes("c0==c1, c0==7, c1==8");
}

/* c0 in a list of so many values from 1 on, and c0 > 2. */
static void member_above_2(unsigned holds_null, uint32_t count)
{
    begin_ints(2);
    join(member(0, holds_null, 0, 1, count));
    compare(GT, 0, 2);
    room(5, 0);
}

/* Not of one comparison of c0 with 3, alone: its complement, whatever else the screen has. */
static void negated_alone(const char *name, unsigned code, unsigned complement)
{
    begin_ints(1);
    join(not_of(line(code, 0, INT, 3)));
    room(3, 5);
    run();
    line(complement, 0, INT, 3);
    rewritten(name, 3);
}

static void test_negated(void)
{
    negated_alone("not c0==3", EQ, NE);
    negated_alone("not c0!=3", NE, EQ);
    negated_alone("not c0<3", LT, GE);
    negated_alone("not c0<=3", LE, GT);
    negated_alone("not c0>3", GT, LE);
    negated_alone("not c0>=3", GE, LT);

    begin_ints(1);
    uint32_t three = literal(INT, 3);
    join(not_of(binary(LT, three, column(0))));
    room(3, 0);
    run();
    line(LE, 0, INT, 3);
    rewritten("not 3<c0", 3);

    begin_ints(1);
    compare(GT, 0, 3);
    join(not_of(line(EQ, 0, INT, 1)));
    room(9, 0);
    run();
    line(GT, 0, INT, 3);
    rewritten("c0>3, not c0==1", 3);

    begin_ints(1);
    uint32_t shared = line(LT, 0, INT, 3);
    join(shared);
    join(not_of(shared));
    room(1, 0);
    nothing_passes("a line and its Not");

    begin_ints(2);
    uint32_t left = column(0);
    uint32_t equality = not_of(binary(NE, left, column(1)));
    join(equality);
    room(9, 0);
    unchanged("not c0!=c1 alone");
    compare(GT, 0, 5);
    room(9, 0);
    run();
    uint32_t over = line(GT, 0, INT, 5);
    uint32_t also = line(GT, 1, INT, 5);
    binary(AND, binary(AND, equality, over), also);
    rewritten("not c0!=c1, c0>5", 8);

    begin_ints(2);
    left = column(0);
    join(not_of(binary(LT, left, column(1))));
    null_test(0);
    room(1, 0);
    nothing_passes("not c0<c1, c0 null");

    begin_ints(1);
    join(not_of(line(SCREEN_OP_EQ_VALIDITY, 0, INT, 3)));
    room(3, 0);
    unchanged("not of a comparison that takes null as a value");
    begin_ints(1);
    uint32_t low = line(LT, 0, INT, 3);
    join(not_of(binary(AND, low, line(GT, 0, INT, 5))));
    room(9, 0);
    unchanged("not of an And");
}

/* Column 0 divided by 5, compared with 1. */
static uint32_t divided(unsigned code, unsigned compared)
{
    uint32_t x = column(0);
    uint32_t quotient = binary(code, x, literal(INT, 5));
    return binary(compared, quotient, literal(INT, 1));
}

/* Lines that divide are opaque: they stay as they are and say nothing of their columns. */
static void test_divided(void)
{
    for (unsigned code = SCREEN_OP_FLOOR_DIVIDE; code <= SCREEN_OP_MODULUS; code++) {
        begin_ints(1);
        join(divided(code, GE));
        join(divided(code, LT));
        room(9, 0);
        unchanged("two lines that divide and contradict");

        begin_ints(1);
        join(not_of(divided(code, GE)));
        room(9, 0);
        unchanged("Not of a line that divides");

        begin_ints(1);
        uint32_t lots = divided(code, GE);
        join(lots);
        compare(GT, 0, 3);
        compare(GT, 0, 5);
        room(9, 0);
        run();
        uint32_t over = line(GT, 0, INT, 5);
        binary(AND, lots, over);
        rewritten("a line that divides, c0>3, c0>5", 4);

        begin_ints(1);
        join(divided(code, EQ));
        compare(GE, 0, 3);
        compare(LT, 0, 3);
        room(1, 0);
        nothing_passes("a line that divides, c0>=3, c0<3");

        begin_ints(2);
        uint32_t x = column(0);
        join(binary(EQ, binary(code, x, column(1)), column(1)));
        compare(GT, 1, 5);
        room(9, 0);
        unchanged("a quotient equal to a column carries nothing");

        begin_ints(1);
        binary(code, column(0), literal(INT, 0));
        compare(GT, 0, 3);
        compare(GT, 0, 5);
        room(9, 0);
        run();
        line(GT, 0, INT, 5);
        rewritten("a division that the root does not reach, c0>3, c0>5", 3);
    }
}

static void test_members(void)
{
    begin_ints(2);
    uint32_t x = column(0);
    uint32_t low = literal(INT, 1);
    join(is_between(SCREEN_CLOSED_BOTH, x, low, literal(INT, 5)));
    room(5, 0);
    unchanged("is_between(c0,1,5)");

    begin_ints(2);
    null_test(0);
    compare(GT, 0, 1);
    room(5, 0);
    nothing_passes("is_null(c0), c0>1");

    member_above_2(0, 2);
    nothing_passes("c0 in [1,2], c0>2");

    member_above_2(1, 2);
    unchanged("c0 in [1,2,null], c0>2");

    member_above_2(1, 0);
    unchanged("a list of code 1 and count 0, c0>2");

    member_above_2(0, 0);
    nothing_passes("c0 in [], c0>2");

    for (unsigned nulls_equal = 0; nulls_equal < 2; nulls_equal++) {
        begin_ints(2);
        null_test(0);
        join(not_of(member(nulls_equal, 0, 0, 1, 1)));
        room(5, 0);
        if (nulls_equal)
            unchanged("is_null(c0), Not is_in(c0,[1]) with nulls_equal");
        else
            nothing_passes("is_null(c0), Not is_in(c0,[1])");
    }

    begin_ints(2);
    null_test(0);
    join(not_of(member(1, 0, 0, 1, 1)));
    join(not_of(member(0, 0, 0, 1, 1)));
    room(5, 0);
    nothing_passes("a value that a negated is_in without nulls_equal gives as well");
}

/* A list of so many values, all at most 2. */
static void long_list(uint32_t count)
{
    begin_ints(1);
    uint32_t x = column(0);
    for (uint32_t i = 0; i < count; i++)
        pool_value(1 + i % 2);
    join(is_in(0, x, list(0, INT, 0, count)));
    compare(GT, 0, 2);
    room(1, 0);
}

static void test_long_lists(void)
{
    long_list(100);
    nothing_passes("100 values, all at most 2, c0>2");
    long_list(101);
    unchanged("101 values, all at most 2, c0>2");
    begin_ints(1);
    join(member(0, 0, 0, 1, 100));
    join(member(0, 0, 0, 101, 100));
    room(1, 0);
    nothing_passes("two lists of 100 values, none in both");
    begin_ints(1);
    join(member(0, 0, 0, 1, 100));
    join(member(0, 0, 0, 100, 100));
    room(1, 0);
    unchanged("two lists of 100 values, one in both");
}

/* --------------------------------------------------------------------------------------- what else the merging does */

static void test_order(void)
{
    begin_ints(1);
    compare(NE, 0, 5);
    compare(NE, 0, 3);
    compare(NE, 0, 9);
    compare(NE, 0, 3);
    room(20, 0);
    run();
    uint32_t first = line(NE, 0, INT, 5);
    uint32_t second = line(NE, 0, INT, 3);
    uint32_t third = line(NE, 0, INT, 9);
    binary(AND, binary(AND, first, second), third);
    rewritten("excluded values in the order of the lines", 11);

    begin_ints(1);
    join(member(0, 0, 0, 1, 3));
    uint32_t in = top;
    compare(GT, 0, 0);
    compare(GT, 0, 1);
    room(20, 0);
    run();
    binary(AND, in, line(GT, 0, INT, 1));
    rewritten("is_in stays", 4);

    begin_ints(3);
    compare(GT, 2, 1);
    compare(GT, 0, 1);
    compare(GT, 2, 0);
    room(20, 0);
    run();
    first = line(GT, 2, INT, 1);
    second = line(GT, 0, INT, 1);
    binary(AND, first, second);
    rewritten("columns in the order of the lines", 7);
}

static void test_types(void)
{
    begin_types();
    join(line(GE, 1, DAY, -3));
    join(line(GE, 1, DAY, INT32_MIN));
    room(20, 0);
    run();
    line(GE, 1, DAY, -3);
    rewritten("Days", 3);

    begin_types();
    join(line(GT, 2, TRUTH, 0));
    join(line(GE, 2, TRUTH, 1));
    room(20, 0);
    run();
    line(GE, 2, TRUTH, 1);
    rewritten("truths", 3);

    begin_types();
    join(line(SCREEN_OP_EQ_VALIDITY, 0, INT, 4));
    join(line(SCREEN_OP_EQ_VALIDITY, 0, INT, 5));
    room(20, 0);
    unchanged("comparisons that take null as a value");
    begin_types();
    join(column(2));
    join(literal(TRUTH, 1));
    join(null_of(TRUTH));
    room(20, 0);
    unchanged("lines that are no comparisons");
}

/* A record reached as a conjunct twice counts twice, and one that is not read is kept twice. */
static void test_shared(void)
{
    begin_ints(1);
    uint32_t shared = line(GT, 0, INT, 3);
    binary(AND, shared, shared);
    room(3, 0);
    run();
    line(GT, 0, INT, 3);
    rewritten("a line twice", 3);

    begin_types();
    uint32_t opaque = column(2);
    uint32_t twice = binary(SCREEN_OP_LOGICAL_AND, opaque, opaque);
    uint32_t bound = line(GT, 0, INT, 3);
    binary(AND, binary(AND, bound, twice), bound);
    room(9, 0);
    run();
    bound = line(GT, 0, INT, 3);
    binary(AND, binary(AND, opaque, opaque), bound);
    rewritten("a line that is not read, twice", 5);
}

/* 63 equalities over 64 columns, listed from the far end, and a line on the first column. */
static void equality_chain(const char *name, unsigned code, int equalities_stay)
{
    uint32_t conjuncts[63 + 64];
    unsigned n = 0;
    begin_ints(64);
    for (uint32_t i = 63; i-- > 0;) {
        uint32_t equality = equal_columns(i, i + 1);
        if (equalities_stay)
            conjuncts[n++] = equality;
    }
    compare(code, 0, 7);
    room(PLENTY, 0);
    run();
    /* The columns stand in the order in which the lines name them: 62, 63, 61, 60, .. 0. */
    for (uint32_t i = 0; i < 64; i++)
        conjuncts[n++] = line(code, i == 0 ? 62 : i == 1 ? 63 : 63 - i, INT, 7);
    lines = 0;
    for (unsigned i = 0; i < n; i++)
        join(conjuncts[i]);
    rewritten(name, 3 * 64 + n - 1);
}

static void test_chain(void)
{
    equality_chain("a chain of equalities, its first column fixed", EQ, 0);
    equality_chain("a chain of equalities, its first column bounded", GT, 1);
}

/* -------------------------------------------------------------------------------------- refused as by screen_check */

static void test_check_refusals(void)
{
    begin_ints(65);
    join(literal(TRUTH, 1));
    room(3, 0);
    refused("65 columns", SCREEN_REFUSED_TABLE);
    sent.table_len = 64;
    sent.table[3] = 9;
    refused("no type", SCREEN_REFUSED_TABLE);

    two_lines(GT, 3, GT, 5);
    sent.used = UINT64_C(1) << 60;
    refused("a large used", SCREEN_REFUSED_SIZE);
    sent.used = 13;
    refused("more used than lent", SCREEN_REFUSED_SIZE);
    sent.used = 7;
    sent.pool_len = 9;
    refused("a cut-off pool", SCREEN_REFUSED_SIZE);
    sent.pool_len = 0;
    sent.root = 7;
    refused("root equal to used", SCREEN_REFUSED_ROOT);
    sent.root = UINT64_MAX;
    refused("root at its largest", SCREEN_REFUSED_ROOT);
    sent.root = 6;
    sent.records[3] = 1;
    refused("a nonzero unused field", SCREEN_REFUSED_RECORD);
    sent.records[3] = 0;
    sent.records[4] = 2;
    refused("a column not in the table", SCREEN_REFUSED_REFERENCE);
    sent.records[4] = 0;
    sent.records[6 * 16 + 8] = 6;
    refused("its own input", SCREEN_REFUSED_REFERENCE);
    sent.records[6 * 16 + 8] = 5;
    sent.records[2 * 16 + 1] = 8;
    refused("arithmetic", SCREEN_REFUSED_OPERATOR);
    sent.records[2 * 16 + 1] = SCREEN_OP_MODULUS;
    refused("a division as a conjunct", SCREEN_REFUSED_TYPES);
    sent.records[2 * 16 + 1] = GT;
    sent.records[16 + 2] = DAY;
    refused("two types", SCREEN_REFUSED_TYPES);
    sent.records[16 + 2] = INT;
    sent.root = 0;
    refused("an Int root", SCREEN_REFUSED_TYPES);
    sent.root = 6;
    run();
    line(GT, 0, INT, 5);
    rewritten("the same screen undamaged", 3);
}

/* The slowest screen of each number of columns takes as many passes; in a shorter buffer, or of another number, none. */
static void test_slowest(void)
{
    static uint8_t table[SCREEN_MAX_COLUMNS + 1], records[16 * 512];
    for (uint64_t n = 0; n <= SCREEN_MAX_COLUMNS + 1; n++) {
        uint64_t root = MARK_ROOT, used = MARK_USED, passes = MARK_PASSES, new_at = 0, new_end = 0, told = 0;
        int known = 2 <= n && n <= SCREEN_MAX_COLUMNS;
        memset(table, 0xee, sizeof table);
        memset(records, 0xee, sizeof records);
        report(screen_slowest(n, NULL, 0, NULL, 0, &root, &used) == (known ? SCREEN_REFUSED_ROOM : SCREEN_REFUSED_COLUMNS),
               "slowest", "19 stands before 11");
        report(known == (screen_slowest(n, table, sizeof table, records, sizeof records, &root, &used) == SCREEN_BUILT),
               "slowest", "2 to 64 columns");
        report(known ? root == 3 * n - 1 && used == 3 * n : root == MARK_ROOT && used == MARK_USED, "slowest",
               "root and used");
        report(table[known ? n : 0] == 0xee && records[known ? 48 * n : 0] == 0xee, "slowest", "a byte too many");
        if (!known)
            continue;
        report(screen_slowest(n, table, n - 1, records, sizeof records, &root, &used) == SCREEN_REFUSED_ROOM &&
                   screen_slowest(n, table, n, records, 48 * n - 1, &root, &used) == SCREEN_REFUSED_ROOM &&
                   screen_slowest(n, table, n, records, 48 * n, &root, &used) == SCREEN_BUILT, "slowest", "not 11");
        report(screen_rewrite(table, n, records, 16 * (8 * n - 3), NULL, 0, NULL, 0, used, root, NULL, 0, &new_at,
                              &new_end, &told, &passes) == SCREEN_REFUSED_ROOM && passes == MARK_PASSES, "slowest",
               "served with a record less");
        report(screen_rewrite(table, n, records, 16 * (8 * n - 2), NULL, 0, NULL, 0, used, root, text_after,
                              sizeof text_after, &new_at, &new_end, &told, &passes) == SCREEN_REWRITTEN && passes == n &&
                   new_end == 8 * n - 2, "slowest", "another number of passes");
    }
}

static void test_empty_slices(void)
{
    uint8_t one[32] = {SCREEN_KIND_NULL, 0, TRUTH};
    uint8_t *odd = (uint8_t *)(uintptr_t)1;
    uint64_t root = MARK_ROOT;
    uint64_t used = MARK_USED;
    uint64_t passes = MARK_PASSES;
    uint64_t told = MARK_TEXT;
    report(screen_rewrite(NULL, 0, NULL, 0, NULL, 0, NULL, 0, 0, 0, NULL, 0, &root, &used, &told, &passes) == SCREEN_REFUSED_ROOT,
           "all NULL", "not 3");
    report(screen_rewrite(odd, 0, odd, 0, odd, 0, odd, 0, 0, 0, odd, 0, &root, &used, &told, &passes) == SCREEN_REFUSED_ROOT,
           "address 1", "not 3");
    report(screen_rewrite(NULL, 0, NULL, 0, NULL, 0, NULL, 0, 1, 0, NULL, 0, &root, &used, &told, &passes) == SCREEN_REFUSED_SIZE,
           "all NULL", "not 2");
    report(told == MARK_TEXT, "empty slices", "a refusal wrote the text's length");
    report(screen_rewrite(NULL, 0, one, 16, NULL, 0, NULL, 0, 1, 0, NULL, 0, &root, &used, &told, &passes) == SCREEN_UNCHANGED,
           "a null alone", "not unchanged");
    report(screen_rewrite(odd, 0, one, 32, odd, 0, odd, 0, 1, 0, odd, 0, &root, &used, &told, &passes) == SCREEN_UNCHANGED,
           "a null alone", "not unchanged");
    report(told == 0, "empty slices", "the text is not empty");
    report(root == MARK_ROOT && used == MARK_USED, "empty slices", "an out-parameter was written");
}

/* --------------------------------------------------------------------------- 8, 9: the tree and the conjuncts sent */

static void test_tree(void)
{
    begin_types();
    join(opaque_tree(4096));
    room(3, 0);
    unchanged("a tree of 4,096");
    begin_types();
    join(opaque_tree(4097));
    room(3, 0);
    refused("a tree of 4,097", SCREEN_REFUSED_TREE);

    /* And(And(tree, c0>3), c0>5): eight records more. */
    for (uint32_t size = 4096; size <= 4097; size++) {
        begin_types();
        uint32_t opaque = opaque_tree(size - 8);
        join(opaque);
        join(line(GT, 0, INT, 3));
        join(line(GT, 0, INT, 5));
        room(9, 0);
        if (size == 4097) {
            refused("a tree of 4,097 with lines to merge", SCREEN_REFUSED_TREE);
            continue;
        }
        run();
        binary(AND, opaque, line(GT, 0, INT, 5));
        added_these("a tree of 4,096 with lines to merge", SCREEN_REWRITTEN, 4);
    }

    begin_types();
    uint32_t doubled = column(2);
    for (unsigned i = 0; i < 64; i++)
        doubled = binary(AND, doubled, doubled);
    room(3, 0);
    refused("a tree of 2^65 - 1 and 2^64 conjuncts: 8 before 9", SCREEN_REFUSED_TREE);
}

/* One line so many times, by sharing. */
static void conjuncts(unsigned n)
{
    uint32_t ladder[8];
    unsigned left = n;
    begin_ints(1);
    ladder[0] = line(GT, 0, INT, 3);
    for (unsigned i = 1; i < 8; i++)
        ladder[i] = binary(AND, ladder[i - 1], ladder[i - 1]);
    for (unsigned i = 8; i-- > 0;)
        for (; left >= 1u << i; left -= 1u << i)
            join(ladder[i]);
    sent.root = top;
    room(3, 0);
}

static void test_conjuncts(void)
{
    for (unsigned n = 127; n <= 128; n++) {
        conjuncts(n);
        run();
        line(GT, 0, INT, 3);
        rewritten("127 and 128 conjuncts", 3);
    }
    conjuncts(129);
    refused("129 conjuncts", SCREEN_REFUSED_CONJUNCTS);
    begin_ints(1);
    for (unsigned i = 0; i < 127; i++)
        compare(GE, 0, i);
    compare(NE, 0, 200);
    room(7, 0);
    run();
    uint32_t bound = line(GE, 0, INT, 126);
    binary(AND, bound, line(NE, 0, INT, 200));
    rewritten("128 different conjuncts", 7);
    begin_ints(1);
    compare(LT, 0, 0);
    for (unsigned i = 0; i < 128; i++)
        compare(GE, 0, i);
    room(7, 0);
    refused("129 conjuncts, the second impossible", SCREEN_REFUSED_CONJUNCTS);
}

/* ------------------------------------------------------------------------------ 11: no room for the records to add */

static void test_used_count(void)
{
    for (uint64_t used = 4092; used <= 4096; used++) {
        begin_ints(1);
        compare(GT, 0, 3);
        compare(GT, 0, 5);
        fill_to(used);
        room(100, 0);
        if (used > 4093) {
            refused("used and three more pass 4,096", SCREEN_REFUSED_ROOM);
            continue;
        }
        run();
        line(GT, 0, INT, 5);
        rewritten("used and three more up to 4,096", 3);
    }
    for (uint64_t used = 4095; used <= 4096; used++) {
        begin_ints(1);
        compare(GE, 0, 3);
        compare(LT, 0, 3);
        fill_to(used);
        room(100, 0);
        if (used == 4095)
            nothing_passes("used and one more are 4,096");
        else
            refused("used and one more pass 4,096", SCREEN_REFUSED_ROOM);
    }
    begin_ints(1);
    compare(GT, 0, 3);
    compare(LT, 0, 4);
    fill_to(4096);
    unchanged("4,096 used and no room");
    room(100, 0);
    unchanged("4,096 used");
}

static void test_lent_records(void)
{
    /* Three records are needed, with 0 to 3 lent, and bytes behind them that are no whole record. */
    for (size_t records = 0; records <= 3; records++)
        for (size_t bytes = 0; bytes <= 15; bytes += 15) {
            begin_ints(1);
            compare(GT, 0, 3);
            compare(GT, 0, 5);
            room(records, bytes);
            if (records < 3) {
                refused("less room than three records", SCREEN_REFUSED_ROOM);
                continue;
            }
            run();
            line(GT, 0, INT, 5);
            rewritten("room for exactly three records", 3);
        }
    for (size_t bytes = 0; bytes <= 16; bytes++) {
        begin_ints(1);
        compare(GE, 0, 3);
        compare(LT, 0, 3);
        room(0, bytes);
        if (bytes < 16)
            refused("less room than one record", SCREEN_REFUSED_ROOM);
        else
            nothing_passes("room for exactly one record");
    }
    begin_ints(2);
    equal_columns(0, 1);
    compare(GT, 0, 5);
    room(7, 15);
    refused("eight to add and a byte short", SCREEN_REFUSED_ROOM);
}

/* And(And(tree, c0==c3), c0>5) has eight records more than the tree; the rebuilt one, with c3>5, has twelve more. */
static void test_rebuilt_tree(void)
{
    for (uint32_t size = 4084; size <= 4089; size++) {
        begin_types();
        uint32_t opaque = opaque_tree(size);
        join(opaque);
        uint32_t equality = equal_columns(0, 3);
        join(line(GT, 0, INT, 5));
        room(40, 0);
        if (size > 4084) {
            refused("a rebuilt tree over 4,096", size > 4088 ? SCREEN_REFUSED_TREE : SCREEN_REFUSED_ROOM);
            continue;
        }
        run();
        uint32_t left = line(GT, 0, INT, 5);
        uint32_t right = line(GT, 3, INT, 5);
        binary(AND, binary(AND, binary(AND, opaque, equality), left), right);
        added_these("a rebuilt tree of 4,096", SCREEN_REWRITTEN, 9);
    }
}

/* 63 equalities and 65 exclusions: each column would get each of them, 4,160 comparisons. */
static void test_too_many(void)
{
    begin_ints(64);
    for (uint32_t i = 0; i < 63; i++)
        equal_columns(i, i + 1);
    for (int64_t i = 0; i < 65; i++)
        compare(NE, (uint32_t)(i % 64), i);
    room(4096, 0);
    refused("4,160 comparisons to add", SCREEN_REFUSED_ROOM);
}

/* --------------------------------------------------------------------------------- the line behind a limit, and 16 */

/* Comparisons of two Int columns, as code, column, value; an equality of the two columns as EQUAL. */
enum { EQUAL = 100 };

struct typed {
    unsigned code;
    uint32_t column;
    int64_t value;
};

static void reasons_of(const char *text, const struct typed *typed, size_t count)
{
    begin_ints(2);
    for (size_t i = 0; i < count; i++)
        if (typed[i].code == EQUAL)
            equal_columns(0, 1);
        else
            compare(typed[i].code, typed[i].column, typed[i].value);
    room(PLENTY, 0);
    run();
    report(answer == SCREEN_REWRITTEN, text, "not rewritten");
    reasons_are(text, text);
}

#define REASONS(text, ...)                                                   \
    do {                                                                     \
        static const struct typed typed[] = {__VA_ARGS__};                   \
        reasons_of(text, typed, sizeof typed / sizeof typed[0]);             \
    } while (0)

static void test_reasons(void)
{
    REASONS("0 Gt 5 1\n", {GT, 0, 3}, {GT, 0, 5});
    REASONS("0 Gt 5 0\n", {GT, 0, 5}, {GT, 0, 3});
    REASONS("0 GtEq 5 2\n", {GE, 0, 3}, {GE, 0, 4}, {GE, 0, 5}, {GE, 0, 5});
    /* an equal value: the number held stays, though another line or an excluded value opens the end */
    REASONS("0 Lt 3 0\n", {LE, 0, 3}, {LT, 0, 3});
    REASONS("0 Gt 3 0\n", {GE, 0, 3}, {NE, 0, 3});
    REASONS("0 Gt 3 1\n", {NE, 0, 3}, {GE, 0, 3});
    /* an equality made of two ends names the lower one's */
    REASONS("0 Eq 3 0\n", {GE, 0, 3}, {LE, 0, 3});
    REASONS("0 Eq 3 1\n", {LE, 0, 3}, {GE, 0, 3});
    /* along an equality */
    REASONS("0 Gt 5 1\n1 Gt 5 1\n", {EQUAL, 0, 0}, {GT, 0, 5});
    REASONS("0 Gt 5 1\n1 Gt 5 2\n", {EQUAL, 0, 0}, {GT, 0, 5}, {GT, 1, 5}, {GT, 1, 4});
    REASONS("1 Eq 7 0\n0 Eq 7 0\n", {EQ, 1, 7}, {EQUAL, 0, 0});
    REASONS("0 NotEq 2 1\n0 NotEq 1 2\n1 NotEq 1 2\n1 NotEq 2 1\n", {EQUAL, 0, 0}, {NE, 0, 2}, {NE, 1, 1});
    /* the ends of 64 bits */
    REASONS("0 Gt -9223372036854775808 0\n0 LtEq 9223372036854775807 1\n", {GT, 0, INT64_MIN}, {LE, 0, INT64_MAX},
            {LE, 0, INT64_MAX});
    REASONS("0 NotEq -9223372036854775808 0\n0 NotEq 9223372036854775807 1\n0 NotEq -1 2\n0 NotEq 0 3\n",
            {NE, 0, INT64_MIN}, {NE, 0, INT64_MAX}, {NE, 0, -1}, {NE, 0, 0}, {NE, 0, -1});
    REASONS("0 GtEq -10 0\n0 LtEq 100 1\n", {GE, 0, -10}, {LE, 0, 100}, {LE, 0, 100});
}

/* Days are their numbers, truths 0 and 1; both ends of a range have its line. */
static void test_reason_types(void)
{
    begin_types();
    join(is_between(SCREEN_CLOSED_LEFT, column(1), literal(DAY, -1), literal(DAY, 20545)));
    join(line(GE, 1, DAY, -5));
    join(line(GE, 1, DAY, -1));
    join(line(GE, 2, TRUTH, 1));
    join(line(LE, 2, TRUTH, 1));
    room(PLENTY, 0);
    run();
    report(answer == SCREEN_REWRITTEN, "a range of days and a truth", "not rewritten");
    reasons_are("a range of days and a truth", "1 GtEq -1 0\n1 Lt 20545 0\n2 Eq 1 3\n");
}

/* The longest line has 34 bytes: the last column, the longest operator, the lowest value, the last of 128 lines. */
static void test_longest_reason(void)
{
    begin_ints(64);
    for (unsigned i = 0; i < 127; i++)
        compare(GT, 0, 3);
    compare(NE, 63, INT64_MIN);
    room(PLENTY, 0);
    run();
    report(answer == SCREEN_REWRITTEN, "the longest line", "not rewritten");
    reasons_are("the longest line", "0 Gt 3 0\n63 NotEq -9223372036854775808 127\n");
}

/* Exactly the room that the text needs, a byte more, and every room that is too short: then no record is added. */
static void test_reason_room(void)
{
    static const char text[] = "0 Gt -9223372036854775808 0\n0 Lt 9223372036854775807 1\n";
    for (text_room = 0; text_room <= sizeof text; text_room++) {
        begin_ints(1);
        compare(GT, 0, INT64_MIN);
        compare(LT, 0, INT64_MAX);
        compare(LT, 0, INT64_MAX);
        room(7, 3);
        if (text_room < sizeof text - 1) {
            refused("room for a part of the text", SCREEN_REFUSED_REASONS);
            continue;
        }
        run();
        uint32_t low = line(GT, 0, INT, INT64_MIN);
        binary(AND, low, line(LT, 0, INT, INT64_MAX));
        rewritten("room for exactly the text, and a byte more", 7);
        reasons_are("room for exactly the text, and a byte more", text);
    }
    text_room = 0;
    two_lines(GT, 3, GT, 5);
    room(2, 15);
    refused("neither room for a record nor for the text: 11 before 16", SCREEN_REFUSED_ROOM);
    room(3, 0);
    refused("room for the records and none for the text", SCREEN_REFUSED_REASONS);
    two_lines(GE, 3, LT, 3);
    nothing_passes("no room for a text, where nothing passes");
    two_lines(GT, 3, LT, 4);
    unchanged("no room for a text, unchanged");
    conjuncts(129);
    refused("9 before 16", SCREEN_REFUSED_CONJUNCTS);
    text_room = SCREEN_MAX_REASONS_BYTES;
}

/* 64 columns that are equal and 13 excluded values: each column gets each of them, with the line that typed it. */
static void test_many_reasons(void)
{
    struct screen_reason reason;
    size_t at = 0;
    uint64_t count = 0;
    int good = 1;
    begin_ints(64);
    for (uint32_t i = 0; i < 63; i++)
        equal_columns(i, i + 1);
    for (int64_t i = 0; i < 13; i++)
        compare(NE, (uint32_t)i, INT64_MIN + i);
    room(4096 - (size_t)sent.used, 0);
    run();
    report(answer == SCREEN_REWRITTEN, "832 reasons", "not rewritten");
    for (; answer == SCREEN_REWRITTEN && screen_next_reason(text_after, (size_t)text_used, &at, &reason); count++)
        good &= reason.column < 64 && reason.code == SCREEN_OP_NOT_EQ && reason.line >= 63 && reason.line < 76 &&
                reason.value == INT64_MIN + (int64_t)(reason.line - 63);
    report(good && count == 832, "832 reasons", "other reasons");
}

static void test_texts(void)
{
    static const uint32_t own[] = {SCREEN_REFUSED_TREE, SCREEN_REFUSED_CONJUNCTS, SCREEN_REFUSED_ROOM,
                                   SCREEN_REFUSED_REASONS};
    for (size_t i = 0; i < sizeof own / sizeof own[0]; i++)
        report(strcmp(screen_refusal_text(own[i]), screen_refusal_text(0)) != 0, "screen_refusal_text", "no sentence");
    report(strcmp(screen_refusal_text(10), screen_refusal_text(0)) == 0, "screen_refusal_text", "10 is unused");
}

int main(void)
{
    test_bounds();
    test_equalities();
    test_negated();
    test_divided();
    test_members();
    test_long_lists();
    test_order();
    test_types();
    test_shared();
    test_chain();
    test_check_refusals();
    test_slowest();
    test_empty_slices();
    test_tree();
    test_conjuncts();
    test_used_count();
    test_lent_records();
    test_rebuilt_tree();
    test_too_many();
    test_reasons();
    test_reason_types();
    test_longest_reason();
    test_reason_room();
    test_many_reasons();
    test_texts();
    return finish();
}
