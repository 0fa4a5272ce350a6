/*
 * screen_line_in_the_way: every refusal in its order, the answers on screens made by hand, and random plain screens beside
 * screen_rewrite of the same lines with one left out. `line` keeps its value with every answer but SCREEN_LINE_FOUND.
 */
#include "typed_lines.h"

enum { INT = SCREEN_TYPE_INT, DAY = SCREEN_TYPE_DAY, TRUTH = SCREEN_TYPE_TRUTH };
enum { EQ = SCREEN_OP_EQ, NOT_EQ = SCREEN_OP_NOT_EQ, LT = SCREEN_OP_LT, GT = SCREEN_OP_GT, GT_EQ = SCREEN_OP_GT_EQ };

static uint32_t ask(const char *name, uint64_t *found)
{
    struct slices s = lend();
    uint64_t at = MARK;
    uint32_t got = screen_line_in_the_way(s.table, sent.table_len, s.records, sent.records_len, s.pool, sent.pool_len,
                                          s.text, sent.text_len, sent.used, sent.root, &at);
    report(all_kept(&s), name, "a lent byte changed");
    report(got == SCREEN_LINE_FOUND || at == MARK, name, "line was written");
    give_back(&s);
    *found = at;
    return got;
}

static void expect(const char *name, uint32_t want, uint64_t want_line)
{
    uint64_t found = MARK;
    uint32_t got = ask(name, &found);
    report(got == want, name, got < 256 ? "refused, or by another number" : "another answer");
    report(want != SCREEN_LINE_FOUND || found == want_line, name, "another line");
}

/* The lines joined, then the answer. */
static void joined(const char *name, uint32_t want, uint64_t want_line)
{
    join();
    expect(name, want, want_line);
}

static uint32_t equal(uint32_t a, uint32_t b)
{
    uint32_t left = column(a);
    return binary(EQ, left, column(b));
}

static uint32_t in_list(uint32_t number, int64_t a, int64_t b)
{
    uint32_t start = pool_value(a);
    pool_value(b);
    uint32_t value = column(number);
    return is_in(0, value, list(0, INT, start, 2));
}

static void test_answers(void)
{
    begin_lines();
    add(line(GT, 0, INT, 3));
    add(line(LT, 0, INT, 4));
    joined("half way", SCREEN_ROW_PASSES, 0);

    begin_lines();
    add(line(GT, 0, INT, 3));
    add(line(LT, 0, INT, 3));
    joined("first of two", SCREEN_LINE_FOUND, 0);

    begin_lines();
    add(line(GT, 3, INT, 0));
    add(line(GT, 0, INT, 5));
    add(line(GT_EQ, 0, INT, 5));
    add(line(LT, 0, INT, 5));
    joined("the line that the others need gone", SCREEN_LINE_FOUND, 3);

    begin_lines();
    add(line(GT, 0, INT, 5));
    add(line(GT, 0, INT, 5));
    add(line(LT, 0, INT, 5));
    add(line(LT, 0, INT, 4));
    joined("twice on both sides", SCREEN_NO_LINE, 0);

    begin_lines();
    add(line(GT, 0, INT, 5));
    add(lines[0]);
    add(line(LT, 0, INT, 5));
    joined("a shared line is two lines", SCREEN_LINE_FOUND, 2);

    begin_lines();
    add(line(GT, 0, INT, 5));
    add(line(LT, 3, INT, 5));
    add(equal(0, 3));
    joined("an equality", SCREEN_LINE_FOUND, 0);

    begin_lines();
    add(line(GT, 0, INT, 5));
    add(line(GT, 0, INT, 6));
    add(line(LT, 3, INT, 5));
    add(line(LT, 3, INT, 4));
    add(equal(0, 3));
    joined("the equality alone", SCREEN_LINE_FOUND, 4);

    begin_lines();
    add(is_null(column(0)));
    add(is_not_null(column(3)));
    add(line(EQ, 0, INT, 5));
    joined("a null and a value", SCREEN_LINE_FOUND, 0);

    begin_lines();
    add(in_list(0, 1, 2));
    add(in_list(0, 3, 4));
    add(in_list(0, 2, 3));
    joined("lists without a common value", SCREEN_LINE_FOUND, 0);

    begin_lines();
    add(in_list(0, 1, 2));
    add(not_of(in_list(0, 1, 2)));
    add(line(NOT_EQ, 0, INT, 7));
    joined("a list and its negation", SCREEN_LINE_FOUND, 0);

    begin_lines();
    add(line(GT, 0, INT, 5));
    add(line(LT, 0, INT, 5));
    add(line(GT, 1, DAY, 5));
    add(line(LT, 1, DAY, 5));
    joined("two columns in the way", SCREEN_NO_LINE, 0);
}

static void test_one_line(void)
{
    begin_lines();
    add(line(GT, 0, INT, 3));
    joined("one line that passes", SCREEN_ROW_PASSES, 0);
    begin_lines();
    uint32_t value = column(0), low = literal(INT, 5);
    add(is_between(SCREEN_CLOSED_BOTH, value, low, literal(INT, 4)));
    joined("one impossible line", SCREEN_LINE_FOUND, 0);
    begin_lines();
    value = column(0);
    add(is_in(0, value, list(0, INT, 0, 0)));
    joined("one empty list", SCREEN_LINE_FOUND, 0);
    begin_lines();
    add(line(GT, 3, INT, 0));
    value = column(0);
    low = literal(INT, 5);
    add(is_between(SCREEN_CLOSED_BOTH, value, low, literal(INT, 4)));
    add(line(GT, 1, DAY, 0));
    joined("an impossible line among others", SCREEN_LINE_FOUND, 1);
}

static void test_refusals(void)
{
    begin_lines();
    add(line(GT, 0, INT, 3));
    add(line(LT, 0, INT, 3));
    join();
    sent.root = sent.used;
    expect("3", 3, 0);
    join();
    sent.table[0] = 9;
    expect("1", 1, 0);

    begin_lines();
    add(line(GT, 0, INT, 3));
    add(not_of(is_not_null(column(2))));
    joined("17: a Truth column", 17, 0);
    begin_lines();
    add(line(GT, 0, INT, 3));
    uint32_t left = column(0);
    add(binary(LT, left, column(3)));
    joined("17: two columns by Lt", 17, 0);
    begin_lines();
    left = column(0);
    add(not_of(binary(NOT_EQ, left, column(3))));
    joined("17: Not of a difference", 17, 0);
    begin_lines();
    left = column(0);
    add(binary(SCREEN_OP_EQ_VALIDITY, left, literal(INT, 3)));
    joined("17: EqValidity", 17, 0);
    begin_lines();
    left = column(0);
    add(is_in(0, left, list(1, INT, 0, 0)));
    joined("17: a list that holds a null", 17, 0);
    begin_lines();
    for (int64_t v = 0; v < 101; v++)
        pool_value(v);
    left = column(0);
    add(is_in(0, left, list(0, INT, 0, 101)));
    joined("17: a list of 101 values", 17, 0);
    begin_lines();
    for (int64_t v = 0; v < 100; v++)
        pool_value(v);
    left = column(0);
    add(is_in(1, left, list(0, INT, 0, 100)));
    joined("a list of 100 values", SCREEN_ROW_PASSES, 0);
    begin_lines();
    column(2);
    add(line(GT, 0, INT, 3));
    joined("a Truth column that is not read", SCREEN_ROW_PASSES, 0);

    begin_lines();
    uint32_t truth = is_not_null(column(2));
    for (int i = 0; i < 129; i++)
        add(truth);
    joined("9 before 17", 9, 0);
    begin_lines();
    uint32_t tree = line(GT, 0, INT, 3);
    for (int i = 0; i < 11; i++)
        tree = binary(SCREEN_OP_AND, tree, tree);
    sent.root = tree;
    expect("8 before 9", 8, 0);
}

static void test_many(void)
{
    begin_lines();
    for (int64_t i = 0; i < 127; i++)
        add(line(GT_EQ, 0, INT, i % 5));
    add(line(LT, 0, INT, -1));
    joined("the last of 128", SCREEN_LINE_FOUND, 127);
    begin_lines();
    add(line(LT, 0, INT, -1));
    for (int64_t i = 0; i < 127; i++)
        add(line(GT_EQ, 0, INT, i % 5));
    joined("the first of 128", SCREEN_LINE_FOUND, 0);
    lines[127] = lines[0];
    joined("the first and the last of 128", SCREEN_NO_LINE, 0);
}

/* A chain of equalities over 64 columns, a bound at each end. */
static void test_chain(void)
{
    static uint8_t table[64];
    memset(table, INT, sizeof table);
    begin(table, sizeof table);
    count = 0;
    for (uint32_t c = 63; c-- > 0;)
        add(equal(c, c + 1));
    add(line(GT, 0, INT, 9));
    add(line(LT, 63, INT, 9));
    joined("a chain of 63 equalities", SCREEN_LINE_FOUND, 0);
    add(lines[64]);
    joined("and one end twice", SCREEN_LINE_FOUND, 0);
    count--;
    for (size_t i = 0; i < 63; i++)
        add(lines[i]);
    joined("and every equality twice", SCREEN_LINE_FOUND, 63);
}

static uint64_t state = 1;

static uint32_t draw(uint32_t below)
{
    state = state * UINT64_C(6364136223846793005) + UINT64_C(1442695040888963407);
    return (uint32_t)((state >> 33) % below);
}

static uint32_t random_line(void)
{
    static const uint32_t COLUMNS[3] = {0, 3, 1};
    uint32_t number = COLUMNS[draw(3)];
    unsigned type = number == 1 ? DAY : INT;
    switch (draw(8)) {
    case 0:
        return is_null(column(number));
    case 1:
        return not_of(is_null(column(number)));
    case 2:
        return number == 1 ? line(LT, 1, DAY, 2) : equal(0, 3);
    case 3:
        return number == 1 ? line(GT, 1, DAY, 2) : in_list(number, draw(4), draw(4));
    case 4:
        return number == 1 ? line(EQ, 1, DAY, 2) : not_of(in_list(number, draw(4), draw(4)));
    default:
        return line(draw(2) ? (draw(2) ? GT : LT) : draw(3) ? GT_EQ : NOT_EQ, number, type, draw(4));
    }
}

/* Does rewriting say that nothing passes these lines, the one at `out` left out? */
static int nothing_without(size_t out)
{
    struct screen_lent part = sent;
    static uint8_t records[LEND_RECORDS];
    uint32_t top = 0;
    size_t kept_lines = 0;
    memcpy(records, sent.records, sent.records_len);
    part.records = records;
    part.records_room = sizeof records;
    part.records_len = sizeof records / 16 * 16;
    for (size_t i = 0; i < count; i++) {
        if (i == out)
            continue;
        top = kept_lines++ ? screen_put_and(&part, top, lines[i]) : lines[i];
    }
    part.records_len = sizeof records;
    part.root = top;
    return kept_lines > 0 && screen_lent_rewrite(&part) == SCREEN_NOTHING_PASSES;
}

static void test_random(void)
{
    unsigned seen[3] = {0, 0, 0};
    for (int round = 0; round < 3000; round++) {
        begin_lines();
        size_t most = 1 + draw(9);
        while (count < most)
            add(draw(6) == 0 && count > 0 ? lines[draw((uint32_t)count)] : random_line());
        uint32_t want = SCREEN_ROW_PASSES;
        uint64_t want_line = 0;
        if (nothing_without(count)) {
            want = SCREEN_NO_LINE;
            for (size_t i = count; i-- > 0;)
                if (!nothing_without(i)) {
                    want = SCREEN_LINE_FOUND;
                    want_line = i;
                }
        }
        seen[want - 256]++;
        joined("random lines", want, want_line);
    }
    report(seen[0] > 100 && seen[1] > 100 && seen[2] > 100, "random lines", "an answer is rare");
}

int main(void)
{
    test_answers();
    test_one_line();
    test_refusals();
    test_many();
    test_chain();
    test_random();
    return finish();
}
