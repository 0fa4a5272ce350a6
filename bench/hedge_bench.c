/*
 * The hedge list over a chain of 1,024 rows. First a screen of 10 lines beside C written by hand for that very screen, which
 * makes the same checks of the rows, knows the screen and so checks none: goal 2 times. Then the slowest families of screens
 * known for rows: a full tree, the deepest ones, divisions, long lists, symbols; goal 15 ms each.
 *
 * A refused answer, or another list than screen_test_row or the C by hand gives, fails the run; a time never does.
 */
#define _POSIX_C_SOURCE 199309L
#include "make.h"
#include "measure.h"

enum { COLUMNS = 8, ROWS = SCREEN_MAX_ROWS, ROW_BYTES = 8 * COLUMNS, GOAL_MS = 15, WIDE_BYTES = 8 * SCREEN_MAX_COLUMNS };

static struct made now;
static uint8_t values[ROWS * ROW_BYTES];
static uint8_t wide[ROWS * WIDE_BYTES];
static const uint8_t *cells = values; /* or wide */
static size_t cells_len = sizeof values;
static uint64_t nulls[ROWS];
static size_t rows = ROWS; /* or fewer */
static uint8_t list[2 * ROWS];
static unsigned met, goals;

/* A chain's answer: the list, and the rows in each class. */
static uint64_t call_ours(void)
{
    struct screen_tally tally = {0, 0, 0};
    uint64_t count = 0;
    uint32_t answer = screen_lent_hedge_list(&now.s, cells, cells_len, nulls, rows, list, sizeof list, &tally, &count);
    return screen_refused(answer) ? 0 : answer + count + (tally.is_false << 20) + (tally.unknown << 40);
}

/* The same by a call a row, which checks the screen each time. */
static uint64_t call_rows(void)
{
    uint64_t counts[3] = {0, 0, 0};
    for (size_t r = 0; r < ROWS; r++) {
        uint32_t answer = screen_lent_test_row(&now.s, values + ROW_BYTES * r, ROW_BYTES, nulls[r]);
        if (screen_refused(answer))
            return 0;
        counts[answer - SCREEN_FALSE]++;
    }
    return SCREEN_HEDGED + counts[2] + (counts[0] << 20) + (counts[1] << 40);
}

/* ------------------------------------------------------------------------------------------------------- 10 lines */

static uint32_t ten_line(unsigned n)
{
    switch (n) {
    case 0: return line(&now, SCREEN_OP_GT, 0, 2);
    case 1: return range(&now, 1, 0, 50);
    case 2: return line(&now, SCREEN_OP_GT_EQ, 2, 2);
    case 3: return member(&now, 3, 9, 5);
    case 4: return line(&now, SCREEN_OP_GT, 4, 2);
    case 5: return screen_put_is_not_null(&now.s, screen_put_column(&now.s, 5));
    case 6: return line(&now, SCREEN_OP_GT_EQ, 6, 2);
    case 7: return line(&now, SCREEN_OP_NOT_EQ, 7, 3);
    case 8: return line(&now, SCREEN_OP_LT, 0, 500);
    default: return line(&now, SCREEN_OP_EQ, 1, 11);
    }
}

static void make_ten(void)
{
    uint32_t top;
    make(&now, COLUMNS, SCREEN_TYPE_DAY);
    top = ten_line(0);
    for (unsigned n = 1; n < 10; n++)
        top = screen_put_and(&now.s, top, ten_line(n));
}

/* Unknown if the cell is null. */
static inline unsigned told(uint64_t marks, unsigned column, int truth)
{
    return marks >> column & 1 ? 1 : truth ? 2 : 0;
}

static inline unsigned least(unsigned a, unsigned b)
{
    return a < b ? a : b;
}

/* 0 false, 1 unknown, 2 true; 3 refused. */
static unsigned by_hand_row(const uint8_t *row, uint64_t marks)
{
    int64_t v[COLUMNS];
    unsigned refused = marks >> COLUMNS != 0, truth;
    memcpy(v, row, sizeof v); /* the machine is little-endian */
    for (unsigned i = 0; i < COLUMNS; i++)
        refused |= v[i] < INT32_MIN || v[i] > INT32_MAX || ((marks >> i & 1) && v[i] != 0);
    if (refused)
        return 3;
    truth = told(marks, 0, v[0] > 2 && v[0] < 500);
    truth = least(truth, told(marks, 1, v[1] == 11)); /* which is between 0 and 50 */
    truth = least(truth, told(marks, 2, v[2] >= 2));
    truth = least(truth, told(marks, 3, v[3] >= 9 && v[3] <= 13));
    truth = least(truth, told(marks, 4, v[4] > 2));
    truth = least(truth, marks >> 5 & 1 ? 0 : 2);
    truth = least(truth, told(marks, 6, v[6] >= 2));
    return least(truth, told(marks, 7, v[7] != 3));
}

static uint8_t hand_list[2 * ROWS];

static uint64_t call_hand(void)
{
    static uint8_t classes[ROWS];
    uint64_t counts[4] = {0, 0, 0, 0}, count = 0;
    for (size_t r = 0; r < ROWS; r++) {
        classes[r] = (uint8_t)by_hand_row(values + ROW_BYTES * r, nulls[r]);
        counts[classes[r]]++;
    }
    if (counts[3] != 0)
        return 0;
    for (size_t r = 0; r < ROWS; r++)
        if (classes[r] == 2) {
            hand_list[2 * count] = (uint8_t)(r % 256);
            hand_list[2 * count + 1] = (uint8_t)(r / 256);
            count++;
        }
    return SCREEN_HEDGED + count + (counts[0] << 20) + (counts[1] << 40);
}

static void put_cell(size_t row, unsigned column, int64_t value)
{
    screen_store_value(values + ROW_BYTES * row + 8 * column, value);
}

/* Column i holds 10 + i; in three rows of four one cell is null, or has another value. */
static void make_chain(void)
{
    uint64_t state = 88172645463325252u;
    memset(nulls, 0, sizeof nulls);
    for (size_t r = 0; r < ROWS; r++) {
        unsigned column;
        for (unsigned i = 0; i < COLUMNS; i++)
            put_cell(r, i, 10 + i);
        state = state * 6364136223846793005u + 1442695040888963407u;
        column = (unsigned)(state >> 33) % COLUMNS;
        if (r % 4 == 1 || r % 4 == 2)
            put_cell(r, column, (int64_t)(state >> 40) % 20);
        if (r % 4 == 3) {
            put_cell(r, column, 0);
            nulls[r] = UINT64_C(1) << column;
        }
    }
}

static int ten_lines(void)
{
    static struct taken taken;
    const work works[3] = {call_ours, call_hand, call_rows};
    uint64_t answer;
    make_ten();
    make_chain();
    answer = call_ours();
    if (answer == 0 || answer != call_hand() || answer != call_rows() ||
        memcmp(list, hand_list, 2 * ((answer & 0xfffff) - SCREEN_HEDGED)) != 0) {
        printf("hedge list, 10 lines: other answers than expected\n");
        return 1;
    }
    measure(&taken, works, 3, ROUNDS, 3);
    goals++;
    met += print_goal("hedge list, 10 lines over 1,024 rows", taken.by[0], taken.by[1], ROUNDS, "by hand", 2.0);
    print_ratio("the same beside a call a row", taken.by[0], taken.by[2], ROUNDS, "by rows");
    printf("hedge list, 10 lines over 1,024 rows: %.3f ms\n", measure_median(taken.by[0], ROUNDS) / 1e6);
    return 0;
}

/* ------------------------------------------------------------------------------------------------- slowest families */

/* The least of some runs, one of a slow screen. */
static int family(const char *name)
{
    double least_ms = 0;
    for (unsigned i = 0; i < 5 && (i == 0 || least_ms < 100); i++) {
        double ms;
        uint64_t answer = 0;
        struct timespec from, to;
        clock_gettime(CLOCK_PROCESS_CPUTIME_ID, &from);
        answer = call_ours();
        clock_gettime(CLOCK_PROCESS_CPUTIME_ID, &to);
        ms = (double)(to.tv_sec - from.tv_sec) * 1e3 + (double)(to.tv_nsec - from.tv_nsec) / 1e6;
        if (answer == 0) {
            printf("hedge list, %s: refused\n", name);
            return 1;
        }
        least_ms = i == 0 || ms < least_ms ? ms : least_ms;
    }
    goals++;
    met += least_ms <= GOAL_MS;
    printf("hedge list, %-52s %10.3f ms   goal %d ms %s\n", name, least_ms, GOAL_MS, least_ms <= GOAL_MS ? "met" : "missed");
    return 0;
}

/* All rows alike but for column 0: column i holds 10 + i, column 0 an odd number of its own. */
static void make_plain_chain(void)
{
    memset(nulls, 0, sizeof nulls);
    for (size_t r = 0; r < ROWS; r++)
        for (unsigned i = 0; i < COLUMNS; i++)
            put_cell(r, i, i == 0 ? 2 * (int64_t)r + 11 : 10 + i);
}

static int full_tree(void)
{
    uint32_t top;
    make(&now, COLUMNS, SCREEN_TYPE_INT);
    top = line(&now, SCREEN_OP_GT, 0, 2);
    for (unsigned n = 1; now.s.used + 4 <= SCREEN_MAX_RECORDS; n++)
        top = screen_put_and(&now.s, top, line(&now, SCREEN_OP_GT, n % COLUMNS, 2));
    return family("a full tree of 1,024 lines");
}

static int nots(void)
{
    uint32_t top;
    make(&now, COLUMNS, SCREEN_TYPE_INT);
    top = screen_put_is_null(&now.s, screen_put_column(&now.s, 0));
    while (now.s.used < SCREEN_MAX_RECORDS)
        top = screen_put_not(&now.s, top);
    return family("4,094 Nots");
}

/* One of the other, or by the other. */
static int divisions(const char *name, int by)
{
    uint32_t top, one;
    make(&now, COLUMNS, SCREEN_TYPE_INT);
    one = screen_put_int(&now.s, -1);
    top = screen_put_column(&now.s, 0);
    while (now.s.used < 2046)
        top = screen_put_floor_divide(&now.s, by ? one : top, by ? top : one);
    screen_put_is_not_null(&now.s, top);
    return family(name);
}

/* Both inputs are divisions, the second the deep one. */
static int divisions_of_both(void)
{
    uint32_t top, one, column;
    make(&now, COLUMNS, SCREEN_TYPE_INT);
    one = screen_put_int(&now.s, -1);
    column = screen_put_column(&now.s, 0);
    top = column;
    for (unsigned n = 0; n < 1022; n++)
        top = screen_put_floor_divide(&now.s, screen_put_floor_divide(&now.s, column, one), top);
    screen_put_is_not_null(&now.s, top);
    return family("1,022 divisions of a division by the other");
}

static int divisions_beside(void)
{
    uint32_t top = 0, dividend, divisor;
    make(&now, COLUMNS, SCREEN_TYPE_INT);
    dividend = screen_put_column(&now.s, 0);
    divisor = screen_put_int(&now.s, 3);
    for (unsigned n = 0; n < 819; n++) {
        uint32_t next = screen_put_is_not_null(&now.s, screen_put_floor_divide(&now.s, dividend, divisor));
        top = n == 0 ? next : screen_put_and(&now.s, top, next);
    }
    return family("819 divisions, one beside the other");
}

static int truths(void)
{
    uint32_t top, leaf;
    make(&now, COLUMNS, SCREEN_TYPE_INT);
    leaf = screen_put_is_null(&now.s, screen_put_column(&now.s, 0));
    top = leaf;
    for (unsigned n = 0; n < 1364; n++)
        top = screen_put_binary(&now.s, SCREEN_OP_EQ, top, leaf);
    return family("1,364 comparisons of truths, one of the other");
}

/* `count` is_in of column 0, each over the pool from its own place on. The pool has the even numbers, and no row's value, or
   the odd ones, and every row's. */
static int lists(const char *name, unsigned count, unsigned odd)
{
    uint32_t top = 0;
    make(&now, COLUMNS, SCREEN_TYPE_INT);
    for (unsigned i = 0; i < SCREEN_MAX_POOL_VALUES; i++)
        screen_put_pool(&now.s, 2 * (int64_t)(i * 2654435761u % 8192) + odd);
    for (unsigned n = 0; n < count; n++) {
        uint32_t x = screen_put_column(&now.s, 0);
        uint32_t part = screen_put(&now.s, SCREEN_KIND_LIST, 0, SCREEN_TYPE_INT, n, SCREEN_MAX_POOL_VALUES - n, 0);
        uint32_t next = screen_put_is_in(&now.s, x, part, 0);
        top = n == 0 ? next : screen_put_or(&now.s, top, next);
    }
    return family(name);
}

/* ----------------------------------------------------------------------- values that no branch of the code can foretell */

static uint64_t drawn_state = 88172645463325252u;

static uint64_t drawn(void)
{
    drawn_state ^= drawn_state << 13;
    drawn_state ^= drawn_state >> 7;
    return drawn_state ^= drawn_state << 17;
}

/* 64 columns, the values by one of these. */
static void make_wide_chain(int64_t value(void))
{
    cells = wide;
    cells_len = sizeof wide;
    memset(nulls, 0, sizeof nulls);
    for (size_t i = 0; i < sizeof wide / 8; i++)
        screen_store_value(wide + 8 * i, value());
}

static int64_t odd_value(void) /* below 16,384 */
{
    return 2 * (int64_t)(drawn() % 8192) + 1;
}

static int64_t any_value(void) /* of any size and sign */
{
    int64_t size = (int64_t)(drawn() >> 1 >> drawn() % 63);
    return drawn() % 2 == 0 ? size : -size;
}

static int64_t signed_value(void) /* odd, on both sides of 0 */
{
    return odd_value() - 8192;
}

static unsigned frequent = 1, eighths = 1; /* values that stand often: how many, and in how many rows of eight */

static int64_t skew_value(void)
{
    return drawn() % 8 < eighths ? 2001 + 2 * (int64_t)(drawn() % frequent) : odd_value();
}

static int64_t great_value(void) /* every second is the greatest number */
{
    return drawn() % 2 == 0 ? INT64_MAX : 2 * (int64_t)(drawn() % 3000) + 1;
}

enum asked { COLUMN, QUOTIENT, LITERAL, QUOTIENT_OF_TWO };

/* A pool of so many different odd numbers, from one on. */
static void make_pool_from(unsigned different, int64_t least)
{
    make(&now, SCREEN_MAX_COLUMNS, SCREEN_TYPE_INT);
    for (unsigned i = 0; i < SCREEN_MAX_POOL_VALUES; i++)
        screen_put_pool(&now.s, 2 * (int64_t)(i * 2654435761u % different) + least);
}

static void make_wide_pool(unsigned different)
{
    make_pool_from(different, 1);
}

/* 2,001 and as many odd numbers more as are frequent so many times together, all others once: a search among their places
   takes longest. */
static void make_skew_pool(unsigned often)
{
    make(&now, SCREEN_MAX_COLUMNS, SCREEN_TYPE_INT);
    for (unsigned i = 0; i < SCREEN_MAX_POOL_VALUES; i++) {
        unsigned n = i * 2654435761u % 8192;
        screen_put_pool(&now.s, 2 * (int64_t)(n < often ? 1000 + n % frequent : n) + 1);
    }
}

/* The greatest number at the first and the last place. */
static void make_great_pool(void)
{
    make(&now, SCREEN_MAX_COLUMNS, SCREEN_TYPE_INT);
    for (unsigned i = 0; i < SCREEN_MAX_POOL_VALUES; i++)
        screen_put_pool(&now.s, i % 8191 == 0 ? INT64_MAX : 2 * (int64_t)(i * 2654435761u % 3000) + 1);
}

/* is_in of a column, each in its turn, of its quotient by 1 or by another column, or of a literal, over half of the pool. */
static uint32_t wide_list(unsigned n, enum asked of, uint32_t one)
{
    uint32_t x, part;
    if (of == LITERAL)
        x = screen_put_int(&now.s, 2 * (int64_t)(n % 4096) + 1);
    else
        x = screen_put_column(&now.s, n % SCREEN_MAX_COLUMNS);
    if (of == QUOTIENT)
        x = screen_put_floor_divide(&now.s, x, one);
    if (of == QUOTIENT_OF_TWO)
        x = screen_put_floor_divide(&now.s, x, screen_put_column(&now.s, (7 * n + 1) % SCREEN_MAX_COLUMNS));
    part = screen_put(&now.s, SCREEN_KIND_LIST, 0, SCREEN_TYPE_INT, n * 977 % 4097, 4096, 0);
    return screen_put_is_in(&now.s, x, part, 0);
}

static int wide_lists(const char *name, unsigned count, unsigned different, enum asked of)
{
    uint32_t top = 0, one;
    make_wide_pool(different);
    one = screen_put_int(&now.s, 1);
    for (unsigned n = 0; n < count; n++) {
        uint32_t next = wide_list(n, of, one);
        top = n == 0 ? next : screen_put_or(&now.s, top, next);
    }
    return family(name);
}

/* The same over a pool that was made, whether what is told so far lies between the next two: three and a half records a list
   instead of four. */
static int between_lists(const char *name, unsigned count, enum asked of)
{
    uint32_t one = screen_put_int(&now.s, 1), top = wide_list(0, of, one);
    for (unsigned n = 1; n + 1 < count; n += 2) {
        uint32_t low = wide_list(n, of, one);
        top = screen_put_between(&now.s, SCREEN_CLOSED_BOTH, top, low, wide_list(n + 1, of, one));
    }
    return family(name);
}

static uint32_t division_tree(unsigned depth)
{
    uint32_t left, right;
    if (depth == 0)
        return screen_put_column(&now.s, (uint32_t)(drawn() % SCREEN_MAX_COLUMNS));
    left = division_tree(depth - 1);
    right = division_tree(depth - 1);
    return screen_put_modulus(&now.s, left, right);
}

static int division_trees(void)
{
    uint32_t top = 0;
    make(&now, SCREEN_MAX_COLUMNS, SCREEN_TYPE_INT);
    for (unsigned n = 0; n < 124; n++) {
        uint32_t next = screen_put_is_not_null(&now.s, division_tree(4));
        top = n == 0 ? next : screen_put_and(&now.s, top, next);
    }
    return family("1,860 divisions in trees of 15");
}

/* Truths in lists of truths, one of the other. */
static int nested_lists(void)
{
    uint32_t top, part;
    make(&now, COLUMNS, SCREEN_TYPE_INT);
    for (unsigned i = 0; i < SCREEN_MAX_POOL_VALUES; i++)
        screen_put_pool(&now.s, i == SCREEN_MAX_POOL_VALUES - 1);
    part = screen_put(&now.s, SCREEN_KIND_LIST, 0, SCREEN_TYPE_TRUTH, 0, SCREEN_MAX_POOL_VALUES, 0);
    top = screen_put_is_null(&now.s, screen_put_column(&now.s, 0));
    for (unsigned n = 0; n < 2047; n++)
        top = screen_put_is_in(&now.s, top, part, 0);
    return family("2,047 lists of truths, one of the other");
}

/* ------------------------------------------------------------------------------------------------------------- symbols */

enum { SYMBOLS = 8192 - 15 };

/* Symbol number i of a text that has many: 16 bytes from any start on, the first dozen alike in most. */
static int64_t symbol_number(unsigned i)
{
    return screen_symbol(i * 2654435761u % SYMBOLS, 16 - i % 3);
}

/* Text columns alone, or the first of them and Ints behind it. */
static void make_symbols(unsigned texts, unsigned columns)
{
    make(&now, texts, SCREEN_TYPE_TEXT);
    while (now.s.table_len < columns)
        screen_declare(&now.s, SCREEN_TYPE_INT);
    for (unsigned i = 0; i < sizeof now.text; i++)
        now.text[i] = (uint8_t)(drawn() % 13 == 0 ? 'B' + drawn() % 20 : 'A');
    now.s.text_len = sizeof now.text;
}

static void make_symbol_chain(void)
{
    cells = wide;
    cells_len = 8 * now.s.table_len * rows;
    memset(nulls, 0, sizeof nulls);
    for (size_t i = 0; i < now.s.table_len * ROWS; i++) {
        int64_t value = now.table[i % now.s.table_len] == SCREEN_TYPE_TEXT ? symbol_number((unsigned)(drawn() % 65536)) : 10;
        screen_store_value(wide + 8 * i, value);
    }
}

static uint32_t symbol_line(unsigned code, uint32_t number, unsigned i)
{
    return line(&now, code, number, symbol_number(i));
}

/* What a desk types: one line on the underlying, the others on numbers. */
static int ten_with_symbol(void)
{
    uint32_t top;
    make_symbols(1, COLUMNS);
    top = symbol_line(SCREEN_OP_NOT_EQ, 0, 7);
    for (unsigned n = 1; n < 10; n++)
        top = screen_put_and(&now.s, top, line(&now, SCREEN_OP_GT, 1 + n % (COLUMNS - 1), 2));
    make_symbol_chain();
    return family("10 lines, one of them on a symbol");
}

static int symbol_lines(const char *name, unsigned texts, unsigned count)
{
    uint32_t top;
    make_symbols(texts, texts);
    top = symbol_line(SCREEN_OP_GT, 0, 1);
    for (unsigned n = 1; n < count; n++)
        top = screen_put_or(&now.s, top, symbol_line(n % 2 ? SCREEN_OP_LT : SCREEN_OP_GT_EQ, n % texts, n));
    make_symbol_chain();
    return family(name);
}

/* Every column against every other. */
static int symbol_columns(void)
{
    uint32_t top = 0;
    make_symbols(SCREEN_MAX_COLUMNS, SCREEN_MAX_COLUMNS);
    for (unsigned n = 0; n < 1022; n++) {
        uint32_t left = screen_put_column(&now.s, n % 64);
        uint32_t next = screen_put_binary(&now.s, SCREEN_OP_LT, left, screen_put_column(&now.s, (n / 64 + n + 1) % 64));
        top = n == 0 ? next : screen_put_and(&now.s, top, next);
    }
    make_symbol_chain();
    return family("1,022 comparisons of 64 columns of symbols");
}

/* A pool of symbols, and a list over half of it, of the column's type. */
static void make_symbol_pool(unsigned texts, unsigned columns)
{
    make_symbols(texts, columns);
    for (unsigned i = 0; i < SCREEN_MAX_POOL_VALUES; i++)
        screen_put_pool(&now.s, symbol_number(i));
}

static uint32_t symbol_list(unsigned n, uint32_t number)
{
    uint32_t x = screen_put_column(&now.s, number);
    uint32_t part = screen_put(&now.s, SCREEN_KIND_LIST, 0, now.table[number], n * 977 % 4097, 4096, 0);
    return screen_put_is_in(&now.s, x, part, 0);
}

static int symbol_lists(const char *name, unsigned texts, unsigned count)
{
    uint32_t top = 0;
    make_symbol_pool(texts, texts + 1);
    for (unsigned n = 0; n < count; n++) {
        uint32_t next = symbol_list(n, n % texts);
        top = n == 0 ? next : screen_put_or(&now.s, top, next);
    }
    make_symbol_chain();
    return family(name);
}

/* So many columns of symbols and as many of Ints, in turns, whose lists share the values of the pool. */
static int shared_lists(const char *name, unsigned texts, unsigned count)
{
    uint32_t top = 0;
    make_symbol_pool(texts, 2 * texts);
    for (unsigned n = 0; n < count; n++) {
        uint32_t next = symbol_list(n, n % 2 * texts + n / 2 % texts);
        top = n == 0 ? next : screen_put_or(&now.s, top, next);
    }
    make_symbol_chain();
    return family(name);
}

/* A list in turn of each column of symbols, and of as many of Ints behind them if they share the pool. */
static uint32_t turned_list(unsigned n, unsigned texts, int shared)
{
    return symbol_list(n, shared ? n % 2 * texts + n / 2 % texts : n % texts);
}

/* Whether what is told so far lies between the next two, as between_lists. */
static int symbol_betweens(const char *name, unsigned texts, int shared)
{
    uint32_t top;
    make_symbol_pool(texts, shared ? 2 * texts : SCREEN_MAX_COLUMNS);
    top = turned_list(0, texts, shared);
    for (unsigned n = 1; n + 1 < 1169; n += 2) {
        uint32_t low = turned_list(n, texts, shared);
        top = screen_put_between(&now.s, SCREEN_CLOSED_BOTH, top, low, turned_list(n + 1, texts, shared));
    }
    make_symbol_chain();
    return family(name);
}

/* Lists of divisions of two columns, beside 62 of symbols, of which one is read. */
static uint32_t quotient_list(unsigned n, uint32_t one)
{
    uint32_t x = screen_put_floor_divide(&now.s, screen_put_column(&now.s, 62 + n % 2), one);
    uint32_t part = screen_put(&now.s, SCREEN_KIND_LIST, 0, SCREEN_TYPE_INT, n * 977 % 4097, 4096, 0);
    return screen_put_is_in(&now.s, x, part, 0);
}

static int symbols_beside(void)
{
    uint32_t top, one;
    make_symbols(62, SCREEN_MAX_COLUMNS);
    for (unsigned i = 0; i < SCREEN_MAX_POOL_VALUES; i++)
        screen_put_pool(&now.s, 2 * (int64_t)(i * 2654435761u % 4096) + 1);
    one = screen_put_int(&now.s, 1);
    top = symbol_line(SCREEN_OP_GT, 0, 1);
    for (unsigned n = 1; n + 1 < 741; n += 2) {
        uint32_t low = quotient_list(n, one);
        top = screen_put_between(&now.s, SCREEN_CLOSED_BOTH, top, low, quotient_list(n + 1, one));
    }
    make_symbol_chain();
    for (size_t r = 0; r < ROWS; r++)
        for (unsigned i = 62; i < SCREEN_MAX_COLUMNS; i++)
            screen_store_value(wide + WIDE_BYTES * r + 8 * i, odd_value());
    return family("741 lists of divisions beside 62 columns of symbols");
}

/* Columns between two others, or between two literals. */
static int symbol_ranges(const char *name, int literals)
{
    uint32_t top = 0;
    make_symbols(SCREEN_MAX_COLUMNS, SCREEN_MAX_COLUMNS);
    for (unsigned n = 0; n < 819; n++) {
        uint32_t x = screen_put_column(&now.s, n % 64), low, high, next;
        low = literals ? screen_put_literal(&now.s, SCREEN_TYPE_TEXT, symbol_number(n))
                       : screen_put_column(&now.s, (n + n / 64 + 1) % 64);
        high = literals ? screen_put_literal(&now.s, SCREEN_TYPE_TEXT, symbol_number(n + 5000))
                        : screen_put_column(&now.s, (n + n / 64 * 7 + 5) % 64);
        next = screen_put_between(&now.s, SCREEN_CLOSED_BOTH, x, low, high);
        top = n == 0 ? next : screen_put_or(&now.s, top, next);
    }
    make_symbol_chain();
    return family(name);
}

static int few_rows(const char *name, size_t few)
{
    int differ;
    rows = few;
    differ = symbol_lists(name, 63, 1021);
    rows = ROWS;
    return differ;
}

int main(void)
{
    int differ = ten_lines();
    make_plain_chain();
    differ |= full_tree();
    differ |= nots();
    differ |= divisions("2,044 divisions, one of the other", 0);
    differ |= divisions("2,044 divisions, one by the other", 1);
    differ |= divisions_of_both();
    differ |= divisions_beside();
    differ |= truths();
    differ |= lists("one list of 8,192 values", 1, 0);
    differ |= lists("1,024 lists over parts of 8,192 values", 1024, 0);
    differ |= lists("1,024 lists that have every row's value", 1024, 1);
    differ |= nested_lists();
    make_wide_chain(odd_value);
    differ |= wide_lists("1,023 lists over 64 columns", 1023, 8192, COLUMN);
    differ |= wide_lists("the same, each value twice in the pool", 1023, 4096, COLUMN);
    differ |= wide_lists("the same, each value 91 times", 1023, 90, COLUMN);
    make_wide_pool(4096);
    differ |= between_lists("1,169 lists between one another, each value twice", 1169, COLUMN);
    differ |= wide_lists("1,023 lists of literals, each value twice", 1023, 4096, LITERAL);
    differ |= wide_lists("682 lists of divisions over 64 columns", 682, 8192, QUOTIENT);
    differ |= wide_lists("the same, each value twice in the pool", 682, 4096, QUOTIENT);
    make_wide_pool(4096);
    differ |= between_lists("743 lists of divisions between one another, so too", 743, QUOTIENT);
    make_wide_chain(signed_value);
    make_pool_from(4096, -4095);
    differ |= between_lists("the same, with signs that change", 743, QUOTIENT);
    make_wide_chain(skew_value);
    make_skew_pool(4096);
    differ |= between_lists("the same, one value 4,096 times, all others once", 743, QUOTIENT);
    make_skew_pool(200);
    differ |= between_lists("the same, one value 200 times", 743, QUOTIENT);
    frequent = 16;
    eighths = 6;
    make_wide_chain(skew_value);
    make_skew_pool(2048);
    differ |= between_lists("the same, 16 values 128 times each, in most rows", 743, QUOTIENT);
    make_wide_chain(great_value);
    make_great_pool();
    differ |= between_lists("the same, with the greatest number", 743, QUOTIENT);
    make_great_pool();
    differ |= between_lists("1,169 lists between one another, so too", 1169, COLUMN);
    make_wide_chain(any_value);
    differ |= division_trees();
    make_wide_pool(8192);
    differ |= between_lists("743 lists of divisions between one another, any values", 743, QUOTIENT);
    make_wide_pool(8192);
    differ |= between_lists("the same, of one column by another", 743, QUOTIENT_OF_TWO);
    differ |= ten_with_symbol();
    differ |= symbol_lines("1,022 lines on a column of symbols", 1, 1022);
    differ |= symbol_lines("1,022 lines on 64 columns of symbols", 64, 1022);
    differ |= symbol_columns();
    differ |= symbol_lists("one list of 4,096 symbols", 1, 1);
    differ |= symbol_lists("1,021 lists of symbols on one column", 1, 1021);
    differ |= symbol_lists("1,021 lists of symbols over 63 columns", 63, 1021);
    differ |= shared_lists("9 lists of symbols and of Ints in the same places", 1, 9);
    differ |= shared_lists("1,021 such lists on two columns", 1, 1021);
    differ |= shared_lists("1,021 such lists over 64 columns", 32, 1021);
    differ |= symbol_betweens("1,169 lists of symbols between one another", 1, 0);
    differ |= symbol_betweens("the same over 64 columns", 64, 0);
    differ |= symbol_betweens("the same of symbols and of Ints in the same places", 32, 1);
    differ |= symbols_beside();
    differ |= symbol_ranges("819 columns of symbols between two others", 0);
    differ |= symbol_ranges("819 columns of symbols between two literals", 1);
    differ |= few_rows("2 rows under 1,021 lists of symbols", 2);
    differ |= few_rows("31 rows under 1,021 lists of symbols", 31);
    printf("goals met: %u of %u\n", met, goals);
    return differ;
}
