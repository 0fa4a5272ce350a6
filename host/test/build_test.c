/*
 * screen_build.h: the bytes of each record, days, full buffers, the wrappers beside the calls, screens saved and
 * loaded, and that a copy of what the root reaches gets the same answers from all calls.
 */
#include "lend.h"

enum { INT = SCREEN_TYPE_INT, DAY = SCREEN_TYPE_DAY, TRUTH = SCREEN_TYPE_TRUTH };

/* ----------------------------------------------------------------------------------------------------------- bytes */

/* The record put last is this one. */
static void record_is(const char *name, uint32_t number, const uint8_t *bytes)
{
    report(number == sent.used - 1 && sent.root == number, name, "another number");
    report(memcmp(sent.records + 16 * number, bytes, 16) == 0, name, "other bytes");
    report(sent.records_len == 16 * sent.used, name, "another length");
}

static void test_records(void)
{
    static const uint8_t column3[16] = {1, 0, 0, 0, 3};
    static const uint8_t minus100[16] = {2, 0, 1, 0, 0, 0, 0, 0, 0x9c, 0xff, 0xff, 0xff, 0xff, 0xff, 0xff, 0xff};
    static const uint8_t lowest[16] = {2, 0, 1, 0, 0, 0, 0, 0, 0, 0, 0, 0, 0, 0, 0, 0x80};
    static const uint8_t day[16] = {2, 0, 2, 0, 0, 0, 0, 0, 0x45, 0x51};
    static const uint8_t before1970[16] = {2, 0, 2, 0, 0, 0, 0, 0, 0xff, 0xff, 0xff, 0xff, 0xff, 0xff, 0xff, 0xff};
    static const uint8_t yes[16] = {2, 0, 3, 0, 0, 0, 0, 0, 1}, no[16] = {2, 0, 3};
    static const uint8_t null[16] = {3, 0, 2};
    static const uint8_t greater[16] = {4, 6, 0, 0, 0, 0, 0, 0, 1}, both[16] = {4, 15, 0, 0, 7, 0, 0, 0, 8};
    static const uint8_t either[16] = {4, 16, 0, 0, 9, 0, 0, 0, 8}, not[16] = {5, 0, 0, 0, 0x0a};
    static const uint8_t is[16] = {6, 0, 0, 0, 0x0b}, is_not[16] = {7, 0, 0, 0, 0x0c}, rest[16] = {7, 0, 0, 0, 0x12};
    static const uint8_t range[16] = {8, 2, 0, 0, 0, 0, 0, 0, 1, 0, 0, 0, 2};
    static const uint8_t values[16] = {9, 1, 1, 0, 1, 0, 0, 0, 2}, member[16] = {10, 1, 0, 0, 0, 0, 0, 0, 0x0f};
    static const uint8_t pool[24] = {7, 0, 0, 0, 0, 0, 0, 0, 0xff, 0xff, 0xff, 0xff, 0xff, 0xff, 0xff, 0xff, 5};
    static const uint8_t quotient[16] = {4, 13, 0, 0, 0, 0, 0, 0, 1}, remainder[16] = {4, 14, 0, 0, 0x11, 0, 0, 0, 2};
    static const int64_t listed[2] = {-1, 5};
    begin_mixed();
    record_is("a column", screen_put_column(&sent, 3), column3);
    record_is("an Int below 0", screen_put_int(&sent, -100), minus100);
    record_is("the lowest Int", screen_put_int(&sent, INT64_MIN), lowest);
    record_is("a Day", screen_put_day(&sent, screen_day(2026, 12, 18)), day);
    record_is("a Day before 1970", screen_put_day(&sent, screen_day(1969, 12, 31)), before1970);
    record_is("false", screen_put_truth(&sent, 0), no);
    record_is("a null", screen_put_null(&sent, DAY), null);
    record_is("true", screen_put_truth(&sent, 17), yes);
    record_is("a comparison", screen_put_binary(&sent, SCREEN_OP_GT, 0, 1), greater);
    record_is("an And", screen_put_and(&sent, 7, 8), both);
    record_is("an Or", screen_put_or(&sent, 9, 8), either);
    record_is("a Not", screen_put_not(&sent, 10), not);
    record_is("a test for null", screen_put_is_null(&sent, 11), is);
    record_is("a test for a value", screen_put_is_not_null(&sent, 12), is_not);
    record_is("a range", screen_put_between(&sent, SCREEN_CLOSED_RIGHT, 0, 1, 2), range);
    report(screen_put_pool(&sent, 7) == 0, "a pool value", "another number");
    record_is("a list", screen_put_list(&sent, INT, listed, 2, 1), values);
    record_is("a member", screen_put_is_in(&sent, 0, 15, 1), member);
    record_is("a quotient", screen_put_floor_divide(&sent, 0, 1), quotient);
    record_is("a remainder", screen_put_modulus(&sent, 17, 2), remainder);
    record_is("a test for a remainder", screen_put_is_not_null(&sent, 18), rest);
    report(sent.pool_len == 24 && memcmp(sent.pool, pool, 24) == 0, "the pool", "other bytes");
    sent.root = sent.used - 1;
    report(screen_lent_check(&sent) == SCREEN_ACCEPTED, "all of them", "not accepted");
}

static void test_readers(void)
{
    begin_mixed();
    screen_put(&sent, 10, 20, 30, UINT32_MAX, 7, 0x01020304);
    struct screen_record r = screen_record_at(&sent, 0);
    report(r.kind == 10 && r.code == 20 && r.type == 30 && r.zero == 0 && r.a == UINT32_MAX && r.b == 7 &&
               r.c == 0x01020304, "screen_record_at", "other fields");
    report(screen_literal_at(&sent, screen_put_int(&sent, -5)) == -5, "screen_literal_at", "another value");
    report(screen_literal_at(&sent, screen_put_int(&sent, INT64_MAX)) == INT64_MAX, "screen_literal_at", "the largest");
}

/* ------------------------------------------------------------------------------------------------------------ days */

/* Each day follows the one before it, from 1599 to 2401, with the months' lengths as the calendar has them. */
static void test_days(void)
{
    static const unsigned lengths[12] = {31, 28, 31, 30, 31, 30, 31, 31, 30, 31, 30, 31};
    int64_t next = screen_day(1599, 1, 1);
    int good = 1;
    for (int32_t year = 1599; year <= 2401; year++)
        for (unsigned month = 1; month <= 12; month++) {
            unsigned leap = month == 2 && year % 4 == 0 && (year % 100 != 0 || year % 400 == 0);
            for (unsigned day = 1; day <= lengths[month - 1] + leap; day++)
                good &= screen_day(year, month, day) == next++;
            good &= screen_day(year, month, 0) == INT64_MIN;
            good &= screen_day(year, month, lengths[month - 1] + leap + 1) == INT64_MIN;
        }
    report(good, "screen_day", "a day that does not follow the one before it");
    report(screen_day(1970, 1, 1) == 0, "screen_day", "1970-01-01 is not 0");
    report(screen_day(2000, 2, 29) == 11016, "screen_day", "2000-02-29");
    report(screen_day(1, 1, 1) == -719162, "screen_day", "0001-01-01");
    report(screen_day(0, 2, 29) == -719469, "screen_day", "0000-02-29");
    report(screen_day(-1, 12, 31) == -719529, "screen_day", "-0001-12-31");
    report(screen_day(9999, 12, 31) == 2932896, "screen_day", "9999-12-31");
    report(screen_day(2026, 0, 1) == INT64_MIN && screen_day(2026, 13, 1) == INT64_MIN, "screen_day", "no such month");
    begin_mixed();
    literal(DAY, screen_day(2026, 2, 30));
    report(screen_lent_check(&sent) == SCREEN_REFUSED_RECORD, "a literal of no day", "not refused");
}

/* ---------------------------------------------------------------------------------------------------- full buffers */

static void stays_full(const char *name, struct screen_lent *s)
{
    struct screen_lent kept_screen = *s;
    int64_t value = 1;
    int full = screen_declare(s, INT) == SCREEN_FULL && screen_put_column(s, 0) == SCREEN_FULL &&
               screen_put_int(s, 0) == SCREEN_FULL && screen_put_pool(s, 0) == SCREEN_FULL &&
               screen_put_list(s, INT, &value, 1, 0) == SCREEN_FULL && screen_put_not(s, 0) == SCREEN_FULL;
    report(full && screen_is_full(s), name, "an append after a full buffer");
    report(memcmp(s, &kept_screen, sizeof *s) == 0, name, "something was appended");
    report(screen_lent_check(s) == SCREEN_REFUSED_ROOT, name, "not refused");
}

static void test_full(void)
{
    uint8_t table[2], records[2 * 16 + 15], pool[15], text[3];
    struct screen_lent s;
    screen_begin(&s, table, sizeof table, records, sizeof records, pool, sizeof pool, text, sizeof text);
    report(screen_declare(&s, INT) == 0 && screen_declare(&s, DAY) == 1 && !screen_is_full(&s), "two columns", "full");
    report(screen_declare(&s, INT) == SCREEN_FULL, "a third column", "not full");
    stays_full("a third column", &s);
    screen_begin(&s, table, sizeof table, records, sizeof records, pool, sizeof pool, text, sizeof text);
    report(screen_put_truth(&s, 1) == 0 && screen_put_truth(&s, 1) == 1 && !screen_is_full(&s), "two records", "full");
    report(s.records_len == sizeof records, "two records", "not all of them are lent");
    report(screen_put_and(&s, 0, 1) == SCREEN_FULL, "a third record", "not full");
    stays_full("a third record", &s);
    screen_begin(&s, table, sizeof table, records, sizeof records, pool, sizeof pool, text, sizeof text);
    report(screen_put_pool(&s, 1) == 0 && !screen_is_full(&s), "one value", "full");
    report(screen_put_pool(&s, 1) == SCREEN_FULL, "a second value", "not full");
    stays_full("a second value", &s);
    screen_begin(&s, NULL, 0, NULL, 0, NULL, 0, NULL, 0);
    report(screen_put_null(&s, TRUTH) == SCREEN_FULL, "no buffer at all", "not full");
    stays_full("no buffer at all", &s);
}

/* ------------------------------------------------------------------------------------------------- random screens */

static uint64_t seed = 1;

/* Below `count`; the multiplier of Knuth's MMIX. */
static uint32_t choice(uint32_t count)
{
    seed = seed * UINT64_C(6364136223846793005) + UINT64_C(1442695040888963407);
    return (uint32_t)(seed >> 33) % count;
}

/* A record put before of this type, or 0. */
static uint32_t some_record(const uint8_t *types, unsigned type)
{
    for (unsigned tries = 0; tries < 20; tries++) {
        uint32_t number = choice((uint32_t)sent.used);
        if (types[number] == type)
            return number;
    }
    return 0;
}

static unsigned some_operator(unsigned type)
{
    return type == TRUTH && choice(2) ? SCREEN_OP_AND + choice(5) : choice(8);
}

/* FloorDivide or Modulus of two Ints. */
static unsigned put_division(const uint8_t *types)
{
    uint32_t left = some_record(types, INT), right = some_record(types, INT);
    if (choice(2))
        screen_put_floor_divide(&sent, left, right);
    else
        screen_put_modulus(&sent, left, right);
    return INT;
}

/* Puts a record of any kind over those before it, well formed or nearly so, and answers its type. */
static unsigned put_some(const uint8_t *types)
{
    unsigned type = 1 + choice(3);
    uint32_t left = some_record(types, type), right = some_record(types, type);
    int64_t values[3] = {choice(3), choice(4), choice(2)};
    switch (choice(10)) {
    case 8:
        return put_division(types);
    case 0:
        return screen_put_literal(&sent, type, choice(type == TRUTH ? 2 : 6)), type;
    case 1:
        return screen_put_null(&sent, type), type;
    case 2:
        return screen_put_not(&sent, some_record(types, TRUTH)), TRUTH;
    case 3:
        return screen_put_is_null(&sent, left), TRUTH;
    case 4:
        return screen_put_is_not_null(&sent, left), TRUTH;
    case 5:
        return screen_put_between(&sent, choice(4), left, right, some_record(types, type)), TRUTH;
    case 6:
        right = screen_put_list(&sent, type, values, type == TRUTH ? 0 : choice(4), choice(2) != 0);
        return screen_put_is_in(&sent, left, right, choice(2) != 0), TRUTH;
    default:
        return screen_put_binary(&sent, some_operator(type), left, right), TRUTH;
    }
}

/* Columns, records of all kinds, then lines that rewriting reads, some of all that joined by And. */
static void put_random(void)
{
    uint8_t types[200] = {INT, DAY, TRUTH, INT};
    begin_mixed();
    for (uint32_t i = 0; i < 4; i++)
        column(i);
    for (unsigned n = choice(12); n-- > 0;) {
        unsigned type = put_some(types);
        types[sent.root] = (uint8_t)type;
    }
    uint32_t top = some_record(types, TRUTH);
    for (unsigned n = choice(6); n-- > 0;) {
        uint32_t x = choice(2) ? 0 : 3, next;
        if (choice(4) == 0)
            next = screen_put_binary(&sent, SCREEN_OP_EQ, 0, 3);
        else
            next = screen_put_binary(&sent, choice(8), x, literal(INT, choice(6)));
        top = choice(8) == 0 ? next : screen_put_and(&sent, top, next);
    }
    sent.root = choice(20) == 0 ? choice((uint32_t)sent.used + 1) : top;
    sent.records_len += 16 * (size_t)choice(40);
}

/* ------------------------------------------------------------------------------------------- wrappers beside calls */

enum { ROWS = 24 };

static uint64_t some_row(uint8_t *row)
{
    uint64_t nulls = choice(3) ? 0 : choice(16);
    for (unsigned c = 0; c < 4; c++)
        screen_store_value(row + 8 * c, nulls >> c & 1 ? 0 : choice(c == 2 ? 2 : 6));
    return nulls;
}

/* Each wrapper gives the answer of its call, and writes what it writes. */
static void wrappers_agree(void)
{
    static struct store bytes;
    struct screen_lent s = sent;
    uint64_t columns[2] = {1, 1}, counts[2] = {2, 2}, root = sent.root, used = sent.used, passes = 3, nulls;
    uint8_t row[32];
    bytes = sent_store;
    s.table = bytes.table;
    s.records = bytes.records;
    s.pool = bytes.pool;
    report(screen_lent_check(&s) == screen_check(s.table, s.table_len, s.records, s.records_len, s.pool, s.pool_len,
                                                 s.text, s.text_len, s.used, s.root), "screen_lent_check", "another answer");
    nulls = some_row(row);
    report(screen_lent_test_row(&s, row, 32, nulls) ==
               screen_test_row(s.table, s.table_len, s.records, s.records_len, s.pool, s.pool_len, s.text, s.text_len,
                               s.used, s.root, row, 32, nulls), "screen_lent_test_row", "another answer");
    report(screen_lent_columns_read(&s, &columns[0], &counts[0]) ==
               screen_columns_read(s.table, s.table_len, s.records, s.records_len, s.pool, s.pool_len, s.text,
                                   s.text_len, s.used, s.root, &columns[1], &counts[1]) && columns[0] == columns[1] && counts[0] == counts[1],
           "screen_lent_columns_read", "another answer");
    static uint8_t reasons[2][SCREEN_MAX_REASONS_BYTES];
    struct screen_lent told = s;
    uint64_t lengths[2] = {4, 4}, counted = 3;
    uint32_t answer = screen_rewrite(sent.table, sent.table_len, sent.records, sent.records_len, sent.pool,
                                     sent.pool_len, sent.text, sent.text_len, sent.used, sent.root, reasons[0],
                                     sizeof reasons[0], &root, &used, &lengths[0], &passes);
    report(screen_lent_rewrite_told(&told, reasons[1], sizeof reasons[1], &lengths[1], &counted) == answer &&
               told.root == root && told.used == used && counted == passes && lengths[0] == lengths[1] &&
               memcmp(reasons[0], reasons[1], sizeof reasons[0]) == 0, "screen_lent_rewrite_told", "another answer");
    counted = 3;
    report(screen_lent_rewrite_counted(&s, &counted) == answer && s.root == root && s.used == used && counted == passes,
           "screen_lent_rewrite_counted", "another answer");
    report(memcmp(&bytes, &sent_store, sizeof bytes) == 0, "the wrappers", "other bytes");
}

/* screen_lent_slowest beside screen_slowest: the struct becomes the screen built, and what is refused keeps it. */
static void test_slowest(void)
{
    static struct store wrapped, plain;
    for (uint64_t n = 0; n <= 66; n++) {
        struct screen_lent s, before;
        uint64_t root = 77, used = 77, passes = 0;
        begin_in(&s, &wrapped);
        begin_in(&before, &plain);
        s.root = s.used = 77;
        uint32_t answer = screen_slowest(n, plain.table, before.table_room, plain.records, before.records_room, &root, &used);
        report(screen_lent_slowest(&s, n) == answer && s.root == root && s.used == used, "screen_lent_slowest",
               "another answer");
        if (screen_refused(answer))
            continue;
        report(s.table_len == n && s.pool_len == 0 && memcmp(wrapped.records, plain.records, 48 * n) == 0,
               "screen_lent_slowest", "another screen");
        report(screen_lent_rewrite_counted(&s, &passes) == SCREEN_REWRITTEN && passes == n, "screen_lent_slowest",
               "not as many passes as columns");
    }
}

/* ------------------------------------------------------------------------------------------------ saved and loaded */

static uint8_t saved[2][SCREEN_MAX_FILE_BYTES];

/* screen_lent_load of the file into rooms of exactly these lengths, beside screen_load; what is refused keeps *s. */
static void load_agrees(size_t length, const size_t *rooms)
{
    static struct store wrapped, plain;
    struct screen_lent s, before;
    uint64_t n[5] = {0, 0, 0, 0, 0};
    begin_in(&s, &wrapped);
    begin_in(&before, &plain);
    s.table_room = rooms[0];
    s.records_room = rooms[1];
    s.pool_room = rooms[2];
    s.text_room = rooms[3];
    s.used = s.root = 77;
    before = s;
    uint32_t answer = screen_load(saved[0], length, plain.table, rooms[0], plain.records, rooms[1], plain.pool,
                                  rooms[2], plain.text, rooms[3], &n[0], &n[1], &n[2], &n[3], &n[4]);
    report(screen_lent_load(&s, saved[0], length) == answer, "screen_lent_load", "another answer");
    report(memcmp(&wrapped, &plain, sizeof plain) == 0, "screen_lent_load", "other bytes");
    if (answer == SCREEN_LOADED) {
        before.root = n[0];
        before.table_len = n[1];
        before.used = n[2];
        before.pool_len = 8 * n[3];
        before.text_len = n[4];
        before.records_len = rooms[1];
    }
    report(memcmp(&s, &before, sizeof s) == 0, "screen_lent_load", "another screen");
}

/* Saving by the wrapper and by the call, then loading with enough room and, of each buffer, with a byte too little. */
static unsigned files_agree(void)
{
    uint64_t length[2] = {5, 5};
    size_t exact[4] = {sent.table_len, 16 * (size_t)sent.used, sent.pool_len, sent.text_len};
    size_t room = choice(4) == 0 ? 512 * (size_t)choice(6) : sizeof saved[0];
    memset(saved, 0, sizeof saved);
    uint32_t answer = screen_save(sent.table, sent.table_len, sent.records, sent.records_len, sent.pool,
                                  sent.pool_len, sent.text, sent.text_len, sent.used, sent.root, saved[0], room,
                                  &length[0]);
    report(screen_lent_save(&sent, saved[1], room, &length[1]) == answer && length[0] == length[1] &&
               memcmp(saved[0], saved[1], sizeof saved[0]) == 0, "screen_lent_save", "another answer or file");
    if (answer != SCREEN_SAVED)
        return 0;
    load_agrees((size_t)length[0], exact);
    for (unsigned i = 0; i < 4; i++)
        if (exact[i] > 0) {
            exact[i]--;
            load_agrees((size_t)length[0], exact);
            exact[i]++;
        }
    saved[0][choice((uint32_t)length[0])] ^= 4;
    load_agrees((size_t)length[0], exact);
    return 1;
}

/* A file loaded is the screen that was saved, and has room to be rewritten. */
static void test_loaded(void)
{
    static struct store other;
    struct screen_lent loaded;
    uint64_t length = 0;
    begin_mixed();
    screen_put_and(&sent, line(SCREEN_OP_GT, 0, INT, 3), line(SCREEN_OP_GT, 0, INT, 5));
    report(screen_lent_save(&sent, saved[0], sizeof saved[0], &length) == SCREEN_SAVED && length == 3 * 512,
           "two lines saved", "another answer or length");
    begin_in(&loaded, &other);
    report(screen_lent_load(&loaded, saved[0], (size_t)length) == SCREEN_LOADED && loaded.used == sent.used &&
               loaded.root == sent.root && loaded.table_len == 4 && loaded.pool_len == 0 &&
               loaded.records_len == loaded.records_room &&
               memcmp(other.records, sent.records, 16 * (size_t)sent.used) == 0, "two lines loaded", "another screen");
    report(screen_lent_rewrite(&loaded) == SCREEN_REWRITTEN, "two lines loaded", "not rewritten");
    report(screen_lent_load(&loaded, saved[0], (size_t)length - 1) == SCREEN_REFUSED_FILE, "a byte less", "loaded");
}

/* ------------------------------------------------------------------------------------------------------ the copies */

static uint8_t first[LEND_RECORDS], second[LEND_RECORDS];

/* All calls that write nothing answer alike, on some rows. */
static void same_answers(const char *name, const struct screen_lent *a, const struct screen_lent *b)
{
    uint64_t columns[2] = {0, 0}, counts[2] = {0, 0};
    uint8_t row[32];
    int same = screen_lent_check(a) == screen_lent_check(b);
    same &= screen_lent_columns_read(a, &columns[0], &counts[0]) ==
            screen_lent_columns_read(b, &columns[1], &counts[1]);
    same &= columns[0] == columns[1] && counts[0] == counts[1];
    for (unsigned i = 0; i < ROWS; i++) {
        uint64_t nulls = some_row(row);
        same &= screen_lent_test_row(a, row, 32, nulls) == screen_lent_test_row(b, row, 32, nulls);
    }
    report(same, name, "another answer");
}

static unsigned rewritten; /* how many copies were */

/* Rewriting the copy answers what rewriting the screen does, and the same rows pass. */
static void same_rewriting(struct screen_lent original, struct screen_lent copy)
{
    uint64_t used = original.used, reached = copy.used;
    original.records_len = original.records_room;
    uint32_t answer = screen_lent_rewrite(&original);
    report(screen_lent_rewrite(&copy) == answer, "a copy", "rewriting answers differently");
    report(original.used - used == copy.used - reached, "a copy", "rewriting adds another number of records");
    rewritten += answer == SCREEN_REWRITTEN;
    same_answers("a rewritten copy", &original, &copy);
    report(screen_copy_reached(&original, second, sizeof second, &original) == SCREEN_ACCEPTED &&
               screen_copy_reached(&copy, first, sizeof first, &copy) == SCREEN_ACCEPTED &&
               original.used == copy.used && memcmp(first, second, 16 * (size_t)copy.used) == 0,
           "a rewritten copy", "it copies to other records");
}

/* A screen that is refused is not copied: nothing is written. */
static void not_copied(const struct screen_lent *s, size_t len, uint32_t want)
{
    struct screen_lent to, kept_screen;
    memset(&to, 7, sizeof to);
    kept_screen = to;
    memset(first, 9, sizeof first);
    memset(second, 9, sizeof second);
    report(screen_copy_reached(s, first, len, &to) == want, "screen_copy_reached", "another refusal");
    report(memcmp(first, second, sizeof first) == 0, "screen_copy_reached", "refused, and a byte written");
    report(memcmp(&to, &kept_screen, sizeof to) == 0, "screen_copy_reached", "refused, and the screen written");
}

static void copies_agree(void)
{
    struct screen_lent copy, again, in_place = sent;
    uint32_t answer = screen_lent_check(&sent);
    if (screen_refused(answer)) {
        not_copied(&sent, sizeof first, answer);
        return;
    }
    report(screen_copy_reached(&sent, first, sizeof first, &copy) == answer, "screen_copy_reached", "not accepted");
    report(copy.table == sent.table && copy.pool == sent.pool && copy.pool_len == sent.pool_len && copy.used >= 1 &&
               copy.used <= sent.used && copy.root == copy.used - 1, "screen_copy_reached", "another screen");
    same_answers("a copy", &sent, &copy);
    /* all of a copy is reached: to copy it again changes nothing */
    report(screen_copy_reached(&copy, second, 16 * (size_t)copy.used, &again) == answer && again.used == copy.used &&
               memcmp(first, second, 16 * (size_t)copy.used) == 0, "a copy of a copy", "another screen");
    not_copied(&sent, 16 * (size_t)copy.used - 1, SCREEN_REFUSED_ROOM);
    report(screen_copy_reached(&sent, first, sizeof first, &copy) == answer, "screen_copy_reached", "not accepted");
    same_rewriting(sent, copy);
    report(screen_copy_reached(&sent, first, sizeof first, &copy) == answer &&
               screen_copy_reached(&in_place, in_place.records, in_place.records_len, &in_place) == answer &&
               in_place.used == copy.used && memcmp(in_place.records, first, 16 * (size_t)copy.used) == 0,
           "a copy in its own buffer", "another screen");
}

static void test_random(void)
{
    unsigned accepted = 0, files = 0;
    for (unsigned i = 0; i < 1500; i++) {
        put_random();
        wrappers_agree();
        if (i % 10 == 0) {
            put_random();
            files += files_agree();
        }
        put_random();
        accepted += screen_lent_check(&sent) == SCREEN_ACCEPTED;
        copies_agree();
    }
    report(accepted > 300 && accepted < 1500, "random screens", "all or nearly none are accepted");
    report(rewritten > 100, "random screens", "nearly none are rewritten");
    report(files > 20, "random screens", "nearly none are saved");
}

/* A literal below 0, and rows on both sides of it. */
static void test_negative(void)
{
    uint8_t row[32] = {0};
    begin_mixed();
    line(SCREEN_OP_GT_EQ, 0, INT, -100);
    screen_store_value(row, -100);
    report(screen_lent_test_row(&sent, row, sizeof row, 0) == SCREEN_TRUE, "c0 >= -100", "-100 does not pass");
    screen_store_value(row, -101);
    report(screen_lent_test_row(&sent, row, sizeof row, 0) == SCREEN_FALSE, "c0 >= -100", "-101 passes");
}

int main(void)
{
    test_records();
    test_readers();
    test_days();
    test_full();
    test_negative();
    test_slowest();
    test_loaded();
    test_random();
    return finish();
}
