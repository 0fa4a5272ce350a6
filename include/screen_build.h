/*
 * screen_build.h: puts a screen together in lent buffers, and makes the calls of screen.h on it. C99 and C++11; every
 * function is static inline, nothing is allocated and nothing is linked but the library.
 *
 *     uint8_t table[4], records[16 * 64], pool[8 * 16], text[64];
 *     struct screen_lent s;
 *     screen_begin(&s, table, sizeof table, records, sizeof records, pool, sizeof pool, text, sizeof text);
 *     uint32_t strike = screen_declare(&s, SCREEN_TYPE_INT);
 *     uint32_t low = screen_put_binary(&s, SCREEN_OP_GT_EQ, screen_put_column(&s, strike), screen_put_int(&s, -100));
 *     uint32_t answer = screen_lent_rewrite(&s);
 *
 * This file is not proved; host/test/build_test.c tests it.
 *
 * A FULL BUFFER
 *
 * A function that appends answers the number of the column or the record that it appended, or SCREEN_FULL if there was
 * no room. From then on every append answers SCREEN_FULL and the root is SCREEN_FULL, so that each call refuses the
 * screen: a host may put a whole screen together and look at the end.
 *
 * RUN THE COPY, NOT THE SCREEN RETURNED
 *
 * Each call checks all used records, and those of the screen sent stay among them after rewriting. A screen that runs
 * on every tick should first be copied out: screen_copy_reached takes what the root reaches into another buffer.
 */
#ifndef SCREEN_BUILD_H
#define SCREEN_BUILD_H

#include "screen.h"

#include <string.h>

#ifdef __cplusplus
#define SCREEN_CAST(type, value) static_cast<type>(value)
#else
#define SCREEN_CAST(type, value) ((type)(value))
#endif

/* Instead of a number: there was no room. */
#define SCREEN_FULL UINT32_MAX

/*
 * A lent screen. Lengths are in bytes and are what the calls are lent; rooms are in bytes and are what may be filled
 * here. An append makes the length as long as it needs. A host may change any of them.
 */
struct screen_lent {
    uint8_t *table;
    size_t table_len;
    size_t table_room;
    uint8_t *records;
    size_t records_len;
    size_t records_room;
    uint8_t *pool;
    size_t pool_len;
    size_t pool_room;
    uint8_t *text;
    size_t text_len;
    size_t text_room;
    uint64_t used;
    uint64_t root;
};

/* One record as its fields. */
struct screen_record {
    uint8_t kind, code, type, zero;
    uint32_t a, b, c;
};

/* ------------------------------------------------------------------------------------------------ bytes and values */

/* The low `bytes` bytes of a number, little-endian. */
static inline void screen_store(uint8_t *at, unsigned bytes, uint64_t value)
{
    unsigned i;
    for (i = 0; i < bytes; i++)
        at[i] = SCREEN_CAST(uint8_t, value >> (8 * i) & 255);
}

static inline uint64_t screen_fetch(const uint8_t *at, unsigned bytes)
{
    uint64_t value = 0;
    while (bytes > 0)
        value = value << 8 | at[--bytes];
    return value;
}

/* A value of the pool or of a row, negative ones too. */
static inline void screen_store_value(uint8_t *at, int64_t value)
{
    screen_store(at, 8, SCREEN_CAST(uint64_t, value));
}

static inline int64_t screen_fetch_value(const uint8_t *at)
{
    uint64_t bits = screen_fetch(at, 8);
    int64_t value;
    memcpy(&value, &bits, sizeof value);
    return value;
}

/*
 * Days from 1970-01-01 to this day of the Gregorian calendar, also before 1582. INT64_MIN if there is no such day: a
 * literal of it is refused.
 */
static inline int64_t screen_day(int32_t year, unsigned month, unsigned day)
{
    static const uint8_t longest[12] = {31, 29, 31, 30, 31, 30, 31, 31, 30, 31, 30, 31};
    int64_t from_march, counted, era, of_era;
    int leap = (year % 4 == 0 && year % 100 != 0) || year % 400 == 0;
    if (month < 1 || month > 12 || day < 1 || day > longest[month - 1] || (month == 2 && day == 29 && !leap))
        return INT64_MIN;
    /* years begin with March, so that the day that leap years add is a year's last; 400 of them have 146,097 days */
    from_march = month > 2 ? SCREEN_CAST(int64_t, month) - 3 : SCREEN_CAST(int64_t, month) + 9;
    counted = month > 2 ? SCREEN_CAST(int64_t, year) : SCREEN_CAST(int64_t, year) - 1;
    era = counted / 400 - (counted % 400 < 0);
    of_era = counted - 400 * era;
    return era * 146097 + of_era * 365 + of_era / 4 - of_era / 100 + (153 * from_march + 2) / 5 +
           SCREEN_CAST(int64_t, day) - 719469;
}

/* --------------------------------------------------------------------------------------------------- a new screen */

/* An empty screen in these buffers, lengths in bytes. All records are lent to the calls: rewriting needs room. */
static inline void screen_begin(struct screen_lent *s, uint8_t *table, size_t table_room, uint8_t *records,
                                size_t records_room, uint8_t *pool, size_t pool_room, uint8_t *text, size_t text_room)
{
    s->table = table;
    s->table_len = 0;
    s->table_room = table_room;
    s->records = records;
    s->records_len = records_room;
    s->records_room = records_room;
    s->pool = pool;
    s->pool_len = 0;
    s->pool_room = pool_room;
    s->text = text;
    s->text_len = 0;
    s->text_room = text_room;
    s->used = 0;
    s->root = 0;
}

/* Has an append found no room? */
static inline int screen_is_full(const struct screen_lent *s)
{
    return s->root == SCREEN_FULL;
}

static inline uint32_t screen_mark_full(struct screen_lent *s)
{
    s->root = SCREEN_FULL;
    return SCREEN_FULL;
}

/* Appends a column of this type (SCREEN_TYPE_..) to the table and answers its number. */
static inline uint32_t screen_declare(struct screen_lent *s, unsigned type)
{
    if (screen_is_full(s) || s->table_len >= s->table_room)
        return screen_mark_full(s);
    s->table[s->table_len] = SCREEN_CAST(uint8_t, type & 255);
    return SCREEN_CAST(uint32_t, s->table_len++);
}

/* ----------------------------------------------------------------------------------- records, each becomes the root */

/* Any record at all, well formed or not; screen.h says which fields a kind uses. Answers its number. */
static inline uint32_t screen_put(struct screen_lent *s, unsigned kind, unsigned code, unsigned type, uint32_t a,
                                  uint32_t b, uint32_t c)
{
    uint8_t *at;
    if (screen_is_full(s) || s->used >= s->records_room / SCREEN_RECORD_BYTES)
        return screen_mark_full(s);
    s->root = s->used++;
    while (s->records_len / SCREEN_RECORD_BYTES < s->used)
        s->records_len += SCREEN_RECORD_BYTES - s->records_len % SCREEN_RECORD_BYTES;
    at = s->records + SCREEN_RECORD_BYTES * s->root;
    at[0] = SCREEN_CAST(uint8_t, kind & 255);
    at[1] = SCREEN_CAST(uint8_t, code & 255);
    at[2] = SCREEN_CAST(uint8_t, type & 255);
    at[3] = 0;
    screen_store(at + 4, 4, a);
    screen_store(at + 8, 4, b);
    screen_store(at + 12, 4, c);
    return SCREEN_CAST(uint32_t, s->root);
}

/* A column by its number in the table. */
static inline uint32_t screen_put_column(struct screen_lent *s, uint32_t column)
{
    return screen_put(s, SCREEN_KIND_COLUMN, 0, 0, column, 0, 0);
}

/* A value of this type (SCREEN_TYPE_..); negative ones are right. */
static inline uint32_t screen_put_literal(struct screen_lent *s, unsigned type, int64_t value)
{
    uint64_t bits = SCREEN_CAST(uint64_t, value);
    return screen_put(s, SCREEN_KIND_LITERAL, 0, type, 0, SCREEN_CAST(uint32_t, bits & UINT32_MAX),
                      SCREEN_CAST(uint32_t, bits >> 32));
}

static inline uint32_t screen_put_int(struct screen_lent *s, int64_t value)
{
    return screen_put_literal(s, SCREEN_TYPE_INT, value);
}

/* Days since 1970-01-01; screen_day counts them. */
static inline uint32_t screen_put_day(struct screen_lent *s, int64_t days)
{
    return screen_put_literal(s, SCREEN_TYPE_DAY, days);
}

static inline uint32_t screen_put_truth(struct screen_lent *s, int truth)
{
    return screen_put_literal(s, SCREEN_TYPE_TRUTH, truth != 0);
}

/* The 64 bits of a symbol, as literals, lists and rows have them: its start and its length in the text. */
static inline int64_t screen_symbol(uint32_t start, uint32_t length)
{
    uint64_t bits = SCREEN_CAST(uint64_t, length) << 32 | start;
    int64_t value;
    memcpy(&value, &bits, sizeof value);
    return value;
}

/*
 * Puts these bytes into the text, unless they lie in it already, and answers their start there; SCREEN_FULL if there is no
 * room. Looking through the text takes time where it is long: a host with many symbols appends them by itself.
 */
static inline uint32_t screen_put_text(struct screen_lent *s, const char *bytes, uint32_t length)
{
    size_t start;
    if (screen_is_full(s) || s->text_len > s->text_room)
        return screen_mark_full(s);
    for (start = 0; start + length <= s->text_len; start++)
        if (length == 0 || memcmp(s->text + start, bytes, length) == 0)
            return SCREEN_CAST(uint32_t, start);
    if (s->text_room - s->text_len < length)
        return screen_mark_full(s);
    start = s->text_len;
    memcpy(s->text + start, bytes, length);
    s->text_len += length;
    return SCREEN_CAST(uint32_t, start);
}

/* A literal of type Text with these bytes, at most 16; they are put into the text. */
static inline uint32_t screen_put_symbol(struct screen_lent *s, const char *bytes, uint32_t length)
{
    uint32_t start = screen_put_text(s, bytes, length);
    if (start == SCREEN_FULL)
        return SCREEN_FULL;
    return screen_put_literal(s, SCREEN_TYPE_TEXT, screen_symbol(start, length));
}

/* A null of this type (SCREEN_TYPE_..). */
static inline uint32_t screen_put_null(struct screen_lent *s, unsigned type)
{
    return screen_put(s, SCREEN_KIND_NULL, 0, type, 0, 0, 0);
}

/* A comparison, a division or logic: SCREEN_OP_.. between two records. */
static inline uint32_t screen_put_binary(struct screen_lent *s, unsigned op, uint32_t left, uint32_t right)
{
    return screen_put(s, SCREEN_KIND_BINARY, op, 0, left, right, 0);
}

static inline uint32_t screen_put_and(struct screen_lent *s, uint32_t left, uint32_t right)
{
    return screen_put_binary(s, SCREEN_OP_AND, left, right);
}

static inline uint32_t screen_put_or(struct screen_lent *s, uint32_t left, uint32_t right)
{
    return screen_put_binary(s, SCREEN_OP_OR, left, right);
}

/* The quotient of two Ints, rounded down; screen_test_row says when it is null. */
static inline uint32_t screen_put_floor_divide(struct screen_lent *s, uint32_t dividend, uint32_t divisor)
{
    return screen_put_binary(s, SCREEN_OP_FLOOR_DIVIDE, dividend, divisor);
}

/* The remainder of that division, with the divisor's sign or zero. */
static inline uint32_t screen_put_modulus(struct screen_lent *s, uint32_t dividend, uint32_t divisor)
{
    return screen_put_binary(s, SCREEN_OP_MODULUS, dividend, divisor);
}

static inline uint32_t screen_put_not(struct screen_lent *s, uint32_t input)
{
    return screen_put(s, SCREEN_KIND_NOT, 0, 0, input, 0, 0);
}

static inline uint32_t screen_put_is_null(struct screen_lent *s, uint32_t input)
{
    return screen_put(s, SCREEN_KIND_IS_NULL, 0, 0, input, 0, 0);
}

static inline uint32_t screen_put_is_not_null(struct screen_lent *s, uint32_t input)
{
    return screen_put(s, SCREEN_KIND_IS_NOT_NULL, 0, 0, input, 0, 0);
}

/* SCREEN_CLOSED_.. says which ends belong to the range. */
static inline uint32_t screen_put_between(struct screen_lent *s, unsigned closed, uint32_t value, uint32_t low,
                                          uint32_t high)
{
    return screen_put(s, SCREEN_KIND_IS_BETWEEN, closed, 0, value, low, high);
}

/* Appends a value to the pool and answers its number there; it is no record. */
static inline uint32_t screen_put_pool(struct screen_lent *s, int64_t value)
{
    if (screen_is_full(s) || s->pool_len > s->pool_room || s->pool_room - s->pool_len < SCREEN_VALUE_BYTES)
        return screen_mark_full(s);
    screen_store_value(s->pool + s->pool_len, value);
    s->pool_len += SCREEN_VALUE_BYTES;
    return SCREEN_CAST(uint32_t, s->pool_len / SCREEN_VALUE_BYTES - 1);
}

/* A list of these values, which are appended to the pool; holds_null: and of a null. It serves is_in alone. */
static inline uint32_t screen_put_list(struct screen_lent *s, unsigned type, const int64_t *values, uint32_t count,
                                       int holds_null)
{
    uint32_t start = SCREEN_CAST(uint32_t, s->pool_len / SCREEN_VALUE_BYTES);
    uint32_t i;
    for (i = 0; i < count; i++)
        if (screen_put_pool(s, values[i]) == SCREEN_FULL)
            return SCREEN_FULL;
    return screen_put(s, SCREEN_KIND_LIST, holds_null != 0, type, start, count, 0);
}

/* nulls_equal: a null is in a list that holds one. */
static inline uint32_t screen_put_is_in(struct screen_lent *s, uint32_t value, uint32_t list, int nulls_equal)
{
    return screen_put(s, SCREEN_KIND_IS_IN, nulls_equal != 0, 0, value, list, 0);
}

/* --------------------------------------------------------------------------------------------- reading records back */

/* The fields of record `number`, which must be below used. */
static inline struct screen_record screen_record_at(const struct screen_lent *s, uint64_t number)
{
    const uint8_t *at = s->records + SCREEN_RECORD_BYTES * number;
    struct screen_record record;
    record.kind = at[0];
    record.code = at[1];
    record.type = at[2];
    record.zero = at[3];
    record.a = SCREEN_CAST(uint32_t, screen_fetch(at + 4, 4));
    record.b = SCREEN_CAST(uint32_t, screen_fetch(at + 8, 4));
    record.c = SCREEN_CAST(uint32_t, screen_fetch(at + 12, 4));
    return record;
}

/* A literal's value. */
static inline int64_t screen_literal_at(const struct screen_lent *s, uint64_t number)
{
    return screen_fetch_value(s->records + SCREEN_RECORD_BYTES * number + 8);
}

/* How many of A, B and C, in this order, are inputs of a record of this kind. */
static inline unsigned screen_inputs(unsigned kind)
{
    switch (kind) {
    case SCREEN_KIND_IS_BETWEEN:
        return 3;
    case SCREEN_KIND_BINARY:
    case SCREEN_KIND_IS_IN:
        return 2;
    case SCREEN_KIND_NOT:
    case SCREEN_KIND_IS_NULL:
    case SCREEN_KIND_IS_NOT_NULL:
        return 1;
    default:
        return 0;
    }
}

/* ---------------------------------------------------------------------- the calls of screen.h, one wrapper for each */

/* As screen_check. */
SCREEN_MUST_USE
static inline uint32_t screen_lent_check(const struct screen_lent *s)
{
    return screen_check(s->table, s->table_len, s->records, s->records_len, s->pool, s->pool_len, s->text, s->text_len,
                        s->used, s->root);
}

/* As screen_rewrite; root and used become those of the screen returned, the text and the other two numbers as there. */
SCREEN_MUST_USE
static inline uint32_t screen_lent_rewrite_told(struct screen_lent *s, uint8_t *reasons, size_t reasons_len,
                                                uint64_t *reasons_used, uint64_t *passes)
{
    uint64_t root = s->root, used = s->used;
    uint32_t answer = screen_rewrite(s->table, s->table_len, s->records, s->records_len, s->pool, s->pool_len, s->text,
                                     s->text_len, s->used, s->root, reasons, reasons_len, &root, &used, reasons_used,
                                     passes);
    s->root = root;
    s->used = used;
    return answer;
}

/* The same for a caller who does not ask for the reasons; their buffer takes 47 KB of stack. */
SCREEN_MUST_USE
static inline uint32_t screen_lent_rewrite_counted(struct screen_lent *s, uint64_t *passes)
{
    uint8_t reasons[SCREEN_MAX_REASONS_BYTES];
    uint64_t reasons_used = 0;
    return screen_lent_rewrite_told(s, reasons, sizeof reasons, &reasons_used, passes);
}

/* The same for a caller who does not ask for the passes either. */
SCREEN_MUST_USE
static inline uint32_t screen_lent_rewrite(struct screen_lent *s)
{
    uint64_t passes = 0;
    return screen_lent_rewrite_counted(s, &passes);
}

/*
 * One line of the text of reasons: column, SCREEN_OP_.., value, and the number of the typed line, from 0. Of a symbol
 * is_symbol is 1, length says how many bytes `symbol` has, and value is 0.
 */
struct screen_reason {
    uint64_t column;
    uint64_t code;
    int64_t value;
    uint64_t line;
    uint32_t is_symbol;
    uint32_t length;
    uint8_t symbol[SCREEN_MAX_SYMBOL_BYTES];
};

/* The word at *at, up to a blank or the end of its line, and *at behind that byte. */
static inline size_t screen_reason_word(const uint8_t *text, size_t len, size_t *at, const uint8_t **word)
{
    size_t from = *at, end = from;
    while (end < len && text[end] != ' ' && text[end] != '\n')
        end++;
    *word = text + from;
    *at = end < len ? end + 1 : end;
    return end - from;
}

/* Of digits, after a minus or not: its 64 bits in two's complement. */
static inline uint64_t screen_reason_number(const uint8_t *word, size_t len)
{
    size_t minus = len > 0 && word[0] == '-' ? 1 : 0;
    uint64_t number = 0;
    for (size_t i = minus; i < len; i++)
        number = 10 * number + SCREEN_CAST(uint64_t, word[i] - '0');
    return minus ? 0 - number : number;
}

/* A symbol's bytes, of two digits each behind the letter t. */
static inline uint32_t screen_reason_symbol(const uint8_t *word, size_t len, uint8_t *symbol)
{
    uint32_t length = 0;
    while (2 * SCREEN_CAST(size_t, length) + 2 < len && length < SCREEN_MAX_SYMBOL_BYTES) {
        const uint8_t *digits = word + 1 + 2 * SCREEN_CAST(size_t, length);
        unsigned high = digits[0] < 'a' ? digits[0] - SCREEN_CAST(unsigned, '0') : digits[0] - SCREEN_CAST(unsigned, 'a') + 10;
        unsigned low = digits[1] < 'a' ? digits[1] - SCREEN_CAST(unsigned, '0') : digits[1] - SCREEN_CAST(unsigned, 'a') + 10;
        symbol[length++] = SCREEN_CAST(uint8_t, (16 * high + low) & 255);
    }
    return length;
}

/* By its letters: Eq, NotEq, Lt, LtEq, Gt, GtEq. */
static inline uint64_t screen_reason_operator(const uint8_t *word, size_t len)
{
    if (len == 0 || word[0] == 'E')
        return SCREEN_OP_EQ;
    if (word[0] == 'N')
        return SCREEN_OP_NOT_EQ;
    if (word[0] == 'L')
        return len == 2 ? SCREEN_OP_LT : SCREEN_OP_LT_EQ;
    return len == 2 ? SCREEN_OP_GT : SCREEN_OP_GT_EQ;
}

/*
 * Reads the line at *at of a text that screen_rewrite wrote, and moves *at behind it; 0, and nothing is read, at its end.
 */
static inline int screen_next_reason(const uint8_t *text, size_t len, size_t *at, struct screen_reason *reason)
{
    const uint8_t *word;
    uint64_t bits;
    size_t size;
    if (*at >= len)
        return 0;
    size = screen_reason_word(text, len, at, &word);
    reason->column = screen_reason_number(word, size);
    size = screen_reason_word(text, len, at, &word);
    reason->code = screen_reason_operator(word, size);
    size = screen_reason_word(text, len, at, &word);
    reason->is_symbol = size > 0 && word[0] == 't';
    reason->length = reason->is_symbol ? screen_reason_symbol(word, size, reason->symbol) : 0;
    bits = reason->is_symbol ? 0 : screen_reason_number(word, size);
    memcpy(&reason->value, &bits, sizeof bits);
    size = screen_reason_word(text, len, at, &word);
    reason->line = screen_reason_number(word, size);
    return 1;
}

/* As screen_line_in_the_way. */
SCREEN_MUST_USE
static inline uint32_t screen_lent_line_in_the_way(const struct screen_lent *s, uint64_t *line)
{
    return screen_line_in_the_way(s->table, s->table_len, s->records, s->records_len, s->pool, s->pool_len, s->text,
                                  s->text_len, s->used, s->root, line);
}

/* As screen_show_row. */
SCREEN_MUST_USE
static inline uint32_t screen_lent_show_row(const struct screen_lent *s, uint8_t *row, size_t row_len, uint64_t *nulls)
{
    return screen_show_row(s->table, s->table_len, s->records, s->records_len, s->pool, s->pool_len, s->text,
                           s->text_len, s->used, s->root, row, row_len, nulls);
}

/* As screen_check_row. */
SCREEN_MUST_USE
static inline uint32_t screen_lent_check_row(const struct screen_lent *s, const uint8_t *row, size_t row_len,
                                             uint64_t nulls)
{
    return screen_check_row(s->table, s->table_len, s->records, s->records_len, s->pool, s->pool_len, s->text,
                            s->text_len, s->used, s->root, row, row_len, nulls);
}

/* The whole part of a column of a row with halves. */
static inline int64_t screen_whole_at(const uint8_t *row, uint64_t column)
{
    return screen_fetch_value(row + SCREEN_CELL_BYTES * column);
}

/* Its half part: -1, 0 or +1. */
static inline int64_t screen_half_at(const uint8_t *row, uint64_t column)
{
    return screen_fetch_value(row + SCREEN_CELL_BYTES * column + SCREEN_VALUE_BYTES);
}

/* Puts both parts of a column into a row with halves. */
static inline void screen_store_cell(uint8_t *row, uint64_t column, int64_t whole, int64_t half)
{
    screen_store_value(row + SCREEN_CELL_BYTES * column, whole);
    screen_store_value(row + SCREEN_CELL_BYTES * column + SCREEN_VALUE_BYTES, half);
}

/* As screen_slowest, into the rooms of s, which becomes the screen built; it has no pool and no text. A refusal leaves s. */
SCREEN_MUST_USE
static inline uint32_t screen_lent_slowest(struct screen_lent *s, uint64_t columns)
{
    uint64_t root = s->root, used = s->used;
    uint32_t answer = screen_slowest(columns, s->table, s->table_room, s->records, s->records_room, &root, &used);
    if (screen_refused(answer))
        return answer;
    s->table_len = columns;
    s->records_len = s->records_room;
    s->pool_len = 0;
    s->text_len = 0;
    s->root = root;
    s->used = used;
    return answer;
}

/* As screen_test_row. */
SCREEN_MUST_USE
static inline uint32_t screen_lent_test_row(const struct screen_lent *s, const uint8_t *row, size_t row_len,
                                            uint64_t nulls)
{
    return screen_test_row(s->table, s->table_len, s->records, s->records_len, s->pool, s->pool_len, s->text,
                           s->text_len, s->used, s->root, row, row_len, nulls);
}

/* As screen_hedge_list; `rows` is how many words of null marks there are, and list_len is in bytes. */
SCREEN_MUST_USE
static inline uint32_t screen_lent_hedge_list(const struct screen_lent *s, const uint8_t *values, size_t values_len,
                                              const uint64_t *nulls, size_t rows, uint8_t *list, size_t list_len,
                                              struct screen_tally *tally, uint64_t *count)
{
    return screen_hedge_list(s->table, s->table_len, s->records, s->records_len, s->pool, s->pool_len, s->text,
                             s->text_len, s->used, s->root, values, values_len, nulls, rows, list, list_len, tally,
                             count);
}

/* The row number at a place of a hedge list; places are counted from 0. */
static inline uint32_t screen_listed(const uint8_t *list, uint64_t place)
{
    return SCREEN_CAST(uint32_t, screen_fetch(list + SCREEN_PLACE_BYTES * place, SCREEN_PLACE_BYTES));
}

/* As screen_columns_read. */
SCREEN_MUST_USE
static inline uint32_t screen_lent_columns_read(const struct screen_lent *s, uint64_t *columns, uint64_t *count)
{
    return screen_columns_read(s->table, s->table_len, s->records, s->records_len, s->pool, s->pool_len, s->text,
                               s->text_len, s->used, s->root, columns, count);
}

/* As screen_save: the used records are saved, the whole pool and the whole text. */
SCREEN_MUST_USE
static inline uint32_t screen_lent_save(const struct screen_lent *s, uint8_t *file, size_t file_len, uint64_t *length)
{
    return screen_save(s->table, s->table_len, s->records, s->records_len, s->pool, s->pool_len, s->text, s->text_len,
                       s->used, s->root, file, file_len, length);
}

/*
 * As screen_load, into the rooms of *s, which becomes the screen loaded: its lengths, used and root are set, and all of
 * its records are lent. With a refusal *s keeps its values.
 */
SCREEN_MUST_USE
static inline uint32_t screen_lent_load(struct screen_lent *s, const uint8_t *file, size_t file_len)
{
    uint64_t root = 0, columns = 0, used = 0, values = 0, text_bytes = 0;
    uint32_t answer = screen_load(file, file_len, s->table, s->table_room, s->records, s->records_room, s->pool,
                                  s->pool_room, s->text, s->text_room, &root, &columns, &used, &values, &text_bytes);
    if (screen_refused(answer))
        return answer;
    s->table_len = columns;
    s->records_len = s->records_room;
    s->pool_len = SCREEN_VALUE_BYTES * values;
    s->text_len = text_bytes;
    s->used = used;
    s->root = root;
    return answer;
}

/* ------------------------------------------------------------------------------------------------------ copying out */

/* The record with its inputs renumbered. */
static inline void screen_copy_record(uint8_t *to, const uint8_t *from, const uint16_t *numbers)
{
    unsigned i, inputs = screen_inputs(from[0]);
    memmove(to, from, SCREEN_RECORD_BYTES);
    for (i = 0; i < inputs; i++)
        screen_store(to + 4 + 4 * i, 4, numbers[screen_fetch(to + 4 + 4 * i, 4)]);
}

/*
 * Copies the records that the root reaches, in their order and renumbered, into `records`, and makes *to the same
 * screen with these: with the table, the pool and the text of `from`, and all of `records` lent. Answers SCREEN_ACCEPTED, or a
 * refusal and writes nothing: as screen_check of `from`, then SCREEN_REFUSED_ROOM if `records` is too short.
 *
 * `records` may be the buffer of `from`; else the two do not overlap. `to` may be `from`.
 */
SCREEN_MUST_USE
static inline uint32_t screen_copy_reached(const struct screen_lent *from, uint8_t *records, size_t records_len,
                                           struct screen_lent *to)
{
    uint16_t numbers[SCREEN_MAX_RECORDS]; /* 1 for a reached record, then its new number */
    uint16_t count = 0;
    uint64_t n, reached = 0;
    uint32_t answer = screen_lent_check(from);
    if (screen_refused(answer))
        return answer;
    memset(numbers, 0, sizeof numbers);
    numbers[from->root] = 1;
    for (n = from->root + 1; n-- > 0;) { /* inputs stand before their record */
        const uint8_t *at = from->records + SCREEN_RECORD_BYTES * n;
        unsigned i, inputs = numbers[n] ? screen_inputs(at[0]) : 0;
        reached += numbers[n];
        for (i = 0; i < inputs; i++)
            numbers[screen_fetch(at + 4 + 4 * i, 4)] = 1;
    }
    if (reached > records_len / SCREEN_RECORD_BYTES)
        return SCREEN_REFUSED_ROOM;
    for (n = 0; n <= from->root; n++)
        if (numbers[n]) {
            numbers[n] = count++;
            screen_copy_record(records + SCREEN_RECORD_BYTES * numbers[n], from->records + SCREEN_RECORD_BYTES * n,
                               numbers);
        }
    *to = *from;
    to->records = records;
    to->records_len = records_len;
    to->records_room = records_len;
    to->used = reached;
    to->root = reached - 1;
    return answer;
}

#undef SCREEN_CAST

#endif
