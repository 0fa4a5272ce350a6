/*
 * What the host tests share: a screen under construction, its bytes lent exactly, and the count of passed and failed.
 *
 * Each call gets copies that end where their allocation ends, so that valgrind sees a read or write outside what was
 * lent, and the copies are compared with the originals afterwards. A slice of length 0 is lent as NULL.
 */
#ifndef LEND_H
#define LEND_H

#include "screen_build.h"

#include <stdio.h>
#include <stdlib.h>
#include <string.h>

enum { LEND_TABLE = 128, LEND_RECORDS = 5000 * 16, LEND_POOL = 8200 * 8, LEND_TEXT = 8200 };

/* The bytes of a screen. */
struct store {
    uint8_t table[LEND_TABLE];
    uint8_t records[LEND_RECORDS];
    uint8_t pool[LEND_POOL];
    uint8_t text[LEND_TEXT];
};

/*
 * The screen under construction. Root and lengths follow what is put, so that no record is lent but the used ones; a
 * test may change any of them afterwards.
 */
static struct screen_lent sent;
static struct store sent_store;
static unsigned passed;
static unsigned failed;

static inline void report(int good, const char *name, const char *what)
{
    if (good) {
        passed++;
    } else {
        failed++;
        printf("FAILED %s: %s\n", name, what);
    }
}

static inline int finish(void)
{
    printf("%u passed, %u failed\n", passed, failed);
    return failed != 0;
}

/* An empty screen in a store. */
static inline void begin_in(struct screen_lent *s, struct store *bytes)
{
    memset(bytes, 0, sizeof *bytes);
    screen_begin(s, bytes->table, sizeof bytes->table, bytes->records, sizeof bytes->records, bytes->pool,
                 sizeof bytes->pool, bytes->text, sizeof bytes->text);
    s->records_len = 0;
}

/* A new screen with this table, one byte a column. */
static inline void begin(const uint8_t *table, size_t columns)
{
    begin_in(&sent, &sent_store);
    for (size_t i = 0; i < columns; i++)
        screen_declare(&sent, table[i]);
}

/* Columns of all three types: c0 Int, c1 Day, c2 Truth, c3 Int. */
static inline void begin_mixed(void)
{
    static const uint8_t table[4] = {SCREEN_TYPE_INT, SCREEN_TYPE_DAY, SCREEN_TYPE_TRUTH, SCREEN_TYPE_INT};
    begin(table, sizeof table);
}

/* The records of screen_build.h, put into `sent`. */

static inline uint32_t put(unsigned kind, unsigned code, unsigned type, uint32_t a, uint32_t b, uint32_t c)
{
    return screen_put(&sent, kind, code, type, a, b, c);
}

static inline uint32_t column(uint32_t number)
{
    return screen_put_column(&sent, number);
}

static inline uint32_t literal(unsigned type, int64_t value)
{
    return screen_put_literal(&sent, type, value);
}

static inline uint32_t null_of(unsigned type)
{
    return screen_put_null(&sent, type);
}

static inline uint32_t binary(unsigned operator_code, uint32_t left, uint32_t right)
{
    return screen_put_binary(&sent, operator_code, left, right);
}

static inline uint32_t not_of(uint32_t input)
{
    return screen_put_not(&sent, input);
}

static inline uint32_t is_null(uint32_t input)
{
    return screen_put_is_null(&sent, input);
}

static inline uint32_t is_not_null(uint32_t input)
{
    return screen_put_is_not_null(&sent, input);
}

static inline uint32_t is_between(unsigned closed, uint32_t value, uint32_t low, uint32_t high)
{
    return screen_put_between(&sent, closed, value, low, high);
}

/* A list of values that the pool has, or has not. */
static inline uint32_t list(unsigned holds_null, unsigned type, uint32_t start, uint32_t count)
{
    return screen_put(&sent, SCREEN_KIND_LIST, holds_null, type, start, count, 0);
}

static inline uint32_t is_in(unsigned nulls_equal, uint32_t value, uint32_t list_record)
{
    return screen_put(&sent, SCREEN_KIND_IS_IN, nulls_equal, 0, value, list_record, 0);
}

/* A symbol of these bytes, which may lie in the text already; and one at any start and of any length. */
static inline uint32_t symbol(const char *bytes, uint32_t length)
{
    return screen_put_symbol(&sent, bytes, length);
}

static inline uint32_t symbol_at(uint32_t start, uint32_t length)
{
    return screen_put_literal(&sent, SCREEN_TYPE_TEXT, screen_symbol(start, length));
}

static inline uint32_t pool_value(int64_t value)
{
    return screen_put_pool(&sent, value);
}

/* `column op literal`, three records. */
static inline uint32_t line(unsigned operator_code, uint32_t number, unsigned type, int64_t value)
{
    uint32_t left = column(number);
    uint32_t right = literal(type, value);
    return binary(operator_code, left, right);
}

/* A copy that ends where its allocation ends. */
static inline uint8_t *lent(const uint8_t *bytes, size_t len)
{
    if (len == 0)
        return NULL;
    uint8_t *copy = malloc(len);
    if (copy == NULL)
        abort();
    memcpy(copy, bytes, len);
    return copy;
}

static inline int kept(const uint8_t *copy, const uint8_t *bytes, size_t len)
{
    return len == 0 || memcmp(copy, bytes, len) == 0;
}

/* The four slices that every call takes. */
struct slices {
    uint8_t *table;
    uint8_t *records;
    uint8_t *pool;
    uint8_t *text;
};

static inline struct slices lend(void)
{
    struct slices s = {lent(sent.table, sent.table_len), lent(sent.records, sent.records_len),
                       lent(sent.pool, sent.pool_len), lent(sent.text, sent.text_len)};
    return s;
}

static inline int all_kept(const struct slices *s)
{
    return kept(s->table, sent.table, sent.table_len) && kept(s->records, sent.records, sent.records_len) &&
           kept(s->pool, sent.pool, sent.pool_len) && kept(s->text, sent.text, sent.text_len);
}

static inline void give_back(struct slices *s)
{
    free(s->table);
    free(s->records);
    free(s->pool);
    free(s->text);
}

#endif
