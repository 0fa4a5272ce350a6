/* Screens to measure on, put together record by record. */
#ifndef MAKE_H
#define MAKE_H

#include "screen_build.h"

#include <stdlib.h>
#include <string.h>

struct made {
    uint8_t table[64];
    uint8_t records[16 * 4096];
    uint8_t pool[8 * 8192];
    uint8_t text[8192];
    struct screen_lent s; /* points to the above */
};

static inline void make(struct made *m, unsigned columns, unsigned type)
{
    memset(m, 0, sizeof *m);
    screen_begin(&m->s, m->table, sizeof m->table, m->records, sizeof m->records, m->pool, sizeof m->pool,
                 m->text, sizeof m->text);
    for (unsigned i = 0; i < columns; i++)
        screen_declare(&m->s, type);
}

/* `column op value`, of the column's type. */
static inline uint32_t line(struct made *m, unsigned code, uint32_t number, int64_t value)
{
    uint32_t left = screen_put_column(&m->s, number);
    uint32_t right = screen_put_literal(&m->s, m->table[number], value);
    return screen_put_binary(&m->s, code, left, right);
}

static inline uint32_t range(struct made *m, uint32_t number, int64_t low, int64_t high)
{
    uint32_t x = screen_put_column(&m->s, number);
    uint32_t from = screen_put_literal(&m->s, m->table[number], low);
    uint32_t to = screen_put_literal(&m->s, m->table[number], high);
    return screen_put_between(&m->s, SCREEN_CLOSED_BOTH, x, from, to);
}

/* `column in` the values first, first + 1, .., which are appended to the pool. */
static inline uint32_t member(struct made *m, uint32_t number, int64_t first, uint32_t count)
{
    int64_t values[SCREEN_MAX_POOL_VALUES];
    uint32_t x = screen_put_column(&m->s, number);
    for (uint32_t i = 0; i < count; i++)
        values[i] = first + i;
    return screen_put_is_in(&m->s, x, screen_put_list(&m->s, m->table[number], values, count, 0), 0);
}

#endif
