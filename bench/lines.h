/* A screen put together line by line: each new line is joined to those before it by And. */
#ifndef LINES_H
#define LINES_H

#include "make.h"

enum { LIST = 100 };

static struct made now;
static uint32_t top;
static unsigned lines;

static inline void begin(unsigned columns)
{
    make(&now, columns, SCREEN_TYPE_INT);
    lines = 0;
}

static inline void join(uint32_t next)
{
    top = lines == 0 ? next : screen_put_and(&now.s, top, next);
    lines++;
}

static inline void compare(unsigned code, uint32_t number, int64_t value)
{
    join(line(&now, code, number, value));
}

/* From the far end on, so that a pass carries a fact by one step. */
static inline void chain(uint32_t columns)
{
    for (uint32_t c = columns - 1; c-- > 0;) {
        uint32_t left = screen_put_column(&now.s, c);
        join(screen_put_binary(&now.s, SCREEN_OP_EQ, left, screen_put_column(&now.s, c + 1)));
    }
}

/* A list of `count` values from `first` on, LIST at the most. */
static inline uint32_t some_values(int64_t first, uint32_t count)
{
    int64_t values[LIST];
    for (unsigned i = 0; i < count; i++)
        values[i] = first + i;
    return screen_put_list(&now.s, SCREEN_TYPE_INT, values, count, 0);
}

static inline uint32_t values_from(int64_t first)
{
    return some_values(first, LIST);
}

/* A line of a list that several lines may share: the pool has room for 81 of 100 values. */
static inline void listed(uint32_t column, uint32_t values, int negated)
{
    uint32_t in = screen_put_is_in(&now.s, screen_put_column(&now.s, column), values, 0);
    join(negated ? screen_put_not(&now.s, in) : in);
}

static inline void list(uint32_t column, int64_t first, int negated)
{
    listed(column, values_from(first), negated);
}

#endif
