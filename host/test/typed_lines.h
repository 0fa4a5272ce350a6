/* What the tests of plain screens share: lines put one by one, whose And is the root, and a mark for what must not be written. */
#ifndef TYPED_LINES_H
#define TYPED_LINES_H

#include "lend.h"

static const uint64_t MARK = UINT64_C(0x0123456789abcdef);

/* The lines under construction, by their records. */
static uint32_t lines[200];
static size_t count;

static inline void begin_lines(void)
{
    begin_mixed();
    count = 0;
}

static inline void add(uint32_t record)
{
    lines[count++] = record;
}

/* Their And, nested to the left, is the root. */
static inline void join(void)
{
    uint32_t top = lines[0];
    for (size_t i = 1; i < count; i++)
        top = binary(i % 3 ? SCREEN_OP_AND : SCREEN_OP_LOGICAL_AND, top, lines[i]);
    sent.root = top;
}

#endif
