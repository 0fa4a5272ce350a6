#include "range.h"

#include <string.h>

bool is_lower(struct comparison comparison)
{
    return comparison.code == SCREEN_OP_GT || comparison.code == SCREEN_OP_GT_EQ;
}

bool is_upper(struct comparison comparison)
{
    return comparison.code == SCREEN_OP_LT || comparison.code == SCREEN_OP_LT_EQ;
}

static bool is_read(unsigned code)
{
    return code <= SCREEN_OP_GT_EQ && code != SCREEN_OP_EQ_VALIDITY && code != SCREEN_OP_NOT_EQ_VALIDITY;
}

/* The sign that says the same with its sides exchanged. */
static unsigned swapped(unsigned code)
{
    switch (code) {
    case SCREEN_OP_LT:
        return SCREEN_OP_GT;
    case SCREEN_OP_LT_EQ:
        return SCREEN_OP_GT_EQ;
    case SCREEN_OP_GT:
        return SCREEN_OP_LT;
    case SCREEN_OP_GT_EQ:
        return SCREEN_OP_LT_EQ;
    default:
        return code;
    }
}

/* The sign that says the opposite, of a value that is not null. */
static unsigned negated(unsigned code)
{
    switch (code) {
    case SCREEN_OP_EQ:
        return SCREEN_OP_NOT_EQ;
    case SCREEN_OP_NOT_EQ:
        return SCREEN_OP_EQ;
    case SCREEN_OP_LT:
        return SCREEN_OP_GT_EQ;
    case SCREEN_OP_LT_EQ:
        return SCREEN_OP_GT;
    case SCREEN_OP_GT:
        return SCREEN_OP_LT_EQ;
    default:
        return SCREEN_OP_LT;
    }
}

static bool is_kind(const struct screen_lent *screen, uint64_t record, unsigned kind)
{
    return screen_record_at(screen, record).kind == kind;
}

static struct comparison compared(const struct screen_lent *screen, uint64_t column, unsigned code, uint64_t literal)
{
    struct screen_record fields = screen_record_at(screen, literal);
    struct comparison comparison = {screen_record_at(screen, column).a, code, screen_literal_at(screen, literal), NULL, 0};
    if (fields.type == SCREEN_TYPE_TEXT) {
        comparison.symbol = screen->text + fields.b;
        comparison.length = fields.c;
    }
    return comparison;
}

static size_t of_binary(const struct screen_lent *screen, struct screen_record fields, struct comparison *comparison)
{
    if (!is_read(fields.code))
        return 0;
    if (is_kind(screen, fields.a, SCREEN_KIND_COLUMN) && is_kind(screen, fields.b, SCREEN_KIND_LITERAL))
        *comparison = compared(screen, fields.a, fields.code, fields.b);
    else if (is_kind(screen, fields.b, SCREEN_KIND_COLUMN) && is_kind(screen, fields.a, SCREEN_KIND_LITERAL))
        *comparison = compared(screen, fields.b, swapped(fields.code), fields.a);
    else
        return 0;
    return 1;
}

size_t comparisons_of(const struct screen_lent *screen, uint64_t record, struct comparison comparisons[2])
{
    struct screen_record fields = screen_record_at(screen, record);
    if (fields.kind == SCREEN_KIND_BINARY)
        return of_binary(screen, fields, comparisons);
    if (fields.kind == SCREEN_KIND_NOT && is_kind(screen, fields.a, SCREEN_KIND_BINARY)) {
        size_t count = of_binary(screen, screen_record_at(screen, fields.a), comparisons);
        if (count == 1)
            comparisons[0].code = negated(comparisons[0].code);
        return count;
    }
    if (fields.kind != SCREEN_KIND_IS_BETWEEN || !is_kind(screen, fields.a, SCREEN_KIND_COLUMN) ||
        !is_kind(screen, fields.b, SCREEN_KIND_LITERAL) || !is_kind(screen, fields.c, SCREEN_KIND_LITERAL))
        return 0;
    bool low = fields.code == SCREEN_CLOSED_BOTH || fields.code == SCREEN_CLOSED_LEFT;
    bool high = fields.code == SCREEN_CLOSED_BOTH || fields.code == SCREEN_CLOSED_RIGHT;
    comparisons[0] = compared(screen, fields.a, low ? SCREEN_OP_GT_EQ : SCREEN_OP_GT, fields.b);
    comparisons[1] = compared(screen, fields.a, high ? SCREEN_OP_LT_EQ : SCREEN_OP_LT, fields.c);
    return 2;
}

int value_order(struct comparison a, struct comparison b)
{
    if (a.symbol == NULL || b.symbol == NULL)
        return (a.value > b.value) - (a.value < b.value);
    size_t common = a.length < b.length ? a.length : b.length;
    int order = common > 0 ? memcmp(a.symbol, b.symbol, common) : 0;
    return order != 0 ? order : (a.length > b.length) - (a.length < b.length);
}

/* Is the comparison true of the other one's value? */
static bool holds(struct comparison comparison, struct comparison other)
{
    int order = value_order(other, comparison);
    switch (comparison.code) {
    case SCREEN_OP_EQ:
        return order == 0;
    case SCREEN_OP_NOT_EQ:
        return order != 0;
    case SCREEN_OP_LT:
        return order < 0;
    case SCREEN_OP_LT_EQ:
        return order <= 0;
    case SCREEN_OP_GT:
        return order > 0;
    default:
        return order >= 0;
    }
}

/* Both bound the same side: the strong one is further in, or at the same value and not the wider one. */
static bool tighter(struct comparison strong, struct comparison weak)
{
    int order = value_order(strong, weak);
    bool further = is_lower(strong) ? order > 0 : order < 0;
    bool open = strong.code == SCREEN_OP_GT || strong.code == SCREEN_OP_LT;
    return further || (order == 0 && (open || strong.code == weak.code));
}

bool implies(struct comparison strong, struct comparison weak)
{
    if (strong.column != weak.column)
        return false;
    if (strong.code == SCREEN_OP_EQ)
        return holds(weak, strong);
    if (weak.code == SCREEN_OP_NOT_EQ)
        return strong.code == SCREEN_OP_NOT_EQ ? value_order(strong, weak) == 0 : !holds(strong, weak);
    if ((is_lower(strong) && is_lower(weak)) || (is_upper(strong) && is_upper(weak)))
        return tighter(strong, weak);
    return false;
}
