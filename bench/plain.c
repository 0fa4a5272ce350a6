#include "plain.h"
#include "screen.h"

/* Inside, a list has a type of its own, so that it fits nothing but is_in. */
enum { LIST_OF = 16 };

struct fields {
    uint8_t kind, code, type, zero;
    uint32_t a, b, c;
};

static uint32_t word(const uint8_t *at)
{
    return (uint32_t)at[0] | (uint32_t)at[1] << 8 | (uint32_t)at[2] << 16 | (uint32_t)at[3] << 24;
}

static int64_t value(const uint8_t *at)
{
    return (int64_t)((uint64_t)word(at) | (uint64_t)word(at + 4) << 32);
}

static struct fields fields_at(const uint8_t *records, uint64_t node)
{
    const uint8_t *at = records + 16 * node;
    struct fields f = {at[0], at[1], at[2], at[3], word(at + 4), word(at + 8), word(at + 12)};
    return f;
}

static int in_type(unsigned type, int64_t v)
{
    switch (type) {
    case SCREEN_TYPE_INT: return 1;
    case SCREEN_TYPE_DAY: return v >= INT32_MIN && v <= INT32_MAX;
    default: return v == 0 || v == 1;
    }
}

static int known_type(unsigned type)
{
    return type >= SCREEN_TYPE_INT && type <= SCREEN_TYPE_TRUTH;
}

static uint32_t outside(const struct screen_lent *s)
{
    if (s->table_len > SCREEN_MAX_COLUMNS)
        return SCREEN_REFUSED_TABLE;
    for (size_t i = 0; i < s->table_len; i++)
        if (!known_type(s->table[i]))
            return SCREEN_REFUSED_TABLE;
    if (s->used > SCREEN_MAX_RECORDS || s->used > s->records_len / 16)
        return SCREEN_REFUSED_SIZE;
    if (s->pool_len > (size_t)8 * SCREEN_MAX_POOL_VALUES || s->pool_len % 8 != 0)
        return SCREEN_REFUSED_SIZE;
    return s->root < s->used ? 0 : SCREEN_REFUSED_ROOT;
}

/* 4: what the sixteen bytes say by themselves. */
static int known(struct fields f, const uint8_t *at)
{
    if (f.zero != 0)
        return 0;
    switch (f.kind) {
    case SCREEN_KIND_COLUMN:
    case SCREEN_KIND_NOT:
    case SCREEN_KIND_IS_NULL:
    case SCREEN_KIND_IS_NOT_NULL: return f.code == 0 && f.type == 0 && f.b == 0 && f.c == 0;
    case SCREEN_KIND_LITERAL: return f.code == 0 && known_type(f.type) && f.a == 0 && in_type(f.type, value(at + 8));
    case SCREEN_KIND_NULL: return f.code == 0 && known_type(f.type) && f.a == 0 && f.b == 0 && f.c == 0;
    case SCREEN_KIND_BINARY: return f.code <= SCREEN_OP_LOGICAL_OR && f.type == 0 && f.c == 0;
    case SCREEN_KIND_IS_BETWEEN: return f.code <= SCREEN_CLOSED_NONE && f.type == 0;
    case SCREEN_KIND_LIST: return f.code <= 1 && known_type(f.type) && f.c == 0;
    case SCREEN_KIND_IS_IN: return f.code <= 1 && f.type == 0 && f.c == 0;
    default: return 0;
    }
}

static int list_fits(const struct screen_lent *s, struct fields f)
{
    if ((uint64_t)f.a + f.b > s->pool_len / 8)
        return 0;
    if (f.type == SCREEN_TYPE_INT)
        return 1;
    for (uint32_t i = 0; i < f.b; i++)
        if (!in_type(f.type, value(s->pool + 8 * ((size_t)f.a + i))))
            return 0;
    return 1;
}

/* 5: what it refers to. */
static int refers(const struct screen_lent *s, struct fields f, uint64_t node)
{
    switch (f.kind) {
    case SCREEN_KIND_COLUMN: return f.a < s->table_len;
    case SCREEN_KIND_LITERAL:
    case SCREEN_KIND_NULL: return 1;
    case SCREEN_KIND_BINARY:
    case SCREEN_KIND_IS_IN: return f.a < node && f.b < node;
    case SCREEN_KIND_IS_BETWEEN: return f.a < node && f.b < node && f.c < node;
    case SCREEN_KIND_LIST: return list_fits(s, f);
    default: return f.a < node;
    }
}

/* 6: what is left out. */
static int left_out(struct fields f)
{
    return f.kind == SCREEN_KIND_BINARY && f.code > SCREEN_OP_GT_EQ && f.code < SCREEN_OP_FLOOR_DIVIDE;
}

static int divides(struct fields f)
{
    return f.kind == SCREEN_KIND_BINARY && (f.code == SCREEN_OP_FLOOR_DIVIDE || f.code == SCREEN_OP_MODULUS);
}

/* 7: the type of a record whose inputs fit, or 0. */
static unsigned type_of(const struct screen_lent *s, struct fields f, const uint8_t *types)
{
    unsigned a;
    switch (f.kind) {
    case SCREEN_KIND_COLUMN: return s->table[f.a];
    case SCREEN_KIND_LITERAL:
    case SCREEN_KIND_NULL: return f.type;
    case SCREEN_KIND_LIST: return (unsigned)LIST_OF + f.type;
    default: break;
    }
    a = types[f.a];
    if (a >= LIST_OF)
        return 0;
    switch (f.kind) {
    case SCREEN_KIND_BINARY:
        if (a != types[f.b] || (f.code >= SCREEN_OP_AND && a != SCREEN_TYPE_TRUTH))
            return 0;
        if (divides(f))
            return a == SCREEN_TYPE_INT ? SCREEN_TYPE_INT : 0;
        break;
    case SCREEN_KIND_NOT:
        if (a != SCREEN_TYPE_TRUTH)
            return 0;
        break;
    case SCREEN_KIND_IS_BETWEEN:
        if (a != types[f.b] || a != types[f.c])
            return 0;
        break;
    case SCREEN_KIND_IS_IN:
        if (types[f.b] != LIST_OF + a)
            return 0;
        break;
    default: break;
    }
    return SCREEN_TYPE_TRUTH;
}

uint32_t plain_check(const struct screen_lent *s)
{
    uint8_t types[SCREEN_MAX_RECORDS];
    uint32_t fault = outside(s);
    if (fault != 0)
        return fault;
    for (uint64_t node = 0; node < s->used; node++) {
        struct fields f = fields_at(s->records, node);
        unsigned type;
        if (!known(f, s->records + 16 * node))
            return SCREEN_REFUSED_RECORD;
        if (!refers(s, f, node))
            return SCREEN_REFUSED_REFERENCE;
        if (left_out(f))
            return SCREEN_REFUSED_OPERATOR;
        type = type_of(s, f, types);
        if (type == 0)
            return SCREEN_REFUSED_TYPES;
        types[node] = (uint8_t)type;
    }
    return types[s->root] == SCREEN_TYPE_TRUTH ? SCREEN_ACCEPTED : SCREEN_REFUSED_TYPES;
}

/* How many inputs a record has: they stand in A, B, C in this order. */
static unsigned inputs(unsigned kind)
{
    switch (kind) {
    case SCREEN_KIND_COLUMN:
    case SCREEN_KIND_LITERAL:
    case SCREEN_KIND_NULL:
    case SCREEN_KIND_LIST: return 0;
    case SCREEN_KIND_BINARY:
    case SCREEN_KIND_IS_IN: return 2;
    case SCREEN_KIND_IS_BETWEEN: return 3;
    default: return 1;
    }
}

uint32_t plain_columns_read(const struct screen_lent *s, uint64_t *columns, uint64_t *count)
{
    uint8_t reached[SCREEN_MAX_RECORDS] = {0};
    uint64_t read = 0;
    uint64_t ones = 0;
    uint32_t answer = plain_check(s);
    if (answer != SCREEN_ACCEPTED)
        return answer;
    reached[s->root] = 1;
    for (uint64_t node = s->root + 1; node-- > 0;) {
        struct fields f = fields_at(s->records, node);
        unsigned n = inputs(f.kind);
        if (!reached[node])
            continue;
        if (f.kind == SCREEN_KIND_COLUMN)
            read |= UINT64_C(1) << f.a;
        if (n > 0)
            reached[f.a] = 1;
        if (n > 1)
            reached[f.b] = 1;
        if (n > 2)
            reached[f.c] = 1;
    }
    *columns = read;
    for (; read != 0; read &= read - 1)
        ones++;
    *count = ones;
    return SCREEN_COLUMNS;
}

/* ----------------------------------------------------------------------------------------------------- the row test */

enum { FALSE, UNKNOWN, TRUE };

static const uint8_t and3[3][3] = {{FALSE, FALSE, FALSE}, {FALSE, UNKNOWN, UNKNOWN}, {FALSE, UNKNOWN, TRUE}};
static const uint8_t or3[3][3] = {{FALSE, UNKNOWN, TRUE}, {UNKNOWN, UNKNOWN, TRUE}, {TRUE, TRUE, TRUE}};
static const uint8_t xor3[3][3] = {{FALSE, UNKNOWN, TRUE}, {UNKNOWN, UNKNOWN, UNKNOWN}, {TRUE, UNKNOWN, FALSE}};

/* A value or null. */
struct scalar {
    int null;
    int64_t v;
};

struct eval {
    const struct screen_lent *s;
    const uint8_t *row;
    uint64_t nulls;
};

static unsigned truth_at(const struct eval *e, uint64_t node);
static struct scalar scalar_at(const struct eval *e, uint64_t node);

static unsigned of(int holds)
{
    return holds ? TRUE : FALSE;
}

/* C rounds toward zero: where the remainder has not the divisor's sign the quotient is one too large. */
static struct scalar divided(unsigned code, struct scalar a, struct scalar b)
{
    struct scalar found = {0, 0};
    int64_t remainder, up;
    if (a.null || b.null || b.v == 0 || (a.v == INT64_MIN && b.v == -1)) {
        found.null = 1;
        return found;
    }
    remainder = a.v % b.v;
    up = remainder != 0 && (remainder < 0) != (b.v < 0);
    found.v = code == SCREEN_OP_MODULUS ? remainder + up * b.v : a.v / b.v - up;
    return found;
}

static struct scalar scalar_at(const struct eval *e, uint64_t node)
{
    struct fields f = fields_at(e->s->records, node);
    struct scalar null = {1, 0};
    struct scalar found = {0, 0};
    unsigned truth;
    switch (f.kind) {
    case SCREEN_KIND_COLUMN:
        if (e->nulls >> f.a & 1)
            return null;
        found.v = value(e->row + 8 * (size_t)f.a);
        return found;
    case SCREEN_KIND_LITERAL: found.v = value(e->s->records + 16 * node + 8); return found;
    case SCREEN_KIND_NULL: return null;
    default:
        if (divides(f))
            return divided(f.code, scalar_at(e, f.a), scalar_at(e, f.b));
        truth = truth_at(e, node);
        if (truth == UNKNOWN)
            return null;
        found.v = truth == TRUE;
        return found;
    }
}

static unsigned compare(unsigned code, struct scalar a, struct scalar b)
{
    if (code == SCREEN_OP_EQ_VALIDITY || code == SCREEN_OP_NOT_EQ_VALIDITY) {
        int same = a.null || b.null ? a.null && b.null : a.v == b.v;
        return of(same == (code == SCREEN_OP_EQ_VALIDITY));
    }
    if (a.null || b.null)
        return UNKNOWN;
    switch (code) {
    case SCREEN_OP_EQ: return of(a.v == b.v);
    case SCREEN_OP_NOT_EQ: return of(a.v != b.v);
    case SCREEN_OP_LT: return of(a.v < b.v);
    case SCREEN_OP_LT_EQ: return of(a.v <= b.v);
    case SCREEN_OP_GT: return of(a.v > b.v);
    default: return of(a.v >= b.v);
    }
}

static unsigned member(const struct eval *e, struct fields f, unsigned nulls_equal, struct scalar x)
{
    if (x.null && nulls_equal)
        return of(f.code == 1);
    if (x.null)
        return f.code == 1 || f.b != 0 ? UNKNOWN : FALSE;
    for (uint32_t i = 0; i < f.b; i++)
        if (value(e->s->pool + 8 * ((size_t)f.a + i)) == x.v)
            return TRUE;
    return f.code == 1 && !nulls_equal ? UNKNOWN : FALSE;
}

static unsigned truth_at(const struct eval *e, uint64_t node)
{
    struct fields f = fields_at(e->s->records, node);
    struct scalar x;
    switch (f.kind) {
    case SCREEN_KIND_BINARY:
        switch (f.code) {
        case SCREEN_OP_AND:
        case SCREEN_OP_LOGICAL_AND: return and3[truth_at(e, f.a)][truth_at(e, f.b)];
        case SCREEN_OP_OR:
        case SCREEN_OP_LOGICAL_OR: return or3[truth_at(e, f.a)][truth_at(e, f.b)];
        case SCREEN_OP_XOR: return xor3[truth_at(e, f.a)][truth_at(e, f.b)];
        default: return compare(f.code, scalar_at(e, f.a), scalar_at(e, f.b));
        }
    case SCREEN_KIND_NOT: return TRUE - truth_at(e, f.a);
    case SCREEN_KIND_IS_NULL: return of(scalar_at(e, f.a).null);
    case SCREEN_KIND_IS_NOT_NULL: return of(!scalar_at(e, f.a).null);
    case SCREEN_KIND_IS_BETWEEN: {
        static const uint8_t low[4] = {SCREEN_OP_GT_EQ, SCREEN_OP_GT_EQ, SCREEN_OP_GT, SCREEN_OP_GT};
        static const uint8_t high[4] = {SCREEN_OP_LT_EQ, SCREEN_OP_LT, SCREEN_OP_LT_EQ, SCREEN_OP_LT};
        x = scalar_at(e, f.a);
        return and3[compare(low[f.code], x, scalar_at(e, f.b))][compare(high[f.code], x, scalar_at(e, f.c))];
    }
    case SCREEN_KIND_IS_IN: return member(e, fields_at(e->s->records, f.b), f.code, scalar_at(e, f.a));
    default:
        x = scalar_at(e, node);
        return x.null ? (unsigned)UNKNOWN : of(x.v == 1);
    }
}

unsigned plain_evaluate(const struct screen_lent *s, const uint8_t *row, uint64_t nulls)
{
    struct eval e = {s, row, nulls};
    return truth_at(&e, s->root);
}

/* Records of the root's tree, shared ones each time they are reached, stopped at one above the limit. */
static uint32_t tree_count(const struct screen_lent *s)
{
    uint16_t counts[SCREEN_MAX_RECORDS];
    for (uint64_t node = 0; node <= s->root; node++) {
        struct fields f = fields_at(s->records, node);
        unsigned n = inputs(f.kind);
        unsigned sum = 1;
        if (n > 0)
            sum += counts[f.a];
        if (n > 1)
            sum += counts[f.b];
        if (n > 2)
            sum += counts[f.c];
        counts[node] = (uint16_t)(sum > SCREEN_MAX_TREE ? SCREEN_MAX_TREE + 1 : sum);
    }
    return counts[s->root];
}

uint32_t plain_test_row(const struct screen_lent *s, const uint8_t *row, size_t row_len, uint64_t nulls)
{
    uint32_t answer = plain_check(s);
    if (answer != SCREEN_ACCEPTED)
        return answer;
    if (tree_count(s) > SCREEN_MAX_TREE)
        return SCREEN_REFUSED_TREE;
    if (row_len != 8 * s->table_len)
        return SCREEN_REFUSED_ROW_LENGTH;
    if (s->table_len < 64 && nulls >> s->table_len != 0)
        return SCREEN_REFUSED_ROW;
    for (size_t i = 0; i < s->table_len; i++) {
        int64_t v = value(row + 8 * i);
        if (nulls >> i & 1 ? v != 0 : !in_type(s->table[i], v))
            return SCREEN_REFUSED_ROW;
    }
    return SCREEN_FALSE + plain_evaluate(s, row, nulls);
}
