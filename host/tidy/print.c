#include "print.h"

#include "day.h"

/* In quotes, as it is typed: a quote and a backslash behind a backslash, a byte that is no letter by its number. */
static void add_symbol(struct text *text, const uint8_t *bytes, size_t length)
{
    text_add(text, "'");
    for (size_t i = 0; i < length; i++) {
        if (bytes[i] < ' ' || bytes[i] > '~')
            text_add(text, "\\x%02x", bytes[i]);
        else
            text_add(text, "%s%c", bytes[i] == '\'' || bytes[i] == '\\' ? "\\" : "", bytes[i]);
    }
    text_add(text, "'");
}

void add_value(struct text *text, const struct screen_lent *screen, unsigned type, int64_t value)
{
    if (type == SCREEN_TYPE_TEXT)
        add_symbol(text, screen->text + ((uint64_t)value & UINT32_MAX), (size_t)((uint64_t)value >> 32));
    else if (type == SCREEN_TYPE_DAY)
        day_add(text, value);
    else if (type == SCREEN_TYPE_TRUTH)
        text_add(text, "%s", value != 0 ? "true" : "false");
    else
        text_add(text, "%lld", (long long)value);
}

static bool is_atom(unsigned kind)
{
    return kind == SCREEN_KIND_COLUMN || kind == SCREEN_KIND_LITERAL || kind == SCREEN_KIND_NULL;
}

static bool is_logic(struct screen_record fields)
{
    return fields.kind == SCREEN_KIND_BINARY && fields.code >= SCREEN_OP_AND;
}

static void add_side(struct text *text, const struct build *build, uint64_t record, bool bare)
{
    text_add(text, "%s", bare ? "" : "(");
    add_test(text, build, record);
    text_add(text, "%s", bare ? "" : ")");
}

/* A comparison's side: whatever is neither one word nor a division stands in parentheses. Logic brings its own. */
static void add_operand(struct text *text, const struct build *build, uint64_t record)
{
    struct screen_record fields = screen_record_at(&build->lent, record);
    add_side(text, build, record, is_atom(fields.kind) || is_logic(fields) || is_division(fields));
}

/* A division's side: another division stands in parentheses. */
static void add_divided(struct text *text, const struct build *build, uint64_t record)
{
    add_side(text, build, record, is_atom(screen_record_at(&build->lent, record).kind));
}

const char *operator_text(unsigned code)
{
    static const char *const TEXTS[] = {
        [SCREEN_OP_EQ] = "==",         [SCREEN_OP_EQ_VALIDITY] = "is not distinct from",
        [SCREEN_OP_NOT_EQ] = "!=",     [SCREEN_OP_NOT_EQ_VALIDITY] = "is distinct from",
        [SCREEN_OP_LT] = "<",          [SCREEN_OP_LT_EQ] = "<=",
        [SCREEN_OP_GT] = ">",          [SCREEN_OP_GT_EQ] = ">=",
        [SCREEN_OP_FLOOR_DIVIDE] = "//", [SCREEN_OP_MODULUS] = "%",
        [SCREEN_OP_AND] = "and",       [SCREEN_OP_OR] = "or",
        [SCREEN_OP_XOR] = "xor",       [SCREEN_OP_LOGICAL_AND] = "&&",
        [SCREEN_OP_LOGICAL_OR] = "||",
    };
    return TEXTS[code];
}

/* Logic of one operator leans to the left, as it is read: (a or b or c). */
static void add_logic(struct text *text, const struct build *build, struct screen_record fields)
{
    struct screen_record left = screen_record_at(&build->lent, fields.a);
    if (is_logic(left) && left.code == fields.code)
        add_logic(text, build, left);
    else
        add_test(text, build, fields.a);
    text_add(text, " %s ", operator_text(fields.code));
    add_test(text, build, fields.b);
}

static void add_binary(struct text *text, const struct build *build, struct screen_record fields)
{
    if (is_logic(fields)) {
        text_add(text, "(");
        add_logic(text, build, fields);
        text_add(text, ")");
    } else if (is_division(fields)) {
        add_divided(text, build, fields.a);
        text_add(text, " %s ", operator_text(fields.code));
        add_divided(text, build, fields.b);
    } else {
        add_operand(text, build, fields.a);
        text_add(text, " %s ", operator_text(fields.code));
        add_operand(text, build, fields.b);
    }
}

static void add_not(struct text *text, const struct build *build, struct screen_record fields)
{
    text_add(text, "not ");
    if (screen_record_at(&build->lent, fields.a).kind == SCREEN_KIND_BINARY)
        add_operand(text, build, fields.a);
    else
        add_test(text, build, fields.a);
}

static void add_between(struct text *text, const struct build *build, struct screen_record fields)
{
    static const char *const CLOSED[] = {"", " closed left", " closed right", " closed none"};
    add_operand(text, build, fields.a);
    text_add(text, " between ");
    add_operand(text, build, fields.b);
    text_add(text, " and ");
    add_operand(text, build, fields.c);
    text_add(text, "%s", CLOSED[fields.code]);
}

static void add_list(struct text *text, const struct build *build, struct screen_record list)
{
    text_add(text, "(");
    for (uint32_t i = 0; i < list.b; i++) {
        text_add(text, "%s", i > 0 ? ", " : "");
        add_value(text, &build->lent, list.type, screen_fetch_value(build->lent.pool + SCREEN_VALUE_BYTES * ((size_t)list.a + i)));
    }
    if (list.code == 1)
        text_add(text, "%snull", list.b > 0 ? ", " : "");
    text_add(text, ")");
}

static void add_is_in(struct text *text, const struct build *build, struct screen_record fields)
{
    add_operand(text, build, fields.a);
    text_add(text, " in ");
    add_list(text, build, screen_record_at(&build->lent, fields.b));
    text_add(text, "%s", fields.code == 1 ? " nulls equal" : "");
}

void add_test(struct text *text, const struct build *build, uint64_t record)
{
    struct screen_record fields = screen_record_at(&build->lent, record);
    switch (fields.kind) {
    case SCREEN_KIND_COLUMN:
        text_add(text, "%s", build->columns[fields.a].name);
        break;
    case SCREEN_KIND_LITERAL:
        add_value(text, &build->lent, fields.type, screen_literal_at(&build->lent, record));
        break;
    case SCREEN_KIND_NULL:
        text_add(text, "null");
        break;
    case SCREEN_KIND_BINARY:
        add_binary(text, build, fields);
        break;
    case SCREEN_KIND_NOT:
        add_not(text, build, fields);
        break;
    case SCREEN_KIND_IS_BETWEEN:
        add_between(text, build, fields);
        break;
    case SCREEN_KIND_IS_IN:
        add_is_in(text, build, fields);
        break;
    default:
        add_operand(text, build, fields.a);
        text_add(text, "%s", fields.kind == SCREEN_KIND_IS_NULL ? " is null" : " is not null");
    }
}

void add_conjuncts(struct conjuncts *conjuncts, const struct screen_lent *screen, uint64_t root)
{
    uint64_t waiting[SCREEN_MAX_TREE]; /* each holds a record of the tree, so they are never more */
    size_t count = 1;
    waiting[0] = root;
    while (count > 0) {
        uint64_t record = waiting[--count];
        struct screen_record fields = screen_record_at(screen, record);
        bool joins = fields.code == SCREEN_OP_AND || fields.code == SCREEN_OP_LOGICAL_AND;
        if (fields.kind == SCREEN_KIND_BINARY && joins) {
            waiting[count++] = fields.b;
            waiting[count++] = fields.a;
            continue;
        }
        conjuncts->records = grown(conjuncts->records, &conjuncts->room, conjuncts->count + 1, sizeof record);
        conjuncts->records[conjuncts->count++] = record;
    }
}
