#include "parse.h"

#include "lex.h"
#include "screen.h"

enum { MAX_DEPTH = 500 }; /* of parentheses and nots: keeps the calls within any stack */

struct parser {
    struct lexer lexer;
    struct token token;
    struct build *build;
    struct faults *faults;
    unsigned depth;
};

/* A record and where its text begins. */
struct operand {
    uint32_t record;
    struct token at;
};

static struct operand parse_logic(struct parser *p);

static void take(struct parser *p)
{
    if (p->token.kind != TOKEN_FAULT)
        p->token = lex_next(&p->lexer);
}

/* As much of a token as a message shows. */
static int shown(struct token token)
{
    return token.text.len > 60 ? 60 : (int)token.text.len;
}

/* The token by which a message names an operand; parentheses are not repeated. */
static struct token named(struct operand operand)
{
    struct slice parentheses = {"(..)", 4};
    if (operand.at.kind == TOKEN_OPEN)
        operand.at.text = parentheses;
    return operand.at;
}

/* What stands at `token` is not what was expected; from here on nothing fits, so every caller returns. */
static void refuse(struct parser *p, struct token token, const char *expected)
{
    if (token.kind == TOKEN_END)
        fault_add(p->faults, p->lexer.number, token.place, "expected %s, found the end of the line", expected);
    else
        fault_add(p->faults, p->lexer.number, token.place, "expected %s, found '%.*s'", expected, shown(token),
                  token.text.at);
    p->token.kind = TOKEN_FAULT;
}

static bool faulty(const struct parser *p)
{
    return p->token.kind == TOKEN_FAULT;
}

static void expect(struct parser *p, enum token_kind kind, const char *expected)
{
    if (p->token.kind == kind)
        take(p);
    else
        refuse(p, p->token, expected);
}

static bool at_word(const struct parser *p, const char *word)
{
    return p->token.kind == TOKEN_NAME && is_word(p->token.text, word);
}

static void expect_word(struct parser *p, const char *word, const char *expected)
{
    if (at_word(p, word))
        take(p);
    else
        refuse(p, p->token, expected);
}

/* ----------------------------------------------------------------------------------- what fits, in the desk's words */

static const char *const A_TYPE[5] = {"", "an Int", "a Day", "a Truth", "a Text"};

/* What is written for a value of the type. */
static const char *const EXAMPLE[5] = {"", "a whole number, as 100", "a day, as 2026-12-18", "true or false",
                                       "a symbol in quotes, as 'SPX'"};

static unsigned kind_of(const struct parser *p, struct operand operand)
{
    return screen_record_at(&p->build->lent, operand.record).kind;
}

static bool is_column(const struct parser *p, struct operand operand)
{
    return kind_of(p, operand) == SCREEN_KIND_COLUMN;
}

/* `other` is compared with `column`, whose type it has not. */
static void refuse_type(struct parser *p, struct operand column, struct operand other)
{
    unsigned type = type_of(p->build, column.record), found = type_of(p->build, other.record);
    struct token left = named(column), right = named(other);
    if (is_column(p, column) && !is_column(p, other))
        fault_add(p->faults, p->lexer.number, right.place, "%.*s is %s: write %s", shown(left), left.text.at,
                  A_TYPE[type], EXAMPLE[type]);
    else
        fault_add(p->faults, p->lexer.number, right.place, "%.*s is %s and %.*s %s: only values of one type compare",
                  shown(left), left.text.at, A_TYPE[type], shown(right), right.text.at, A_TYPE[found]);
    p->token.kind = TOKEN_FAULT;
}

/*
 * The operands of a comparison have one type; nulls take it. A fault if all of them are null: 01 has a null of each
 * type, and nothing says which one is meant.
 */
static void fit(struct parser *p, const struct operand *operands, size_t count)
{
    uint32_t inputs[3] = {0, 0, 0};
    for (size_t i = 0; i < count; i++)
        inputs[i] = operands[i].record;
    if (faulty(p))
        return;
    if (!fit_types(p->build, inputs, count, 0)) {
        refuse(p, operands[0].at, "a column or a value that gives null its type");
        return;
    }
    for (size_t i = 1; i < count && !faulty(p); i++)
        if (type_of(p->build, inputs[i]) != type_of(p->build, inputs[0])) {
            bool swapped = is_column(p, operands[i]) && !is_column(p, operands[0]);
            refuse_type(p, operands[swapped ? i : 0], operands[swapped ? 0 : i]);
        }
}

/* What stands in a line, in logic or below a not is true or false. */
static void need_truth(struct parser *p, struct operand operand)
{
    if (faulty(p))
        return;
    fit_types(p->build, &operand.record, 1, SCREEN_TYPE_TRUTH);
    unsigned type = type_of(p->build, operand.record);
    if (type == SCREEN_TYPE_TRUTH)
        return;
    bool compared = is_column(p, operand) || is_division(screen_record_at(&p->build->lent, operand.record));
    fault_add(p->faults, p->lexer.number, operand.at.place, "%.*s is %s, where true or false is needed: %s",
              shown(operand.at), operand.at.text.at, A_TYPE[type],
              compared ? "compare it with a value" : "compare a column with it");
    p->token.kind = TOKEN_FAULT;
}

/* A comparison with null is unknown for every row. */
static void warn_of_null(struct parser *p, unsigned code, const struct operand *sides)
{
    int null = kind_of(p, sides[0]) == SCREEN_KIND_NULL ? 0 : 1;
    struct token other = named(sides[1 - null]);
    if (faulty(p) || kind_of(p, sides[null]) != SCREEN_KIND_NULL || code == SCREEN_OP_EQ_VALIDITY ||
        code == SCREEN_OP_NOT_EQ_VALIDITY)
        return;
    warning_add(p->faults, p->lexer.number, sides[null].at.place,
                "a comparison with null is never true: write %.*s is %snull", shown(other), other.text.at,
                code == SCREEN_OP_EQ ? "" : "not ");
}

/* -------------------------------------------------------------------------------------------------- what is written */

static uint8_t literal_type(enum token_kind kind)
{
    switch (kind) {
    case TOKEN_INT:
        return SCREEN_TYPE_INT;
    case TOKEN_DAY:
        return SCREEN_TYPE_DAY;
    case TOKEN_TRUTH:
        return SCREEN_TYPE_TRUTH;
    case TOKEN_SYMBOL:
        return SCREEN_TYPE_TEXT;
    default:
        return 0;
    }
}

/* A token's value as the library takes it; the bytes of a symbol go to the screen's text, where they are not there yet. */
static int64_t token_value(struct parser *p, struct token token)
{
    if (token.kind != TOKEN_SYMBOL)
        return token.value;
    return screen_symbol(screen_put_text(&p->build->lent, token.symbol, (uint32_t)token.value), (uint32_t)token.value);
}

static void refuse_name(struct parser *p)
{
    const struct build *build = p->build;
    size_t near = nearest_column(build, p->token.text);
    if (near < build->lent.table_len)
        fault_add(p->faults, p->lexer.number, p->token.place, "there is no column %.*s: did you mean %s?",
                  shown(p->token), p->token.text.at, build->columns[near].name);
    else
        fault_add(p->faults, p->lexer.number, p->token.place, "no line above declares a column %.*s", shown(p->token),
                  p->token.text.at);
    p->token.kind = TOKEN_FAULT;
}

static uint32_t parse_column(struct parser *p)
{
    size_t column = find_column(p->build, p->token.text);
    if (column == p->build->lent.table_len) {
        refuse_name(p);
        return 0;
    }
    take(p);
    return screen_put_column(&p->build->lent, (uint32_t)column);
}

static uint32_t parse_parentheses(struct parser *p)
{
    take(p);
    uint32_t inside = parse_logic(p).record;
    expect(p, TOKEN_CLOSE, "')' or an operator");
    return inside;
}

static struct operand parse_value(struct parser *p)
{
    struct operand operand = {0, p->token};
    switch (p->token.kind) {
    case TOKEN_NAME:
        operand.record = parse_column(p);
        break;
    case TOKEN_OPEN:
        operand.record = parse_parentheses(p);
        break;
    case TOKEN_NULL:
        take(p);
        operand.record = screen_put_null(&p->build->lent, 0);
        break;
    case TOKEN_INT:
    case TOKEN_DAY:
    case TOKEN_TRUTH:
    case TOKEN_SYMBOL:
        take(p);
        operand.record = screen_put_literal(&p->build->lent, literal_type(operand.at.kind), token_value(p, operand.at));
        break;
    default:
        refuse(p, p->token, "a column, a whole number, a day, a symbol in quotes, true, false, null or '('");
    }
    return operand;
}

/* Both sides of // and % are Ints, nulls too. */
static void need_ints(struct parser *p, const struct operand *sides)
{
    for (size_t i = 0; i < 2 && !faulty(p); i++) {
        uint32_t input = sides[i].record;
        struct token side = named(sides[i]);
        fit_types(p->build, &input, 1, SCREEN_TYPE_INT);
        unsigned type = type_of(p->build, input);
        if (type == SCREEN_TYPE_INT)
            continue;
        fault_add(p->faults, p->lexer.number, side.place, "%.*s is %s: only Ints are divided", shown(side),
                  side.text.at, A_TYPE[type]);
        p->token.kind = TOKEN_FAULT;
    }
}

/* A division by zero or by null is null for every row. */
static void warn_of_divisor(struct parser *p, struct operand divisor)
{
    struct screen_record fields = screen_record_at(&p->build->lent, divisor.record);
    bool zero = fields.kind == SCREEN_KIND_LITERAL && screen_literal_at(&p->build->lent, divisor.record) == 0;
    if (zero || fields.kind == SCREEN_KIND_NULL)
        warning_add(p->faults, p->lexer.number, divisor.at.place, "a division by %s is null for every row",
                    zero ? "zero" : "null");
}

/* A value, or one divided by another; a second division needs parentheses. */
static struct operand parse_operand(struct parser *p)
{
    struct operand sides[2] = {parse_value(p), {0, p->token}};
    struct token sign = p->token;
    if (sign.kind != TOKEN_DIVISION)
        return sides[0];
    take(p);
    sides[1] = parse_value(p);
    need_ints(p, sides);
    if (p->token.kind == TOKEN_DIVISION)
        refuse(p, p->token, "parentheses around one of two divisions");
    if (faulty(p))
        return sides[0];
    warn_of_divisor(p, sides[1]);
    struct operand divided = sides[0];
    divided.at.kind = TOKEN_DIVISION; /* named by all of its text */
    divided.at.text.len = (size_t)(p->token.text.at - divided.at.text.at);
    divided.at.text = trimmed(divided.at.text);
    divided.record = screen_put_binary(&p->build->lent, sign.code, sides[0].record, sides[1].record);
    return divided;
}

static uint32_t compare(struct parser *p, unsigned code, struct operand left)
{
    struct operand sides[2] = {left, {0, p->token}};
    sides[1] = parse_operand(p);
    fit(p, sides, 2);
    if (faulty(p))
        return 0;
    warn_of_null(p, code, sides);
    return screen_put_binary(&p->build->lent, code, sides[0].record, sides[1].record);
}

static unsigned parse_closed(struct parser *p)
{
    static const char *const NAMES[4] = {"both", "left", "right", "none"};
    if (!at_word(p, "closed"))
        return SCREEN_CLOSED_BOTH;
    take(p);
    for (unsigned code = 0; code < 4; code++)
        if (at_word(p, NAMES[code])) {
            take(p);
            return code;
        }
    refuse(p, p->token, "both, left, right or none");
    return 0;
}

static uint32_t parse_between(struct parser *p, struct operand value)
{
    struct operand operands[3] = {value, value, value};
    take(p);
    operands[1] = parse_operand(p);
    if (p->token.kind == TOKEN_LOGIC && p->token.code == SCREEN_OP_AND)
        take(p);
    else
        refuse(p, p->token, "'and' with the upper end");
    operands[2] = parse_operand(p);
    unsigned code = parse_closed(p);
    fit(p, operands, 3);
    return faulty(p) ? 0 : screen_put_between(&p->build->lent, code, value.record, operands[1].record,
                                              operands[2].record);
}

/* A list's record before it is put, and the type that its first value gave it. */
struct list {
    unsigned type, holds_null;
    uint32_t start, count;
};

/* One entry of a list: a value goes to the pool, a null is marked in the list's code. */
static void parse_entry(struct parser *p, struct list *list)
{
    static const char *const EXPECTED[5] = {"a value of the list, or ')'", "a whole number, as the list began",
                                            "a day, as the list began", "true or false, as the list began",
                                            "a symbol in quotes, as the list began"};
    unsigned type = literal_type(p->token.kind);
    if (p->token.kind == TOKEN_NULL) {
        list->holds_null = 1;
    } else if (type == 0 || (list->type != 0 && type != list->type)) {
        refuse(p, p->token, EXPECTED[list->type]);
    } else {
        list->type = type;
        list->count++;
        screen_put_pool(&p->build->lent, token_value(p, p->token));
    }
    take(p);
}

static struct operand parse_list(struct parser *p)
{
    struct list list = {0, 0, (uint32_t)(p->build->lent.pool_len / SCREEN_VALUE_BYTES), 0};
    bool bracket = p->token.kind == TOKEN_OPEN_LIST;
    enum token_kind close = bracket ? TOKEN_CLOSE_LIST : TOKEN_CLOSE;
    expect(p, bracket ? TOKEN_OPEN_LIST : TOKEN_OPEN, "'(' and the values of a list");
    struct operand operand = {0, p->token};
    if (p->token.kind != close)
        parse_entry(p, &list);
    while (p->token.kind == TOKEN_COMMA) {
        take(p);
        parse_entry(p, &list);
    }
    expect(p, close, bracket ? "',' or ']'" : "',' or ')'");
    if (!faulty(p))
        operand.record = screen_put(&p->build->lent, SCREEN_KIND_LIST, list.holds_null, list.type, list.start,
                                    list.count, 0);
    return operand;
}

static uint32_t parse_in(struct parser *p, struct operand value)
{
    take(p);
    struct operand operands[2] = {value, parse_list(p)};
    bool nulls_equal = at_word(p, "nulls");
    if (nulls_equal) {
        take(p);
        expect_word(p, "equal", "'equal'");
    }
    fit(p, operands, 2);
    return faulty(p) ? 0 : screen_put_is_in(&p->build->lent, value.record, operands[1].record, nulls_equal);
}

static uint32_t parse_is(struct parser *p, struct operand value)
{
    take(p);
    bool negated = p->token.kind == TOKEN_NOT;
    if (negated)
        take(p);
    if (at_word(p, "distinct")) {
        take(p);
        expect_word(p, "from", "'from'");
        return compare(p, negated ? SCREEN_OP_EQ_VALIDITY : SCREEN_OP_NOT_EQ_VALIDITY, value);
    }
    expect(p, TOKEN_NULL, negated ? "'null' or 'distinct from'" : "'null', 'not null' or 'distinct from'");
    fit(p, &value, 1);
    if (faulty(p))
        return 0;
    return negated ? screen_put_is_not_null(&p->build->lent, value.record)
                   : screen_put_is_null(&p->build->lent, value.record);
}

static uint32_t add_not(struct parser *p, struct operand input)
{
    need_truth(p, input);
    return faulty(p) ? 0 : screen_put_not(&p->build->lent, input.record);
}

static struct operand parse_test(struct parser *p)
{
    struct operand value = parse_operand(p);
    struct token not = p->token;
    bool negated = not.kind == TOKEN_NOT;
    if (negated)
        take(p);
    struct token tail = p->token;
    if (tail.kind == TOKEN_BETWEEN)
        value.record = parse_between(p, value);
    else if (tail.kind == TOKEN_IN)
        value.record = parse_in(p, value);
    else if (negated)
        refuse(p, tail, "'between' or 'in'");
    else if (tail.kind == TOKEN_IS)
        value.record = parse_is(p, value);
    else if (tail.kind == TOKEN_COMPARISON) {
        take(p);
        value.record = compare(p, tail.code, value);
    }
    if (negated && !faulty(p))
        value.record = add_not(p, value);
    return value;
}

static struct operand parse_not(struct parser *p)
{
    struct operand value = {0, p->token};
    if (++p->depth > MAX_DEPTH) {
        refuse(p, p->token, "at most 500 parentheses and nots inside each other");
    } else if (p->token.kind == TOKEN_NOT) {
        take(p);
        struct operand input = parse_not(p);
        if (!faulty(p))
            value.record = add_not(p, input);
    } else {
        value = parse_test(p);
    }
    p->depth--;
    return value;
}

static struct operand parse_logic(struct parser *p)
{
    struct operand left = parse_not(p);
    unsigned code = p->token.code;
    while (p->token.kind == TOKEN_LOGIC && p->token.code == code) {
        take(p);
        struct operand right = parse_not(p);
        need_truth(p, left);
        need_truth(p, right);
        if (faulty(p))
            return left;
        left.record = screen_put_binary(&p->build->lent, code, left.record, right.record);
    }
    if (p->token.kind == TOKEN_LOGIC)
        refuse(p, p->token, "parentheses around one of two different operators");
    return left;
}

static uint8_t parse_type(struct parser *p)
{
    static const char *const NAMES[5] = {"", "int", "day", "truth", "text"};
    for (uint8_t type = SCREEN_TYPE_INT; type <= SCREEN_TYPE_TEXT; type++)
        if (at_word(p, NAMES[type])) {
            take(p);
            return type;
        }
    refuse(p, p->token, "a type: Int, Day, Truth or Text");
    return 0;
}

static void parse_declaration(struct parser *p)
{
    take(p);
    struct token name = p->token;
    expect(p, TOKEN_NAME, "a column's name");
    if (name.text.len > NAME_MAX_LENGTH)
        refuse(p, name, "a name of at most 40 letters");
    if (!faulty(p) && find_column(p->build, name.text) != p->build->lent.table_len)
        refuse(p, name, "a name that no line above has");
    uint8_t type = parse_type(p);
    if (!faulty(p) && p->token.kind != TOKEN_END)
        refuse(p, p->token, "the end of the line");
    if (p->token.kind == TOKEN_END)
        add_column(p->build, name.text, type, p->lexer.number);
}

static void parse_line(struct parser *p)
{
    struct operand root = parse_logic(p);
    if (!faulty(p) && p->token.kind != TOKEN_END)
        refuse(p, p->token, "an operator or the end of the line");
    need_truth(p, root);
    if (!faulty(p))
        add_line(p->build, p->lexer.number, without_comment(p->lexer.line), root.record);
}

bool parse_screen(struct slice text, struct build *build, struct faults *faults)
{
    struct slice line;
    size_t number = 0;
    while (next_line(&text, &line)) {
        struct parser p = {{line, ++number, 0, faults}, {TOKEN_END, {NULL, 0}, 0, 0, 0, {0}}, build, faults, 0};
        faults->text = line;
        build_room(build, line.len);
        take(&p);
        if (p.token.kind == TOKEN_COLUMN)
            parse_declaration(&p);
        else if (p.token.kind != TOKEN_END && p.token.kind != TOKEN_FAULT)
            parse_line(&p);
    }
    if (build->line_count == 0 && faults->count == 0)
        fault_add(faults, number, 0, "expected a line of the screen, found the end of the file");
    return faults->count == 0;
}
