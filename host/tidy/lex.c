#include "lex.h"

#include "day.h"
#include "screen.h"

#include <string.h>

static const struct keyword {
    const char *word;
    enum token_kind kind;
    unsigned code;
    int64_t value;
} KEYWORDS[] = {
    {"and", TOKEN_LOGIC, SCREEN_OP_AND, 0},
    {"or", TOKEN_LOGIC, SCREEN_OP_OR, 0},
    {"xor", TOKEN_LOGIC, SCREEN_OP_XOR, 0},
    {"not", TOKEN_NOT, 0, 0},
    {"between", TOKEN_BETWEEN, 0, 0},
    {"in", TOKEN_IN, 0, 0},
    {"is", TOKEN_IS, 0, 0},
    {"null", TOKEN_NULL, 0, 0},
    {"true", TOKEN_TRUTH, 0, 1},
    {"false", TOKEN_TRUTH, 0, 0},
    {"column", TOKEN_COLUMN, 0, 0},
};

/* Longer signs first, so that <= is not read as < and a stray sign. */
static const struct sign {
    const char *sign;
    enum token_kind kind;
    unsigned code;
} SIGNS[] = {
    {"==", TOKEN_COMPARISON, SCREEN_OP_EQ},
    {"!=", TOKEN_COMPARISON, SCREEN_OP_NOT_EQ},
    {"<>", TOKEN_COMPARISON, SCREEN_OP_NOT_EQ},
    {"<=", TOKEN_COMPARISON, SCREEN_OP_LT_EQ},
    {">=", TOKEN_COMPARISON, SCREEN_OP_GT_EQ},
    {"&&", TOKEN_LOGIC, SCREEN_OP_LOGICAL_AND},
    {"||", TOKEN_LOGIC, SCREEN_OP_LOGICAL_OR},
    {"//", TOKEN_DIVISION, SCREEN_OP_FLOOR_DIVIDE},
    {"%", TOKEN_DIVISION, SCREEN_OP_MODULUS},
    {"=", TOKEN_COMPARISON, SCREEN_OP_EQ},
    {"<", TOKEN_COMPARISON, SCREEN_OP_LT},
    {">", TOKEN_COMPARISON, SCREEN_OP_GT},
    {"(", TOKEN_OPEN, 0},
    {")", TOKEN_CLOSE, 0},
    {"[", TOKEN_OPEN_LIST, 0},
    {"]", TOKEN_CLOSE_LIST, 0},
    {",", TOKEN_COMMA, 0},
};

static bool is_digit(char c)
{
    return c >= '0' && c <= '9';
}

static bool is_letter(char c)
{
    return (c >= 'a' && c <= 'z') || (c >= 'A' && c <= 'Z') || c == '_';
}

/* How long a symbol in quotes is, with them; to the end of the line if none closes it. A backslash hides a quote. */
static size_t quoted_length(struct slice rest)
{
    size_t at = 1;
    while (at < rest.len && rest.at[at] != rest.at[0])
        at += rest.at[at] == '\\' && at + 1 < rest.len ? 2 : 1;
    return at < rest.len ? at + 1 : rest.len;
}

static bool is_quote(char c)
{
    return c == '\'' || c == '"';
}

struct slice without_comment(struct slice line)
{
    size_t at = 0;
    while (at < line.len && line.at[at] != '#') {
        struct slice rest = {line.at + at, line.len - at};
        at += is_quote(line.at[at]) ? quoted_length(rest) : 1;
    }
    line.len = at;
    return trimmed(line);
}

static size_t run_length(struct slice rest, bool in_number)
{
    size_t len = 1;
    while (len < rest.len && (is_letter(rest.at[len]) || is_digit(rest.at[len]) ||
                              (in_number && (rest.at[len] == '-' || rest.at[len] == '.'))))
        len++;
    return len;
}

static void read_word(struct token *token)
{
    token->kind = TOKEN_NAME;
    for (size_t i = 0; i < sizeof KEYWORDS / sizeof *KEYWORDS; i++)
        if (is_word(token->text, KEYWORDS[i].word)) {
            token->kind = KEYWORDS[i].kind;
            token->code = KEYWORDS[i].code;
            token->value = KEYWORDS[i].value;
        }
}

/* Points and letters are taken in, so that 95.5 is reported as it was typed. */
static void read_number(struct lexer *lexer, struct token *token)
{
    const char *expected = "a whole number or a day (YYYY-MM-DD)";
    long long value = 0;
    if (looks_like_day(token->text)) {
        token->kind = TOKEN_DAY;
        if (day_read(token->text, &token->value))
            return;
        expected = "a day of the calendar";
    } else if (whole_number(token->text, &value)) {
        token->kind = TOKEN_INT;
        token->value = value;
        return;
    } else if (is_decimal(token->text)) {
        expected = "a whole number within 64 bits";
    }
    token->kind = TOKEN_FAULT;
    fault_add(lexer->faults, lexer->number, token->place, "expected %s, found '%.*s'", expected,
              token->text.len > 60 ? 60 : (int)token->text.len, token->text.at);
}

static int hex_digit(char c)
{
    if (is_digit(c))
        return c - '0';
    if (c >= 'a' && c <= 'f')
        return c - 'a' + 10;
    return c >= 'A' && c <= 'F' ? c - 'A' + 10 : -1;
}

/* The byte at *at of a symbol's text, and *at behind it: a letter, or behind a backslash a letter or x and two digits. */
static bool symbol_byte(struct slice text, size_t *at, char *byte)
{
    *byte = text.at[(*at)++];
    if (*byte != '\\')
        return true;
    if (*at >= text.len)
        return false;
    *byte = text.at[(*at)++];
    if (*byte != 'x')
        return *byte == '\\' || is_quote(*byte);
    if (*at + 2 > text.len || hex_digit(text.at[*at]) < 0 || hex_digit(text.at[*at + 1]) < 0)
        return false;
    *byte = (char)(16 * hex_digit(text.at[*at]) + hex_digit(text.at[*at + 1]));
    *at += 2;
    return true;
}

static void read_symbol(struct lexer *lexer, struct token *token)
{
    struct slice inside = {token->text.at + 1, token->text.len - 2};
    const char *wrong = NULL;
    size_t at = 0;
    token->kind = TOKEN_SYMBOL;
    if (token->text.len < 2 || token->text.at[token->text.len - 1] != token->text.at[0])
        wrong = "a closing quote before the end of the line";
    while (wrong == NULL && at < inside.len) {
        char byte;
        if (!symbol_byte(inside, &at, &byte))
            wrong = "\\\\, \\' or \\x and two hexadecimal digits behind a backslash";
        else if (token->value == (int64_t)sizeof token->symbol)
            wrong = "a symbol of at most 16 bytes";
        else
            token->symbol[token->value++] = byte;
    }
    if (wrong == NULL)
        return;
    token->kind = TOKEN_FAULT;
    fault_add(lexer->faults, lexer->number, token->place, "expected %s, found %.*s", wrong,
              token->text.len > 60 ? 60 : (int)token->text.len, token->text.at);
}

static void read_sign(struct lexer *lexer, struct slice rest, struct token *token)
{
    for (size_t i = 0; i < sizeof SIGNS / sizeof *SIGNS; i++) {
        size_t len = strlen(SIGNS[i].sign);
        if (len <= rest.len && memcmp(rest.at, SIGNS[i].sign, len) == 0) {
            token->kind = SIGNS[i].kind;
            token->code = SIGNS[i].code;
            token->text.len = len;
            return;
        }
    }
    token->kind = TOKEN_FAULT;
    token->text.len = 1;
    unsigned char c = (unsigned char)rest.at[0];
    const char *expected = c == '/' ? "//, which divides whole numbers" : "a name, a number, a day, a symbol in quotes or a sign";
    if (c > ' ' && c < 127)
        fault_add(lexer->faults, lexer->number, token->place, "expected %s, found '%c'", expected, c);
    else
        fault_add(lexer->faults, lexer->number, token->place, "expected %s, found the byte %u", expected, (unsigned)c);
}

struct token lex_next(struct lexer *lexer)
{
    struct slice line = lexer->line;
    while (lexer->at < line.len && is_blank(line.at[lexer->at]))
        lexer->at++;
    struct token token = {TOKEN_END, {line.at + lexer->at, 0}, lexer->at + 1, 0, 0, {0}};
    struct slice rest = {line.at + lexer->at, line.len - lexer->at};
    if (rest.len == 0 || rest.at[0] == '#')
        return token;
    bool negative = rest.at[0] == '-' && rest.len > 1 && is_digit(rest.at[1]);
    if (is_letter(rest.at[0])) {
        token.text.len = run_length(rest, false);
        read_word(&token);
    } else if (is_digit(rest.at[0]) || negative) {
        token.text.len = run_length(rest, true);
        read_number(lexer, &token);
    } else if (is_quote(rest.at[0])) {
        token.text.len = quoted_length(rest);
        read_symbol(lexer, &token);
    } else {
        read_sign(lexer, rest, &token);
    }
    lexer->at += token.text.len;
    return token;
}
