/* The words of one line of a screen. */
#ifndef LEX_H
#define LEX_H

#include "fault.h"
#include "text.h"

#include <stdint.h>

enum token_kind {
    TOKEN_END,
    TOKEN_NAME,
    TOKEN_INT,
    TOKEN_DAY,
    TOKEN_TRUTH,
    TOKEN_SYMBOL, /* in quotes */
    TOKEN_NULL,
    TOKEN_COMPARISON,
    TOKEN_DIVISION,
    TOKEN_LOGIC,
    TOKEN_NOT,
    TOKEN_BETWEEN,
    TOKEN_IN,
    TOKEN_IS,
    TOKEN_COLUMN,
    TOKEN_OPEN,
    TOKEN_CLOSE,
    TOKEN_OPEN_LIST, /* [ */
    TOKEN_CLOSE_LIST,
    TOKEN_COMMA,
    TOKEN_FAULT /* fits nowhere, so a parser that meets it finds its way out */
};

struct token {
    enum token_kind kind;
    struct slice text;
    size_t place;
    unsigned code; /* SCREEN_OP_.. of a comparison, a division or of logic */
    int64_t value; /* of a number, a day or a truth; of a symbol how many bytes it has */
    char symbol[16]; /* its bytes */
};

struct lexer {
    struct slice line;
    size_t number; /* of the line, from 1 */
    size_t at;
    struct faults *faults;
};

/* A comment, from # to the end of the line, is no token. A character that begins none is a fault. */
struct token lex_next(struct lexer *lexer);

/* The line without its comment. */
struct slice without_comment(struct slice line);

#endif
