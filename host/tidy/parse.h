/*
 * The text of a screen:
 *
 *     column NAME TYPE                            a column of the chain; TYPE is Int, Day or Truth
 *     LINE                                        a conjunct: a row passes if every line is true of it
 *
 *     LINE    = NOT, or several joined by the same one of and, or, xor, &&, ||
 *     NOT     = TEST, or not NOT
 *     TEST    = OPERAND
 *             | OPERAND COMPARISON OPERAND        == = != <> < <= > >=
 *             | OPERAND is [not] null
 *             | OPERAND is [not] distinct from OPERAND
 *             | OPERAND [not] between OPERAND and OPERAND [closed both | left | right | none]
 *             | OPERAND [not] in ( VALUES ) [nulls equal]         or [ VALUES ]
 *     OPERAND = VALUE | VALUE // VALUE | VALUE % VALUE
 *     VALUE   = a column, a whole number, a day (YYYY-MM-DD), true, false, null, or ( LINE )
 *
 * Different logic on one level needs parentheses, and so does a second division: no trader should have to know which of
 * and, or binds closer, or from which end divisions are read.
 *
 * What the library would refuse with 6 or 7 is told here, in the desk's words and with its place. Each line is read,
 * so that all that is wrong is told in one run.
 */
#ifndef PARSE_H
#define PARSE_H

#include "build.h"
#include "fault.h"

bool parse_screen(struct slice text, struct build *build, struct faults *faults);

#endif
