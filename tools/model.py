"""A model of the calls, written from the paper alone: checking, tree count, columns read, the row test, plain screens.

It shares no code and no shape with the library: a record's value is one cell (a number, the bytes of a symbol, or None
for null and for unknown), all cells are filled from record 0 up, and nothing is fast. The recorded answers and the comparisons use it.
"""

from dataclasses import dataclass, replace
from functools import lru_cache
from typing import NamedTuple

INT, DAY, TRUTH, TEXT = 1, 2, 3, 4
COLUMN, LITERAL, NULL, BINARY, NOT, IS_NULL, IS_NOT_NULL, IS_BETWEEN, LIST, IS_IN = range(1, 11)
(EQ, EQ_VALIDITY, NOT_EQ, NOT_EQ_VALIDITY, LT, LT_EQ, GT, GT_EQ, PLUS, MINUS, MULTIPLY, RUST_DIVIDE, TRUE_DIVIDE,
 FLOOR_DIVIDE, MODULUS, AND, OR, XOR, LOGICAL_AND, LOGICAL_OR) = range(20)
BOTH, LEFT, RIGHT, NONE = range(4)
PLAIN = (EQ, NOT_EQ, LT, LT_EQ, GT, GT_EQ)
DIVISIONS = (FLOOR_DIVIDE, MODULUS)

MAX_COLUMNS, MAX_RECORDS, MAX_POOL, MAX_TREE, MAX_CONJUNCTS = 64, 4096, 8192, 4096, 128
MAX_TEXT, MAX_SYMBOL = 8192, 16

ACCEPTED = 256
FALSE, UNKNOWN, TRUE = 256, 257, 258

# Largest code of the kinds that have one, inputs by kind, kinds that have a type.
MAX_CODE = {BINARY: LOGICAL_OR, IS_BETWEEN: NONE, LIST: 1, IS_IN: 1}
INPUTS = {BINARY: 2, NOT: 1, IS_NULL: 1, IS_NOT_NULL: 1, IS_BETWEEN: 3, IS_IN: 2}
TYPED = (LITERAL, NULL, LIST)
# Fields A, B, C that a kind uses, inputs or not. A literal's B and C are its value.
USES = {COLUMN: "A", LITERAL: "BC", NULL: "", BINARY: "AB", NOT: "A", IS_NULL: "A", IS_NOT_NULL: "A",
        IS_BETWEEN: "ABC", LIST: "AB", IS_IN: "AB"}


@dataclass(frozen=True)
class Screen:
    """A screen as it is lent."""

    table: bytes
    records: bytes
    pool: bytes
    used: int
    root: int
    text: bytes | None = b""  # None as before request 2.10, when none was lent and there was no type 4

    def but(self, **fields):
        return replace(self, **fields)

    def symbol(self, v):
        """The bytes that 64 bits name in the text pool: the start in the low half, the length in the high half."""
        bits = v & (2**64 - 1)
        start, length = bits & (2**32 - 1), bits >> 32
        return self.text[start:start + length]

    def cell(self, type_, v):
        """64 bits of a type as what is compared."""
        return self.symbol(v) if type_ == TEXT else v

    def types(self):
        return (INT, DAY, TRUTH) if self.text is None else (INT, DAY, TRUTH, TEXT)


class Record(NamedTuple):
    kind: int
    code: int
    type: int
    zero: int
    a: int
    b: int
    c: int
    value: int  # bytes 8-15, for a literal

    def inputs(self):
        return (self.a, self.b, self.c)[:INPUTS.get(self.kind, 0)]


def number(data, signed=False):
    return int.from_bytes(data, "little", signed=signed)


def record_at(records, n):
    r = records[16 * n:16 * n + 16]
    return Record(r[0], r[1], r[2], r[3], number(r[4:8]), number(r[8:12]), number(r[12:16]), number(r[8:16], True))


@lru_cache(8)  # several calls in a row ask for the same screen
def records_of(s):
    return tuple(record_at(s.records, n) for n in range(s.used))


@lru_cache(8)
def pool_of(s):
    return tuple(number(s.pool[i:i + 8], True) for i in range(0, len(s.pool), 8))


def in_type(type_, v, text=b""):
    """A symbol's start and length are within the text pool, and it has at most 16 bytes."""
    if type_ == INT:
        return -2**63 <= v < 2**63
    if type_ == DAY:
        return -2**31 <= v < 2**31
    if type_ == TEXT:
        bits = v & (2**64 - 1)
        return bits >> 32 <= MAX_SYMBOL and (bits & (2**32 - 1)) + (bits >> 32) <= len(text)
    return v in (0, 1)


# Checking


def fault_4(s, r):
    """Unknown kind, code or type, a nonzero unused field, a literal outside its type."""
    if r.kind not in USES or r.zero != 0:
        return True
    if r.code > MAX_CODE.get(r.kind, 0):
        return True
    if r.type not in (s.types() if r.kind in TYPED else (0,)):
        return True
    if any(field != 0 and name not in USES[r.kind] for name, field in zip("ABC", (r.a, r.b, r.c))):
        return True
    return r.kind == LITERAL and not in_type(r.type, r.value, s.text)


def fault_5(s, pool, n, r):
    """An input not below its record, a column not in the table, a list past the pool or with an odd value."""
    if any(i >= n for i in r.inputs()):
        return True
    if r.kind == COLUMN:
        return r.a >= len(s.table)
    if r.kind == LIST:
        return r.a + r.b > len(pool) or not all(in_type(r.type, v, s.text) for v in pool[r.a:r.a + r.b])
    return False


def fault_6(r):
    """A left-out operator."""
    return r.kind == BINARY and PLUS <= r.code <= TRUE_DIVIDE


def divides(r):
    return r.kind == BINARY and r.code in DIVISIONS


def type_of(s, r):
    """The type of a record as a value; a list's is its own, so that it equals no value's."""
    if r.kind == COLUMN:
        return s.table[r.a]
    if r.kind in (LITERAL, NULL):
        return r.type
    if divides(r):
        return INT
    return ("list", r.type) if r.kind == LIST else TRUTH


def fault_7(types, r):
    """Types that do not fit."""
    got = [types[i] for i in r.inputs()]
    if r.kind == IS_IN:
        return isinstance(got[0], tuple) or got[1] != ("list", got[0])
    if any(isinstance(t, tuple) for t in got):
        return True
    if r.kind in (BINARY, IS_BETWEEN) and len(set(got)) > 1:
        return True
    if divides(r):
        return got[0] != INT
    logic = r.kind == NOT or r.kind == BINARY and r.code >= AND
    return logic and got[0] != TRUTH


@lru_cache(8)
def check(s):
    if len(s.table) > MAX_COLUMNS or any(t not in s.types() for t in s.table):
        return 1
    if s.used > MAX_RECORDS or s.used > len(s.records) // 16:
        return 2
    if len(s.pool) % 8 != 0 or len(s.pool) // 8 > MAX_POOL or len(s.text or b"") > MAX_TEXT:
        return 2
    if s.root >= s.used:
        return 3
    records, pool, types = records_of(s), pool_of(s), []
    for n, r in enumerate(records):
        if fault_4(s, r):
            return 4
        if fault_5(s, pool, n, r):
            return 5
        if fault_6(r):
            return 6
        if fault_7(types, r):
            return 7
        types.append(type_of(s, r))
    return ACCEPTED if types[s.root] == TRUTH else 7


# Of screens that checking accepts


def tree_count(s, root=None):
    """Records of the root's tree, a shared one counted each time it is reached."""
    counts = []
    for r in records_of(s):
        counts.append(1 + sum(counts[i] for i in r.inputs()))
    return counts[s.root if root is None else root]


def reached(s):
    records, seen, todo = records_of(s), set(), [s.root]
    while todo:
        n = todo.pop()
        if n not in seen:
            seen.add(n)
            todo.extend(records[n].inputs())
    return seen


def reaches_division(s):
    """Whether demand 3 speaks of rows with values of the column types only."""
    return any(divides(records_of(s)[n]) for n in reached(s))


def columns_read(s):
    """The answer, and the two words or None."""
    answer = check(s)
    if answer != ACCEPTED:
        return answer, None, None
    records = records_of(s)
    columns = {records[n].a for n in reached(s) if records[n].kind == COLUMN}
    return ACCEPTED, sum(1 << c for c in columns), len(columns)


def conjuncts(s):
    """The lines, left to right through And and LogicalAnd; a shared one each time."""
    records, lines, todo = records_of(s), [], [s.root]
    while todo:
        n = todo.pop()
        r = records[n]
        if r.kind == BINARY and r.code in (AND, LOGICAL_AND):
            todo += [r.b, r.a]
        else:
            lines.append(n)
    return lines


def has_equality(s):
    """Whether a line is an equality of two columns: by Eq, or Not of NotEq."""
    records = records_of(s)

    def equality(r, code):
        return r.kind == BINARY and r.code == code and records[r.a].kind == records[r.b].kind == COLUMN

    lines = [records[n] for n in conjuncts(s)]
    return any(equality(r, EQ) or r.kind == NOT and equality(records[r.a], NOT_EQ) for r in lines)


def is_plain(s):
    """A plain screen, of one that checking accepts."""
    records = records_of(s)

    def kind(n):
        return records[n].kind

    def reads(n):
        return kind(n) == COLUMN and s.table[records[n].a] in (INT, DAY)

    def short_list(r):
        return r.code == 0 and r.b <= 100

    def with_literal(r):
        return {kind(r.a), kind(r.b)} == {COLUMN, LITERAL} and r.code in PLAIN and (reads(r.a) or reads(r.b))

    def line(r):
        if r.kind == BINARY:
            return with_literal(r) or kind(r.a) == kind(r.b) == COLUMN and r.code == EQ and reads(r.a)
        if r.kind == IS_BETWEEN:
            return reads(r.a) and kind(r.b) == kind(r.c) == LITERAL
        if r.kind == NOT:
            r = records[r.a]
        if r.kind == BINARY:
            return with_literal(r)
        if r.kind == IS_IN:
            return reads(r.a) and short_list(records[r.b])
        return r.kind in (IS_NULL, IS_NOT_NULL) and reads(r.a)

    return all(line(records[n]) for n in conjuncts(s))


PASSES, LINE, NO_LINE = 256, 257, 258


def plain_refusal(s):
    """The refusals of the calls on plain screens, in their order; None if there is none."""
    answer = check(s)
    if answer != ACCEPTED:
        return answer
    if tree_count(s) > MAX_TREE:
        return 8
    if len(conjuncts(s)) > MAX_CONJUNCTS:
        return 9
    return None if is_plain(s) else 17


def line_in_the_way(s, passes):
    """The answer of a plain screen, and the line or None; `passes` says whether some row makes all nodes of a list true."""
    lines = conjuncts(s)
    if passes(lines):
        return PASSES, None
    for i in range(len(lines)):
        if passes(lines[:i] + lines[i + 1:]):
            return LINE, i
    return NO_LINE, None


# The row test. A cell is a number, bytes of a symbol, or None for null; of a truth 0 false, 1 true, None unknown. Python
# orders bytes as the paper does symbols: byte by byte, 0 to 255, a prefix below what extends it.


def divided(a, b):
    """Quotient and remainder of one division, or None for both. The quotient is the largest whole number whose product
    with the divisor is not past the dividend, so that the remainder has the divisor's sign or is zero."""
    if a is None or b is None or b == 0:
        return None, None
    quotient = abs(a) // abs(b)
    if (a < 0) != (b < 0):
        quotient = -quotient if quotient * abs(b) == abs(a) else -quotient - 1
    if not in_type(INT, quotient):
        return None, None
    return quotient, a - quotient * b


def and3(a, b):
    if a == 0 or b == 0:
        return 0
    return None if a is None or b is None else 1


def not3(a):
    return None if a is None else 1 - a


def or3(a, b):
    return not3(and3(not3(a), not3(b)))


def xor3(a, b):
    return None if a is None or b is None else int(a != b)


def compare(code, a, b):
    if code == EQ_VALIDITY:
        return int(a == b)
    if code == NOT_EQ_VALIDITY:
        return int(a != b)
    if a is None or b is None:
        return None
    return int({EQ: a == b, NOT_EQ: a != b, LT: a < b, LT_EQ: a <= b, GT: a > b, GT_EQ: a >= b}[code])


def binary(code, a, b, divide=divided):
    if code in (AND, LOGICAL_AND):
        return and3(a, b)
    if code in (OR, LOGICAL_OR):
        return or3(a, b)
    if code in DIVISIONS:
        return divide(a, b)[DIVISIONS.index(code)]
    return xor3(a, b) if code == XOR else compare(code, a, b)


def between(code, x, low, high):
    above = compare(GT_EQ if code in (BOTH, LEFT) else GT, x, low)
    below = compare(LT_EQ if code in (BOTH, RIGHT) else LT, x, high)
    return and3(above, below)


def member(x, values, holds_null, nulls_equal):
    """With nulls_equal null is a value like another; else x = a Or x = b Or .., over all entries, a null among them."""
    entries = [*values, None] if holds_null else values
    if nulls_equal:
        return int(x in entries)
    found = 0
    for entry in entries:
        found = or3(found, compare(EQ, x, entry))
    return found


def evaluate(s, row, root=None, divide=divided):
    """The root's cell on a row, a cell for each column; its numbers may be any, halves too, and its symbols any bytes."""
    pool, cells = pool_of(s), []
    for r in records_of(s):
        got = [cells[i] for i in r.inputs()]
        if r.kind == COLUMN:
            cell = row[r.a]
        elif r.kind == LITERAL:
            cell = s.cell(r.type, r.value)
        elif r.kind == NULL:
            cell = None
        elif r.kind == BINARY:
            cell = binary(r.code, *got, divide)
        elif r.kind == NOT:
            cell = not3(got[0])
        elif r.kind == IS_NULL:
            cell = int(got[0] is None)
        elif r.kind == IS_NOT_NULL:
            cell = int(got[0] is not None)
        elif r.kind == IS_BETWEEN:
            cell = between(r.code, *got)
        elif r.kind == LIST:
            cell = ([s.cell(r.type, v) for v in pool[r.a:r.a + r.b]], r.code == 1)
        else:
            cell = member(got[0], got[1][0], got[1][1], r.code == 1)
        cells.append(cell)
    return cells[s.root if root is None else root]


def test_row(s, row, nulls):
    """The answer for a row as it is lent: its bytes and its word of null marks."""
    answer = check(s)
    if answer != ACCEPTED:
        return answer
    if tree_count(s) > MAX_TREE:
        return 8
    if len(row) != 8 * len(s.table):
        return 12
    if nulls >> len(s.table) != 0:
        return 13
    cells = []
    for i, type_ in enumerate(s.table):
        v = number(row[8 * i:8 * i + 8], True)
        null = nulls >> i & 1
        if (v != 0) if null else not in_type(type_, v, s.text):
            return 13
        cells.append(None if null else s.cell(type_, v))
    return {0: FALSE, None: UNKNOWN, 1: TRUE}[evaluate(s, cells)]
