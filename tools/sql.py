"""A screen as an SQL expression, for the engines that the row test is compared with; screens and rows to ask them of.

How a record is written. A truth may stand wherever a value may, and false is below true: 0 and 1 in SQLite, FALSE and
TRUE in PostgreSQL. A symbol is a BLOB in SQLite and a bytea in PostgreSQL: both are ordered byte by byte, a prefix below what
extends it.
  comparisons     = <> < <= > >=
  EqValidity      IS NOT DISTINCT FROM, which takes null as a value (SQLite: IS); NotEqValidity: IS DISTINCT FROM
  And, Or, Not    AND, OR, NOT; LogicalAnd and LogicalOr likewise
  Xor             <> between two truths: the standard has no exclusive or, and a comparison is unknown if either side is
  null tests      IS NULL, IS NOT NULL
  is_between      BETWEEN where both ends belong to the range, else the AND of its two comparisons
  is_in           IN (1, 2, NULL), the list's own null as NULL. The standard has no empty list: SQLite writes it IN (),
                  PostgreSQL = ANY of an empty array
  FloorDivide     the standard leaves a quotient's rounding to the engine, and both engines truncate: x / y, less one
                  where a remainder is left and the signs differ. NULLIF makes a zero divisor null, since PostgreSQL has
                  an error for it, and CASE the one quotient beyond 64 bits. So what is compared is the truncated
                  quotient with a floor expression around it, not a floor division of the engine's own: neither has one
  Modulus         x % y, whose sign is the dividend's, plus the divisor in the same case
  nulls_equal     the standard has no such IN: x IS NULL OR x IN .. if the list holds a null, else x IS NOT NULL AND
                  x IN .., over the list's values without its null
"""

import collections
import random

import generate as g
import model as m

Dialect = collections.namedtuple("Dialect", "same different literal null no_value")
SQLITE = Dialect("IS", "IS NOT", lambda type_, v: f"x'{v.hex()}'" if type_ == m.TEXT else f"({v})", lambda type_: "NULL", lambda x, type_: f"({x} IN ())")
NAMES = {m.INT: "bigint", m.DAY: "bigint", m.TRUTH: "boolean", m.TEXT: "bytea"}
POSTGRES = Dialect("IS NOT DISTINCT FROM", "IS DISTINCT FROM",
                   lambda type_, v: ("FALSE", "TRUE")[v] if type_ == m.TRUTH else
                   f"'\\x{v.hex()}'::bytea" if type_ == m.TEXT else f"({v})::bigint",
                   lambda type_: f"NULL::{NAMES[type_]}", lambda x, type_: f"({x} = ANY('{{}}'::{NAMES[type_]}[]))")
WORDS = {m.EQ: "=", m.NOT_EQ: "<>", m.LT: "<", m.LT_EQ: "<=", m.GT: ">", m.GT_EQ: ">=", m.AND: "AND",
         m.LOGICAL_AND: "AND", m.OR: "OR", m.LOGICAL_OR: "OR", m.XOR: "<>"}


def member(dialect, x, s, list_, nulls_equal):
    cells = [s.cell(list_.type, v) for v in m.pool_of(s)[list_.a:list_.a + list_.b]]
    values = [dialect.literal(list_.type, v) for v in cells]
    if list_.code == 1 and not nulls_equal:
        values.append(dialect.null(list_.type))
    found = f"({x} IN ({', '.join(values)}))" if values else dialect.no_value(x, list_.type)
    if not nulls_equal:
        return found
    return f"({x} IS NULL OR {found})" if list_.code == 1 else f"({x} IS NOT NULL AND {found})"


def division(dialect, code, x, y):
    """Each side stands once in the text, so that nested divisions do not double it."""
    lowest, minus_one = dialect.literal(m.INT, -2**63), dialect.literal(m.INT, -1)
    truncated, corrected = ("x / y", "x / y - 1") if code == m.FLOOR_DIVIDE else ("x % y", "x % y + y")
    return (f"(SELECT CASE WHEN x = {lowest} AND y = {minus_one} THEN {dialect.null(m.INT)} "
            f"WHEN x % y <> 0 AND (x < 0) <> (y < 0) THEN {corrected} ELSE {truncated} END "
            f"FROM (SELECT {x} AS x, NULLIF({y}, 0) AS y) AS sides)")


def expression(s, dialect):
    """The root as an SQL expression over columns c0, c1, .."""
    records, texts = m.records_of(s), []
    words = {**WORDS, m.EQ_VALIDITY: dialect.same, m.NOT_EQ_VALIDITY: dialect.different}
    for r in records:
        got = [texts[i] for i in r.inputs()]
        if r.kind == m.COLUMN:
            text = f"c{r.a}"
        elif r.kind == m.LITERAL:
            text = dialect.literal(r.type, s.cell(r.type, r.value))
        elif r.kind == m.NULL:
            text = dialect.null(r.type)
        elif m.divides(r):
            text = division(dialect, r.code, *got)
        elif r.kind == m.BINARY:
            text = f"({got[0]} {words[r.code]} {got[1]})"
        elif r.kind == m.NOT:
            text = f"(NOT {got[0]})"
        elif r.kind == m.IS_NULL:
            text = f"({got[0]} IS NULL)"
        elif r.kind == m.IS_NOT_NULL:
            text = f"({got[0]} IS NOT NULL)"
        elif r.kind == m.IS_BETWEEN and r.code == m.BOTH:
            text = f"({got[0]} BETWEEN {got[1]} AND {got[2]})"
        elif r.kind == m.IS_BETWEEN:
            low = ">=" if r.code == m.LEFT else ">"
            high = "<=" if r.code == m.RIGHT else "<"
            text = f"(({got[0]} {low} {got[1]}) AND ({got[0]} {high} {got[2]}))"
        elif r.kind == m.LIST:
            text = ""
        else:
            text = member(dialect, got[0], s, records[r.b], r.code == 1)
        texts.append(text)
    return texts[s.root]


def without_nulls(s):
    """The same screen, no list of it marked for a null."""
    records = bytearray(s.records)
    for n in range(s.used):
        if records[16 * n] == m.LIST:
            records[16 * n + 1] = 0
    return s.but(records=bytes(records))


def decides(s, row):
    """Whether a null in a list decides this row: without it the screen would say something else of it."""
    return m.evaluate(s, row) != m.evaluate(without_nulls(s), row)


def truncated(a, b):
    """The division that rounds toward zero, as C has it."""
    quotient, _ = m.divided(a, b)
    if quotient is None:
        return None, None
    quotient = abs(a) // abs(b) * (1 if (a < 0) == (b < 0) else -1)
    return quotient, a - quotient * b


def rounds(s, row):
    """Whether rounding down decides this row: truncated, the screen would say something else of it."""
    return m.evaluate(s, row) != m.evaluate(s, row, divide=truncated)


def deep(rng):
    """Nested logic without any line that is read by itself."""
    b = g.Builder(rng, g.table_of(rng), 4, 0.3)
    return b.screen(b.truth(7))


def nulled(rng):
    """Short lists, most of them holding a null, under And, Or, Not and Xor."""
    b = g.Builder(rng, [m.INT, m.DAY, m.INT], 4, 0.3)

    def line(depth):
        if depth > 0 and rng.random() < 0.8:
            return b.put(m.BINARY, rng.choice(g.LOGIC), 0, line(depth - 1), line(depth - 1))
        number = rng.randrange(3)
        list_ = b.list(b.table[number], rng.randrange(4), int(rng.random() < 0.8))
        in_ = b.put(m.IS_IN, int(rng.random() < 0.2), 0, b.column(number), list_)
        return in_ if rng.random() < 0.5 else b.put(m.NOT, a=in_)

    return b.screen(line(rng.randrange(3)))


def lots(rng):
    """Small divisions of either sign, compared with small numbers, so that rounding decides."""
    b = g.Builder(rng, [m.INT, m.INT], 5, 0.3)

    def line():
        sides = b.column(0), rng.choice((b.column(1), b.literal(m.INT, rng.choice((-7, -3, -2, 2, 3, 7)))))
        x = b.put(m.BINARY, rng.choice(m.DIVISIONS), 0, *sides)
        return b.put(m.BINARY, rng.choice(g.COMPARISONS), 0, x, b.literal(m.INT, rng.randrange(-4, 5)))

    return b.screen(b.put(m.BINARY, rng.choice((m.AND, m.OR)), 0, line(), line()))


def small_cells(rng, s):
    return [None if rng.random() < 0.05 else rng.randrange(-9, 10) for _ in s.table]


def draw(rng):
    """A screen, and rows to ask it of."""
    while True:
        kind = rng.choice((g.plain, g.mixed, deep, nulled, g.divided, lots, g.symbols, g.merging_symbols))
        s = kind(rng)
        if m.check(s) == m.ACCEPTED and m.tree_count(s) <= 250:  # an engine's parser has limits of its own
            cells = small_cells if kind is lots else g.cells
            return s, [cells(rng, s) for _ in range(16 if kind in (nulled, lots) else 4)]


class Tally:
    """Answers of an engine beside those of the model and, where there is an archive, of the library."""

    def __init__(self, engine, lib):
        self.engine, self.lib, self.passed, self.failed, self.seen = engine, lib, 0, 0, collections.Counter()
        self.rng = random.Random(1)  # which of several places a symbol of a row has

    def compare(self, s, rows, truths, text):
        for row, truth in zip(rows, truths, strict=True):
            data = b"".join(g.packed(self.rng, s, v) for v in row)
            nulls = sum(1 << i for i, v in enumerate(row) if v is None)
            got = [m.test_row(s, data, nulls)] + ([self.lib.test_row(s, data, nulls)] if self.lib else [])
            self.seen[truth] += 1
            self.seen["decided"] += decides(s, row)
            self.seen["rounded"] += rounds(s, row)
            if got == [truth] * len(got):
                self.passed += 1
                continue
            self.failed += 1
            if self.failed <= 5:
                print(f"DIFFERENCE: {self.engine} {truth}, model and library {got}, row {row}\n  {text}")
        records = m.records_of(s)
        for n in m.reached(s):
            self.seen["record", records[n].kind, records[n].code] += 1

    def close(self):
        print("answers:", {truth: self.seen[truth] for truth in (m.FALSE, m.UNKNOWN, m.TRUE)})
        records = sorted((key[1:], n) for key, n in self.seen.items() if isinstance(key, tuple))
        print("records by kind and code:", dict(records))
        print("rows that a null in a list decides:", self.seen["decided"])
        print("rows that rounding down decides:", self.seen["rounded"])
        print(self.engine)
        print(f"{self.passed} passed, {self.failed} failed")
        return self.failed != 0
