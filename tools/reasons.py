"""The reasons of a rewritten screen (02, 2.6), written from the paper alone: which line first gave each limit.

Limits alone are followed. Where the answer is rewritten no column ever became impossible, so that lists and null tests
moved none of them. Which comparisons are rebuilt, and in which order, is read off the records added; the model says which
line is behind each, and that they are the limits that it has, all of them.
"""

from typing import NamedTuple

import model as m

NAMES = {m.EQ: "Eq", m.NOT_EQ: "NotEq", m.LT: "Lt", m.LT_EQ: "LtEq", m.GT: "Gt", m.GT_EQ: "GtEq"}
MIRRORED = {m.EQ: m.EQ, m.NOT_EQ: m.NOT_EQ, m.LT: m.GT, m.LT_EQ: m.GT_EQ, m.GT: m.LT, m.GT_EQ: m.LT_EQ}
OPPOSITE = {m.EQ: m.NOT_EQ, m.NOT_EQ: m.EQ, m.LT: m.GT_EQ, m.LT_EQ: m.GT, m.GT: m.LT_EQ, m.GT_EQ: m.LT}
MAX_LINE = 47  # column 63, NotEq, 33 bytes of a symbol, line 127, three blanks and a byte 10
MAX_TEXT = 1024 * MAX_LINE


class Limit(NamedTuple):
    value: int | bytes
    closed: bool
    line: int


class Column:
    def __init__(self):
        self.low = self.high = None
        self.excluded = {}  # the line of each value, in the order of their coming
        self.null = None  # whether null is required, and by which line

    def tighten(self, side, new, tighter):
        """On an equal value the line held stays, whether the limit opens or not."""
        held = getattr(self, side)
        if held is not None and not tighter:
            if held.value != new.value or new.closed or not held.closed:
                return False
            new = held._replace(closed=False)
        setattr(self, side, new)
        return True

    def take_low(self, new):
        return self.tighten("low", new, self.low is None or new.value > self.low.value)

    def take_high(self, new):
        return self.tighten("high", new, self.high is None or new.value < self.high.value)

    def exclude(self, value, line):
        self.excluded.setdefault(value, line)

    def say(self, code, value, line):
        if code in (m.EQ, m.GT, m.GT_EQ):
            self.take_low(Limit(value, code != m.GT, line))
        if code in (m.EQ, m.LT, m.LT_EQ):
            self.take_high(Limit(value, code != m.LT, line))
        if code == m.NOT_EQ:
            self.exclude(value, line)

    def require(self, null, line):
        self.null = self.null or (null, line)

    def take(self, other):
        """What an equality passes on, each limit with its line."""
        before = self.low, self.high, len(self.excluded)
        if other.low:
            self.take_low(other.low)
        if other.high:
            self.take_high(other.high)
        for value, line in other.excluded.items():
            self.exclude(value, line)
        return before != (self.low, self.high, len(self.excluded))

    def resolve(self):
        """An excluded value at a closed limit opens it under the limit's line; one outside goes."""
        for value in list(self.excluded):
            for side in ("low", "high"):
                limit = getattr(self, side)
                if limit and limit.closed and limit.value == value:
                    setattr(self, side, limit._replace(closed=False))
        self.excluded = {value: line for value, line in self.excluded.items()
                         if (self.low is None or value > self.low.value)
                         and (self.high is None or value < self.high.value)}

    def comparisons(self):
        """Line by operator and value; an equality names the lower limit's."""
        low, high = self.low, self.high
        if low and high and low.value == high.value:
            return {(m.EQ, low.value): low.line}
        found = {(m.NOT_EQ, value): line for value, line in self.excluded.items()}
        if low:
            found[m.GT_EQ if low.closed else m.GT, low.value] = low.line
        if high:
            found[m.LT_EQ if high.closed else m.LT, high.value] = high.line
        return found


def said(s, records, r):
    """The limits of one line: column, comparison and value, of a symbol its bytes."""
    for column, code, literal in said_literals(records, r):
        yield column, code, s.cell(literal.type, literal.value)


def said_literals(records, r):
    turned = r.kind == m.NOT and records[r.a].kind == m.BINARY
    if turned:
        r = records[r.a]
    inputs = [records[i] for i in r.inputs()]
    kinds = [i.kind for i in inputs]
    if r.kind == m.IS_BETWEEN and kinds == [m.COLUMN, m.LITERAL, m.LITERAL]:
        yield inputs[0].a, m.GT_EQ if r.code in (m.BOTH, m.LEFT) else m.GT, inputs[1]
        yield inputs[0].a, m.LT_EQ if r.code in (m.BOTH, m.RIGHT) else m.LT, inputs[2]
    elif r.kind == m.BINARY and r.code in m.PLAIN and sorted(kinds) == [m.COLUMN, m.LITERAL]:
        code = OPPOSITE[r.code] if turned else r.code
        if kinds[0] == m.COLUMN:
            yield inputs[0].a, code, inputs[1]
        else:
            yield inputs[1].a, MIRRORED[code], inputs[0]


def pair(records, r):
    """The two columns that a line compares so that a null passes neither, and whether as equal; or None."""
    turned = r.kind == m.NOT
    if turned:
        r = records[r.a]
    if r.kind != m.BINARY or r.code not in m.PLAIN or not records[r.a].kind == records[r.b].kind == m.COLUMN:
        return None
    return records[r.a].a, records[r.b].a, r.code == (m.NOT_EQ if turned else m.EQ)


def null_test(records, r):
    """The column of a null test, and whether null is required; or None."""
    turned = r.kind == m.NOT
    if turned:
        r = records[r.a]
    if r.kind not in (m.IS_NULL, m.IS_NOT_NULL) or records[r.a].kind != m.COLUMN:
        return None
    return records[r.a].a, (r.kind == m.IS_NULL) != turned


def merged(s):
    """The columns of an accepted screen whose answer is rewritten, with the line of each limit."""
    records, columns, edges = m.records_of(s), [Column() for _ in s.table], []
    for line, n in enumerate(m.conjuncts(s)):
        r = records[n]
        for column, code, value in said(s, records, r):
            columns[column].say(code, value, line)
        if (both := pair(records, r)) is not None:
            left, right, equal = both
            columns[left].require(False, line)
            columns[right].require(False, line)
            if equal and left != right:
                edges.append((columns[left], columns[right]))
        if (test := null_test(records, r)) is not None:
            columns[test[0]].require(test[1], line)
    while any([right.take(left) | left.take(right) for left, right in edges]):
        pass
    for column in columns:
        column.resolve()
    return columns


def rebuilt(s, records, first, last):
    """The comparisons among the records added: a column, a literal and the comparison of the two, then the Ands."""
    while first < last and m.record_at(records, first).kind == m.COLUMN:
        column, literal, comparison = (m.record_at(records, first + i) for i in range(3))
        yield column.a, comparison.code, s.cell(literal.type, literal.value)
        first += 3


def reasons(s, records, used):
    """Column, operator, value and line of each comparison rebuilt, where rewriting s left these records and this used."""
    columns = [column.comparisons() for column in merged(s)]
    found = [(column, NAMES[code], value, columns[column][code, value])
             for column, code, value in rebuilt(s, records, s.used, used)]
    assert len(found) == len(set(found)) == sum(map(len, columns)), "other limits than the model's"
    return found


def shown(value):
    """A number in decimals; a symbol as the letter t and two lower-case hexadecimal digits a byte."""
    return b"t" + value.hex().encode() if isinstance(value, bytes) else b"%d" % value


def text(s, records, used):
    return b"".join(b"%d %s %s %d\n" % (column, name.encode(), shown(value), line)
                    for column, name, value, line in reasons(s, records, used))
