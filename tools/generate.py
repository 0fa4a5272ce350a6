"""Random screens and rows of all kinds. Everything follows from the random generator handed in, so a seed names a list.

`screen` draws one of the kinds below; each can be asked for by name, too:
  plain    conjunctions of plain lines: comparisons either way round, ranges, lists, null tests, Not of these, equalities
  merging  plain lines that some row passes, so that there is more to merge than a contradiction
  mixed    plain lines among all others: every record kind, operator and type, nested, with shared records
  divided  plain lines among those that divide: in every place of an Int, nested, by zero, at the ends of 64 bits, some
           where the root does not reach them, some of wrong types
  symbols  lines on Text columns among others: equal bytes at several starts, prefixes, empty symbols, symbols of 16 bytes,
           bytes 0 and 255, some at the very end of the text pool, some past it or too long
  limits   127 to 129 conjuncts, trees of 4,095 to 4,097, full tables, pools and records, long lists
  damaged  one of the above with bytes, lengths or numbers changed
  garbage  bytes that were never a screen
"""

import itertools

import model as m
from model import Screen

PLAIN_COMPARISONS = (m.EQ, m.NOT_EQ, m.LT, m.LT_EQ, m.GT, m.GT_EQ)
COMPARISONS = tuple(range(m.EQ, m.GT_EQ + 1))
LOGIC = (m.AND, m.OR, m.XOR, m.LOGICAL_AND, m.LOGICAL_OR)
EXTREMES = {m.INT: (-2**63, 2**63 - 1, 2**31, -2**31 - 1, 2**32), m.DAY: (-2**31, 2**31 - 1), m.TRUTH: (0, 1)}
DIVIDED = (-2**63, 1 - 2**63, 2**63 - 1, -101, -100, -7, -1, 0, 1, 7, 99, 100, 101)
DIVISORS = (0, 0, 1, -1, -1, 2, -2, 3, -3, 7, -7, 100, -100, -2**63, 2**63 - 1)
ALPHABETS = (b"ab", b"ab", b"abc", b"\0\xff", b"SPXN", bytes(range(256)))
ODD_NUMBERS = (2**64 - 1, 2**63, 2**60, 2**32, 2**32 + 1, 2**16, 4096, 4097, 8192)


def value_bytes(v):
    return (v & (2**64 - 1)).to_bytes(8, "little")


def symbol(rng, text):
    """64 bits that name a part of the text pool: the start in the low half, the length in the high half."""
    length = min(rng.choice((0, 1, 1, 1, 2, 2, 3, 16)), len(text))
    start = len(text) - length if rng.random() < 0.1 else rng.randrange(len(text) - length + 1)
    return start | length << 32


def text_pool(rng):
    letters, length = rng.choice(ALPHABETS), rng.choice((0, 1, 4, 8, 8, 20, 40))
    return bytes(rng.choice(letters) for _ in range(length))


class Builder:
    """A screen under construction. Columns, literals and whole lines are sometimes used again instead of made anew."""

    def __init__(self, rng, table, spread=7, share=0.3, text=b"", types=(m.INT, m.INT, m.DAY, m.TRUTH)):
        self.rng, self.table, self.spread, self.share, self.text, self.types = rng, bytes(table), spread, share, text, types
        self.records, self.values, self.made = bytearray(), [], {}

    def put(self, kind, code=0, type_=0, a=0, b=0, c=0):
        key = (kind, code, type_, a, b, c)
        if key in self.made and self.rng.random() < self.share:
            return self.made[key]
        self.records += bytes((kind, code, type_, 0))
        for field in (a, b, c):
            self.records += field.to_bytes(4, "little")
        self.made[key] = len(self.records) // 16 - 1
        return self.made[key]

    def used(self):
        return len(self.records) // 16

    def screen(self, root, room=b""):
        pool = b"".join(value_bytes(v) for v in self.values)
        return Screen(self.table, bytes(self.records) + room, pool, self.used(), root, self.text)

    # Leaves

    def draw(self, type_):
        if type_ == m.TRUTH:
            return self.rng.randrange(2)
        if type_ == m.TEXT:
            return symbol(self.rng, self.text)
        if self.rng.random() < 0.03:
            return self.rng.choice(EXTREMES[type_])
        return self.rng.randrange(self.spread) - self.spread // 3

    def columns(self, types):
        return [i for i, t in enumerate(self.table) if t in types]

    def column(self, number):
        return self.put(m.COLUMN, a=number)

    def literal(self, type_, v=None):
        bits = (self.draw(type_) if v is None else v) & (2**64 - 1)
        return self.put(m.LITERAL, type_=type_, b=bits & (2**32 - 1), c=bits >> 32)

    def list(self, type_, count=None, holds_null=0, values=None):
        if count is None:
            count = self.rng.choice((0, 1, 1, 2, 2, 3, 4, 6))
        if values is None and count <= len(self.values) and type_ == m.INT and self.rng.random() < 0.2:
            start = self.rng.randrange(len(self.values) - count + 1)  # a part of the pool that others use, too
        else:
            start = len(self.values)
            self.values += values if values is not None else [self.draw(type_) for _ in range(count)]
        return self.put(m.LIST, code=holds_null, type_=type_, a=start, b=count)

    # Lines of a plain screen. `number` is an Int or Day column.

    def comparison(self, number):
        x, v = self.column(number), self.literal(self.table[number])
        code = self.rng.choice(PLAIN_COMPARISONS)
        return self.put(m.BINARY, code, 0, *((x, v) if self.rng.random() < 0.7 else (v, x)))

    def negated_comparison(self, number):
        return self.put(m.NOT, a=self.comparison(number))

    def range(self, number):
        type_ = self.table[number]
        return self.put(m.IS_BETWEEN, self.rng.randrange(4), 0, self.column(number), self.literal(type_),
                        self.literal(type_))

    def member(self, number):
        list_ = self.list(self.table[number])
        return self.put(m.IS_IN, self.rng.randrange(2), 0, self.column(number), list_)

    def negated_member(self, number):
        return self.put(m.NOT, a=self.member(number))

    def null_test(self, number):
        return self.put(self.rng.choice((m.IS_NULL, m.IS_NOT_NULL)), a=self.column(number))

    def negated_null_test(self, number):
        return self.put(m.NOT, a=self.null_test(number))

    def equality(self, number):
        other = self.rng.choice(self.columns((self.table[number],)))
        return self.put(m.BINARY, m.EQ, 0, self.column(number), self.column(other))

    def plain_line(self, mix=None, types=(m.INT, m.DAY)):
        number = self.rng.choice(self.columns(types))
        make = (self.comparison, self.range, self.member, self.negated_member, self.null_test, self.negated_null_test,
                self.equality, self.negated_comparison)
        return self.rng.choices(make, mix or (8, 2, 2, 2, 1, 1, 3, 3))[0](number)

    # Anything

    def value(self, type_, depth):
        kind = self.rng.random()
        numbers = self.columns((type_,))
        if numbers and kind < 0.5:
            return self.column(self.rng.choice(numbers))
        if kind < 0.85 or type_ != m.TRUTH:
            return self.put(m.NULL, type_=type_) if self.rng.random() < 0.15 else self.literal(type_)
        return self.truth(depth)

    def truth(self, depth):
        rng = self.rng
        if depth <= 0 or rng.random() < 0.1:
            return self.value(m.TRUTH, 0)
        type_ = rng.choice(self.types)
        kind = rng.choice((m.BINARY,) * 5 + (m.NOT, m.IS_NULL, m.IS_NOT_NULL, m.IS_BETWEEN, m.IS_IN))
        if kind == m.BINARY and rng.random() < 0.4:
            return self.put(kind, rng.choice(LOGIC), 0, self.truth(depth - 1), self.truth(depth - 1))
        if kind == m.BINARY:
            sides = [self.value(type_, depth - 1) for _ in range(2)]
            return self.put(kind, rng.choice(COMPARISONS), 0, *sides)
        if kind == m.NOT:
            return self.put(kind, a=self.truth(depth - 1))
        if kind == m.IS_BETWEEN:
            values = [self.value(type_, depth - 1) for _ in range(3)]
            return self.put(kind, rng.randrange(4), 0, *values)
        if kind == m.IS_IN:
            inner = self.value(type_, depth - 1)
            return self.put(kind, rng.randrange(2), 0, inner, self.list(type_, holds_null=rng.randrange(2)))
        return self.put(kind, a=self.value(type_, depth - 1))

    def near_plain(self):
        """A line that is almost plain, so that reading it must stop at the right place."""
        rng = self.rng
        number = rng.randrange(len(self.table))
        type_ = self.table[number]
        x = self.column(number)
        kind = rng.randrange(11)
        if kind >= 8:
            line = self.near_negated(type_, x)
            return self.put(m.NOT, a=line) if rng.random() < 0.9 else self.put(m.NOT, a=self.put(m.NOT, a=line))
        if kind == 0:
            return self.put(m.BINARY, rng.choice(COMPARISONS), 0, x, self.put(m.NULL, type_=type_))
        if kind == 1:
            return self.put(m.BINARY, rng.choice((m.EQ_VALIDITY, m.NOT_EQ_VALIDITY)), 0, x, self.literal(type_))
        if kind == 2:
            other = self.column(rng.choice(self.columns((type_,))))
            return self.put(m.BINARY, rng.choice(COMPARISONS), 0, x, other)
        if kind == 3:
            in_ = self.put(m.IS_IN, rng.randrange(2), 0, x, self.list(type_, holds_null=1))
            return rng.choice((in_, self.put(m.NOT, a=in_)))
        if kind == 4:
            values = [self.draw(type_) for _ in range(rng.choice((99, 100, 101)))]
            return self.put(m.IS_IN, rng.randrange(2), 0, x, self.list(type_, len(values), values=values))
        if kind == 5:
            values = [rng.choice((self.literal(type_), x, self.put(m.NULL, type_=type_))) for _ in range(2)]
            return self.put(m.IS_BETWEEN, rng.randrange(4), 0, x, *values)
        if kind == 6:
            line = self.put(m.IS_NULL, a=x)
            return self.put(m.NOT, a=self.put(m.NOT, a=line))
        a, b = self.literal(type_), self.literal(type_)
        return self.put(m.BINARY, rng.choice(COMPARISONS), 0, a, b)

    def near_negated(self, type_, x):
        """What may stand below Not: any operator, x beside a literal, a column, a null, either way round; logic."""
        rng = self.rng
        other = rng.choice((self.literal(type_), self.column(rng.choice(self.columns((type_,)))),
                            self.literal(type_), self.put(m.NULL, type_=type_)))
        if type_ == m.TRUTH and rng.random() < 0.5:
            code = rng.choice(LOGIC)
        elif rng.random() < 0.1:
            return self.put(m.BINARY, rng.choice(LOGIC), 0, self.truth(2), self.truth(2))
        else:
            code = rng.choice(COMPARISONS)
        return self.put(m.BINARY, code, 0, *((x, other) if rng.random() < 0.6 else (other, x)))

    # Divisions. They stand apart from the lines above, so that a seed's other screens stay what they were.

    def dividend(self, depth, values=DIVIDED):
        """An Int: a column, a value, a null, or a division again."""
        rng, kind = self.rng, self.rng.random()
        if depth > 0 and kind < 0.3:
            return self.division(depth - 1)
        if kind < 0.65 and self.columns((m.INT,)):
            return self.column(rng.choice(self.columns((m.INT,))))
        if kind < 0.7:
            return self.put(m.NULL, type_=m.INT)
        return self.literal(m.INT, rng.choice(values) if rng.random() < 0.6 else None)

    def division(self, depth=1):
        return self.put(m.BINARY, self.rng.choice(m.DIVISIONS), 0, self.dividend(depth), self.dividend(depth, DIVISORS))

    def misfit(self):
        """A division of other types: of a Day, a Truth, a list."""
        rng = self.rng
        type_ = rng.choice((m.DAY, m.TRUTH))
        odd = self.list(m.INT) if rng.random() < 0.2 else self.truth(2) if type_ == m.TRUTH else self.literal(m.DAY)
        columns = self.columns((type_,))
        if columns and rng.random() < 0.5:
            odd = self.column(rng.choice(columns))
        sides = rng.choice(((odd, odd), (odd, self.dividend(0)), (self.dividend(0), odd)))
        return self.put(m.BINARY, rng.choice(m.DIVISIONS), 0, *sides)

    def dividing_line(self, depth=2):
        """A truth that divides, in any place of an Int; some stand below Not or beside other truths."""
        rng = self.rng
        x, kind = self.division(rng.randrange(3)), rng.randrange(10)
        if depth > 0 and kind == 0:
            return self.put(m.NOT, a=self.dividing_line(depth - 1))
        if depth > 0 and kind == 1:
            sides = [self.dividing_line(depth - 1), self.plain_line()]
            rng.shuffle(sides)
            return self.put(m.BINARY, rng.choice(LOGIC), 0, *sides)
        if depth > 0 and kind == 2:  # a truth that is compared as a value
            return self.put(m.BINARY, rng.choice(COMPARISONS), 0, self.dividing_line(depth - 1), self.truth(1))
        if kind == 3:
            return self.put(rng.choice((m.IS_NULL, m.IS_NOT_NULL)), a=x)
        if kind == 4:
            places = [x, self.dividend(1), self.dividend(0)]
            rng.shuffle(places)
            return self.put(m.IS_BETWEEN, rng.randrange(4), 0, *places)
        if kind == 5:
            return self.put(m.IS_IN, rng.randrange(2), 0, x, self.list(m.INT, holds_null=rng.randrange(2)))
        sides = [x, self.dividend(1)]
        rng.shuffle(sides)
        return self.put(m.BINARY, rng.choice(COMPARISONS), 0, *sides)

    # Conjunctions

    def conjunction(self, lines):
        """Joins the lines in order: mostly a chain as a parser makes it, sometimes a tree of any shape."""
        any_shape = self.rng.random() < 0.3
        while len(lines) > 1:
            i = self.rng.randrange(len(lines) - 1) if any_shape else 0
            code = m.LOGICAL_AND if self.rng.random() < 0.3 else m.AND
            lines[i:i + 2] = [self.put(m.BINARY, code, 0, lines[i], lines[i + 1])]
        return lines[0]

    def repeat(self, lines):
        """Sometimes a line stands twice."""
        return [x for line in lines for x in ([line, line] if self.rng.random() < 0.04 else [line])]


def table_of(rng, types=(m.INT, m.INT, m.INT, m.DAY, m.TRUTH)):
    table = [rng.choice(types) for _ in range(rng.choice((1, 2, 2, 3, 3, 4, 5, 8)))]
    return table if m.INT in table or m.DAY in table else table + [m.INT]


def room(rng):
    """Lent places past the used ones: none, some, a part of one; with bytes that no record has."""
    whole = rng.choice((0, 0, 1, 2, 3, 5, 8, 12, 20, 40))
    return bytes(rng.randrange(256) for _ in range(16 * whole + rng.choice((0, 0, 0, 1, 15))))


def plain(rng, most=12):
    b = Builder(rng, table_of(rng), rng.choice((3, 5, 7, 20)), rng.choice((0, 0.3, 0.9)))
    # Some screens have many equalities, some only lists and null tests, so that each meets each.
    mix = rng.choice((None, None, (4, 1, 1, 1, 1, 1, 8, 1), (1, 1, 4, 4, 2, 2, 1, 1), (8, 1, 0, 0, 0, 0, 0, 0),
                      (2, 0, 0, 0, 0, 0, 1, 8)))
    lines = [b.plain_line(mix) for _ in range(rng.randint(1, rng.choice((2, 4, most))))]
    return b.screen(b.conjunction(b.repeat(lines)), room(rng))


def merging(rng, most=10):
    table = [rng.choice((m.INT, m.INT, m.DAY)) for _ in range(rng.choice((1, 2, 3, 4)))]
    b = Builder(rng, table, rng.choice((5, 9, 20)), rng.choice((0, 0.3, 0.9)))
    row = [None if rng.random() < 0.05 else rng.randrange(b.spread) - b.spread // 3 for _ in table]
    lines, wanted = [], rng.randint(2, most)
    while len(lines) < wanted:
        before = len(b.records), len(b.values), dict(b.made)
        line = b.plain_line()
        if m.evaluate(b.screen(line), row) == 1:
            lines.append(line)
        else:
            del b.records[before[0]:], b.values[before[1]:]
            b.made = before[2]
    return b.screen(b.conjunction(b.repeat(lines)), room(rng))


def mixed(rng, most=8):
    b = Builder(rng, table_of(rng), rng.choice((3, 5, 9)), rng.choice((0, 0.3, 0.9)))
    makes = (b.plain_line, b.near_plain, lambda: b.truth(rng.randint(1, 4)))
    weights = rng.choice(((3, 1, 1), (1, 1, 1), (0, 0, 1), (6, 1, 0)))
    lines = [rng.choices(makes, weights)[0]() for _ in range(rng.randint(1, rng.choice((1, 3, most))))]
    return b.screen(b.conjunction(b.repeat(lines)), room(rng))


def divided(rng, most=8):
    b = Builder(rng, table_of(rng), rng.choice((3, 5, 20)), rng.choice((0, 0.3, 0.9)))
    makes = (b.plain_line, b.dividing_line)
    weights = rng.choice(((3, 1), (1, 1), (0, 1), (1, 0)))  # with (1, 0) the only division is one that is not reached
    before = [b.division(2) for _ in range(rng.choice((0, 0, 0, 1)))]
    lines = [rng.choices(makes, weights)[0]() for _ in range(rng.randint(1, rng.choice((1, 3, most))))]
    if rng.random() < 0.1:
        lines.append(b.put(m.IS_NULL, a=b.misfit()))
    root = b.conjunction(b.repeat(lines))
    if weights == (1, 0) and not before or rng.random() < 0.2:  # behind the root, and reached by nothing
        rng.choices((b.division, b.dividing_line, b.misfit), (10, 10, 1))[0]()
    return b.screen(root, room(rng))


SYMBOL_TABLE = (m.TEXT, m.TEXT, m.TEXT, m.INT, m.TRUTH)
SYMBOL_TYPES = (m.TEXT, m.TEXT, m.TEXT, m.INT, m.TRUTH)


def symbols(rng, most=8):
    table = [m.TEXT] + [rng.choice(SYMBOL_TABLE) for _ in range(rng.choice((0, 1, 1, 2, 3, 5)))]
    b = Builder(rng, table, rng.choice((3, 5)), rng.choice((0, 0.3, 0.9)), text_pool(rng), SYMBOL_TYPES)
    makes = (lambda: b.plain_line(mix, (m.TEXT,)), lambda: b.plain_line(mix, (m.TEXT, m.INT)), b.near_plain,
             lambda: b.truth(rng.randint(1, 4)))
    mix = rng.choice((None, None, (4, 1, 1, 1, 1, 1, 8, 1), (1, 1, 4, 4, 2, 2, 1, 1), (8, 1, 0, 0, 0, 0, 0, 0)))
    weights = rng.choice(((3, 1, 1, 1), (6, 1, 0, 0), (6, 1, 0, 0), (0, 1, 1, 2)))
    lines = [rng.choices(makes, weights)[0]() for _ in range(rng.randint(1, rng.choice((2, 4, most))))]
    root = b.conjunction(b.repeat(lines))
    if rng.random() < 0.1:  # a symbol that the root does not reach
        rng.choice((lambda: b.literal(m.TEXT), lambda: b.list(m.TEXT), lambda: b.put(m.NULL, type_=m.TEXT)))()
    return b.screen(root, room(rng))


def merging_symbols(rng, most=10):
    """Lines on Text columns that some row passes, so that there is more to merge than a contradiction."""
    table = [m.TEXT] * rng.choice((1, 1, 2, 3)) + [m.INT] * rng.choice((0, 0, 1))
    text = text_pool(rng) or b"ab"
    b = Builder(rng, table, 5, rng.choice((0, 0.3, 0.9)), text, SYMBOL_TYPES)
    one = text[:rng.choice((0, 1, 1, 2))]
    row = [(one if rng.random() < 0.8 else any_symbol(rng, b.screen(0))) if type_ == m.TEXT else 1 for type_ in table]
    lines, wanted, tries = [], rng.randint(2, most), 0
    while len(lines) < wanted and (tries := tries + 1) < 200:
        before = len(b.records), len(b.values), dict(b.made)
        line = b.plain_line(types=(m.TEXT, m.INT))
        if m.evaluate(b.screen(line), row) == 1:
            lines.append(line)
        else:
            del b.records[before[0]:], b.values[before[1]:]
            b.made = before[2]
    return b.screen(b.conjunction(b.repeat(lines)), room(rng)) if lines else symbols(rng)


def symbols_beside(rng):
    """A plain screen with Text columns that it does not read, and records of type Text that its root does not reach."""
    b = Builder(rng, [m.TEXT, m.INT, m.DAY], 5, 0.3, text_pool(rng), SYMBOL_TYPES)
    before = [b.literal(m.TEXT), b.put(m.IS_NULL, a=b.column(0))][:rng.randrange(3)]
    lines = [b.plain_line() for _ in range(rng.randint(1, 5))]
    if before and rng.random() < 0.1:
        lines.append(before[-1] if len(before) == 2 else b.put(m.IS_NULL, a=b.column(0)))
    root = b.conjunction(lines)
    b.list(m.TEXT)
    return b.screen(root, room(rng))


def damaged_symbols(rng):
    """Symbols past the pool or too long, pools cut or too long; or any other damage."""
    s = rng.choice((symbols, merging_symbols, symbols_beside))(rng)
    kind = rng.randrange(6)
    if kind == 0:
        return s.but(text=s.text[:max(0, len(s.text) - rng.choice((1, 1, 2, 5)))])
    if kind == 1:
        return s.but(text=s.text + bytes(rng.choice((8192, 8193)) - len(s.text)))
    literals = [n for n in range(s.used) if s.records[16 * n] == m.LITERAL and s.records[16 * n + 2] == m.TEXT]
    if kind in (2, 3) and literals:
        at, changed = 16 * rng.choice(literals), bytearray(s.records)
        length = rng.choice((0, 1, 15, 16, 17, 2**32 - 1))
        start = max(0, len(s.text) - length + rng.choice((-1, 0, 1)))
        changed[at + 8:at + 16] = (start % 2**32).to_bytes(4, "little") + length.to_bytes(4, "little")
        return s.but(records=bytes(changed), text=s.text + bytes(rng.choice((0, 0, 17))))
    return damage(rng, s)


def many_conjuncts(rng):
    b = Builder(rng, [m.INT] * rng.choice((1, 3, 64)), 2000, 0.9)
    lines = [b.plain_line() for _ in range(rng.choice((127, 128, 129)))]
    return b.screen(b.conjunction(lines), b"\xa5" * (16 * rng.choice((0, 3, 200, 600))))


def chain_of_equalities(rng):
    n = rng.choice((2, 5, 63, 64))
    b = Builder(rng, [m.INT] * n, 100, 0.5)
    edges = [(i, i + 1) if rng.random() < 0.5 else (i + 1, i) for i in range(n - 1)]
    order = rng.choice((edges, edges[::-1], rng.sample(edges, len(edges))))
    lines = [b.put(m.BINARY, m.EQ, 0, b.column(x), b.column(y)) for x, y in order]
    more = [b.comparison(rng.choice((0, n - 1)))] + [b.plain_line() for _ in range(rng.choice((0, 0, 1, 3)))]
    for line in more:
        lines.insert(rng.randrange(len(lines) + 1), line)
    return b.screen(b.conjunction(lines), b"\xa5" * (16 * rng.choice((0, 5, 450))))


def tree(b, size):
    """A truth whose tree has exactly `size` records, by sharing: far fewer are made. Column 0 is a Truth."""
    rng = b.rng
    ladder = [b.column(0)]  # the trees of ladder[i] have 2^(i+1) - 1 records
    while 2**(len(ladder) + 1) - 1 <= size:
        ladder.append(b.put(m.BINARY, rng.choice(LOGIC), 0, ladder[-1], ladder[-1]))
    top = ladder[-1]
    left = size - (2**len(ladder) - 1)
    while left > 0:
        # One more binary record adds itself and a tree of the ladder; is_null adds one.
        fit = [i for i in range(len(ladder)) if 2**(i + 1) <= left]
        if fit:
            top = b.put(m.BINARY, rng.choice(LOGIC), 0, top, ladder[fit[-1]])
            left -= 2**(fit[-1] + 1)
        else:
            top = b.put(m.IS_NULL, a=top)
            left -= 1
    return top


def tree_of(rng, size):
    b = Builder(rng, [m.TRUTH, m.INT], share=1)
    return b.screen(tree(b, size), room(rng))


def tree_limit(rng):
    return tree_of(rng, rng.choice((4095, 4096, 4097)))


def rebuilt_tree(rng):
    """A large line that merging does not read beside lines that grow or shrink as they are merged."""
    b = Builder(rng, [m.TRUTH, m.INT, m.INT], share=0)
    large = b.put(m.BINARY, rng.choice((m.OR, m.XOR)), 0, tree(b, rng.randint(4070, 4095)), b.column(0))
    lines = [large, b.equality(1), b.comparison(1)]
    if rng.random() < 0.5:
        lines.append(b.comparison(2))
    rng.shuffle(lines)
    return b.screen(b.conjunction(lines), b"\x5a" * (16 * 40))


def full_records(rng):
    n = rng.choice((4088, 4089, 4092, 4093, 4093, 4094, 4095, 4095, 4096, 4097))
    b = Builder(rng, table_of(rng), share=0)
    number = rng.choice(b.columns((m.INT, m.DAY)))
    root = b.conjunction([b.comparison(number), b.comparison(number)] + [b.plain_line()] * rng.randrange(2))
    while b.used() < n:
        b.literal(m.INT)
    return b.screen(root, b"\x5a" * (16 * rng.choice((0, 1, 3, 20))))


def full_pool(rng):
    b = Builder(rng, [m.INT, m.DAY])
    n = rng.choice((8191, 8192, 8193))
    b.values = [rng.randrange(50) for _ in range(n)]
    start = rng.choice((0, n - 100, n - 1, n))
    root = b.put(m.IS_IN, 0, 0, b.column(1), b.put(m.LIST, 0, m.DAY, start, min(n - start, rng.choice((1, 100, 9000)))))
    return b.screen(root, room(rng))


def wide_table(rng):
    n = rng.choice((63, 64, 65))
    b = Builder(rng, [rng.choice((m.INT, m.DAY)) for _ in range(n)])
    lines = [b.put(m.IS_NOT_NULL, a=b.column(n - 1)), b.comparison(n - 1)] + [b.plain_line() for _ in range(4)]
    return b.screen(b.conjunction(lines), room(rng))


def long_list(rng):
    b = Builder(rng, [m.INT], 300)
    top = rng.choice((3, 110, 200))
    lines = [b.comparison(0)]
    for _ in range(rng.choice((1, 1, 2, 4))):
        n = rng.choice((99, 100, 101))
        values = [rng.randrange(top) for _ in range(n)]
        in_ = b.put(m.IS_IN, rng.randrange(2), 0, b.column(0), b.list(m.INT, n, values=values))
        lines.append(rng.choice((in_, b.put(m.NOT, a=in_))))
    return b.screen(b.conjunction(lines), room(rng))


def far_lists(rng):
    """Many lists, some negated, on columns that equalities join: merging then keeps an index of them. Those that are not
    negated have two values in common, but for few; those that are may have one of the two."""
    n, common = rng.choice((5, 20, 64)), rng.sample(range(300), 2)
    b = Builder(rng, [m.INT] * n, 300, 0.5)
    b.values = [v for _ in range(100) for v in (*common, rng.randrange(300))]
    b.values += [rng.choice((common[0], rng.randrange(300))) for _ in range(100)]
    lines = [b.put(m.BINARY, m.EQ, 0, b.column(i), b.column(i + 1)) for i in range(n - 1)]
    rng.shuffle(lines)
    for _ in range(rng.choice((10, 30, 60))):
        negated, count = rng.random() < 0.2, 2 if rng.random() < 0.01 else rng.choice((3, 10, 50, 100))
        start = rng.randrange(300, 401 - count) if negated else rng.randrange(301 - count)
        in_ = b.put(m.IS_IN, rng.randrange(2), 0, b.column(rng.randrange(n)), b.put(m.LIST, 0, m.INT, start, count))
        lines.insert(rng.randrange(len(lines) + 1), b.put(m.NOT, a=in_) if negated else in_)
    lines += [b.comparison(rng.randrange(n)) for _ in range(rng.choice((0, 0, 1)))]
    return b.screen(b.conjunction(lines), room(rng))


LIMITS = (many_conjuncts, chain_of_equalities, tree_limit, rebuilt_tree, full_records, full_pool, wide_table, long_list)


def limits(rng):
    return rng.choice(LIMITS)(rng)


def odd_number(rng, below):
    """Any 64-bit number; `below` may be one that was damaged before."""
    return min(rng.choice((rng.randrange(below + 2), below, below + 1, rng.choice(ODD_NUMBERS))), 2**64 - 1)


def damaged(rng):
    return damage(rng, rng.choice((plain, merging, mixed))(rng))


def damaged_division(rng):
    return damage(rng, divided(rng))


def damage(rng, s):
    for _ in range(rng.choice((1, 1, 1, 2, 5))):
        kind = rng.randrange(16)
        if kind == 0:
            s = s.but(used=odd_number(rng, s.used))
        elif kind == 1:
            s = s.but(root=odd_number(rng, s.used))
        elif kind == 2:
            s = s.but(records=s.records[:max(0, len(s.records) - rng.randrange(40))])
        elif kind == 3:
            s = s.but(pool=s.pool[:max(0, len(s.pool) - rng.randrange(20))])
        elif kind == 4:
            table = bytearray(s.table)
            table[rng.randrange(len(table))] = rng.choice((0, 1, 2, 3, 4, 255))
            s = s.but(table=bytes(table))
        elif kind == 5 and s.pool:
            pool = bytearray(s.pool)
            pool[rng.randrange(len(pool))] = rng.randrange(256)
            s = s.but(pool=bytes(pool))
        elif kind < 9 and s.records:
            at = rng.randrange(len(s.records))
            s = s.but(records=s.records[:at] + bytes((rng.randrange(256),)) + s.records[at + 1:])
        elif kind < 14 and len(s.records) >= 16:
            s = s.but(records=redirected(rng, s.records))
        elif len(s.records) >= 16:
            s = s.but(records=left_out(rng, s.records))
    return s


def left_out(rng, records):
    """Arithmetic, where there is a binary record."""
    binary = [n for n in range(len(records) // 16) if records[16 * n] == m.BINARY]
    changed = bytearray(records)
    if binary:
        changed[16 * rng.choice(binary) + 1] = rng.randrange(m.PLUS, m.MODULUS + 1)
    return bytes(changed)


def redirected(rng, records):
    """One field of a record changed so that it mostly stays known: another operator, input, column or list."""
    n = rng.randrange(len(records) // 16)
    changed = bytearray(records)
    at = 16 * n + rng.choice((0, 1, 1, 2, 4, 4, 8, 8, 12))
    if at == 16 * n:
        changed[at] = rng.randrange(1, 11)
    elif at == 16 * n + 1:
        changed[at] = rng.randrange(21 if changed[16 * n] == m.BINARY else 3)
    else:
        changed[at] = rng.choice((rng.randrange(5), rng.randrange(n + 2) % 256))
    return bytes(changed)


def garbage(rng):
    """Bytes of which only the kinds and the table are likely; or not even these."""

    def some(count, top):
        return bytes(rng.randrange(top) for _ in range(count))

    if rng.random() < 0.2:
        return Screen(some(rng.randrange(4), 256), some(rng.randrange(80), 256), some(rng.randrange(30), 256),
                      rng.randrange(6), rng.randrange(6))
    n = rng.randrange(1, 6)
    records = b"".join(bytes((rng.randrange(1, 11), rng.choice((0, 0, rng.randrange(20))),
                              rng.choice((0, 0, 1, 3)), 0, rng.randrange(n), 0, 0, 0, rng.choice((0, rng.randrange(n))),
                              0, 0, 0, 0, 0, 0, 0)) for _ in range(n))
    return Screen(bytes(rng.choices((m.INT, m.DAY, m.TRUTH), k=rng.randrange(1, 4))), records,
                  some(8 * rng.randrange(4), 3), n, rng.randrange(n))


def screen(rng):
    return rng.choices((plain, merging, mixed, divided, limits, damaged, damaged_division, garbage, symbols,
                        merging_symbols, symbols_beside, damaged_symbols),
                       (20, 20, 25, 15, 2, 20, 4, 4, 20, 20, 4, 12))[0](rng)


# Rows


def literals(s):
    """Values worth trying: those of the screen and their neighbours."""
    found = {0, 1, 2, 3}
    for n in range(min(s.used, len(s.records) // 16)):
        r = m.record_at(s.records, n)
        if r.kind == m.LITERAL and r.type != m.TEXT:
            found.add(r.value)
    found.update(m.number(s.pool[i:i + 8], True) for i in range(0, min(len(s.pool), 800), 8))
    if m.check(s) == m.ACCEPTED and m.reaches_division(s):
        found.update(DIVIDED)
    return sorted(v + d for v in found for d in (-1, 0, 1))


def any_symbol(rng, s):
    """Bytes as a row of demand 3 has them: those of the pool, or any."""
    if rng.random() < 0.7:
        return s.symbol(symbol(rng, s.text))
    letters = s.text or b"a"
    return bytes(rng.choice(letters) for _ in range(rng.choice((0, 1, 1, 2, 3, 16))))


def cells(rng, s, halves=False):
    """A row as the definition has it: for each column None or a number, with `halves` also half way between two; of a
    Text column a symbol, with `halves` one that need not lie in the pool."""
    values, row = literals(s), []
    nulls = rng.choice((0, 0.2, 0.5))
    for type_ in s.table:
        if rng.random() < nulls:
            row.append(None)
        elif type_ == m.TRUTH:
            row.append(rng.randrange(2))
        elif type_ == m.TEXT:
            row.append(any_symbol(rng, s) if halves else s.symbol(symbol(rng, s.text)))
        elif halves:
            row.append(rng.choice(values) + rng.choice((0, 0, 0.5)))
        else:
            row.append(rng.choice([v for v in values if m.in_type(type_, v)]))
    return row


def equal_cells(rng, s):
    """A row without nulls that holds one value wherever it fits, so that lines which compare columns hold."""
    v, of_text = rng.choice(literals(s)) + rng.choice((0, 0, 0.5)), any_symbol(rng, s)
    return [{m.TRUTH: rng.randrange(2), m.TEXT: of_text}.get(type_, v) for type_ in s.table]


def demanded_cells(rng, s, equal):
    """A row that demand 3 speaks of: where the root reaches a division, one with values of the column types only."""
    if m.reaches_division(s):
        row = cells(rng, s)
        v = rng.choice(row) if row else None
        if equal and isinstance(v, int):
            row = [v if type_ in (m.INT, m.DAY) and m.in_type(type_, v) else old for type_, old in zip(s.table, row)]
        return row
    return equal_cells(rng, s) if equal else cells(rng, s, halves=True)


def critical_rows(s, most):
    """Rows that stand for all: of a plain screen some row passes only if one of these does. None if over `most`.

    What a plain line says of a value depends on its place among the values of the screen alone, and two columns are
    only ever compared for equality; so each value of the screen and one half step above or below it stand for all.
    """
    records = m.records_of(s)
    lines = [records[n] for n in m.reached(s)]
    values = {r.value for r in lines if r.kind == m.LITERAL}
    values.update(v for r in lines if r.kind == m.LIST for v in m.pool_of(s)[r.a:r.a + r.b])
    places = [None, min(values, default=0) - 0.5]
    for v in sorted(values):
        places += [v, v + 0.5]
    read = sorted({r.a for r in lines if r.kind == m.COLUMN})
    if len(places)**len(read) > most or any(abs(v) > 2**50 for v in values):  # a float must hold the half
        return None
    rows = []
    for choice in itertools.product(places, repeat=len(read)):
        row = [None] * len(s.table)
        for column, v in zip(read, choice):
            row[column] = v
        rows.append(row)
    return rows


def packed(rng, s, v):
    """A cell as eight bytes: a symbol by a place where its bytes lie in the pool, one of several perhaps."""
    if not isinstance(v, bytes):
        return value_bytes(v or 0)
    starts = [i for i in range(len(s.text) - len(v) + 1) if s.text[i:i + len(v)] == v]
    return value_bytes(rng.choice(starts) | len(v) << 32)


def lent_row(rng, s, damage=0.1):
    """A row as the call takes it, sometimes one to refuse: its bytes and its null marks."""
    row = cells(rng, s)
    nulls = sum(1 << i for i, v in enumerate(row) if v is None)
    data = bytearray(b"".join(map(lambda v: packed(rng, s, v), row)))
    if rng.random() < damage:
        kind = rng.randrange(4)
        if kind == 0:
            data = data[:max(0, len(data) - rng.choice((1, 7, 8)))] if rng.random() < 0.5 else data + b"\0" * 8
        elif kind == 1:
            nulls |= 1 << rng.choice((len(row) % 64, 63))
        elif data:
            data[rng.randrange(len(data))] = rng.randrange(1, 256)
    return bytes(data), nulls


def place(rng, values):
    """Both parts of a value: one of these or far from all, a half above or below it or none."""
    whole = rng.choice(EXTREMES[m.INT]) if rng.random() < 0.05 else min(max(rng.choice(values), -2**63), 2**63 - 1)
    return whole, rng.choice((-1, 0, 0, 1))


def places(rng, s, known):
    """A row with halves: for each column None or its two parts. Half of them are `known`, a row that passes, with some
    columns changed; columns that lines may compare often have one value."""
    values, one = literals(s), None
    if known is not None and rng.random() < 0.5:
        row = list(known)
        for i in range(len(row)):
            if rng.random() < 0.2:
                row[i] = rng.choice((None, place(rng, values)))
        return row
    if rng.random() < 0.4:
        one = place(rng, values)
    nulls = rng.choice((0, 0, 0.2, 0.5))
    return [None if rng.random() < nulls else one or place(rng, values) for _ in s.table]


def damaged_places(rng, row, nulls):
    """The bytes and null marks of a row with halves, with something wrong with them; sometimes with nothing."""
    data, kind = bytearray(row), rng.randrange(5)
    columns = len(data) // 16
    if kind == 0:
        some = rng.choice((1, 8, 16))
        data = data[:max(0, len(data) - some)] if rng.random() < 0.5 else data + bytes(some)
    elif kind == 1:
        nulls |= 1 << rng.choice((columns % 64, 63))
    elif columns:
        at = 16 * rng.randrange(columns)
        if kind == 2:
            data[at + 8:at + 16] = value_bytes(rng.choice((2, -2, 3, 256, 2**63 - 1, -2**63, 2**32)))
        elif kind == 3:
            data[at + rng.randrange(16)] = rng.randrange(256)
        else:
            nulls ^= 1 << at // 16
    return bytes(data), nulls
