"""The cases of the paper, each as a screen with room, the answer of rewriting and the number of records added."""

import random

import generate as g
import model as m
from reference import NOTHING_PASSES, REWRITTEN, UNCHANGED

ROOM = bytes(range(16)) * 12


def table(columns=2):
    return g.Builder(random.Random(0), [m.INT] * columns, share=0)


def line(b, code, number, v):
    return b.put(m.BINARY, code, 0, b.column(number), b.literal(m.INT, v))


def chain(b, *lines):
    """The lines joined by And, as a parser joins them."""
    top = lines[0]
    for x in lines[1:]:
        top = b.put(m.BINARY, m.AND, 0, top, x)
    return b.screen(top, ROOM)


def lines(*parts):
    """Comparisons (operator, column, value), or (column, column) for an equality."""
    b = table()
    made = []
    for part in parts:
        if len(part) == 2:
            made.append(b.put(m.BINARY, m.EQ, 0, b.column(part[0]), b.column(part[1])))
        else:
            made.append(line(b, *part))
    return chain(b, *made)


def swapped():
    b = table()
    return chain(b, b.put(m.BINARY, m.LT, 0, b.literal(m.INT, 5), b.column(0)), line(b, m.GT, 0, 4))


def range_alone():
    b = table()
    return chain(b, b.put(m.IS_BETWEEN, m.BOTH, 0, b.column(0), b.literal(m.INT, 1), b.literal(m.INT, 5)))


def null_and_bound():
    b = table()
    return chain(b, b.put(m.IS_NULL, a=b.column(0)), line(b, m.GT, 0, 1))


def member_and_bound(values):
    b = table()
    x = b.column(0)
    return chain(b, b.put(m.IS_IN, 0, 0, x, b.list(m.INT, len(values), values=values)), line(b, m.GT, 0, 2))


def null_and_negated_member(nulls_equal):
    b = table()
    x = b.column(0)
    in_ = b.put(m.IS_IN, nulls_equal, 0, x, b.list(m.INT, 1, values=[1]))
    return chain(b, b.put(m.IS_NULL, a=b.column(0)), b.put(m.NOT, a=in_))


def negated(code, v, *more, swap=False):
    """Not of a comparison of column 0, then further lines."""
    b = table()
    sides = b.column(0), b.literal(m.INT, v)
    inner = b.put(m.BINARY, code, 0, *(sides[::-1] if swap else sides))
    return chain(b, b.put(m.NOT, a=inner), *(line(b, *part) for part in more))


def negated_columns(code, *more):
    b = table()
    inner = b.put(m.BINARY, code, 0, b.column(0), b.column(1))
    return chain(b, b.put(m.NOT, a=inner), *(line(b, *part) for part in more))


def negated_and_null():
    b = table()
    inner = b.put(m.BINARY, m.LT, 0, b.column(0), b.column(1))
    return chain(b, b.put(m.NOT, a=inner), b.put(m.IS_NULL, a=b.column(0)))


def negated_logic(code):
    """Not of (c0 < 3 code c0 > 5)."""
    b = table()
    return chain(b, b.put(m.NOT, a=b.put(m.BINARY, code, 0, line(b, m.LT, 0, 3), line(b, m.GT, 0, 5))))


def negated_twice():
    b = table()
    return chain(b, b.put(m.NOT, a=b.put(m.NOT, a=line(b, m.LT, 0, 3))))


def negated_shared():
    """c0 < 3 as a line and below Not, one record."""
    b = table()
    x = line(b, m.LT, 0, 3)
    return chain(b, x, b.put(m.NOT, a=x))


def divided(code, by, compared, v, *more):
    """Column 0 divided by a number, compared with another; then further lines."""
    b = table()
    x = b.put(m.BINARY, code, 0, b.column(0), b.literal(m.INT, by))
    return chain(b, b.put(m.BINARY, compared, 0, x, b.literal(m.INT, v)), *(line(b, *part) for part in more))


def negated_division():
    b = table()
    x = b.put(m.BINARY, m.FLOOR_DIVIDE, 0, b.column(0), b.literal(m.INT, 100))
    return chain(b, b.put(m.NOT, a=b.put(m.BINARY, m.LT, 0, x, b.literal(m.INT, 3))))


def divided_columns(*more):
    """c0 // c1 == c1, then further lines: no edge."""
    b = table()
    x = b.put(m.BINARY, m.FLOOR_DIVIDE, 0, b.column(0), b.column(1))
    return chain(b, b.put(m.BINARY, m.EQ, 0, x, b.column(1)), *(line(b, *part) for part in more))


def unreached_division(*parts):
    """Plain lines, and a division that the root does not reach."""
    b = table()
    b.put(m.BINARY, m.MODULUS, 0, b.column(0), b.literal(m.INT, 100))
    return chain(b, *(line(b, *part) for part in parts))


def division_of(type_):
    """is_null of a division of two values of this type."""
    b = g.Builder(random.Random(0), [m.INT, m.DAY, m.TRUTH], share=0)
    x = b.literal(type_, 1)
    return chain(b, b.put(m.IS_NULL, a=b.put(m.BINARY, m.FLOOR_DIVIDE, 0, x, x)))


def conjuncts(n):
    """n times one line, by sharing; merging them leaves one."""
    b = table()
    top, count, ladder = line(b, m.GT, 0, 3), 1, []
    while 2 * count <= n:
        ladder.append((top, count))
        top, count = b.put(m.BINARY, m.AND, 0, top, top), 2 * count
    while count < n:
        part, size = next(x for x in reversed(ladder) if x[1] <= n - count)
        top, count = b.put(m.BINARY, m.AND, 0, top, part), count + size
    return b.screen(top, ROOM)


def tree(n):
    return g.tree_of(random.Random(0), n)


def cases():
    """(screen, answer, records added or None where the paper gives no number)"""
    gt, ge, lt, le, eq, ne = m.GT, m.GT_EQ, m.LT, m.LT_EQ, m.EQ, m.NOT_EQ
    return [
        (lines((gt, 0, 3), (gt, 0, 5)), REWRITTEN, 3),
        (lines((ge, 0, 3), (le, 0, 3)), REWRITTEN, 3),
        (lines((ge, 0, 3), (lt, 0, 3)), NOTHING_PASSES, 1),
        (lines((gt, 0, 3), (lt, 0, 4)), UNCHANGED, None),
        (lines((ge, 0, 3), (ne, 0, 3)), REWRITTEN, 3),
        (swapped(), REWRITTEN, 3),
        (lines((0, 1), (gt, 0, 5)), REWRITTEN, 8),
        (lines((0, 1), (eq, 0, 7)), REWRITTEN, 7),
        (lines((0, 0)), UNCHANGED, None),
        (lines((0, 0), (eq, 0, 4)), REWRITTEN, 3),
        (range_alone(), UNCHANGED, None),
        (null_and_bound(), NOTHING_PASSES, 1),
        (member_and_bound([1, 2]), NOTHING_PASSES, 1),
        (member_and_bound([1, 2] * 50 + [1]), UNCHANGED, None),
        (null_and_negated_member(0), NOTHING_PASSES, 1),
        (null_and_negated_member(1), UNCHANGED, None),
        # negated lines: every comparison, alone and so rebuilt, either way round
        *((negated(code, 3, swap=swap), REWRITTEN, 3) for code in m.PLAIN for swap in (False, True)),
        (negated(eq, 3, (ge, 0, 3)), REWRITTEN, 3),
        (negated(ge, 3, (ge, 0, 3)), NOTHING_PASSES, 1),
        (negated(m.EQ_VALIDITY, 3), UNCHANGED, None),
        (negated(m.NOT_EQ_VALIDITY, 3), UNCHANGED, None),
        (negated_columns(ne), UNCHANGED, None),
        (negated_columns(ne, (gt, 0, 5)), REWRITTEN, 8),
        (negated_columns(ne, (eq, 0, 7)), REWRITTEN, 7),
        (negated_columns(lt), UNCHANGED, None),
        (negated_columns(eq, (gt, 0, 5)), UNCHANGED, None),
        (negated_and_null(), NOTHING_PASSES, 1),
        *((negated_logic(code), UNCHANGED, None) for code in (m.AND, m.OR, m.XOR, m.LOGICAL_AND, m.LOGICAL_OR)),
        (negated_twice(), UNCHANGED, None),
        (negated_shared(), NOTHING_PASSES, 1),
        # divisions: such lines are opaque and stay, those beside them merge
        (divided(m.FLOOR_DIVIDE, 100, ge, 3), UNCHANGED, None),
        (divided(m.MODULUS, 100, eq, 0), UNCHANGED, None),
        (divided(m.FLOOR_DIVIDE, 100, ge, 3, (gt, 0, 3), (gt, 0, 5)), REWRITTEN, 4),
        (divided(m.MODULUS, 0, eq, 0, (ge, 0, 3), (lt, 0, 3)), NOTHING_PASSES, 1),
        (divided(m.FLOOR_DIVIDE, 1, lt, 0, (gt, 0, 3)), UNCHANGED, None),
        (negated_division(), UNCHANGED, None),
        (divided_columns((gt, 0, 5)), UNCHANGED, None),
        (unreached_division((ge, 0, 3), (le, 0, 3)), REWRITTEN, 3),
        (unreached_division((ge, 0, 3), (lt, 0, 3)), NOTHING_PASSES, 1),
        (division_of(m.INT), UNCHANGED, None),
        (division_of(m.DAY), 7, None),
        (division_of(m.TRUTH), 7, None),
        (conjuncts(128), REWRITTEN, 3),
        (conjuncts(129), 9, None),
        (lines((gt, 0, 3)).but(root=3), 3, None),
        (tree(4096), UNCHANGED, None),
        (tree(4097), 8, None),
    ]
