"""Showing a row and checking one (02, 2.7), written from the paper alone.

It knows nothing of merging. Columns that lines set equal have one value; what the lines say of a value depends on its
place among the values that they name, so each of these, the values half a step beside it, and null are tried on all lines.
The place shown is read off those that passed: the lower bound is the greatest whole number that is not above any of them,
the upper bound the least that is not below any. Numbers are Python's, so a half is exact and nothing is beyond 64 bits.
"""

from fractions import Fraction
from math import ceil, floor

import model as m

NO_ROW, SHOWN = 256, 257
FAILS, PASSES = 256, 257
HALF = Fraction(1, 2)


def part(data):
    return m.number(data, signed=True)


def packed(places):
    """The bytes and null marks of a row: for each column None or its whole part and half part."""
    data = b"".join((x & (2**64 - 1)).to_bytes(8, "little") for place in places for x in place or (0, 0))
    return data, sum(1 << i for i, place in enumerate(places) if place is None)


def value(place):
    return None if place is None else place[0] + place[1] * HALF


def groups(s, read):
    """The columns read, those together that lines set equal."""
    records, group = m.records_of(s), {c: {c} for c in read}
    for n in m.conjuncts(s):
        r = records[n]
        if r.kind == m.BINARY and records[r.a].kind == records[r.b].kind == m.COLUMN:
            both = group[records[r.a].a] | group[records[r.b].a]
            for c in both:
                group[c] = both
    return {frozenset(g) for g in group.values()}


def line_true(records, pool, n, v):
    """Whether a line is true where its columns have the value v."""

    def cell(n):
        r = records[n]
        if r.kind == m.COLUMN:
            return v
        if r.kind == m.LITERAL:
            return r.value
        if r.kind == m.LIST:
            return pool[r.a:r.a + r.b]
        got = [cell(i) for i in r.inputs()]
        if r.kind == m.NOT:
            return m.not3(got[0])
        if r.kind == m.BINARY:
            return m.compare(r.code, *got)
        if r.kind == m.IS_BETWEEN:
            return m.between(r.code, *got)
        if r.kind == m.IS_IN:
            return m.member(*got, False, r.code == 1)
        return int((got[0] is None) == (r.kind == m.IS_NULL))

    return cell(n) == 1


def below(records, n):
    """A record and those below it."""
    r = records[n]
    return [r] + [x for i in r.inputs() for x in below(records, i)]


def place_of(tried, passing, listed):
    """The place of a column by the values that pass, of those tried, rising; None for null."""
    values = sorted(v for v in passing if v is not None)
    if not values:
        return None
    least, most = values[0], values[-1]
    if listed or least == most and least == floor(least):
        return int(least), 0
    if least > tried[0]:
        return floor(least), 1
    if most < tried[-1]:
        return ceil(most), -1
    return 0, 1


def shown(s):
    """The places shown of a plain screen that is not refused, or None if no row passes."""
    records, pool, lines = m.records_of(s), m.pool_of(s), m.conjuncts(s)
    parts = {n: below(records, n) for n in set(lines)}
    columns = {n: {r.a for r in found if r.kind == m.COLUMN} for n, found in parts.items()}
    places = [None] * len(s.table)
    for group in groups(s, set().union(*columns.values())):
        said = [n for n in parts if columns[n] & group]
        named = {r.value for n in said for r in parts[n] if r.kind == m.LITERAL} or {0}
        lists = [pool[r.a:r.a + r.b] for n in said for r in parts[n] if r.kind == m.LIST]
        named = sorted(named.union(*lists))
        tried = sorted({v + d for v in named for d in (-HALF, 0, HALF)} | {named[0] - 1, named[-1] + 1})
        passing = [v for v in [None, *tried] if all(line_true(records, pool, n, v) for n in said)]
        if not passing:
            return None
        listed = any(records[n].kind == m.IS_IN for n in said)
        for c in group:
            places[c] = place_of(tried, passing, listed)
    return places


def show_row(s, room):
    """The answer, and the row's bytes and null marks or None, in a buffer of `room` bytes."""
    refusal = m.plain_refusal(s)
    if refusal is not None:
        return refusal, None, None
    if room // 16 < len(s.table):
        return 14, None, None
    places = shown(s)
    return (NO_ROW, None, None) if places is None else (SHOWN, *packed(places))


def places_of(s, row, nulls):
    """For each column None or its two parts; None in all if the row is to be refused."""
    if len(row) != 16 * len(s.table) or nulls >> len(s.table) != 0:
        return None
    places = []
    for i in range(len(s.table)):
        whole, half = part(row[16 * i:16 * i + 8]), part(row[16 * i + 8:16 * i + 16])
        null = nulls >> i & 1
        if (whole, half) != (0, 0) if null else half not in (-1, 0, 1):
            return None
        places.append(None if null else (whole, half))
    return places


def check_row(s, row, nulls):
    refusal = m.plain_refusal(s)
    if refusal is not None:
        return refusal
    places = places_of(s, row, nulls)
    if places is None:
        return 18
    return PASSES if m.evaluate(s, [value(place) for place in places]) == 1 else FAILS


def other_spelling(place):
    """The same value by its other two parts, where it has them within 64 bits."""
    if place is None or place[1] == 0:
        return place
    whole, half = place[0] + place[1], -place[1]
    return (whole, half) if m.in_type(m.INT, whole) else place
