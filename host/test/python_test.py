#!/usr/bin/env python3
"""host/python/screen.py over the installed shared object: building, each call, refusals, and that all of it is told.

Usage: host/test/python_test.py PREFIX   (where host/install has put the library)
Ends with one line 'N passed, M failed'.
"""

import datetime
import fractions
import inspect
import os
import random
import re
import sys

PREFIX = os.path.abspath(sys.argv[1])
sys.path.insert(0, os.path.join(PREFIX, "lib", "python"))
import screen  # noqa: E402  the installed one

DAY = datetime.date
counts = {True: 0, False: 0}


def report(good, name):
    counts[bool(good)] += 1
    if not good:
        print(f"FAILED screen.py: {name}")


def refused(number, name, call):
    try:
        call()
        report(False, f"{name} is not refused")
    except screen.Refused as refusal:
        report(refusal.number == number and screen.REFUSALS[number] in str(refusal), f"{name}: {refusal}")


def raises(kind, name, call):
    try:
        call()
        report(False, f"{name} raises nothing")
    except kind:
        report(True, name)


def two_lines(*lines):
    """A screen over c0 and c1 of these lines, each a function of the screen."""
    s = screen.Screen(c0="Int", c1="Int")
    s.add(*(line(s) for line in lines))
    return s


def test_cases():
    """Cases of document 01, with rows that pass and rows that do not."""
    cases = [
        ("c0>3, c0>5", "rewritten", [{"c0": 6}], [{"c0": 5}, {}], [lambda s: s.c0 > 3, lambda s: s.c0 > 5]),
        ("c0>=3, c0<=3", "rewritten", [{"c0": 3}], [{"c0": 4}], [lambda s: s.c0 >= 3, lambda s: s.c0 <= 3]),
        ("c0>=3, c0<3", "nothing passes", [], [{"c0": 3}], [lambda s: s.c0 >= 3, lambda s: s.c0 < 3]),
        ("c0>3, c0<4", "unchanged", [], [{"c0": 3}], [lambda s: s.c0 > 3, lambda s: s.c0 < 4]),
        ("c0>=3, c0!=3", "rewritten", [{"c0": 4}], [{"c0": 3}], [lambda s: s.c0 >= 3, lambda s: s.c0 != 3]),
        ("5<c0, c0>-4", "rewritten", [{"c0": 6}], [{"c0": -5}], [lambda s: s.part(5) < s.c0, lambda s: s.c0 > -4]),
        ("c0==c1, c0>5", "rewritten", [{"c0": 6, "c1": 6}], [{"c0": 6, "c1": 7}],
         [lambda s: s.c0 == s.c1, lambda s: s.c0 > 5]),
        ("is_null, c0>1", "nothing passes", [], [{}, {"c0": 2}], [lambda s: s.c0.is_null(), lambda s: s.c0 > 1]),
        ("in, c0>2", "nothing passes", [], [{"c0": 1}], [lambda s: s.c0.is_in([1, 2]), lambda s: s.c0 > 2]),
        ("between", "unchanged", [{"c0": 1}, {"c0": 5}], [{"c0": 6}], [lambda s: s.c0.between(1, 5)]),
        ("half open", "unchanged", [{"c0": 1}], [{"c0": 5}], [lambda s: s.c0.between(1, 5, closed="left")]),
        ("or", "unchanged", [{"c0": -9}, {"c1": 1}], [{"c0": 1, "c1": 2}],
         [lambda s: (s.c0 == -9) | (s.c1 == 1)]),
        ("and", "rewritten", [{"c0": 5}], [{"c0": 3}], [lambda s: (s.c0 > 3) & (s.c0 > 4)]),
        ("xor", "unchanged", [{"c0": 1, "c1": 0}], [{"c0": 1, "c1": 1}],
         [lambda s: (s.c0 == 1) ^ (s.c1 == 1)]),
        ("distinct", "unchanged", [{"c0": 1}], [{}], [lambda s: s.c0.is_distinct_from(None)]),
        ("not distinct", "unchanged", [{}], [{"c0": 1}], [lambda s: s.c0.is_not_distinct_from(None)]),
        ("not in", "unchanged", [{"c0": 3}], [{"c0": 2}], [lambda s: ~s.c0.is_in([1, 2])]),
        ("lots", "unchanged", [{"c0": 300}, {"c0": 399}], [{"c0": 299}, {"c0": -1}, {}], [lambda s: s.c0 // 100 >= 3]),
        ("odd lots", "unchanged", [{"c0": 0}, {"c0": -200}], [{"c0": 50}, {}], [lambda s: s.c0 % 100 == 0]),
        ("lots beside bounds", "rewritten", [{"c0": 300}], [{"c0": 100}, {"c0": 301}],
         [lambda s: s.c0 % 100 == 0, lambda s: s.c0 > 3, lambda s: s.c0 > 200]),
        ("a number divided", "unchanged", [{"c0": 3}, {"c0": -4}], [{"c0": 0}, {}, {"c0": 5}],
         [lambda s: (7 // s.c0 == 2) | (7 % s.c0 == -1)]),
        ("divided twice", "unchanged", [{"c0": -7, "c1": 2}], [{"c0": 7, "c1": 2}, {"c0": 7, "c1": 0}],
         [lambda s: s.c0 // s.c1 % 3 == 2]),
        ("divided by null", "unchanged", [{}, {"c0": 1}], [], [lambda s: (s.c0 // None).is_null()]),
        ("nulls equal", "unchanged", [{}, {"c0": 1}], [{"c0": 2}],
         [lambda s: s.c0.is_in([1, None], nulls_equal=True)]),
    ]
    for name, answer, passing, others, lines in cases:
        s = two_lines(*lines)
        before = [s.test_row(row) for row in passing + others]
        report(s.check() == "accepted", f"{name}: not accepted")
        report([truth is True for truth in before] == [True] * len(passing) + [False] * len(others), f"{name}: rows")
        report(s.rewrite() == answer, f"{name}: another answer")
        after = [s.test_row(row) for row in passing + others]
        s.copy_reached()
        copied = [s.test_row(row) for row in passing + others]
        report([t is True for t in before] == [t is True for t in after] and after == copied, f"{name}: other rows")
        report(all(n == s.root or n < s.root for n in range(s.used)) and s.root == s.used - 1, f"{name}: the copy")


def test_types():
    s = screen.Screen(strike="Int", expiry="Day", halted="Truth")
    s.add(s["strike"] >= -100, s.expiry <= DAY(2026, 12, 18), ~s.halted, s.expiry.is_not_null())
    report(s.columns_read() == ["strike", "expiry", "halted"], "columns_read")
    row = {"strike": -100, "expiry": DAY(2026, 12, 18), "halted": False}
    report(s.test_row(row) is True, "a row that passes")
    report(s.test_row({**row, "expiry": DAY(2026, 12, 19)}) is False, "a day too late")
    report(s.test_row({**row, "expiry": DAY(1969, 12, 31)}) is True, "a day before 1970")
    report(s.test_row({**row, "halted": None}) is None, "unknown")
    report(s.test_row({**row, "strike": -101}) is False, "a strike below")
    report(s.test_row({**row, "strike": 20805, "expiry": 20805}) is True, "a day as its number")


def test_reasons():
    s = screen.Screen(strike="Int", expiry="Day", spot="Int")
    s.add(s.spot == s.strike, s.strike > 5, s.spot > 5, s.spot > 4, s.expiry != DAY(1969, 12, 31))
    report(s.rewrite() == "rewritten", "reasons: not rewritten")
    report(s.reasons == [("spot", "Gt", 5, 2), ("strike", "Gt", 5, 1), ("expiry", "NotEq", -1, 4)], "reasons")
    report(s.rewrite() == "unchanged" and s.reasons == [], "reasons of a screen that is not rewritten")
    s = screen.Screen(strike="Int")
    s.add(s.strike <= 2**63 - 1, s.strike > -2**63, s.strike > -2**63)
    report(s.rewrite() == "rewritten", "reasons: extremes")
    report(s.reasons == [("strike", "Gt", -2**63, 1), ("strike", "LtEq", 2**63 - 1, 0)], "reasons: extremes")


def test_slowest():
    for columns in (2, 3, 64):
        s = screen.Screen.slowest(columns)
        report(s.check() == "accepted" and s.used == 3 * columns, f"the slowest screen of {columns} columns")
        report(s.rewrite() == "rewritten" and s.passes == columns, f"as many passes as {columns} columns")
    for columns in (0, 1, 65):
        refused(19, f"{columns} columns", lambda: screen.Screen.slowest(columns))


def test_line_in_the_way():
    s = screen.Screen(c0="Int", c1="Int", c2="Truth")
    s.add(s.c0 > 3, s.c0 < 4)
    report(s.line_in_the_way() == "passes", "a row half way passes")
    s.add(s.c1 > 5, s.c1 < 5)
    report(s.line_in_the_way() == 2, "the first line in the way")
    s.add(s.c0 == 7)
    report(s.line_in_the_way() is None, "no single line")
    s.add(s.c2.is_null())
    refused(17, "a screen that is not plain", s.line_in_the_way)


def test_rows():
    half = fractions.Fraction(1, 2)
    s = screen.Screen(c0="Int", c1="Int", c2="Day", c3="Truth")
    s.add(s.c0 > 3, s.c0 < 4)
    row = s.show_row()
    report(row == {"c0": 3 + half, "c1": None, "c2": None, "c3": None}, "a row half way between two")
    report(s.check_row(row) is True and s.check_row({"c0": 4 - half}) is True, "it passes")
    report(s.check_row({"c0": 3}) is False and s.check_row({}) is False, "its neighbour and null do not")
    s = screen.Screen(c0="Int", c1="Int", c2="Day")
    s.add(s.c0.is_in([2, 1]), s.c1.is_in([1, 2]), s.c0 == s.c1, s.c2 == DAY(2026, 12, 18))
    row = s.show_row()
    report(row == {"c0": 1, "c1": 1, "c2": 20805}, "the smallest value of both lists")
    report(s.check_row(row) is True and s.test_row(row) is True, "it passes both")
    report(s.check_row({**row, "c2": DAY(2026, 12, 18), "c1": 2}) is False, "values that are not equal")
    s.add(s.c0 > 2)
    report(s.show_row() is None, "no row")
    s = screen.Screen(c0="Int")
    s.add(s.c0 <= -2**63)
    report(s.show_row() == {"c0": -2**63 - half}, "below the least")
    report(s.check_row(s.show_row()) is True and s.check_row({"c0": half - 2**63}) is False, "the least and a half")
    report(s.check_row({"c0": fractions.Fraction(-2**63)}) is True, "a whole Fraction")
    raises(ValueError, "a third", lambda: s.check_row({"c0": half / 3}))
    raises(OverflowError, "beyond 64 bits", lambda: s.check_row({"c0": 2**63}))
    raises(KeyError, "an unknown cell", lambda: s.check_row({"c9": 1}))
    raises(TypeError, "a cell that is no number", lambda: s.check_row({"c0": 0.5}))
    s.add((s.c0 > 1) | (s.c0 > 2))
    refused(17, "showing of a screen that is not plain", s.show_row)
    refused(17, "checking of a screen that is not plain", lambda: s.check_row({}))


def test_refusals():
    s = screen.Screen(c0="Int", c1="Day", c2="Truth")
    refused(3, "an empty screen", s.check)
    s.add(s.c0)
    refused(7, "a line that is no truth", s.check)
    s = screen.Screen(c0="Int")
    s.add(~(s.c0 < 100))
    report(s.rewrite() == "rewritten" and s.columns_read() == ["c0"], "not above a comparison is turned")
    s = screen.Screen(c0="Int", c1="Day")
    s.add(s.c1 // 7 == 1)
    refused(7, "a day divided", s.check)
    s = screen.Screen(c0="Int")
    s.add(s.put(screen.BINARY, code=12, a=s.c0.record, b=s.part(2).record) == 1)
    refused(6, "arithmetic that is left out", s.check)
    s = screen.Screen(**{f"c{i}": "Int" for i in range(65)})
    s.add(s.c0 > 1)
    refused(1, "65 columns", s.columns_read)
    s = screen.Screen(c0="Int")
    s.add(*(s.c0 > i for i in range(129)))
    before = s.used, s.root, s.records.raw
    refused(9, "129 lines", s.rewrite)
    report((s.used, s.root, s.records.raw) == before, "a refusal changes nothing")
    s = screen.Screen(c0="Int")
    s.add(s.c0 > 3, s.c0 > 5)
    while s.used < screen.MAX_RECORDS - 3:
        s.part(1)
    report(s.rewrite() == "rewritten" and s.used == screen.MAX_RECORDS, "all records are lent")
    s = screen.Screen(c0="Day", c1="Truth")
    s.add(s.c1)
    refused(13, "a day beyond 32 bits", lambda: s.test_row({"c0": 1 << 40}))
    refused(13, "a truth of 2", lambda: s.test_row({"c1": 2}))
    refused(5, "a record of no column", lambda: s.add(s.put(screen.COLUMN, a=7)) or s.check())


def test_hedge_list():
    """Rows by name and already packed, blocks of a longer chain, every class, the tally and its two views."""
    s = screen.Screen(strike="Int", expiry="Day", halted="Truth")
    s.add(s.strike // 10 >= 3, s.expiry <= DAY(2026, 12, 18), ~s.halted)
    rows = [{"strike": n, "expiry": DAY(2026, 12, 10 + n % 12), "halted": None if n % 7 == 6 else n % 5 == 4}
            for n in range(1024)]
    want, tally = [s.test_row(row) for row in rows], screen.Tally()
    numbers = [n for n, truth in enumerate(want) if truth is True]
    counts = tuple(sum(truth is kind for truth in want) for kind in (True, False, None))
    report(s.hedge_list(rows, tally) == numbers and min(counts) > 0, "the list")
    report(tally.risk_view() == counts, "the risk view")
    report(tally.trader_view() == (counts[0], counts[1] + counts[2]), "the trader's view")
    report(s.hedge_list(s.pack(rows), tally) == numbers and tally.passed == 2 * counts[0], "a packed chain")
    chain, blocks = s.pack(rows), screen.Tally()
    parts = [s.hedge_list(screen.Chain(chain.values[24 * n:24 * (n + 100)], chain.nulls[n:n + 100]), blocks)
             for n in range(0, 1024, 100)]
    report([100 * k + n for k, part in enumerate(parts) for n in part] == numbers and blocks.risk_view() == counts,
           "a chain in blocks")
    s.rewrite()
    s.copy_reached()
    tidied = screen.Tally()
    report(s.hedge_list(rows, tidied) == numbers and tidied.trader_view() == blocks.trader_view(), "the list as tidied")
    report(s.hedge_list([], tidied) == [] and tidied.passed == counts[0], "no rows")
    before = tidied.risk_view()
    refused(20, "1,025 rows", lambda: s.hedge_list(rows + rows[:1], tidied))
    refused(12, "values of a row less", lambda: s.hedge_list(screen.Chain(bytes(24), [7, 7]), tidied))
    refused(13, "a truth of 2 in the last row", lambda: s.hedge_list([*rows[:1023], {"halted": 2}], tidied))
    refused(13, "a mark beyond the columns", lambda: s.hedge_list(screen.Chain(bytes(24), [8]), tidied))
    report(tidied.risk_view() == before, "a refused chain adds nothing")
    full = screen.Tally(2**64 - counts[0], 0, 0)
    refused(21, "passed beyond 64 bits", lambda: s.hedge_list(rows, full))
    full = screen.Tally(0, 2**63, 2**63)
    refused(21, "not passed beyond 64 bits", full.trader_view)
    report(full.risk_view() == (0, 2**63, 2**63), "the risk view of it")
    raises(KeyError, "an unknown cell in a chain", lambda: s.hedge_list([{"c9": 1}], tidied))
    raises(TypeError, "a tally of another kind", lambda: s.hedge_list(rows, [0, 0, 0]))
    none = screen.Screen()
    none.add(True)
    report(none.hedge_list([{}] * 3, tidied) == [0, 1, 2], "no columns")


def test_files():
    """What is saved is loaded, with the same rows; lines can be added to it; a damaged file is refused."""
    s = screen.Screen(strike="Int", expiry="Day", halted="Truth")
    s.add(s.strike.is_in([-5, 7, None]), s.expiry <= DAY(2026, 12, 18), ~s.halted, s.strike > -9, s.strike > -7)
    file, rows = s.save(), [{"strike": n, "expiry": DAY(2026, 12, d), "halted": h}
                            for n in (-5, 6, 7, None) for d in (18, 19) for h in (False, True, None)]
    report(len(file) == 4 * 512 and isinstance(file, bytes), "the file's length")
    same = screen.Screen.load(file, names=["strike", "expiry", "halted"])
    report((same.names, same.kinds, same.used, same.root, same.values, same.records.raw, same.pool.raw) ==
           (s.names, s.kinds, s.used, s.root, s.values, s.records.raw, s.pool.raw), "the loaded screen")
    report([same.test_row(r) for r in rows] == [s.test_row(r) for r in rows] and same.save() == file, "its rows")
    plain = screen.Screen.load(bytearray(file))
    report(plain.names == ["c0", "c1", "c2"] and plain.columns_read() == ["c0", "c1", "c2"], "names of its own")
    plain.add(plain.c0 == 7)
    report(plain.rewrite() == "rewritten" and plain.test_row({"c0": 7, "c1": DAY(2026, 1, 1), "c2": False}) is True and
           plain.test_row({"c0": -5, "c1": DAY(2026, 1, 1), "c2": False}) is False, "a line added to a loaded screen")
    raises(ValueError, "too few names", lambda: screen.Screen.load(file, names=["strike"]))
    raises(ValueError, "a name twice", lambda: screen.Screen.load(file, names=["a", "b", "a"]))
    refused(15, "a damaged file", lambda: screen.Screen.load(file[:700] + b"\x55" + file[701:]))
    refused(15, "a byte less", lambda: screen.Screen.load(file[:-1]))
    refused(15, "no byte", lambda: screen.Screen.load(b""))
    refused(3, "an empty screen saved", screen.Screen(c0="Int").save)
    s = screen.Screen(**{f"c{i}": "Int" for i in range(64)})
    s.add(s.c63.is_in(range(8192)))
    while s.used < screen.MAX_RECORDS:
        s.part(1)
    s.text += bytes(screen.MAX_TEXT_BYTES)
    report(len(s.save()) == screen.MAX_FILE_BYTES and screen.Screen.load(s.save()).save() == s.save(), "the largest")


def test_python():
    s = screen.Screen(c0="Int", c1="Day")
    raises(TypeError, "and for &", lambda: s.c0 > 1 and s.c0 > 2)
    raises(KeyError, "an unknown column", lambda: s["c9"])
    raises(AttributeError, "an unknown attribute", lambda: s.c9)
    raises(KeyError, "an unknown cell", lambda: s.test_row({"c9": 1}))
    raises(TypeError, "a day in a column of numbers", lambda: s.test_row({"c0": DAY(2026, 1, 1)}))
    raises(TypeError, "a number with a point", lambda: s.c0 > 1.5)
    raises(OverflowError, "a number beyond 64 bits", lambda: s.test_row({"c0": 1 << 63}))
    raises(ValueError, "a part of another screen", lambda: s.c0 == screen.Screen(c0="Int").c0)
    raises(KeyError, "an unknown type", lambda: screen.Screen(c0="Float"))
    raises(screen.Full, "too many records", lambda: [s.c0 for _ in range(4097)])
    raises(screen.Full, "too many values", lambda: screen.Screen(c0="Int").c0.is_in(range(8193)))


def test_divisions():
    """// and % are Python's, but for the three ways to a null."""
    least, values = -2**63, (-2**63, 1 - 2**63, -101, -100, -99, -7, -2, -1, 0, 1, 2, 7, 99, 100, 101, 2**63 - 1)
    s = screen.Screen(a="Int", b="Int", q="Int", r="Int")
    s.add((s.a // s.b).is_not_distinct_from(s.q), (s.a % s.b).is_not_distinct_from(s.r))
    for a in (None, *values):
        for b in (None, *values):
            null = a is None or b is None or b == 0 or (a, b) == (least, -1)
            row = {"a": a, "b": b, "q": None if null else a // b, "r": None if null else a % b}
            report(s.test_row(row) is True, f"{a} by {b}")
            report(s.test_row({**row, "q": 77}) is (row["q"] == 77), f"another quotient of {a} by {b}")
            report(s.test_row({**row, "r": 77}) is (row["r"] == 77), f"another remainder of {a} by {b}")


def test_symbols():
    """Symbols as str and bytes: compared, listed, merged with their reasons, run on a chain, saved."""
    s = screen.Screen(u="Text", k="Int")
    s.add(s.u >= "NDX", s.u >= b"SP", s.u != "SPY", s.u.is_in(["SPX", "SPY", "SP"]), s.k > 3)
    report(s.check() == "accepted" and s.text == b"NDXSPSPYSPX", "a screen with symbols")
    rows = [{"u": "SPX", "k": 4}, {"u": "SPY", "k": 4}, {"u": "SP", "k": 4}, {"k": 4}, {"u": "ZZZ", "k": 4}]
    want = [True, False, True, None, False]
    report([s.test_row(row) for row in rows] == want and s.text == b"NDXSPSPYSPX", "rows with symbols")
    tally = screen.Tally()
    report(s.hedge_list(rows, tally) == [0, 2] and tally.risk_view() == (2, 2, 1), "a chain with symbols")
    report(s.rewrite() == "rewritten" and ("u", "GtEq", b"SP", 1) in s.reasons, "reasons with symbols")
    report([s.test_row(row) for row in rows] == want, "rows with symbols after rewriting")
    again = screen.Screen.load(s.save(), s.names)
    report(again.text == s.text and [again.test_row(row) for row in rows] == want, "a saved screen with symbols")
    for wrong, error in ((7, TypeError), ("x" * 17, ValueError)):
        try:
            s.test_row({"u": wrong})
        except error:
            report(True, "")
        else:
            report(False, f"{wrong!r} as a symbol")
    try:
        s.line_in_the_way()
    except screen.Refused as refused:
        report(refused.number == 17, "a screen with symbols is not plain")


def test_random():
    """The same rows pass before and after, and of the copy; Python itself says which rows are true."""
    pick = random.Random(1)
    answers = {}
    compare = {"<": lambda a, b: a < b, "<=": lambda a, b: a <= b, ">": lambda a, b: a > b, ">=": lambda a, b: a >= b,
               "==": lambda a, b: a == b, "!=": lambda a, b: a != b}
    for _ in range(300):
        s = screen.Screen(a="Int", b="Int")
        lines = [(pick.choice("ab"), pick.choice(list(compare)), pick.randrange(-3, 4))
                 for _ in range(1 + pick.randrange(6))]
        s.add(*(compare[sign](s[name], value) for name, sign, value in lines))
        rows = [{"a": a, "b": b} for a in range(-4, 5, 2) for b in range(-4, 5)]
        want = [all(compare[sign](row[name], value) for name, sign, value in lines) for row in rows]
        typed = [s.test_row(row) for row in rows]
        answer = s.rewrite()
        answers[answer] = answers.get(answer, 0) + 1
        tidied = [s.test_row(row) for row in rows]
        s.copy_reached()
        report(typed == want and tidied == want and [s.test_row(row) for row in rows] == want, f"{lines}")
    report(len(answers) == 3 and min(answers.values()) > 10, f"random screens: {answers}")


def test_told():
    """Every public name has a docstring; numbers and sentences are those of the header."""
    for name, thing in [*vars(screen).items(), *vars(screen.Screen).items(), *vars(screen.Part).items()]:
        thing = getattr(thing, "__func__", thing)  # of a classmethod
        if not name.startswith("_") and (inspect.isfunction(thing) or inspect.isclass(thing)):
            report(inspect.getdoc(thing), f"{name} has no docstring")
    header = open(os.path.join(PREFIX, "include", "screen.h")).read()
    numbers = {name: int(value) for name, value in re.findall(r"SCREEN_(\w+) = (\d+)", header)}
    for name, text in re.findall(r"case SCREEN_(REFUSED_\w+):\s+return ((?:\"[^\"]*\"\s*)+);", header):
        report(screen.REFUSALS.get(numbers[name]) == "".join(re.findall(r'"([^"]*)"', text)), f"the sentence of {name}")
    report(len(screen.REFUSALS) == sum(name.startswith("REFUSED_") for name in numbers), "as many sentences")
    for name in ("COLUMN", "LITERAL", "NULL", "BINARY", "NOT", "IS_NULL", "IS_NOT_NULL", "IS_BETWEEN", "LIST", "IS_IN"):
        report(getattr(screen, name) == numbers[f"KIND_{name}"], f"the kind {name}")
    for name in ("EQ", "EQ_VALIDITY", "NOT_EQ", "NOT_EQ_VALIDITY", "LT", "LT_EQ", "GT", "GT_EQ", "FLOOR_DIVIDE",
                 "MODULUS", "AND", "OR", "XOR"):
        report(getattr(screen, name) == numbers[f"OP_{name}"], f"the operator {name}")
    for name in ("MAX_RECORDS", "MAX_POOL_VALUES", "RECORD_BYTES", "VALUE_BYTES", "MAX_FILE_BYTES", "MAX_ROWS",
                 "PLACE_BYTES", "CELL_BYTES", "MAX_REASONS_BYTES", "MAX_TEXT_BYTES", "MAX_SYMBOL_BYTES"):
        report(getattr(screen, name) == numbers[name], name)
    version = tuple(int(re.search(rf"SCREEN_VERSION_{part} (\d+)", header)[1]) for part in ("MAJOR", "MINOR"))
    report(screen.VERSION == version, "the version")
    calls = set(re.findall(r"^uint32_t (screen_\w+)\(", header, re.M))
    used = set(re.findall(r'_(?:call|view)\("(\w+)"', open(screen.__file__).read()))
    report(calls == used, f"the calls of the header: {calls ^ used}")


for test in (test_cases, test_types, test_reasons, test_slowest, test_line_in_the_way, test_rows, test_refusals,
             test_hedge_list, test_files, test_python, test_divisions, test_symbols, test_random, test_told):
    test()
print(f"{counts[True]} passed, {counts[False]} failed")
sys.exit(counts[False] != 0)
