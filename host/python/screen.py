"""Option screens from Python: put together, checked, merged, run on rows and saved by the proved library libscreen.so.

    import datetime, screen
    s = screen.Screen(strike="Int", expiry="Day", halted="Truth", underlying="Text")
    s.add(s.strike > 3, s.strike >= 5, s.expiry <= datetime.date(2026, 12, 18), ~s.halted, s.underlying == "SPX")
    s.rewrite()                                     # 'rewritten'
    s.reasons                                       # [('strike', 'GtEq', 5, 1), ..]: the line behind each limit
    s.test_row({"strike": 7, "expiry": None, "halted": False})   # True, False, or None for unknown
    tally = screen.Tally()                          # the desk's running tally, added to where it is kept
    s.hedge_list([{"strike": 7}, {"strike": 4}], tally)   # the numbers of the rows that pass

Columns are attributes of the screen (or s["strike"]); comparisons of them, joined by & and |, are lines, and // and % of
Ints are values: s.size // 100 >= 3. A value is an int, a datetime.date, a bool, a str or bytes for a symbol of at most 16
bytes (a str in UTF-8), or None for null. A refusal raises
Refused, which has the library's number; then nothing is changed. include/screen.h says of each call what is promised.
"""

import ctypes
import datetime
import fractions
import os

VERSION = (5, 0)  # of include/screen.h

INT, DAY, TRUTH, TEXT = 1, 2, 3, 4
TYPES = {"Int": INT, "Day": DAY, "Truth": TRUTH, "Text": TEXT}
(COLUMN, LITERAL, NULL, BINARY, NOT, IS_NULL, IS_NOT_NULL, IS_BETWEEN, LIST, IS_IN) = range(1, 11)
(EQ, EQ_VALIDITY, NOT_EQ, NOT_EQ_VALIDITY, LT, LT_EQ, GT, GT_EQ) = range(8)
FLOOR_DIVIDE, MODULUS = 13, 14
AND, OR, XOR = 15, 16, 17
CLOSED = {"both": 0, "left": 1, "right": 2, "none": 3}
INPUTS = {BINARY: 2, NOT: 1, IS_NULL: 1, IS_NOT_NULL: 1, IS_BETWEEN: 3, IS_IN: 2}
MAX_RECORDS, MAX_POOL_VALUES, RECORD_BYTES, VALUE_BYTES, MAX_FILE_BYTES = 4096, 8192, 16, 8, 145920
MAX_ROWS, PLACE_BYTES, CELL_BYTES, MAX_REASONS_BYTES = 1024, 2, 16, 48128
MAX_TEXT_BYTES, MAX_SYMBOL_BYTES = 8192, 16

REFUSALS = {
    1: "The table has more than 64 columns, or a column of an unknown type.",
    2: "More than 4,096 records are used or more than were lent, the pool is over 8,192 values or ends inside a value, or "
       "the text is over 8,192 bytes.",
    3: "The root is not one of the used records.",
    4: "A record has an unknown kind, code or type, an unused field that is not zero, or a literal outside its type.",
    5: "A record names an input that is not before it, a column that does not exist, or a list that is not in the pool "
       "or has a value outside its type.",
    6: "A record uses an arithmetic operator other than FloorDivide and Modulus.",
    7: "The types of a record's inputs do not fit it, or the root is not a truth.",
    8: "The screen has more than 4,096 records, shared ones counted each time they are reached.",
    9: "The screen has more than 128 conjuncts, shared ones counted each time they are reached.",
    11: "The rewritten screen has no room: it would pass 4,096 records or those lent, or its tree would have more than "
        "4,096.",
    12: "The row does not have exactly eight bytes for each column.",
    13: "The row has a null mark beyond its columns, a value outside its column's type, or a null whose value is not "
        "zero.",
    14: "A lent buffer is too short for the file, for what the file holds, or for the row shown.",
    15: "This is not a saved screen, or it was damaged.",
    16: "The text buffer is too short for the reasons of the rewritten screen.",
    17: "The screen is not plain: a line is not one of the plain forms, or a Truth or Text column is read.",
    18: "The row does not have exactly 16 bytes for each column, or it has a half part other than -1, 0 and +1, a null mark "
        "beyond its columns, or a null whose parts are not zero.",
    19: "The slowest screen is built for 2 to 64 columns.",
    20: "The chain has more than 1,024 rows, or the list buffer has fewer places than the chain has rows.",
    21: "A sum of the tally, or its false and unknown rows together, would pass 64 bits.",
}


class Refused(Exception):
    """The library refused a call; `number` says why, and nothing was changed."""

    def __init__(self, number):
        super().__init__(f"number {number}: {REFUSALS.get(number, 'No refusal has this number.')}")
        self.number = number


class Full(Exception):
    """A screen has no room for another record, value or symbol."""


_library = None


def load(path=None):
    """Loads the shared object: from `path`, $SCREEN_LIBRARY, beside this file's folder, or where the system looks."""
    global _library
    beside = os.path.join(os.path.dirname(os.path.dirname(os.path.abspath(__file__))), f"libscreen.so.{VERSION[0]}")
    path = path or os.environ.get("SCREEN_LIBRARY") or (beside if os.path.exists(beside) else None)
    _library = ctypes.CDLL(path or f"libscreen.so.{VERSION[0]}")
    return _library


def _call(name, *arguments):
    """A call of the library; slices are (buffer, length in bytes), other numbers are 64 bits wide."""
    function = getattr(_library or load(), name)
    function.restype = ctypes.c_uint32
    answer = function(*arguments)
    if answer < 256:
        raise Refused(answer)
    return answer


def _slice(buffer, length):
    return ctypes.c_char_p(buffer) if isinstance(buffer, bytes) else buffer, ctypes.c_size_t(length)


def _number(value, kind):
    """A value as the 64 bits that the library takes."""
    if kind == DAY and isinstance(value, datetime.date):
        return value.toordinal() - datetime.date(1970, 1, 1).toordinal()
    if isinstance(value, datetime.date) or not isinstance(value, int):
        raise TypeError(f"{value!r} is no value of this column's type")
    return int(value)


def _symbol(value, text):
    """A symbol as its 64 bits, start and length in `text`, to which its bytes are appended if they are not in it."""
    if isinstance(value, str):
        value = value.encode()
    if not isinstance(value, bytes):
        raise TypeError(f"{value!r} is no symbol")
    if len(value) > MAX_SYMBOL_BYTES:
        raise ValueError(f"{value!r} has more than 16 bytes")
    start = text.find(value)
    if start < 0:
        if len(text) + len(value) > MAX_TEXT_BYTES:
            raise Full("the symbols of a screen and of its rows have at most 8,192 bytes together")
        start = len(text)
        text += value
    return start | len(value) << 32


def _half(value, kind):
    """A value as its whole part and its half part; a Fraction may be half way between two whole numbers."""
    if kind == TEXT:
        return 0, 0  # a plain screen reads no symbol: any value will do
    if not isinstance(value, fractions.Fraction):
        return _number(value, kind), 0
    if value.denominator > 2:
        raise ValueError(f"{value} is no whole number and not half way between two")
    whole = value.numerator // value.denominator
    if value.denominator == 1:
        return whole, 0
    return (whole, 1) if whole >= -2**63 else (whole + 1, -1)


def _kind_of(value):
    """The type of a Python value; None of None, which takes the other side's."""
    if value is None:
        return None
    if isinstance(value, bool):
        return TRUTH
    if isinstance(value, (str, bytes)):
        return TEXT
    return DAY if isinstance(value, datetime.date) else INT


class Tally(ctypes.Structure):
    """A desk's running tally: rows that passed, were false, were unknown. It begins with zeros; hedge_list adds."""

    _fields_ = [("passed", ctypes.c_uint64), ("is_false", ctypes.c_uint64), ("unknown", ctypes.c_uint64)]

    def _view(self, name, count):
        numbers = [ctypes.c_uint64() for _ in range(count)]
        _call(name, ctypes.byref(self), *map(ctypes.byref, numbers))
        return tuple(number.value for number in numbers)

    def trader_view(self):
        """screen_trader_view: (passed, not passed). Refused with 21 if the latter passes 64 bits."""
        return self._view("screen_trader_view", 2)

    def risk_view(self):
        """screen_risk_view: (passed, false, unknown). Never refused."""
        return self._view("screen_risk_view", 3)


class Chain:
    """Rows as the library takes them: the values row after row as bytes, and a word of null marks a row.

    Screen.pack makes one of rows by name; a host that has its rows as bytes makes its own. Its symbols lie in `text`, which
    begins with the screen's own; None is the screen's.
    """

    def __init__(self, values, nulls, text=None):
        self.values, self.nulls, self.text = bytes(values), (ctypes.c_uint64 * len(nulls))(*nulls), text


class Part:
    """A part of a screen: a column, a value, or what is said of them. Comparisons, //, %, &, | and ~ make new ones.

    // and % are Python's own, rounded down, but a null, a zero divisor and -2**63 by -1 give null.
    """

    def __init__(self, screen, record, kind):
        self.screen, self.record, self.kind = screen, record, kind

    def _compare(self, code, other):
        other = self.screen.part(other, self.kind)
        return self.screen.put(BINARY, code=code, a=self.record, b=other.record)

    def __eq__(self, other):
        return self._compare(EQ, other)

    def __ne__(self, other):
        return self._compare(NOT_EQ, other)

    def __lt__(self, other):
        return self._compare(LT, other)

    def __le__(self, other):
        return self._compare(LT_EQ, other)

    def __gt__(self, other):
        return self._compare(GT, other)

    def __ge__(self, other):
        return self._compare(GT_EQ, other)

    def _divide(self, code, dividend, divisor):
        dividend, divisor = self.screen.part(dividend, INT), self.screen.part(divisor, INT)
        return self.screen.put(BINARY, code=code, a=dividend.record, b=divisor.record, result=INT)

    def __floordiv__(self, other):
        return self._divide(FLOOR_DIVIDE, self, other)

    def __rfloordiv__(self, other):
        return self._divide(FLOOR_DIVIDE, other, self)

    def __mod__(self, other):
        return self._divide(MODULUS, self, other)

    def __rmod__(self, other):
        return self._divide(MODULUS, other, self)

    def __and__(self, other):
        return self._compare(AND, other)

    def __or__(self, other):
        return self._compare(OR, other)

    def __xor__(self, other):
        return self._compare(XOR, other)

    def __invert__(self):
        return self.screen.put(NOT, a=self.record)

    __hash__ = None

    def __bool__(self):
        raise TypeError("a part of a screen is neither true nor false; join parts by & and |, not by and and or")

    def is_null(self):
        """Is it null? Never unknown."""
        return self.screen.put(IS_NULL, a=self.record)

    def is_not_null(self):
        """Is it not null? Never unknown."""
        return self.screen.put(IS_NOT_NULL, a=self.record)

    def is_distinct_from(self, other):
        """Not equal, null taken as a value."""
        return self._compare(NOT_EQ_VALIDITY, other)

    def is_not_distinct_from(self, other):
        """Equal, null taken as a value."""
        return self._compare(EQ_VALIDITY, other)

    def between(self, low, high, closed="both"):
        """From low to high; `closed` says which ends belong to it: both, left, right or none."""
        low, high = self.screen.part(low, self.kind), self.screen.part(high, self.kind)
        return self.screen.put(IS_BETWEEN, code=CLOSED[closed], a=self.record, b=low.record, c=high.record)

    def is_in(self, values, nulls_equal=False):
        """Is it one of these values? None stands for null; nulls_equal: a null is in a list that holds one."""
        values = list(values)
        start, count = self.screen.put_values([v for v in values if v is not None], self.kind)
        listed = self.screen.put(LIST, code=int(None in values), kind=self.kind, a=start, b=count)
        return self.screen.put(IS_IN, code=int(nulls_equal), a=self.record, b=listed.record)


class Screen:
    """A screen over columns given by name and type: Screen(strike="Int", expiry="Day", halted="Truth").

    Lines are added with add(); the calls of the library are check, rewrite, test_row, hedge_list, columns_read, save,
    load and slowest.
    """

    def __init__(self, **columns):
        self.names = list(columns)
        self.kinds = [TYPES[kind] for kind in columns.values()]
        self.records = ctypes.create_string_buffer(RECORD_BYTES * MAX_RECORDS)
        self.pool = ctypes.create_string_buffer(VALUE_BYTES * MAX_POOL_VALUES)
        self.text = bytearray()
        self.used = self.values = self.root = 0

    def __getitem__(self, name):
        number = self.names.index(name) if name in self.names else None
        if number is None:
            raise KeyError(name)
        return self.put(COLUMN, a=number, result=self.kinds[number])

    def __getattr__(self, name):
        if name in self.__dict__.get("names", ()):
            return self[name]
        raise AttributeError(name)

    # ------------------------------------------------------------------------------------------ putting it together

    def put(self, what, code=0, kind=0, a=0, b=0, c=0, result=TRUTH):
        """Appends a record, its fields as include/screen.h names them, and answers it as a Part."""
        if self.used >= MAX_RECORDS:
            raise Full("a screen has at most 4,096 records")
        fields = bytes((what, code, kind, 0)) + b"".join(n.to_bytes(4, "little") for n in (a, b, c))
        at = RECORD_BYTES * self.used
        self.records[at:at + RECORD_BYTES] = fields
        self.used += 1
        return Part(self, self.used - 1, result)

    def put_values(self, values, kind):
        """Appends values of a list to the pool; answers where they start and how many they are."""
        if self.values + len(values) > MAX_POOL_VALUES:
            raise Full("the lists of a screen have at most 8,192 values together")
        start = self.values
        for value in values:
            at = VALUE_BYTES * self.values
            self.pool[at:at + VALUE_BYTES] = self._bits(value, kind, self.text).to_bytes(8, "little", signed=True)
            self.values += 1
        return start, len(values)

    @staticmethod
    def _bits(value, kind, text):
        return _symbol(value, text) if kind == TEXT else _number(value, kind)

    def part(self, value, kind=None):
        """A Part as it is, another value as a literal, None as a null of the type `kind`."""
        if isinstance(value, Part):
            if value.screen is not self:
                raise ValueError("a part of another screen")
            return value
        if value is None:
            return self.put(NULL, kind=kind or TRUTH, result=kind or TRUTH)
        kind = _kind_of(value)
        bits = self._bits(value, kind, self.text) & (1 << 64) - 1
        return self.put(LITERAL, kind=kind, b=bits & 0xffffffff, c=bits >> 32, result=kind)

    def add(self, *lines):
        """Joins lines to those before them: a row passes if all are true of it."""
        for line in lines:
            line = self.part(line, TRUTH)
            if self.__dict__.get("_begun"):
                self.root = self.put(BINARY, code=AND, a=self.root, b=line.record).record
            else:
                self.root = line.record
            self._begun = True

    # ------------------------------------------------------------------------------------------------------ the calls

    def _lent(self, text=None):
        """The parameters that every call takes first; `text` where rows bring symbols of their own."""
        text = bytes(self.text if text is None else text)
        return (*_slice(bytes(self.kinds), len(self.kinds)), *_slice(self.records, len(self.records)),
                *_slice(self.pool, VALUE_BYTES * self.values), *_slice(text, len(text)), ctypes.c_uint64(self.used),
                ctypes.c_uint64(self.root))

    def check(self):
        """screen_check: is this a well-formed screen? Answers 'accepted', or raises Refused with 1 to 7."""
        _call("screen_check", *self._lent())
        return "accepted"

    def rewrite(self):
        """screen_rewrite: merges the lines. Answers 'unchanged', 'nothing passes' or 'rewritten'.

        The screen becomes the one returned: a row passes it exactly if it passed before. What it was stays among its
        records; copy_reached leaves it behind. `passes` is then how many passes over the equalities were made, and
        `reasons` has the line behind each comparison written: column, operator, value, a symbol's as bytes, and the number of
        the line among those of the screen that it was, from 0. Refused with 1 to 7, 8, 9, 11.
        """
        root, used, passes = ctypes.c_uint64(self.root), ctypes.c_uint64(self.used), ctypes.c_uint64()
        text, length = (ctypes.c_uint8 * MAX_REASONS_BYTES)(), ctypes.c_uint64()
        answer = _call("screen_rewrite", *self._lent(), text, ctypes.c_size_t(MAX_REASONS_BYTES), ctypes.byref(root),
                       ctypes.byref(used), ctypes.byref(length), ctypes.byref(passes))
        self.root, self.used, self.passes = root.value, used.value, passes.value
        words = (line.split() for line in bytes(text[:length.value]).decode().splitlines())
        self.reasons = [(self.names[int(column)], operator, bytes.fromhex(value[1:]) if value[0] == "t" else int(value), int(line))
                        for column, operator, value, line in words]
        return ("unchanged", "nothing passes", "rewritten")[answer - 256]

    def line_in_the_way(self):
        """screen_line_in_the_way: 'passes' if some row passes; else the first line, counted from 0, whose removal makes
        some row pass, or None if no single line does. Refused with 1 to 7, 8, 9, 17."""
        line = ctypes.c_uint64()
        answer = _call("screen_line_in_the_way", *self._lent(), ctypes.byref(line))
        return ("passes", line.value, None)[answer - 256]

    def show_row(self):
        """screen_show_row: a row that passes, as test_row and check_row take it, or None if none does.

        Each column has its value by its name, None for null; half way between two whole numbers it is a
        fractions.Fraction. A Day is its number. Refused with 1 to 7, 8, 9, 17.
        """
        row, nulls = ctypes.create_string_buffer(CELL_BYTES * len(self.names)), ctypes.c_uint64()
        if _call("screen_show_row", *self._lent(), *_slice(row, len(row)), ctypes.byref(nulls)) == 256:
            return None
        parts = [int.from_bytes(row.raw[at:at + 8], "little", signed=True) for at in range(0, len(row), 8)]
        values = [whole + fractions.Fraction(half, 2) if half else whole for whole, half in zip(parts[::2], parts[1::2])]
        return {name: None if nulls.value >> i & 1 else values[i] for i, name in enumerate(self.names)}

    def check_row(self, row):
        """screen_check_row: does this row pass a plain screen? True or False.

        `row` is as test_row takes it, but values may also be a fractions.Fraction half way between two whole numbers, and
        a Day any 64-bit number. Refused with 1 to 7, 8, 9, 17.
        """
        self._known(row)
        nulls, cells = 0, b""
        for number, (name, kind) in enumerate(zip(self.names, self.kinds)):
            value = row.get(name)
            nulls |= (value is None) << number
            for part in (0, 0) if value is None else _half(value, kind):
                cells += part.to_bytes(8, "little", signed=True)
        return _call("screen_check_row", *self._lent(), *_slice(cells, len(cells)), ctypes.c_uint64(nulls)) == 257

    def _known(self, row):
        unknown = set(row) - set(self.names)
        if unknown:
            raise KeyError(f"no column named {sorted(unknown)[0]}")

    def _cells(self, row, text):
        """A row's values as bytes, and its null marks; symbols that are not in `text` are appended to it."""
        self._known(row)
        nulls, cells = 0, b""
        for number, (name, kind) in enumerate(zip(self.names, self.kinds)):
            value = row.get(name)
            nulls |= (value is None) << number
            cells += (0 if value is None else self._bits(value, kind, text)).to_bytes(8, "little", signed=True)
        return cells, nulls

    def test_row(self, row):
        """screen_test_row: does this row pass? True, False, or None if a null stands in the way of an answer.

        `row` has a value for each column by its name; a column that is not there is null. Refused with 1 to 7, 8, 12,
        13: a value that is outside its column's type.
        """
        text = bytearray(self.text)
        cells, nulls = self._cells(row, text)
        answer = _call("screen_test_row", *self._lent(text), *_slice(cells, len(cells)), ctypes.c_uint64(nulls))
        return (False, None, True)[answer - 256]

    def pack(self, rows):
        """Rows by name as a Chain; a chain that runs on many ticks need be packed once, and on many screens if it has no symbols."""
        text = bytearray(self.text)
        packed = [self._cells(row, text) for row in rows]
        return Chain(b"".join(cells for cells, _ in packed), [nulls for _, nulls in packed], bytes(text))

    def hedge_list(self, rows, tally):
        """screen_hedge_list: the numbers, from 0, of the rows that pass; `tally` grows by the rows of each class.

        `rows` are rows as test_row takes them, at most 1,024, or a Chain. Refused with 1 to 7, 8, 20, 12, 13, 21;
        then nothing is added.
        """
        chain = rows if isinstance(rows, Chain) else self.pack(rows)
        if not isinstance(tally, Tally):
            raise TypeError("the tally is a screen.Tally")
        places, count = ctypes.create_string_buffer(PLACE_BYTES * len(chain.nulls)), ctypes.c_uint64()
        _call("screen_hedge_list", *self._lent(chain.text), *_slice(chain.values, len(chain.values)), chain.nulls,
              ctypes.c_size_t(len(chain.nulls)), *_slice(places, len(places)), ctypes.byref(tally),
              ctypes.byref(count))
        return [int.from_bytes(places[PLACE_BYTES * n:PLACE_BYTES * (n + 1)], "little") for n in range(count.value)]

    def columns_read(self):
        """screen_columns_read: the names of the columns that the screen reads. Refused with 1 to 7."""
        columns, count = ctypes.c_uint64(), ctypes.c_uint64()
        _call("screen_columns_read", *self._lent(), ctypes.byref(columns), ctypes.byref(count))
        return [name for number, name in enumerate(self.names) if columns.value >> number & 1]

    def save(self):
        """screen_save: the screen's file as bytes, with all its records, reached or not. Refused with 1 to 7.

        A file has no names of columns; whoever loads it gives them again.
        """
        file, length = ctypes.create_string_buffer(MAX_FILE_BYTES), ctypes.c_uint64()
        _call("screen_save", *self._lent(), *_slice(file, len(file)), ctypes.byref(length))
        return file.raw[:length.value]

    @classmethod
    def load(cls, file, names=None):
        """screen_load: the screen that a file holds, its columns named by `names`, or else c0, c1, ..

        Refused with 15 if the file is no saved screen or was damaged; then with 1 to 7 of what it holds. The lent
        buffers are as long as the file, which is longer than what it holds, so 14 is never given.
        """
        file = bytes(file)
        lent = [ctypes.create_string_buffer(len(file)) for _ in range(4)]  # table, records, pool, text
        root, columns, used, values, text = numbers = [ctypes.c_uint64() for _ in range(5)]
        _call("screen_load", *_slice(file, len(file)), *(part for buffer in lent for part in _slice(buffer, len(file))),
              *map(ctypes.byref, numbers))
        names = [f"c{i}" for i in range(columns.value)] if names is None else list(names)
        if len(names) != columns.value or len(set(names)) != len(names):
            raise ValueError(f"the file has {columns.value} columns, and each needs a name of its own")
        loaded = cls()
        loaded.names, loaded.kinds = names, list(lent[0].raw[:columns.value])
        loaded.used, loaded.values, loaded.root = used.value, values.value, root.value
        loaded.records[:RECORD_BYTES * loaded.used] = lent[1].raw[:RECORD_BYTES * loaded.used]
        loaded.pool[:VALUE_BYTES * loaded.values] = lent[2].raw[:VALUE_BYTES * loaded.values]
        loaded.text = bytearray(lent[3].raw[:text.value])
        loaded._begun = True
        return loaded

    @classmethod
    def slowest(cls, columns):
        """screen_slowest: a screen of so many Int columns, c0, c1, .., that takes as many passes to rewrite.

        Refused with 19 if they are not 2 to 64.
        """
        built = cls()
        table = ctypes.create_string_buffer(64)
        root, used = ctypes.c_uint64(), ctypes.c_uint64()
        _call("screen_slowest", ctypes.c_uint64(columns), *_slice(table, 64), *_slice(built.records, len(built.records)),
              ctypes.byref(root), ctypes.byref(used))
        built.names, built.kinds = [f"c{i}" for i in range(columns)], list(table.raw[:columns])
        built.root, built.used, built._begun = root.value, used.value, True
        return built

    # -------------------------------------------------------------------------------------------------- copying it out

    def copy_reached(self):
        """Leaves behind the records that the root does not reach; the others are renumbered in their order.

        Every call checks all used records, so a screen that runs on every tick should have no others. Parts made
        before are of the old records and must not be used with it. Refused as check.
        """
        self.check()
        reached = {self.root}
        records = [self.records.raw[RECORD_BYTES * n:RECORD_BYTES * (n + 1)] for n in range(self.used)]
        inputs = [[int.from_bytes(r[4 + 4 * i:8 + 4 * i], "little") for i in range(INPUTS.get(r[0], 0))]
                  for r in records]
        for number in range(self.root, -1, -1):
            if number in reached:
                reached.update(inputs[number])
        numbers = {old: new for new, old in enumerate(sorted(reached))}
        for old, new in numbers.items():
            fields = bytearray(records[old])
            for i, at in enumerate(inputs[old]):
                fields[4 + 4 * i:8 + 4 * i] = numbers[at].to_bytes(4, "little")
            self.records[RECORD_BYTES * new:RECORD_BYTES * (new + 1)] = bytes(fields)
        self.root, self.used = numbers[self.root], len(numbers)
