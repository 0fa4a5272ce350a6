"""The library as hosts link it, called from Python: the archive made into a shared object, its calls through ctypes.

Every call gets buffers of exactly the length lent, and each answer comes with whether any byte changed that may not.
"""

import ctypes
import os
import subprocess
import tempfile

REPO = os.path.dirname(os.path.dirname(os.path.abspath(__file__)))
ARCHIVE = os.path.join(REPO, "target", "staticlib", "libscreen.a")
MARKS = (0x0123456789ABCDEF, 0xFEDCBA9876543210)  # out-parameters before a call
THREE_MARKS = MARKS + (0x5555AAAA5555AAAA,)
FOUR_MARKS = THREE_MARKS + (0x00FF00FF00FF00FF,)
FIVE_MARKS = FOUR_MARKS + (0x1234123412341234,)
REASONS_ROOM = 48128  # bytes: enough for the text of every rewriting


FILLER = bytes((7 * i + 3) % 251 for i in range(1 << 16))


def filler(start, length):
    """Bytes that stand in a buffer before a call; another start, other bytes."""
    return (FILLER * (length // len(FILLER) + 2))[start:start + length]


class Changed(Exception):
    """A call wrote to a byte that it must keep."""


class Archive:
    def __init__(self, path=ARCHIVE):
        with tempfile.TemporaryDirectory() as work:
            shared = os.path.join(work, "libscreen.so")
            subprocess.run(["gcc", "-shared", "-o", shared, "-Wl,--whole-archive", path, "-Wl,--no-whole-archive"],
                           check=True)
            self.lib = ctypes.CDLL(shared)

    def has(self, call):
        return hasattr(self.lib, call)

    def _call(self, name, s, *more, writes_records=False):
        """The answer and the records at exit; `more` are the arguments after those that all calls share."""
        slices = []
        for data in (s.table, s.records, s.pool, s.text):
            lent = (ctypes.c_uint8 * len(data)).from_buffer_copy(data) if data else None
            slices += [lent, ctypes.c_size_t(len(data))]
        function = getattr(self.lib, name)
        function.restype = ctypes.c_uint32
        answer = function(*slices, ctypes.c_uint64(s.used), ctypes.c_uint64(s.root), *more)
        table, records, pool, text = (bytes(slices[i] or b"") for i in (0, 2, 4, 6))
        if (table, pool, text) != (s.table, s.pool, s.text) or not writes_records and records != s.records:
            raise Changed(name)
        return answer, records

    def check(self, s):
        return self._call("screen_check", s)[0]

    def columns_read(self, s):
        """The answer and the two out-parameters, which stand at MARKS before the call."""
        out = [ctypes.c_uint64(mark) for mark in MARKS]
        answer, _ = self._call("screen_columns_read", s, *map(ctypes.byref, out))
        return answer, out[0].value, out[1].value

    def _row(self, call, s, row, nulls):
        """The answer of a call that takes a row."""
        lent = (ctypes.c_uint8 * len(row)).from_buffer_copy(row) if row else None
        answer, _ = self._call(call, s, lent, ctypes.c_size_t(len(row)), ctypes.c_uint64(nulls))
        if bytes(lent or b"") != row:
            raise Changed(call)
        return answer

    def test_row(self, s, row, nulls):
        return self._row("screen_test_row", s, row, nulls)

    def rewrite(self, s, room=REASONS_ROOM):
        """The answer, new root, new used, length of the text and passes, which stand at FOUR_MARKS before the call, the
        lent text buffer of `room` bytes after it, where filler(5, room) stood, and the records at exit."""
        lent = (ctypes.c_uint8 * room).from_buffer_copy(filler(5, room)) if room else None
        out = [ctypes.c_uint64(mark) for mark in FOUR_MARKS]
        answer, records = self._call("screen_rewrite", s, lent, ctypes.c_size_t(room), *map(ctypes.byref, out),
                                     writes_records=True)
        return answer, *(o.value for o in out), bytes(lent or b""), records

    def line_in_the_way(self, s):
        """The answer, and the line, which stands at a mark before the call."""
        line = ctypes.c_uint64(MARKS[0])
        answer, _ = self._call("screen_line_in_the_way", s, ctypes.byref(line))
        return answer, line.value

    def show_row(self, s, room):
        """The answer, the lent row of `room` bytes, where filler(9, room) stood, and the null marks, which stand at a mark
        before the call."""
        lent = (ctypes.c_uint8 * room).from_buffer_copy(filler(9, room)) if room else None
        nulls = ctypes.c_uint64(MARKS[0])
        answer, _ = self._call("screen_show_row", s, lent, ctypes.c_size_t(room), ctypes.byref(nulls))
        return answer, bytes(lent or b""), nulls.value

    def check_row(self, s, row, nulls):
        return self._row("screen_check_row", s, row, nulls)

    def slowest(self, columns, *rooms):
        """The answer, root and used, which stand at MARKS before the call, and the lent table and records of `rooms`
        bytes, after and before it."""
        old = [filler(n, room) for n, room in enumerate(rooms)]
        buffers = [(ctypes.c_uint8 * len(b)).from_buffer_copy(b) if b else None for b in old]
        out = [ctypes.c_uint64(mark) for mark in MARKS]
        lent = [x for b, room in zip(buffers, rooms) for x in (b, ctypes.c_size_t(room))]
        answer = self.lib.screen_slowest(ctypes.c_uint64(columns), *lent, *map(ctypes.byref, out))
        return answer, *(o.value for o in out), [bytes(b or b"") for b in buffers], old

    def save(self, s, room):
        """The answer, the length, which stands at a mark before the call, and the lent file after and before it."""
        old = filler(3, room)
        file = (ctypes.c_uint8 * room).from_buffer_copy(old) if room else None
        size = ctypes.c_uint64(MARKS[0])
        answer, _ = self._call("screen_save", s, file, ctypes.c_size_t(room), ctypes.byref(size))
        return answer, size.value, bytes(file or b""), old

    def load(self, data, *rooms):
        """The answer, the five out-parameters, which stand at FIVE_MARKS before the call, and the lent table, records,
        pool and text of `rooms` bytes, after and before it."""
        lent = (ctypes.c_uint8 * len(data)).from_buffer_copy(data) if data else None
        old = [filler(n, room) for n, room in enumerate(rooms)]
        buffers = [(ctypes.c_uint8 * len(b)).from_buffer_copy(b) if b else None for b in old]
        out = [ctypes.c_uint64(mark) for mark in FIVE_MARKS]
        slices = [lent, ctypes.c_size_t(len(data))]
        for buffer, b in zip(buffers, old):
            slices += [buffer, ctypes.c_size_t(len(b))]
        function = self.lib.screen_load
        function.restype = ctypes.c_uint32
        answer = function(*slices, *map(ctypes.byref, out))
        if bytes(lent or b"") != data:
            raise Changed("screen_load")
        return answer, tuple(number.value for number in out), [bytes(b or b"") for b in buffers], old


def row_test(path):
    """The archive if it is there and has the row test; else None, and a line that says so."""
    lib = Archive(path) if os.path.exists(path) else None
    if lib is not None and lib.has("screen_test_row"):
        return lib
    print("the archive has no row test: the model alone is compared")
    return None
