"""What rewriting must answer: the paper's refusals by the model, and between them the Rust itself (tools/oracle)."""

import ctypes
import os
import subprocess

import archive
import model as m

UNCHANGED, NOTHING_PASSES, REWRITTEN = 256, 257, 258
ROOM = 16 * 128 * 100 * 8  # more than any screen adds: 128 lists of 100 values, each a comparison and an And


class Rust:
    def __init__(self, path=None):
        if path is None:
            build = os.path.join(archive.REPO, "tools", "oracle", "build")
            folder = subprocess.run([build], check=True, stdout=subprocess.PIPE, text=True).stdout.strip()
            path = os.path.join(folder, "liboracle.so")
        lib = ctypes.CDLL(path)
        self.call = lib.oracle_rewrite
        self.count = lib.oracle_passes
        self.count.restype = ctypes.c_uint64
        self.added = (ctypes.c_uint8 * ROOM)()

    def merge(self, s, difference=True):
        """The Rust's answer on an accepted screen, with the new root and the added bytes."""
        size, root = ctypes.c_size_t(), ctypes.c_size_t()
        answer = self.call(s.records[:16 * s.used], ctypes.c_size_t(16 * s.used), s.pool, ctypes.c_size_t(len(s.pool)),
                           s.text or b"", ctypes.c_size_t(len(s.text or b"")), ctypes.c_size_t(s.root), ctypes.c_bool(difference),
                           self.added, ctypes.c_size_t(ROOM), ctypes.byref(size), ctypes.byref(root))
        assert answer >= 0, "more records added than any screen adds"
        return UNCHANGED + answer, root.value, bytes(self.added[:size.value])

    def passes(self, s):
        """The rounds over the equalities that the Rust makes of an accepted screen; the difference moves none of them."""
        if not m.has_equality(s):
            return 0
        return self.count(s.records[:16 * s.used], ctypes.c_size_t(16 * s.used), s.pool, ctypes.c_size_t(len(s.pool)),
                          s.text or b"", ctypes.c_size_t(len(s.text or b"")), ctypes.c_size_t(s.root))

    def lets_pass(self, s, nodes):
        """Whether the Rust lets some row pass the And of these records, of a plain screen that is accepted."""
        if not nodes:
            return True
        ands, root = b"", nodes[0]
        for n in nodes[1:]:
            ands += bytes((m.BINARY, m.AND, 0, 0)) + b"".join(x.to_bytes(4, "little") for x in (root, n, 0))
            root = s.used + len(ands) // 16 - 1
        joined = s.but(records=s.records[:16 * s.used] + ands, used=s.used + len(ands) // 16, root=root)
        return self.merge(joined)[0] != NOTHING_PASSES

    def rewrite(self, s, difference=True):
        """The answer, new root and new used (None where they are not written), and the records at exit."""
        refused = m.check(s)
        if refused != m.ACCEPTED:
            return refused, None, None, s.records
        if m.tree_count(s) > m.MAX_TREE:
            return 8, None, None, s.records
        if len(m.conjuncts(s)) > m.MAX_CONJUNCTS:
            return 9, None, None, s.records
        answer, root, added = self.merge(s, difference)
        if answer == UNCHANGED:
            return answer, None, None, s.records
        used = s.used + len(added) // 16
        exit_ = s.records[:16 * s.used] + added + s.records[16 * used:]
        if used > m.MAX_RECORDS or used > len(s.records) // 16:
            return 11, None, None, s.records
        if m.tree_count(s.but(records=exit_, used=used), root) > m.MAX_TREE:
            return 11, None, None, s.records
        return answer, root, used, exit_

    def fitted(self, rng, s):
        """The screen with room as it is needed: mostly exactly or a little more, sometimes a record or a byte less."""
        if m.check(s) != m.ACCEPTED or m.tree_count(s) > m.MAX_TREE or len(m.conjuncts(s)) > m.MAX_CONJUNCTS:
            return s
        needed = len(self.merge(s)[2])
        room = max(0, needed + rng.choice((0, 0, 0, 1, 15, 16, 40, -16, -1) if needed else (0, 1, 16)))
        return s.but(records=s.records[:16 * s.used] + rng.randbytes(room))
