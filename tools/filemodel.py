"""Screens on disk, written from the paper alone (02, 2.3 and 2.10): a writer, a reader, and what the two calls answer.

The writer cuts each part into pieces and packs a block around each; the reader takes the blocks one after the other and
knows at each which kinds may come. Neither shares anything with the library's definitions.
"""

import struct

import model

BLOCK, CONTENT = 512, 496
TABLE, RECORDS, POOL, END, TEXT = 1, 2, 3, 4, 5
SIZE = {TABLE: 1, RECORDS: 16, POOL: 8, TEXT: 1, END: 8}  # bytes of one thing counted, kinds in the order of a file
ORDER = list(SIZE)
SAVED = LOADED = 256
SHORT, STRUCTURE = 14, 15


class Fault(Exception):
    """Number 15."""


def internet_checksum(data):
    """RFC 1071: words of 16 bits, big-endian, added with end-around carry; the complement."""
    total = sum(struct.unpack(f">{len(data) // 2}H", data))
    while total >> 16:
        total = (total & 0xFFFF) + (total >> 16)
    return total ^ 0xFFFF


def sealed(block):
    """The block with its checksum, reckoned over bytes 0-1 as zero."""
    return struct.pack(">H", internet_checksum(b"\0\0" + block[2:])) + block[2:]


def block(number, kind, content, count=None):
    count = len(content) // SIZE[kind] if count is None else count
    said = struct.pack("<H" if kind == TEXT else "<B", count)
    head = struct.pack("<HHB", 0, number, kind) + said
    return sealed(head.ljust(BLOCK - CONTENT, b"\0") + content + bytes(CONTENT - len(content)))


def pieces(data):
    return [data[i:i + CONTENT] for i in range(0, len(data), CONTENT)]


def blocks_of(table, records, pool, used, root, text=b""):
    """Kind and content of each block."""
    return ([(TABLE, table)] + [(kind, piece) for kind, data in ((RECORDS, records), (POOL, pool), (TEXT, text))
                                for piece in pieces(data)] + [(END, struct.pack("<II", used, root))])


def write(s):
    """The file of a screen: its used records, its whole pool and text pool, its table."""
    parts = blocks_of(s.table, s.records[:16 * s.used], s.pool, s.used, s.root, s.text or b"")
    return b"".join(block(number, kind, content) for number, (kind, content) in enumerate(parts))


def read(data):
    """Table, records, pool, used, root and text of a file; Fault for number 15."""
    if not data or len(data) % BLOCK:
        raise Fault("length")
    held = {kind: bytearray() for kind in SIZE}
    before, full = None, True  # the kind of the block before, and whether it was full
    for number in range(len(data) // BLOCK):
        b = data[number * BLOCK:(number + 1) * BLOCK]
        stored, said, kind = struct.unpack(">H", b[:2])[0], struct.unpack("<H", b[2:4])[0], b[4]
        if stored != internet_checksum(b"\0\0" + b[2:]):
            raise Fault("checksum")
        if said != number:
            raise Fault("number")
        if kind not in SIZE or (before is None) != (kind == TABLE) or before == END:
            raise Fault("kind")
        if before is not None and ORDER.index(kind) < ORDER.index(before):
            raise Fault("the order of kinds")
        if kind == before and not full:
            raise Fault("a block that is not full")
        counted = 7 if kind == TEXT else 6  # the byte behind the count
        count = int.from_bytes(b[5:counted], "little")
        content = SIZE[kind] * count
        if kind == END and count != 1 or kind in (RECORDS, POOL, TEXT) and not 0 < count <= CONTENT // SIZE[kind]:
            raise Fault("count")
        if any(b[counted:16]) or any(b[16 + content:]):
            raise Fault("unused")
        held[kind] += b[16:16 + content]
        before, full = kind, content == CONTENT
    if before != END:
        raise Fault("end")
    used, root = struct.unpack("<II", held[END])
    if used * 16 != len(held[RECORDS]):
        raise Fault("used")
    return bytes(held[TABLE]), bytes(held[RECORDS]), bytes(held[POOL]), used, root, bytes(held[TEXT])


def save(s, room):
    """The answer of saving into a buffer of `room` bytes, and the file, or None. A text pool is always lent."""
    answer = model.check(s.but(text=s.text or b""))
    if answer != model.ACCEPTED:
        return answer, None
    data = write(s)
    return (SAVED, data) if len(data) <= room else (SHORT, None)


def load(data, table_room, records_room, pool_room, text_room=model.MAX_TEXT):
    """The answer of loading into buffers of that many bytes, and the screen held, or None."""
    try:
        table, records, pool, used, root, text = read(data)
    except Fault:
        return STRUCTURE, None
    if len(table) > table_room or len(records) > records_room or len(pool) > pool_room or len(text) > text_room:
        return SHORT, None
    s = model.Screen(table, records, pool, used, root, text)
    answer = model.check(s)
    return (LOADED, s) if answer == model.ACCEPTED else (answer, None)
