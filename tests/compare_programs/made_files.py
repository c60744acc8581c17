"""Lays out the rows of a model as a metadata root (II.24.2), in one of many ways, and a root as a PE file (II.25)."""

import struct

from made_models import BREAKS, COLUMNS, HEAP_KINDS, LISTS, Raw, Model, targets
from made_texts import packed
from walk import HEAPS, NUMBERS, OPTIONAL_HEADER, TABLES

# Names of streams that the standard does not have.
OTHER_NAMES = [b"", b"#", b"#X", b"#Pdb", b"#JTD", b'#"', b"a\\b", b"\x01\x1b\x7f", b"stream 1 2 #~", b"#Strings2", b"x" * 31]
# Names that break a rule: 304, 306, 307.
BROKEN_NAMES = [b"#-", b"#-", b"#~", b"#US", b"#GUID", b"#Strings", b"#Blob", b"\xff", b"x" * 33, b"x" * 40]
SECTION_NAMES = [b".text", b".rsrc", b".reloc", b"", b'"\\', b".\xff\x01", b"12345678", b"a b"]
# The bytes before what is aligned in the file, and the address of the first section.
SECTION, ADDRESS = 0x200, 0x2000
NATIVE = 0x10


def padded(content):
    return content + bytes(-len(content) % 4)


class Heap:
    """A heap that grows by entries, and knows where they are."""

    def __init__(self, chance, first):
        self.chance, self.bytes, self.known = chance, bytearray(first), {}

    def put(self, entry, encoded):
        if entry not in self.known or not self.chance.randrange(20):
            if not self.chance.randrange(30):
                self.bytes += self.chance.choice((b"\xff\0", b"\0", b"ab\0", b"\0\0\0"))
            self.known[entry] = len(self.bytes)
            self.bytes += encoded
        return self.known[entry]


class Heaps:
    """The heaps of a root, without user strings."""

    def __init__(self, chance):
        self.chance = chance
        self.text = Heap(chance, chance.choice((b"\0", b"\0", b"\0", b"a\0", b"\0\xff\0")))
        self.blob = Heap(chance, chance.choice((b"\0", b"\0", b"\0", b"\x01", b"\xff")))
        self.guid = Heap(chance, b"")

    def index(self, kind, value):
        """The index of a cell's value. What is empty or null mostly has none."""
        if kind == "guid":
            return self.guid_index(value)
        heap = getattr(self, kind)
        if not value and self.chance.randrange(10):
            return 0
        if kind == "blob":
            return heap.put(value, packed(len(value), self.chance) + value)
        if value not in heap.known and len(value) < 200 and not self.chance.randrange(3):
            return self.shared(heap, value)
        return heap.put(value, value + b"\0")

    def shared(self, heap, value):
        """The index of a text that ends another one, if it does."""
        at = heap.bytes.find(value + b"\0", 1)
        return at if at > 0 else heap.put(value, value + b"\0")

    def guid_index(self, value):
        if value is None:
            return 0
        if value not in self.guid.known:
            self.guid.bytes += value
            self.guid.known[value] = len(self.guid.bytes) // 16
        return self.guid.known[value]


class Encoded:
    """A metadata root of a model, and the ranges of its parts: headers, rows and heaps."""

    def __init__(self, model, chance):
        self.model, self.chance, self.ranges = model, chance, []
        self.counts = {table: len(rows) for table, rows in model.rows.items()}
        self.heaps = Heaps(chance)
        indexes = self.heap_indexes()
        self.sizes = self.heap_sizes()
        self.root = self.laid_out(self.tables(indexes))

    def heap_indexes(self):
        """The numbers of all cells that name an entry of a heap, by row and column."""
        return {
            (table, at, index): row[index] if isinstance(row[index], Raw) else self.heaps.index(kind, row[index])
            for table, rows in self.model.rows.items() for at, row in enumerate(rows)
            for index, (_, kind) in enumerate(COLUMNS[table]) if kind in HEAP_KINDS
        }

    def heap_sizes(self):
        """HeapSizes: a bit of a heap that needs it, and sometimes of another one."""
        needed = sum(1 << bit for kind, (bit, _) in HEAPS.items() if len(getattr(self.heaps, kind).bytes) > 0xFFFF)
        return needed | (self.chance.randrange(8) if not self.chance.randrange(4) else 0)

    def width(self, kind):
        if kind.isdigit():
            return int(kind)
        if kind in HEAPS:
            return 4 if self.sizes >> HEAPS[kind][0] & 1 else 2
        found, bits = targets(kind)
        return 4 if max(self.counts.get(table, 0) for _, table in found) >= 1 << 16 - bits else 2

    def tables(self, indexes):
        chance, counts = self.chance, dict(self.counts)
        if not chance.randrange(5):
            counts |= {table: 0 for table in TABLES if table not in counts and not chance.randrange(6)}
        valid = sum(1 << table for table in counts)
        reserved = chance.getrandbits(32) if not chance.randrange(5) else 0
        stream = struct.pack("<IBBBBQQ", reserved, 2, 0, self.sizes, chance.choice((1, 1, 10)), valid, self.model.sorted & (1 << 64) - 1)
        stream += b"".join(struct.pack("<I", counts[table]) for table in sorted(counts))
        self.header_size = len(stream)
        parts = [stream]
        for table in sorted(self.model.rows):
            columns = [(index, name, kind, self.width(kind), targets(kind)[1]) for index, (name, kind) in enumerate(COLUMNS[table])]
            for at, row in enumerate(self.model.rows[table]):
                for index, name, kind, width, bits in columns:
                    cell = row[index]
                    if kind in HEAP_KINDS:
                        cell = indexes[table, at, index]
                    elif not isinstance(cell, int):
                        cell = cell[1] << bits | cell[0]
                    parts.append((cell & (1 << 8 * width) - 1).to_bytes(width, "little"))
        return b"".join(parts)

    def streams(self, tables):
        """The streams by name, in some order. A heap without entries is mostly left out."""
        chance, heaps = self.chance, self.heaps
        found = [(b"#~", tables + (chance.randbytes(chance.randrange(9)) if not chance.randrange(6) else b""))]
        for name, content in ((b"#Strings", heaps.text.bytes), (b"#US", self.model.user), (b"#GUID", heaps.guid.bytes), (b"#Blob", heaps.blob.bytes)):
            if len(content) > 1 or not chance.randrange(4):
                found.append((name, bytes(content)))
        for _ in range(chance.choice((0, 0, 0, 0, 0, 1, 2))):
            found.append((chance.choice(OTHER_NAMES), chance.randbytes(chance.randrange(12))))
        if not chance.randrange(4):
            chance.shuffle(found)
        return found

    def laid_out(self, tables):
        chance, version = self.chance, self.model.version
        length = len(padded(version + b"\0")) + (4 * chance.randrange(4) if not chance.randrange(5) else 0)
        field = version + b"\0" + (chance.randbytes(length) if not chance.randrange(5) else bytes(length))
        streams = self.streams(tables)
        odd = not chance.randrange(5)
        head = b"BSJB" + struct.pack("<HHII", *((chance.getrandbits(16), 0, chance.getrandbits(32)) if odd else (1, 1, 0)), length) + field[:length]
        head += struct.pack("<HH", chance.getrandbits(16) if odd else 0, len(streams))
        offset = len(head) + sum(8 + len(padded(name + b"\0")) for name, _ in streams)
        self.ranges = [(0, len(head)), (len(head), offset)]
        headers, content, exact = b"", b"", not chance.randrange(4)
        for name, stream in streams:
            gap = 4 * chance.randrange(4) if not chance.randrange(12) else 0
            offset, content = offset + gap, content + chance.randbytes(gap)
            headers += struct.pack("<II", offset, len(stream) if exact else len(padded(stream))) + padded(name + b"\0")
            self.ranges.append((offset, offset + max(1, len(stream))))
            if name == b"#~":
                self.ranges += [(offset, offset + self.header_size)] * 2
            content += padded(stream)
            offset += len(padded(stream))
        return head + headers + content


def image(root, entry, chance):
    """A PE file with a root, and the ranges of its headers and of the root."""
    wide = not chance.randrange(3)
    pe = chance.choice((0x80, 0x80, 0x40, 0x98, 0x100))
    first = sum(size or (8 if wide else 4) for name, size in OPTIONAL_HEADER if not (wide and name == "BaseOfData"))
    directories = chance.choice((16, 16, 16, 15, 17))
    optional_size = first + 8 * 16 + (8 * chance.randrange(3) if not chance.randrange(4) else 0)
    count = chance.choice((1, 1, 2, 3, 4))
    table = pe + 24 + optional_size
    raw = -(-(table + 40 * count) // SECTION) * SECTION
    cli = struct.pack("<IHHIIII", chance.choice((72, 72, 80)), 2, 5, 0, len(root), *entry)
    directory = struct.pack("<II", ADDRESS + 8, 16)
    cli += b"".join(chance.choice((bytes(8), bytes(8), directory, struct.pack("<II", chance.getrandbits(32), chance.getrandbits(32)))) for _ in range(6))
    before = chance.randbytes(8 * chance.choice((1, 1, 2, 5)))
    body = before + cli + chance.randbytes(8 * chance.randrange(3))
    at = len(body)
    body = bytearray(body + root + chance.randbytes(4 * chance.randrange(4)))
    struct.pack_into("<I", body, len(before) + 8, ADDRESS + at)
    body += bytes(-len(body) % (SECTION if chance.randrange(3) else 4))
    optional = bytearray(chance.randbytes(optional_size))
    struct.pack_into("<H", optional, 0, 0x20B if wide else 0x10B)
    struct.pack_into("<I", optional, first - 4, directories)
    struct.pack_into("<II", optional, first + 14 * 8, ADDRESS + len(before), chance.choice((72, 72, 100)))
    head = bytearray(b"MZ" + chance.randbytes(pe - 2))
    struct.pack_into("<I", head, 0x3C, pe)
    head += b"PE\0\0" + struct.pack("<HHIIIHH", 0x14C, count, chance.getrandbits(32), 0, 0, optional_size, 0x2102) + optional
    for number in range(count):
        name = chance.choice(SECTION_NAMES).ljust(8, b"\0")
        # The first section has everything. Later ones may lie over it or past the end of the file.
        fields = (len(body), ADDRESS, len(body), raw)
        if number:
            fields = (chance.getrandbits(16), ADDRESS + 0x2000 * number, chance.choice((0, 16, len(body), 0x10000)), raw + chance.choice((0, 4, len(body))))
        head += name + struct.pack("<IIIIIIHHI", *fields, 0, 0, 0, 0, chance.getrandbits(32))
    ranges = [(0, 64), (pe, table), (pe, pe + 28), (pe + 24 + first - 4, pe + 24 + first + 128), (table, table + 40 * count)]
    ranges += [(raw + len(before), raw + len(before) + 24)] * 2
    return bytes(head).ljust(raw, b"\0") + bytes(body), ranges, raw + at


def entry_of(model, chance):
    """The flags and the entry point of a model: none, or a row of MethodDef or File; anything, if it is native code."""
    rows = [table << 24 | chance.randint(1, len(model.rows[table])) for table in (0x06, 0x26) if table in model.rows]
    if not chance.randrange(10):
        return chance.getrandbits(16) | NATIVE, chance.getrandbits(32)
    flags = (1 if chance.randrange(3) else chance.getrandbits(16)) & ~NATIVE
    return flags, chance.choice(rows) if rows and chance.randrange(2) else 0


def change_bytes(data, ranges, chance):
    """A copy with one to four bytes changed, mostly in the ranges."""
    copy = bytearray(data)
    for _ in range(chance.randint(1, 4) if copy else 0):
        start, end = chance.choice(ranges) if ranges and chance.randrange(8) else (0, len(copy))
        at = chance.randrange(start, max(start + 1, end))
        if at < len(copy):
            before = copy[at]
            copy[at] = chance.choice((0, 1, 0x7F, 0x80, 0xFF, before + 1 & 0xFF, before - 1 & 0xFF, before ^ 1 << chance.randrange(8), chance.getrandbits(8)))
    return bytes(copy)


def cut(data, ranges, chance):
    """A prefix of a file, or a file with more bytes."""
    if not chance.randrange(5):
        return data + chance.randbytes(chance.choice((1, 4, 100)))
    start, end = chance.choice(ranges) if ranges and chance.randrange(3) else (0, len(data))
    return data[:chance.randint(start, max(start, end))]


def rename_stream(data, ranges, chance):
    """A copy in which a stream has another name."""
    names = [it for it in (b"#~", b"#Strings", b"#US", b"#GUID", b"#Blob") if it + b"\0" in data]
    if not names:
        return data
    old, new = chance.choice(names), chance.choice(BROKEN_NAMES)
    at = data.find(old + b"\0")
    field = new if chance.randrange(2) else new.ljust(len(old), b"\0")
    return data[:at] + field + data[at + len(field):]


class File:
    """A file that was made: its bytes, whether it is a root, and other files to compare it with."""

    def __init__(self, data, bare, others):
        self.data, self.bare, self.others = data, bare, others


def encoded(model, bare, chance):
    """The bytes of a model as a root or as a PE file, and the ranges of its parts."""
    made = Encoded(model, chance)
    if bare:
        return made.root, made.ranges
    entry = entry_of(model, chance) if chance.randrange(40) else (1, chance.choice((0x06FFFFFF, 0x02000001, 0x06000000, 0xFFFFFFFF)))
    data, ranges, at = image(made.root, entry, chance)
    return data, ranges + [(at + start, at + end) for start, end in made.ranges]


def make(chance):
    """A file: as it should be, with a broken rule, with changed bytes, or cut."""
    model, bare = Model(chance), chance.randrange(5) < 3
    data, ranges = encoded(model, bare, chance)
    kind = chance.randrange(20)
    others = []
    if kind < 12:
        changed = model.copied()
        changed.change()
        others = [encoded(model, bare, chance)[0], encoded(changed, bare, chance)[0], change_bytes(data, ranges, chance)]
    elif kind < 15:
        broken = model.copied()
        chance.choice(BREAKS)(broken, chance)
        others, data = [data], encoded(broken, bare, chance)[0]
    else:
        change = chance.choice((change_bytes, change_bytes, change_bytes, cut, rename_stream))
        others, data = [data], change(data, ranges, chance)
    return File(data, bare, others)


def changed_assembly(data, chance):
    """A real file with changed bytes, mostly in its metadata, half of them in the first part of it."""
    at = max(data.find(b"BSJB"), 0)
    size = len(data) - at
    ranges = [(at, at + min(size, 200)), (at, at + min(size, 20_000)), (at, at + size // 2), (at, at + size), (0, min(len(data), 800))]
    return change_bytes(data, ranges, chance)
