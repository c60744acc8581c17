"""Metadata roots and files by their rows and heaps (II.22 to II.25), for crafted files."""

import dataclasses
import itertools
import os
import struct
import sys

HERE = os.path.dirname(os.path.realpath(__file__))
sys.path.insert(0, f"{HERE}/../../oracle")

from rows import FIRST_TAGS
from walk import CODED, NUMBERS, TABLES

# The letters of struct for the sizes of a cell.
LETTERS = {1: "B", 2: "H", 4: "I"}
HEAPS = ("text", "guid", "blob")
# The names of the columns of tables, and their kinds.
COLUMNS = {name: [it.split() for it in columns.split(", ")] for name, columns in TABLES.values()}


def packed(number):
    """A packed number of four bytes (II.23.2)."""
    return struct.pack(">I", 0xC0000000 | number)


def blob_of(content):
    return packed(len(content)) + content


def padded(stream):
    return stream + bytes(-len(stream) % 4)


def coded(kind, table, row):
    """The number of a coded index (II.24.2.6)."""
    bits, names = CODED[kind]
    return row << bits | FIRST_TAGS.get(kind, 0) + names.split().index(table)


@dataclasses.dataclass
class Root:
    """A root: rows as tuples of numbers, by the names of their tables, and heaps. Heap indexes have four bytes."""

    rows: dict
    texts: bytes = b"\0"
    blobs: bytes = b"\0"
    strings: bytes = b"\0"
    in_order: tuple = ()

    def width(self, kind):
        """The number of bytes of a cell (II.24.2.6)."""
        if kind.isdigit():
            return int(kind)
        if kind in HEAPS:
            return 4
        bits, names = CODED.get(kind, (0, kind))
        return 4 if max(len(self.rows.get(it, ())) for it in names.split()) >= 1 << 16 - bits else 2

    def table(self, name, shift):
        """The bytes of a table. Indexes of texts and blobs are larger by the shift."""
        kinds = [kind for _, kind in COLUMNS[name]]
        pack = struct.Struct("<" + "".join(LETTERS[self.width(it)] for it in kinds)).pack
        moved = [at for at, kind in enumerate(kinds) if kind in ("text", "blob")] if shift else []
        if not moved:
            return b"".join(itertools.starmap(pack, self.rows[name]))
        rows = map(list, self.rows[name])
        return b"".join(pack(*[it + shift * (at in moved and it > 0) for at, it in enumerate(row)]) for row in rows)

    def encoded(self, shift=0):
        """The bytes of the root. With a shift, texts and blobs follow this number of other bytes of their heaps."""
        names = sorted((it for it in self.rows if self.rows[it]), key=NUMBERS.get)
        valid, in_order = (sum(1 << NUMBERS[it] for it in some) for some in (names, self.in_order))
        tables = struct.pack("<IBBBBQQ", 0, 2, 0, 7, 1, valid, in_order)
        tables += b"".join(struct.pack("<I", len(self.rows[it])) for it in names)
        tables += b"".join(self.table(it, shift) for it in names)
        texts, blobs = (heap[:1] + bytes(shift) + heap[1:] for heap in (self.texts, self.blobs))
        return root_of_streams([(b"#~", tables), (b"#Strings", texts), (b"#Blob", blobs), (b"#US", self.strings)])


def root_of_streams(streams):
    streams = [(name + bytes(4 - len(name) % 4), padded(stream)) for name, stream in streams]
    head = b"BSJB" + struct.pack("<HHII", 1, 1, 0, 4) + b"v\0\0\0" + struct.pack("<HH", 0, len(streams))
    offset, headers = len(head) + sum(8 + len(name) for name, _ in streams), []
    for name, stream in streams:
        headers.append(struct.pack("<II", offset, len(stream)) + name)
        offset += len(stream)
    return head + b"".join(headers) + b"".join(stream for _, stream in streams)


# The alignment of sections in memory and in a file, the sizes of the headers of a section and of CLI, and the first address.
ALIGNMENT, SECTION_HEADER, CLI_HEADER, ADDRESS = 0x200, 40, 72, 0x400000


def image_of(root, before=b"", sections=0):
    """A file (II.25) with these bytes before its root, all in its last section. The other sections are empty."""
    body = bytearray(struct.pack("<IHHII", CLI_HEADER, 2, 5, ADDRESS + CLI_HEADER + len(before), len(root)).ljust(CLI_HEADER, b"\0"))
    struct.pack_into("<I", body, 16, 1)
    body += before + root
    body += bytes(-len(body) % ALIGNMENT)
    optional = bytearray(224)
    struct.pack_into("<H", optional, 0, 0x10B)
    struct.pack_into("<II", optional, 32, ALIGNMENT, ALIGNMENT)
    struct.pack_into("<I", optional, 92, 16)
    struct.pack_into("<II", optional, 96 + 14 * 8, ADDRESS, CLI_HEADER)
    head = b"MZ".ljust(0x3C, b"\0") + struct.pack("<I", 64)
    head += b"PE\0\0" + struct.pack("<HHIIIHH", 0x14C, sections + 1, 0, 0, 0, len(optional), 0x2102)
    size = len(head) + len(optional) + SECTION_HEADER * (sections + 2)
    start = size + -size % ALIGNMENT
    struct.pack_into("<II", optional, 56, ADDRESS + len(body) + -len(body) % ALIGNMENT, start)
    head += optional + b"".join(struct.pack("<8sIIIIIIHHI", b".x", 0, 0, 0, 0, 0, 0, 0, 0, 0) for _ in range(sections))
    head += struct.pack("<8sIIIIIIHHI", b".text", len(body), ADDRESS, len(body), start, 0, 0, 0, 0, 0x60000020)
    return head.ljust(start, b"\0") + bytes(body)
