"""Writes a metadata root with 200 rows in each of the 38 tables (II.22), and a file with this root.

    all_tables.py ROOT FILE SAMPLE      SAMPLE is one_module.dll, whose headers FILE has

The cells of a column differ from row to row, and those of a row from column to column, as far as they can. Half of the
rows of CustomAttribute have the same parent, and the types enclose one another in one chain. c/run compares what each
language reads of it with what clim reads.
"""

import struct
import sys

# The columns of each table, by its number. A digit is the size of a number. S, G and B are indexes into heaps, and B: has
# a kind of signature. = is an index into a table, + one of a run, and ~ a coded index.
TABLES = {
    0x00: "2 S G G G",
    0x01: "~ResolutionScope S S",
    0x02: "4 S S ~TypeDefOrRef + +",
    0x04: "2 S B:Field",
    0x06: "4 2 2 S B:Method +",
    0x08: "2 2 S",
    0x09: "= ~TypeDefOrRef",
    0x0A: "~MemberRefParent S B:Method",
    0x0B: "1 0 ~HasConstant B",
    0x0C: "~HasCustomAttribute ~CustomAttributeType B",
    0x0D: "~HasFieldMarshal B",
    0x0E: "2 ~HasDeclSecurity B",
    0x0F: "2 4 =",
    0x10: "4 =",
    0x11: "B:Locals",
    0x12: "= +",
    0x14: "2 S ~TypeDefOrRef",
    0x15: "= +",
    0x17: "2 S B:Property",
    0x18: "2 = ~HasSemantics",
    0x19: "= ~MethodDefOrRef ~MethodDefOrRef",
    0x1A: "S",
    0x1B: "B:TypeSpec",
    0x1C: "2 ~MemberForwarded S =",
    0x1D: "4 =",
    0x20: "4 2 2 2 2 4 B S S",
    0x21: "4",
    0x22: "4 4 4",
    0x23: "2 2 2 2 4 B S S B",
    0x24: "4 =",
    0x25: "4 4 4 =",
    0x26: "4 S B",
    0x27: "4 4 S S ~Implementation",
    0x28: "4 4 S ~Implementation",
    0x29: "nested enclosing",
    0x2A: "2 2 ~TypeOrMethodDef S",
    0x2B: "~MethodDefOrRef B:Instance",
    0x2C: "= ~TypeDefOrRef",
}
# The coded indexes (II.24.2.6): the number of bits of the tag, and the tags that are used here.
CODED = {
    "ResolutionScope": (2, [0, 1, 2]),
    "TypeDefOrRef": (2, [0, 1, 2]),
    "MemberRefParent": (3, [0, 2, 4]),
    "HasConstant": (2, [0, 1, 2]),
    "HasCustomAttribute": (5, [3, 0, 20]),
    "CustomAttributeType": (3, [2, 3, 2]),
    "HasFieldMarshal": (1, [0, 1, 0]),
    "HasDeclSecurity": (2, [0, 1, 2]),
    "HasSemantics": (1, [0, 1, 0]),
    "MethodDefOrRef": (1, [0, 1, 1]),
    "MemberForwarded": (1, [1, 0, 1]),
    "Implementation": (2, [0, 1, 2]),
    "TypeOrMethodDef": (1, [0, 1, 0]),
}
# The signatures, which rows have in turn (II.23.2).
SIGNATURES = {
    "Field": ["0608", "060e", "061d05"],
    "Method": ["000001", "20010e08", "00010108"],
    "Locals": ["070108", "07020e08", "0608"],
    "Property": ["08000e", "280008", "0801080e"],
    "TypeSpec": ["1d08", "1d0e", "0f01"],
    "Instance": ["0a0108", "0a010e", "0a020808"],
}
# The offsets of the sample's root, and of the size of the root in its CLI header (II.25.3.3).
ROOT_START, METADATA_SIZE = 592, 532
ROWS = 200
# The last row that is the parent of a custom attribute.
LAST_PARENT = ROWS // 2


class Heaps:
    def __init__(self):
        self.strings, self.blobs, self.guids, self.number = b"\0", b"\0", b"", 0

    def next_number(self, size):
        """A number that was not used before, as far as the size allows."""
        self.number += 1
        return self.number % (1 << 8 * size)

    def string(self):
        at = len(self.strings)
        self.strings += f"name \u00e9 {self.next_number(4)}\0".encode()
        return at

    def guid(self):
        self.guids += bytes(self.next_number(1) for _ in range(16))
        return len(self.guids) // 16

    def blob(self, content):
        at = len(self.blobs)
        self.blobs += bytes([len(content)]) + content
        return at


def cell(heaps, column, row):
    """The bytes of a cell."""
    if column.isdigit():
        size = int(column)
        return heaps.next_number(size).to_bytes(size, "little") if size else b"\0"
    if column[0] == "~":
        bits, tags = CODED[column[1:]]
        if column == "~HasCustomAttribute":
            row = min(row, LAST_PARENT)
        return struct.pack("<H", row << bits | tags[row % len(tags)])
    if column[0] in "=+":
        return struct.pack("<H", row)
    if column in ("nested", "enclosing"):
        # A type encloses only those in later rows.
        nested = min(row + 1, ROWS)
        return struct.pack("<H", nested if column == "nested" else nested - 1)
    if column == "S":
        return struct.pack("<H", heaps.string())
    if column == "G":
        return struct.pack("<H", heaps.guid())
    content = bytes.fromhex(SIGNATURES[column[2:]][row % 3]) if column != "B" else heaps.next_number(2).to_bytes(3, "big")
    return struct.pack("<H", heaps.blob(content))


def padded(data):
    return data + bytes(-len(data) % 4)


def make_root():
    """The bytes of the root (II.24.2)."""
    heaps = Heaps()
    cells = b"".join(
        cell(heaps, column, row) for columns in TABLES.values() for row in range(1, ROWS + 1) for column in columns.split()
    )
    valid = sum(1 << table for table in TABLES)
    counts = struct.pack(f"<{len(TABLES)}I", *[ROWS] * len(TABLES))
    tables = struct.pack("<IBBBBQQ", 0, 2, 0, 0, 1, valid, 0x16003301FA00) + counts + cells
    user = b"\0\x05A\0B\0\0"
    streams = {b"#~": tables, b"#Strings": heaps.strings, b"#US": user, b"#GUID": heaps.guids, b"#Blob": heaps.blobs}
    start = struct.pack("<IHHII", 0x424A5342, 1, 1, 0, 12) + b"v4.0.30319\0\0" + struct.pack("<HH", 0, len(streams))
    offset = len(start) + sum(8 + len(padded(name + b"\0")) for name in streams)
    headers = content = b""
    for name, stream in streams.items():
        headers += struct.pack("<II", offset + len(content), len(padded(stream))) + padded(name + b"\0")
        content += padded(stream)
    return start + headers + content


def make_file(sample, root):
    """A file with the headers of the sample, where its root was."""
    data = bytearray(sample[:ROOT_START]) + root
    optional_header = struct.unpack_from("<I", data, 0x3C)[0] + 24
    section = optional_header + struct.unpack_from("<H", data, optional_header - 4)[0]
    raw_start = struct.unpack_from("<I", data, section + 20)[0]
    for at, size in ((section + 8, len(data) - raw_start), (section + 16, len(data) - raw_start), (METADATA_SIZE, len(root))):
        struct.pack_into("<I", data, at, size)
    return bytes(data)


def main():
    root = make_root()
    with open(sys.argv[3], "rb") as file:
        made = make_file(file.read(), root)
    for path, content in ((sys.argv[1], root), (sys.argv[2], made)):
        with open(path, "wb") as file:
            file.write(content)


main()
