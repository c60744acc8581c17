"""Writes a root whose canonical root is longer, since its blobs overlap: overlapping.py OUT."""

import struct
import sys


def overlapping():
    """A root with 40 rows of AssemblyRef. The public key of each begins one byte after that of the row before."""
    heap = b"\0" + bytes(64 + number % 64 for number in range(200)) + b"\0" * 3
    rows = b"".join(struct.pack("<HHHHIHHHH", 1, 0, 0, number, 0, number + 1, 0, 0, 0) for number in range(40))
    tables = struct.pack("<IBBBBQQI", 0, 2, 0, 0, 1, 1 << 0x23, 0, 40) + rows
    streams = struct.pack("<II4s", 52, len(tables), b"#~") + struct.pack("<II8s", 52 + len(tables), len(heap), b"#Blob")
    return b"BSJB" + struct.pack("<HHII4sHH", 1, 1, 0, 4, b"v", 0, 2) + streams + tables + heap


with open(sys.argv[1], "wb") as out:
    out.write(overlapping())
