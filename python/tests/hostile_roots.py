"""Writes roots that strangers could make to keep a client busy, each in three sizes: hostile_roots.py FOLDER.

The files are FOLDER/NAME.1, NAME.2 and NAME.4: the second has twice the bytes of the first, and the third four times. The
tests of Python, Rust and C# measure calls on them, and let these grow by at most 2.3 each time.
"""

import pathlib
import struct
import sys

TOP = pathlib.Path(__file__).resolve().parents[2]
sys.dont_write_bytecode = True
sys.path.insert(0, f"{TOP}/tests/command_line/growth")

import roots


def many_streams(size):
    """A root with streams of other names. Each has all stream headers."""
    return roots.other_streams(size // 16)


def one_array(size):
    """A root with an attribute of one argument, an array of strings that are null. Each takes a byte."""
    value = roots.blob_of(b"\1\0" + struct.pack("<I", size) + b"\xff" * size + b"\0\0")
    return roots.own_attributes(1, 1, roots.blob_of(b"\x20\x01\x01\x1d\x0e"), value)


# The smallest size of each root. Some are for calls whose memory is counted, and others for those whose time is.
ROOTS = {
    roots.one_text: 10_000,
    roots.endings: 10_000,
    roots.one_plain_blob: 10_000,
    roots.overlapping_blobs: 10_000,
    roots.nested_in_one: 60_000,
    roots.nested_out_of_order: 60_000,
    roots.attributes_out_of_order: 60_000,
    roots.one_signature: 100_000,
    many_streams: 100_000,
    one_array: 20_000,
}


def main():
    for make, size in ROOTS.items():
        for times in (1, 2, 4):
            (pathlib.Path(sys.argv[1]) / f"{make.__name__}.{times}").write_bytes(roots.bytes_of(make(times * size)))


if __name__ == "__main__":
    main()
