"""Prints what clim prints, from Python. c/run compares both.

    lines.py show FILE [bare]      prints the tables as clim show does, each signature as its blob
    lines.py texts FILE [bare]     the same, but each signature as its text
    lines.py vary FILE [bare]      prints what clim check prints for each prefix of the file, and for the file with one
                                   byte set to 00 or FF, one line each
    lines.py rewrite FILE OUT [bare]
                                   writes the canonical root to OUT, as clim rewrite does, and prints its digest
    lines.py build FILE OUT [bare]
                                   the same, but the root is that of tables with the rows of the file
    lines.py times FILE [bare]     prints how long calls take
"""

import sys
import time
import uuid

import clim


def inputs(data):
    for count in range(len(data) + 1):
        yield data[:count]
    for offset in range(len(data)):
        for byte in (b"\x00", b"\xff"):
            yield data[:offset] + byte + data[offset + 1 :]


def vary(data, bare):
    for given in inputs(data):
        fault = clim.check(given, bare)
        try:
            clim.open(given, bare)
            opened = None
        except clim.Fault as caught:
            opened = caught
        print("check and open differ" if str(fault) != str(opened) else fault or "ok")


def shown(value):
    """A cell, as clim show prints it."""
    if value is None:
        return "null"
    if isinstance(value, str):
        return '"' + "".join(
            chr(byte) if 32 <= byte <= 126 and byte not in b'"\\' else f"\\x{byte:02x}" for byte in value.encode()
        ) + '"'
    if isinstance(value, bytes):
        return f"<{value.hex()}>"
    if isinstance(value, uuid.UUID):
        return f"{{{value}}}"
    if isinstance(value, clim.Token):
        return f"{value:08x}"
    return f"+{int(value)}" if isinstance(value, clim.Start) else f"{value}"


def with_text(value):
    """The same, but a signature as its text."""
    return f"<{value.text}>" if isinstance(value, clim.Signature) else shown(value)


def show(assembly, how):
    for table in assembly:
        print(f"table {table.number:02X} {table.name} {len(table)}")
        for row in table:
            print(f"{row.number}:", *map(how, row.cells().values()))


def write_root(assembly, root, path):
    with open(path, "wb") as out:
        out.write(root)
    print(assembly.digest().hex())


def times(data, bare):
    def measure(name, call):
        begun = time.perf_counter()
        count = call()
        print(f"{name}: {count}, {(time.perf_counter() - begun) * 1e3:.1f} ms")

    measure("open", lambda: len(clim.open(data, bare).types))
    assembly = clim.open(data, bare)
    measure("the names of methods, as a column", lambda: len(assembly.methods.column("Name")))
    if clim.supports("clim_tables"):
        tables = clim.Tables.of(assembly)
        measure("the canonical root of its tables", lambda: len(tables.root()))
    measure("the same again, by their types", lambda: sum(len(method.name) > 0 for type in assembly.types for method in type.methods))


def main():
    if len(sys.argv) < 3:
        sys.exit(__doc__)
    bare = sys.argv[-1] == "bare"
    with open(sys.argv[2], "rb") as file:
        data = file.read()
    if sys.argv[1] in ("show", "texts"):
        show(clim.open(data, bare), with_text if sys.argv[1] == "texts" else shown)
    elif sys.argv[1] == "rewrite":
        assembly = clim.open(data, bare)
        write_root(assembly, assembly.canonical_root(), sys.argv[3])
    elif sys.argv[1] == "build":
        assembly = clim.open(data, bare)
        write_root(assembly, clim.Tables.of(assembly).root(), sys.argv[3])
    else:
        {"vary": vary, "times": times}[sys.argv[1]](data, bare)


main()
