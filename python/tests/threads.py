"""Two threads in each call, or in those with some names: threads.py FILE SECONDS [NAME..].

For this time one thread makes a call again and again, and another one writes the bytes or the file that were given, closes
the assembly, or changes the tables. Each call ends as it says, and the process goes on.
The last line is 'N passed, M failed'.
"""

import mmap
import os
import random
import sys
import tempfile
import threading
import time

import clim

# The longest time after which an assembly is closed.
LONGEST = 0.003


def spoil(write, size, data):
    """Writes another byte somewhere, and then the one that was there."""
    at = random.randrange(size)
    write(at, bytes([random.randrange(256)]))
    write(at, data[at : at + 1])


def beside(seconds, call, change):
    """Makes a call again and again while another thread changes what it uses."""
    ends = threading.Event()

    def change_again():
        while not ends.is_set():
            change()

    other = threading.Thread(target=change_again)
    other.start()
    end = time.monotonic() + seconds
    try:
        while time.monotonic() < end:
            call()
    finally:
        ends.set()
        other.join()


def ends(call, *expected):
    """Makes a call, which ends by a result or by one of these errors."""
    try:
        call()
    except expected:
        pass


# The calls that take bytes or a path.
GIVEN = {
    "check": clim.check,
    "check within a budget": lambda source: clim.check(source, budget=1000),
    "read_header": clim.read_header,
    "open": lambda source: clim.open(source).close(),
    "offset_of": lambda source: clim.offset_of(source, 0x2000, 16),
    "open by mmap": lambda source: clim.open(source, mmap=True).to_dict(),
    "open within a budget": lambda source: clim.open(source, budget=1000).heaps,
    "Assembly": lambda source: None if isinstance(source, str) else clim.Assembly(source),
}


def call_on(call, source):
    ends(lambda: call(source), clim.Fault, clim.BudgetSpent)


def with_bytes(call, data, seconds):
    """The caller's bytes are written."""
    shared = bytearray(data)
    beside(seconds, lambda: call_on(call, shared), lambda: spoil(lambda at, it: shared.__setitem__(at, it[0]), len(data), data))
    with memoryview(shared) as view:
        beside(seconds, lambda: call_on(call, view), lambda: spoil(lambda at, it: shared.__setitem__(at, it[0]), len(data), data))


def with_map(call, data, seconds):
    """The file of the caller's map is written."""
    with tempfile.TemporaryFile() as file:
        file.write(data)
        file.flush()
        with mmap.mmap(file.fileno(), 0) as mapped:
            write = lambda at, it: os.pwrite(file.fileno(), it, at)
            beside(seconds, lambda: call_on(call, mapped), lambda: spoil(write, len(data), data))


def with_path(call, data, seconds):
    """The file is written, and becomes shorter and longer."""
    with tempfile.NamedTemporaryFile() as file:

        def change():
            spoil(lambda at, it: os.pwrite(file.fileno(), it, at), len(data), data)
            os.ftruncate(file.fileno(), random.randrange(len(data)))
            os.pwrite(file.fileno(), data, 0)

        change()
        beside(seconds, lambda: call_on(call, file.name), change)


# The calls of an assembly. `it.types[1]` is a row of TypeDef.
READ = {
    "version": lambda it: it.version,
    "user": lambda it: it.user,
    "header": lambda it: it.header,
    "heaps": lambda it: it.heaps,
    "tables": lambda it: [len(table) for table in it],
    "columns": lambda it: [table._columns_read.clear() or table.column(name) for table in it for name in table.columns],
    "cells": lambda it: [row.cells() for row in it.methods],
    "to_dict": lambda it: it.to_dict(),
    "row": lambda it: it.row(0x02000002).TypeName,
    "members": lambda it: it.types[1].members("Field"),
    "methods": lambda it: it.types[1].methods,
    "owner": lambda it: it.methods[0].declaring_type,
    "full_name": lambda it: it.types[1].full_name,
    "custom_attributes": lambda it: it.types[1].custom_attributes,
    "arguments": lambda it: it.custom_attributes[0].arguments,
    "nested_types": lambda it: it.types[0].nested_types,
    "find_type": lambda it: it.find_type("Hello", "Greeter"),
    "by_key": lambda it: it["NestedClass"].by_key(0x02000002),
    "text": lambda it: it.methods[1].signature.text,
    "find_type by a full name": lambda it: it.find_type("Hello.Greeter/Settings"),
    "name_of": lambda it: it.name_of(0x06000002),
    "declaration": lambda it: it.methods[1].declaration,
    "bytes_at": lambda it: it.bytes_at(0x2000, 16),
    "user_string": lambda it: it.user_string(0x70000000),
    "canonical_root": lambda it: it.canonical_root(),
    "digest": lambda it: it.digest(),
    "where": lambda it: it.where(116),
    "difference": lambda it: clim.compare(it, it),
    "Tables.of": lambda it: clim.Tables.of(it),
    "root": lambda it: clim.Tables.of(it).root(),
    "embed": lambda it: ends(it.embed, clim.EmbedError),
}


def with_close(call, data, seconds):
    """Another thread closes the assembly: each thread gets a `ValueError`."""
    end, others = time.monotonic() + seconds, []

    def read(assembly):
        try:
            while True:
                call(assembly)
        except ValueError as error:
            others.extend([error] * (str(error) != "the assembly is closed"))
        except BaseException as error:
            others.append(error)

    while time.monotonic() < end:
        # A copy, which nothing else keeps.
        assembly = clim.open(memoryview(data))
        threads = [threading.Thread(target=read, args=[assembly]) for _ in range(2)]
        for it in threads:
            it.start()
        time.sleep(random.random() * LONGEST)
        assembly.close()
        for it in threads:
            it.join()
        if others:
            raise others[0]


def with_changes(_, data, seconds):
    """Another thread changes the tables."""
    with clim.open(data) as assembly:
        tables = clim.Tables.of(assembly)

        def change():
            tables["TypeDef"][1]["TypeName"] = "a" * random.randrange(100)
            tables.add("ModuleRef", Name="b" * random.randrange(100))
            del tables["ModuleRef"][random.randrange(5) :]
            tables.user = bytearray(4 * random.randrange(100))

        beside(seconds, lambda: ends(tables.root, clim.Refusal), change)


# The calls that take a root.
ROOTS = {
    "embed": lambda it, root: it.embed(root),
    "embed without a strong name": lambda it, root: it.embed(root, clim.StrongName.CLEAR),
}


def with_roots(call, data, seconds):
    """The root that the caller gives is written. Of the copies that are made, each opens."""
    with clim.open(data) as assembly:
        root = assembly.canonical_root()
        shared = bytearray(root)

        def embed():
            clim.open(call(assembly, shared)).close()

        write = lambda at, it: shared.__setitem__(at, it[0])
        beside(seconds, lambda: ends(embed, clim.Fault, clim.EmbedError), lambda: spoil(write, len(root), root))


CASES = [
    *[(how, name, call) for how in (with_bytes, with_map, with_path) for name, call in GIVEN.items()],
    *[(with_close, name, call) for name, call in READ.items()],
    *[(with_roots, name, call) for name, call in ROOTS.items()],
    (with_changes, "root", None),
]


def main():
    with open(sys.argv[1], "rb") as file:
        data = file.read()
    failed, cases = 0, [it for it in CASES if len(sys.argv) < 4 or it[1] in sys.argv[3:]]
    for how, name, call in cases:
        try:
            how(call, data, float(sys.argv[2]))
        except Exception as error:
            failed += 1
            print(f"{name}, {how.__name__}: {error!r}")
    print(f"{len(cases) - failed} passed, {failed} failed")
    return failed > 0


if __name__ == "__main__":
    sys.exit(main())
