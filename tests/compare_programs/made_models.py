"""Makes the rows of a metadata root (II.22), of many shapes, and breaks a rule of them if that is asked for."""

import copy
import os
import sys

sys.path.insert(0, os.path.join(os.path.dirname(os.path.dirname(os.path.realpath(__file__))), "oracle"))
from made_signatures import Signatures
from made_texts import Texts, user_heap
from rows import FIRST_TAGS, LISTS
from walk import CODED, NUMBERS, TABLES

COLUMNS = {table: [tuple(it.split()) for it in columns.split(", ")] for table, (_, columns) in TABLES.items()}
HEAP_KINDS = ("text", "guid", "blob")
# The columns that may be null (II.22), apart from heaps.
NULLABLE = {(0x01, "ResolutionScope"), (0x02, "Extends"), (0x14, "EventType"), (0x27, "Implementation"), (0x28, "Implementation")}
# The keys of the tables that are sorted (II.22).
KEYS = {0x09: 0, 0x0B: 2, 0x0C: 0, 0x0D: 0, 0x0E: 1, 0x0F: 2, 0x10: 1, 0x18: 2, 0x19: 0, 0x1C: 1, 0x1D: 1, 0x29: 0, 0x2A: 2, 0x2C: 0}
ALL_SORTED = sum(1 << table for table in KEYS)
NESTED_CLASS = 0x29
SIGNATURES = {
    (0x04, "Signature"): "of_field", (0x06, "Signature"): "method", (0x0A, "Signature"): "of_member", (0x11, "Signature"): "of_standalone",
    (0x17, "Type"): "of_property", (0x1B, "Signature"): "result", (0x2B, "Instantiation"): "of_instance",
}
# The owners of members: the column of their table that is a list.
OWNERS = {NUMBERS[LISTS[name]]: table for table, columns in COLUMNS.items() for name, _ in columns if name in LISTS}
VERSIONS = [b"v4.0.30319", b"v4.0.30319", b"v2.0.50727", b"", b"x", b'v"\\\x1b\n', "vé漢".encode(), b"v" * 254]
NUMBERS_AT_LIMITS = (0, 0, 1, 2, 3, 6, 7, 0x10, 0x20, 0x40, 0x80, 0x100, 0x800, 0x1000, 0x2000, 0x8000, 0xFFFF, 0x100001, 0x7FFFFFFF, 0xFFFFFFFF)
# Tables whose number of rows decides the width of indexes, and numbers at the limits of the widths (II.24.2.6).
WIDE = [(0x2A, 2_048), (0x08, 2_048), (0x1A, 8_192), (0x02, 16_384), (0x08, 16_384), (0x26, 16_384), (0x08, 65_535), (0x08, 65_536), (0x04, 65_536)]


def targets(kind):
    """The tables that a column refers to, each with its tag, and the bits of the tag; no table if it is another column."""
    bits, names = CODED.get(kind, (0, kind if kind in NUMBERS else ""))
    first = FIRST_TAGS.get(kind, 0)
    return [(tag, NUMBERS[name]) for tag, name in enumerate(names.split(), first)], bits


class Raw(int):
    """A cell as it is stored, whatever its column is."""


class Model:
    """Rows by table, each a list of its cells: a number, bytes of a text, a blob or a GUID, or a table's tag and a row."""

    def __init__(self, chance):
        self.chance, self.texts = chance, Texts(chance)
        self.version = chance.choice(VERSIONS)
        self.user = user_heap(chance) if chance.randrange(2) else b""
        self.sorted = self.sorted_bits()
        self.counts = self.made_counts()
        self.signatures = Signatures(chance, self.counts)
        self.blobs = [chance.randbytes(chance.choice((0, 1, 2, 4, 8, 20, 130))) for _ in range(4)]
        self.guids = [chance.randbytes(16) for _ in range(3)]
        self.rows = {table: self.made_rows(table, count) for table, count in sorted(self.counts.items())}

    def sorted_bits(self):
        """Sorted: all keyed tables as a rule, else some bits; those of other tables mean nothing."""
        chance = self.chance
        return chance.choice((ALL_SORTED, ALL_SORTED, ALL_SORTED, ALL_SORTED, 0, chance.getrandbits(64), ALL_SORTED & chance.getrandbits(64)))

    def made_counts(self):
        chance = self.chance
        kind = chance.randrange(60)
        tables = list(TABLES)
        if kind == 0:
            counts = {}
        elif kind == 1:
            table, count = chance.choice(WIDE[:4] if chance.randrange(6) else WIDE)
            counts = {table: count, **{it: 1 for it in tables if not chance.randrange(3) and it != table}}
        elif kind == 2:
            counts = {NUMBERS["TypeDef"]: chance.randint(60, 140), NESTED_CLASS: 140, NUMBERS["Field"]: 2, NUMBERS["MethodDef"]: 2}
        elif kind < 12:
            counts = {table: chance.randint(1, 3) for table in tables}
        elif kind < 24:
            counts = {chance.choice(tables): chance.randint(1, 4) for _ in range(chance.randint(1, 6))}
        elif kind < 30:
            counts = {chance.choice(tables): chance.choice((20, 60, 130, 300, 600))}
        else:
            most = {0x01: 12, 0x02: 9, 0x04: 14, 0x06: 14, 0x08: 14, 0x0A: 9, 0x0C: 9, 0x18: 6, 0x14: 4, 0x17: 4, 0x2A: 4}
            counts = {table: chance.randint(0, most.get(table, 2)) for table in tables}
            counts |= {0x00: 1, 0x02: 1 + counts[0x02]}
        counts = {table: count for table, count in counts.items() if count}
        while self.complete(counts):
            pass
        return counts

    def complete(self, counts):
        """Adds a table that another one needs, and says whether there was one."""
        for table in list(counts):
            wanted = [[OWNERS[table]]] if table in OWNERS else []
            wanted += [
                [it for _, it in targets(kind)[0]] for name, kind in COLUMNS[table]
                if name not in LISTS and targets(kind)[0] and (table, name) not in NULLABLE
            ]
            for options in wanted:
                if not any(counts.get(it) for it in options):
                    counts[self.chance.choice(options)] = self.chance.randint(1, 2)
                    return True
        if counts.get(NESTED_CLASS) and counts[0x02] < 2:
            counts[0x02] = 2
            return True
        return False

    def made_rows(self, table, count):
        if table == NESTED_CLASS:
            rows = self.nested_rows(count)
        else:
            rows = [[self.cell(table, name, kind) for name, kind in COLUMNS[table]] for _ in range(count)]
        for index, (name, _) in enumerate(COLUMNS[table]):
            if name in LISTS:
                for row, start in zip(rows, self.starts(count, self.counts.get(NUMBERS[LISTS[name]], 0))):
                    row[index] = start
        if table in KEYS and (self.sorted >> table & 1 or self.chance.randrange(3)):
            index = KEYS[table]
            bits = targets(COLUMNS[table][index][1])[1]
            rows.sort(key=lambda row: row[index][1] << bits | row[index][0])
        return rows

    def nested_rows(self, count):
        """Nested types, each after the type that encloses it; sometimes each in the one before it."""
        chance, types = self.chance, self.counts[0x02]
        if not chance.randrange(4):
            return [[(0, row), (0, row - 1)] for row in range(2, min(types, count + 1) + 1)] or [[(0, 2), (0, 1)]]
        nested = [chance.randint(2, types) for _ in range(count)]
        return [[(0, row), (0, chance.randint(1, row - 1))] for row in nested]

    def starts(self, owners, members):
        """The starts of runs (II.22.37): they begin with 1 and do not fall. Some are null if that means the same."""
        chance = self.chance
        found = [1, *sorted(chance.randint(1, members + 1) for _ in range(owners - 1))][:owners]
        nulls = not chance.randrange(4)
        later = [*found[1:], members + 1]
        return [0 if nulls and start == it and chance.randrange(2) else start for start, it in zip(found, later)]

    def cell(self, table, name, kind):
        chance = self.chance
        if kind.isdigit():
            largest = (1 << 8 * int(kind)) - 1
            number = chance.choice(NUMBERS_AT_LIMITS) if chance.randrange(4) else chance.getrandbits(32)
            return number & largest
        if kind == "text":
            return self.texts.next()
        if kind == "guid":
            return chance.choice(self.guids) if chance.randrange(2) else None
        if (table, name) in SIGNATURES:
            return getattr(self.signatures, SIGNATURES[table, name])()
        if kind == "blob":
            return chance.choice(self.blobs) if chance.randrange(3) else chance.randbytes(chance.randrange(12))
        return self.reference(table, name, kind)

    def reference(self, table, name, kind):
        found, _ = targets(kind)
        there = [(tag, it) for tag, it in found if self.counts.get(it)]
        if (table, name) in NULLABLE and (not there or not self.chance.randrange(3)):
            return self.chance.choice(found)[0], 0
        if not there:
            return 0, 0
        tag, it = self.chance.choice(there)
        # Of many rows the first, the last and those between them.
        return tag, self.chance.choice((1, self.counts[it], self.chance.randint(1, self.counts[it])))

    def copied(self):
        """A copy, of which the rows can be changed."""
        made = copy.copy(self)
        made.rows = {table: [list(row) for row in rows] for table, rows in self.rows.items()}
        return made

    def change(self):
        """Changes a few cells, or the version, or the user strings, or adds a row; the model stays valid."""
        chance = self.chance
        kind = chance.randrange(8)
        if kind == 0:
            self.version = chance.choice(VERSIONS)
        elif kind == 1:
            self.user = user_heap(chance)
        elif kind == 2:
            free = [it for it in self.rows if it not in KEYS and not any(name in LISTS for name, _ in COLUMNS[it])]
            for table in chance.sample(free, min(1, len(free))):
                self.rows[table].append(list(chance.choice(self.rows[table])))
        else:
            for _ in range(chance.choice((1, 1, 2, 5, 30))):
                self.change_cell()

    def change_cell(self):
        """Replaces a cell that no order depends on."""
        if not self.rows:
            return
        table = self.chance.choice(list(self.rows))
        index = self.chance.randrange(len(COLUMNS[table]))
        name, kind = COLUMNS[table][index]
        if name in LISTS or KEYS.get(table) == index or table == NESTED_CLASS:
            return
        self.chance.choice(self.rows[table])[index] = self.cell(table, name, kind)


def cells_of(model, fits):
    """The cells of a model whose columns fit: the row, the index in it, the table and the kind."""
    return [
        (row, index, table, kind) for table, rows in model.rows.items() for row in rows for index, (name, kind) in enumerate(COLUMNS[table])
        if fits(table, name, kind)
    ]


def break_heap_index(model, chance):
    """An index that no heap has: 501, 503, 504."""
    found = cells_of(model, lambda table, name, kind: kind in HEAP_KINDS)
    if found:
        row, index, _, _ = chance.choice(found)
        row[index] = Raw(chance.choice((0xFFFF, 0x7FFF, 9_000)))


def break_text(model, chance):
    """A text that is not UTF-8: 502."""
    found = cells_of(model, lambda table, name, kind: kind == "text")
    if found:
        row, index, _, _ = chance.choice(found)
        row[index] = chance.choice((b"\xff", b"a\x80", b"\xc3", b"\xed\xa0\x80", b"\xf4\x90\x80\x80", b"\xc0\xaf"))


def break_reference(model, chance):
    """A row that is not there, null where it is not allowed, or an unused tag: 505, 506."""
    found = cells_of(model, lambda table, name, kind: name not in LISTS and bool(targets(kind)[0]))
    if found:
        row, index, _, kind = chance.choice(found)
        bits = targets(kind)[1]
        row[index] = chance.choice(((row[index][0], 60_000 >> bits), (row[index][0], 0), ((1 << bits) - 1, 1)))


def break_list(model, chance):
    """A start past the members, or starts that fall or do not begin with 1: 507, 602."""
    found = cells_of(model, lambda table, name, kind: name in LISTS)
    if found:
        row, index, _, _ = chance.choice(found)
        row[index] = chance.choice((2, 3, row[index] + 1, 60_000, 1))


def break_order(model, chance):
    """A keyed table that is out of order: 601."""
    found = [table for table in KEYS if len(model.rows.get(table, [])) > 1]
    if found:
        table = chance.choice(found)
        model.rows[table].reverse()
        model.sorted |= 1 << table


def break_owners(model, chance):
    """Members without owners: 603."""
    found = [owner for member, owner in OWNERS.items() if member in model.rows and owner in model.rows and owner not in (0x02, 0x06)]
    if found:
        del model.rows[chance.choice(found)]


def break_nesting(model, chance):
    """A type that is nested in itself or in a later one: 604."""
    for row in chance.sample(model.rows.get(NESTED_CLASS, []), min(1, len(model.rows.get(NESTED_CLASS, [])))):
        row[1] = chance.choice((row[0], (0, model.counts[0x02])))


def break_signature(model, chance):
    """A signature that is cut, too long, of another kind, too deep, or with another byte: 701, 702."""
    found = cells_of(model, lambda table, name, kind: (table, name) in SIGNATURES)
    if found:
        row, index, _, _ = chance.choice(found)
        blob = bytearray(row[index])
        at = chance.randrange(len(blob) + 1)
        row[index] = bytes(chance.choice((
            blob[:at], blob + b"\x08", b"", blob[:at] + chance.randbytes(1) + blob[at + 1:], b"\x1d" * 128 + b"\x08", b"\x06\x12\x7d", b"\x06\x12\x80\x01",
        )))


BREAKS = [
    break_heap_index, break_text, break_reference, break_list, break_order, break_owners, break_nesting, break_signature, break_signature,
]
