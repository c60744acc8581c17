"""The rows of a file as text, by ECMA-335 II.22 and II.24.2. It shares no code with the library."""

import json
import uuid

from walk import CODED, HEAPS, NUMBERS, TABLES, escaped, packed

# The columns whose cells are lists: each begins at a row of this table and ends where the next one begins (II.22).
LISTS = {"FieldList": "Field", "MethodList": "MethodDef", "ParamList": "Param"}
LISTS |= {"EventList": "Event", "PropertyList": "Property"}
# The first tag of a coded index, if it is not 0 (II.24.2.6).
FIRST_TAGS = {"CustomAttributeType": 2}
# The kind of each column, by its table and its name.
KINDS = {(number, it.split()[0]): it.split()[1] for number, (_, columns) in TABLES.items() for it in columns.split(", ")}


def cell_text(table, column, value):
    """The text of a cell, from its JSON value."""
    kind = KINDS[table, column]
    if value is None:
        return "null"
    if kind == "text":
        return f'"{escaped(value.encode())}"'
    if kind == "guid":
        return f"{{{value}}}"
    if kind == "blob":
        return f"<{value['blob'] if isinstance(value, dict) else value}>"
    return f"+{value}" if column in LISTS else str(value)


def row_line(line):
    """The line of `show --names` that says the same as an object of `show --json`."""
    value = json.loads(line)
    table, row, token = NUMBERS[value.pop("table")], value.pop("row"), value.pop("token")
    cells = " ".join(f"{column}={cell_text(table, column, it)}" for column, it in value.items())
    return f"{token} {cells}" if token == f"{table:02x}{row:06x}" else None


class Rows:
    """The rows of a walk that has the tables. Blobs are shown as they are: signatures have to be in their canonical encoding."""

    def __init__(self, walk):
        self.walk, self.data = walk, walk.data

    def entry(self, kind, index):
        """The text, the GUID or the blob at an index."""
        if not index:
            return {"text": '""', "guid": "null", "blob": "<>"}[kind]
        start, size, _ = self.walk.entry(kind, HEAPS[kind][1], index)
        found = self.data[start:start + size]
        if kind == "text":
            return f'"{escaped(found[:-1])}"'
        if kind == "guid":
            return f"{{{uuid.UUID(bytes_le=found)}}}"
        return f"<{found[packed(self.walk.data, start)[1]:].hex()}>"

    def first_of_list(self, table, row, column):
        """The row where a list begins. A null list begins where the next one does, and the last one after all rows."""
        for later in range(row, self.walk.counts[table] + 1):
            start = next(cell for _, name, _, cell in self.walk.cells(table, later) if name == column)
            if start:
                return start
        return self.walk.counts[NUMBERS[LISTS[column]]] + 1

    def cell(self, table, row, column, kind, cell):
        if kind.isdigit():
            return str(cell)
        if kind in ("text", "guid", "blob"):
            return self.entry(kind, cell)
        if column in LISTS:
            return f"+{self.first_of_list(table, row, column)}"
        bits, names = CODED.get(kind, (0, kind))
        target = NUMBERS[names.split()[cell % (1 << bits) - FIRST_TAGS.get(kind, 0)]]
        return f"{target:02x}{cell >> bits:06x}" if cell >> bits else "null"

    def lines(self, table, count, names):
        """The lines of the first rows of a table, after its heading; nothing without a row."""
        if count:
            yield f"table {table:02X} {TABLES[table][0]} {self.walk.counts[table]}"
        for row in range(1, count + 1):
            cells = [
                f"{column}=" * names + self.cell(table, row, column, kind, cell)
                for _, column, kind, cell in self.walk.cells(table, row)
                if column != "padding"
            ]
            yield " ".join([f"{table:02x}{row:06x}" if names else f"{row}:", *cells])
