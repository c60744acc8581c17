"""Tables that a program fills, and the metadata root that they make (II.22, II.24.2)."""

from __future__ import annotations

import ctypes
import operator
import typing
import uuid
from functools import lru_cache
from typing import Any, Dict, Iterator, List, MutableMapping, NamedTuple, Optional, Sequence, Set, Tuple, Union

from . import _library as _c
from ._library import library
from .assembly import Assembly, Blobs, Table, Texts, address_of, bytes_of, table_number
from .rows import Row
from .values import Refusal, Signature, Start, Token

#: A cell that can be given. A row is a token, a row of an assembly, or the table and the row; `None` is null.
Value = Union[int, str, bytes, bytearray, memoryview, uuid.UUID, Row, Tuple[Union[str, int], int], None]

# The kinds of columns, by the type of their cells in `clim.rows`.
_KINDS: Dict[Any, int] = {
    int: _c.NUMBER,
    str: _c.TEXT,
    bytes: _c.BLOB,
    Optional[uuid.UUID]: _c.GUID,
    Token: _c.ROW,
    Optional[Token]: _c.ROW,
    Start: _c.START,
    Signature: _c.SIGNATURE,
}
# The cells of columns that are left out, without those of runs and signatures.
_DEFAULTS: Dict[int, Value] = {_c.NUMBER: 0, _c.TEXT: "", _c.BLOB: b"", _c.GUID: None, _c.ROW: None}
# The tables whose rows a run has, by the name of its column.
_MEMBERS = {
    "FieldList": "Field",
    "MethodList": "MethodDef",
    "ParamList": "Param",
    "EventList": "Event",
    "PropertyList": "Property",
}
# The types of columns whose cells are read when they are used, by the kinds of these.
_COLUMNS: Dict[int, type] = {_c.TEXT: Texts, _c.BLOB: Blobs, _c.SIGNATURE: Blobs}
# The largest number of a cell, and of a row in a token.
_LARGEST, _LARGEST_ROW = 0xFFFFFFFF, 0xFFFFFF
# The rules that are about no table.
_WHOLE = (302, 510)
# The names of the rules that only tables can break. The library has none for them.
_NAMES = {509: "BadCell", 510: "UserBytes"}
# The number of bytes of a root that are neither cells nor heaps, at most, and those of a cell with what a heap adds to it.
_HEADS, _CELL = 1000, 4 + 5 + 16


class _Cell(NamedTuple):
    """The fields of a `clim_cell`, in their order. Its bytes are at an address, or at an offset in the heap if that is 0."""

    offset: int = 0
    address: int = 0
    length: int = 0
    number: int = 0
    kind: int = 0
    table: int = 0
    guid: bytes = bytes(16)


class _Heap:
    """The texts and blobs that cells point to, each once.

    Attributes:
        parts: The texts and blobs that are in the heap, one after another.
        length: The number of their bytes.
        owners: What has those that are at an address instead.
    """

    def __init__(self) -> None:
        self.parts: List[bytes] = []
        self.length = 0
        self.owners: Set[Blobs] = set()
        self._spans: Dict[type, Dict[Any, Tuple[int, int]]] = {str: {}, bytes: {}}

    def add(self, content: Union[str, bytes]) -> Tuple[int, int]:
        """The offset and the length of a text or a blob, which is added if it is new."""
        spans = self._spans[type(content)]
        if content not in spans:
            part = content.encode() if isinstance(content, str) else content
            spans[content] = self.length, len(part)
            self.parts.append(part)
            self.length += len(part)
        return spans[content]


class _SharedRow(MutableMapping[str, Any]):
    """A row of an assembly whose names or blobs are much longer than the file. Each is read when it is used."""

    __slots__ = ("_columns", "_index", "_own")

    def __init__(self, columns: Dict[str, Sequence[Any]], index: int) -> None:
        self._columns, self._index = columns, index
        self._own: Dict[str, Any] = {}

    def __getitem__(self, column: str) -> Any:
        return self._own[column] if column in self._own else self._columns[column][self._index]

    def __setitem__(self, column: str, value: Any) -> None:
        self._own[column] = value

    def __delitem__(self, column: str) -> None:
        self._own, self._columns = dict(self), {}
        del self._own[column]

    def __iter__(self) -> Iterator[str]:
        return iter({**self._columns, **self._own})

    def __len__(self) -> int:
        return len({**self._columns, **self._own})

    def __repr__(self) -> str:
        return repr(dict(self))

    def cell(self, kind: int, column: str, heap: _Heap) -> Optional[_Cell]:
        """The cell of a column, in the bytes of the assembly; `None` if it was changed, or the column has no such cells."""
        its = None if column in self._own else self._columns.get(column)
        if not isinstance(its, Blobs) or type(its) is not _COLUMNS.get(kind):
            return None
        heap.owners.add(its)
        return _Cell(0, *its.span(self._index), kind=kind)


@lru_cache(maxsize=None)
def _kinds_of(table: int) -> Dict[str, int]:
    """The kinds of the columns of a table, by their names."""
    hints = typing.get_type_hints(Row.of_table[table])
    return {name: _KINDS[typing.get_args(hints[name])[0]] for name in _c.COLUMN_NAMES[table]}


def _number(value: Any) -> int:
    """A number that a cell can have."""
    if isinstance(value, Token):
        raise TypeError("a number is wanted, and not a token")
    number = operator.index(value)
    if not 0 <= number <= _LARGEST:
        raise ValueError(f"{number} is not from 0 to {_LARGEST}")
    return number


def _token(value: Any) -> Token:
    """The token of a row that is given."""
    if isinstance(value, Row):
        return value.token
    if isinstance(value, tuple):
        table, row = value
        if not 0 <= operator.index(row) <= _LARGEST_ROW:
            raise ValueError(f"{row} is not from 0 to {_LARGEST_ROW}")
        return Token.of(table_number(table), operator.index(row))
    return Token(operator.index(value))


def _encoded(kind: int, value: Any, heap: _Heap) -> _Cell:
    """A cell of a column of a kind; raises `TypeError` or `ValueError` if no such cell has the value."""
    if kind in (_c.NUMBER, _c.START):
        return _Cell(number=_number(value), kind=kind)
    if kind == _c.TEXT:
        if not isinstance(value, str):
            raise TypeError(f"a text is wanted, and not {value!r}")
        offset, length = heap.add(value if type(value) is str else str.encode(value))
        return _Cell(offset, length=length, kind=kind)
    if kind in (_c.BLOB, _c.SIGNATURE):
        if not isinstance(value, (bytes, bytearray, memoryview)):
            raise TypeError(f"bytes are wanted, and not {value!r}")
        offset, length = heap.add(bytes_of(value))
        return _Cell(offset, length=length, kind=kind)
    if kind == _c.GUID:
        if not isinstance(value, (uuid.UUID, type(None))):
            raise TypeError(f"a UUID or None is wanted, and not {value!r}")
        return _Cell(kind=_c.NULL_GUID) if value is None else _Cell(kind=kind, guid=value.bytes_le)
    if value is None:
        return _Cell(kind=_c.NULL_ROW)
    token = _token(value)
    if not 0 <= token <= _LARGEST:
        raise ValueError(f"{int(token)} is no token")
    return _Cell(number=token.row, kind=kind, table=token.table)


def _refusal_of(found: _c.RefusalStruct) -> Refusal:
    """A refusal that the library wrote. Those that are about no row have row 0, and some are about no table."""
    name = _c.text_of(library.clim_fault_name, found.code).decode() or _NAMES.get(found.code, "")
    if found.code in _WHOLE:
        return Refusal(found.code, name)
    table = _c.TABLE_NAMES[found.table]
    if found.row == 0:
        return Refusal(found.code, name, table)
    return Refusal(found.code, name, table, found.row, _c.COLUMN_NAMES[found.table][found.column])


def _rows_of(table: Table[Any]) -> List[MutableMapping[str, Any]]:
    """The rows of a table, with cells that may be changed."""
    columns = {name: table.column(name) for name in table.columns}
    if any(isinstance(it, Blobs) for it in columns.values()):
        return [_SharedRow(columns, index) for index in range(len(table))]
    return [dict(zip(columns, cells)) for cells in zip(*columns.values())]


class Tables:
    """Tables that a program fills. `root()` checks them against all rules, and makes a metadata root of them (II.24.2).

        tables = clim.Tables()
        tables.add("Module", Name="one.dll", Mvid=uuid.uuid4())
        tables.add("TypeDef", TypeName="<Module>")
        tables.add("TypeDef", Flags=1, TypeName="Greeter", TypeNamespace="Hello")
        tables.add("MethodDef", Flags=0x96, Name="Greet", Signature=bytes([0x00, 0x00, 0x01]))
        root = tables.root()

    The tables are items, by name or by number. `tables["TypeDef"]` is a list of its rows, each a `dict` of its cells by the
    names of their columns. Lists and rows may be changed: rows count from 1, so the first is `tables["TypeDef"][0]`.

    | column | value |
    |---|---|
    | number | `int` |
    | text | `str` |
    | blob or signature | `bytes` |
    | GUID | `uuid.UUID`, or `None` |
    | row of a table | a token, a `clim.Row`, a tuple such as `("TypeDef", 1)`, or `None` |
    | first row of a run | `int` |

    Attributes:
        version: The version string of the root (II.24.2.1).
        user: The bytes of `#US` (II.24.2.4). `add_user_string` adds to them.
    """

    def __init__(self, version: str = "v4.0.30319") -> None:
        self.version = version
        self.user = b""
        self._rows: Dict[int, List[MutableMapping[str, Any]]] = {number: [] for number in _c.TABLE_NAMES}

    @classmethod
    def of(cls, assembly: Assembly) -> Tables:
        """The tables of an assembly, copied: its version, its user strings and all rows.

        Each row is a `dict`. If the names or blobs of a crafted assembly are much longer than the file, the rows are
        other mappings, whose cells are read when they are used.
        """
        shared = assembly._shared()
        tables = cls(shared.version)
        tables.user = shared.user
        for table in shared:
            tables._rows[table.number] = _rows_of(table)
        return tables

    def __getitem__(self, table: Union[str, int]) -> List[MutableMapping[str, Any]]:
        """The rows of a table, by its name or its number; raises `KeyError` if there is none."""
        return self._rows[table_number(table)]

    def __repr__(self) -> str:
        return f"<tables of {sum(map(len, self._rows.values()))} rows>"

    def add(self, table: Union[str, int], *cells: Value, **columns: Value) -> Token:
        """Adds a row at the end of a table, and returns its token.

        The cells are given in the order of the columns, or by the names of the columns. A column that you leave out is 0, an
        empty text or blob, or `None`. A run that you leave out begins with the next row of its table: so add a type,
        then its fields and its methods, then the next type. A signature must be given.

        Raises:
            KeyError: There is no such table.
            TypeError: The table has other columns, a signature is missing, or a cell is of another type.
            ValueError: A number is negative or has more than 32 bits, or a text has a surrogate.
        """
        number = table_number(table)
        name, names, kinds = _c.TABLE_NAMES[number], _c.COLUMN_NAMES[number], _kinds_of(number)
        if cells:
            if columns or len(cells) != len(names):
                raise TypeError(f"{name} has {len(names)} columns: {', '.join(names)}")
            columns = dict(zip(names, cells))
        for column in columns:
            if column not in kinds:
                raise TypeError(f"{name} has no column {column}")
        row = {it: columns[it] if it in columns else self._default(it, kinds[it]) for it in names}
        rows = self._rows[number]
        for column in columns:
            cell = self._cell(number, len(rows) + 1, kinds[column], row, column, _Heap())
            if cell.kind == _c.ROW:
                row[column] = Token.of(cell.table, cell.number)
        rows.append(row)
        return Token.of(number, len(rows))

    def _default(self, column: str, kind: int) -> Value:
        """The cell of a column that was left out."""
        if kind == _c.SIGNATURE:
            raise TypeError(f"the signature {column} is missing")
        return len(self[_MEMBERS[column]]) + 1 if kind == _c.START else _DEFAULTS[kind]

    def add_user_string(self, text: str) -> int:
        """Adds a user string, and returns its token, such as 0x70000001, as `ldstr` uses it (II.24.2.4).

        It may contain unpaired surrogates.

        Raises:
            ValueError: It has 2**28 UTF-16 units or more, or `#US` has too many bytes for a token.
        """
        heap = self.user or b"\0"
        units = text.encode("utf-16-le", "surrogatepass")
        length, offset = len(units) + 1, len(heap)
        if length >= 1 << 29 or offset >= 1 << 24:
            raise ValueError("the user string has no token")
        size = 1 if length < 1 << 7 else 2 if length < 1 << 14 else 4
        prefix = (length | {1: 0, 2: 0x8000, 4: 0xC0000000}[size]).to_bytes(size, "big")
        self.user = heap + prefix + units + bytes([_needs_more(units)])
        return 0x70 << 24 | offset

    def root(self) -> bytes:
        """Checks the tables, and returns the canonical root that they make (II.24.2).

        `clim.open(root, bare=True)` opens it, with these rows.

        Raises:
            Refusal: The tables break a rule. It has the number and the name of the first one, the table, row and column.
            TypeError: A cell that was changed has another type.
            ValueError: A number that was changed is out of range, or a text has a surrogate.
            KeyError: A row that was changed lacks a column, or has one that its table lacks.
            OverflowError: The root would have more than 2**30 bytes.
            MemoryError: Memory ran out.
            Unsupported: The library is older than this package.
        """
        heap = _Heap()
        cells: List[_Cell] = []
        rows: List[Tuple[int, int, int]] = []
        for number, its in self._rows.items():
            kinds = _kinds_of(number)
            for index, row in enumerate(its, 1):
                if len(row) > len(kinds):
                    raise KeyError(next(it for it in row if it not in kinds))
                rows.append((len(cells), len(kinds), number))
                for column, kind in kinds.items():
                    cell = row.cell(kind, column, heap) if isinstance(row, _SharedRow) else None
                    cells.append(cell or self._cell(number, index, kind, row, column, heap))
        return self._made(heap, cells, rows)

    def _cell(self, table: int, row: int, kind: int, cells: Any, column: str, heap: _Heap) -> _Cell:
        """A cell of a row; an error has the name of its column."""
        try:
            return _encoded(kind, cells[column], heap)
        except (TypeError, ValueError) as error:
            its_type = TypeError if isinstance(error, TypeError) else ValueError
            raise its_type(f"{_c.TABLE_NAMES[table]} {row} {column}: {error}") from error

    def _made(self, heap: _Heap, cells: List[_Cell], rows: List[Tuple[int, int, int]]) -> bytes:
        """The root of rows. The first field of a row is the index of a cell."""
        content = b"".join(heap.parts)
        start = address_of(content)
        pack = _c.CELL.pack
        packed = b"".join([pack(at or start + offset, *fields) for offset, at, *fields in cells])
        first = address_of(packed)
        given = b"".join([_c.GIVEN_ROW.pack(first + at * _c.CELL.size, *fields) for at, *fields in rows])
        user = bytes_of(self.user)
        version, user = str.encode(self.version), user + bytes(-len(user) % 4)
        texts = address_of(version), len(version), address_of(user), len(user)
        room = _HEADS + heap.length + len(user) + _CELL * len(cells)
        while True:
            root, refusal = ctypes.create_string_buffer(room), _c.RefusalStruct()
            arguments = *texts, address_of(given), len(rows), root, room, ctypes.byref(refusal)
            length = _c.canonical_length(library.clim_tables(*arguments))
            if length == 0:
                raise _refusal_of(refusal)
            if length <= room:
                return ctypes.string_at(root, length)
            room = length


def _needs_more(units: bytes) -> bool:
    """Whether a user string has a character that needs more than the handling of 8-bit sets: its flag (II.24.2.4)."""
    low, high = units[::2], units[1::2]
    return any(high) or any(it in _UNUSUAL for it in low)


_UNUSUAL = {*range(0x01, 0x09), *range(0x0E, 0x20), 0x27, 0x2D, 0x7F}
