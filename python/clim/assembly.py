"""An assembly that was opened, and its tables."""

from __future__ import annotations

import ctypes
import io
import mmap as _mmap
import operator
import os
import struct
import sys
import uuid
from bisect import bisect_right
from itertools import repeat
from types import TracebackType
from typing import (
    AbstractSet,
    Any,
    Dict,
    Generic,
    Iterator,
    List,
    Optional,
    Sequence,
    Tuple,
    Type,
    TypeVar,
    Union,
    cast,
    overload,
)

from . import _library as _c
from ._library import library
from .flags import HeaderFlags
from .rows import (
    AssemblyDef,
    AssemblyRef,
    CustomAttribute,
    Field,
    MemberRef,
    MethodDef,
    Module,
    Row,
    TypeDef,
    TypeRef,
)
from .values import (
    Arguments,
    BudgetSpent,
    Difference,
    Directory,
    EmbedError,
    Fault,
    Header,
    Location,
    Start,
    StrongName,
    Token,
    arguments_of,
)

#: What can be opened: a path, or the bytes themselves.
Source = Union[str, "os.PathLike[str]", bytes, bytearray, memoryview, _mmap.mmap]

R = TypeVar("R", bound=Row)

# The number of bytes that a file has at most; a longer one is fault 101.
_LIMIT = 1 << 30
# The number of bytes that are read at a time from a file whose size is not known.
_PART = 1 << 20
# The number of cells that are read at a time.
_CELLS = 1 << 14
# The texts or blobs of a column are read at once if they have at most this number of times the bytes of the file.
_MOST = 4
# The number of bytes by which a copy of a file is mostly longer than the file and its root.
_PADDING = 1 << 16
# The number of rows that a look-up by key expects.
_ROWS = 16
# The number of look-ups in a table after which its rows are grouped by their keys. Before, each look-up passes over all rows
# of a table that is not in order.
_LOOK_UPS = 64
# The columns of the keys of tables (II.22).
_KEYS = {
    "ClassLayout": "Parent",
    "Constant": "Parent",
    "CustomAttribute": "Parent",
    "DeclSecurity": "Parent",
    "FieldLayout": "Field",
    "FieldMarshal": "Parent",
    "FieldRVA": "Field",
    "GenericParam": "Owner",
    "GenericParamConstraint": "Owner",
    "ImplMap": "MemberForwarded",
    "InterfaceImpl": "Class",
    "MethodImpl": "Class",
    "MethodSemantics": "Association",
    "NestedClass": "NestedClass",
}
# The streams that the standard names (II.24.2.2).
_STREAMS = ("#~", "#Strings", "#US", "#GUID", "#Blob")
# The largest token, address or size, and the largest budget.
_LARGEST_TOKEN, _LARGEST_BUDGET = (1 << 32) - 1, (1 << 64) - 1


def bytes_of(data: Union[bytes, bytearray, memoryview, _mmap.mmap]) -> bytes:
    """The bytes of an object, which no longer change: a copy, unless it is of the type `bytes` itself."""
    return data if type(data) is bytes else memoryview(data).tobytes()


def read_source(source: Source) -> bytes:
    """The bytes of a source. Bytes that may change are copied, and a file is read."""
    if isinstance(source, (bytes, bytearray, memoryview, _mmap.mmap)):
        return bytes_of(source)
    # The number of a file descriptor is no path.
    with io.open(os.fspath(source), "rb") as file:
        size = os.fstat(file.fileno()).st_size
        data = file.read(min(size, _LIMIT) + 1)
        if len(data) <= size:
            return data
        # A pipe, a device, or a file that grows.
        parts = bytearray(data)
        while len(parts) <= _LIMIT and (part := file.read(_PART)):
            parts += part
        return bytes(parts)


def address_of(data: bytes) -> int:
    """The address of bytes. It may be used as long as they live."""
    return cast(int, ctypes.cast(ctypes.c_char_p(data), ctypes.c_void_p).value)


def fault_of(found: _c.FaultStruct) -> Fault:
    """A fault, with its name."""
    return Fault(found.layer, found.code, found.offset, _c.text_of(library.clim_fault_name, found.code).decode())


def fault_in(call: str, data: bytes, bare: bool, budget: Optional[int], *out: Any) -> Optional[_c.FaultStruct]:
    """What `clim_check` or `clim_open` says of bytes: the fault, or `None`. `out` is the view that the call writes."""
    fault, spent = _c.FaultStruct(), ctypes.c_bool()
    name, bytes_ = f"{call}_root" if bare else call, (address_of(data), len(data))
    if budget is None:
        is_whole = getattr(library, name)(*bytes_, *out, ctypes.byref(fault))
    else:
        most = operator.index(budget)
        if not 0 <= most <= _LARGEST_BUDGET:
            raise ValueError(f"the budget {most} is not from 0 to {_LARGEST_BUDGET}")
        is_whole = getattr(library, f"{name}_within")(*bytes_, most, *out, ctypes.byref(fault), ctypes.byref(spent))
    if spent.value:
        raise BudgetSpent("the budget is spent")
    return None if is_whole else fault


def header_of(data: bytes) -> Header:
    """The CLI header of a file; or raises a `Fault`."""
    header, fault = _c.HeaderStruct(), _c.FaultStruct()
    if not library.clim_read_header(address_of(data), len(data), ctypes.byref(header), ctypes.byref(fault)):
        raise fault_of(fault)
    fields = [getattr(header, name) for name in Header._fields]
    found = Header(*(Directory(it.rva, it.size) if isinstance(it, _c.DirectoryStruct) else it for it in fields))
    return found._replace(flags=HeaderFlags(found.flags), entry_point_token=Token(found.entry_point_token))


def offset_in(data: bytes, rva: int, size: int) -> Optional[int]:
    """The offset in a file of bytes at an address, or `None` if the file does not have them."""
    span = operator.index(rva), operator.index(size)
    for number in span:
        if not 0 <= number <= _LARGEST_TOKEN:
            raise ValueError(f"{number} is not from 0 to {_LARGEST_TOKEN}")
    offset = ctypes.c_size_t()
    found = library.clim_offset_of(address_of(data), len(data), *span, ctypes.byref(offset))
    return offset.value if found else None


def _read_streams(data: bytes, root: int) -> Iterator[Tuple[str, int, int]]:
    """The stream headers of a root that was opened: the name of each stream, its offset in the root, and its size.

    A call of `clim_stream` for each header would take time that grows with the square of their number.
    """
    at = root + 16 + struct.unpack_from("<I", data, root + 12)[0]
    (count,) = struct.unpack_from("<H", data, at + 2)
    at += 4
    for _ in range(count):
        past = data.find(b"\0", at + 8)
        offset, size = struct.unpack_from("<II", data, at)
        yield data[at + 8 : past].decode("ascii"), offset, size
        at += 8 + (past - at - 8 + 4) // 4 * 4


def _difference_of(it: _c.DifferenceStruct) -> Difference:
    """A difference that the library wrote."""
    if it.kind == _c.VERSION_DIFFERS:
        return Difference("version")
    if it.kind == _c.USER_DIFFERS:
        return Difference("user strings")
    table = _c.TABLE_NAMES[it.table]
    if it.kind == _c.COUNT_DIFFERS:
        return Difference("row count", table, counts=(it.left_count, it.right_count))
    return Difference("cell", table, it.row, _c.COLUMN_NAMES[it.table][it.column])


def _copy(data: bytes, root: bytes, strong_name: StrongName) -> bytes:
    """A copy of a file with another root; with its own canonical root if that has no bytes."""
    fault, room = _c.FaultStruct(), len(data) + len(root) + _PADDING
    given = address_of(data), len(data), address_of(root), len(root), strong_name.value
    while True:
        copy = ctypes.create_string_buffer(room)
        length = library.clim_embed(*given, copy, room, ctypes.byref(fault))
        if length in (_c.BAD_FILE, _c.BAD_ROOT):
            raise fault_of(fault)
        if length in _c.NO_COPY:
            raise EmbedError(_c.NO_COPY[length])
        if _c.canonical_length(length) <= room:
            return ctypes.string_at(copy, length)
        room = length


class Assembly:
    """An opened file, or an opened metadata root. `clim.open` makes it.

    It is a context manager: `with clim.open(path) as assembly:` closes it at the end. The tables are its items, by name
    or by number: `assembly["TypeDef"]`. Iterating gives the tables that have rows, in the order of their numbers.

    After `close`, each access to a table, a row or a heap is a `ValueError`. Values that were read before stay valid.
    Several threads may read one assembly; one of them may close it.

    Raises:
        Fault: The bytes break a rule of the standard. It is the first one in the order of docs/FAULTS.md.
    """

    def __init__(self, data: bytes, bare: bool = False, budget: Optional[int] = None) -> None:
        self._is_closed = False
        self._data = bytes_of(data)
        self._bare = bare
        self._at = address_of(self._data)
        self._struct = _c.closed_view()
        self._struct.kept = self._data
        # The texts that were read, by their addresses. Many names in a file are the same text of its heap.
        self._texts: Dict[int, str] = {}
        # The texts of long signatures, by the table and by the address and length of the blob, and the number of bytes
        # that may be kept of them still.
        self._signature_texts: Dict[Tuple[int, int, int], Optional[str]] = {}
        self._unused = _MOST * len(self._data)
        self._groups: Dict[Tuple[str, str], Dict[Token, List[Any]]] = {}
        self._tables: Dict[int, Table[Any]] = {}
        fault = fault_in("clim_open", self._data, bare, budget, self._view())
        if fault is not None:
            raise fault_of(fault)

    # -- opening and closing

    def close(self) -> None:
        """Closes the assembly. Another call does nothing."""
        if self._is_closed:
            return
        self._is_closed = True
        for table in self._tables.values():
            table._columns_read.clear()
        # Another thread may still use these.
        self._texts, self._signature_texts, self._groups = {}, {}, {}
        self._struct = _c.closed_view()
        self._data, self._at = b"", 0

    @property
    def closed(self) -> bool:
        """Whether `close` was called."""
        return self._is_closed

    def __enter__(self) -> Assembly:
        self._view()
        return self

    def __exit__(
        self, kind: Optional[Type[BaseException]], error: Optional[BaseException], trace: Optional[TracebackType]
    ) -> None:
        self.close()

    def __repr__(self) -> str:
        return "<closed assembly>" if self._is_closed else f"<assembly of {len(self._data)} bytes>"

    def _shared(self) -> Assembly:
        """The same assembly as an object of its own, which stays open if this one is closed. Both have the same bytes."""
        shared = object.__new__(Assembly)
        shared.__dict__.update(self.__dict__, _texts={}, _signature_texts={}, _groups={}, _tables={})
        shared._view()
        return shared

    def _view(self) -> Any:
        """The view, as an argument of a call."""
        if self._is_closed:
            raise ValueError("the assembly is closed")
        return ctypes.byref(self._struct)

    # -- tables

    def __iter__(self) -> Iterator[Table[Any]]:
        """The tables that have rows, in the order of their numbers."""
        self._view()
        return (table for table in map(self._table, _c.TABLE_NAMES) if table._count > 0)

    def __getitem__(self, table: Union[str, int]) -> Table[Any]:
        """A table, by its name or its number; raises `KeyError` if there is none."""
        self._view()
        return self._table(table_number(table))

    def _table(self, number: int) -> Table[Any]:
        """The table with a number. There is one object for each table."""
        table = self._tables.get(number)
        if table is None:
            table = self._tables.setdefault(number, Table(self, number))
        return table

    def row(self, token: int) -> Any:
        """The row of a token, such as `0x02000005`.

        Raises:
            KeyError: No table has the number.
            IndexError: The table has no such row.
        """
        return self[token >> 24].row(token & 0xFFFFFF)

    @property
    def types(self) -> Table[TypeDef]:
        """The types: the rows of TypeDef. The first one holds the global fields and methods."""
        return self["TypeDef"]

    @property
    def methods(self) -> Table[MethodDef]:
        """The methods of all types: the rows of MethodDef."""
        return self["MethodDef"]

    @property
    def fields(self) -> Table[Field]:
        """The fields of all types: the rows of Field."""
        return self["Field"]

    @property
    def custom_attributes(self) -> Table[CustomAttribute]:
        """The custom attributes of all rows: the rows of CustomAttribute."""
        return self["CustomAttribute"]

    @property
    def type_refs(self) -> Table[TypeRef]:
        """The types of other modules: the rows of TypeRef."""
        return self["TypeRef"]

    @property
    def member_refs(self) -> Table[MemberRef]:
        """The members of other types: the rows of MemberRef."""
        return self["MemberRef"]

    @property
    def references(self) -> Table[AssemblyRef]:
        """The other assemblies: the rows of AssemblyRef."""
        return self["AssemblyRef"]

    @property
    def module(self) -> Optional[Module]:
        """The first row of Module, or `None`."""
        return next(iter(self["Module"]), None)

    @property
    def identity(self) -> Optional[AssemblyDef]:
        """The first row of Assembly, or `None` if the file is no assembly but a module of one."""
        return next(iter(self["Assembly"]), None)

    # -- the header and the heaps

    @property
    def version(self) -> str:
        """The version string of the root, for example `"v4.0.30319"` (II.24.2.1)."""
        return _c.text_of(library.clim_version, self._view()).decode()

    @property
    def header(self) -> Optional[Header]:
        """The CLI header (II.25.3.3), or `None` for a bare root."""
        data = self._data
        self._view()
        return None if self._bare else header_of(data)

    @property
    def user(self) -> bytes:
        """The bytes of `#US`, as they are in the root (II.24.2.4)."""
        return _c.text_of(library.clim_user, self._view())

    @property
    def heaps(self) -> Dict[str, bytes]:
        """The bytes of the streams `#~`, `#Strings`, `#US`, `#GUID` and `#Blob` that the root contains, by name (II.24.2.2)."""
        data = self._data
        self._view()
        root = 0 if self._bare else header_of(data).root_start
        # A crafted root can have thousands of other streams, each as long as the root.
        streams = ((name, root + offset, size) for name, offset, size in _read_streams(data, root) if name in _STREAMS)
        found = {name: data[at : at + size] for name, at, size in streams}
        return {name: found[name] for name in _STREAMS if name in found}

    # -- look-ups

    @overload
    def find_type(self, namespace: str, /) -> Optional[TypeDef]: ...
    @overload
    def find_type(self, namespace: str, name: str) -> Optional[TypeDef]: ...
    def find_type(self, namespace: str, name: Optional[str] = None) -> Optional[TypeDef]:
        """The first type with a namespace and a name, or `None`. A nested type has its own name and namespace.

        With one argument, the first type whose full name it is: `"System.String"`, or `"Hello.Greeter/Settings"` for a type
        that is nested in another. All before the last dot of a part is the namespace, as in a path of
        `clim outline`.
        """
        if name is None:
            return self._find_full_name(namespace)
        space, own = str.encode(namespace), str.encode(name)
        row = library.clim_find_type(self._view(), address_of(space), len(space), address_of(own), len(own))
        return self.types.row(row) if row else None

    def _find_full_name(self, full_name: str) -> Optional[TypeDef]:
        """The first type with a full name. It looks at each type once."""
        parts = [it.rpartition(".")[::2] for it in str.split(full_name, "/")]
        if len(parts) == 1:
            found = self.find_type(*parts[0])
            if found is None or found.enclosing_type is None:
                return found
        types, nested = self.types, self._grouped("NestedClass", "NestedClass")
        lengths = {len(it.encode()) for part in parts for it in part}
        names = (_texts_of(types.column(it), lengths) for it in ("TypeNamespace", "TypeName"))
        # By rows: the part that is the name of a type, if those before it are the names of the types that enclose it. The row
        # of an enclosing type is lower (rule 604).
        part_of: Dict[int, int] = {}
        for row, its in enumerate(zip(*names), 1):
            rows = nested.get(Token.of(types.number, row))
            part = part_of.get(rows[0].EnclosingClass.row, len(parts)) + 1 if rows else 0
            if part < len(parts) and its == parts[part]:
                if part == len(parts) - 1:
                    return types.row(row)
                part_of[row] = part
        return None

    def name_of(self, token: int) -> str:
        """The name of the row of a token in the notation of ILAsm (II.5.3): `"Hello.Greeter::Greet"`, `"N.Outer/Inner"`.

        A name that is no identifier is quoted, as in `"'<Module>'"`; so the text is ASCII. A row without a name is `".."`.

        Raises:
            KeyError: No table has the number.
            IndexError: The table has no such row.
            OverflowError: The name has more than 65,536 bytes, as in crafted files.
            Unsupported: The library is older than this package.
        """
        return self._row_text(library.clim_row_name, self.row(token))

    def declaration(self, token: int) -> str:
        """The declaration of the type, field, method or property of a token, in the notation of ILAsm.

        Of a type that is its full name (II.10.1), of a field its signature and its own name (II.16.1):
        `"class System.Type count"`, of a method (II.15.3) `"string Hello.Greeter::Greet(string name, int32 times)"`, and of
        a property (II.17) `"instance int32 Hello.Greeter::Item(string)"`. The names in it are those of `name_of`.

        Raises:
            KeyError: No table has the number, or its rows have no declarations.
            IndexError: The table has no such row.
            OverflowError: The declaration has more than 65,536 bytes, as in crafted files.
            MemoryError: Memory ran out.
            Unsupported: The library is older than this package.
        """
        row = self.row(token)
        text = self._row_text(library.clim_declaration, row)
        if not text:
            raise KeyError(f"rows of {row.table.name} have no declarations")
        return text

    def bytes_at(self, rva: int, size: int) -> Optional[bytes]:
        """The bytes of the file at an address (II.25.3), or `None` if the file does not have all of them.

        Such addresses are the RVAs of methods and of the data of fields, and those in `header`.

        Raises:
            ValueError: It is a bare root, without a file around it; or a number is negative, or has more than 32 bits.
            Unsupported: The library is older than this package.
        """
        data = self._data
        self._view()
        if self._bare:
            raise ValueError("a bare root has no file around it")
        offset = offset_in(data, rva, size)
        return None if offset is None else data[offset : offset + size]

    def user_string(self, token: int) -> str:
        """The user string of a token such as `0x70000001`, as `ldstr` uses it (II.24.2.4).

        Unpaired surrogates stay unchanged.

        Raises:
            KeyError: The token is another one, or `#US` has no user string there.
            Unsupported: The library is older than this package.
        """
        view = self._view()
        units = _c.written_units(view, token) if 0 <= token <= _LARGEST_TOKEN else None
        if units is None:
            raise KeyError(f"no user string has the token {token:#010x}")
        return units.decode(f"utf-16-{sys.byteorder[0]}e", "surrogatepass")

    def canonical_root(self) -> bytes:
        """The canonical root, which `clim rewrite` writes (II.24.2).

        Two files have the same canonical root if and only if they have the same metadata.

        Raises:
            OverflowError: It would have more than 2**30 bytes.
            MemoryError: Memory ran out.
            Unsupported: The library is older than this package.
        """
        view, room = self._view(), int(self._struct.root.len)
        while True:
            root = ctypes.create_string_buffer(room)
            length = _c.canonical_length(library.clim_canonical_root(view, root, room))
            if length <= room:
                return ctypes.string_at(root, length)
            room = length

    def digest(self) -> bytes:
        """The SHA-256 of the canonical root, 32 bytes. It raises what `canonical_root` raises."""
        digest = ctypes.create_string_buffer(32)
        _c.canonical_length(library.clim_digest(self._view(), digest))
        return digest.raw

    def embed(
        self,
        root: Union[bytes, bytearray, memoryview, _mmap.mmap, None] = None,
        strong_name: StrongName = StrongName.KEEP,
    ) -> bytes:
        """A copy of the file with another metadata root, which `clim embed` writes (II.25).

        `clim.open` opens the copy, with the metadata of the root. The root goes where the old one is, if it fits there, and
        otherwise into a new section, or into a longer last one.

        Args:
            root: The root. It must lead into the file: it has the same number of methods and of fields with data, with the
                same RVAs, the same user strings, and no fewer rows of File. So take the rows of the file by
                `clim.Tables.of`, change names, flags or signatures, and give what `root()` returns. `None` means the file's
                own canonical root.
            strong_name: Whether the strong name of the file is kept or cleared. Its hash is no longer right.

        Raises:
            Fault: The root breaks a rule. Its offset counts in the root.
            EmbedError: The root does not lead into the file, or cannot be put there.
            ValueError: It is a bare root, without a file around it.
            OverflowError: The copy or its root would have more than 2**30 bytes.
            MemoryError: Memory ran out.
            Unsupported: The library is older than this package.
        """
        data, given = self._data, b"" if root is None else bytes_of(root)
        self._view()
        if self._bare:
            raise ValueError("a bare root has no file around it")
        if root is not None and not given:
            # The library takes no bytes for the file's own canonical root.
            raise fault_of(cast(_c.FaultStruct, fault_in("clim_check", given, True, None)))
        return _copy(data, given, StrongName(strong_name))

    def where(self, offset: int) -> Optional[Location]:
        """The cell of a table that contains the byte at an offset, or `None` if no cell contains it (II.24.2.6).

        The offset counts from the start of the metadata root. From an offset in a file, subtract `header.root_start` first.

        Raises:
            Unsupported: The library is older than this package.
        """
        it, struct, view = _c.LocationStruct(), self._struct, self._view()
        if not 0 <= offset < struct.root.len:
            offset = struct.root.len
        if not library.clim_where(view, offset, ctypes.byref(it)):
            return None
        return Location(_c.TABLE_NAMES[it.table], it.row, _c.COLUMN_NAMES[it.table][it.column], it.offset, it.size)

    def difference(self, other: Assembly) -> Optional[Difference]:
        """The first difference from another assembly; `None` if both have the same metadata. See `clim.compare`."""
        it = _c.DifferenceStruct()
        result = _c.canonical_length(library.clim_compare(self._view(), other._view(), ctypes.byref(it)))
        return None if result == _c.EQUAL else _difference_of(it)

    def to_dict(self) -> Dict[str, Any]:
        """The version and the rows of all tables, as values that `json.dumps` takes."""
        return {"version": self.version, "tables": {table.name: table.to_dict() for table in self}}

    def _members(self, row: Row, table: Union[str, int]) -> List[Any]:
        first, past, number = ctypes.c_uint32(), ctypes.c_uint32(), table_number(table)
        ends, its = (ctypes.byref(first), ctypes.byref(past)), row.table.row(row.number)
        if not library.clim_members(self._view(), row.table.number, its.number, number, *ends):
            raise KeyError(f"rows of {row.table.name} own no rows of {_c.TABLE_NAMES[number]}")
        return self._table(number)._rows(range(first.value, past.value))

    def _run(self, row: Row, column: str, member: int) -> List[Any]:
        """The rows that a row owns. They begin where its cell in a column says, and end where the next one's says."""
        table, number = row.table, row.number
        starts = table._columns_read.get(column) or table.column(column)
        members = self._table(member)
        past = starts[number] if number < len(starts) else members._count + 1
        member_row = members._row_type
        return [member_row(members, it) for it in range(starts[number - 1], past)]

    def _owner(self, row: Row, owners: Table[R], column: str) -> R:
        """The owner of a row: the last one whose run begins at the row or before it."""
        return owners.row(bisect_right(owners.column(column), row.number))

    def _grouped(self, table: str, column: str) -> Dict[Token, List[Any]]:
        """The rows of a table by the cell of a column."""
        groups = self._groups.get((table, column))
        if groups is None:
            groups = {}
            for row, token in zip(self[table], self[table].column(column)):
                groups.setdefault(token, []).append(row)
            self._groups[table, column] = groups
        return groups

    def _row_text(self, call: Any, row: Row) -> str:
        """The text that a call writes of a row."""
        text = _c.written_text(call, self._view(), row.token)
        if text is None:
            raise OverflowError("the text of the row has more than 65,536 bytes")
        return text

    def _signature_text(self, row: Row, column: str, is_long: bool) -> Optional[str]:
        """The text of a signature; `None` if it is too long. Rows with the same long signature share its text."""
        table = row.table
        where = self._view(), table.number, table.row(row.number).number, table.columns.index(column)
        if not is_long:
            return _c.written_text(library.clim_signature_text, *where)
        cell, texts = bytearray(_c.NO_CELL), self._signature_texts
        library.clim_cell_at(*where, ctypes.addressof(ctypes.c_char.from_buffer(cell)))
        at, length = _c.CELL_BYTES.unpack_from(cell)
        key = table.number, at, length
        if key in texts:
            return texts[key]
        text = _c.written_text(library.clim_signature_text, *where)
        if len(text or "") <= self._unused:
            self._unused -= len(text or "")
            texts[key] = text
        return text

    def _arguments(self, row: Row) -> Optional[Arguments]:
        """The arguments of the attribute in a row of CustomAttribute; `None` if its value is not decoded."""
        items = _c.attribute_items(self._view(), row.table.row(row.number).number)
        return None if items is None else arguments_of(items, self._bytes)

    # -- cells

    def _bytes(self, at: int, length: int) -> bytes:
        """The bytes of a text or a blob, by their address and length."""
        found = self._data[at - self._at : at - self._at + length] if length else b""
        self._view()
        return found

    def _column(self, table: int, column: int, count: int) -> Sequence[Any]:
        """The cells of a column. They are read some at a time."""
        cells = bytearray()
        while len(cells) < count * _c.CELL.size:
            first = len(cells) // _c.CELL.size
            room = min(_CELLS, count - first)
            part = bytearray(_c.NO_CELL * room)
            at = ctypes.addressof(ctypes.c_char.from_buffer(part))
            written = library.clim_cells(self._view(), table, first + 1, column, at, room)
            if written != room:
                raise RuntimeError(f"{_c.path} wrote {written} cells of {room}")
            cells += part
        return self._values(cells)

    def _values(self, cells: bytearray) -> Sequence[Any]:
        """The values of the cells of a column, which are of one kind, or null."""
        shown = memoryview(cells)
        kinds = bytes(shown[_c.KIND_AT :: _c.CELL.size])
        distinct = set(kinds)
        if distinct <= {_c.TEXT} or distinct <= {_c.BLOB, _c.SIGNATURE}:
            units = shown.cast("Q")
            spans = units[:: _c.CELL.size // 8].tolist(), units[1 :: _c.CELL.size // 8].tolist()
            return Texts(self, *spans).read() if distinct == {_c.TEXT} else Blobs(self, *spans).read()
        numbers = shown.cast("I")[_c.NUMBER_AT :: _c.CELL.size // 4].tolist()
        if distinct == {_c.NUMBER}:
            return tuple(numbers)
        if distinct == {_c.START}:
            return tuple(map(Start, numbers))
        if distinct <= {_c.ROW, _c.NULL_ROW}:
            tables = bytes(shown[_c.TABLE_AT :: _c.CELL.size])
            return tuple(
                Token(table << 24 | number) if kind == _c.ROW else None
                for kind, table, number in zip(kinds, tables, numbers)
            )
        if distinct <= {_c.GUID, _c.NULL_GUID}:
            return tuple(
                uuid.UUID(bytes_le=guid) if kind == _c.GUID else None
                for _, _, _, kind, _, guid in _c.CELL.iter_unpack(cells)
            )
        raise RuntimeError(f"{_c.path} wrote cells of the kinds {sorted(distinct)} into one column")


class Blobs(Sequence[Any]):
    """The blobs of a column, each read when it is used.

    Blobs and texts of a crafted file can overlap, and then are much longer than the file.
    """

    def __init__(self, assembly: Assembly, addresses: List[int], lengths: List[int]) -> None:
        self._assembly, self._addresses, self._lengths = assembly, addresses, lengths

    def __len__(self) -> int:
        return len(self._addresses)

    def __getitem__(self, index: Any) -> Any:
        if isinstance(index, slice):
            return tuple(self[number] for number in range(len(self))[index])
        return self._assembly._bytes(self._addresses[index], self._lengths[index])

    def span(self, index: int) -> Tuple[int, int]:
        """The address and the length of a blob."""
        return self._addresses[index], self._lengths[index]

    def read(self) -> Sequence[Any]:
        """All values, unless they are much longer than the file."""
        data, base = self._assembly._data, self._assembly._at
        most = _MOST * len(data)
        if sum(self._lengths) <= most:
            starts = (at - base for at in self._addresses)
            return tuple([data[start : start + length] if length else b"" for start, length in zip(starts, self._lengths)])
        # Rows with the same blob share it.
        spans = list(zip(self._addresses, self._lengths))
        distinct = set(spans)
        if sum(length for _, length in distinct) > most:
            return self
        blobs = {(at, length): data[at - base : at - base + length] for at, length in distinct}
        return tuple(map(blobs.__getitem__, spans))


class Texts(Blobs):
    """The same for texts. Many names of a file are one text of its heap, so it is read once, for all columns."""

    def __getitem__(self, index: Any) -> Any:
        found = super().__getitem__(index)
        return found if isinstance(index, slice) else found.decode()

    def read(self) -> Sequence[Any]:
        # A text ends before the first NUL after its address. So those with the same address are the same text.
        spans = dict(zip(self._addresses, self._lengths))
        texts, data, base = self._assembly._texts, self._assembly._data, self._assembly._at
        if sum(spans.values()) > _MOST * len(data):
            return self
        for at, length in spans.items():
            if at not in texts:
                texts[at] = data[at - base : at - base + length].decode()
        return tuple(map(texts.__getitem__, self._addresses))


def _texts_of(column: Sequence[Any], lengths: AbstractSet[int]) -> Iterator[Optional[str]]:
    """The texts of a column, with `None` for those that have another length than is looked for: they are not read again."""
    if not isinstance(column, Texts):
        return iter(column)
    return (column[index] if column.span(index)[1] in lengths else None for index in range(len(column)))


class Table(Generic[R]):
    """A table (II.22).

    It is a sequence of rows: `len(table)`, `for row in table`, and `table[0]`, which is row 1. `table.row(1)` is the same
    row by its number. `table.column(name)` has all cells of a column, and is the fastest way to many cells.

    Attributes:
        assembly: The assembly that it belongs to.
        number: The number of the table.
        name: The name of the table, for example `"TypeDef"`.
        columns: The names of its columns.
    """

    def __init__(self, assembly: Assembly, number: int) -> None:
        self.assembly, self.number = assembly, number
        self.name, self.columns = _c.TABLE_NAMES[number], _c.COLUMN_NAMES[number]
        self._count: int = library.clim_count(assembly._view(), number)
        self._row_type: Type[R] = cast(Type[R], Row.of_table[number])
        self._columns_read: Dict[str, Sequence[Any]] = {}
        self._look_ups = 0

    def __len__(self) -> int:
        self.assembly._view()
        return self._count

    def __iter__(self) -> Iterator[R]:
        self.assembly._view()
        return map(self._row_type, repeat(self), range(1, self._count + 1))

    @overload
    def __getitem__(self, index: int) -> R: ...
    @overload
    def __getitem__(self, index: slice) -> List[R]: ...
    def __getitem__(self, index: Union[int, slice]) -> Union[R, List[R]]:
        """The row after `index` others, as in any sequence: `table[0]` is row 1, and `table[-1]` is the last row."""
        try:
            numbers = range(1, len(self) + 1)[index]
        except IndexError:
            raise IndexError(f"{self.name} has {self._count} rows, and none at index {index}") from None
        return self._rows(numbers) if isinstance(numbers, range) else self._row_type(self, numbers)

    def __repr__(self) -> str:
        return f"<table {self.name} of {self._count} rows>"

    def row(self, number: int) -> R:
        """A row, counted from 1; raises `IndexError` if there is none."""
        if not 1 <= number <= len(self):
            raise IndexError(f"{self.name} has no row {number}")
        return self._row_type(self, number)

    def column(self, name: str) -> Sequence[Any]:
        """The cells of the column with a name, from row 1 on; raises `KeyError` if there is none."""
        found = self._columns_read.get(name)
        if found is None:
            self.assembly._view()
            if name not in self.columns:
                raise KeyError(f"{self.name} has no column {name!r}")
            found = self.assembly._column(self.number, self.columns.index(name), self._count)
            # Another thread may have closed the assembly, and then not all cells were read.
            self.assembly._view()
            self._columns_read[name] = found
        return found

    def by_key(self, token: int) -> List[R]:
        """The rows whose key is the row of a token, in ascending order; none if the table has no key (II.22).

        Raises:
            ValueError: The number is negative, or has more than 32 bits.
        """
        if not 0 <= token <= _LARGEST_TOKEN:
            raise ValueError(f"{int(token)} is no token")
        self._look_ups += 1
        if self._look_ups > _LOOK_UPS and self.name in _KEYS:
            groups = self.assembly._grouped(self.name, _KEYS[self.name])
            self.assembly._view()
            return [*groups.get(operator.index(token), ())]
        room = _ROWS
        while True:
            rows = (ctypes.c_uint32 * room)()
            view = self.assembly._view()
            count = library.clim_rows_by_key(view, self.number, token >> 24, token & 0xFFFFFF, rows, room)
            if count < room:
                return self._rows(rows[:count])
            room *= _ROWS

    def to_dict(self) -> List[Dict[str, Any]]:
        """The rows, each as its `to_dict`."""
        return [row.to_dict() for row in self]

    def _rows(self, numbers: Any) -> List[R]:
        row = self._row_type
        return [row(self, number) for number in numbers]


def table_number(table: Union[str, int]) -> int:
    """The number of a table, by its name or its number; raises `KeyError` if there is none."""
    number = _c.TABLE_NUMBERS.get(table) if isinstance(table, str) else table
    if number not in _c.TABLE_NAMES:
        raise KeyError(f"there is no table {table!r}")
    return number
