"""Faults, and the values of cells."""

from __future__ import annotations

import enum
import struct
from typing import TYPE_CHECKING, Any, Callable, Dict, Iterable, List, NamedTuple, Optional, Tuple, Union

from ._library import ARRAY, ELEMENT, FIXED_ARGUMENT, NAMED_COUNT, explanation
from .flags import HeaderFlags

if TYPE_CHECKING:
    from .rows import Row

# The number of bytes from which on a signature is long.
_LONG = 256
# The largest numbers of a table and a row in a token.
_LARGEST_TABLE, _LARGEST_ROW = 0xFF, 0xFFFFFF
# The types of constants (II.23.1.16): a boolean, a character, numbers by their formats, a string, and a null reference.
_BOOLEAN, _CHAR, _STRING, _CLASS = 0x02, 0x03, 0x0E, 0x12
# The type `System.Type` of arguments of attributes (II.23.3).
_SYSTEM_TYPE = 0x50
_NUMBERS = {0x04: "<b", 0x05: "<B", 0x06: "<h", 0x07: "<H", 0x08: "<i", 0x09: "<I", 0x0A: "<q", 0x0B: "<Q", 0x0C: "<f", 0x0D: "<d"}


class Fault(Exception):
    """The first rule that some bytes break. Its text is the line that `clim check` prints.

    Attributes:
        layer: The layer of the rule, from 1 to 9: the hundreds of its number.
        code: The number of the rule, for example 501. docs/FAULTS.md explains each.
        offset: The offset in the bytes that were opened.
        name: The name of the rule, for example `"BadString"`.
    """

    def __init__(self, layer: int, code: int, offset: int, name: str) -> None:
        super().__init__(layer, code, offset, name)
        self.layer, self.code, self.offset, self.name = layer, code, offset, name

    def __str__(self) -> str:
        return f"fault {self.layer} {self.code} at {self.offset}: {self.name}"

    @property
    def explanation(self) -> str:
        """What `clim explain` prints of the rule, in lines that are not broken.

        Raises:
            Unsupported: The library is older than this package.
        """
        return explanation(self.code)


class Refusal(Exception):
    """The first rule that tables break, as `Tables.root` raises it. Attributes that the rule does not concern are `None`.

    Attributes:
        code: The number of the rule, for example 506. docs/FAULTS.md explains each.
        name: The name of the rule, for example `"BadIndex"`.
        table: The name of the table, for example `"TypeDef"`.
        row: The row, counted from 1.
        column: The name of the column, for example `"Extends"`. A rule about an entire row is reported at its first column.
    """

    def __init__(
        self,
        code: int,
        name: str,
        table: Optional[str] = None,
        row: Optional[int] = None,
        column: Optional[str] = None,
    ) -> None:
        super().__init__(code, name, table, row, column)
        self.code, self.name, self.table, self.row, self.column = code, name, table, row, column

    def __str__(self) -> str:
        cell = " ".join(str(it) for it in (self.table, self.row, self.column) if it is not None)
        return f"refusal {self.layer} {self.code}{f' at {cell}' if cell else ''}: {self.name}"

    @property
    def layer(self) -> int:
        """The layer of the rule, from 1 to 9: the hundreds of its number."""
        return self.code // 100

    @property
    def explanation(self) -> str:
        """What `clim explain` prints of the rule, in lines that are not broken.

        Raises:
            Unsupported: The library is older than this package.
        """
        return explanation(self.code)


class StrongName(enum.Enum):
    """What `Assembly.embed` does with the strong name of the file, whose hash is no longer right (II.25.3.3)."""

    #: Its flag and its directory stay. A tool that has the key can write the hash again.
    KEEP = 1
    #: Its flag is cleared, and its directory becomes 0.
    CLEAR = 2


class EmbedError(Exception):
    """Why `Assembly.embed` makes no copy of a file.

    Attributes:
        reason: `"unlike"`, if the root does not lead into the file: other methods, addresses or user strings;
            `"headers overlap"`, if the headers of the file do; `"occupied"`, if the range of the old root contains something
            else of the file; `"no room"`, if there is none for a longer root.
    """

    def __init__(self, reason: str) -> None:
        super().__init__(reason)
        self.reason = reason

    def __str__(self) -> str:
        return _NO_COPY[self.reason]


_NO_COPY = {
    "unlike": "the root does not lead into the file: its methods, its addresses or its user strings are others",
    "headers overlap": "the headers of the file overlap",
    "occupied": "the range of the old root has something else in it",
    "no room": "there is no room for the root",
}


class BudgetSpent(Exception):
    """The texts and signatures of a file have more bytes than the budget of `clim.open` allows."""


class Location(NamedTuple):
    """The cell of a table that contains a byte, as `Assembly.where` returns it."""

    #: The name of the table, for example `"TypeDef"`.
    table: str
    #: The row, counted from 1.
    row: int
    #: The name of the column, for example `"TypeName"`.
    column: str
    #: The offset of the cell, in bytes from the start of the metadata root.
    offset: int
    #: The size of the cell in bytes: 1, 2 or 4.
    size: int


class Difference(NamedTuple):
    """The first difference between two assemblies, as `clim.compare` returns it. Attributes that do not belong to it are `None`."""

    #: What differs: `"version"`, `"user strings"`, `"row count"` or `"cell"`.
    kind: str
    #: The name of the table, for a row count or a cell.
    table: Optional[str] = None
    #: The row of the cell, counted from 1.
    row: Optional[int] = None
    #: The name of the column of the cell.
    column: Optional[str] = None
    #: The numbers of rows of the table in both.
    counts: Optional[Tuple[int, int]] = None


class Token(int):
    """A row of a table, as a number: 0x02000005 is row 5 of TypeDef. Rows count from 1."""

    @classmethod
    def of(cls, table: int, row: int) -> Token:
        """The token of a row of the table with a number.

        Raises:
            ValueError: No token has the number of the table, or the row.
        """
        if not (0 <= table <= _LARGEST_TABLE and 0 <= row <= _LARGEST_ROW):
            raise ValueError(f"no token names row {row} of table {table}")
        return cls(table << 24 | row)

    @property
    def table(self) -> int:
        """The number of the table (II.22)."""
        return self >> 24

    @property
    def row(self) -> int:
        """The row in that table, counted from 1."""
        return self & 0xFFFFFF

    def __repr__(self) -> str:
        return f"Token(0x{int(self):08X})"


class Start(int):
    """The first row of the run that a row owns; one after the last row if no member follows."""


class Signature(bytes):
    """The blob of a signature (II.23.2): the bytes of the file, without their length.

    Attributes:
        row: The row that has the signature, or `None` if the value was not read from a row.
    """

    row: Optional[Row] = None
    _column = ""

    @classmethod
    def _of(cls, blob: bytes, row: Row, column: str) -> Signature:
        signature = cls(blob)
        signature.row, signature._column = row, column
        return signature

    @property
    def text(self) -> str:
        """The signature in the notation of ILAsm (II.7.1, II.15.3): `"method instance string *(int32, class 01000007)"`.

        A type is written as its token, `assembly.row(0x01000007)`.

        Raises:
            Unsupported: The library is older than this package.
            OverflowError: The text has more than 65,536 bytes, as in crafted files.
            ValueError: The signature was not read from a row, or the assembly is closed.
        """
        if self.row is None:
            raise ValueError("the signature was not read from a row")
        text = self.row.assembly._signature_text(self.row, self._column, len(self) >= _LONG)
        if text is None:
            raise OverflowError("the text of the signature has more than 65,536 bytes")
        return text


def constant_of(type_: int, blob: bytes) -> Union[bool, int, float, str, bytes, None]:
    """The value of a constant of a type (II.22.9, II.23.1.16); the bytes themselves if they are none."""
    form = _NUMBERS.get(type_)
    if form is not None and len(blob) == struct.calcsize(form):
        number: Union[int, float] = struct.unpack(form, blob)[0]
        return number
    if type_ == _BOOLEAN and blob in (b"\0", b"\1"):
        return blob == b"\1"
    if (type_ == _STRING and len(blob) % 2 == 0) or (type_ == _CHAR and len(blob) == 2):
        return blob.decode("utf-16-le", "surrogatepass")
    return None if type_ == _CLASS and blob == bytes(4) else blob


class TypeName(str):
    """The name of a type in the value of an attribute, as `System.Type` writes it: `"System.String, mscorlib"`."""

    __slots__ = ()

    def __repr__(self) -> str:
        return f"TypeName({super().__repr__()})"


#: The value of an argument of an attribute. A character is a `str`, an enum is its number, an array is a list, and an object
#: is the value in it. `None` is null.
Argument = Union[bool, int, float, str, TypeName, None, List["Argument"]]


class Arguments(NamedTuple):
    """The arguments of an attribute (II.23.3): the fixed ones in order, and the named ones by the names of their fields and
    properties. Of those with one name it has the last."""

    fixed: List[Argument]
    named: Dict[str, Argument]


def arguments_of(items: Iterable[Tuple[Any, ...]], bytes_at: Callable[[int, int], bytes]) -> Arguments:
    """The arguments that items form, by the fields of `_library.ITEM`. Their names and texts are at addresses."""
    arguments = Arguments([], {})
    elements: List[Argument] = []
    for name_at, name_length, text_at, text_length, number, kind, form, code, is_null in items:
        value: Argument = None
        if form == ARRAY:
            elements = []
        if not is_null and kind != NAMED_COUNT:
            value = elements if form == ARRAY else _value_of(code, number, bytes_at(text_at, text_length))
        if kind == FIXED_ARGUMENT:
            arguments.fixed.append(value)
        elif kind == ELEMENT:
            elements.append(value)
        elif kind != NAMED_COUNT:
            arguments.named[bytes_at(name_at, name_length).decode()] = value
    return arguments


def _value_of(code: int, number: int, text: bytes) -> Argument:
    """A value of an element, by the code of its type."""
    if code == _BOOLEAN:
        return number != 0
    if code == _CHAR:
        return chr(number)
    if code == _STRING:
        return text.decode()
    if code == _SYSTEM_TYPE:
        return TypeName(text.decode())
    value: Union[int, float] = struct.unpack_from(_NUMBERS[code], number.to_bytes(8, "little"))[0]
    return value


class Directory(NamedTuple):
    """An address in the image and the number of bytes there (II.25.2.3.3); 0 and 0 if there is nothing."""

    rva: int
    size: int


class Header(NamedTuple):
    """The CLI header of a file (II.25.3.3), and the offsets of the header and of the metadata root."""

    offset: int
    root_start: int
    root_end: int
    cb: int
    major_runtime_version: int
    minor_runtime_version: int
    metadata: Directory
    flags: HeaderFlags
    #: A row of MethodDef or File; 0 if there is none. With `HeaderFlags.NATIVE_ENTRY_POINT` it is an address, and no token.
    entry_point_token: Token
    resources: Directory
    strong_name_signature: Directory
    code_manager_table: Directory
    vtable_fixups: Directory
    export_address_table_jumps: Directory
    managed_native_header: Directory
