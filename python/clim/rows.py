"""The rows of the 38 tables (II.22). A cell is an attribute with the name of its column in the standard.

| column | value |
|---|---|
| number | `int` |
| text | `str` |
| blob | `bytes` |
| signature | `Signature`, which is `bytes` |
| GUID | `uuid.UUID`, or `None` |
| row of a table | `Token`, which is `int`, or `None` |
| first row of a run | `Start`, which is `int` |

Attributes in lower case follow the cells: `type.methods` are rows of MethodDef, `type.base` is a row or `None`.

The first access to a cell reads the entire column, and the table stores it. After `Assembly.close` each access is a
`ValueError`. A file that satisfies all rules may still have rows that form circles, and names may be any text: see
docs/CLIENTS.md.
"""

from __future__ import annotations

import uuid
from typing import TYPE_CHECKING, Any, Dict, Generic, List, Optional, Type, TypeVar, Union, overload

from . import values
from .flags import (
    AssemblyFlags,
    FieldFlags,
    GenericParamFlags,
    ImportFlags,
    MethodFlags,
    MethodImplFlags,
    ParamFlags,
    PropertyFlags,
    SemanticsFlags,
    TypeFlags,
)
from .flags import EventFlags as _EventFlags
from .values import Start, Token

if TYPE_CHECKING:
    from .assembly import Assembly, Table

T = TypeVar("T")

#: The number of types in one full name, from the innermost outwards. `..` stands for those that are left out.
DEPTH = 64


class Cell(Generic[T]):
    """A column of a table, as an attribute of its rows: with the name of the column, or with another one."""

    def __init__(self, name: str = "") -> None:
        self.name = name

    def __set_name__(self, owner: Type[Row], name: str) -> None:
        self.name = self.name or name
        self.__doc__ = f"The cell `{self.name}`."

    @overload
    def __get__(self, row: None, owner: Any) -> Cell[T]: ...
    @overload
    def __get__(self, row: Row, owner: Any) -> T: ...
    def __get__(self, row: Optional[Row], owner: Any = None) -> Union[Cell[T], T]:
        if row is None:
            return self
        value: T
        try:
            value = row.table._columns_read[self.name][row.number - 1]
        except KeyError:
            value = row.table.column(self.name)[row.number - 1]
        return value

    def __set__(self, row: Row, value: Any) -> None:
        raise AttributeError(f"{self.name} of {row!r} cannot be changed")


class _SignatureCell(Cell[values.Signature]):
    """A column of signatures. A value knows its row."""

    def __get__(self, row: Any, owner: Any = None) -> Any:
        blob = super().__get__(row, owner)
        return blob if row is None else values.Signature._of(blob, row, self.name)


class Row:
    """A row of a table. Two rows are equal if they are the same row of the same assembly.

    Attributes:
        table: The table.
        number: The number of the row, counted from 1.
    """

    #: The class of the rows of each table, by the number of the table.
    of_table: Dict[int, Type[Row]] = {}

    __slots__ = ("table", "number")

    def __init_subclass__(cls, table: Optional[int] = None) -> None:
        if table is not None:
            Row.of_table[table] = cls

    def __init__(self, table: Table[Any], number: int) -> None:
        self.table, self.number = table, number

    def __eq__(self, other: object) -> bool:
        if not isinstance(other, Row):
            return NotImplemented
        return self.table is other.table and self.number == other.number

    def __hash__(self) -> int:
        return hash((self.table.number, self.number))

    def __repr__(self) -> str:
        return f"<{self.table.name} {self.number}>"

    def __getitem__(self, column: str) -> Any:
        """The cell of the column with a name; raises `KeyError` if there is no such column."""
        if column not in self.table.columns:
            raise KeyError(f"{self.table.name} has no column {column!r}")
        return getattr(self, column)

    @property
    def assembly(self) -> Assembly:
        """The assembly that the row belongs to."""
        return self.table.assembly

    @property
    def token(self) -> Token:
        """The token of the row, an `int`: 0x02000005 is row 5 of TypeDef."""
        return Token.of(self.table.number, self.number)

    @property
    def custom_attributes(self) -> List[CustomAttribute]:
        """The custom attributes of the row, as rows of CustomAttribute (II.22.10)."""
        return self.assembly.custom_attributes.by_key(self.token)

    def cells(self) -> Dict[str, Any]:
        """The cells, by the names of their columns."""
        return {name: getattr(self, name) for name in self.table.columns}

    def members(self, table: Union[str, int]) -> List[Any]:
        """The rows that the row owns of a table, named or by number, for example `type.members("Field")`.

        Raises:
            KeyError: There is no such table, or rows of this table own no rows of it.
        """
        return self.assembly._members(self, table)

    def to_dict(self) -> Dict[str, Any]:
        """The token and the cells, as values that `json.dumps` takes: a blob is a text of hexadecimal digits."""
        return {"token": int(self.token), **{name: _plain(cell) for name, cell in self.cells().items()}}

    def _row(self, token: Optional[Token]) -> Any:
        return None if token is None else self.assembly.row(token)

    def _one(self, table: str) -> Any:
        """The first row of a table whose key is this row, or None."""
        found = self.assembly[table].by_key(self.token)
        return found[0] if found else None


def _plain(cell: Any) -> Any:
    if isinstance(cell, bytes):
        return cell.hex()
    if isinstance(cell, uuid.UUID):
        return str(cell)
    return int(cell) if isinstance(cell, int) else cell


class _Named(Row):
    """A row with a name."""

    __slots__ = ()

    Name: Cell[str] = Cell()
    name: Cell[str] = Cell("Name")


class _Declared(Row):
    """A row with a declaration."""

    __slots__ = ()

    @property
    def declaration(self) -> str:
        """The declaration in the notation of ILAsm; it raises what `Assembly.declaration` raises."""
        return self.assembly.declaration(self.token)


class _NamedType(Row):
    """A type: a row of TypeDef, TypeRef or ExportedType."""

    __slots__ = ()

    TypeName: Cell[str] = Cell()
    TypeNamespace: Cell[str] = Cell()
    name: Cell[str] = Cell("TypeName")
    namespace: Cell[str] = Cell("TypeNamespace")

    @property
    def full_name(self) -> str:
        """The namespace and the names of the type and of those that enclose it: `Namespace.Outer/Inner`.

        At most 64 types are named. `..` stands for those that enclose them.
        """
        parts: List[str] = []
        row: Optional[_NamedType] = self
        while row is not None and len(parts) < DEPTH:
            parts.append(row._own_name)
            row = row.enclosing_type
        return "/".join(reversed(parts if row is None else [*parts, ".."]))

    @property
    def enclosing_type(self) -> Optional[_NamedType]:
        """The type that directly encloses this one, or `None`."""
        raise NotImplementedError

    @property
    def _own_name(self) -> str:
        """The name after its namespace and a dot, unless the namespace is empty."""
        return f"{self.namespace}.{self.name}" if self.namespace else self.name


class Module(_Named, table=0x00):
    """The module (II.22.30)."""

    __slots__ = ()

    Generation: Cell[int] = Cell()
    Mvid: Cell[Optional[uuid.UUID]] = Cell()
    EncId: Cell[Optional[uuid.UUID]] = Cell()
    EncBaseId: Cell[Optional[uuid.UUID]] = Cell()


class TypeRef(_NamedType, table=0x01):
    """A type of another module (II.22.38)."""

    __slots__ = ()

    ResolutionScope: Cell[Optional[Token]] = Cell()

    @property
    def scope(self) -> Any:
        """The row that has the type: of Module, ModuleRef, AssemblyRef or TypeRef, or `None`."""
        return self._row(self.ResolutionScope)

    @property
    def enclosing_type(self) -> Optional[TypeRef]:
        """The type that encloses this one, or `None`. Rows may form a circle."""
        scope = self.scope
        return scope if isinstance(scope, TypeRef) else None


class TypeDef(_NamedType, _Declared, table=0x02):
    """A type (II.22.37)."""

    __slots__ = ()

    Flags: Cell[int] = Cell()
    Extends: Cell[Optional[Token]] = Cell()
    FieldList: Cell[Start] = Cell()
    MethodList: Cell[Start] = Cell()

    @property
    def flags(self) -> TypeFlags:
        """The cell `Flags`, with names for its bits (II.23.1.15)."""
        return TypeFlags(self.Flags)

    @property
    def base(self) -> Any:
        """The type that this one extends: a row of TypeDef, TypeRef or TypeSpec, or `None`."""
        return self._row(self.Extends)

    @property
    def fields(self) -> List[Field]:
        """The fields of the type."""
        return self.table.assembly._run(self, "FieldList", 0x04)

    @property
    def methods(self) -> List[MethodDef]:
        """The methods of the type."""
        return self.table.assembly._run(self, "MethodList", 0x06)

    @property
    def events(self) -> List[Event]:
        """The events of the type."""
        events: List[Event] = self._mapped("EventMap")
        return events

    @property
    def properties(self) -> List[Property]:
        """The properties of the type."""
        properties: List[Property] = self._mapped("PropertyMap")
        return properties

    @property
    def interfaces(self) -> List[Any]:
        """The interfaces that the type names: rows of TypeDef, TypeRef or TypeSpec (II.22.23)."""
        return [self._row(row.Interface) for row in self.assembly["InterfaceImpl"].by_key(self.token)]

    @property
    def enclosing_type(self) -> Optional[TypeDef]:
        """The type that directly encloses this one, or `None` (II.22.32)."""
        rows = self.assembly._grouped("NestedClass", "NestedClass").get(self.token)
        return self._row(rows[0].EnclosingClass) if rows else None

    @property
    def nested_types(self) -> List[TypeDef]:
        """The types that this one directly encloses (II.22.32)."""
        rows = self.assembly._grouped("NestedClass", "EnclosingClass").get(self.token, [])
        return [self._row(row.NestedClass) for row in rows]

    @property
    def generic_params(self) -> List[GenericParam]:
        """The generic parameters of the type (II.22.20)."""
        return self.assembly["GenericParam"].by_key(self.token)

    @property
    def layout(self) -> Optional[ClassLayout]:
        """The row of ClassLayout of the type, or `None` (II.22.8)."""
        layout: Optional[ClassLayout] = self._one("ClassLayout")
        return layout

    def _mapped(self, table: str) -> Any:
        owners = self.assembly._grouped(table, "Parent").get(self.token)
        return owners[0].members(owners[0].member_table) if owners else []


class Field(_Named, _Declared, table=0x04):
    """A field (II.22.15)."""

    __slots__ = ()

    Flags: Cell[int] = Cell()
    Signature: Cell[values.Signature] = _SignatureCell()

    #: The signature of the field (II.23.2.4).
    signature: Cell[values.Signature] = _SignatureCell("Signature")

    @property
    def flags(self) -> FieldFlags:
        """The cell `Flags`, with names for its bits (II.23.1.5)."""
        return FieldFlags(self.Flags)

    @property
    def declaring_type(self) -> TypeDef:
        """The type that owns the field."""
        return self.assembly._owner(self, self.assembly.types, "FieldList")

    @property
    def constant(self) -> Optional[Constant]:
        """The row of Constant of the field, or `None` (II.22.9)."""
        constant: Optional[Constant] = self._one("Constant")
        return constant


class MethodDef(_Named, _Declared, table=0x06):
    """A method (II.22.26)."""

    __slots__ = ()

    RVA: Cell[int] = Cell()
    ImplFlags: Cell[int] = Cell()
    Flags: Cell[int] = Cell()
    Signature: Cell[values.Signature] = _SignatureCell()
    ParamList: Cell[Start] = Cell()

    #: The signature of the method (II.23.2.1).
    signature: Cell[values.Signature] = _SignatureCell("Signature")

    @property
    def flags(self) -> MethodFlags:
        """The cell `Flags`, with names for its bits (II.23.1.10)."""
        return MethodFlags(self.Flags)

    @property
    def impl_flags(self) -> MethodImplFlags:
        """The cell `ImplFlags`, with names for its bits (II.23.1.11)."""
        return MethodImplFlags(self.ImplFlags)

    @property
    def params(self) -> List[Param]:
        """The rows of Param of the method. Their order and their `Sequence` are not checked."""
        return self.table.assembly._run(self, "ParamList", 0x08)

    @property
    def declaring_type(self) -> TypeDef:
        """The type that owns the method."""
        return self.assembly._owner(self, self.assembly.types, "MethodList")

    @property
    def generic_params(self) -> List[GenericParam]:
        """The generic parameters of the method (II.22.20)."""
        return self.assembly["GenericParam"].by_key(self.token)

    @property
    def import_map(self) -> Optional[ImplMap]:
        """The row of ImplMap of the method, or `None` (II.22.22)."""
        import_map: Optional[ImplMap] = self._one("ImplMap")
        return import_map


class Param(_Named, table=0x08):
    """A parameter (II.22.33)."""

    __slots__ = ()

    Flags: Cell[int] = Cell()
    Sequence: Cell[int] = Cell()

    @property
    def flags(self) -> ParamFlags:
        """The cell `Flags`, with names for its bits (II.23.1.13)."""
        return ParamFlags(self.Flags)

    @property
    def method(self) -> MethodDef:
        """The method that owns the parameter."""
        return self.assembly._owner(self, self.assembly.methods, "ParamList")

    @property
    def constant(self) -> Optional[Constant]:
        """The row of Constant of the parameter, or `None` (II.22.9)."""
        constant: Optional[Constant] = self._one("Constant")
        return constant


class InterfaceImpl(Row, table=0x09):
    """An interface that a type implements (II.22.23)."""

    __slots__ = ()

    Class: Cell[Token] = Cell()
    Interface: Cell[Token] = Cell()


class MemberRef(_Named, table=0x0A):
    """A field or a method of another type (II.22.25)."""

    __slots__ = ()

    Class: Cell[Token] = Cell()
    Signature: Cell[values.Signature] = _SignatureCell()

    #: The signature of the field or method (II.23.2.2, II.23.2.4).
    signature: Cell[values.Signature] = _SignatureCell("Signature")

    @property
    def parent(self) -> Any:
        """The row of the cell `Class`: of TypeDef, TypeRef, ModuleRef, MethodDef or TypeSpec."""
        return self._row(self.Class)


class Constant(Row, table=0x0B):
    """A constant value (II.22.9)."""

    __slots__ = ()

    Type: Cell[int] = Cell()
    Parent: Cell[Token] = Cell()
    Value: Cell[bytes] = Cell()

    @property
    def parent(self) -> Any:
        """The row that has the constant: of Field, Param or Property."""
        return self._row(self.Parent)

    @property
    def value(self) -> Union[bool, int, float, str, bytes, None]:
        """The value, by its type (II.23.1.16): an `int`, a `float`, a `bool`, a `str`, or `None` for a null reference.

        A character is a `str` too. Unpaired surrogates stay unchanged. If the bytes are not those of a value of the type,
        the value is the bytes.
        """
        return values.constant_of(self.Type, self.Value)


class CustomAttribute(Row, table=0x0C):
    """A custom attribute (II.22.10)."""

    __slots__ = ()

    Parent: Cell[Token] = Cell()
    Type: Cell[Token] = Cell()
    Value: Cell[bytes] = Cell()

    @property
    def parent(self) -> Any:
        """The row that has the attribute."""
        return self._row(self.Parent)

    @property
    def constructor(self) -> Any:
        """The row of the cell `Type`: of MethodDef or MemberRef."""
        return self._row(self.Type)

    @property
    def type(self) -> Any:
        """The class of the attribute: a row of TypeDef, TypeRef or TypeSpec, or what else the constructor belongs to."""
        constructor = self.constructor
        return constructor.declaring_type if isinstance(constructor, MethodDef) else constructor.parent

    @property
    def name(self) -> str:
        """The full name of that class; empty if it is no row of TypeDef or TypeRef."""
        its = self.type
        return its.full_name if isinstance(its, _NamedType) else ""

    @property
    def arguments(self) -> Optional[values.Arguments]:
        """The arguments that the cell `Value` contains (II.23.3), or `None` if it is not decoded.

        It is decoded by the types of the constructor's parameters. That fails for an enum of another file, whose size is
        unknown, for more than 64 parameters, and for bytes that are no value. Each access decodes the value, in time
        and memory in proportion to its bytes.

        Raises:
            Unsupported: The library is older than this package.
        """
        return self.assembly._arguments(self)


class FieldMarshal(Row, table=0x0D):
    """How a field or a parameter is marshalled (II.22.17)."""

    __slots__ = ()

    Parent: Cell[Token] = Cell()
    NativeType: Cell[bytes] = Cell()


class DeclSecurity(Row, table=0x0E):
    """A permission set (II.22.11)."""

    __slots__ = ()

    Action: Cell[int] = Cell()
    Parent: Cell[Token] = Cell()
    PermissionSet: Cell[bytes] = Cell()


class ClassLayout(Row, table=0x0F):
    """The layout of a type (II.22.8)."""

    __slots__ = ()

    PackingSize: Cell[int] = Cell()
    ClassSize: Cell[int] = Cell()
    Parent: Cell[Token] = Cell()


class FieldLayout(Row, table=0x10):
    """The offset of a field in its type (II.22.16)."""

    __slots__ = ()

    Offset: Cell[int] = Cell()
    Field: Cell[Token] = Cell()


class StandAloneSig(Row, table=0x11):
    """A signature that no other row has (II.22.36)."""

    __slots__ = ()

    Signature: Cell[values.Signature] = _SignatureCell()


class EventMap(Row, table=0x12):
    """The events of a type (II.22.12)."""

    __slots__ = ()

    member_table = "Event"

    Parent: Cell[Token] = Cell()
    EventList: Cell[Start] = Cell()


class Event(_Named, table=0x14):
    """An event (II.22.13)."""

    __slots__ = ()

    EventFlags: Cell[int] = Cell()
    EventType: Cell[Optional[Token]] = Cell()

    @property
    def flags(self) -> _EventFlags:
        """The cell `EventFlags`, with names for its bits (II.23.1.4)."""
        return _EventFlags(self.EventFlags)

    @property
    def type(self) -> Any:
        """The type of the event: a row of TypeDef, TypeRef or TypeSpec, or `None`."""
        return self._row(self.EventType)

    @property
    def semantics(self) -> List[MethodSemantics]:
        """The rows of MethodSemantics of the event (II.22.28)."""
        return self.assembly["MethodSemantics"].by_key(self.token)


class PropertyMap(Row, table=0x15):
    """The properties of a type (II.22.35)."""

    __slots__ = ()

    member_table = "Property"

    Parent: Cell[Token] = Cell()
    PropertyList: Cell[Start] = Cell()


class Property(_Named, _Declared, table=0x17):
    """A property (II.22.34)."""

    __slots__ = ()

    Flags: Cell[int] = Cell()
    Type: Cell[values.Signature] = _SignatureCell()

    #: The signature of the property (II.23.2.5), the cell `Type`.
    signature: Cell[values.Signature] = _SignatureCell("Type")

    @property
    def flags(self) -> PropertyFlags:
        """The cell `Flags`, with names for its bits (II.23.1.14)."""
        return PropertyFlags(self.Flags)

    @property
    def semantics(self) -> List[MethodSemantics]:
        """The rows of MethodSemantics of the property (II.22.28)."""
        return self.assembly["MethodSemantics"].by_key(self.token)


class MethodSemantics(Row, table=0x18):
    """A method of an event or a property (II.22.28)."""

    __slots__ = ()

    Semantics: Cell[int] = Cell()
    Method: Cell[Token] = Cell()
    Association: Cell[Token] = Cell()

    @property
    def flags(self) -> SemanticsFlags:
        """The cell `Semantics`, with names for its bits (II.23.1.12)."""
        return SemanticsFlags(self.Semantics)

    @property
    def method(self) -> MethodDef:
        """The row of the cell `Method`."""
        method: MethodDef = self._row(self.Method)
        return method


class MethodImpl(Row, table=0x19):
    """A method that implements another (II.22.27)."""

    __slots__ = ()

    Class: Cell[Token] = Cell()
    MethodBody: Cell[Token] = Cell()
    MethodDeclaration: Cell[Token] = Cell()


class ModuleRef(_Named, table=0x1A):
    """Another module (II.22.31)."""

    __slots__ = ()


class TypeSpec(Row, table=0x1B):
    """A type that a signature describes (II.22.39)."""

    __slots__ = ()

    Signature: Cell[values.Signature] = _SignatureCell()

    #: The signature of the type (II.23.2.14).
    signature: Cell[values.Signature] = _SignatureCell("Signature")


class ImplMap(Row, table=0x1C):
    """A method of unmanaged code (II.22.22)."""

    __slots__ = ()

    MappingFlags: Cell[int] = Cell()
    MemberForwarded: Cell[Token] = Cell()
    ImportName: Cell[str] = Cell()
    ImportScope: Cell[Token] = Cell()

    @property
    def flags(self) -> ImportFlags:
        """The cell `MappingFlags`, with names for its bits (II.23.1.8)."""
        return ImportFlags(self.MappingFlags)

    @property
    def module(self) -> ModuleRef:
        """The row of the cell `ImportScope`."""
        module: ModuleRef = self._row(self.ImportScope)
        return module


class FieldRVA(Row, table=0x1D):
    """The address of the initial value of a field (II.22.18)."""

    __slots__ = ()

    RVA: Cell[int] = Cell()
    Field: Cell[Token] = Cell()


class _Versioned(_Named):
    """An assembly, this one or another."""

    __slots__ = ()

    MajorVersion: Cell[int] = Cell()
    MinorVersion: Cell[int] = Cell()
    BuildNumber: Cell[int] = Cell()
    RevisionNumber: Cell[int] = Cell()
    Flags: Cell[int] = Cell()
    Culture: Cell[str] = Cell()

    @property
    def flags(self) -> AssemblyFlags:
        """The cell `Flags`, with names for its bits (II.23.1.2)."""
        return AssemblyFlags(self.Flags)

    @property
    def version(self) -> str:
        """The version, for example `"4.0.0.0"`."""
        return f"{self.MajorVersion}.{self.MinorVersion}.{self.BuildNumber}.{self.RevisionNumber}"


class AssemblyDef(_Versioned, table=0x20):
    """The assembly, a row of the table Assembly (II.22.2)."""

    __slots__ = ()

    HashAlgId: Cell[int] = Cell()
    PublicKey: Cell[bytes] = Cell()


class AssemblyProcessor(Row, table=0x21):
    """A processor (II.22.4)."""

    __slots__ = ()

    Processor: Cell[int] = Cell()


class AssemblyOS(Row, table=0x22):
    """An operating system (II.22.3)."""

    __slots__ = ()

    OSPlatformID: Cell[int] = Cell()
    OSMajorVersion: Cell[int] = Cell()
    OSMinorVersion: Cell[int] = Cell()


class AssemblyRef(_Versioned, table=0x23):
    """Another assembly (II.22.5)."""

    __slots__ = ()

    PublicKeyOrToken: Cell[bytes] = Cell()
    HashValue: Cell[bytes] = Cell()


class AssemblyRefProcessor(Row, table=0x24):
    """A processor of another assembly (II.22.7)."""

    __slots__ = ()

    Processor: Cell[int] = Cell()
    AssemblyRef: Cell[Token] = Cell()


class AssemblyRefOS(Row, table=0x25):
    """An operating system of another assembly (II.22.6)."""

    __slots__ = ()

    OSPlatformID: Cell[int] = Cell()
    OSMajorVersion: Cell[int] = Cell()
    OSMinorVersion: Cell[int] = Cell()
    AssemblyRef: Cell[Token] = Cell()


class File(_Named, table=0x26):
    """A file of the assembly (II.22.19)."""

    __slots__ = ()

    Flags: Cell[int] = Cell()
    HashValue: Cell[bytes] = Cell()


class ExportedType(_NamedType, table=0x27):
    """A type of another module of the assembly, or one that moved (II.22.14)."""

    __slots__ = ()

    Flags: Cell[int] = Cell()
    TypeDefId: Cell[int] = Cell()
    Implementation: Cell[Optional[Token]] = Cell()

    @property
    def implementation(self) -> Any:
        """The row that has the type: of File, AssemblyRef or ExportedType, or `None`."""
        return self._row(self.Implementation)

    @property
    def enclosing_type(self) -> Optional[ExportedType]:
        """The type that encloses this one, or `None`. Rows may form a circle."""
        outer = self.implementation
        return outer if isinstance(outer, ExportedType) else None


class ManifestResource(_Named, table=0x28):
    """A resource (II.22.24)."""

    __slots__ = ()

    Offset: Cell[int] = Cell()
    Flags: Cell[int] = Cell()
    Implementation: Cell[Optional[Token]] = Cell()

    @property
    def implementation(self) -> Any:
        """The row that has the resource: of File or AssemblyRef, or `None` if it is in this file."""
        return self._row(self.Implementation)


class NestedClass(Row, table=0x29):
    """A nested type (II.22.32)."""

    __slots__ = ()

    NestedClass: Cell[Token] = Cell()
    EnclosingClass: Cell[Token] = Cell()


class GenericParam(_Named, table=0x2A):
    """A generic parameter (II.22.20)."""

    __slots__ = ()

    Number: Cell[int] = Cell()
    Flags: Cell[int] = Cell()
    Owner: Cell[Token] = Cell()

    @property
    def flags(self) -> GenericParamFlags:
        """The cell `Flags`, with names for its bits (II.23.1.7)."""
        return GenericParamFlags(self.Flags)

    @property
    def constraints(self) -> List[Any]:
        """The types that the parameter must be or extend: rows of TypeDef, TypeRef or TypeSpec (II.22.21)."""
        return [self._row(row.Constraint) for row in self.assembly["GenericParamConstraint"].by_key(self.token)]


class MethodSpec(Row, table=0x2B):
    """A generic method with its arguments (II.22.29)."""

    __slots__ = ()

    Method: Cell[Token] = Cell()
    Instantiation: Cell[values.Signature] = _SignatureCell()


class GenericParamConstraint(Row, table=0x2C):
    """A constraint of a generic parameter (II.22.21)."""

    __slots__ = ()

    Owner: Cell[Token] = Cell()
    Constraint: Cell[Token] = Cell()


