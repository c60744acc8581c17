"""Flags with the names of the standard (II.23.1, II.25.3.3.1).

    if method.flags & clim.MethodFlags.STATIC: ...
    if method.flags.access is clim.Access.PUBLIC: ...

A member has one bit. A choice among several, in two bits or more, is an attribute in lower case; it is `None` if the standard
does not name what the bits are. Bits without a name stay in a value, as numbers.
"""

from __future__ import annotations

import enum
from typing import Any, Optional, Type, TypeVar

E = TypeVar("E", bound=enum.IntEnum)

# The number of values that a class of flags remembers at most. Rows of crafted files can have many.
_MOST = 1 << 8


def _choice(choices: Type[E], bits: int) -> Optional[E]:
    """The choice that some bits are."""
    return choices(bits) if bits in choices._value2member_map_ else None


class _Flags(enum.IntFlag):
    @classmethod
    def _missing_(cls, value: object) -> Any:
        found = super()._missing_(value)
        if len(cls._value2member_map_) > _MOST:
            cls._value2member_map_.pop(value, None)
        return found


class Visibility(enum.IntEnum):
    """Who sees a type (II.23.1.15)."""

    NOT_PUBLIC = 0
    PUBLIC = 1
    NESTED_PUBLIC = 2
    NESTED_PRIVATE = 3
    NESTED_FAMILY = 4
    NESTED_ASSEMBLY = 5
    NESTED_FAM_AND_ASSEM = 6
    NESTED_FAM_OR_ASSEM = 7


class Layout(enum.IntEnum):
    """How the fields of a type are laid out (II.23.1.15)."""

    AUTO = 0
    SEQUENTIAL = 0x8
    EXPLICIT = 0x10


class Access(enum.IntEnum):
    """Who may use a field or a method (II.23.1.5, II.23.1.10)."""

    COMPILER_CONTROLLED = 0
    PRIVATE = 1
    FAM_AND_ASSEM = 2
    ASSEM = 3
    FAMILY = 4
    FAM_OR_ASSEM = 5
    PUBLIC = 6


class CodeType(enum.IntEnum):
    """What the body of a method is (II.23.1.11)."""

    IL = 0
    NATIVE = 1
    OPTIL = 2
    RUNTIME = 3


class CharSet(enum.IntEnum):
    """How strings are passed to unmanaged code (II.23.1.8)."""

    NOT_SPEC = 0
    ANSI = 0x2
    UNICODE = 0x4
    AUTO = 0x6


class CallConv(enum.IntEnum):
    """How unmanaged code is called (II.23.1.8)."""

    PLATFORM_API = 0x100
    CDECL = 0x200
    STD_CALL = 0x300
    THIS_CALL = 0x400
    FAST_CALL = 0x500


class Variance(enum.IntEnum):
    """The variance of a generic parameter (II.23.1.7)."""

    NONE = 0
    COVARIANT = 1
    CONTRAVARIANT = 2


class TypeFlags(_Flags):
    """Flags of a type (II.23.1.15)."""

    INTERFACE = 0x20
    ABSTRACT = 0x80
    SEALED = 0x100
    SPECIAL_NAME = 0x400
    RT_SPECIAL_NAME = 0x800
    IMPORT = 0x1000
    SERIALIZABLE = 0x2000
    HAS_SECURITY = 0x40000
    BEFORE_FIELD_INIT = 0x100000
    FORWARDER = 0x200000

    @property
    def visibility(self) -> Visibility:
        """Who sees the type."""
        return Visibility(int(self) & 0x7)

    @property
    def layout(self) -> Optional[Layout]:
        """How its fields are laid out."""
        return _choice(Layout, int(self) & 0x18)


class FieldFlags(_Flags):
    """Flags of a field (II.23.1.5)."""

    STATIC = 0x10
    INIT_ONLY = 0x20
    LITERAL = 0x40
    NOT_SERIALIZED = 0x80
    HAS_FIELD_RVA = 0x100
    SPECIAL_NAME = 0x200
    RT_SPECIAL_NAME = 0x400
    HAS_FIELD_MARSHAL = 0x1000
    PINVOKE_IMPL = 0x2000
    HAS_DEFAULT = 0x8000

    @property
    def access(self) -> Optional[Access]:
        """Who may use the field."""
        return _choice(Access, int(self) & 0x7)


class MethodFlags(_Flags):
    """Flags of a method (II.23.1.10)."""

    UNMANAGED_EXPORT = 0x8
    STATIC = 0x10
    FINAL = 0x20
    VIRTUAL = 0x40
    HIDE_BY_SIG = 0x80
    NEW_SLOT = 0x100
    STRICT = 0x200
    ABSTRACT = 0x400
    SPECIAL_NAME = 0x800
    RT_SPECIAL_NAME = 0x1000
    PINVOKE_IMPL = 0x2000
    HAS_SECURITY = 0x4000
    REQUIRE_SEC_OBJECT = 0x8000

    @property
    def access(self) -> Optional[Access]:
        """Who may use the method."""
        return _choice(Access, int(self) & 0x7)


class MethodImplFlags(_Flags):
    """Flags of the implementation of a method (II.23.1.11)."""

    UNMANAGED = 0x4
    NO_INLINING = 0x8
    FORWARD_REF = 0x10
    SYNCHRONIZED = 0x20
    NO_OPTIMIZATION = 0x40
    PRESERVE_SIG = 0x80
    INTERNAL_CALL = 0x1000

    @property
    def code_type(self) -> CodeType:
        """What the body of the method is."""
        return CodeType(int(self) & 0x3)


class ParamFlags(_Flags):
    """Flags of a parameter (II.23.1.13)."""

    IN = 0x1
    OUT = 0x2
    OPTIONAL = 0x10
    HAS_DEFAULT = 0x1000
    HAS_FIELD_MARSHAL = 0x2000


class EventFlags(_Flags):
    """Flags of an event (II.23.1.4)."""

    SPECIAL_NAME = 0x200
    RT_SPECIAL_NAME = 0x400


class PropertyFlags(_Flags):
    """Flags of a property (II.23.1.14)."""

    SPECIAL_NAME = 0x200
    RT_SPECIAL_NAME = 0x400
    HAS_DEFAULT = 0x1000


class SemanticsFlags(_Flags):
    """What a method is to an event or a property (II.23.1.12)."""

    SETTER = 0x1
    GETTER = 0x2
    OTHER = 0x4
    ADD_ON = 0x8
    REMOVE_ON = 0x10
    FIRE = 0x20


class ImportFlags(_Flags):
    """Flags of a method of unmanaged code (II.23.1.8)."""

    NO_MANGLE = 0x1
    SUPPORTS_LAST_ERROR = 0x40

    @property
    def char_set(self) -> CharSet:
        """How strings are passed."""
        return CharSet(int(self) & 0x6)

    @property
    def call_conv(self) -> Optional[CallConv]:
        """How the method is called."""
        return _choice(CallConv, int(self) & 0x700)


class GenericParamFlags(_Flags):
    """Flags of a generic parameter (II.23.1.7)."""

    REFERENCE_TYPE_CONSTRAINT = 0x4
    NOT_NULLABLE_VALUE_TYPE_CONSTRAINT = 0x8
    DEFAULT_CONSTRUCTOR_CONSTRAINT = 0x10

    @property
    def variance(self) -> Optional[Variance]:
        """The variance of the parameter."""
        return _choice(Variance, int(self) & 0x3)


class AssemblyFlags(_Flags):
    """Flags of an assembly (II.23.1.2)."""

    PUBLIC_KEY = 0x1
    RETARGETABLE = 0x100
    DISABLE_JIT_COMPILE_OPTIMIZER = 0x4000
    ENABLE_JIT_COMPILE_TRACKING = 0x8000


class HeaderFlags(_Flags):
    """Flags of the CLI header (II.25.3.3.1)."""

    IL_ONLY = 0x1
    REQUIRES_32_BIT = 0x2
    STRONG_NAME_SIGNED = 0x8
    NATIVE_ENTRY_POINT = 0x10
    TRACK_DEBUG_DATA = 0x10000
