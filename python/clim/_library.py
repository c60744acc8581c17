"""The shared library: where it is found, and its structs and functions as `c/clim.h` declares them.

To add a function of `c/clim.h`, add its line to `_NEWER`. A library that lacks it then still loads, and a call of the
function raises `Unsupported`.
"""

from __future__ import annotations

import ctypes
import os
import struct
from ctypes import POINTER, byref, c_bool, c_size_t, c_uint8, c_uint16, c_uint32, c_uint64, c_void_p
from typing import Any, Callable, Iterator, Optional, Tuple

#: The interface that this package calls, `CLIM_ABI_VERSION` of `c/clim.h`. The name of the shared library has it.
ABI_VERSION = 1
SONAME = f"libclim.so.{ABI_VERSION}"


class Unsupported(NotImplementedError):
    """The library that was found is older than this package, and lacks a function.

    Attributes:
        function: The name of the function in `c/clim.h`.
    """

    def __init__(self, function: str) -> None:
        super().__init__(function)
        self.function = function

    def __str__(self) -> str:
        return f"the library {path} has no function {self.function}: install a newer one"


class Bytes(ctypes.Structure):
    """A `clim_bytes`."""

    _fields_ = [("at", c_void_p), ("len", c_size_t)]


class FaultStruct(ctypes.Structure):
    """A `clim_fault`."""

    _fields_ = [("offset", c_uint64), ("code", c_uint16), ("layer", c_uint8)]


class DirectoryStruct(ctypes.Structure):
    """A `clim_directory`."""

    _fields_ = [("rva", c_uint32), ("size", c_uint32)]


class HeaderStruct(ctypes.Structure):
    """A `clim_header`."""

    _fields_ = [
        ("offset", c_size_t),
        ("root_start", c_size_t),
        ("root_end", c_size_t),
        ("cb", c_uint32),
        ("major_runtime_version", c_uint16),
        ("minor_runtime_version", c_uint16),
        ("metadata", DirectoryStruct),
        ("flags", c_uint32),
        ("entry_point_token", c_uint32),
        ("resources", DirectoryStruct),
        ("strong_name_signature", DirectoryStruct),
        ("code_manager_table", DirectoryStruct),
        ("vtable_fixups", DirectoryStruct),
        ("export_address_table_jumps", DirectoryStruct),
        ("managed_native_header", DirectoryStruct),
    ]


class StreamStruct(ctypes.Structure):
    """A `clim_stream_header`."""

    _fields_ = [("name", Bytes), ("header_offset", c_size_t), ("offset", c_uint32), ("size", c_uint32)]


class LocationStruct(ctypes.Structure):
    """A `clim_location`."""

    _fields_ = [("offset", c_size_t), ("size", c_size_t), ("column", c_size_t), ("row", c_uint32), ("table", c_uint8)]


class DifferenceStruct(ctypes.Structure):
    """A `clim_difference`."""

    _fields_ = [
        ("column", c_size_t),
        ("row", c_uint32),
        ("left_count", c_uint32),
        ("right_count", c_uint32),
        ("kind", c_uint8),
        ("table", c_uint8),
    ]


class _Starts(ctypes.Structure):
    _fields_ = [("step", c_uint32), ("starts", c_uint32 * 256)]


class _Found(ctypes.Structure):
    _fields_ = [("runs", _Starts * 5), ("in_order", c_bool * 45), ("utf8_texts", c_bool)]


class ViewStruct(ctypes.Structure):
    """A `clim_view`. `closed_view` makes one that is not open.

    Attributes:
        kept: The bytes of the view. So they stay as long as a call has the view, also if another thread closes the
            assembly during the call.
    """

    kept: Any = None
    _fields_ = [("root", Bytes), ("found", _Found), ("is_open", c_bool)]


class RefusalStruct(ctypes.Structure):
    """A `clim_refusal`."""

    _fields_ = [("column", c_size_t), ("row", c_uint32), ("code", c_uint16), ("table", c_uint8)]


#: A `clim_row`: the address of its first cell, the number of its cells, and its table.
GIVEN_ROW = struct.Struct("@PNB7x")
#: A `clim_cell`: the address and the number of its bytes, its number, its kind, its table and its GUID.
CELL = struct.Struct("@PNIBB16s2x")
#: The first two of them.
CELL_BYTES = struct.Struct("@PN24x")
#: Where the number is in the 32-bit units of a cell, and the kind and the table in its bytes.
NUMBER_AT, KIND_AT, TABLE_AT = 4, 20, 21
#: A `clim_attribute_item`: the addresses and the lengths of its name and its text, its number, its kind, its form, its type,
#: and whether it is null.
ITEM = struct.Struct("@PNPNQBBB?4x")

#: The kinds of an item before those of named arguments, `enum clim_item_kind`.
FIXED_ARGUMENT, ELEMENT, NAMED_COUNT = range(1, 4)
#: `CLIM_ARRAY`: the value of an item is an array, whose elements follow.
ARRAY = 3

#: The kinds of a cell, `enum clim_kind`.
NUMBER, TEXT, BLOB, NULL_GUID, GUID, NULL_ROW, ROW, START, SIGNATURE = range(1, 10)

_EMPTY = ctypes.create_string_buffer(1)
EMPTY_AT = ctypes.addressof(_EMPTY)
#: `CLIM_TOO_LONG`: the length of a text, or of a root, that is longer than any that is written.
TOO_LONG = c_size_t(-1).value
#: `CLIM_NO_MEMORY`.
NO_MEMORY = TOO_LONG - 1
#: `CLIM_BAD_FILE` and `CLIM_BAD_ROOT`: `clim_embed` wrote a fault.
BAD_FILE, BAD_ROOT = NO_MEMORY - 1, NO_MEMORY - 2
#: The other reasons why `clim_embed` makes no copy, by what it returns.
NO_COPY = {BAD_ROOT - 1: "unlike", BAD_ROOT - 2: "headers overlap", BAD_ROOT - 3: "occupied", BAD_ROOT - 4: "no room"}
#: `CLIM_NOT_DECODED`: the value of an attribute is not decoded.
NOT_DECODED = TOO_LONG - 8
#: What `clim_compare` returns if nothing differs.
EQUAL = 1
#: The kinds of a difference, `enum clim_difference_kind`.
VERSION_DIFFERS, USER_DIFFERS, COUNT_DIFFERS, CELL_DIFFERS = range(1, 5)
# The length that the texts of most signatures and user strings have at most.
_USUAL = 256
# The number of items that the values of most attributes have at most.
_USUAL_ITEMS = 16
# The largest number of a rule that a call takes.
_LARGEST_CODE = 0xFFFF
#: `CLIM_NO_CELL`.
NO_CELL = CELL.pack(EMPTY_AT, 0, 0, 0, 0, bytes(16))
#: `CLIM_NO_ITEM`.
NO_ITEM = ITEM.pack(EMPTY_AT, 0, EMPTY_AT, 0, 0, 0, 0, 0, False)

_VIEW, _BYTES, _FAULT, _ROW_OUT = POINTER(ViewStruct), POINTER(Bytes), POINTER(FaultStruct), POINTER(c_uint32)

# Each function, with its result and its parameters. Every library has these.
_FUNCTIONS: dict[str, tuple[Any, ...]] = {
    "clim_check": (c_bool, c_void_p, c_size_t, _FAULT),
    "clim_check_root": (c_bool, c_void_p, c_size_t, _FAULT),
    "clim_read_header": (c_bool, c_void_p, c_size_t, POINTER(HeaderStruct), _FAULT),
    "clim_open": (c_bool, c_void_p, c_size_t, _VIEW, _FAULT),
    "clim_open_root": (c_bool, c_void_p, c_size_t, _VIEW, _FAULT),
    "clim_fault_name": (None, c_uint16, _BYTES),
    "clim_table_name": (None, c_uint8, _BYTES),
    "clim_cell_count": (c_size_t, c_uint8),
    "clim_column_name": (None, c_uint8, c_size_t, _BYTES),
    "clim_version": (None, _VIEW, _BYTES),
    "clim_user": (None, _VIEW, _BYTES),
    "clim_count": (c_uint32, _VIEW, c_uint8),
    "clim_cell_at": (c_bool, _VIEW, c_uint8, c_uint32, c_size_t, c_void_p),
    "clim_cells": (c_size_t, _VIEW, c_uint8, c_uint32, c_size_t, c_void_p, c_size_t),
    "clim_members": (c_bool, _VIEW, c_uint8, c_uint32, c_uint8, _ROW_OUT, _ROW_OUT),
    "clim_find_type": (c_uint32, _VIEW, c_void_p, c_size_t, c_void_p, c_size_t),
    "clim_rows_by_key": (c_size_t, _VIEW, c_uint8, c_uint8, c_uint32, c_void_p, c_size_t),
}

# The same of functions that an older library lacks.
_NEWER: dict[str, tuple[Any, ...]] = {
    "clim_abi_version": (c_uint32,),
    "clim_view_size": (c_size_t,),
    "clim_check_within": (c_bool, c_void_p, c_size_t, c_uint64, _FAULT, POINTER(c_bool)),
    "clim_check_root_within": (c_bool, c_void_p, c_size_t, c_uint64, _FAULT, POINTER(c_bool)),
    "clim_open_within": (c_bool, c_void_p, c_size_t, c_uint64, _VIEW, _FAULT, POINTER(c_bool)),
    "clim_open_root_within": (c_bool, c_void_p, c_size_t, c_uint64, _VIEW, _FAULT, POINTER(c_bool)),
    "clim_explain": (c_size_t, c_uint16, c_void_p, c_size_t),
    "clim_stream_count": (c_size_t, _VIEW),
    "clim_stream": (c_bool, _VIEW, c_size_t, POINTER(StreamStruct)),
    "clim_signature_text": (c_size_t, _VIEW, c_uint8, c_uint32, c_size_t, c_void_p, c_size_t),
    "clim_canonical_root": (c_size_t, _VIEW, c_void_p, c_size_t),
    "clim_digest": (c_size_t, _VIEW, c_void_p),
    "clim_user_string": (c_bool, _VIEW, c_uint32, c_void_p, c_size_t, POINTER(c_size_t), POINTER(c_uint16)),
    "clim_where": (c_bool, _VIEW, c_size_t, POINTER(LocationStruct)),
    "clim_compare": (c_size_t, _VIEW, _VIEW, POINTER(DifferenceStruct)),
    "clim_tables": (c_size_t, *[c_void_p, c_size_t] * 4, POINTER(RefusalStruct)),
    "clim_embed": (c_size_t, *[c_void_p, c_size_t] * 2, c_uint8, c_void_p, c_size_t, _FAULT),
    "clim_offset_of": (c_bool, c_void_p, c_size_t, c_uint32, c_uint32, POINTER(c_size_t)),
    "clim_row_name": (c_size_t, _VIEW, c_uint32, c_void_p, c_size_t),
    "clim_declaration": (c_size_t, _VIEW, c_uint32, c_void_p, c_size_t),
    "clim_attribute_items": (c_size_t, _VIEW, c_uint32, c_void_p, c_size_t),
}


def _found() -> str:
    """The library to load: that of CLIM_LIBRARY, or the one in this package, or the one of the system."""
    named = os.environ.get("CLIM_LIBRARY")
    if named:
        return os.path.abspath(named)
    bundled = os.path.join(os.path.dirname(os.path.abspath(__file__)), SONAME)
    return bundled if os.path.exists(bundled) else SONAME


def _missing(name: str) -> Callable[..., Any]:
    def call(*_: Any) -> Any:
        raise Unsupported(name)

    return call


def _load() -> ctypes.CDLL:
    try:
        found = ctypes.CDLL(path)
    except OSError as error:
        raise ImportError(
            f"the shared library of clim is not found ({error}). Install it with ./install DIR, or install a wheel, "
            f"which has it, or name the file in the environment variable CLIM_LIBRARY"
        ) from None
    for name, (result, *parameters) in {**_FUNCTIONS, **_NEWER}.items():
        try:
            function = getattr(found, name)
        except AttributeError:
            if name in _FUNCTIONS:
                raise ImportError(f"{path} is no library of clim: it has no function {name}") from None
            setattr(found, name, _missing(name))
        else:
            function.restype, function.argtypes = result, parameters
    return found


def _check_version() -> None:
    """Raises `ImportError` if the library has another interface than this package."""
    if supports("clim_abi_version") and library.clim_abi_version() != ABI_VERSION:
        raise ImportError(f"{path} has the interface {library.clim_abi_version()}, and this package needs {ABI_VERSION}")
    if supports("clim_view_size") and library.clim_view_size() != ctypes.sizeof(ViewStruct):
        raise ImportError(f"{path} has another clim_view than this package")


path = _found()
library = _load()


def supports(function: str) -> bool:
    """Whether the library has a function of `c/clim.h`, for example `"clim_open"`."""
    return (function in _FUNCTIONS or function in _NEWER) and isinstance(getattr(library, function), library._FuncPtr)


_check_version()


def closed_view() -> ViewStruct:
    """`CLIM_CLOSED`."""
    view = ViewStruct(root=Bytes(EMPTY_AT, 0))
    for run in view.found.runs:
        run.step = 1
    return view


def text_of(call: Callable[..., Any], *arguments: Any) -> bytes:
    """The bytes that a call writes into its last parameter, a `clim_bytes`."""
    text = Bytes(EMPTY_AT, 0)
    call(*arguments, byref(text))
    return ctypes.string_at(text.at, text.len)


def written_text(call: Callable[..., int], *arguments: Any) -> Optional[str]:
    """The text that a call writes into its last parameters, a buffer and its size. `None` if it is too long."""
    room = _USUAL
    while True:
        buffer = ctypes.create_string_buffer(room)
        length = call(*arguments, buffer, room)
        if length <= room:
            return buffer.raw[:length].decode()
        if length == TOO_LONG:
            return None
        if length == NO_MEMORY:
            raise MemoryError
        room = length


def attribute_items(view: Any, row: int) -> Optional[Iterator[Tuple[Any, ...]]]:
    """The items of the value of an attribute, by the fields of `ITEM`. `None` if it is not decoded."""
    room = _USUAL_ITEMS
    while True:
        items = bytearray(NO_ITEM * room)
        count = library.clim_attribute_items(view, row, ctypes.addressof(ctypes.c_char.from_buffer(items)), room)
        if count == NOT_DECODED:
            return None
        if count <= room:
            return ITEM.iter_unpack(memoryview(items)[: ITEM.size * count])
        room = count


def explanation(code: int) -> str:
    """What `clim explain` prints of a rule, in lines that are not broken; empty if no rule has the number."""
    return written_text(library.clim_explain, code) or "" if 0 <= code <= _LARGEST_CODE else ""


def canonical_length(length: int) -> int:
    """The length of a canonical root, or of a copy with a root, as a call returned it; or raises what the call says."""
    if length == TOO_LONG:
        raise OverflowError("the root, or the copy with it, has more than 2**30 bytes")
    if length == NO_MEMORY:
        raise MemoryError
    return length


def written_units(view: Any, token: int) -> Optional[bytes]:
    """The UTF-16 units of a user string, in the byte order of the machine. `None` if there is none."""
    room, count, flag = _USUAL, c_size_t(), c_uint16()
    while True:
        units = (c_uint16 * room)()
        if not library.clim_user_string(view, token, units, room, byref(count), byref(flag)):
            return None
        if count.value <= room:
            return bytes(units)[: 2 * count.value]
        room = count.value


#: The tables, by number, and the names of their columns.
TABLE_NAMES = {number: name for number in range(256) if (name := text_of(library.clim_table_name, number).decode())}
TABLE_NUMBERS = {name: number for number, name in TABLE_NAMES.items()}
COLUMN_NAMES = {
    number: tuple(
        text_of(library.clim_column_name, number, column).decode() for column in range(library.clim_cell_count(number))
    )
    for number in TABLE_NAMES
}
