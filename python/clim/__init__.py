"""Reads the metadata of .NET assemblies (ECMA-335 II.22 to II.25), in place and proved, and makes new metadata.

    import clim

    with clim.open("one.dll") as assembly:            # or raises clim.Fault
        for type in assembly.types:
            for method in type.methods:
                print(type.full_name, method.name)

A file is opened if and only if it satisfies all rules. Then each cell is proved to be that of the file's only model. What
`clim.open` returns has the tables by name, `assembly["TypeDef"]`, and their rows with a cell for each column,
`row.TypeName`. `clim.rows` has the classes of rows. Rows count from 1, as in the standard.

`clim.Tables` has rows that a program adds, or those of an assembly, which may be changed. Its `root()` checks them against
all rules, and returns the metadata root that they make. `Assembly.embed` puts a root into a copy of its file.

The shared library is the file that the environment variable CLIM_LIBRARY names, or else the one that a wheel has, or
else the one that is installed.
"""

from __future__ import annotations

from typing import Optional

from . import rows
from ._library import Unsupported, supports
from .assembly import Assembly, Source, Table, fault_in, fault_of, header_of, offset_in, read_source
from .flags import (
    Access,
    AssemblyFlags,
    CallConv,
    CharSet,
    CodeType,
    EventFlags,
    FieldFlags,
    GenericParamFlags,
    HeaderFlags,
    ImportFlags,
    Layout,
    MethodFlags,
    MethodImplFlags,
    ParamFlags,
    PropertyFlags,
    SemanticsFlags,
    TypeFlags,
    Variance,
    Visibility,
)
from .rows import Row
from .tables import Tables
from .values import (
    Arguments,
    BudgetSpent,
    Difference,
    Directory,
    EmbedError,
    Fault,
    Header,
    Location,
    Refusal,
    Signature,
    Start,
    StrongName,
    Token,
    TypeName,
)

__version__ = "0.1.0"

__all__ = [
    "Access",
    "Arguments",
    "Assembly",
    "AssemblyFlags",
    "BudgetSpent",
    "CallConv",
    "CharSet",
    "CodeType",
    "Difference",
    "Directory",
    "EmbedError",
    "EventFlags",
    "Fault",
    "FieldFlags",
    "GenericParamFlags",
    "Header",
    "HeaderFlags",
    "ImportFlags",
    "Layout",
    "Location",
    "MethodFlags",
    "MethodImplFlags",
    "ParamFlags",
    "PropertyFlags",
    "Refusal",
    "Row",
    "SemanticsFlags",
    "Signature",
    "Start",
    "StrongName",
    "Table",
    "Tables",
    "Token",
    "TypeFlags",
    "TypeName",
    "Unsupported",
    "Variance",
    "Visibility",
    "check",
    "compare",
    "offset_of",
    "open",
    "read_header",
    "rows",
    "supports",
]


def open(source: Source, bare: bool = False, *, mmap: bool = False, budget: Optional[int] = None) -> Assembly:
    """Opens a file.

    Args:
        source: The path of a file, as a `str` or a path object; or its content, as `bytes` or another object of bytes.
            `bytes` are read in place. All others may change, so they are copied.
        bare: Whether it is a bare metadata root, without the file around it (II.24.2.1).
        mmap: Has no effect. The file of a path is read, and not mapped, since others could change it while it is open.
        budget: The number of bytes of texts and signatures that may be checked at most. Without it a crafted file can take a long time.

    Raises:
        Fault: The bytes break a rule of the standard. The error states number, name and offset of the first one.
        BudgetSpent: The budget is spent.
        OSError: The file cannot be read.
        ValueError: The budget is negative, or has more than 64 bits.
        Unsupported: There is a budget, and the library is too old for it.
    """
    return Assembly(read_source(source), bare, budget)


def check(source: Source, bare: bool = False, *, budget: Optional[int] = None) -> Optional[Fault]:
    """`None` if a file, or a bare metadata root, satisfies all rules; else the fault of the first rule that it breaks.

    `budget` is that of `open`.

    Raises:
        BudgetSpent: The budget is spent.
        OSError: The file cannot be read.
        ValueError: The budget is negative, or has more than 64 bits.
        Unsupported: There is a budget, and the library is too old for it.
    """
    fault = fault_in("clim_check", read_source(source), bare, budget)
    return None if fault is None else fault_of(fault)


def compare(left: Assembly, right: Assembly) -> Optional[Difference]:
    """The first difference between two assemblies; `None` if they have the same metadata (II.22, II.24.2).

    Assemblies with the same metadata have the same canonical root. Otherwise the version string is compared first, then the user
    strings, the numbers of rows in the order of the tables, and the cells in the order of tables, rows and columns.

    Raises:
        MemoryError: Memory ran out.
        Unsupported: The library is older than this package.
    """
    return left.difference(right)


def read_header(source: Source) -> Header:
    """The CLI header of a file (II.25.3.3). The tables are not checked.

    Raises:
        Fault: The headers break a rule.
        OSError: The file cannot be read.
    """
    return header_of(read_source(source))


def offset_of(source: Source, rva: int, size: int) -> Optional[int]:
    """The offset in a file of `size` bytes at a relative virtual address, or `None` if the file does not have them (II.25.3).

    They are in the first section that contains all of them. Only the PE headers are checked, and a file that is no image has
    no such bytes.

    Raises:
        OSError: The file cannot be read.
        ValueError: A number is negative, or has more than 32 bits.
        Unsupported: The library is older than this package.
    """
    return offset_in(read_source(source), rva, size)
