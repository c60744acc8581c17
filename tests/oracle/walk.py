"""A plain walk over a file, by ECMA-335 II.22 to II.25. It shares no code with the library."""

import bisect
import json

# The number of cells of a heap entry, of methods, and of fields with data, that have a line.
MOST_CELLS = MOST_METHODS = MOST_FIELDS = 10
# The largest number of sections of a file whose methods and fields have lines.
MOST_SECTIONS = 96
# The number of data sections of a method body that are looked at.
MOST_DATA = 64
# The streams of the standard, in the order of their lines (II.24.2.2).
STREAMS = (b"#Strings", b"#US", b"#GUID", b"#Blob", b"#~")
# The layers of faults: the PE headers, the CLI header, the root and its stream headers, the table stream; and the last one.
PE_LAYER, CLI_LAYER, ROOT_LAYER, TABLE_LAYER, LAST_LAYER = 1, 2, 3, 4, 8

# The columns of the tables (II.22): a size in bytes, a heap, a coded index, or the table of a row or a list.
TABLES = {
    0x00: ("Module", "Generation 2, Name text, Mvid guid, EncId guid, EncBaseId guid"),
    0x01: ("TypeRef", "ResolutionScope ResolutionScope, TypeName text, TypeNamespace text"),
    0x02: ("TypeDef", "Flags 4, TypeName text, TypeNamespace text, Extends TypeDefOrRef, FieldList Field, MethodList MethodDef"),
    0x04: ("Field", "Flags 2, Name text, Signature blob"),
    0x06: ("MethodDef", "RVA 4, ImplFlags 2, Flags 2, Name text, Signature blob, ParamList Param"),
    0x08: ("Param", "Flags 2, Sequence 2, Name text"),
    0x09: ("InterfaceImpl", "Class TypeDef, Interface TypeDefOrRef"),
    0x0A: ("MemberRef", "Class MemberRefParent, Name text, Signature blob"),
    0x0B: ("Constant", "Type 1, padding 1, Parent HasConstant, Value blob"),
    0x0C: ("CustomAttribute", "Parent HasCustomAttribute, Type CustomAttributeType, Value blob"),
    0x0D: ("FieldMarshal", "Parent HasFieldMarshal, NativeType blob"),
    0x0E: ("DeclSecurity", "Action 2, Parent HasDeclSecurity, PermissionSet blob"),
    0x0F: ("ClassLayout", "PackingSize 2, ClassSize 4, Parent TypeDef"),
    0x10: ("FieldLayout", "Offset 4, Field Field"),
    0x11: ("StandAloneSig", "Signature blob"),
    0x12: ("EventMap", "Parent TypeDef, EventList Event"),
    0x14: ("Event", "EventFlags 2, Name text, EventType TypeDefOrRef"),
    0x15: ("PropertyMap", "Parent TypeDef, PropertyList Property"),
    0x17: ("Property", "Flags 2, Name text, Type blob"),
    0x18: ("MethodSemantics", "Semantics 2, Method MethodDef, Association HasSemantics"),
    0x19: ("MethodImpl", "Class TypeDef, MethodBody MethodDefOrRef, MethodDeclaration MethodDefOrRef"),
    0x1A: ("ModuleRef", "Name text"),
    0x1B: ("TypeSpec", "Signature blob"),
    0x1C: ("ImplMap", "MappingFlags 2, MemberForwarded MemberForwarded, ImportName text, ImportScope ModuleRef"),
    0x1D: ("FieldRVA", "RVA 4, Field Field"),
    0x20: ("Assembly", "HashAlgId 4, MajorVersion 2, MinorVersion 2, BuildNumber 2, RevisionNumber 2, Flags 4, PublicKey blob, Name text, Culture text"),
    0x21: ("AssemblyProcessor", "Processor 4"),
    0x22: ("AssemblyOS", "OSPlatformID 4, OSMajorVersion 4, OSMinorVersion 4"),
    0x23: ("AssemblyRef", "MajorVersion 2, MinorVersion 2, BuildNumber 2, RevisionNumber 2, Flags 4, PublicKeyOrToken blob, Name text, Culture text, HashValue blob"),
    0x24: ("AssemblyRefProcessor", "Processor 4, AssemblyRef AssemblyRef"),
    0x25: ("AssemblyRefOS", "OSPlatformID 4, OSMajorVersion 4, OSMinorVersion 4, AssemblyRef AssemblyRef"),
    0x26: ("File", "Flags 4, Name text, HashValue blob"),
    0x27: ("ExportedType", "Flags 4, TypeDefId 4, TypeName text, TypeNamespace text, Implementation Implementation"),
    0x28: ("ManifestResource", "Offset 4, Flags 4, Name text, Implementation Implementation"),
    0x29: ("NestedClass", "NestedClass TypeDef, EnclosingClass TypeDef"),
    0x2A: ("GenericParam", "Number 2, Flags 2, Owner TypeOrMethodDef, Name text"),
    0x2B: ("MethodSpec", "Method MethodDefOrRef, Instantiation blob"),
    0x2C: ("GenericParamConstraint", "Owner GenericParam, Constraint TypeDefOrRef"),
}
NUMBERS = {name: number for number, (name, _) in TABLES.items()}

# The tables of each coded index (II.24.2.6), by the number of bits of its tag.
CODED = {
    "TypeDefOrRef": (2, "TypeDef TypeRef TypeSpec"),
    "HasConstant": (2, "Field Param Property"),
    "HasCustomAttribute": (5, "MethodDef Field TypeRef TypeDef Param InterfaceImpl MemberRef Module DeclSecurity Property Event "
                              "StandAloneSig ModuleRef TypeSpec Assembly AssemblyRef File ExportedType ManifestResource "
                              "GenericParam GenericParamConstraint MethodSpec"),
    "HasFieldMarshal": (1, "Field Param"),
    "HasDeclSecurity": (2, "TypeDef MethodDef Assembly"),
    "MemberRefParent": (3, "TypeDef TypeRef ModuleRef MethodDef TypeSpec"),
    "HasSemantics": (1, "Event Property"),
    "MethodDefOrRef": (1, "MethodDef MemberRef"),
    "MemberForwarded": (1, "Field MethodDef"),
    "Implementation": (2, "File AssemblyRef ExportedType"),
    "CustomAttributeType": (3, "MethodDef MemberRef"),
    "ResolutionScope": (2, "Module ModuleRef AssemblyRef TypeRef"),
    "TypeOrMethodDef": (1, "TypeDef MethodDef"),
}

CLI_HEADER = [
    ("Cb", 4), ("MajorRuntimeVersion", 2), ("MinorRuntimeVersion", 2), ("MetaData", 8), ("Flags", 4), ("EntryPointToken", 4),
    ("Resources", 8), ("StrongNameSignature", 8), ("CodeManagerTable", 8), ("VTableFixups", 8),
    ("ExportAddressTableJumps", 8), ("ManagedNativeHeader", 8),
]
# The directories that the CLI header names, and the offsets of their addresses in it (II.25.3.3).
NAMED = [
    ("resources", 24), ("strong name signature", 32), ("code manager table", 40), ("vtable fixups", 48),
    ("export address table jumps", 56), ("managed native header", 64),
]
FILE_HEADER = [
    ("Machine", 2), ("NumberOfSections", 2), ("TimeDateStamp", 4), ("PointerToSymbolTable", 4), ("NumberOfSymbols", 4),
    ("SizeOfOptionalHeader", 2), ("Characteristics", 2),
]
# The optional header before the data directories (II.25.2.3); None is the size of an address.
OPTIONAL_HEADER = [
    ("Magic", 2), ("MajorLinkerVersion", 1), ("MinorLinkerVersion", 1), ("SizeOfCode", 4), ("SizeOfInitializedData", 4),
    ("SizeOfUninitializedData", 4), ("AddressOfEntryPoint", 4), ("BaseOfCode", 4), ("BaseOfData", 4), ("ImageBase", None),
    ("SectionAlignment", 4), ("FileAlignment", 4), ("MajorOperatingSystemVersion", 2), ("MinorOperatingSystemVersion", 2),
    ("MajorImageVersion", 2), ("MinorImageVersion", 2), ("MajorSubsystemVersion", 2), ("MinorSubsystemVersion", 2),
    ("Win32VersionValue", 4), ("SizeOfImage", 4), ("SizeOfHeaders", 4), ("CheckSum", 4), ("Subsystem", 2),
    ("DllCharacteristics", 2), ("SizeOfStackReserve", None), ("SizeOfStackCommit", None), ("SizeOfHeapReserve", None),
    ("SizeOfHeapCommit", None), ("LoaderFlags", 4), ("NumberOfRvaAndSizes", 4),
]
DIRECTORIES = [
    "Export Table", "Import Table", "Resource Table", "Exception Table", "Certificate Table", "Base Relocation Table", "Debug",
    "Copyright", "Global Ptr", "TLS Table", "Load Config Table", "Bound Import", "IAT", "Delay Import Descriptor",
    "CLI Header", "Reserved",
]
SECTION_HEADER = [
    ("Name", 8), ("VirtualSize", 4), ("VirtualAddress", 4), ("SizeOfRawData", 4), ("PointerToRawData", 4),
    ("PointerToRelocations", 4), ("PointerToLinenumbers", 4), ("NumberOfRelocations", 2), ("NumberOfLinenumbers", 2),
    ("Characteristics", 4),
]
TABLE_STREAM = [
    ("Reserved", 4), ("MajorVersion", 1), ("MinorVersion", 1), ("HeapSizes", 1), ("Reserved", 1), ("Valid", 8), ("Sorted", 8),
]

# The fields of at most four bytes that may be texts. Fields of more than four bytes are no numbers, either.
NO_NUMBERS = {"ms-dos header Signature", "root header Version", "stream header Name"}
# The size of a value of a simple type in bytes (II.23.1.16).
SIZES = {
    0x02: 1, 0x03: 2, 0x04: 1, 0x05: 1, 0x06: 2, 0x07: 2, 0x08: 4, 0x09: 4, 0x0A: 8, 0x0B: 8, 0x0C: 4, 0x0D: 8,
}
VALUE_TYPE = 0x11

# The heap of each kind of index: its bit in HeapSizes, and its name (II.24.2.6).
HEAPS = {"text": (0, b"#Strings"), "guid": (1, b"#GUID"), "blob": (2, b"#Blob")}


def number(data, start, size):
    return int.from_bytes(data[start:start + size], "little")


def padded(size):
    return (size + 3) // 4 * 4


def packed(data, at):
    """A packed number (II.23.2), and its own number of bytes; None for neither form."""
    first = data[at]
    if first < 0x80:
        return first, 1
    if first < 0xC0:
        return int.from_bytes(data[at:at + 2], "big") & 0x3FFF, 2
    if first < 0xE0:
        return int.from_bytes(data[at:at + 4], "big") & 0x1FFFFFFF, 4
    return None


def escaped(name):
    """Bytes as text: a quote, a backslash and what is not printable ASCII as \\x and two digits."""
    return "".join(chr(c) if 0x20 <= c < 0x7F and c not in b'"\\' else f"\\x{c:02x}" for c in name)


def cell_words(table, row, index, column):
    """What a cell is, in a line. The padding of Constant is no column, and is not counted (II.22.9)."""
    names = [it.split()[0] for it in TABLES[table][1].split(", ")]
    part = f"column {index - names[:index].count('padding')} {column}" if column != "padding" else column
    return f"table {table:02X} {TABLES[table][0]} row {row} {part}"


def structure_line(line):
    """The line of text that says the same as a line of JSON; None if an object has other members than those of its kind."""
    value = json.loads(line)
    keys = list(value)
    if keys[:2] == ["offset", "value"]:
        return f"0x{value['offset']:x}: value {value['value']}"
    what = value["structure"]
    if keys[3:] == ["stream", "token"]:
        what = f"{what} {value['token']}" if value["stream"] == "#US" else None
    elif what in ("method", "field", "resource") and keys[3:] == ["token", "name"]:
        what = f"{what} {value['token']} {escaped(value['name'].encode())}"
    elif what == "padding" and keys[3:] == ["table", "row"]:
        what = f"table {NUMBERS[value['table']]:02X} {value['table']} row {value['row']} padding"
    elif keys[3:] in (["table", "row", "column"], ["stream", "table", "row", "column"]):
        table = NUMBERS[value["table"]]
        columns = [it.split()[0] for it in TABLES[table][1].split(", ")]
        cell = cell_words(table, value["row"], columns.index(value["column"]), value["column"])
        heaps = {"string": "#Strings", "guid": "#GUID", "blob": "#Blob"}
        what = cell if what == "cell" else f"{what} of {cell}" if heaps[what] == value["stream"] else None
    elif keys[3:]:
        what = None
    return f"{value['offset']} {value['size']} {what}" if keys[:3] == ["offset", "size", "structure"] else None


class Walk:
    """The structures of a file, as lines for each of the offsets that are asked for.

    Of a file whose first fault is of some layer, only the parts that break no rule are walked: those of the layers before
    it, up to the cells. Layers are numbered as the program numbers them.
    """

    def __init__(self, data, bare, offsets, layer=None):
        self.data, self.offsets = data, sorted(set(offsets))
        self.lines = {offset: [] for offset in self.offsets}
        self.numbers = {}
        self.layout, self.counts, self.streams, self.resources = {}, {}, {}, None
        known = LAST_LAYER + 1 if layer is None else layer
        root, size = 0, len(data)
        if not bare and known > PE_LAYER:
            directories = self.headers()
            root, size = self.cli_header(directories) if known > CLI_LAYER else (0, 0)
        if known > ROOT_LAYER:
            self.root(root, size)
        if known > TABLE_LAYER:
            self.tables(self.streams[b"#~"][0])
        if layer is None:
            self.entries()
            self.user_strings()
            self.values()
            if not bare:
                self.methods()
                self.field_data()
                self.resource()

    def within(self, start, size):
        first = bisect.bisect_left(self.offsets, start)
        past = bisect.bisect_left(self.offsets, start + size)
        return self.offsets[first:past]

    def put(self, start, size, what):
        for offset in self.within(start, size):
            self.lines[offset].append(f"{start} {size} {what}")

    def put_number(self, start, size, bits=0):
        """Keeps the number that is the last structure so far, and the number of bits of its tag if it is a coded index."""
        for offset in self.within(start, size):
            self.numbers[offset] = len(self.lines[offset]), start, size, bits

    def fields(self, word, start, fields):
        for name, size in fields:
            self.put(start, size, f"{word} {name}")
            if size in (1, 2, 4) and f"{word} {name}" not in NO_NUMBERS:
                self.put_number(start, size)
            start += size

    def values(self):
        """The number that the last structure is, without what it means."""
        for offset, (count, start, size, bits) in self.numbers.items():
            if len(self.lines[offset]) == count:
                of = number(self.data, start, size)
                means = f"tag {of % (1 << bits)}, row {of >> bits}" if bits else f"0x{of:x}"
                self.lines[offset].append(f"0x{start:x}: value {of} ({means})")

    def file_offset(self, address):
        """The file offset of an address in the memory of the image (II.25.3)."""
        for start, size, raw in self.sections:
            if start <= address < start + size:
                return raw + address - start
        raise ValueError("an address outside of the sections")

    def headers(self):
        """The headers of the PE file, its sections, and the offset of the first data directory (II.25.2 and II.25.3)."""
        data = self.data
        pe = number(data, 0x3C, 4)
        optional = pe + 24
        table = optional + number(data, pe + 20, 2)
        wide = number(data, optional, 2) == 0x20B
        self.put(0, 64, "ms-dos header")
        self.fields("ms-dos header", 0, [("Signature", 2)])
        self.fields("ms-dos header", 0x3C, [("lfanew", 4)])
        self.put(pe, 4, "pe signature")
        self.put(pe + 4, 20, "pe file header")
        self.fields("pe file header", pe + 4, FILE_HEADER)
        self.put(optional, table - optional, "optional header")
        fields = [(name, size or (8 if wide else 4)) for name, size in OPTIONAL_HEADER if not (wide and name == "BaseOfData")]
        self.fields("optional header", optional, fields)
        first = optional + sum(size for _, size in fields)
        counted = min(number(data, first - 4, 4), (table - first) // 8)
        for index, name in enumerate(DIRECTORIES[:counted]):
            self.put(first + 8 * index, 8, f"data directory {index + 1} {name}")
            self.fields("data directory", first + 8 * index, [("RVA", 4), ("Size", 4)])
        self.section_headers(table, number(data, pe + 6, 2))
        return first

    def section_headers(self, table, count):
        """The section headers and the sections. A section ends with the file at the latest."""
        data = self.data
        headers = range(table, table + 40 * count, 40)
        names = [escaped(data[at:at + 8].split(b"\0")[0]) for at in headers]
        words = [f"{index} {name}" if name else str(index) for index, name in enumerate(names, 1)]
        self.sections = [tuple(number(data, at + part, 4) for part in (12, 16, 20)) for at in headers]
        for at, word in zip(headers, words):
            self.put(at, 40, f"section header {word}")
            self.fields("section header", at, SECTION_HEADER)
        for (_, size, raw), word in zip(self.sections, words):
            self.put(raw, min(size, max(len(data) - raw, 0)), f"section {word}")

    def named(self, header):
        """The bytes that the CLI header names, if one section has them and they end within the file."""
        for what, part in NAMED:
            address, size = number(self.data, header + part, 4), number(self.data, header + part + 4, 4)
            for start, length, raw in self.sections:
                if start <= address and address + size <= start + length:
                    offset = raw + address - start
                    if offset + size <= len(self.data):
                        self.put(offset, size, what)
                        if what == "resources":
                            self.resources = offset, size
                    break

    def cli_header(self, directories):
        """The CLI header and what it names, and the offset and the size of the root."""
        data = self.data
        header = self.file_offset(number(data, directories + 14 * 8, 4))
        self.put(header, 72, "cli header")
        self.fields("cli header", header, CLI_HEADER)
        self.named(header)
        return self.file_offset(number(data, header + 8, 4)), number(data, header + 12, 4)

    def root(self, root, size):
        data = self.data
        self.put(root, size, "root")
        version = number(data, root + 12, 4)
        self.fields("root header", root, [
            ("Signature", 4), ("MajorVersion", 2), ("MinorVersion", 2), ("Reserved", 4), ("Length", 4),
            ("Version", version), ("Flags", 2), ("Streams", 2),
        ])
        streams, others = {}, []
        header = root + 16 + version + 4
        for _ in range(number(data, header - 2, 2)):
            name = data[header + 8:data.index(0, header + 8)]
            length = 8 + padded(len(name) + 1)
            self.put(header, length, f"stream header {escaped(name)}")
            self.fields("stream header", header, [("Offset", 4), ("Size", 4), ("Name", length - 8)])
            start, count = number(data, header, 4), number(data, header + 4, 4)
            if name in STREAMS:
                streams[name] = root + start, count
            else:
                others.append((root + start, min(count, max(size - start, 0)), escaped(name)))
            header += length
        for start, count, name in others:
            self.put(start, count, f"stream {name}")
        for name in STREAMS:
            if name in streams:
                self.put(*streams[name], f"stream {name.decode()}")
        self.streams = streams

    def tables(self, start):
        data = self.data
        self.fields("table stream", start, TABLE_STREAM)
        heap_sizes, valid = data[start + 6], number(data, start + 8, 8)
        counts, at = dict.fromkeys(TABLES, 0), start + 24
        for table, (name, _) in TABLES.items():
            if valid >> table & 1:
                self.put(at, 4, f"row count {table:02X} {name}")
                self.put_number(at, 4)
                counts[table] = number(data, at, 4)
                at += 4

        def width(kind):
            if kind.isdigit():
                return int(kind)
            if kind in HEAPS:
                return 4 if heap_sizes >> HEAPS[kind][0] & 1 else 2
            bits, names = CODED.get(kind, (0, kind))
            return 4 if max(counts[NUMBERS[name]] for name in names.split()) >= 1 << 16 - bits else 2

        self.counts = counts
        for table, (name, columns) in TABLES.items():
            columns = [(column, kind, width(kind)) for column, kind in (it.split() for it in columns.split(", "))]
            row_width = sum(it[2] for it in columns)
            self.layout[table] = at, columns
            for offset in self.within(at, row_width * counts[table]):
                row, left = divmod(offset - at, row_width)
                for index, (column, kind, size) in enumerate(columns):
                    if left < size:
                        self.lines[offset].append(f"{offset - left} {size} {cell_words(table, row + 1, index, column)}")
                        if column != "padding":
                            self.numbers[offset] = len(self.lines[offset]), offset - left, size, CODED.get(kind, (0, ""))[0]
                        break
                    left -= size
            at += row_width * counts[table]

    def cells(self, table, row):
        """The cells of a row, counted from 1: the index and the name of its column, its kind and its number."""
        at, columns = self.layout[table]
        at += (row - 1) * sum(it[2] for it in columns)
        for index, (column, kind, size) in enumerate(columns):
            yield index, column, kind, number(self.data, at, size)
            at += size

    def entries(self):
        """The heap entries that cells name."""
        counts = dict.fromkeys(self.offsets, 0)
        for table in self.layout:
            for row in range(1, self.counts[table] + 1):
                for index, column, kind, cell in self.cells(table, row):
                    if kind not in HEAPS or not cell:
                        continue
                    start, size, word = self.entry(kind, HEAPS[kind][1], cell)
                    for offset in self.within(start, size):
                        if counts[offset] < MOST_CELLS:
                            counts[offset] += 1
                            self.lines[offset].append(f"{start} {size} {word} of {cell_words(table, row, index, column)}")

    def entry(self, kind, heap, index):
        start = self.streams[heap][0]
        if kind == "text":
            return start + index, self.data.index(0, start + index) + 1 - (start + index), "string"
        if kind == "guid":
            return start + 16 * (index - 1), 16, "guid"
        return start + index, sum(packed(self.data, start + index)), "blob"

    def user_strings(self):
        """The user strings of the heap with zeros up to a multiple of four bytes. The zeros are no bytes of the stream."""
        start, size = self.streams.get(b"#US", (0, 0))
        heap = self.data[start:start + size] + bytes(padded(size) - size)
        at = 1
        while at < min(size, 1 << 24):
            length = packed(heap, at)
            if length is None or at + sum(length) > len(heap):
                break
            # A string has no bytes, or an odd number of them: its units, and a last byte (II.24.2.4).
            if length[0] and length[0] % 2 == 0:
                break
            self.put(start + at, min(sum(length), size - at), f"user string {0x70000000 + at:08x}")
            at += sum(length)

    def methods(self):
        """The methods with code of CIL whose bodies contain a byte (II.22.26, II.23.1.10)."""
        counts = dict.fromkeys(self.offsets, 0)
        if len(self.sections) > MOST_SECTIONS:
            return
        for row in range(1, self.counts[0x06] + 1):
            cells = {column: cell for _, column, _, cell in self.cells(0x06, row)}
            at = [raw + cells["RVA"] - start for start, size, raw in self.sections if start <= cells["RVA"] < start + size]
            if not cells["RVA"] or cells["ImplFlags"] % 4 or not at or at[0] >= len(self.data):
                continue
            size = self.body_size(at[0])
            name = self.text(cells["Name"])
            for offset in self.within(at[0], size or 0):
                if self.lines[offset] and counts[offset] < MOST_METHODS:
                    counts[offset] += 1
                    self.lines[offset].append(f"{at[0]} {size} method {0x06000000 + row:08x} {escaped(name)}")

    def data_size(self, signature):
        """The size of data by the signature of its field (II.23.2.4), which is one simple type or one type of this file."""
        start = self.streams.get(b"#Blob", (0, 0))[0] + signature
        length, own = packed(self.data, start)
        blob = self.data[start + own:start + own + length]
        if len(blob) == 2:
            return SIZES.get(blob[1], 0)
        if len(blob) < 3 or blob[1] != VALUE_TYPE:
            return 0
        token, own = packed(blob, 2)
        if len(blob) != 2 + own or token & 3:
            return 0
        for row in range(1, self.counts[0x0F] + 1):
            cells = {column: cell for _, column, _, cell in self.cells(0x0F, row)}
            if cells["Parent"] == token >> 2:
                return cells["ClassSize"]
        return 0

    def field_data(self):
        """The fields whose data contains a byte (II.22.18). Of data of a size that is not known it is the first byte."""
        counts, addresses = dict.fromkeys(self.offsets, 0), {}
        if len(self.sections) > MOST_SECTIONS:
            return
        for row in range(1, self.counts[0x1D] + 1):
            cells = {column: cell for _, column, _, cell in self.cells(0x1D, row)}
            addresses.setdefault(cells["Field"], cells["RVA"])
        for row, address in sorted(addresses.items()):
            cells = {column: cell for _, column, _, cell in self.cells(0x04, row)}
            at = [raw + address - start for start, size, raw in self.sections if start <= address < start + size]
            if not at or at[0] >= len(self.data):
                continue
            size = self.data_size(cells["Signature"])
            for offset in self.within(at[0], size or 1):
                if self.lines[offset] and counts[offset] < MOST_FIELDS:
                    counts[offset] += 1
                    self.lines[offset].append(f"{at[0]} {size} field {0x04000000 + row:08x} {escaped(self.text(cells['Name']))}")

    def text(self, cell):
        """The bytes of a text of #Strings (II.24.2.3)."""
        start = self.streams.get(b"#Strings", (0, 0))[0] + cell
        return self.data[start:self.data.index(0, start)] if cell else b""

    def resource(self):
        """The first resource in the file whose content contains a byte (II.22.24). The length before it is no part of it."""
        found = set()
        for row in range(1, self.counts[0x28] + 1) if self.resources else ():
            cells = {column: cell for _, column, _, cell in self.cells(0x28, row)}
            start, size = self.resources
            if cells["Implementation"] >> 2 or cells["Offset"] + 4 > size:
                continue
            length = number(self.data, start + cells["Offset"], 4)
            first = start + cells["Offset"] + 4
            if first + length > start + size:
                continue
            for offset in set(self.within(first, length)) - found:
                found.add(offset)
                if self.lines[offset]:
                    self.lines[offset].append(f"{first} {length} resource {0x28000000 + row:08x} {escaped(self.text(cells['Name']))}")

    def body_size(self, start):
        """The number of bytes of the body that begins at an offset (II.25.4), if the file has its header and its data."""
        data = self.data
        if data[start] % 4 == 2:
            return 1 + data[start] // 4
        if data[start] % 4 != 3:
            return 1
        if start + 12 > len(data):
            return None
        flags = number(data, start, 2)
        end = 4 * (flags >> 12) + number(data, start + 4, 4)
        if not flags & 8:
            return end
        for _ in range(MOST_DATA):
            end = padded(end)
            if start + end + 4 > len(data):
                return None
            kind = data[start + end]
            size = number(data, start + end, 4) >> 8 if kind & 0x40 else data[start + end + 1]
            if size < 4:
                return None
            end += size
            if not kind & 0x80:
                return end
        return None
