"""The values of custom attributes in the lines of `clim outline`, by a plain reader of II.14.3, II.21, II.22.10 and II.23.3."""

import os
import subprocess

from walk import CODED, LAST_LAYER, NUMBERS, Walk, escaped, packed

# The words for types (II.7.1), by the names that the decoder gives.
WORDS = {
    "Boolean": "bool", "Char": "char", "I1": "int8", "U1": "unsigned int8", "I2": "int16", "U2": "unsigned int16", "I4": "int32",
    "U4": "unsigned int32", "I8": "int64", "U8": "unsigned int64", "R4": "float32", "R8": "float64", "String": "string",
    "string": "string", "type": "type", "boxed": "object", "Object": "object", "SystemType": "type",
}
# The codes of elements in signatures and in values (II.23.1.16, II.23.3).
VOID, STRING, VALUE_TYPE, CLASS, OBJECT, VECTOR = 0x01, 0x0E, 0x11, 0x12, 0x1C, 0x1D
TYPE_IN_VALUE, OBJECT_IN_VALUE = 0x50, 0x51
UNDERLYING = range(0x02, 0x0C)
# What the program reads: parameters, fields of an enum, bytes of a value, bytes of a text.
MOST_PARAMS, MOST_FIELDS, LONGEST, TEXT_LIMIT = 64, 16, 1 << 16, 1 << 16
STATIC, GENERIC = 0x10, 0x10
# The first tag of a coded index that is in use, if that is not 0 (II.24.2.6).
FIRST_TAGS = {"CustomAttributeType": 2}


class Rows:
    """The rows of a file."""

    def __init__(self, data):
        # Of heaps only what attributes need is read.
        self.data, self.walk, self.known = data, Walk(data, False, [], LAST_LAYER), {}

    def count(self, table):
        return self.walk.counts[NUMBERS[table]]

    def row(self, table, row):
        return {column: (kind, cell) for _, column, kind, cell in self.walk.cells(NUMBERS[table], row)}

    def text(self, cell):
        start = self.walk.streams[b"#Strings"][0] + cell[1]
        return self.data[start:self.data.index(0, start)]

    def blob(self, cell):
        start = self.walk.streams[b"#Blob"][0] + cell[1]
        size, own = packed(self.data, start)
        return self.data[start + own:start + own + size]

    def coded(self, kind, value):
        """The table and the row of a coded index; row 0 is null."""
        bits, names = CODED[kind]
        return names.split()[(value & (1 << bits) - 1) - FIRST_TAGS.get(kind, 0)], value >> bits

    def is_in_system(self, name, table, row):
        if table not in ("TypeDef", "TypeRef") or not 1 <= row <= self.count(table):
            return False
        cells = self.row(table, row)
        return (self.text(cells["TypeNamespace"]), self.text(cells["TypeName"])) == (b"System", name)

    def start(self, row):
        """The first field of a type. A null start is that of the next type."""
        for later in range(row, self.count("TypeDef") + 1):
            first = self.row("TypeDef", later)["FieldList"][1]
            if first:
                return first
        return self.count("Field") + 1

    def underlying(self, table, row):
        """The code of an enum's type, or None."""
        if table != "TypeDef" or not 1 <= row <= self.count(table):
            return None
        if not self.is_in_system(b"Enum", *self.coded("TypeDefOrRef", self.row(table, row)["Extends"][1])):
            return None
        first = self.start(row)
        for field in range(first, min(self.start(row + 1), first + MOST_FIELDS)):
            cells = self.row("Field", field)
            if not cells["Flags"][1] & STATIC:
                signature = self.blob(cells["Signature"])
                return signature[1] if len(signature) == 2 and signature[1] in UNDERLYING else None
        return None

    def element(self, signature, at):
        """The code of an element in a value, or None, and what follows it in the signature."""
        code = signature[at]
        if code in range(0x02, 0x0F) or code in (0x18, 0x19):
            return code, at + 1
        if code == OBJECT:
            return OBJECT_IN_VALUE, at + 1
        if code not in (CLASS, VALUE_TYPE):
            return None, at
        index, size = packed(signature + bytes(4), at + 1)
        of = self.coded("TypeDefOrRef", index)
        if code == CLASS:
            return TYPE_IN_VALUE if self.is_in_system(b"Type", *of) else None, at + 1 + size
        return self.underlying(*of), at + 1 + size

    def params(self, table, row):
        """The types of the parameters of a constructor, as the decoder takes them; None if one has none."""
        if (table, row) not in self.known:
            self.known[table, row] = self.params_in(self.blob(self.row(table, row)["Signature"]))
        return self.known[table, row]

    def params_in(self, signature):
        if signature[0] & 0x0F not in range(0x06) or signature[0] & GENERIC:
            return None
        count, size = packed(signature + bytes(4), 1)
        at = 1 + size
        if signature[at] != VOID or count > MOST_PARAMS:
            return None
        params, at = [], at + 1
        for _ in range(count):
            vector = signature[at] == VECTOR
            code, at = self.element(signature, at + vector)
            if code is None:
                return None
            params.append((VECTOR, code) if vector else code)
        return params


def content(words):
    """The word for the type of an element, and its value."""
    name, _, bits = words.partition(" ")
    if name == "boxed":
        return "object", "{}({})".format(*content(bits))
    if name in ("string", "type"):
        text = "nullref" if bits == "null" else '"{}"'.format(escaped(bytes.fromhex(bits)).replace("'", "\\x27"))
    elif name == "Boolean":
        text = ["false", "true"][int(bits)]
    elif name in ("R4", "R8"):
        text = "0x{:0{}x}".format(int(bits), 2 * int(name[1:]))
    else:
        size = 8 * int(name[1:]) if name[0] == "I" else 0
        text = str(int(bits) - (1 << size if size and int(bits) >> size - 1 else 0))
    return WORDS[name], text


def argument(words, left):
    """The type and the text of an argument. The words of the elements of an array are taken from those that are left."""
    if not words.startswith("array "):
        word, text = content(words)
        return word, f"{word}({text})"
    _, name, count = words.split()
    word = WORDS[name.removeprefix("Simple(").rstrip(")")]
    if count == "None":
        return f"{word}[]", f"{word}[](nullref)"
    size = int(count.removeprefix("Some(").rstrip(")"))
    texts = [content(left.pop(0).removeprefix("element "))[1] for _ in range(size)]
    return f"{word}[]", "{}[{}]({})".format(word, size, " ".join(texts))


def written(words):
    """The text of a value, by the words of the decoder."""
    left, texts = list(words), []
    while left:
        kind, _, tail = left.pop(0).partition(" ")
        if kind == "fixed":
            texts.append(" " + argument(tail, left)[1])
        elif kind != "named":
            name, _, tail = tail.partition(" ")
            of, text = argument(tail, left)
            own = escaped(bytes.fromhex(name)).replace("'", "\\x27")
            texts.append(f' {kind} {of} "{own}" = {text}')
    return "".join(texts)


def wanted(rows, row, decoder):
    """The token of an attribute, and its value as it stands in its line, before the owner."""
    cells = rows.row("CustomAttribute", row)
    blob = rows.blob(cells["Value"])
    params = rows.params(*rows.coded("CustomAttributeType", cells["Type"][1])) if len(blob) <= LONGEST else None
    value = " = ({}{})".format(blob[:LONGEST].hex(), ".." if len(blob) > LONGEST else "")
    if params is not None:
        try:
            text = written(decoder(blob, params).words)
            value = " = {{{} }}".format(text[:TEXT_LIMIT] + (".." if len(text) > TEXT_LIMIT else ""))
        except (ValueError, TypeError, KeyError, IndexError):
            pass
    _, parent = rows.coded("HasCustomAttribute", cells["Parent"][1])
    return f"{NUMBERS['CustomAttribute']:02x}{row:06x}", f"{value} of " if parent else value


def compared(program, path, decoder):
    """How many lines of a file are as wanted, and what is said of the others."""
    with open(path, "rb") as it:
        rows = Rows(it.read())
    ran = subprocess.run([program, "outline", path], capture_output=True)
    lines = dict(reversed(line.rpartition("  // ")[::2]) for line in ran.stdout.decode().splitlines() if line.startswith(".custom"))
    values = dict(wanted(rows, row, decoder) for row in range(1, rows.count("CustomAttribute") + 1))
    wrong = [f"{os.path.basename(path)}: {lines.get(token)}, and not ..{value}" for token, value in values.items() if value not in lines.get(token, "")]
    return len(values) - len(wrong), wrong, sum(" = {" in value for value in values.values())
