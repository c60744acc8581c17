"""Reads the lines of `clim outline` and `clim refs` back to cells (ECMA-335 II.6, II.7.3, II.10, II.15 to II.22)."""

import re

from left_out import ACTIONS, WORDS
from named import KEYS, matches, names_of_type, table_of
from notation import HEX, MEMBER, NAME, PATH, PROPERTY, SCOPE, TYPE, WORD, Reader, plain
from rows import KINDS
from walk import CODED, NUMBERS

VERSION = r'\.ver <MajorVersion>:<MinorVersion>:<BuildNumber>:<RevisionNumber>(?: \.culture "<Culture>")?'
TOKEN = "[0-9a-f]{8}"
# What a cell or another part of a line is, by its name. The others are given by the kinds of their columns.
PARTS = {"own": PATH, "given": TOKEN, "scope": SCOPE, "key": r"\.publickey(?:token)?", "Culture": '[^"]*', "ImportName": '[^"]*'}
PARTS |= {"HashAlgId": TOKEN, "RVA": TOKEN, "Action": r"\w+"}
# The line of a row of each table: patterns, whose <..> are cells and other parts; the columns of references; and methods of Line.
# What is in a list is there if its pattern matches.
LINES = {
    "Assembly": [rf"\.assembly<Flags> <Name> \{{ \.hash algorithm 0x<HashAlgId> {VERSION}(?: \.publickey = \(<PublicKey>\))? \}}"],
    "AssemblyRef": [rf"\.assembly extern<Flags> <Name> \{{ {VERSION}(?: <key> = \(<PublicKeyOrToken>\))? \}}"],
    "Module": [r"\.module <Name>(?: /\* \{<Mvid>\} \*/)?"],
    "ModuleRef": [r"\.module extern <Name>"],
    "File": [r"\.file<Flags> <Name>(?: \.entrypoint)?"],
    "ManifestResource": [r"\.mresource<Flags> <Name>"],
    "ExportedType": [r"\.class extern<Flags> <own>(?= in |$)", [" in <given> ", "Implementation"]],
    "TypeDef": [
        r"\.class<Flags> <own>(?=<| extends | implements | \{|$)", "generic_params", [" extends ", "Extends"], "interfaces",
        r"(?: \{ \.pack <ClassLayout_PackingSize> \.size <ClassLayout_ClassSize> \})?",
    ],
    "Field": [
        r"  \.field(?: \[<FieldLayout_Offset>\])?<Flags> ", "declaration", [" = ", "constant"],
        "(?: at D_<FieldRVA_RVA>)?",
    ],
    "MethodDef": [r"  \.method<Flags> ", "declaration", "<ImplFlags>", r"(?: \.entrypoint)?"],
    "Property": [r"  \.property<Flags> ", "declaration", [" = ", "constant"]],
    "Event": [r"  \.event<EventFlags>", [f" (?!{PATH}::{MEMBER}$)", "EventType"], " ", "member"],
    "MethodSemantics": ["   <Semantics> ", "Method", " of ", "Association"],
    "Param": [r"\.param \[<Sequence>\] of ", "method", " = ", "constant"],
    "InterfaceImpl": [r"\.interfaceimpl type ", "Class", " implements ", "Interface"],
    "GenericParam": [r"\.param type<Flags> <Name> \[<Number>\] of ", "Owner"],
    "GenericParamConstraint": [rf"\.param constraint (?={WORD} <given>, )", "Owner", f" {TOKEN}, ", "Constraint"],
    "MethodImpl": [r"\.override ", "MethodDeclaration", " with ", "MethodBody", " in ", "Class"],
    "ImplMap": [r'\.pinvokeimpl\("', "ImportScope", r'"(?: as "<ImportName>")?<MappingFlags>\) of ', "MemberForwarded"],
    "DeclSecurity": [r"\.permissionset <Action> = \(<PermissionSet>\) of ", "Parent"],
    "CustomAttribute": [r"\.custom ", "Type", "value", " of ", "Parent"],
    "TypeRef": [r"\.typeref <scope>?<own>"],
    "MemberRef": [r"\.memberref ", "declaration", "parent"],
}
# The words of the flags of a generic parameter in the head of a type.
GENERIC_WORDS = "(?:" + "|".join(re.escape(f"{it} ") for _, _, it in WORDS["GenericParam.Flags"]) + ")*"
# The columns whose references are types, and those whose references have signatures.
TYPES, REFERENCES = ("Extends", "EventType", "Class", "Interface", "Constraint"), ("Method", "MethodBody", "MethodDeclaration", "Type")


def words(name):
    """The pattern of a space and a word of a column, and the word."""
    return " (" + "|".join(sorted({re.escape(it) for _, _, it in WORDS[name]}, key=len, reverse=True)) + ")(?=[ )]|$)"


def pattern_of(table, step):
    """A pattern with a group for each part in angle brackets, which may be of another table."""
    def group(found):
        of, column = found.groups()
        name, kind = f"{of or table}.{column}", KINDS.get((NUMBERS[of or table], column))
        part = PARTS.get(column) or {"text": NAME, "guid": "[0-9a-f-]+", "blob": HEX}.get(kind, "[0-9]+")
        return f"(?P<{found[0][1:-1]}>{f'(?:{words(name)})*' if name in WORDS else part})"
    return [pattern_of(table, it) for it in step] if isinstance(step, list) else step if step.isidentifier() else re.sub(r"<(?:(\w+)_)?(\w+)>", group, step)


LINES = {table: pattern_of(table, steps) for table, steps in LINES.items()}
# A name or a text in quotes, or how something is marshalled.
IN_QUOTES = r"""'[^']*'|"(?:[^"\\]|\\.)*\""""
MARSHALLED = re.compile(rf"{IN_QUOTES}| marshal\((?:[^()'\"]|{IN_QUOTES}|\((?:[^()'\"]|{IN_QUOTES})*\))*\)")


def without_marshalling(text):
    """A line without how its field, or its parameters and its result, are marshalled."""
    return MARSHALLED.sub(lambda it: "" if it[0].startswith(" marshal(") else it[0], text)


class Line:
    """A line, which puts cells to those of all lines: values, or functions that say whether a value is right."""

    def __init__(self, rows, put, text, above):
        text, _, self.token = text.rpartition("  // ")
        self.rows, self.put, self.above, self.table = rows, put, above, table_of(self.token)
        plain_text = without_marshalling(text) if self.table in ("Field", "MethodDef") else text
        if self.table == "Field" and plain_text != text:
            self.describing("FieldMarshal")
        self.reader, self.scope, self.key, self.given = Reader(plain_text, rows), None, None, None
        self.steps(LINES[self.table])
        self.reader.want("$")

    def describing(self, table):
        """The row of a table that describes the row of the line."""
        token = self.rows.keyed[table, self.token]["token"]
        self.put(token, KEYS[table], self.token)
        return token

    def steps(self, steps):
        for step in steps:
            if isinstance(step, list):
                found = self.reader.take(step[0])
                if found:
                    self.groups(found)
                    self.steps(step[1:])
                elif not hasattr(self, step[1]):
                    self.put(self.token, step[1], None)
            elif not step.isidentifier():
                self.groups(self.reader.want(step))
            else:
                getattr(self, step, lambda: self.refer(step))()

    def groups(self, found):
        for name, text in found.groupdict().items():
            table, _, column = name.rpartition("_")
            if name == "own":
                self.read_own(text)
            elif name in ("key", "given", "scope"):
                setattr(self, name, text)
            elif text is not None or not table:
                self.put(self.describing(table) if table else self.token, column, self.cell(table or self.table, column, text))

    def cell(self, table, column, text):
        name, kind = f"{table}.{column}", KINDS[NUMBERS[table], column]
        if name in WORDS:
            return self.flags(name, re.findall(words(name), text))
        if column == "Action":
            return ACTIONS.index(text) + 1 if text in ACTIONS else int(text)
        if kind.isdigit():
            return int(text, 16 if column in PARTS else 10)
        return text if kind == "guid" else text or "" if kind == "blob" else plain(text or "")

    def flags(self, name, found):
        """Whether flags have these words, and in AssemblyRef that for the key. Without a key no word says whether it is a token."""
        def are(value):
            hidden = 1 if name == "AssemblyRef.Flags" and not self.key else 0
            return sorted([*found, *filter(None, [self.key])]) == sorted(word for mask, of, word in WORDS[name] if value & mask == of and mask != hidden)
        return are

    def read_own(self, text):
        """The name of a type, after those of the types that enclose it."""
        if self.table != "ExportedType" and self.token not in self.rows.types(text, self.scope):
            raise ValueError(f"{text} is the name of other rows")
        outer, name = re.fullmatch(rf"(?:({PATH})/)?({TYPE})", text).groups()
        for column, part in zip(("TypeNamespace", "TypeName"), names_of_type(name)):
            self.put(self.token, column, part)
        if not (outer or "").startswith("..") and self.table != "ExportedType" and (outer or self.table == "TypeRef"):
            found = self.rows.types(outer, self.scope) if outer else self.rows.scopes(self.scope)
            row, column = (self.token, "ResolutionScope") if self.table == "TypeRef" else (self.describing("NestedClass"), "EnclosingClass")
            # Neither this module nor no scope has a mark.
            self.put(row, column, lambda value: (None if value and table_of(value) == "Module" else value) in found)

    def listed(self, table, column, owner, read, begin, end):
        """A list in the head of a type or a method: reads what each row of a table is that refers to an owner."""
        tokens = self.rows.referring[table, owner]
        if bool(tokens) != bool(self.reader.take(begin)):
            raise ValueError(f"a list of {len(tokens)} rows of {table}")
        for token, of in zip(tokens, self.reader.listed(read, end) if tokens else [], strict=True):
            self.put(token, column, of.__contains__)

    def interfaces(self):
        self.listed("InterfaceImpl", "Interface", self.token, self.reader.types, " implements ", r"(?= \{|$)")

    def generic_params(self):
        left = iter(self.rows.referring["GenericParam", self.token])
        self.listed("GenericParam", "Name", self.token, lambda: self.generic_param(next(left)), "<", ">")

    def generics_of_method(self):
        """The number of generic parameters of a method. Those of a method without the byte for them have no list."""
        if not self.reader.take(r"(?=<)"):
            return 0
        self.generic_params()
        return len(self.rows.referring["GenericParam", self.token])

    def generic_param(self, token):
        """A generic parameter: the words of its flags, its constraints, and its name, which is returned in a list."""
        self.put(token, "Flags", self.flags("GenericParam.Flags", self.reader.take(GENERIC_WORDS)[0].split()))
        self.listed("GenericParamConstraint", "Constraint", token, self.reader.types, r"\(", r"\) ")
        return [plain(self.reader.want(WORD)[0])]

    def refer(self, column):
        """A reference to one of several rows, in the tables of a column."""
        is_named = re.compile(f"{PATH}(?:::{MEMBER})?$").match(self.reader.text, self.reader.at)
        of_param = self.table == "CustomAttribute" and column == "Parent" and self.reader.take(r"param \[([0-9]+)\] of ")
        if of_param:
            tokens = [it for method in self.reader.reference() for it in self.rows.positions.get((method, int(of_param[1])), [])]
        elif self.table == "CustomAttribute" and column == "Parent" and (token := self.reader.take(f"{TOKEN}$")):
            tokens = [token[0]]
        elif column in TYPES:
            tokens = self.reader.types()
        elif column in REFERENCES or self.table == "CustomAttribute" and not is_named:
            tokens = self.reader.reference()
        else:
            tokens = self.reader.named()
        kind, only = KINDS[NUMBERS[self.table], column], self.above if column == "Association" else self.given
        tables, self.given = CODED.get(kind, (0, kind))[1].split(), None
        self.put(self.token, column, [it for it in tokens if table_of(it) in tables and only in (None, it)].__contains__)

    def method(self):
        """The method of a parameter."""
        self.put(self.token, "owner", self.reader.reference().__contains__)

    def declaration(self):
        is_property = self.table == "Property"
        generics = self.generics_of_method if self.table == "MethodDef" else int
        self.matching("Type" if is_property else "Signature", self.reader.signature(self.member, PROPERTY if is_property else 0, generics))
        self.rows.params[self.token] = len(self.reader.params) if self.table == "MethodDef" else 0
        for position, (found, name) in enumerate(self.reader.params if self.table == "MethodDef" else (), 1):
            if found or name:
                token = self.rows.keyed["Param", (self.token, position)]["token"]
                for column, value in {"Sequence": position, "Name": name, "Flags": self.flags("Param.Flags", found), "owner": self.token}.items():
                    self.put(token, column, value)

    def member(self):
        """The name of a member, and the type that has it: its name is that of the type above."""
        self.reader.qualified()
        owners, above = self.reader.owners, self.above
        self.put(self.token, "Name", self.reader.name)
        self.put(self.token, "owner", lambda value: value == above and value in owners)

    def parent(self):
        """The parent of a MemberRef; a method stands for its type."""
        owners, rows = self.reader.owners, self.rows
        self.put(self.token, "Class", lambda value: rows.owners.get(value, value) in owners)

    def value(self):
        self.matching("Value", self.reader.value())

    def matching(self, column, pattern):
        self.put(self.token, column, lambda value: matches(pattern, value))

    def constant(self):
        of, value = self.reader.constant()
        token = self.describing("Constant")
        self.put(token, "Value", value.hex())
        if of is not None:
            self.put(token, "Type", of)
