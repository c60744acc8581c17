"""The rows that `clim show --json` prints, and those that a name stands for (ECMA-335 II.5.3, II.22)."""

import json
import re
from collections import defaultdict

from notation import NAME, TYPE, WORD, plain
from rows import KINDS, LISTS
from walk import CODED, NUMBERS, TABLES

# The number of types of a chain that a name has.
DEPTH = 64
# The columns by which a row refers to the one that it describes. Of several such rows the first one counts.
KEYS = {"Constant": "Parent", "FieldMarshal": "Parent", "ClassLayout": "Parent", "FieldLayout": "Field", "FieldRVA": "Field"}
KEYS |= {"NestedClass": "NestedClass", "Param": "Sequence"}
# The columns of the rows that are lists in the head of another row.
HEADS = {"InterfaceImpl": "Class", "GenericParam": "Owner", "GenericParamConstraint": "Owner"}
# A signature whose text does not say where a TypeSpec ends. No compiler is known to write one.
UNCLEAR = re.compile("(?:class|valuetype) 1b")
# The tables of members, and of other rows with a name.
MEMBERS, OTHERS = ("Field", "MethodDef", "Event", "Property", "MemberRef"), ("AssemblyRef", "ModuleRef", "File", "ExportedType", "GenericParam")


def table_of(token):
    return TABLES[int(token[:2], 16)][0]


def names_of_type(text):
    """The namespace and the name of a type."""
    space, name = re.fullmatch(rf"(?:({NAME})\.)?({WORD})", text).groups()
    return plain(space or ""), plain(name)


def matches(pattern, value):
    """Whether a pattern matches the bytes of a cell, if they are a signature or a blob."""
    return value is not None and bool(re.fullmatch(pattern, bytes.fromhex(value["blob"] if isinstance(value, dict) else value), re.DOTALL))


class Rows:
    """The rows by their tables. A member has its owner as a cell. Of some rows it is said why their lines are not clear."""

    def __init__(self, lines):
        self.tables, self.owners, self.keyed, self.unclear = {name: [] for name in NUMBERS}, {}, {}, {}
        self.named, self.known, self.params, self.positions = {}, {}, {}, {}
        for value in map(json.loads, lines):
            self.tables[value["table"]].append(value)
        for number, column in KINDS:
            if column in LISTS:
                self.read_list(self.tables[TABLES[number][0]], column, self.tables[LISTS[column]])
        for row in self.tables["Param"]:
            self.positions.setdefault((row["owner"], row["Sequence"]), []).append(row["token"])
        for row in (row for table in KEYS for row in self.tables[table]):
            self.keyed.setdefault((row["table"], self.key(row)), row)
        self.referring = defaultdict(list)
        for row in (row for table in HEADS for row in self.tables[table]):
            self.referring[row["table"], row[HEADS[row["table"]]]].append(row["token"])
        nested = [row["NestedClass"] for row in self.tables["NestedClass"]]
        self.is_nested_in_order = nested == sorted(nested)
        for key, row in (it for part in (self.type_names(), self.other_names(), self.member_names()) for it in part):
            self.named.setdefault(key, []).append(row["token"])

    def read_list(self, owners, column, members):
        """The owner of each member: a type instead of its row of EventMap or PropertyMap."""
        for row, end in zip(owners, [row[column] for row in owners[1:]] + [len(members) + 1]):
            for member in members[row[column] - 1:end - 1]:
                member["owner"] = self.owners[member["token"]] = row.get("Parent", row["token"])

    def type_names(self):
        return ((self.path(row["token"]), row) for row in self.tables["TypeDef"] + self.tables["TypeRef"])

    def other_names(self):
        return ((row.get("Name") if "Name" in row else (row["TypeNamespace"], row["TypeName"]), row) for table in OTHERS for row in self.tables[table])

    def member_names(self):
        """The type or the module of each member, and its name. A MemberRef of a method is named after the type of that."""
        for row in (row for table in MEMBERS for row in self.tables[table]):
            if row["table"] != "Event" and UNCLEAR.search(row.get("Signature", row.get("Type"))["text"]):
                self.unclear[row["token"]] = "a TypeSpec follows class or valuetype, and it is not clear where it ends"
            yield (row["owner"] if "owner" in row else self.owners.get(row["Class"], row["Class"]), row["Name"], "member"), row

    def key(self, row):
        """What a row describes: the token of a row, or a method and the position of a parameter."""
        value = row[KEYS[row["table"]]]
        return (row["owner"], value) if row["table"] == "Param" else value

    def row(self, token):
        return self.tables[table_of(token)][int(token[2:], 16) - 1]

    def is_unclear(self, row):
        """Why the line of a row, or of one that it refers to, is not clear, if it is not. A parameter is named by its method."""
        tokens = [it for it in row.values() if isinstance(it, str)]
        owners = [self.owners.get(it) for it in tokens]
        return next((self.unclear[it] for it in tokens + owners if it in self.unclear), None)

    # ---- types

    def outer(self, token):
        """The type that encloses another, if there is one."""
        if table_of(token) == "TypeRef":
            scope = self.row(token)["ResolutionScope"]
            return scope if scope and table_of(scope) == "TypeRef" else None
        nested = self.keyed.get(("NestedClass", token)) if self.is_nested_in_order else None
        return nested and nested["EnclosingClass"]

    def path(self, token):
        """The names of a type and of those that enclose it. Of a long chain the outermost ones are left out."""
        names = []
        while token and len(names) < DEPTH:
            names.insert(0, (self.row(token)["TypeNamespace"], self.row(token)["TypeName"]))
            token = self.outer(token)
        return (*([None] if token else []), *names)

    def scope(self, token):
        """The assembly or the module that a TypeRef is in, if it is another one (II.7.3)."""
        table = None
        for _ in range(DEPTH):
            if token and table_of(token) == "TypeRef":
                table, token = "TypeRef", self.row(token)["ResolutionScope"]
        return token if table and token and table_of(token) in ("AssemblyRef", "ModuleRef") else None

    def scopes(self, text):
        """What a scope in brackets stands for; without one it is this module."""
        if not text:
            return [None]
        return self.others(text[9:-1], "ModuleRef") if text.startswith("[.module ") else self.others(text[1:-1], "AssemblyRef")

    def types(self, text, scope=None):
        """The rows of TypeDef and TypeRef with a path, in a scope."""
        if (text, scope) not in self.known:
            path, scopes = tuple(None if it == ".." else names_of_type(it) for it in re.findall(rf"\.\.|{TYPE}", text)), self.scopes(scope)
            self.known[text, scope] = [it for it in self.named.get(path, []) if self.scope(it) in scopes]
        return self.known[text, scope]

    def specs(self, text, pattern):
        """The rows of TypeSpec with a text, whose signatures a pattern matches."""
        if (text,) not in self.known:
            self.known[text,] = [row["token"] for row in self.tables["TypeSpec"] if matches(pattern, row["Signature"])]
        return self.known[text,]

    def index(self, token):
        """The number of a type in a signature (II.23.2.8)."""
        return int(token[2:], 16) << 2 | CODED["TypeDefOrRef"][1].split().index(table_of(token))

    # ---- other rows

    def others(self, text, table=""):
        """The rows of other tables, or of one, with a name. `..` stands for an assembly."""
        if text == "..":
            return [row["token"] for row in self.tables["Assembly"]]
        found = self.named.get(plain(text), []) if re.fullmatch(NAME, text) else []
        found = found + (self.named.get(names_of_type(text), []) if re.fullmatch(TYPE, text) else [])
        return [it for it in found if table in ("", table_of(it))]

    def members(self, owners, name, pattern=None):
        """The members of some types or modules with a name, and with a signature if it is given."""
        found = [it for owner in owners for it in self.named.get((owner, name, "member"), [])]
        return found if pattern is None else [it for it in found if matches(pattern, self.row(it).get("Signature", self.row(it).get("Type")))]
