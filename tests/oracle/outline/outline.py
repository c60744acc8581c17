"""What an assembly declares, read from the output of `clim outline`."""

import re
from collections import defaultdict

from texts import ACCESSORS, CODE, Quoted, flags_of, marshalled, no_kinds, opening, ordered, plain, split_list, split_outside, values_of


def declared(text):
    """The declarations as texts, by the name of a type and the kind. The name '' has what belongs to no type."""
    return Reader(text).declared


def unescaped(text):
    """A text with the characters that the program escapes, byte by byte in UTF-8."""
    return re.sub(r"(\\x[0-9a-f]{2})+", lambda match: bytes.fromhex(match[0].replace("\\x", "")).decode(), text)


def unescaped_units(text):
    """A constant text with the characters that the program escapes."""
    text = re.sub(r"\\u([0-9a-f]{4})", lambda match: chr(int(match[1], 16)), text.replace(r"\"", '"'))
    return text.encode("utf-16", "surrogatepass").decode("utf-16", "replace")


def without_layout(text):
    """A type without the packing and the size of its layout."""
    return re.sub(r" \{ \.pack \d+ \.size \d+ \}$", "", text)


def without_values(text):
    """A member without its offset, its constant and the address of its data."""
    return re.split(r" = | at D_", re.sub(r"^\[\d+\] ", "", text))[0]


def method_of(text):
    """The name of a method after that of its type, from a reference with its signature."""
    head = re.sub(r"<\[\d+\]>$", "", text[:opening(text, len(text) - 1)])
    return split_outside(no_kinds(head), " ")[-1]


def without_generics(text):
    """A method with the number of its generic parameters for them, and these."""
    start = opening(text, len(text) - 1)
    head = text[:start]
    if not head.endswith(">") or head.endswith("]>"):
        return text, []
    at = opening(head, len(head) - 1)
    params = split_list(head[at + 1:-1])
    return f"{head[:at]}<[{len(params)}]>{text[start:]}", params


class Reader:
    """Reads the lines one by one. A type is followed by its members."""

    def __init__(self, text):
        # No escape between quotes contains a quote.
        self.quoted = Quoted("'([^']*)'", unescaped)
        self.declared, self.type, self.mapped, self.owners = defaultdict(list), "", "", {}
        for line in text.splitlines():
            line, _, self.token = self.quoted.hide(line).rpartition("  // ")
            # monodis prints this in the body.
            self.read(line.removesuffix(" .entrypoint"))

    def add(self, kind, text):
        self.declared[self.quoted.show(self.type), kind].append(plain(self.quoted.show(text)))

    def read(self, line):
        word, _, tail = line.strip().partition(" ")
        if word == ".class" and not tail.startswith("extern "):
            self.read_class(tail)
        elif line.startswith("  "):
            self.read_member(word, tail)
        elif word == ".param":
            self.read_param(tail)
        elif word == ".interfaceimpl":
            self.type, _, interface = tail.removeprefix("type ").partition(" implements ")
            self.add("interface", no_kinds(interface))
        elif word == ".override":
            self.read_override(tail)
        elif word.startswith(".pinvokeimpl"):
            self.read_import(line)
        elif word not in (".custom", ".permissionset"):
            self.read_manifest(line)

    def read_class(self, text):
        flags, tail = flags_of(text)
        head, _, interfaces = without_layout(tail).partition(" implements ")
        head, _, extends = head.partition(" extends ")
        self.type, _, params = head.partition("<")
        # monodis does not print the type of what belongs to no type.
        if self.quoted.show(self.type) != "<Module>":
            self.add("class", f"{flags} extends {no_kinds(extends)}")
        self.add_in_head(split_list(params[:-1]))
        for it in split_list(interfaces):
            self.add("interface in the head", no_kinds(it))

    def add_in_head(self, params, of=""):
        """Adds the generic parameters of a type or a method."""
        for it in params:
            *parts, name = split_outside(it, " ")
            self.add("generic parameter in the head", " ".join([*sorted(no_kinds(it) for it in parts), name]) + of)

    def own(self, text):
        """A text without the type before the name of its member."""
        return f" {text}".replace(f" {self.type}::", " ", 1).strip()

    def read_member(self, word, text):
        declared, how = marshalled(without_values(text))
        flags, tail = flags_of(declared)
        if word in ACCESSORS:
            called, _, of = text.rpartition(" of ")
            called, of = (it.rpartition("::")[2] for it in (method_of(called), of))
            self.add(f"accessor of {self.mapped}", f"{word} {called} of {of}")
            return
        self.mapped = word[1:]
        if word == ".method":
            code = CODE.search(tail)
            called, params = without_generics(tail[:code.start() + 1])
            name = method_of(called).rpartition("::")[2]
            self.add("method", f"{flags} {self.own(called)} {ordered(code[1])}")
            self.add_in_head(params, f" of {name}")
            self.add_marshal(how, name)
        else:
            self.add(word[1:], f"{flags} {self.own(tail)}")
            self.add_marshal(how, self.own(tail).rpartition(" ")[2])
        for value in values_of(text, unescaped_units) if word == ".field" else ():
            self.add("value", f"{value} of {self.own(tail).rpartition(' ')[2]}")

    def add_marshal(self, how, name):
        if how:
            self.add("marshal", f"{how} of {name}")

    def go_to(self, owner):
        """Goes to the type of a method, or to a type, and returns the name of the method, or the last one of the type."""
        self.type, _, member = owner.rpartition("::") if "::" in owner else (owner, "", re.split(r"[./]", owner)[-1])
        return member

    def read_param(self, text):
        if text.startswith("type "):
            head, _, owner = text.removeprefix("type ").rpartition(" of ")
            *flags, name = head.rpartition(" [")[0].split()
            self.owners[self.token] = owner
            self.add_of(owner, "generic parameter", " ".join([*sorted(flags), name]))
        elif text.startswith("constraint "):
            of, _, constraint = text.removeprefix("constraint ").partition(", ")
            self.add_of(self.owners[of.rpartition(" ")[2]], "constraint", no_kinds(constraint))

    def add_of(self, owner, kind, text):
        name = self.go_to(owner)
        self.add(kind, f"{text} of {name}")

    def read_override(self, text):
        text, _, self.type = text.rpartition(" in ")
        declaration, _, body = text.partition(" with ")
        self.add("override", f"{method_of(declaration)} with {method_of(body).removeprefix(f'{self.type}::')}")

    def read_import(self, line):
        library, entry, words, owner = re.match(r'\.pinvokeimpl\("(.*)" as "(.*)"(.*)\) of (.*)', line).groups()
        self.add_of(owner, "import", f"{library} as {unescaped(entry)} {ordered(words)}")

    def read_manifest(self, line):
        self.type = ""
        if line.startswith(".assembly"):
            kind, name, version, tail = re.match(r"\.(assembly(?: extern)?) (.*) \{ (?:\.hash algorithm \w+ )?\.ver (\S+)(.*) \}", line).groups()
            culture = re.search(r'\.culture "(.*?)"', tail)
            key = re.search(r"\.(publickey\w*) = \((\w+)\)", tail)
            self.add(kind, " ".join([name, version, culture[1] if culture else "", *(key.groups() if key else [])]))
        elif line.startswith(".class extern"):
            flags, name = flags_of(line.removeprefix(".class extern "))
            name, _, of = name.partition(" in ")
            is_forwarder = "forwarder " if "forwarder" in flags.split() else ""
            self.add("class extern", f"{is_forwarder}{name} in {of.partition(' ')[2]}")
        else:
            kind, text = re.match(r"\.(\w+(?: extern)?) (.*)", line).groups()
            self.add(kind, text.partition(" /* ")[0])
