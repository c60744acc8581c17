"""What an assembly declares, read from the output of monodis."""

import re
from collections import defaultdict

from texts import ACCESSORS, CODE, Quoted, flags_of, marshalled, no_kinds, opening, ordered, plain, split_list, split_outside, values_of

# The words that monodis has for flags.
WORDS = {
    "privatescope": "compilercontrolled", "requiresecobj": "reqsecobj", "export": "unmanagedexp", "winapi": "platformapi",
    "fwdref": "forwardref",
}
# The characters that it writes as a letter after a backslash in a constant text.
CONTROLS = dict(zip("abfnrtv", "\a\b\f\n\r\t\v"))
# Words for bits that the standard does not name.
UNNAMED = {"agressive-inlining", "bestfit:on", "bestfit:off", "charmaperror:on", "charmaperror:off"}


def declared(text):
    """The declarations as texts, by the name of a type and the kind. The name '' has what belongs to no type."""
    return Reader(text).declared


def unescaped(text):
    """A text with the characters before which monodis writes a backslash."""
    return re.sub(r"\\(.)", r"\1", text)


def unescaped_text(text):
    """A constant text with the characters that monodis escapes."""
    return re.sub(r"\\(.)", lambda match: CONTROLS.get(match[1], match[1]), text)


class Type:
    """A type that is open: its name, and the names of its generic parameters."""

    def __init__(self, name, params):
        self.name, self.params = name, params


def standard(text):
    """A text with the words of the standard for flags."""
    return " ".join(WORDS.get(it, it) for it in text.split() if it not in UNNAMED)


def utf_16(digits):
    """The text whose bytes are given in hexadecimal, or no text."""
    return bytes.fromhex(digits[1]).decode("utf-16-le") if digits else ""


def numbered(text, mark, names):
    """A text with the numbers of generic parameters for their names."""
    for name in sorted(names, key=len, reverse=True):
        text = re.sub(rf"(?<!!){mark}{re.escape(name)}(?![\w`])", f"{mark}{names.index(name)}", text)
    return text


def bare_param(text):
    """A parameter with its flags as the program has them, and without the name that monodis gives to one that has none."""
    flags = re.match(r"(\[(in|out|opt)\]\s*)*", text)[0]
    words = "".join(f"[{it}] " for it in ("in", "out", "opt") if f"[{it}]" in flags)
    return words + re.sub(r" A_\d+$", "", text[len(flags):])


class Reader:
    """Reads the lines one by one, and keeps which types are open."""

    def __init__(self, text):
        self.quoted, self.declared = Quoted(r"'((?:[^'\\]|\\.)*)'", unescaped), defaultdict(list)
        self.lines = (self.quoted.hide(it) for it in text.splitlines())
        self.namespace, self.types = "", []
        for line in self.lines:
            self.read(line.strip())

    def until(self, text, end):
        """A text and what follows it, to the next line that begins or ends with another text."""
        for line in self.lines:
            line = line.strip()
            text += f" {line}"
            if line.startswith(end) or line.endswith(f" {end}"):
                break
        return text.rstrip().removesuffix(end).rstrip() if text.rstrip().endswith(end) else text

    def read(self, line):
        word, _, tail = line.partition(" ")
        if word == ".namespace":
            self.namespace = f"{self.quoted.show(tail)}."
        elif word == ".class" and not tail.startswith("extern "):
            self.read_class(tail if tail.endswith("{") else self.until(tail, "{"))
        elif line.startswith("} // end of class"):
            self.types.pop()
        elif word == ".field":
            self.read_field(tail)
        elif word == ".method":
            self.read_method(self.until(tail, "{"))
        elif word in (".event", ".property"):
            self.read_mapped(word[1:], tail)
        elif word in (".class", ".module", ".assembly", ".mresource", ".file"):
            self.read_manifest(word, tail)
        elif line == "}" and not self.types:
            self.namespace = ""

    def show(self, text, methods=()):
        """A text with numbers for the names of the generic parameters of the open type and of a method."""
        types = self.types[-1].params if self.types else []
        return numbered(numbered(self.quoted.show(plain(text)), "!!", [*methods]), "!", types)

    def add(self, kind, text, name=None):
        name = name if name is not None else self.types[-1].name if self.types else "<Module>"
        self.declared[name, kind].append(plain(text))

    def add_params(self, owner, text, of_method=False):
        """Adds the generic parameters of a type or a method, and returns their names."""
        params = [split_outside(it, " ") for it in split_list(text)]
        names = [self.quoted.show(it[-1]) for it in params]
        if not of_method:
            self.types[-1].params = names
        for *parts, name in params:
            shown = sorted(no_kinds(self.show(it, names)) for it in parts)
            self.add("generic parameter in the head", " ".join([*shown, self.quoted.show(name)]) + f" of {owner}" * of_method)
            flags = sorted(it for it in parts if not it.startswith("("))
            self.add("generic parameter", f"{' '.join([*flags, self.quoted.show(name)])} of {owner}")
            for it in [it for part in parts if part.startswith("(") for it in split_list(part[1:-1])]:
                self.add("constraint", f"{no_kinds(self.show(it, names))} of {owner}")
        return names

    def read_class(self, text):
        head, _, interfaces = text.removesuffix("{").partition(" implements ")
        head, _, extends = head.partition(" extends ")
        flags, head = flags_of(head)
        # The string format of a type always has a word.
        if not {"ansi", "unicode"} & {*flags.split()}:
            flags = ordered(flags.replace("auto", "autochar", 1))
        name, _, params = head.strip().partition("<")
        name = self.quoted.show(name)
        self.types.append(Type(f"{self.types[-1].name}/{name}" if self.types else f"{self.namespace}{name}", []))
        self.add_params(name, params[:-1])
        self.add("class", f"{flags} extends {no_kinds(self.show(extends))}")
        for it in split_list(interfaces):
            for kind in ("interface", "interface in the head"):
                self.add(kind, no_kinds(self.show(it)))

    def read_field(self, text):
        values = [*values_of(text, unescaped_text)]
        text = re.split(r" = | at [A-Z]_", re.sub(r"^\[\d+\] ", "", text))[0].strip()
        flags, tail = flags_of(text, WORDS)
        tail, how = marshalled(tail)
        flags, tail = flags_of(f"{flags} {tail}")
        of, _, name = tail.strip().rpartition(" ")
        if how:
            self.add("marshal", self.quoted.show(f"{how} of {name}"))
        self.add("field", f"{flags} {self.show(of)} {self.quoted.show(name)}")
        for value in values:
            self.add("value", self.quoted.show(f"{value} of {name}"))

    def read_method(self, text):
        imported = re.search(r'pinvokeimpl \("(.*?)" as "(.*?)"([^)]*)\)', text)
        text, how = marshalled(text)
        flags, tail = flags_of(re.sub(r"pinvokeimpl \([^)]*\)", "pinvokeimpl", text), WORDS)
        code = CODE.search(tail)
        start = opening(tail, code.start())
        head, params = tail[:start].rstrip(), ""
        if head.endswith(">"):
            at = opening(head, len(head) - 1)
            head, params = head[:at], head[at + 1:-1]
        of, _, name = head.rpartition(" ")
        name = self.quoted.show(name)
        names = self.add_params(name, params, of_method=True)
        arity = f"<[{len(names)}]>" if names else ""
        typed = ", ".join(bare_param(it) for it in split_list(tail[start + 1:code.start()]))
        declared = f"{self.show(of, names)} {name}{arity}({self.show(typed, names)})"
        self.add("method", f"{flags} {declared} {ordered(standard(code[1]))}")
        if how:
            self.add("marshal", f"{how} of {name}")
        if imported:
            self.add("import", f"{imported[1]} as {imported[2]} {ordered(standard(imported[3]))} of {name}")
        self.read_body(name, names)

    def read_body(self, name, names):
        """Goes to the end of a method, and adds what it overrides."""
        for line in self.lines:
            if line.startswith(("    } // end of method", "    } // end of global method")):
                return
            if line.startswith("\t.override"):
                owner, _, member = line.strip().removeprefix(".override ").rpartition("::")
                member = self.quoted.show(re.split(r"[(<]", member)[0])
                # The type of the result comes before the owner.
                owner = split_outside(no_kinds(owner), " ")[-1]
                self.add("override", f"{no_kinds(self.show(owner, names))}::{member} with {name}")

    def read_mapped(self, kind, text):
        """A property or an event, and its accessors."""
        flags, tail = flags_of(text)
        head, params = tail.rstrip(), ""
        if kind == "property":
            start = opening(head, len(head) - 1)
            head, params = head[:start].rstrip(), head[start:]
        of, _, name = head.rpartition(" ")
        name = self.quoted.show(name)
        self.add(kind, f"{flags} {self.show(of)} {name}{self.show(params)}")
        for line in iter(lambda: next(self.lines).strip(), "}"):
            word = line.partition(" ")[0]
            if word in ACCESSORS:
                called = self.quoted.show(re.split(r"[ (<]", line.rpartition("::")[2])[0])
                self.add(f"accessor of {kind}", f"{word} {called} of {name}")

    def read_manifest(self, word, text):
        kind = f"{word[1:]} extern" if text.startswith("extern ") else word[1:]
        text = text.removeprefix("extern ").partition(" //")[0]
        if word == ".assembly":
            text = self.assembly(text)
        elif kind == "class extern":
            of = re.search(r"\.(?:assembly extern|class extern|file) (\S+)", self.until("", "}"))[1]
            flags, name = flags_of(text)
            is_forwarder = "forwarder " if "forwarder" in flags.split() else ""
            text = f"{is_forwarder}{self.quoted.show(name)} in {self.quoted.show(of)}"
        elif word == ".mresource":
            self.until("", "}")
        elif word == ".file":
            text = text.partition(" .hash")[0]
        self.add(kind, self.quoted.show(text), "")

    def assembly(self, name):
        """The name of an assembly, its version, its culture and its key."""
        lines = [re.sub(r" *//.*", "", it) for it in iter(lambda: next(self.lines), "}")]
        text = "".join(lines)
        version = re.search(r"\.ver +([\d:]+)", text)
        culture = re.search(r"\.locale +([\w-]+)", text)
        culture = culture[1] if culture else utf_16(re.search(r"\.locale +\(([^)]*)\)", text))
        key = re.search(r"\.(publickey\w*) = *\(([^)]*)\)", text)
        words = [key[1], re.sub(r"\s", "", key[2]).lower()] if key else []
        return " ".join([name, version[1], culture, *words])
