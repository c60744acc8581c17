"""Reads what `clim outline` prints: names (ECMA-335 II.5.3), types and members (II.7.1, II.15.3), values (II.16.2, II.21).

A signature becomes a pattern of its bytes (II.23.2), since a name may stand for several rows, and a length has several forms.
"""

import re

from outline import unescaped

ID = r"[A-Za-z_$@`?][A-Za-z0-9_$@`?]*"
NAME, WORD = rf"(?:'[^']*'|{ID}(?:\.{ID})*)", rf"(?:'[^']*'|{ID})"
TYPE = rf"(?:(?:{NAME}\.)?{WORD})"
# Types that enclose one another. Of a long chain the outermost ones are left out.
PATH = rf"(?:\.\.|{TYPE})(?:/{TYPE})*"
# The scope of a type of another module (II.7.3).
SCOPE = rf"\[(?:\.module )?{NAME}\]"
MEMBER = rf"(?:\.c?ctor(?![A-Za-z0-9_$@`?.])|{NAME})"
HEX, TEXT = "((?:[0-9a-f]{2})*)", r'"((?:\\.|[^"\\])*)"'
# The words for types of one byte in signatures (II.23.1.16) and in values (II.23.3), and the bytes of a number.
CODES = dict(zip("void bool char int8 uint8 int16 uint16 int32 uint32 int64 uint64 float32 float64 string".split(), range(1, 15)))
CODES = {it.replace("uint", "unsigned int"): number for it, number in CODES.items()}
CODES |= {"typedref": 0x16, "native int": 0x18, "native unsigned int": 0x19, "object": 0x1C}
IN_VALUES, MEMBERS = CODES | {"type": 0x50, "object": 0x51}, {"field": 0x53, "property": 0x54}
SIZES = {it: int(re.search(r"\d+$", it)[0]) // 8 for it in CODES if it[-1].isdigit()} | {"bool": 1, "char": 2}
NO_ARRAY = b"\xff" * 4
WORDS = "|".join(sorted(IN_VALUES, key=len, reverse=True))
# The other codes of signatures (II.23.1.16, II.23.2.3), and calling conventions by their codes.
VALUETYPE, CLASS, VAR, GENERICINST, FNPTR, MVAR, SENTINEL, FIELD, PROPERTY, GENERIC = 0x11, 0x12, 0x13, 0x15, 0x1B, 0x1E, 0x41, 0x06, 0x08, 0x10
MARKS, MODIFIERS = {"*": 0x0F, "&": 0x10, "[]": 0x1D, "[": 0x14}, {"modreq": 0x1F, "modopt": 0x20}
CONVENTIONS = ["", *(f"unmanaged {it} " for it in ("cdecl", "stdcall", "thiscall", "fastcall")), "vararg ", None, None, None, "unmanaged "]


def plain(word):
    """A name without quotes and escapes."""
    return unescaped(word.strip("'"))


def code(*numbers):
    """The pattern of some bytes."""
    return re.escape(bytes(numbers))


def one_of(patterns):
    """The pattern of one of several; nothing matches that of none."""
    return b"(?:" + (b"|".join(patterns) or b"(?!)") + b")"


def forms(number):
    """The patterns of all forms of a number, the shortest one first (II.23.2)."""
    sizes = (0x80, 1, 0), (0x4000, 2, 0x8000), (0x20000000, 4, 0xC0000000)
    return [re.escape((number | head).to_bytes(size, "big")) for end, size, head in sizes if number < end]


def signed(number):
    """The pattern of a number with a sign, which becomes the lowest bit."""
    index, bits = next(it for it in enumerate((7, 14, 29)) if -(1 << it[1] - 1) <= number < 1 << it[1] - 1)
    turned = (number << 1 | (number < 0)) & (1 << bits) - 1
    return forms(turned)[index - 3:][0]


class Reader:
    """Reads a text from a position on."""

    def __init__(self, text, rows):
        self.text, self.rows, self.at, self.is_inner = text, rows, 0, False

    def take(self, pattern):
        """What a pattern matches here, if it does."""
        found = re.compile(pattern).match(self.text, self.at)
        self.at = found.end() if found else self.at
        return found

    def want(self, pattern):
        found = self.take(pattern)
        if not found:
            raise ValueError(f"no {pattern} at {self.at}")
        return found

    def listed(self, read, end):
        items = []
        while not self.take(end):
            self.want(", " if items else "")
            items.append(read())
        return items

    # ---- types

    def types(self):
        """The rows of the type here: those with this name, or the TypeSpecs of this type."""
        start, found = self.at, self.take(f"({SCOPE})?({PATH})")
        if found and (types := self.rows.types(found[2], found[1])):
            return types
        if found and self.is_inner and found[0] == "..":
            return [row["token"] for row in self.rows.tables["TypeSpec"]]
        self.at, before, self.is_inner = start, self.is_inner, True
        pattern, self.is_inner = self.type(), before
        return self.rows.specs(self.text[start:self.at], pattern)

    def encoded(self):
        return one_of(forms(self.rows.index(it))[0] for it in self.types())

    def core(self):
        """A type without the marks after it."""
        if kind := self.take("(class|valuetype) "):
            named = code(CLASS if kind[1] == "class" else VALUETYPE) + self.encoded()
            if not self.take("<"):
                return named
            arguments = self.listed(self.type, ">")
            return code(GENERICINST) + named + forms(len(arguments))[0] + b"".join(arguments)
        if self.take("method "):
            return code(FNPTR) + self.signature(lambda: self.want(r"\*"))
        if variable := self.take(r"(!!?)(\d+)"):
            return code(MVAR if variable[1] == "!!" else VAR) + forms(int(variable[2]))[0]
        return code(CODES[self.want(WORDS)[0]])

    def type(self):
        """Of modifiers, the last one is the first one in the signature."""
        pattern, mark = self.core(), True
        while mark:
            modifiers = b""
            while kind := self.take(r" (modreq|modopt)\("):
                modifiers = code(MODIFIERS[kind[1]]) + self.encoded() + modifiers
                self.want(r"\)")
            mark = self.take(r"\*|&|\[\]?")
            pattern = (code(MARKS[mark[0]]) if mark else b"") + modifiers + pattern + (self.shape() if mark and mark[0] == "[" else b"")
        return pattern

    def shape(self):
        """The rank, the sizes and the lower bounds of an array (II.14.2, II.23.2.13)."""
        text, rank = self.want(r"([^]]*?)(?:,\.\.\. rank (\d+))?\]").groups()
        given = [re.fullmatch(r"(?:(-?\d+)\.\.\.)?(-?\d+)?", it).groups() for it in text.removeprefix("..." if text == "..." else "").split(",")]
        if any(after[part] and not before[part] for before, after in zip(given, given[1:]) for part in (0, 1)):
            raise ValueError("a dimension without a size or a bound before one that has it")
        sizes = [int(last) - int(first or 1) + 1 for first, last in given if last]
        low = [int(first) for first, _ in given if first]
        return b"".join(forms(it)[0] for it in [int(rank or len(given)), len(sizes), *sizes, len(low)]) + b"".join(map(signed, low))

    # ---- members

    def param(self):
        """The pattern of a parameter, the words of its flags, and its name."""
        sentinel = code(SENTINEL) if self.take(r"\.\.\., ") else b""
        words, of = self.take(r"(?:\[\w+\] )*")[0].split(), self.type()
        name = self.take(f" ({WORD})")
        return sentinel + of, words, plain(name[1]) if name else ""

    def signature(self, read_name, first=0, read_generics=int):
        """A method or a field (II.23.2.1 to II.23.2.4). The flags and the names of parameters are kept. Where a method is declared
        its generic parameters are read, and their number is returned.
        """
        first |= 0x20 * bool(self.take("instance ")) | 0x40 * bool(self.take("explicit "))
        first |= CONVENTIONS.index(self.take("vararg |unmanaged (?:(?:cdecl|stdcall|thiscall|fastcall) )?|")[0])
        result = self.type()
        self.want(" ")
        read_name()
        given = self.take(r"<\[(\d+)\]>")
        arity = int(given[1]) if given else read_generics()
        if not given and not arity and not self.take(r"(?=\()"):
            return code(FIELD | first) + result
        self.want(r"\(")
        params = self.listed(self.param, r"\)")
        self.params = [it[1:] for it in params]
        is_generic = bool(given or arity)
        counts = forms(arity)[:1] if is_generic else []
        return code(first | GENERIC * is_generic) + b"".join([*counts, forms(len(params))[0], result, *(it[0] for it in params)])

    def qualified(self):
        """The name of a member, and the rows of the type or the module before it."""
        start, found = self.at, self.take(f"({SCOPE})?({PATH})::")
        self.owners = self.rows.types(found[2], found[1]) if found else []
        if found and not found[1]:
            self.owners = self.owners + self.rows.others(found[2], "ModuleRef")
        if not self.owners:
            self.at = start
            self.owners = self.types()
            self.want("::")
        self.name = plain(self.want(MEMBER)[0])

    def reference(self):
        """The rows of members with this name and this signature."""
        pattern = self.signature(self.qualified)
        return self.rows.members(self.owners, self.name, pattern)

    def named(self):
        """The rows that a name without a signature stands for."""
        found = self.want(f"({SCOPE})?({PATH})(?:::({MEMBER}))?")
        types = self.rows.types(found[2], found[1])
        return self.rows.members(types, plain(found[3])) if found[3] else types + self.rows.others(found[2])

    # ---- values

    def element(self, word):
        """The pattern of a value after the word for its type. That of an object has a type of its own (II.23.3)."""
        if word == "object":
            return b"".join(self.argument())
        if word in ("string", "type"):
            text = unescaped(self.want(f"{TEXT}")[1]).encode() if not self.take("nullref") else None
            return code(0xFF) if text is None else one_of(it + re.escape(text) for it in forms(len(text)))
        if word == "bool":
            return code(self.want("true|false")[0] == "true")
        return re.escape(int(self.want("-?(?:0x[0-9a-f]+|[0-9]+)")[0], 0).to_bytes(SIZES[word], "little", signed=word[0] == "i"))

    def argument(self):
        """The patterns of the type of an argument and of its value."""
        word, count = self.want(rf"({WORDS})(?:\[(\d*)\])?\(").groups()
        of = code(*([MARKS["[]"]] if count is not None else []), IN_VALUES[word])
        if count is None:
            value = self.element(word)
        elif not count:
            self.want("nullref")
            value = code(*NO_ARRAY)
        else:
            value = re.escape(int(count).to_bytes(4, "little"))
            for index in range(int(count)):
                self.want(" " if index else "")
                value += self.element(word)
        self.want(r"\)")
        return of, value

    def value(self):
        """The pattern of the value of an attribute: `= (bytes)`, or the fixed and then the named arguments."""
        if found := self.take(rf" = \({HEX}\)"):
            return re.escape(bytes.fromhex(found[1]))
        self.want(r" = \{")
        fixed, named = b"", []
        while not self.take(r" \}"):
            if member := self.take(rf' (field|property) ((?:{WORDS})(?:\[\])?) (?="|nullref)'):
                name = self.element("string")
                self.want(" = (?=" + re.escape(member[2]).replace(r"\]", r"[0-9]*\]") + r"\()")
                named.append(code(MEMBERS[member[1]]) + b"".join([(argument := self.argument())[0], name, argument[1]]))
            else:
                self.want(" ")
                fixed += self.argument()[1]
        return code(1, 0) + fixed + re.escape(len(named).to_bytes(2, "little")) + b"".join(named)

    def constant(self):
        """The type and the bytes of a constant (II.22.9). The type is None if the text does not say it."""
        if self.take("nullref"):
            return CLASS, bytes(4)
        if found := self.take(rf"bytearray\({HEX}\)"):
            return None, bytes.fromhex(found[1])
        if found := self.take(TEXT):
            units = re.findall(r'\\u(....)|\\?(.)', found[1])
            return CODES["string"], b"".join((int(it, 16) if it else ord(char)).to_bytes(2, "little") for it, char in units)
        of, value = (re.sub(rb"\\(.)", rb"\1", it, flags=re.DOTALL) for it in self.argument())
        return of[0], value
