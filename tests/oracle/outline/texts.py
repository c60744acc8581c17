"""What both readers use: words of flags, brackets, and one way to write what the two outputs write differently."""

import re
import struct

# Words of flags (II.23.1). What follows them is a type or a name.
FLAGS = set(
    "private public family assembly famandassem famorassem compilercontrolled nested auto sequential explicit interface abstract "
    "sealed specialname import serializable ansi unicode autochar beforefieldinit rtspecialname forwarder static initonly literal "
    "notserialized pinvokeimpl final virtual hidebysig newslot strict unmanagedexp reqsecobj".split()
)
ACCESSORS = (".get", ".set", ".addon", ".removeon", ".fire", ".other")
# How a field, a parameter or a result is marshalled (II.7.4). Texts in quotes may contain brackets.
MARSHAL = re.compile(r' ?\bmarshal ?\(((?:[^()"]|"[^"]*"|\((?:[^()"]|"[^"]*")*\))*)\)')
# The words at the end of a method: what its code is (II.23.1.11).
CODE = re.compile(r"\)\s+((?:cil|native|runtime|optil)\b[^()]*)$")


class Quoted:
    """The quoted names of a text, each replaced by one character, so that they have no spaces and no brackets."""

    FIRST = 0xF0000

    def __init__(self, pattern, unescaped):
        """The pattern of a quoted name, whose group is what is between the quotes, and what that stands for."""
        self.pattern, self.unescaped, self.names, self.hidden = re.compile(pattern), unescaped, [], {}

    def hide(self, text):
        return self.pattern.sub(lambda match: chr(self.FIRST + self.index(self.unescaped(match[1]))), text)

    def index(self, name):
        if name not in self.hidden:
            self.hidden[name] = len(self.names)
            self.names.append(name)
        return self.hidden[name]

    def show(self, text):
        return re.sub(r"[\U000F0000-\U0010FFFD]", lambda match: self.names[ord(match[0]) - self.FIRST], text)


def flags_of(text, other={}):
    """The words of flags that begin a text, in alphabetical order, and what follows them. Another word stands for one."""
    words, tail = [], text.strip()
    while other.get(tail.partition(" ")[0], tail.partition(" ")[0]) in FLAGS:
        word, _, tail = tail.partition(" ")
        words.append(other.get(word, word))
        tail = tail.lstrip()
    return " ".join(sorted(words)), tail


def ordered(words):
    """The words of a text in alphabetical order."""
    return " ".join(sorted(words.split()))


def depths(text):
    """How many brackets enclose each character of a text. A bracket is outside of itself."""
    depth = 0
    for character in text:
        depth -= character in ")>]"
        yield depth
        depth += character in "(<["


def split_outside(text, separator):
    """The parts of a text between those of a separator that no bracket encloses."""
    cuts = [at for at, depth in enumerate(depths(text)) if text[at] == separator and depth == 0]
    return [text[start + 1:end].strip() for start, end in zip([-1, *cuts], [*cuts, len(text)])]


def split_list(text):
    """The parts of a list, none of which is empty."""
    return [it for it in split_outside(text, ",") if it]


def opening(text, end):
    """The index of the bracket that the one at an index closes."""
    enclosed = list(depths(text[:end + 1]))
    return max(at for at in range(end) if enclosed[at] == enclosed[end] and text[at] in "(<[")


def plain(text):
    """A text without `default`, and with spaces as the program has them."""
    text = re.sub(r"\bdefault ", "", text)
    text = re.sub(r" ?(modreq|modopt) ?\(", r" \1(", text).replace(") *", ")*")
    return re.sub(r",\s+", ",", re.sub(r"\s+", " ", text)).strip()


def no_kinds(text):
    """A text without the words for classes and value types."""
    return re.sub(r"\b(class|valuetype) ", "", text)


def marshalled(text):
    """A text without how its parts are marshalled, and how they are: in one way, after commas. Nothing is the empty text."""
    found = [re.sub(r"^custom \(", "custom(", it.strip()).replace("vbbyrefstr", "byvalstr") for it in MARSHAL.findall(text)]
    return MARSHAL.sub("", text), ", ".join(found)


def number_of(kind, digits):
    """The bits of a number in either notation, by its type."""
    if kind.startswith("float") and not digits.startswith("0x"):
        form, bits = ("<f", "<I") if kind == "float32" else ("<d", "<Q")
        return struct.unpack(bits, struct.pack(form, float(digits)))[0]
    return int(digits, 0) % 2 ** int(re.search(r"\d+$", kind)[0] if kind != "char" else 16)


def value_of(text, unescaped):
    """The value of a constant in one way, or None for bytes, as which monodis writes texts that are not ASCII."""
    number = re.match(r"(?:unsigned )?((?:int|float)\d+|char)\((.*)\)$", text)
    if number:
        return f"{number[1]} {number_of(*number.groups())}"
    value = unescaped(text[1:-1]) if text.startswith('"') else text
    return value if value.isascii() and not value.startswith("bytearray") else None


def values_of(text, unescaped):
    """What a field has beside its declaration: its offset, its constant, and the label of its data."""
    offset, (head, _, constant) = re.match(r"\[(\d+)\] ", text), text.partition(" = ")
    label = re.search(r" at (D_\w+)$", head)
    if offset:
        yield f"offset {offset[1]}"
    if constant and value_of(constant, unescaped) is not None:
        yield f"value {value_of(constant, unescaped)}"
    if label:
        yield f"data {label[1]}"
