"""Makes texts and user strings: plain names, and whatever could break a line, a terminal or a JSON value."""

import struct

PLAIN = [
    "", "a", "A", "Main", "System", "System.Object", "Object", "List`1", "Pair`2", ".ctor", ".cctor", "<Module>", "value__",
    "get_Item", "set_Item", "add_Moved", "T", "TKey", "mscorlib", "a.dll", "A.B", "A.B.C", "_x1", "Int32", "v4.0.30319",
]
# What has a meaning in the output, and so could be taken for a part of it.
LIKE_OUTPUT = [
    "fault 5 501 at 9: BadString", "\nfault 3 307 at 0: Forged", "table 02 TypeDef 9", '\n1: 0 "a" null', "ok", "equal", "nothing",
    '"},{"name":"x', '","text":"', "X extends System.Exception  // 02000099", "mscorlib { .ver 4:0:0:0 }  // 23000001", "null",
    "02000001", "70000001", "Module.Mvid", "  .method public void a()", "a | b", "a: b | c", "user a 0", "..", "\\x00", "\\u0041", "%s{}$1",
    "-", "--json", "A/B", "A+B", "a b", " ", "  ", "'", "'a'", "/*", "*/", "//",
]
# Characters that are written in their own way somewhere: in a text, in JSON, in ILAsm, or on a terminal.
ODD = [
    '"', "\\", "/", "'", "\t", "\n", "\r", "\b", "\f", "\x01", "\x1b", "\x1f", " ", "\x7f", "\x80", "\x85", "\x9b", "\xa0", "\xad", "é",
    "漢", "\u0600", "\u200e", "\u2028", "\u2029", "\u202e", "\ud7ff", "\ue000", "\ufeff", "\ufffd", "\uffff", "𝄞", "\U0010ffff", "`",
    ".", "<", ">", "{", "}", "[", "]", "(", ")", ",", "&", "*", "=", ":", ";", "$", "#", "+", "|", "!", "?", "@", "~",
]
# A text that is longer than what `outline` prints of a name, and the lengths of others.
LONGEST, LENGTHS = 70_000, (100, 127, 128, 129, 300, 4_096)
# One of this number of texts is long, and one of this number of long ones is longer than the limit.
LONG, VERY_LONG = 60, 8


def text(chance):
    """A text without a NUL, as bytes in UTF-8."""
    kind = chance.randrange(10)
    if kind < 5:
        found = chance.choice(PLAIN)
    elif kind < 7:
        found = chance.choice(LIKE_OUTPUT)
    else:
        found = "".join(chance.choice(ODD) if chance.randrange(2) else chance.choice(PLAIN) for _ in range(chance.randrange(1, 6)))
    if not chance.randrange(LONG):
        size = LONGEST if not chance.randrange(VERY_LONG) else chance.choice(LENGTHS)
        found = ((found or "x") * size)[:size]
    return found.encode()


class Texts:
    """Texts that come again and again, and new ones."""

    def __init__(self, chance):
        self.chance, self.known = chance, [text(chance) for _ in range(chance.randrange(1, 12))]

    def next(self):
        chance = self.chance
        if chance.randrange(4):
            return chance.choice(self.known)
        if chance.randrange(3):
            return text(chance)
        # An ending of a known text that begins with a character.
        known = chance.choice(self.known).decode()
        return known[chance.randrange(len(known) + 1):].encode()


def packed(number, chance=None):
    """A compressed number (II.23.2), sometimes in a longer form than it needs."""
    form = (number >= 0x80) + (number >= 0x4000)
    if chance and not chance.randrange(12):
        form = chance.randrange(form, 3)
    return (bytes([number & 0xFF]), struct.pack(">H", 0x8000 | number & 0x3FFF), struct.pack(">I", 0xC0000000 | number))[form]


def units(chance):
    """The UTF-16 code units of a user string: text, controls, and surrogates with and without a partner."""
    found = []
    for _ in range(chance.choice((0, 1, 1, 2, 3, 5, 8, 40))):
        kind = chance.randrange(8)
        if kind < 4:
            found.append(ord(chance.choice("ab c\\\"'/AZ09~")))
        elif kind < 5:
            found.append(chance.choice((0, 1, 8, 9, 10, 13, 0x1B, 0x1F, 0x7F, 0x80, 0x9B, 0xA0, 0xFF)))
        elif kind < 6:
            found.append(chance.choice((0x100, 0x2028, 0x202E, 0x6F22, 0xD7FF, 0xE000, 0xFEFF, 0xFFFD, 0xFFFE, 0xFFFF)))
        elif kind < 7:
            found += [chance.randrange(0xD800, 0xDC00), chance.randrange(0xDC00, 0xE000)]
        else:
            found.append(chance.randrange(0xD800, 0xE000))
    return found


def user_heap(chance):
    """A heap of user strings (II.24.2.4). Some entries have no bytes, and some have no last byte or a length past the end."""
    heap = bytearray(b"\0")
    for _ in range(chance.choice((0, 1, 2, 4, 12))):
        found = units(chance)
        entry = b"" if not chance.randrange(10) else struct.pack(f"<{len(found)}H", *found) + bytes([chance.choice((0, 0, 1, 1, 2, 255))])
        if not chance.randrange(40):
            entry = entry[:-1]
        heap += packed(len(entry) + (200 if not chance.randrange(60) else 0), chance) + entry
    if not chance.randrange(4):
        heap += chance.choice((b"\xff", b"\xe0", b"\x80", b"\x01", b"\x03a", bytes(7), b"\xc0\0"))
    return bytes(heap)
