"""Makes signatures of all kinds (II.23.2), in this profile of the grammar: what `check` accepts, and no more."""

from made_texts import packed

VOID, BYREF, ARRAY, GENERICINST, TYPEDBYREF, FNPTR = 0x01, 0x10, 0x14, 0x15, 0x16, 0x1B
PTR, VALUETYPE, CLASS, VAR, SZARRAY, MVAR = 0x0F, 0x11, 0x12, 0x13, 0x1D, 0x1E
CMOD_REQD, CMOD_OPT, SENTINEL, PINNED = 0x1F, 0x20, 0x41, 0x45
SIMPLE = [*range(0x02, 0x0F), 0x18, 0x19, 0x1C]
FIELD, LOCALS, INSTANCE, PROPERTIES = 6, 7, 10, (0x08, 0x28)
# The kinds of calls; those in which arguments can be varied have a sentinel.
KINDS, VARIED = (0, 0, 0, 0, 1, 2, 3, 4, 5, 5, 9), (1, 5)
# The tables of a coded index TypeDefOrRef, and the bits of its tag.
TYPES, TAG_BITS = (0x02, 0x01, 0x1B), 2
# The deepest type, and how deep types are as a rule.
DEEPEST, DEPTH = 128, 4
# Numbers at the limits of the forms in which they are written.
NUMBERS = (0, 0, 1, 1, 2, 3, 0x7F, 0x80, 0x3FFF, 0x4000, 0x1FFFFFFF)
LOW_BOUNDS = (0, 0, 1, -1, 3, -3, 63, 64, -64, -65, 8191, 8192, -8192, -8193, 0x0FFFFFFF, -0x10000000)


def signed(number):
    """A compressed signed number (II.23.2)."""
    bits = 7 if -64 <= number < 64 else 14 if -8192 <= number < 8192 else 29
    low = number & (1 << bits) - 1
    turned = (low << 1 | low >> bits - 1) & (1 << bits) - 1
    size = {7: 1, 14: 2, 29: 4}[bits]
    return (turned | {7: 0, 14: 0x8000, 29: 0xC0000000}[bits]).to_bytes(size, "big")


class Signatures:
    """Signatures that name rows of a model, whose tables have these numbers of rows."""

    def __init__(self, chance, counts):
        self.chance = chance
        self.types = [(tag, counts[table]) for tag, table in enumerate(TYPES) if counts.get(table)]

    def number(self, value):
        return packed(value, self.chance)

    def some(self, most):
        """A small number of parts, mostly none or one."""
        return self.chance.choice((0, 0, 1, 1, 2, most))

    def index(self):
        tag, rows = self.chance.choice(self.types)
        return self.number(self.chance.randint(1, rows) << TAG_BITS | tag)

    def mods(self):
        if not self.types or self.chance.randrange(6):
            return b""
        return b"".join(bytes([self.chance.choice((CMOD_REQD, CMOD_OPT))]) + self.index() for _ in range(self.chance.randint(1, 3)))

    def shape(self):
        rank = self.chance.choice((1, 1, 2, 3, 32))
        sizes = [self.chance.choice(NUMBERS) for _ in range(self.chance.randint(0, min(rank, 3)))]
        bounds = [self.chance.choice(LOW_BOUNDS) for _ in range(self.chance.randint(0, min(rank, 3)))]
        parts = [rank, len(sizes), *sizes, len(bounds)]
        return b"".join(map(self.number, parts)) + b"".join(map(signed, bounds))

    def core(self, depth):
        """A type without modifiers, which has at most this depth."""
        chance = self.chance
        kinds = ["simple"] * 4 + ["variable"] + ["named"] * 3 * bool(self.types)
        if depth > 1:
            kinds += ["pointer", "vector", "array", "function"] + ["instance"] * bool(self.types)
        kind = chance.choice(kinds)
        if kind == "simple":
            return bytes([chance.choice(SIMPLE)])
        if kind == "variable":
            return bytes([chance.choice((VAR, MVAR))]) + self.number(chance.choice(NUMBERS))
        if kind == "named":
            return bytes([chance.choice((CLASS, VALUETYPE))]) + self.index()
        if kind == "pointer":
            return bytes([PTR]) + self.mods() + (self.core(depth - 1) if chance.randrange(4) else bytes([VOID]))
        if kind == "vector":
            return bytes([SZARRAY]) + self.type(depth - 1)
        if kind == "array":
            return bytes([ARRAY]) + self.type(depth - 1) + self.shape()
        if kind == "function":
            return bytes([FNPTR]) + self.method(depth - 1, True)
        given = [self.type(depth - 1) for _ in range(self.some(3))]
        return bytes([GENERICINST, chance.choice((CLASS, VALUETYPE))]) + self.index() + self.number(len(given)) + b"".join(given)

    def type(self, depth):
        return self.mods() + self.core(depth)

    def deep(self):
        """A type of a depth up to the greatest one."""
        depth = self.chance.choice((5, 60, 65, 100, DEEPEST - 1, DEEPEST))
        forms = [bytes([PTR]), bytes([SZARRAY]), bytes([FNPTR, 0, 0])]
        if self.types:
            forms.append(bytes([GENERICINST, CLASS]) + self.index() + b"\1")
        only = [self.chance.choice(forms)]
        return b"".join(self.chance.choice(only) for _ in range(depth - 1)) + bytes([self.chance.choice(SIMPLE)])

    def some_core(self):
        return self.core(DEPTH) if self.chance.randrange(40) else self.deep()

    def slot(self, depth=DEPTH):
        """The type of a field, of a parameter or of a result."""
        kind = self.chance.randrange(8)
        if not kind:
            return self.mods() + bytes([TYPEDBYREF])
        core = self.some_core() if depth == DEPTH else self.core(depth)
        return self.mods() + (bytes([BYREF]) + self.mods() if kind == 1 else b"") + core

    def result(self, depth=DEPTH):
        return self.slot(depth) if self.chance.randrange(3) else self.mods() + bytes([VOID])

    def method(self, depth=DEPTH, can_vary=False):
        chance = self.chance
        kind = chance.choice(KINDS)
        flags = chance.choice((0, 0x20, 0x20, 0x60, 0x40, 0x10, 0x30, 0x70))
        slots = [self.slot(depth) for _ in range(self.some(5))]
        generic = self.number(chance.choice((0, 1, 1, 2))) if flags & 0x10 else b""
        result = self.result(depth)
        head = bytes([kind | flags]) + generic + self.number(len(slots)) + result
        if can_vary and kind in VARIED and slots and chance.randrange(2):
            slots.insert(chance.randrange(len(slots)), bytes([SENTINEL]))
        return head + b"".join(slots)

    def of_field(self):
        return bytes([FIELD]) + self.slot()

    def of_member(self):
        return self.of_field() if self.chance.randrange(3) == 0 else self.method(can_vary=True)

    def of_property(self):
        slots = [self.slot() for _ in range(self.some(3))]
        return bytes([self.chance.choice(PROPERTIES)]) + self.number(len(slots)) + self.slot() + b"".join(slots)

    def local(self):
        prefix = b"".join(self.mods() if self.chance.randrange(2) else bytes([PINNED]) for _ in range(self.some(2)))
        return prefix + self.slot()

    def of_locals(self):
        count = self.some(6)
        return bytes([LOCALS]) + self.number(count) + b"".join(self.local() for _ in range(count))

    def of_instance(self):
        given = [self.type(DEPTH) for _ in range(self.some(3))]
        return bytes([INSTANCE]) + self.number(len(given)) + b"".join(given)

    def of_standalone(self):
        return self.chance.choice((self.of_locals, self.of_locals, self.of_member))()
