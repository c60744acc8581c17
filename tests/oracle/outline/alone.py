"""What `clim outline FILE NAME` prints of each type of an outline: its lines, and then those that describe it or its members."""

import re
import subprocess
from collections import Counter

from outline import unescaped, without_layout
from texts import flags_of

# Lines that describe a type or a member: what comes before the name of that, and what comes after it.
DESCRIBING = (
    (".interfaceimpl type ", " implements "),
    (".override ", None),
    (".param type ", None),
    (".param [", None),
    (".pinvokeimpl(", None),
    (".permissionset ", None),
    (".custom ", None),
)
# The name of a type, before its generic parameters, its base type and its interfaces.
OWN_NAME = re.compile("(?:'[^']*'|[^'< ])*")
CONSTRAINT = re.compile(r"\.param constraint .*?([0-9a-f]{8}), ")


def plain(name):
    """A name without quotes and escapes."""
    return unescaped(re.sub("'([^']*)'", r"\1", name))


def types_of(text):
    """The lines of each type of an outline, by its full name. Of several types with one name they are those of the first."""
    types, lines = {}, []
    for line in text.splitlines(keepends=True):
        word, _, tail = line.partition(" ")
        if word == ".class" and not tail.startswith("extern "):
            _, declared = flags_of(without_layout(tail.rpartition("  // ")[0]))
            lines, name = [], OWN_NAME.match(declared)[0]
            types.setdefault(plain(name), lines)
        elif not line.startswith("  "):
            lines = []
        lines.append(line)
    return types


def described_by(line, owners):
    """The name of the type that a line describes, or whose member it describes; None if the line does not say so."""
    text, _, token = line.rstrip("\n").rpartition("  // ")
    constraint = CONSTRAINT.match(text)
    if constraint:
        return owners.get(constraint[1])
    for word, end in DESCRIBING:
        if text.startswith(word):
            last = text.rpartition(" in " if word == ".override " else " of ")[2]
            name = plain((text[len(word):].partition(end)[0] if end else last).partition("::")[0])
            owners[token] = name
            return name
    return None


def judged(program, path, text):
    """How many types are printed alone as they are in the outline, and a line for each other one.

    A line that describes something without a name, such as a parameter, may be printed with any type.
    """
    same, wrong = 0, []
    types, owners, described = types_of(text), {}, {}
    for line in text.splitlines(keepends=True):
        described.setdefault(described_by(line, owners), []).append(line)
    nameless = {it for name, lines in described.items() if name and name not in types for it in lines}
    named = Counter(re.split("[./]", name)[-1] for name in types)
    for name, lines in types.items():
        last = re.split("[./]", name)[-1]
        for word in {name, last} if named[last] == 1 else {name}:
            ran = subprocess.run([program, "outline", path, word], capture_output=True, text=True)
            found = [it for it in ran.stdout.splitlines(keepends=True) if it not in nameless]
            if found == [*lines, *described.get(name, [])] and not ran.stderr:
                same += 1
            else:
                wrong.append(f"{name}: not printed as '{word}'")
    return same, wrong
