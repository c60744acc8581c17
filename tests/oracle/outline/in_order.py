"""What `clim outline --sorted` prints: the lines of the outline, in the order of names."""

import re
import subprocess
from collections import Counter
from itertools import groupby

from outline import without_layout
from texts import flags_of

# The tables of the lines before the types, in their order, and of those after them.
FIRST = ("20", "23", "00", "1a", "26", "28", "27")
LAST = ("08", "09", "2a", "2c", "19", "1c", "0e", "0c")
# A type, its fields, its methods, its events and its properties; and accessors, which follow an event or a property.
TYPE, MEMBERS, ACCESSOR = "02", ("04", "06", "14", "17"), "18"
# The tables of the last lines that have no name.
NAMELESS = ("08", "09", "2c", "19", "1c", "0e", "0c")


def lines_of(program, path, *words):
    """The lines of an outline: the text and the token of each."""
    bare = [] if path.endswith(".dll") else ["--bare"]
    ran = subprocess.run([program, "outline", *bare, *words, path], capture_output=True, text=True, check=True)
    return [(text, token) for text, _, token in (it.rpartition("  // ") for it in ran.stdout.splitlines())]


def type_of(text):
    """The name of a type, from its line: up to its generic parameters, or what it extends."""
    return re.match("(?:'[^']*'|[^' <])*", flags_of(without_layout(text.removeprefix(".class ")))[1])[0]


def member_of(owner, text):
    """The name of a member of a type, from its line."""
    return re.search(f" {re.escape(owner)}::('[^']*'|[^ (<]*)", text)[1]


def in_order(keys):
    return all(left < right for left, right in zip(keys, keys[1:]))


def faults(whole, lines):
    """What is wrong with the sorted lines of an outline."""
    if Counter(whole) != Counter(lines):
        yield "not the lines of the outline"
        return
    tables = [token[:2] for _, token in lines]
    begin = tables.index(TYPE) if TYPE in tables else len(tables)
    end = next((it for it in range(begin, len(tables)) if tables[it] in LAST), len(tables))
    for part, order in ((tables[:begin], FIRST), (tables[end:], LAST)):
        if [it for it, _ in groupby(part)] != [it for it in order if it in part]:
            yield f"not table by table: {part}"
    for table, part in groupby(lines[end:], lambda it: it[1][:2]):
        if table in NAMELESS and not in_order(list(part)):
            yield f"table {table} is not in order"
    types, owner, members, last = [], "", [], None
    at = {line: number for number, line in enumerate(whole)}
    for (text, token), table in zip(lines[begin:end], tables[begin:end]):
        if table == TYPE:
            owner, members = type_of(text), []
            types.append((owner, text, token))
        elif table in MEMBERS:
            members.append((MEMBERS.index(table), member_of(owner, text), text, token))
            if not in_order(members[-2:]):
                yield f"{text} is not in order"
            last = at[text, token]
        elif table != ACCESSOR or whole[last + 1] != (text, token):
            yield f"{text} does not follow its member"
        else:
            last += 1
    if not in_order(types):
        yield "the types are not in order"


def judged(program, path):
    """How many sorted outlines of a file are right, all and those of its visible rows, and a line for each fault of the others."""
    found = {words: list(faults(lines_of(program, path, *words), lines_of(program, path, "--sorted", *words))) for words in ((), ("--public",))}
    wrong = [f"--sorted {' '.join(words)}: {it}" for words, them in found.items() for it in them]
    return sum(not them for them in found.values()), wrong
