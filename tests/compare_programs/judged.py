"""Compares what two programs did with the same command."""

import json

# The bytes that are shown before and after a difference.
AROUND = 100
# How two runs compare. Of JSON the members may be in another order, or the values may be written in another form: with other
# escapes or spaces.
SAME, ORDER, FORM, ALLOWED, DIFFERENT = "same", "order", "form", "allowed", "different"
KINDS = (SAME, ORDER, FORM, ALLOWED, DIFFERENT)


def members(pairs):
    """The members of an object, none of them twice."""
    found = dict(pairs)
    if len(found) < len(pairs):
        raise ValueError("a member is there twice")
    return found


def refuse_constant(name):
    raise ValueError(f"{name} is no JSON value")


def lines_of(text):
    """The lines of a text, each of which ends with a line feed."""
    lines = text.split(b"\n")
    if lines.pop():
        raise ValueError("the last line does not end")
    return lines


HOW = {"object_pairs_hook": members, "parse_constant": refuse_constant}
READER = json.JSONDecoder(**HOW)
# It takes numbers as they are written.
EXACT_READER = json.JSONDecoder(parse_int=lambda it: (it,), parse_float=lambda it: (it,), **HOW)


def value_of(line, reader=READER):
    """The value of a line of JSON; a ValueError if it is none."""
    return reader.decode(line.decode())


def values_of(text):
    """The values of JSON Lines."""
    return [value_of(line, EXACT_READER) for line in lines_of(text)]


def invalid_line(text):
    """What is wrong with the first line that is no JSON value; None if all are."""
    try:
        for number, line in enumerate(lines_of(text), 1):
            try:
                value_of(line)
            except ValueError as error:
                return f"line {number} is no JSON value: {error}: {line[:AROUND]!r}"
    except ValueError as error:
        return str(error)
    return None


def is_json(call, outcome):
    """Whether the output is meant as JSON Lines. Help and messages begin otherwise."""
    return "--json" in call.words and not call.together and outcome.out[:1] == b"{"


def compare_json(old, new):
    """How two outputs of JSON Lines compare."""
    try:
        left, right = lines_of(old), lines_of(new)
        if len(left) == len(right):
            pairs = [it for it in zip(left, right) if it[0] != it[1]]
            if all(value_of(one, EXACT_READER) == value_of(other, EXACT_READER) for one, other in pairs):
                return ORDER if all(sorted(one) == sorted(other) for one, other in pairs) else FORM
    except ValueError:
        pass
    return DIFFERENT


def first_difference(old, new):
    """The offset of the first byte that differs."""
    low, high = 0, min(len(old), len(new))
    while low < high:
        middle = (low + high + 1) // 2
        low, high = (middle, high) if old[low:middle] == new[low:middle] else (low, middle - 1)
    return low


def around(what, old, new):
    """The bytes around the first difference of two texts."""
    at = first_difference(old, new)
    start = max(0, at - AROUND)
    lines = [f"{what}: {len(old)} and {len(new)} bytes differ at {at}, of which these are around it:"]
    return [*lines, f"  old {old[start:at + AROUND]!r}", f"  new {new[start:at + AROUND]!r}"]


def judge_output(call, old, new):
    """How two outputs compare: a kind, and what is different."""
    wrong = invalid_line(new.out) if is_json(call, new) else None
    if wrong:
        return DIFFERENT, [f"standard output: {wrong}"]
    if old.out == new.out:
        return SAME, []
    kind = compare_json(old.out, new.out) if is_json(call, new) else DIFFERENT
    return kind, around("standard output", old.out, new.out) if kind != ORDER else []


def judge(call, old, new):
    """How two runs of a command compare: a kind, and what is different."""
    said = []
    if old.status != new.status:
        said.append(f"exit codes: {old.status} and {new.status}")
    if old.err != new.err:
        said += around("standard error", old.err, new.err)
    for name in sorted({*old.files, *new.files}):
        one, other = (it.files.get(name, "nothing") for it in (old, new))
        if one != other:
            said += around(f"file {name}", *(repr(it).encode() for it in (one, other)))
    kind, differs = judge_output(call, old, new)
    return (DIFFERENT if said else kind), said + differs
