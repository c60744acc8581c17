"""What an edit changes, and which functions show it."""

import re

# The beginning of a function, with its name.
FUNCTION = re.compile(r"\s*(?:pub(?:\([a-z ]+\))? )?(?:const |final |unsafe |extern \"C\" )*fn (\w+)")
# What belongs to the head of a function. A change there can show in its callers.
HEAD = re.compile(r"\b(fn|requires|ensures)\b")
# The header of an impl: its parameters, a trait and the arguments of the trait, if there are some, and a type.
IMPL = re.compile(r"impl(?:<(.*?)>)? (?:(\S+?)(?:<(.*)>)? for )?(\w+)")


def impl_name(head):
    """The prover's name for an impl, by its header: `StopFromFailure` for `impl From<Failure> for Stop`."""
    parameters = re.findall(r"(?:^|,)\s*('?\w+)", head[1] or "")
    arguments = [it for it in re.findall(r"'?\w+", head[3] or "") if it not in parameters and it[0] != "'"]
    return "".join([head[4], (head[2] or "").rpartition("::")[2], *(it[0].upper() + it[1:] for it in arguments)])


def function_at(text, at, path):
    """The function at an offset of a source file, by the name that the prover has for it, or None."""
    of, found = "", None
    for line in text[:at].splitlines(keepends=True):
        head = IMPL.match(line)
        if head:
            of, found = f"{impl_name(head)}::", None
        elif line.startswith("}"):
            of, found = "", None
        called = FUNCTION.match(line)
        found = of + called[1] if called else found
    module = "::".join(path.removeprefix("src/").removesuffix(".rt").removesuffix("/mod").split("/"))
    return found and (found if module == "lib" else f"{module}::{found}")


def body_at(text, at):
    """The text of the function at an offset, from its first line to its closing brace."""
    lines = text.splitlines()
    first = max(number for number in range(text.count("\n", 0, at) + 1) if FUNCTION.match(lines[number]))
    closing = re.match(r"\s*", lines[first])[0] + "}"
    last = next((number for number in range(first, len(lines)) if lines[number] == closing), first)
    return "\n".join(lines[first : last + 1])


def lines_of(path):
    with open(path, encoding="utf-8") as it:
        return it.read().splitlines()


class Edit:
    """A mistake: the new texts of the files that it changes, by path, and the functions that show it, or none."""

    def __init__(self, path, sources):
        """Takes the file of the edit, and the sources of its crate by path. Raises ValueError if it does not fit them."""
        self.path, self.texts, self.only, self.pairs = path, {}, [], []
        changed, file, old, self.bodies = [], "", "", []
        for line in lines_of(path):
            word, _, text = line.partition(": ")
            if word == "file":
                file = text
            elif word == "only":
                self.only.append(text)
            elif word == "old":
                old = text
            elif word.rstrip(":") == "new":
                whole = self.texts.get(file) or sources.get(file, b"").decode()
                if not old or whole.count(old) != 1:
                    raise ValueError(f"its old text '{old}' is not in {file} once")
                end = whole.index(old) + len(old)
                changed.append(function_at(whole, end, file))
                self.bodies += [body_at(whole, end)] if changed[-1] else []
                self.texts[file] = whole.replace(old, text)
                self.pairs.append((file, old, text))
        if all(sources[it] == text.encode() for it, text in self.texts.items()):
            raise ValueError("it changes nothing")
        self.functions = self.only or (changed if all(changed) else [])

    def is_of_bodies(self):
        """Whether it changes bodies of functions alone, which show it themselves."""
        return bool(self.functions) and not self.only and not any(HEAD.search(f"{old} {new}") for _, old, new in self.pairs)

    def is_apart(self, other):
        """Whether neither changes a function that the other changes, or that such a function names."""
        names = [[it.rpartition("::")[2] for it in edit.functions] for edit in (self, other)]
        named = any(re.search(rf"\b{name}\b", body) for name in names[0] for body in other.bodies)
        return not named and not any(re.search(rf"\b{name}\b", body) for name in names[1] for body in self.bodies)


def texts_of(edits, sources):
    """The new texts of all these edits at once, or None if one no longer fits after those before it."""
    texts = {}
    for file, old, new in (pair for edit in edits for pair in edit.pairs):
        whole = texts.get(file) or sources[file].decode()
        if whole.count(old) != 1:
            return None
        texts[file] = whole.replace(old, new)
    return texts
