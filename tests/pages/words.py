#!/usr/bin/env python3
"""Finds words of an old vocabulary: in identifiers, in file names, in comments and in pages.

    tests/pages/words.py [--count] [PATH..]

Each hit is printed with its file and line, and with the word to use; with --count, the number of hits of each word. A
PATH is a file or a folder; without one, the repository is searched. The last line is 'N passed, M failed', where each
word of the tables below counts once: it passes if it is not left. A name that somebody else fixes is in a table too.
"""

import argparse
import os
import re
import subprocess
import sys

TOP = os.path.dirname(os.path.dirname(os.path.dirname(os.path.realpath(__file__))))

RUST, ANTT, C, PYTHON, SHELL, PAGE = "rust", "antt", "c", "python", "shell", "page"

# Words of identifiers, in any case, and what to say.
IDENTIFIER_WORDS = {
    "rule": "demand demands demanded demanding",
    "rebased": "raise raises raised raising",
    "offset, cell, use_index, position or span": "place places placed",
    "encode, encoded or encoding": "spell spells spelled spelling spellings misspelled unspelled respelled",
    "report or reported": "tell tells told telling",
    "prefix or header": "front fronts",
    "remainder or tail": "rest rests",
    "padding or padded": "fill fills filled filling unfilled",
    "integration test": "trial trials",
}
# Whole identifiers, or their beginnings, as patterns.
IDENTIFIERS = {
    r"FirstToFail\w*": "FirstBroken",
    r"Answers\w*": "Reports",
    r"shown_text": "escaped_text",
}
# Forms of code. A clause `first` or `found` is meant only if it speaks of the first broken rule, or of a relation.
FORMS = {
    r"\bensures found \{(?=[^\n]*\b(?:Is|Has|Encodes)[A-Z ])": "ensures sound {",
    r"\bensures only \{": "ensures complete {",
    r"\bensures first \{(?=[^\n]*\b(?:FirstBroken|Reports)\b)": "ensures first_error {",
    r"\.position\(\)": ".table_index()",
}
# Names that the requirements of the crates fix, and names of the standard library and of the toolchain.
FIXED = {
    "stream_place",
    "fill", "fill_with", "fill_buf", "resize_with", "push_front", "pop_front", "front_mut", "is_char_boundary",
}
# Names of lemmas and of a clause of the toolchain's library.
FIXED |= {"end_rest", "eqb_tells", "leb_tells", "from_rest", "take_rest", "same_from_place", "front_len", "rests", "places"}
# Files that the toolchain names.
FIXED_FILES = {"Answers.antt", "Answers.txt"}
# Names, and single words, that are fixed in a folder.
FIXED_IN = {
    # The fields StreamHeader::place and CliHeader::place are fixed, and what fills them has their name.
    "crates/root/": {"place"},
    "crates/cli_header/": {"place"},
    # The method Rows::place is fixed.
    "crates/rows/": {"place"},
    # A definition of the library clap.
}
# Forms of code that end with a name which is fixed there.
FIXED_FORMS = [
    # A name of the toolchain's library.
    r"\bstd(?:::\w+)+",
    r"\bplace(?= = (?:record|header_offset|reported\.(?:header_)?offset|header\.place)\b)",
    # The fields StreamHeader::place and CliHeader::place, and the method Rows::place.
    r"\.place\b",
    r"\bfn place(?=\()",
    r"\bpub place(?=:)",
    r"\b(?:stream|cli|rows?|header)\w*::place\b",
    r"\b(?:StreamHeader|CliHeader)\s*\{[^{}]*?\bplace\b",
    # A clause of the library's functions that split, and a fact of the toolchain about an argument.
    r"\bensures\.(?:front|rest)\b",
    r"\bc\.told(?=-)",
    # A lemma of the toolchain's library.
    r"\bAll-rest\b",
]
# Words that a language itself has: the exceptions of Python.
WORDS_OF = {PYTHON: {"raise", "raises", "raised"}}
# Words of prose, as patterns, and what to say.
PROSE = {
    r"exactly (?:where|when|if)": "if and only if",
    r"(?:`None`|`Ok`|`Err`|`true`|`false`|null|but|also|even|or|and|else|only|just|;|,) where (?!that \w+ (?:begins|ends)\b)(?:it|they|there|that|this|none|all|no|one|its|their|nothing|each|both|the \w+ (?:is|are|has|have|does|do)\b)": "if or when",
    r"demand(?:s|ed|ing)?": "rule, or to require",
    r"(?:it|that|which|what|call|calls|function|functions|reader|both|and|all|each) answers?(?= )|answers (?:a|an|the|as|with|no|what|whether|how|that|each|alike|otherwise|for|to)\b|(?:is|are|was|be|been) answered|(?:has|have) to answer|answering": "return",
    r"(?:for )?want of memory": "out of memory",
    r"tells?(?! \w+ apart)|told|telling": "report, or print",
    r"behind": "after, or following",
    r"(?:stand|stands|stood|standing) (?:at|behind)": "be at, or follow",
    r"(?:so|as) many": "the number of, or N",
    r"of late": "recently",
    r"(?:by )?halving": "by binary search",
    r"without memory|(?:takes?|taking|took|needs?|asks? for) no memory": "does not allocate",
    r"what (?:a|the) clients? names?|that (?:a|the) clients? names?": "the public API",
    r"asks? for nothing": "a usage error",
    r"words? (?:of|on|in) (?:a|the|its) command line|(?:all )?(?:its|these|the program's) words(?= (?:ask|lack|name|are|of))|words that (?:ask|name|follow)": "arguments",
    r"(?:is|are|be|was|were|been) made into|makes? \w+ into": "is converted to, or becomes",
    r"hand(?:s|ed|ing)? (?:\w+ ){0,2}back": "return",
    r"(?:mis|un|re)?spell(?:s|ed|ing|ings)?": "encode, or encoding",
    r"fronts?": "prefix, or header",
    r"the fill|filled (?:with|to|by) (?:zeros?|a multiple)|unfilled": "padding, or padded",
    r"raised (?:by|to)|raises? (?:a|the|an) (?:fault|offset|place)": "rebased",
    r"trials?": "integration test",
    r"places?": "offset, cell, position or index",
}
# Phrases of prose in which such a word is the right one.
FINE = [
    r"in[- ]place", r"takes? (?:the|its|their) places?", r"in (?:the|its|their|that|one) places?", r"takes? place",
    r"front (?:door|end|page)", r"in front of", r"left behind",
    # A line that the program prints.
    r"null where it is not allowed",
    # A call of the method Rows::place in an example.
    r"rows\.place",
]

LANGUAGES = {".rt": RUST, ".rs": RUST, ".antt": ANTT, ".c": C, ".h": C, ".py": PYTHON, ".md": PAGE, ".1": PAGE}
LANGUAGES |= {".bash": SHELL, ".fish": SHELL, ".toml": SHELL}
# Folders and files that are not searched: what the prover writes, edits, and this file.
SKIPPED = {"out", ".git", "edits"}
PARTS = {
    RUST: r'(?P<prose>//[^\n]*|/\*.*?\*/)|(?P<text>b?"(?:\\.|[^"\\])*")|(?P<other>b?\'(?:\\.[^\']*|[^\'\\])\')',
    ANTT: r'(?P<prose>--[^\n]*)|(?P<text>"(?:\\.|[^"\\])*")',
    C: r'(?P<prose>//[^\n]*|/\*.*?\*/)|(?P<text>"(?:\\.|[^"\\])*")|(?P<other>\'(?:\\.|[^\'\\])+\')',
    PYTHON: r'(?P<prose>"""(?:\\.|[^\\])*?"""|#[^\n]*)|(?P<text>"(?:\\.|[^"\\\n])*"|\'(?:\\.|[^\'\\\n])*\')',
    SHELL: r'(?P<prose>(?<![\w$&\\{])#[^\n]*)|(?P<text>"(?:\\.|[^"\\])*"|\'[^\']*\')',
}
# The marks of comments, which are no words.
MARK = re.compile(r"//[/!]?|--|#+|/?\*+/?|\"\"\"|>|-")
WORD = re.compile(r"[A-Z]+(?=[A-Z][a-z])|[A-Z]?[a-z]+|[A-Z]+|\d+")
NAME = re.compile(r"[A-Za-z_][A-Za-z0-9_]*")
BY_WORD = {word: better for better, words in IDENTIFIER_WORDS.items() for word in words.split()}


def language_of(path):
    """The language of a file, or None if it is not searched."""
    name = os.path.basename(path)
    if os.path.realpath(path) == os.path.realpath(__file__):
        return None
    language = LANGUAGES.get(os.path.splitext(name)[1])
    if language or name == "crates.txt":
        return language or SHELL
    if name.endswith(".txt") and "/proofs/" in path:
        return ANTT
    if os.path.splitext(name)[1]:
        return None
    with open(path, "rb") as it:
        first = it.readline(80)
    return PYTHON if b"python" in first else SHELL if first.startswith(b"#!") else None


def blank(text):
    """A text of the same lines and columns without a word."""
    return re.sub(r"[^\n]", " ", text)


def split(text, language):
    """The code of a file, and its prose: each of the length of the file, blank where the other is."""
    if language == PAGE:
        return blank(text), re.sub(r"^```.*?^```|`[^`\n]*`|^\.EX.*?^\.EE", lambda it: blank(it[0]), text, flags=re.M | re.S)
    code, prose, end = [], [], 0
    for it in re.finditer(PARTS[language], text, re.S):
        code += [text[end : it.start()], blank(it[0])]
        is_prose = it.lastgroup == "prose" or (it.lastgroup == "text" and " " in it[0])
        said = re.sub(r"`[^`\n]*`", lambda quoted: blank(quoted[0]), it[0]) if is_prose else blank(it[0])
        prose += [blank(text[end : it.start()]), said]
        end = it.end()
    return "".join([*code, text[end:]]), "".join([*prose, blank(text[end:])])


def better_name(name, fixed=frozenset()):
    """The old words of an identifier, each with what to say, unless the name or the word is fixed."""
    if name in FIXED | fixed:
        return []
    words = [word.lower() for word in WORD.findall(name.replace("in_place", ""))]
    found = [(word, BY_WORD[word]) for word in words if word in BY_WORD and word not in fixed]
    return found + [(it, better) for it, better in IDENTIFIERS.items() if re.fullmatch(it, name)]


def hits_of_code(code, fixed):
    """The hits in the code of a file: the offset, the text, the entry of a table and what to say."""
    ends = {it.end() for form in FIXED_FORMS for it in re.finditer(form, code)}
    for it in NAME.finditer(code):
        if it.end() not in ends:
            for entry, better in better_name(it[0], fixed):
                yield it.start(), it[0], entry, better
    for form, better in FORMS.items():
        for it in re.finditer(form, code):
            yield it.start(), it[0], form, better


def flat(prose):
    """The words of prose with one space between two, a line end between blocks, and where each character comes from."""
    said, origins, end = [], [], 0
    for it in re.finditer(r"\S+", prose):
        if not MARK.fullmatch(it[0]):
            said.append(("\n" if prose.count("\n", end, it.start()) > 1 else " ") + it[0])
            origins += range(it.start() - 1, it.end())
            end = it.end()
    return "".join(said), origins


def hits_of_prose(prose, fixed):
    """The hits in the prose of a file."""
    said, origins = flat(prose)
    fine = {at for form in FINE for it in re.finditer(rf"\b(?:{form})\b", said, re.I) for at in range(it.start(), it.end())}
    for form, better in PROSE.items():
        for it in re.finditer(rf"(?<![\w-])(?:{form})(?![\w-])", said, re.I):
            if not fine & {it.start(), it.end() - 1} and it[0].split()[0].lower() not in fixed:
                yield origins[it.start()], it[0], form, better


def hits_of(path):
    """The hits in a file: the line, the kind, the text, the entry of a table and what to say."""
    language = language_of(path)
    if not language:
        return
    name = os.path.basename(path)
    for entry, better in better_name(os.path.splitext(name)[0]) if name not in FIXED_FILES else []:
        yield 1, "file", name, entry, better
    with open(path, encoding="utf-8", errors="replace") as it:
        text = it.read()
    code, prose = split(text, language)
    own = WORDS_OF.get(language, set())
    names = own.union(*(it for folder, it in FIXED_IN.items() if os.path.relpath(path, TOP).startswith(folder)))
    for kind, found in (("name", hits_of_code(code, names)), ("prose", hits_of_prose(prose, own))):
        for at, said, entry, better in sorted(found):
            yield text.count("\n", 0, at) + 1, kind, said, entry, better


def files(paths):
    """The files to search: below the paths, or of the repository."""
    for path in paths or [TOP]:
        if os.path.isfile(path):
            yield path
        for folder, below, names in os.walk(path):
            below[:] = sorted(it for it in below if it not in SKIPPED)
            yield from (f"{folder}/{name}" for name in sorted(names))


def main():
    parser = argparse.ArgumentParser(description=__doc__, formatter_class=argparse.RawDescriptionHelpFormatter)
    parser.add_argument("--count", action="store_true", help="print only the number of hits of each word")
    parser.add_argument("paths", nargs="*", metavar="PATH", help="a file or a folder")
    given = parser.parse_args()
    counts = {(kind, entry): 0 for kind, table in (("name", [*BY_WORD, *IDENTIFIERS, *FORMS]), ("prose", PROSE)) for entry in table}
    for path in files([os.path.abspath(it) for it in given.paths]):
        for line, kind, said, entry, better in hits_of(path):
            counts["prose" if kind == "prose" else "name", entry] += 1
            if not given.count:
                print(f"{os.path.relpath(path, TOP)}:{line}: {kind} '{said}': say {better}")
    left = {it: count for it, count in counts.items() if count}
    for (kind, entry), count in sorted(left.items(), key=lambda it: -it[1]):
        print(f"{count:6} {kind:5} {entry}")
    print(f"{len(counts) - len(left)} passed, {len(left)} failed")
    return 1 if left else 0


if __name__ == "__main__":
    sys.exit(main())
