"""Chooses command lines for files: each subcommand with each option, in any order, and arguments that are wrong."""

import contextlib
import os
import re

from judged import lines_of, value_of
from programs import Call
from walk import TABLES

# How often a command is chosen, and what it is. Words in capitals stand for arguments.
COMMANDS = """
2 root FILE
2 root --json FILE
3 check FILE
2 check --json FILE
3 check --where FILE
2 check --budget N FILE
1 check -q FILE
1 check --quiet FILE
3 check FILES
1 check -q FILES
1 check --budget N FILES
1 check -q --budget N FILES
2 check -0 LIST
1 check -0 --files-from - LIST
1 check -q -0 LIST
1 check --budget N -0 LIST
1 check --json FILES
1 check --json -0 LIST
1 check --json -q FILE
1 check --json --budget N FILE
1 check --where FILES
1 check --where -0 LIST
1 check --where -q FILE
1 check --where --budget N FILE
1 check --where --json FILE
1 check --where --json FILES
1 check --where --json -0 LIST
1 check --json --budget N FILES
3 show FILE
2 show FILE TABLE
3 show --names FILE
2 show --names FILE TABLE
3 show --json FILE
2 show --json FILE TABLE
1 show --names --json FILE
2 show --until-fault FILE
1 show --until-fault FILE TABLE
2 show --until-fault --names FILE
1 show --until-fault --names FILE TABLE
1 show --until-fault --json FILE
1 show --until-fault --json FILE TABLE
2 info FILE
2 info --json FILE
3 types FILE
3 types --json FILE
4 outline FILE
3 outline FILE NAME
4 outline --json FILE
2 outline --json FILE NAME
2 token FILE HEX
2 token FILE HEX..
2 token --json FILE HEX
2 token --json FILE HEX..
6 where FILE OFFSET
6 where --json FILE OFFSET
3 strings FILE
1 strings --json FILE
3 digest FILE
2 digest FILES
1 digest --json FILE
1 digest --json FILES
4 compare FILE OTHER
3 compare --json FILE OTHER
2 compare --ignore COLUMN FILE OTHER
2 compare --ignore COLUMN --ignore COLUMN FILE OTHER
2 compare --json --ignore COLUMN FILE OTHER
3 rewrite FILE OUT
1 explain CODE
1 explain CODE CODE
1 explain --json CODE
1 explain --json CODE CODE
3 ARGUMENTS
"""
CHOICES = [tuple(it.split(" ", 1)) for it in COMMANDS.strip().splitlines()]
# Commands that are run once. The last one is as long as reading 2^30 bytes takes.
SUBCOMMANDS = ["root", "info", "check", "show", "types", "outline", "strings", "token", "where", "rewrite", "embed", "digest", "compare", "explain", "help"]
ONCE = [
    [], ["--help"], ["-h"], ["help"], ["--version"], ["-V"], ["explain"], ["help", "help"], ["help", "chekc"], ["help", "root", "x"], ["explain", "--json"],
    *([it, "--help"] for it in SUBCOMMANDS), *([it, "-h"] for it in SUBCOMMANDS), *(["help", it] for it in SUBCOMMANDS),
    *([it] for it in SUBCOMMANDS), *(["explain", str(code)] for code in range(1000)), ["check", "/dev/zero"],
]
# Values of options and arguments, of which some are wrong.
BUDGETS = ["0", "1", "5", "30", "100", "1000", "18446744073709551615", "18446744073709551616", "+5", "-1", "x", "", "0x10", "05"]
OFFSETS = ["-1", "+5", "x", "", "0x", "0xg", "0X10", "010", "0xffffffffffffffff", "0x10000000000000000", "18446744073709551616", "\u0661"]
TOKENS = ["0", "1", "01", "2000001", "70000000", "70000001", "7000000", "05000001", "ffffffff", "700000000", "", "x", "0x1", "+1", "-1", "02000001 "]
CODES = ["101", "508", "510", "901", "999", "0501", "+501", "1010", "badutf8", "BadGuidd", "Bad", "", "x" * 65, "\x1b", "é"]
OUTPUTS = ["out", "there", "in", "link", "other", "folder", "folder/out", "missing/out", "/dev/null", "/dev/stdout", "-", "", "loop", "é\n"]
# Words of any command line.
WORDS = [
    *SUBCOMMANDS, "--bare", "--bare", "--json", "--json", "--names", "--until-fault", "--where", "-q", "--quiet", "-0", "--files-from", "--files-from=-",
    "--files-from=x", "-", "--budget", "--budget=5", "--budget=", "5", "--ignore", "--ignore=Module.Mvid", "--ignore=x", "--help", "-h", "--version", "-V",
    "--", "", "-x", "--bar", "--bare=1", "--bare=", "-q0", "-0q", "-qq", "-hq", "-b", "---", "TypeDef", "02", "02000001", "0x10", "504", "BadGuid", "chekc",
    "--jsn", "in", "in", "in", "in", "other", "out", "missing", "folder", "\x1b[31m", "a\nfault 3 307 at 0: Forged", "x" * 200, "é", "'", '"', "\udcff",
]
NAMES = [
    "N.C", "C", "", ".", "..", "A.", ".A", "A/B", "A.B/C", "<Module>", "System.Object", "02000001", "02000000", "2000001", "02FFFFFF", "06000001",
    "x" * 300, "é", "\x1b",
]
OPTIONS = re.compile(r"-")
# How often something happens: one time of this number.
MOVED, ENDED, FROM_INPUT, PIPED, TOGETHER, FULL_OUTPUT, FULL_ERRORS, WRONG_BARE, MISSING = 4, 30, 25, 3, 12, 60, 80, 30, 40
MOST_ARGUMENTS = 6
# The characters of the longest argument: the system takes 128 kB.
LONGEST_ARGUMENT = 30_000
# The types and the user strings of a file that are remembered.
KNOWN = 200


class Subject:
    """A file of a batch: its name in the folder, what it is, and what the old program knows of it."""

    def __init__(self, name, file, others):
        self.name, self.bare, self.others, self.data = name, file.bare, others, file.data
        self.names, self.tokens = [], []

    def learn(self, types, strings):
        """Takes names of types and tokens from what `types --json` and `strings` printed."""
        with contextlib.suppress(ValueError):
            values = [value_of(it) for it in lines_of(types)[:KNOWN]]
            self.names = [(it["namespace"], it["name"]) for it in values]
        user = [it[:8].decode() for it in strings.split(b"\n")[:KNOWN] if it[:2] == b"70"]
        self.tokens = user + [f"02{row:06x}" for row in range(1, len(self.names) + 1)]


class Commands:
    """Command lines for the files of a batch."""

    def __init__(self, chance, batch, codes):
        self.chance, self.batch, self.codes = chance, batch, codes

    def one_of(self, n):
        """Whether this happens, one time of N."""
        return not self.chance.randrange(n)

    def name(self, it):
        """A name of a type: of one that is there, whole or in part or with a mistake, or of another."""
        chance = self.chance
        if not it.names or self.one_of(4):
            return chance.choice(NAMES)
        namespace, name = chance.choice(it.names)
        found = chance.choice((f"{namespace}.{name}" if namespace else name, f"{namespace}.{name}" if namespace else name, name, f"X/{name}"))
        if found and self.one_of(3):
            at = chance.randrange(len(found))
            found = found[:at] + chance.choice(("", "x", found[at].swapcase())) + found[at + 1:]
        return found[:LONGEST_ARGUMENT]

    def token(self, it):
        chance = self.chance
        kind = chance.randrange(8)
        if kind < 3 and it.tokens:
            return chance.choice(it.tokens)
        if kind < 7:
            table = chance.choice((*TABLES, 0x70)) if chance.randrange(10) else chance.randrange(256)
            row = chance.choice((1, 1, 2, 3, chance.randrange(20), chance.randrange(1 << chance.randrange(1, 25))))
            return f"{table:02x}{row:06x}" if chance.randrange(4) else f"{table:X}{row:06X}"
        return chance.choice(TOKENS)

    def offset(self, it):
        """An offset of the file, mostly; in a large one half of them are in its first part or in the root."""
        chance, size = self.chance, len(it.data)
        if self.one_of(12):
            return chance.choice(OFFSETS)
        first = max(it.data.find(b"BSJB"), 0) if chance.randrange(3) else 0
        last = min(size, first + 600) if self.one_of(3) else size
        at = chance.randrange(first, max(first, last) + 3)
        return hex(at) if chance.randrange(3) == 0 else str(at)

    def table(self):
        chance = self.chance
        number = chance.choice(list(TABLES))
        name = TABLES[number][0]
        return chance.choice((name, name, name, f"{number:02x}", f"{number:02X}", name.lower(), name[:-1], "", "03", "2d"))

    def column(self):
        chance = self.chance
        name, columns = TABLES[chance.choice(list(TABLES))]
        column = chance.choice(columns.split(", ")).split()[0]
        return chance.choice((*[f"{name}.{column}"] * 8, f"{name}.{column[:-1]}", f"{name}", f"{name.lower()}.{column}", f"{name}.x", ".", ""))

    def code(self):
        number, name = self.chance.choice(self.codes)
        return self.chance.choice((number, name, name, name[:-1], self.chance.choice(CODES)))

    def several(self):
        """Names of files of the batch; some are missing, a folder or the standard input."""
        names = self.chance.choices([it.name for it in self.batch], k=self.chance.randint(2, 8))
        return [self.chance.choice(("missing", "apart", "-", "\n")) if self.one_of(20) else it for it in names]

    def argument(self, word, it):
        """The words that a word in capitals stands for; the word itself, if it is none."""
        chance = self.chance
        if word == "FILE":
            return ["missing" if self.one_of(MISSING * 4) else it.name]
        if word == "OTHER":
            return [chance.choice((*it.others, *it.others, *it.others, it.name, chance.choice(self.batch).name, "missing" if self.one_of(5) else it.name))]
        if word == "HEX..":
            return [self.token(it) for _ in range(chance.randint(2, 6))]
        makers = {
            "FILES": self.several, "TABLE": lambda: [self.table()], "NAME": lambda: [self.name(it)], "HEX": lambda: [self.token(it)],
            "OFFSET": lambda: [self.offset(it)], "COLUMN": lambda: [self.column()], "CODE": lambda: [self.code()], "LIST": list,
            "N": lambda: [chance.choice(BUDGETS[:6]) if chance.randrange(4) else chance.choice(BUDGETS)],
        }
        return makers[word]() if word in makers else [word]

    def arranged(self, name, options, values):
        """The words of a command: options first, or in any order; values may begin with a dash after `--`."""
        chance = self.chance
        if not self.one_of(MOVED):
            end = ["--"] if self.one_of(ENDED) else []
            return [name, *(word for it in options for word in it), *end, *values]
        units = [[it] for it in values]
        for option in chance.sample(options, len(options)):
            joined = len(option) == 2 and option[0].startswith("--") and chance.randrange(2)
            units.insert(chance.randint(0, len(units)), ["=".join(option)] if joined else option)
        return [name, *(word for it in units for word in it)]

    def words(self, template, it):
        """The words of a command for a file, with `--bare` if it is a root, or if that is wrong."""
        name, *parts = template.split()
        options, values = [], []
        while parts:
            word = parts.pop(0)
            if not OPTIONS.match(word):
                values += self.argument(word, it)
            elif word in ("--budget", "--ignore", "--files-from"):
                options.append([word, *self.argument(parts.pop(0), it)])
            else:
                options.append([word])
        if name != "explain" and it.bare != self.one_of(WRONG_BARE):
            options.insert(0, ["--bare"])
        return self.arranged(name, options, values)

    def list_of_names(self):
        """What the standard input lists, as a file of the batch: names that end with a NUL, or mostly."""
        names = [it.encode() for it in self.several()] if self.chance.randrange(12) else []
        names += self.chance.choice(([], [], [], [b""], [b"\xff"], [b"a\x80"]))
        self.chance.shuffle(names)
        ended = self.chance.choice((b"\0", b"\0", b""))
        with open("list", "wb") as it:
            it.write(b"\0".join(names) + ended * bool(names))
        return "list"

    def apart(self, it, template):
        """A command that may change files: it has copies of its own."""
        chance = self.chance
        other = it.others[0] if it.others else it.name
        with open(other, "rb") as file:
            files = {"in": it.data, "other": file.read(), "there": b"there" * 500, "folder": None, "link": "in", "loop": "loop"}
        if self.one_of(12):
            files["in.clim-new"] = chance.choice((b"", None, "other"))
        if template == "ARGUMENTS":
            first = chance.choice(SUBCOMMANDS) if chance.randrange(8) else chance.choice(WORDS)
            words = [first, *(chance.choice(WORDS) for _ in range(chance.randrange(MOST_ARGUMENTS)))]
        else:
            output = chance.choice(OUTPUTS[:3] if chance.randrange(3) else OUTPUTS)
            options = [["--bare"]] if it.bare != self.one_of(WRONG_BARE) else []
            words = self.arranged("rewrite", options, [chance.choice(("in", "in", "in", "link")), output])
        return Call(template, words, given=it.name if self.one_of(4) else os.devnull, files=files)

    def call(self, it):
        """A command for a file, with its standard files."""
        chance = self.chance
        template = chance.choices([it for _, it in CHOICES], [int(it) for it, _ in CHOICES])[0]
        if template in ("ARGUMENTS", "rewrite FILE OUT"):
            return self.apart(it, template)
        words = self.words(template, it)
        given = self.list_of_names() if "LIST" in template else chance.choice(self.batch).name if "FILES" in template else os.devnull
        if given == os.devnull and it.name in words and self.one_of(FROM_INPUT):
            given = it.name
            words = ["-" if word == it.name else word for word in words]
        full = 1 if self.one_of(FULL_OUTPUT) else 2 if self.one_of(FULL_ERRORS) else 0
        # Errors between lines of JSON would be none.
        together = not full and "--json" not in words and self.one_of(TOGETHER)
        return Call(template, words, given, self.one_of(PIPED), full, together)
