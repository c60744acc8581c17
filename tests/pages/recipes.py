#!/usr/bin/env python3
"""Compares the pages for newcomers with the repository.

- CONTRIBUTING.md: each file of a recipe is there, and contains each text that its line quotes at the end; the contract that
  it explains is that of the code.
- Each command of these pages that is a file of the repository is there and can be run.
- c/README.md names only what c/clim.h declares, and the calls in the table of docs/RATTLE.md are those of the crates. docs/api
  finds each item of model, with its text.
- docs/ARCHITECTURE.md has a line for each crate of crates.txt, and for no other. The program and the library for C stand on
  no crate that owns cells.
- README.md has at most 80 lines, and the line of the toolchain that proves the crates.
- README.md and docs/PROVED.md say the same, word for word, of what is proved of printing.
- CHANGELOG.md begins with the version of the program, which is in one place, in cli_arguments.
- docs/TRUST.md: its files are there, and its counts of lines are those of the definitions.
- edits/README.md: each edit that its examples name is there.
- edits/each.txt says what each of its edits does, and each is there. Each crate with edits has one there.
- Each relative link of a page leads to a file, and to a heading if it names one. Each path of a file that a page quotes is there.

With --lines it only prints the definitions that docs/TRUST.md counts, with their lines. The last line is otherwise
'N passed, M failed'.
"""

import glob
import os
import re
import subprocess
import sys

TOP = os.path.dirname(os.path.dirname(os.path.dirname(os.path.realpath(__file__))))
PAGES = [
    "README.md", "CONTRIBUTING.md", "CHANGELOG.md", "docs/CLIENTS.md", "docs/RATTLE.md", "docs/ARCHITECTURE.md", "docs/STABILITY.md",
    "docs/TRUST.md", "c/README.md", "csharp/README.md", "python/README.md", "rust/README.md",
]
MORE_PAGES = ["edits/README.md", "tests/README.md", "samples/README.md"]
README_LINES = 80
# What these pages say of printing.
PRINTING_PAGES = ["README.md", "docs/PROVED.md"]
PRINTING = """The calls for `root`, `info`, `check`, `show`, `types`, `outline`, `strings`, `token`, `where`, `digest` and `compare` write \
exactly the text that `specs/` defines, to a writer whose bytes are known; if writing fails, a prefix of it. The toolchain states \
nothing about the bytes that reach standard output, so what the program prints is tested. Its exit code is proved."""
# What the clauses of `open_image` and `open_root` cite: what a model is, and the rules in order.
MODEL = ["Rattle.metadata.specs.Model"]
RULES = ["Rattle.metadata.specs.Rules"]
# The crates of cells that own their content, and those that are above them.
OWNERS = {"tables", "owned_model", "type_records", "records"}
# The modules of c_values that make tables of the rows of a C caller.
TABLE_MAKERS = {"made_root", "read_cell", "read_rows"}
# The program that a reader of docs/RATTLE.md makes.
MADE = "crates/list_types/src/main.rt"
# How far a count on a page may be from the count of the files.
TOLERANCE = 0.05


class Counts:
    """What passed, and what failed, which is printed at once."""

    def __init__(self):
        self.passed = self.failed = 0

    def expect(self, holds, why):
        """Counts one fact, and prints why it does not hold."""
        if holds:
            self.passed += 1
        else:
            self.failed += 1
            print(why)


def text_of(path):
    """The text of a file of the repository, or None if it is not there."""
    if not os.path.isfile(f"{TOP}/{path}"):
        return None
    with open(f"{TOP}/{path}", encoding="utf-8") as it:
        return it.read()


def in_backticks(text):
    return re.findall(r"`([^`]+)`", text)


def table_rows(text):
    """The cells of each row of each table in a page, without heads and rules."""
    lines = text.splitlines()
    for line, after in zip(lines, [*lines[1:], ""]):
        if line.startswith("|") and not line.startswith("|---") and not after.startswith("|---"):
            yield [it.strip() for it in line[1:].rstrip().removesuffix("|").split("|")]


def check_recipes(counts):
    """Each file of a recipe is there, and contains what its line quotes in the parentheses at its end."""
    recipes = text_of("CONTRIBUTING.md").split("\n## Recipes\n")[1].split("\n## ")[0]
    for files, example in re.findall(r"^- ((?:`[^`]+`(?:, )?)+): .* \((`.*`)\)$", recipes, re.M):
        first, *others = in_backticks(files)
        for path in [first, *(it if "/" in it else f"{os.path.dirname(first)}/{it}" for it in others)]:
            text = text_of(path)
            counts.expect(text is not None, f"CONTRIBUTING.md: {path} is not there")
            for wanted in in_backticks(example) if text is not None else []:
                counts.expect(wanted in text, f"CONTRIBUTING.md: {path} does not contain {wanted}")
    lines = re.findall(r"^- `.*", recipes, re.M)
    for line in lines:
        counts.expect(re.search(r"\(`.*`\)$", line), f"CONTRIBUTING.md: this line quotes nothing: {line}")


def check_contract(counts):
    """The contract that CONTRIBUTING.md explains is that of `read_root`."""
    code = text_of("crates/root/src/root.rt") or ""
    block = re.search(r"^```text\n(.*?)^```", text_of("CONTRIBUTING.md"), re.M | re.S)[1]
    for line in block.splitlines():
        counts.expect(f"{line}\n" in code, f"CONTRIBUTING.md: crates/root/src/root.rt has no line {line.strip()}")


def check_paths(counts):
    """Each file that a page names by its path is there, but for the one that a reader of the page makes."""
    for page in sorted({*PAGES, *MORE_PAGES, *glob.glob("docs/*.md", root_dir=TOP)}):
        for path in in_backticks(re.sub(r"^```.*?^```", "", text_of(page), flags=re.M | re.S)):
            if re.fullmatch(r"(?:c|crates|csharp|docs|edits|python|rust|samples|tests)/[\w/.]*\.\w+", path) and path != MADE:
                counts.expect(os.path.isfile(f"{TOP}/{path}"), f"{page}: {path} is not there")


def check_commands(counts):
    """Each command of the repository that a page names is there, and can be run."""
    for page in PAGES:
        for command in re.findall(r"(?:^|`)((?:\./|edits/|tests/|c/)[a-z]+)(?= |`|$)", text_of(page), re.M):
            path = f"{TOP}/{command}"
            if not os.path.isdir(path):
                counts.expect(os.access(path, os.X_OK), f"{page}: {command} is not there, or cannot be run")


def check_calls(counts):
    """The functions and types that the pages for C and Rattle name are there."""
    header = text_of("c/clim.h")
    for name in sorted({*re.findall(r"`(clim_\w+|CLIM_\w+)`", text_of("c/README.md"))}):
        counts.expect(re.search(rf"\b{name}\b", header), f"c/README.md: c/clim.h has no {name}")
    sources = "".join(map(text_of, sorted(glob.glob("crates/*/src/**/*.rt", root_dir=TOP, recursive=True))))
    for name in sorted({*re.findall(r"`(?:\w+::)?(\w+)`", "".join(row[1] for row in table_rows(text_of("docs/RATTLE.md"))))}):
        is_there = re.search(rf"\b(?:fn|struct|trait|enum) {name}\b", sources)
        counts.expect(is_there, f"docs/RATTLE.md: no crate has {name}")
    page = subprocess.run([f"{TOP}/docs/api"], stdout=subprocess.PIPE, text=True, check=False)
    counts.expect(page.returncode == 0 and not re.search(r"^### .*\n\n\n", page.stdout, re.M), "docs/api: an item of model has no text")


def libraries():
    """The crates of crates.txt, each with what it stands on."""
    lines = re.findall(r"^([a-z_]+)(?: \w+)*:(.*)$", text_of("crates.txt"), re.M)
    return {name: below.split() for name, below in lines}


def all_below(name, listed):
    """What a crate stands on, near and far."""
    near = listed.get(name, [])
    return {*near}.union(*(all_below(it, listed) for it in near))


def modules_of(crate):
    """The modules of a crate, by the names of their files."""
    return [os.path.splitext(name)[0] for name in sorted(os.listdir(f"crates/{crate}/src"))]


def uses_of(crate, module):
    """The crates that a module imports from."""
    return set(re.findall(r"^(?:pub )?use (\w+)::", text_of(f"crates/{crate}/src/{module}.rt"), re.M))


def check_crates(counts):
    """The page of the crates names those that are there, and no other."""
    names = libraries()
    crates = text_of("docs/ARCHITECTURE.md").split("\n## The crates\n")[1].split("\n## ")[0]
    described = re.findall(r"^- `(\w+)`: ", crates, re.M)
    for name in names:
        counts.expect(described.count(name) == 1, f"docs/ARCHITECTURE.md has {described.count(name)} lines for {name}")
    for name in described:
        counts.expect(name in names, f"docs/ARCHITECTURE.md has a line for {name}, which is no crate")
    # Only these modules of c_values make tables for C. All else of clim_c reads in place.
    makers = {module for module in modules_of("c_values") if uses_of("c_values", module) & OWNERS}
    counts.expect(makers == TABLE_MAKERS, f"docs/ARCHITECTURE.md: tables are made in {', '.join(sorted(makers))}")
    in_place = {**names, "clim_c": [it for it in names.get("clim_c", []) if it != "c_values"]}
    for top in ("clim", "clim_c"):
        owners = all_below(top, in_place) & OWNERS
        counts.expect(not owners, f"docs/ARCHITECTURE.md: {top} stands on {', '.join(sorted(owners))}")


def check_readme(counts):
    """README is short, and names the toolchain as docs/PROVED.md does."""
    readme = text_of("README.md")
    lines = readme.count("\n")
    counts.expect(lines <= README_LINES, f"README.md has {lines} lines, more than {README_LINES}")
    toolchain = re.search(r"logic [0-9a-f]+", text_of("docs/PROVED.md"))
    counts.expect(toolchain and toolchain[0] in readme, "README.md and docs/PROVED.md name different toolchains")


def check_printing(counts):
    """The pages say the same of printing."""
    for page in PRINTING_PAGES:
        counts.expect(PRINTING in text_of(page), f"{page} does not say of printing what the others say")


def check_version(counts):
    """The newest version of the changelog is that of the program."""
    version = re.search(r'\.version\("([^"]+)"\)', text_of("crates/cli_arguments/src/arguments.rt") or "")
    counts.expect(version, "crates/cli_arguments/src/arguments.rt has no version")
    wanted = version[1] if version else ""
    newest = re.search(r"^## (\S+)", text_of("CHANGELOG.md"), re.M)
    counts.expect(newest and newest[1] == wanted, f"CHANGELOG.md does not begin with {wanted}")


def cited(modules):
    """The files of definitions that some modules name, near and far, and these modules' own."""
    found, left = set(), [*modules]
    while left:
        _, crate, part, *names = left.pop().split(".")
        path = f"crates/{crate}/{part}/{'/'.join(names)}.antt"
        text = None if path in found or part != "specs" else text_of(path)
        if text is not None:
            found.add(path)
            left += re.findall(r"^use (Rattle(?:\.\w+){3,})", text, re.M)
    return sorted(found)


def counted(paths):
    """The lines of some files, and those of them that are no import, no comment and not empty."""
    lines = [line for path in paths for line in text_of(path).splitlines()]
    return len(lines), sum(bool(line.strip()) and not line.startswith(("use ", "--")) for line in lines)


def check_trust(counts):
    """The files that docs/TRUST.md names are there, and its counts are near those of the definitions."""
    page = text_of("docs/TRUST.md")
    for path in in_backticks(page):
        if re.fullmatch(r"(crates|c|docs|tests|edits)/[\w/.]+\.\w+", path):
            counts.expect(text_of(path) is not None, f"docs/TRUST.md: {path} is not there")
    for modules, name in ((MODEL, "a model"), (MODEL + RULES, "a model and the rules")):
        found = cited(modules)
        wanted = [len(found), *counted(found)]
        row = re.search(rf"^\| {name} \| ([\d,]+) \| ([\d,]+) \| ([\d,]+) \|$", page, re.M)
        stated = [int(it.replace(",", "")) for it in row.groups()] if row else []
        is_near = stated and all(abs(a - b) <= TOLERANCE * b for a, b in zip(stated, wanted))
        counts.expect(is_near, f"docs/TRUST.md: of {name}, {stated} is not near {wanted}")


def check_edits(counts):
    """Each edit that an example of edits/README.md names is there."""
    page = text_of("edits/README.md").split("| wrong body |")[1]
    for cells in table_rows(f"|---\n| wrong body |{page}"):
        path = f"{re.fullmatch(r'edits/[a-z_]+/[a-z0-9_]+', in_backticks(cells[1])[0])[0]}.edit"
        counts.expect(text_of(path) is not None, f"edits/README.md: {path} is not there")


def check_each(counts):
    """Each edit of edits/each.txt is there, with a text. Each crate with edits has one that is tried each time."""
    tried = set()
    for line in text_of("edits/each.txt").splitlines():
        if line.strip() and not line.startswith("#"):
            name, _, text = line.partition(" ")
            counts.expect(text.strip() and text_of(f"edits/{name}.edit"), f"edits/each.txt: {name} is not there, or has no text")
            tried.add(name.partition("/")[0])
    for crate in sorted(os.listdir(f"{TOP}/edits")):
        if os.path.isdir(f"{TOP}/edits/{crate}"):
            counts.expect(crate in tried, f"edits/each.txt: {crate} has no edit that is tried each time")


def anchors_of(page):
    """What the part after '#' of a link to a page may be: its headings, in small letters and with hyphens."""
    headings = re.findall(r"^#+ (.*)$", text_of(page), re.M)
    return {re.sub(r"[^\w -]", "", it).lower().replace(" ", "-") for it in headings}


def check_links(counts):
    """Each relative link of a page leads to a file, and to a heading if it names one."""
    for page in sorted({*PAGES, *MORE_PAGES, *glob.glob("docs/*.md", root_dir=TOP)}):
        for link, anchor in re.findall(r"\]\((?!https?:)([^)#]*)(?:#([^)]*))?\)", text_of(page)):
            path = os.path.normpath(f"{os.path.dirname(page)}/{link}".lstrip("/")) if link else page
            counts.expect(os.path.exists(f"{TOP}/{path}"), f"{page}: {link} leads nowhere")
            if anchor:
                counts.expect(anchor in anchors_of(path), f"{page}: {path} has no heading {anchor}")


def print_lines():
    """Prints the definitions that the main theorem cites, with their lines."""
    found = cited(MODEL + RULES)
    for path in found:
        print(f"{counted([path])[0]:5} {path}")
    print(f"{counted(found)[0]:5} lines, of which {counted(found)[1]} are no import, no comment and not empty")


def main():
    if sys.argv[1:] == ["--lines"]:
        print_lines()
        return 0
    counts = Counts()
    for page in PAGES:
        if text_of(page) is None:
            print(f"{page} is not there\n0 passed, 1 failed")
            return 1
    checks = [
        check_recipes, check_contract, check_paths, check_commands, check_calls, check_crates, check_readme, check_printing,
        check_version, check_trust, check_edits, check_each, check_links,
    ]
    for check in checks:
        check(counts)
    print(f"{counts.passed} passed, {counts.failed} failed")
    return 1 if counts.failed else 0


if __name__ == "__main__":
    sys.exit(main())
