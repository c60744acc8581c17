"""Prints the rows of a file as 'clim show' does, but each signature as its text. c/run compares them with other languages.

    texts.py CLIM [--bare] FILE      the program, and what its subcommand show takes

The texts are those of 'clim show --json'.
"""

import json
import re
import subprocess
import sys

# A cell of a line of 'clim show': a text, a blob or a signature, or another one.
CELL = re.compile(r'"[^"]*"|<[0-9a-f]*>|[^ ]+')
# What comes before the cells of a row in JSON.
BEFORE = ("table", "row", "token")


def output(*words):
    return subprocess.run(words, stdout=subprocess.PIPE, check=True, encoding="utf-8").stdout.splitlines()


def with_texts(line, row):
    number, _, cells = line.partition(": ")
    values = [value for name, value in row.items() if name not in BEFORE]
    shown = CELL.findall(cells)
    if len(shown) != len(values):
        sys.exit(f"texts: the two lines of a row have {len(shown)} and {len(values)} cells: {line}")
    pairs = zip(shown, values)
    return f"{number}: " + " ".join(f"<{it['text']}>" if isinstance(it, dict) else cell for cell, it in pairs)


def main(program, *words):
    rows = map(json.loads, output(program, "show", "--json", *words))
    for line in output(program, "show", *words):
        print(line if line.startswith("table ") else with_texts(line, next(rows)))


main(*sys.argv[1:])
