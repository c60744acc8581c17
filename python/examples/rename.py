"""Renames the types of a file that have a name, and writes the copy: rename.py FILE OLD NEW COPY"""
import sys

import clim

path, old, new, copy = sys.argv[1:]
with clim.open(path) as assembly:
    tables = clim.Tables.of(assembly)
    for row in tables["TypeDef"]:
        if row["TypeName"] == old:
            row["TypeName"] = new
    with open(copy, "wb") as file:
        file.write(assembly.embed(tables.root()))
with clim.open(copy) as assembly:
    print(*[type.full_name for type in assembly.types], sep="\n")
