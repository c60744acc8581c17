"""Programs that Mono compiles, runs and reads, before and after `clim embed`; and the assemblies that come with Mono."""

import collections
import os
import random
import re
import shutil
import subprocess

HERE = os.path.dirname(os.path.realpath(__file__))
SOURCES = f"{HERE}/mono_programs"
LIBRARIES = "/usr/lib/mono"
TOOLS = ("mono", "mcs", "monodis", "pedump")

# The programs: the name, the source, and the other arguments of mcs. `part` is a module of `whole`.
PROGRAMS = [
    ("part.netmodule", "part", ["-target:module"]),
    ("whole.exe", "whole", ["-addmodule:part.netmodule"]),
    ("resources.exe", "resources", [f"-resource:{SOURCES}/part.cs,text", f"-resource:{SOURCES}/tables.cs"]),
    ("queries.exe", "queries", ["-r:System.Core", "-r:Microsoft.CSharp"]),
    ("wide.exe", "tables", ["-unsafe", "-platform:x64"]),
    ("narrow.exe", "tables", ["-unsafe", "-platform:x86"]),
    *((f"{it}.exe", it, []) for it in ("attributes", "closures", "exceptions", "generics", "iterators", "natives")),
]

# What Mono says of a copy: all of it is that of the file.
QUESTIONS = (["mono"], ["monodis"], ["monodis", "--assembly"], ["pedump", "--verify", "all"])


def missing():
    """The tools of Mono that are not on this machine."""
    return [it for it in TOOLS if not shutil.which(it)]


def said(words, folder):
    """What a program prints, and how it ends."""
    ran = subprocess.run(words, cwd=folder, stdin=subprocess.DEVNULL, stdout=subprocess.PIPE, stderr=subprocess.STDOUT, check=False)
    return ran.returncode, ran.stdout


def compiled(folder):
    """Compiles the programs, and returns their names."""
    for name, source, words in PROGRAMS:
        status, text = said(["mcs", "-nologo", *words, f"-out:{name}", f"{SOURCES}/{source}.cs"], folder)
        if status:
            raise AssertionError(f"mcs {source}.cs: {text.decode(errors='replace')}")
    return [name for name, _, _ in PROGRAMS]


def copies(clim, folder, name):
    """Makes two copies of a program, in folders of their own: with its canonical root, and with a root that is longer than the
    old one. Returns the folders."""
    root = f"{folder}/{name}.root"
    said([clim, "rewrite", name, root], folder)
    with open(root, "ab") as it:
        it.write(random.Random(1).randbytes(3000))
    made = []
    for kind, words in (("in_place", []), ("appended", ["--root", root])):
        to = f"{folder}/{kind}"
        os.makedirs(to, exist_ok=True)
        status, text = said([clim, "embed", *words, name, f"{to}/{name}"], folder)
        if status:
            raise AssertionError(f"embed {name}, {kind}: {text.decode(errors='replace')}")
        made.append(to)
    return made


def check_programs(clim, folder):
    """Yields a name and a test for each question about each copy of each program."""
    for name in (names := compiled(folder)):
        copies(clim, folder, name)
    for name in names:
        for words in QUESTIONS:
            if words == ["mono"] and not name.endswith(".exe"):
                continue
            first = said([*words, name], folder)
            for kind in ("in_place", "appended"):
                yield f"{name}, {kind}: {' '.join(words)}", said([*words, name], f"{folder}/{kind}") == first
            if words == ["mono"]:
                yield f"{name}: mono", first[0] == 0


def assemblies(most):
    """The assemblies of Mono, each once, at most `most` of them."""
    found = {}
    for where, _, names in sorted(os.walk(LIBRARIES)):
        for name in sorted(names):
            if name.endswith((".dll", ".exe")):
                found.setdefault(os.path.realpath(f"{where}/{name}"), None)
    return list(found)[:most]


def check_assembly(clim, folder, path, reasons):
    """Why the copy of an assembly is wrong; nothing if it is right, or if it is refused with a reason, which is counted."""
    out, again = f"{folder}/out.dll", f"{folder}/again.dll"
    for it in (out, again):
        if os.path.exists(it):
            os.remove(it)
    status, text = said([clim, "embed", path, out], folder)
    if status == 1:
        reasons[text.decode(errors="replace").strip().splitlines()[-1].strip()] += 1
        return "something was written" if os.path.exists(out) else None
    if status:
        return f"exit code {status}"
    reasons["embedded"] += 1
    if said([clim, "compare", path, out], folder) != (0, b"equal\n"):
        return "it is not equal"
    if said([clim, "digest", path], folder)[1].split()[:1] != said([clim, "digest", out], folder)[1].split()[:1]:
        return "it has another digest"
    said([clim, "embed", out, again], folder)
    with open(out, "rb") as left, open(again, "rb") as right:
        if left.read() != right.read():
            return "embed of the result is not the result"
    if identity(path, folder) != identity(out, folder):
        return "monodis --assembly prints something else"
    return None


def identity(path, folder):
    """What monodis reads of an assembly's row, but for the offset of the public key in the heap."""
    status, text = said(["monodis", "--assembly", path], folder)
    return status, re.sub(rb"BlobPtr \(0x[0-9a-f]{8}\)", b"BlobPtr", text)


def check_assemblies(clim, folder, most):
    """Yields a name and a test for each assembly, and prints how many were refused, by reason."""
    reasons = collections.Counter()
    for path in assemblies(most):
        why = check_assembly(clim, folder, path, reasons)
        yield f"{path}: {why or 'as it should be'}", why is None
    for reason, count in sorted(reasons.items()):
        print(f"{count}: {reason}")
