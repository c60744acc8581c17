"""Checks of crates with edits, and what they read."""

import contextlib
import enum
import glob
import hashlib
import importlib.machinery
import importlib.util
import os
import re
import shutil
import subprocess
import sys
import tempfile
import threading
import typing

HERE = os.path.dirname(os.path.realpath(__file__))
LOADER = importlib.machinery.SourceFileLoader("build", f"{os.path.dirname(HERE)}/build")
build = importlib.util.module_from_spec(importlib.util.spec_from_loader("build", LOADER))
sys.dont_write_bytecode = True
LOADER.exec_module(build)

# The folders of the toolchain that a check reads.
KIT_PARTS = ("bin", "toolchain", "logic_built", "rattle/logic", "rattle/antt")


class Verdict(enum.Enum):
    """What a check came to."""

    PROVED = "NOT REFUSED"
    REFUSED = "refused"
    # The prover reached a limit of its own.
    UNDECIDED = "NOT DECIDED"
    # It was stopped.
    STOPPED = "NOT TRIED"
    # It was not asked: the edited text cannot be read or compiled.
    NONE = "BAD EDIT"


def verdict_of(status, last):
    """The verdict of a check, by its exit code and its last line."""
    counted = re.match(r"only=(\d+) proved=(\d+)$", last)
    is_all = counted[1] == counted[2] if counted else bool(re.match(r"logic=proved\b", last))
    if status == 0 and is_all:
        return Verdict.PROVED
    if status == 1 and (counted and not is_all or re.match(r"logic=not-proved\b", last)):
        return Verdict.REFUSED
    return Verdict.UNDECIDED if status == 3 else Verdict.STOPPED if status < 0 else Verdict.NONE


class Checked(typing.NamedTuple):
    """A check: its verdict, its exit code, what it printed, and the seconds of a processor that it took."""

    verdict: Verdict
    status: int
    lines: list
    seconds: float

    def refused_itself(self, crate, function):
        """What the prover says of a function that it refuses, and not for a function which that one calls, or nothing.

        Of the lines, notes come before the function's own line, and errors of its answers have their path.
        """
        answers, notes = f"./proofs/{function.replace('::', '/')}/", []
        for line in self.lines:
            if line.startswith(f"fn {crate}::{function}: ") and re.search(r": (not proved|no proof\b(?!.* it calls ).*)$", line):
                return [it for it in self.lines if it.startswith(answers)] + notes + [line]
            if not line.startswith("./proofs/"):
                notes = [] if line.startswith("fn ") else [*notes, line]
        return []


def linked(folder, to):
    """Copies what a check kept, by links where these can be made: a check replaces such a file, and changes none."""

    def copy(one, other):
        if one.endswith(".oantt"):
            with contextlib.suppress(OSError):
                return os.link(one, other)
        return shutil.copy2(one, other)

    shutil.copytree(folder, to, copy_function=copy)


def bytes_of(file):
    with open(file, "rb") as it:
        return it.read()


def sum_of(*parts):
    return hashlib.sha256(repr(parts).encode()).hexdigest()


def sum_of_tools(kit):
    """A sum of what checks: these scripts, and the toolchain by its name and the size and the time of each file of it."""
    scripts = [bytes_of(it) for it in (f"{HERE}/run", *sorted(glob.glob(f"{HERE}/*.py")), f"{build.TOP}/build")]
    files = [f"{at}/{name}" for part in KIT_PARTS for at, _, names in os.walk(f"{kit}/{part}") for name in names]
    # An rlib's other files are held to the sums in this one.
    files += glob.glob(f"{kit}/rlibs/*/format")
    stats = [(path, found.st_size, found.st_mtime_ns) for path in sorted(files) for found in [os.lstat(path)]]
    return sum_of(scripts, build.text_of(f"{kit}/KIT-ID"), build.text_of(f"{kit}/WHAT"), stats)


def sources_of(crate):
    """The sources of a crate, by path."""
    return {os.path.relpath(it, crate.folder): bytes_of(it) for it in crate.sources()}


def count_files(folder):
    return sum(len(names) for _, _, names in os.walk(folder))


class Checker:
    """Checks copies of a crate with other texts, each a copy of the sources as they were at the start."""

    def __init__(self, crate, maker):
        self.crate, self.maker, self.sources = crate, maker, sources_of(crate)
        self.sums = {path: sum_of(source) for path, source in self.sources.items()}
        self.below = self.sums_below()
        # The folder of the check that kept most, which the next one begins with.
        self.kept, self.lock = f"{maker.work}/{crate.name}", threading.Lock()
        os.mkdir(self.kept)

    def sums_below(self):
        """The sums of the libraries below the crate."""
        return [sum_of(bytes_of(f"{it.rlib}/format")) for it in self.crate.below]

    def sum(self, edit):
        """A sum of all that a check of the crate with an edit reads, beside the tools."""
        sums = {**self.sums, **{path: sum_of(text.encode()) for path, text in edit.texts.items()}}
        return sum_of(self.crate.line, self.below, sorted(sums.items()), edit.functions)

    def run(self, words, room):
        """Runs the prover in a folder to its end, unless the run is to end."""
        if self.maker.is_stopped:
            return Checked(Verdict.STOPPED, 0, [""], 0)
        with tempfile.TemporaryFile("w+", errors="replace") as said:
            how = {"stdin": subprocess.DEVNULL, "stdout": said, "stderr": subprocess.STDOUT, "start_new_session": True}
            ran = subprocess.Popen(words, cwd=room, **how)
            build.lower(ran.pid)
            self.maker.running.add(ran)
            _, status, used = os.wait4(ran.pid, 0)
            self.maker.running.discard(ran)
            ran.returncode = os.waitstatus_to_exitcode(status)
            said.seek(0)
            lines = said.read().splitlines() or [""]
        return Checked(verdict_of(ran.returncode, lines[-1]), ran.returncode, lines, used.ru_utime + used.ru_stime)

    def check(self, texts, functions, kept=None):
        """Checks a copy of the crate with these texts: these functions, or the whole crate if none is given. It begins with
        what a check kept in a folder, if one is given, and keeps more there."""
        kit = self.maker.kit
        with tempfile.TemporaryDirectory(prefix="edit-") as room:
            for path, source in self.sources.items():
                os.makedirs(os.path.dirname(f"{room}/{path}"), exist_ok=True)
                with open(f"{room}/{path}", "wb") as it:
                    it.write(texts[path].encode() if path in texts else source)
            words = [f"{kit}/bin/rattle", "check", *self.crate.words(kit, 1)]
            words += [word for it in dict.fromkeys(functions) for word in ("--only", it)]
            words += ["--incremental", kept] if kept else []
            # As a static library it reads all of the libraries below, which functions that are named do not need.
            words += ["--crate-type", "staticlib"] if self.crate.is_static and not functions else []
            return self.run(words, room)

    def check_functions(self, texts, functions):
        """Checks functions with these texts, and what they call. It begins with what an earlier check kept of others."""
        with tempfile.TemporaryDirectory(prefix="kept-", dir=self.maker.work) as room:
            with self.lock:
                linked(self.kept, f"{room}/kept")
            checked = self.check(texts, functions, f"{room}/kept")
            with self.lock:
                if count_files(f"{room}/kept") > count_files(self.kept):
                    shutil.rmtree(self.kept)
                    shutil.move(f"{room}/kept", self.kept)
        return checked

    def check_edit(self, edit):
        """Checks the functions that show an edit, and the whole crate if these are not refused."""
        found = [self.check_functions(edit.texts, edit.functions)] if edit.functions else []
        is_wrong = edit.only and found[0].status == 2
        if not found or not is_wrong and found[0].verdict not in (Verdict.REFUSED, Verdict.STOPPED):
            found.append(self.check(edit.texts, []))
        return found
