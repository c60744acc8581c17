"""Suites that are compiled together: what is below them, of which the standard library alone takes half a minute, only once.

The tests of crates become modules of one crate. Programs become libraries of one program: it runs that one whose name it is
called by. A suite that is not joined, or is the only one of its kind, is compiled alone.
"""

import os
import re

import crates
import suites
from processes import Ran

# The program, with an arm for each that it holds.
PROGRAM = """use anyhow::Result;
use std::env;
use std::process::ExitCode;

/// What a program returns.
trait Ended {
    /// The exit code, or the error.
    fn ended(self) -> Result<ExitCode>;
}

impl Ended for ExitCode {
    fn ended(self) -> Result<ExitCode> {
        Ok(self)
    }
}

impl Ended for Result<()> {
    fn ended(self) -> Result<ExitCode> {
        self.map(|()| ExitCode::SUCCESS)
    }
}

fn main(rt: HostRuntime) -> Result<ExitCode> {
    let Some(name) = env::args(&rt)?.next() else {
        return Ok(ExitCode::SUCCESS);
    };
    match name.as_str() {
%s        _ => Ok(ExitCode::SUCCESS),
    }
}
"""


def write(path, text):
    with open(path, "w", encoding="utf-8") as it:
        it.write(text)


class Alone:
    """A suite that runs alone."""

    def __init__(self, entries):
        self.entries = entries

    def write(self, _):
        """Writes what joins the suites into a workspace, and returns its lines of crates.txt."""
        return ""

    def run(self, workspace, processes):
        """Runs the suites, and returns the result of each and the processor seconds that it took."""
        return {name: suites.run_suite(name, entry, workspace, processes) for name, entry in self.entries.items()}


class Tests(Alone):
    """The #[test] functions of crates, as those of one crate."""

    name = "joined_tests"

    def write(self, folder):
        top = f"{folder}/crates/{self.name}/src"
        for name, entry in self.entries.items():
            crates.copy_crate(f"{crates.TESTS}/{entry['folder']}/src", f"{top}/{name}", (r"\bcrate::", f"crate::{name}::"))
            os.rename(f"{top}/{name}/lib.rt", f"{top}/{name}.rt")
        write(f"{top}/lib.rt", "".join(f"mod {name};\n" for name in self.entries))
        return crates.list_line(self.name, dict.fromkeys(it for entry in self.entries.values() for it in entry["uses"]))

    def run(self, workspace, processes):
        ran = workspace.run(self.name, {"run": "tests"}, processes)
        return {name: (suites.judge_crate(entry, of_module(name, ran), None), ran.seconds) for name, entry in self.entries.items()}


def of_module(name, ran):
    """A run of tests, without the lines about those of other modules."""
    lines, is_own = [], True
    for it in ran.printed.splitlines():
        if it.startswith("test "):
            is_own = it.startswith(("test result", f"test {name}::"))
        lines += [it] * is_own
    return Ran(ran.status, "\n".join(lines), ran.log, ran.seconds)


class Programs(Alone):
    """Programs that are run on samples, or that count, as one program."""

    name = "joined_programs"

    def write(self, folder):
        lines = ""
        for name, entry in self.entries.items():
            top = f"{folder}/crates/{name}_program"
            crates.copy_crate(f"{crates.TESTS}/{entry['folder']}/src", f"{top}/src", (r"^fn main\b", "pub fn main"))
            os.rename(f"{top}/src/main.rt", f"{top}/src/lib.rt")
            lines += crates.list_line(f"{name}_program", entry["uses"])
        os.makedirs(f"{folder}/crates/{self.name}/src")
        arms = [f'        "{name}" => {name}_program::main(rt).ended(),\n' for name in self.entries]
        write(f"{folder}/crates/{self.name}/src/main.rt", PROGRAM % "".join(arms))
        return lines + crates.list_line(self.name, ["anyhow", *(f"{name}_program" for name in self.entries)])

    def run(self, workspace, processes):
        program = f"{workspace.folder}/{self.name}"
        ran = workspace.run(self.name, {"run": "count", "steps": 1}, processes, program=program)
        if not os.path.exists(program):
            said = suites.broken([*ran.printed.splitlines(), *ran.log.splitlines()])
            return {name: (said, ran.seconds) for name in self.entries}
        return {name: run_joined(name, entry, program, workspace, processes) for name, entry in self.entries.items()}


def run_joined(name, entry, program, workspace, processes):
    """Runs one of the programs, and returns its result and how long it took. If it fails, it is also run alone by the
    toolchain, which says where."""
    judge = judge_count if entry["run"] == "count" else judge_cases
    runs = [workspace.run_again(program, None, processes, words, name) for words in arguments(entry)]
    result, seconds = judge(entry, runs), sum(it.seconds for it in runs)
    if result.failed:
        alone, more = suites.run_suite(name, entry, workspace, processes)
        result.lines, seconds = [*result.lines, *alone.lines], seconds + more
    return result, seconds


def arguments(entry):
    """The arguments of each run of a program: one on each sample, or one."""
    samples = [f"{crates.TOP}/samples/{it}" for it in entry.get("samples", [])] or [None]
    return [[sample if word == "{}" else word for word in entry.get("arguments", [])] for sample in samples]


def judge_cases(entry, runs):
    """Counts the runs that print what they have to print."""
    passed = sum((it.status, it.printed) == (0, entry["prints"]) for it in runs)
    return suites.Result(passed, len(runs) - passed, [])


def judge_count(_, runs):
    """Takes the last line of the program, if its status says the same."""
    ran, = runs
    lines = ran.printed.splitlines()
    counts = suites.COUNTS.fullmatch(lines[-1]) if lines else None
    if not counts or ran.status != (counts[2] != "0"):
        return suites.broken([*lines, *ran.log.splitlines(), f"its status is {ran.status}"])
    failures = [it for it in lines if " passed, " not in it]
    return suites.Result(int(counts[1]), int(counts[2]), failures if int(counts[2]) else [])


KINDS = {"tests": Tests, "cases": Programs, "count": Programs}


def jobs(chosen):
    """What is run of these suites: those of a kind together, the others alone. A program that is compiled to refuse an
    allocation is no other one."""
    found = {}
    for name, entry in chosen.items():
        kind = None if "refuse" in entry else KINDS.get(entry["run"])
        found.setdefault(kind or name, {})[name] = entry
    return [kind(entries) if len(entries) > 1 else Alone(entries) for kind, entries in found.items()]
