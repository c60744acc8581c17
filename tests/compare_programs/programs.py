"""Runs a program with its standard files where a test wants them, and keeps what it did."""

import contextlib
import os
import shutil
import signal
from typing import NamedTuple

# The seconds after which a run is ended. Both programs are ended then, or they differ.
SECONDS = 60
# The bytes that a pipe takes at once.
PIPE = 65_536
FULL = "/dev/full"


class Outcome(NamedTuple):
    """What a run did: its exit code, what it wrote to its standard files, and the files that it left."""

    status: int
    out: bytes
    err: bytes
    files: dict


class Call(NamedTuple):
    """A command to run: its name in the table, its words, where its standard files are, and files that it may change."""

    name: str
    words: list
    # The path of the standard input, and whether it comes through a pipe.
    given: str = os.devnull
    piped: bool = False
    # The standard files that are full: 1, 2 or none; and whether errors go to the output.
    full: int = 0
    together: bool = False
    # The files of a folder of its own, by name; None if it runs beside the files of the batch.
    files: dict | None = None


def written(folder):
    """What is in a folder: the bytes of files, the targets of links, and names of folders."""
    found = {}
    for at, folders, names in os.walk(folder):
        for name in folders + names:
            path = os.path.join(at, name)
            if os.path.islink(path):
                found[os.path.relpath(path, folder)] = os.readlink(path)
            elif os.path.isfile(path):
                with open(path, "rb") as it:
                    found[os.path.relpath(path, folder)] = (os.stat(path).st_mode, it.read())
            else:
                found[os.path.relpath(path, folder)] = None
    return found


def fill(folder, files):
    """Makes a folder of these files: bytes, names of other files to link to, or None for a folder."""
    shutil.rmtree(folder, ignore_errors=True)
    os.mkdir(folder)
    for name, content in files.items():
        path = os.path.join(folder, name)
        if content is None:
            os.mkdir(path)
        elif isinstance(content, str):
            os.symlink(content, path)
        else:
            with open(path, "wb") as it:
                it.write(content)


class Runner:
    """Runs programs in a folder."""

    def __init__(self, folder):
        self.folder, self.apart = folder, os.path.join(folder, "apart")
        self.out, self.err = os.memfd_create("out"), os.memfd_create("err")
        self.full = os.open(FULL, os.O_WRONLY)
        self.running = None
        signal.signal(signal.SIGALRM, self.end)

    def end(self, *_):
        with contextlib.suppress(ProcessLookupError, TypeError):
            os.kill(self.running, signal.SIGKILL)

    def given(self, call):
        """The standard input, from its first byte. A pipe has all of it, if it takes so much."""
        file = os.open(call.given, os.O_RDONLY)
        if not call.piped or os.fstat(file).st_size > PIPE:
            return file
        there, into = os.pipe()
        os.write(into, os.read(file, PIPE))
        os.close(into)
        os.close(file)
        return there

    def run(self, program, call):
        os.chdir(self.folder)
        given = self.given(call)
        if call.files is not None:
            fill(self.apart, call.files)
            os.chdir(self.apart)
        for file in (self.out, self.err):
            os.ftruncate(file, 0)
            os.lseek(file, 0, os.SEEK_SET)
        out = self.full if call.full == 1 else self.out
        err = self.full if call.full == 2 else out if call.together else self.err
        actions = [(os.POSIX_SPAWN_DUP2, file, number) for number, file in enumerate((given, out, err))]
        signal.setitimer(signal.ITIMER_REAL, SECONDS)
        self.running = os.posix_spawn(program, ["clim", *call.words], {}, file_actions=actions)
        _, status = os.waitpid(self.running, 0)
        signal.setitimer(signal.ITIMER_REAL, 0)
        os.close(given)
        files = written(self.apart) if call.files is not None else {}
        printed, errors = (os.pread(it, os.fstat(it).st_size, 0) for it in (self.out, self.err))
        return Outcome(os.waitstatus_to_exitcode(status), printed, errors, files)
