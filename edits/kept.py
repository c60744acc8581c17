"""What earlier runs on this machine saw refused.

Each refusal is a file in the cache folder of the user. Its name is a sum of all that the check read, so it never goes
out of date. A file that is broken counts for nothing.
"""

import contextlib
import json
import os
import stat
import tempfile
import time
import typing

# How long a refusal is kept after a run has used it, in seconds.
LONGEST = 30 * 24 * 60 * 60


class Refusal(typing.NamedTuple):
    """Why the prover refused an edit, and whether only a check of the whole crate showed it."""

    reason: str
    is_whole: bool


class Kept:
    """The refusals that are kept, or none of them if each edit is to be tried anew."""

    def __init__(self, is_anew):
        home = os.environ.get("XDG_CACHE_HOME", "")
        self.folder = f"{home if os.path.isabs(home) else os.path.expanduser('~/.cache')}/clim-edits"
        self.is_anew = is_anew
        # Nobody else may put a file there.
        self.is_ours = False
        with contextlib.suppress(OSError):
            os.makedirs(self.folder, 0o700, exist_ok=True)
            found = os.lstat(self.folder)
            self.is_ours = stat.S_ISDIR(found.st_mode) and found.st_uid == os.geteuid() and not found.st_mode & 0o022

    def refusal(self, name):
        """The refusal that was kept by this sum, or None."""
        path = f"{self.folder}/{name}"
        if self.is_ours and not self.is_anew:
            with contextlib.suppress(OSError, ValueError, KeyError, TypeError, RecursionError):
                with open(path, encoding="utf-8") as it:
                    read = json.load(it)
                if read["sum"] == name and isinstance(read["reason"], str) and isinstance(read["is_whole"], bool):
                    os.utime(path)
                    return Refusal(read["reason"], read["is_whole"])
        return None

    def keep(self, name, refusal):
        """Keeps a refusal. It is written apart and renamed, so that no other run reads a part of it."""
        if self.is_ours:
            with contextlib.suppress(OSError):
                how = {"dir": self.folder, "prefix": "new-", "delete": False, "encoding": "utf-8"}
                with tempfile.NamedTemporaryFile("w", **how) as it:
                    json.dump({"sum": name, **refusal._asdict()}, it)
                os.replace(it.name, f"{self.folder}/{name}")

    def shrink(self):
        """Removes what no run has used for long."""
        if self.is_ours:
            with contextlib.suppress(OSError), os.scandir(self.folder) as files:
                for it in files:
                    with contextlib.suppress(OSError):
                        if it.stat(follow_symlinks=False).st_mtime < time.time() - LONGEST:
                            os.remove(it.path)
