"""The build backend of this package (PEP 517). It needs no other package, and no network.

The wheel has the shared library that CLIM_LIBRARY names, or else the one that `c/library` built next to this folder.
Without either it has none, and the package loads the library that is installed.
"""

import base64
import hashlib
import os
import re
import zipfile

HERE = os.path.dirname(os.path.abspath(__file__))
# The time of each file in a wheel, so that the same files make the same wheel.
TIME = (2020, 1, 1, 0, 0, 0)
# The oldest version of glibc, 2.17, that a tag names.
OLDEST_GLIBC = 17


class UnsupportedOperation(Exception):
    """There is no source distribution: the library is not built from what it would have."""


def _text(path):
    with open(os.path.join(HERE, path), encoding="utf-8") as it:
        return it.read()


def _entry(name):
    """An entry of pyproject.toml."""
    return re.search(rf'^{name} = "(.*)"$', _text("pyproject.toml"), re.M)[1]


def _soname():
    """The name of the shared library that the package loads."""
    return "libclim.so." + re.search(r"^ABI_VERSION = (.*)$", _text("clim/_library.py"), re.M)[1]


def _version():
    return re.search(r'^__version__ = "(.*)"$', _text("clim/__init__.py"), re.M)[1]


def _library():
    """The bytes of the shared library, or None."""
    for path in (os.environ.get("CLIM_LIBRARY"), os.path.join(HERE, "..", "c", "out", "lib", _soname())):
        if path and os.path.exists(path):
            with open(path, "rb") as it:
                return it.read()
    return None


def _tag(library):
    """The tag of a wheel. Its platform has the version of glibc that the library needs."""
    if library is None:
        return "py3-none-any"
    needed = [int(minor) for minor in re.findall(rb"GLIBC_2\.(\d+)", library)]
    return f"py3-none-manylinux_2_{max([OLDEST_GLIBC, *needed])}_x86_64"


def _metadata():
    fields = {
        "Metadata-Version": "2.1",
        "Name": "clim",
        "Version": _version(),
        "Summary": _entry("description"),
        "Requires-Python": _entry("requires-python"),
        "Description-Content-Type": "text/markdown",
    }
    return "".join(f"{name}: {value}\n" for name, value in fields.items()) + "\n" + _text("README.md")


def _package():
    """The files of the package, by their names in a wheel."""
    for name in sorted(os.listdir(os.path.join(HERE, "clim"))):
        if name.endswith((".py", ".typed")):
            yield f"clim/{name}", _text(f"clim/{name}").encode()


def _write(directory, files, tag):
    """Writes a wheel of some files, and returns its name."""
    info, root = f"clim-{_version()}.dist-info", "true" if tag.endswith("any") else "false"
    wheel = f"Wheel-Version: 1.0\nGenerator: clim\nRoot-Is-Purelib: {root}\nTag: {tag}\n"
    files = {**files, f"{info}/METADATA": _metadata().encode(), f"{info}/WHEEL": wheel.encode()}
    record = ""
    for name, content in files.items():
        digest = base64.urlsafe_b64encode(hashlib.sha256(content).digest()).rstrip(b"=").decode()
        record += f"{name},sha256={digest},{len(content)}\n"
    files[f"{info}/RECORD"] = f"{record}{info}/RECORD,,\n".encode()
    made = f"clim-{_version()}-{tag}.whl"
    os.makedirs(directory, exist_ok=True)
    with zipfile.ZipFile(os.path.join(directory, made), "w", zipfile.ZIP_DEFLATED) as it:
        for name, content in files.items():
            entry = zipfile.ZipInfo(name, TIME)
            entry.compress_type, entry.external_attr = zipfile.ZIP_DEFLATED, 0o100644 << 16
            it.writestr(entry, content)
    return made


def build_wheel(wheel_directory, config_settings=None, metadata_directory=None):
    """Makes a wheel, and returns its name."""
    library, files = _library(), dict(_package())
    if library is not None:
        files[f"clim/{_soname()}"] = library
    return _write(wheel_directory, files, _tag(library))


def build_editable(wheel_directory, config_settings=None, metadata_directory=None):
    """Makes a wheel that leads to this folder, for `pip install --editable`."""
    return _write(wheel_directory, {"clim.pth": f"{HERE}\n".encode()}, _tag(None))


def build_sdist(sdist_directory, config_settings=None):
    """Is not supported."""
    raise UnsupportedOperation("make a wheel with ./wheel")
