"""Builds the package for pip (PEP 517 and PEP 660), with nothing but Python's own library.

The wheel has the package with the shared object inside, and beside it the file `built`, which says whether that is
proved: those of the folder that ENTANGLE_ARCHIVE names; else those of entangle, which a source distribution has, or of
../archive, where tools/archive puts them.
"""

from __future__ import annotations

import base64
import hashlib
import io
import os
import re
import sysconfig
import tarfile
import zipfile
from pathlib import Path
from typing import Optional

HERE = Path(__file__).resolve().parent.parent
PACKAGE = HERE / "entangle"
LIBRARY, BUILT = "entangle/libentangle.so", "entangle/built"
# the least time that a file of a zip can have: two builds of the same files are the same
THEN = (1980, 1, 1, 0, 0, 0)

Files = dict[str, bytes]
Settings = Optional[dict[str, object]]


def project(key: str) -> str:
    """What the table [project] of pyproject.toml says under a key, whose value is a text of one line."""
    _, _, table = (HERE / "pyproject.toml").read_text(encoding="utf-8").partition("[project]\n")
    found = re.search(rf'^{key} = "(.*)"$', table, re.MULTILINE)
    if not found:
        raise ValueError(f"pyproject.toml has no {key}")
    return found.group(1)


def library() -> Files:
    """The shared object, if it is there and of this version, and how it was built."""
    folder = os.environ.get("ENTANGLE_ARCHIVE")
    places = [Path(folder)] if folder else [PACKAGE, HERE.parent / "archive"]
    found = next((place for place in places if (place / "libentangle.so").is_file()), None)
    if found is None:
        raise FileNotFoundError(f"{places[-1] / 'libentangle.so'} isn't there: tools/archive builds it")
    version = found / "version"
    number = version.read_text(encoding="utf-8").split(",")[0] if version.is_file() else project("version")
    if number != project("version"):
        wanted = project("version")
        raise ValueError(f"the library in {found} is of version {number}, and this package of {wanted}: build it anew")
    if not (found / "built").is_file():
        raise FileNotFoundError(f"{found / 'built'} isn't there: tools/archive writes it")
    return {LIBRARY: (found / "libentangle.so").read_bytes(), BUILT: (found / "built").read_bytes()}


def listed(table: str) -> dict[str, str]:
    """The lines of a table of pyproject.toml, each a key with a value."""
    _, _, rest = (HERE / "pyproject.toml").read_text(encoding="utf-8").partition(f"[{table}]\n")
    lines = rest.split("\n\n")[0].splitlines()
    return {key: value for key, _, value in (line.partition(" = ") for line in lines)}


def sources() -> Files:
    """The package's own files."""
    files = sorted(file for file in PACKAGE.rglob("*") if file.suffix in (".py", ".html") or file.name == "py.typed")
    return {file.relative_to(PACKAGE.parent).as_posix(): file.read_bytes() for file in files}


def description() -> bytes:
    """The description of the package, as METADATA and PKG-INFO have it."""
    lines = ["Metadata-Version: 2.1"]
    for word, key in [("Name", "name"), ("Version", "version"), ("Summary", "description"), ("License", "license")]:
        lines.append(f"{word}: {project(key)}")
    for extra, names in listed("project.optional-dependencies").items():
        lines.append(f"Provides-Extra: {extra}")
        lines += [f'Requires-Dist: {name}; extra == "{extra}"' for name in re.findall(r'"([^"]*)"', names)]
    lines += [f"Requires-Python: {project('requires-python')}", "Description-Content-Type: text/markdown", ""]
    return "\n".join(lines).encode() + b"\n" + (HERE / project("readme")).read_bytes()


def tag() -> str:
    """Any Python 3 on this kind of machine: the package calls the shared object through ctypes."""
    platform = re.sub("[-.]", "_", sysconfig.get_platform())
    return f"py3-none-{platform}"


def about() -> Files:
    """The files that tell installers what a wheel is, but RECORD."""
    lines = ["Wheel-Version: 1.0", "Generator: entangle", "Root-Is-Purelib: false", f"Tag: {tag()}", ""]
    scripts = ["[console_scripts]", *(f"{name} = {call[1:-1]}" for name, call in listed("project.scripts").items()), ""]
    return {
        f"{info()}/METADATA": description(),
        f"{info()}/WHEEL": "\n".join(lines).encode(),
        f"{info()}/entry_points.txt": "\n".join(scripts).encode(),
    }


def info() -> str:
    return f"{project('name')}-{project('version')}.dist-info"


def wheel(folder: str, files: Files) -> str:
    """Writes a wheel of these files; its name."""
    record = f"{info()}/RECORD"
    lines = []
    for name, content in files.items():
        digest = base64.urlsafe_b64encode(hashlib.sha256(content).digest()).rstrip(b"=").decode()
        lines.append(f"{name},sha256={digest},{len(content)}\n")
    files = {**files, record: "".join([*lines, f"{record},,\n"]).encode()}
    name = f"{project('name')}-{project('version')}-{tag()}.whl"
    with zipfile.ZipFile(os.path.join(folder, name), "w", zipfile.ZIP_DEFLATED) as archive:
        for path, content in files.items():
            entry = zipfile.ZipInfo(path, THEN)
            entry.external_attr = (0o755 if path == LIBRARY else 0o644) << 16
            entry.compress_type = zipfile.ZIP_DEFLATED
            archive.writestr(entry, content)
    return name


# ---- what pip calls


def build_wheel(folder: str, settings: Settings = None, metadata: Optional[str] = None) -> str:
    return wheel(folder, {**sources(), **library(), **about()})


def build_editable(folder: str, settings: Settings = None, metadata: Optional[str] = None) -> str:
    """A wheel that points here: the package then finds the shared object as it does in a checkout."""
    return wheel(folder, {"_entangle.pth": f"{HERE}\n".encode(), **about()})


def build_sdist(folder: str, settings: Settings = None) -> str:
    """A source distribution, with the shared object inside: nobody else can build that."""
    stem = f"{project('name')}-{project('version')}"
    others = ["pyproject.toml", project("readme"), "backend/build_wheel.py"]
    files = {**{name: (HERE / name).read_bytes() for name in others}, **sources(), **library()}
    with tarfile.open(os.path.join(folder, f"{stem}.tar.gz"), "w:gz", format=tarfile.PAX_FORMAT) as archive:
        for path, content in {"PKG-INFO": description(), **files}.items():
            entry = tarfile.TarInfo(f"{stem}/{path}")
            entry.size, entry.mode = len(content), 0o644
            archive.addfile(entry, io.BytesIO(content))
    return f"{stem}.tar.gz"
