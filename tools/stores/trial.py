"""The package that is tried, and what all of tools/stores need.

The package wants a library. The toy room makes no call of it, so a stub does where none is built.
"""

import logging
import os
import subprocess
import sys
import tempfile

HERE = os.path.dirname(os.path.dirname(os.path.dirname(os.path.realpath(__file__))))
PACKAGE = os.path.join(HERE, "bindings", "python")
DEBIANS = "/usr/bin/python3"
try:
    import psycopg
except ImportError:
    if os.path.realpath(sys.executable) != os.path.realpath(DEBIANS) and os.access(DEBIANS, os.X_OK):
        os.execv(DEBIANS, [DEBIANS, "-B", *sys.argv])
    psycopg = None


class Wrong(Exception):
    """Something isn't as it has to be."""


def need(holds, what):
    if not holds:
        raise Wrong(what)


def with_library(folder):
    """Has the package find a library: the one that is built, or else a stub, since the toy room makes no call of it."""
    built = os.path.join(HERE, "bindings", "archive", "libentangle.so")
    if "ENTANGLE_LIBRARY" in os.environ or os.path.exists(built):
        return
    with open(os.path.join(PACKAGE, "entangle", "_library.py"), encoding="utf-8") as file:
        version = next(line.split('"')[1] for line in file if line.startswith("__version__"))
    stub = os.path.join(folder, "libentangle.so")
    words = ["cc", "-shared", "-fPIC", f'-DSTUB_VERSION="{version}, a stub"', "-DSTUB_TOLD=40"]
    subprocess.run([*words, os.path.join(HERE, "bindings", "c", "stub.c"), "-o", stub], check=True)
    os.environ["ENTANGLE_LIBRARY"] = stub


# A killed process and a stopped server need no disk; what is measured is on one.
MEMORY = "/dev/shm" if os.access("/dev/shm", os.W_OK) and "--measure" not in sys.argv else None
FOLDER = tempfile.TemporaryDirectory(prefix="stores-", dir=MEMORY, ignore_cleanup_errors=True)
with_library(FOLDER.name)
logging.getLogger("psycopg").setLevel(logging.ERROR)
sys.path[:0] = [PACKAGE, os.path.join(PACKAGE, "tests")]

import entangle  # noqa: E402, F401
import fake_room  # noqa: E402, F401
from entangle import stores  # noqa: E402


def raises(kind, call):
    """The error of this kind that a call raises."""
    try:
        call()
    except kind as error:
        return error
    raise Wrong(f"no {kind.__name__} is raised")


def failed(call):
    raises(stores.StoreFailed, call)


def refused(call, why):
    error = raises(stores.NotLoadable, call)
    need(error.fault is why, f"refused since {error}")
    return error
