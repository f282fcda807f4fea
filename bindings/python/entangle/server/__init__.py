"""A server that is told its schema by a file: tables, requests with their scripts, limits, a store.

    entangle-server trips.toml             # serves it
    entangle-server trips.toml --check     # tells each fault with its line, and starts nothing

Clients name a request and give values. They never give a script, so nothing has to be quoted. What was acknowledged
outlives the process. docs/SERVER.md of the repository has the file line by line, and the calls.

It needs Python 3.11, aiohttp 3.8 and, for PostgreSQL, psycopg 3.
"""

from ._declared import ServiceFile
from ._faults import FileFault, FileRefused
from ._reading import read_file
from ._trial import try_file

__all__ = ["FileFault", "FileRefused", "ServiceFile", "read_file", "try_file"]

# A public name stands where it is imported from, in tracebacks and in pickles too.
for _thing in list(vars().values()):
    if isinstance(_thing, type) and _thing.__module__.startswith(f"{__name__}._"):
        _thing.__module__ = __name__
del _thing
