"""The processor time that processes have spent."""

import contextlib
import os


def _words(pid):
    """What the system says of a process, from its state on."""
    with open(f"/proc/{pid}/stat", encoding="utf-8") as file:
        return file.read().rsplit(")", 1)[1].split()


def seconds_of(process):
    """The processor time of a process."""
    words = _words(process.pid)
    return (int(words[11]) + int(words[12])) / os.sysconf("SC_CLK_TCK")


def of_server(engine):
    """The processor time of a server of PostgreSQL, with its processes that have ended."""
    first, *others = engine.processes()
    spent = sum(map(int, _words(first)[11:15]))
    for pid in others:
        with contextlib.suppress(FileNotFoundError, ProcessLookupError):
            spent += sum(map(int, _words(pid)[11:13]))
    return spent / os.sysconf("SC_CLK_TCK")
