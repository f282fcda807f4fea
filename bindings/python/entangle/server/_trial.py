"""Tries the scripts of a file in a room of memory, before anybody puts one."""

from __future__ import annotations

from typing import Iterator, Optional

from .._errors import Error, Fault, Refused
from .._refusals import BindingFault, NobodyWaits, NotARow, NotBound
from .._room import Patience, Room
from .._values import Value
from ..stores import Waiter
from ._declared import RequestType, ServiceFile
from ._faults import FileFault, FileRefused
from ._scripts import Script
from ._section import read_toml

_MOST_STEPS = 100
_NO_DIGEST = "0" * 32


def try_file(file: ServiceFile) -> None:
    """Puts each script with the least values that it may get into a room over the tables of the file. Raises
    FileRefused with each fault that a room tells."""
    try:
        room = _room(file)
    except (Fault, NotARow) as error:
        lines = read_toml(file.path).source.lines
        table = ("tables", error.table) if isinstance(error, NotARow) else ("tables",)
        raise FileRefused((FileFault(file.path, lines.of(table), f"no room can have these tables: {error}"),)) from None
    with room:
        faults = [fault for request in file.requests.values() for fault in _faults_of(room, request)]
    if faults:
        raise FileRefused(tuple(sorted(faults)))


def _room(file: ServiceFile, is_filled: bool = True) -> Room:
    """A room of memory, with the rows of the file or without any."""
    declarations = "\n".join(table.declaration for table in file.declared)
    rows = {table.name: table.initial for table in file.declared if not table.collects}
    return Room(declarations, rows if is_filled else {})


def _faults_of(room: Room, request: RequestType) -> Iterator[FileFault]:
    """The faults of the scripts of a request."""
    values: dict[str, Value] = {name: parameter.least_value() for name, parameter in request.parameters.items()}
    values["request"] = _NO_DIGEST
    tickets = []
    for script in request.scripts:
        try:
            tickets.append(room.put(script.text, script.bound(values), Patience.UNTIL_WITHDRAWN))
        except Refused as error:
            yield _told(room, request, script, values, error)
        except NotBound as error:
            yield FileFault(script.file, script.line, _unbound(request, error))
    for _ in range(_MOST_STEPS):
        if room.step() == "idle":
            break
    for ticket in tickets:
        try:
            room.withdraw(ticket)
        except NobodyWaits:  # it has ended
            continue


def _unbound(request: RequestType, error: NotBound) -> str:
    if error.fault is BindingFault.SET_BY_SCRIPT:
        return f"@{error.variable} is a parameter of {request.name}, and the script gives it a value itself"
    return f"the script of {request.name}: {error}"


def _told(room: Room, request: RequestType, script: Script, values: dict[str, Value], error: Refused) -> FileFault:
    """The fault of a script, in the lines of its file."""
    text = "\n" * (script.line - 1) + script.text
    said = room.explain(text, script.bound(values)) or ""
    _, _, explanation = said.rstrip("\n").partition("\n")
    line = script.line + (error.line or 1) - 1
    return FileFault(script.file, line, f"a script of {request.name} has the fault E{error.code}", explanation)


def not_restorable(file: ServiceFile, waiters: Iterator[Waiter]) -> Iterator[tuple[Waiter, str]]:
    """Of those who wait in a store, who can't wait in a room with the tables of the file, and why."""
    with _room(file, False) as room:
        for waiter in waiters:
            why = _refusal(room, waiter)
            if why is not None:
                yield waiter, why


def _refusal(room: Room, waiter: Waiter) -> Optional[str]:
    try:
        room.withdraw(room.put(waiter.script, waiter.values, waiter.patience))
    except Error as error:
        return str(error)
    return None
