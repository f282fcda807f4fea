"""Where transactions stand, and their fates."""

from __future__ import annotations

import enum
from dataclasses import dataclass
from typing import ClassVar, Literal, Union

from ._library import Position


class Failure(str, enum.Enum):
    """Why a statement failed."""

    OVERFLOW = "F1"
    """A sum or a difference went beyond 64 bits."""
    TABLE_FULL = "F2"
    """More than 65,536 rows would have stood in a table."""


@dataclass(frozen=True)
class Waiting:
    """It waits for a run, and was in this number of runs."""

    runs: int = 0
    kind: ClassVar[Literal["waiting"]] = "waiting"
    is_finished: ClassVar[Literal[False]] = False


@dataclass(frozen=True)
class Running:
    """It is a member of a run that is on, by step() or since memory ran out; run() goes on with that run."""

    kind: ClassVar[Literal["running"]] = "running"
    is_finished: ClassVar[Literal[False]] = False


@dataclass(frozen=True)
class Committed:
    """It committed, as the one of this number, in its run of that number."""

    number: int
    runs: int
    kind: ClassVar[Literal["committed"]] = "committed"
    is_finished: ClassVar[Literal[True]] = True


@dataclass(frozen=True)
class GaveUp:
    """It was in as many runs as its script asks for."""

    runs: int
    kind: ClassVar[Literal["gave up"]] = "gave up"
    is_finished: ClassVar[Literal[True]] = True


@dataclass(frozen=True)
class RolledBack:
    """Its script ends with ROLLBACK."""

    runs: int
    kind: ClassVar[Literal["rolled back"]] = "rolled back"
    is_finished: ClassVar[Literal[True]] = True


@dataclass(frozen=True)
class Failed:
    """A statement failed."""

    failure: Failure
    runs: int
    kind: ClassVar[Literal["failed"]] = "failed"
    is_finished: ClassVar[Literal[True]] = True


# What became of a transaction.
Fate = Union[Committed, GaveUp, RolledBack, Failed]

# Where a transaction stands. Each has its `kind`, and tells by `is_finished` whether it is a fate.
Standing = Union[Waiting, Running, Committed, GaveUp, RolledBack, Failed]

# Why a statement failed, by the number that the library tells.
FAILURES = {1: Failure.OVERFLOW, 2: Failure.TABLE_FULL}


def standing_of(position: Position) -> Standing:
    """What the library tells of a transaction."""
    if position.kind == 1:
        return Waiting(position.runs)
    if position.kind <= 5:
        return Running()
    if position.kind == 6:
        return Committed(position.number, position.runs)
    if position.kind == 7:
        return GaveUp(position.runs)
    if position.kind == 8:
        return RolledBack(position.runs)
    assert position.kind == 9, "a transaction stands in one of nine ways"
    return Failed(FAILURES[position.failure], position.runs)
