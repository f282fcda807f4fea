"""What rooms over stores tell of themselves, to whoever watches them."""

from __future__ import annotations

import logging
import time
import warnings
from contextlib import contextmanager
from dataclasses import dataclass, field
from typing import Iterator, Mapping

from .._room import Stepped
from ._kept import Update, answers_text, values_text
from ._tables import MOST_ROWS

LOGGER = logging.getLogger("entangle")
LOGGER.addHandler(logging.NullHandler())


class NearlyFull(UserWarning):
    """The tables of a room have three quarters of the rows that they may have together."""


@dataclass(frozen=True)
class RowCounts:
    """How many rows each table of a room has, and how many all may have together when an epoch ends. Of tables that
    collect those count that came since the last turn that drained them."""

    of_table: Mapping[str, int]
    most: int = MOST_ROWS

    @property
    def count(self) -> int:
        """How many rows all tables have."""
        return sum(self.of_table.values())

    @property
    def are_many(self) -> bool:
        """Whether these are three quarters of the most, or more."""
        return self.count * 4 >= self.most * 3


@dataclass(frozen=True)
class StepStats:
    """What a step of a room over a store did, and how long that took, in seconds."""

    stepped: Stepped
    """What step() answers."""
    in_room: float
    """The time of the runs in memory."""
    gathering: float
    """The time in which groups were read, and batches counted."""
    in_store: float
    """The time of the transaction."""
    telling: float
    """The time in which ends were told, and hooks called."""
    runs: int
    """1 if a run was made, of ordinary scripts, of meetings or of both; else 0."""
    groups: int
    commits: int
    ended: int
    """How many tickets ended, by a commit or otherwise."""
    woken: int
    """How many were in a batch in vain, by the counts of those with a numbered patience that this step wrote."""
    transactions: int
    bytes: int
    """The bytes of the scripts, values, rows and answers that were written."""


@dataclass
class Watch:
    """What happened since it was made, and how long each phase took."""

    seconds: dict[str, float] = field(default_factory=dict)
    updates: list[Update] = field(default_factory=list)

    @contextmanager
    def phase(self, name: str) -> Iterator[None]:
        """Counts the time of what is done within it."""
        began = time.perf_counter()
        try:
            yield
        finally:
            self.seconds[name] = self.seconds.get(name, 0.0) + time.perf_counter() - began

    def stats(self, stepped: Stepped) -> StepStats:
        groups = [group for update in self.updates for group in update.groups]
        seconds = self.seconds.get
        return StepStats(
            stepped,
            seconds("room", 0.0),
            seconds("gathering", 0.0),
            seconds("store", 0.0),
            seconds("telling", 0.0),
            runs=int(stepped == "ran"),
            groups=len(groups),
            commits=sum(len(group.commits) for group in groups),
            ended=sum(len(update.ended) for update in self.updates),
            woken=sum(len(update.waiting) for update in self.updates),
            transactions=len(self.updates),
            bytes=sum(map(_bytes_of, self.updates)),
        )


def _bytes_of(update: Update) -> int:
    """The bytes of the texts that an update has."""
    texts = [text for waiter in update.waiting for text in (waiter.script, values_text(waiter.values))]
    texts += [answers_text(outcome.answers) for outcome in update.ended]
    for group in update.groups:
        texts += [repr(row) for change in group.changes.values() for row in (*change.removed, *change.added)]
    return sum(len(text.encode()) for text in texts)


def warn_of_rows(rows: RowCounts) -> None:
    """Warns that many rows are there, whoever made the call of the room."""
    of_tables = ", ".join(f"{name} {count:,}" for name, count in sorted(rows.of_table.items()))
    said = f"the tables have {rows.count:,} of {rows.most:,} rows: {of_tables}"
    LOGGER.warning(said)
    warnings.warn(said, NearlyFull, stacklevel=4)
