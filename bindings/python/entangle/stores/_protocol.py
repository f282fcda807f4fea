"""What a store does."""

from __future__ import annotations

from datetime import datetime
from typing import Callable, Optional, Protocol, Sequence

from .._groups import Group
from .._tickets import Ticket
from ._kept import Loaded, Outcome, UsedKey, Waiter
from ._tables import Table


# What is made of that which a store has, before it is claimed: those who end by that. What it raises, load() raises.
Ready = Callable[[Loaded], Sequence[Outcome]]


def nobody_ends(loaded: Loaded) -> Sequence[Outcome]:
    """Takes what a store has as it is."""
    return ()


class Store(Protocol):
    """A database that has all that a room did and told: its tables, who waits, and how everybody else ended.

    One process has it at a time: the one that loaded it last. Each call is one transaction. Any call may raise
    StoreFailed, and can be made again then.
    """

    def load(self, tables: Sequence[Table], ready: Ready = nobody_ends) -> Loaded:
        """Claims the store for this process, and gives what it has. Whoever had it before raises StoreTaken from then
        on.

        Tables that aren't there are made. `ready` is called within the transaction, with what the store has; those
        whom it answers end in the same transaction. If the transaction is made again, so is this call. Raises
        NotLoadable for the first thing that can't be loaded, and what `ready` raises: then nothing has changed, and
        whoever had the store has it still.
        """

    def reload(self, ready: Ready = nobody_ends) -> Loaded:
        """Does what load() does, over the same tables, for the process that has the store: what it had to write last,
        and isn't known to stand, is given up if it doesn't. Raises StoreTaken if another process has the store. After
        StoreFailed, or an interruption, make it again before anything is written."""

    def apply(
        self,
        groups: Sequence[Group],
        ended: Sequence[Outcome],
        waiting: Sequence[Waiter],
        next_ticket: int,
        epoch: int,
    ) -> None:
        """Writes what a room did since the last apply(), all of it or nothing: the changes of whole groups, in order;
        how those ended who wait no more; who waits since, and of whom the number of batches is another; the ticket from
        which the room goes on, and the number of its epoch.

        It goes through once, however often it is made: after StoreFailed, or an interruption, make it again with the
        same arguments. Otherwise arguments raise ValueError. Raises RefusedByStore if a group breaks a constraint of
        the database, StoreTaken if another process has the store, and StoreDiffers if a change doesn't touch exactly
        the one row that it should: then nothing of it stands.
        """

    def check(self) -> None:
        """Raises StoreTaken if another process has the store."""

    def outcome(self, ticket: Ticket) -> Optional[Outcome]:
        """How a script ended, as it stands in the store, without answers if it was forgotten. None if it hasn't, or
        nobody has the ticket."""

    def ticket_of(self, key: str) -> Optional[Ticket]:
        """The ticket of the request with this key, if there is one."""

    def tickets_of(self, keys: Sequence[str]) -> dict[str, UsedKey]:
        """The tickets of those of these keys that were used, each with the digest of what was asked."""

    def forget(self, before: datetime, first: int = 0) -> tuple[int, Optional[int]]:
        """Looks at the next 1,000 tickets from this number on. Those of them that ended before a point in time go, with
        their answers; of one with a key NAME_keys keeps the key's digest and the ending. How many went, and the
        number from which to go on; None behind the last ticket. Raises StoreTaken."""

    def forget_keys(self, before: datetime, first: int = 0) -> tuple[int, Optional[int]]:
        """Does the same with what NAME_keys keeps of tickets that ended before a point in time."""

    def close(self) -> None:
        """Gives up the connection; nothing that was written is lost. load() connects anew."""
