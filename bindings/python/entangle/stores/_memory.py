"""What a process has in memory of a room over a store."""

from __future__ import annotations

import heapq
from collections import deque
from contextlib import suppress
from dataclasses import dataclass, replace
from datetime import datetime
from typing import Callable, Mapping, Optional, Protocol, Sequence, Union

from .._groups import Group
from .._refusals import BatchIsOn, NobodyWaits
from .._room import EpochReport, Patience, Stepped
from .._tickets import Ticket, TicketState, TicketUnknown, TicketWithdrawn
from .._values import Row, Value
from ._errors import RefusedByStore
from ._kept import Loaded, Outcome, Update, Waiter, outcomes_of

# Of so many tickets that ended, and of so many groups, a room over a store keeps that they came.
_MOST_KEPT = 1_024
# Behind so many steps that ran the batches are counted, if none is idle before.
_MOST_UNCOUNTED = 64


class OpenRoom(Protocol):
    """The calls of a room that one with a store makes: those of entangle.Room."""

    def put(self, script: str, values: Mapping[str, Value], patience: Union[int, Patience]) -> Ticket: ...

    def restore(
        self, ticket: Ticket, script: str, values: Mapping[str, Value], patience: Union[int, Patience], batches: int
    ) -> None: ...

    def explain(self, script: str, values: Mapping[str, Value]) -> Optional[str]: ...

    def withdraw(self, ticket: Ticket) -> None: ...

    def step(self) -> Stepped: ...

    def further(self) -> None: ...

    def state(self, ticket: Ticket) -> TicketState: ...

    def batches(self, tickets: Sequence[Ticket]) -> list[Optional[int]]: ...

    def waiting(self, first: Ticket) -> list[Ticket]: ...

    def why(self, ticket: Ticket) -> str: ...

    def table(self, name: str) -> list[Row]: ...

    def epoch(self) -> int: ...

    def turn(self, *drained: str) -> int: ...

    def report(self, version: int = 1) -> Optional[EpochReport]: ...

    def groups(self, first: int) -> list[Group]: ...

    def settled_through(self, number: int) -> None: ...

    def close(self) -> None: ...


# How a room is opened: over declarations and rows of tables, with the numbers from which it goes on.
Opens = Callable[..., OpenRoom]


@dataclass(frozen=True)
class Pending:
    """What is to be written before anything else; how many rows each table has behind it; whether it has the batches of
    all who are counted; and the tickets which nobody has unless the call returns that put them."""

    update: Update
    rows: Mapping[str, int]
    counts: bool = False
    orphans: frozenset[Ticket] = frozenset()


class Memory:
    """A room, and what stands of it in the store.

    Any line of a call may be interrupted. So whatever is begun is noted before, in one assignment, and whatever is done
    behind a write can be done again: `pending` stays until all of it is done. Who came into the room alone is found
    there, by a ticket that the store hasn't.
    """

    def __init__(self, room: OpenRoom, loaded: Loaded) -> None:
        self.room = room
        self.epoch, self.next_ticket, self.last_group = loaded.epoch, loaded.next_ticket, loaded.last_group
        self.rows: Mapping[str, int] = {name: len(rows) for name, rows in loaded.rows.items()}
        # who waits in the store; those of them whose batches count, by ticket, and those with a key; and until when
        self.waiting: dict[Ticket, Waiter] = {}
        self.counted: dict[Ticket, Waiter] = {}
        self.keys: dict[str, Ticket] = {}
        self._due: list[tuple[datetime, int]] = []
        # what is to be written, and why the store refuses it; and who is to be withdrawn
        self.pending: Optional[Pending] = None
        self.refused: Optional[RefusedByStore] = None
        self.leaving: set[Ticket] = set()
        # how many steps may have run since batches were counted last
        self.uncounted = 0
        # the last that ended, and the last groups, as the store has them
        self.ended: deque[Ticket] = deque(maxlen=_MOST_KEPT)
        self.groups: deque[Group] = deque(maxlen=_MOST_KEPT)

    # ---- what was done

    def gathered(self, is_idle: bool) -> Optional[Pending]:
        """What the room did since the last write. None if that is nothing."""
        left = self._left()
        groups = tuple(self.room.groups(self.last_group + 1))
        told = [outcome for group in groups for outcome in outcomes_of(group)]
        by_groups = {outcome.ticket for outcome in told}
        withdrawn = [Outcome(ticket, None, TicketWithdrawn()) for ticket in left if ticket not in by_groups]
        ended = tuple(withdrawn + told)
        is_time = self.uncounted > 0 and (is_idle or self.uncounted >= _MOST_UNCOUNTED)
        counted = self._recounted({outcome.ticket for outcome in ended}) if is_time else ()
        epoch = self.room.epoch()
        if not (ended or groups or counted) and epoch == self.epoch:
            self.uncounted = 0 if is_time else self.uncounted
            return None
        return Pending(Update(groups, ended, counted, self.next_ticket, epoch), self._rows_behind(groups), is_time)

    def _left(self) -> list[Ticket]:
        """Withdraws in the room who is to leave; those of them who wait in the store. Who is in a batch that isn't over
        leaves later."""
        self.leaving.update(self.room.waiting(Ticket(self.next_ticket)))
        left = []
        for ticket in sorted(self.leaving):
            try:
                self.room.withdraw(ticket)
            except BatchIsOn:
                continue
            except NobodyWaits:
                if not isinstance(self.room.state(ticket), (TicketWithdrawn, TicketUnknown)):
                    self.leaving.discard(ticket)  # it ended otherwise before, which a group tells
                    continue
            if ticket in self.waiting:
                left.append(ticket)
            else:
                self.leaving.discard(ticket)
        return left

    def _recounted(self, ended: set[Ticket]) -> tuple[Waiter, ...]:
        """Those who were in more batches since."""
        waiters = [waiter for ticket, waiter in self.counted.items() if ticket not in ended]
        batches = self.room.batches([waiter.ticket for waiter in waiters])
        return tuple(
            replace(waiter, batches=count)
            for waiter, count in zip(waiters, batches)
            if count is not None and count != waiter.batches
        )

    def _rows_behind(self, groups: Sequence[Group]) -> Mapping[str, int]:
        """How many rows each table has behind groups."""
        rows = dict(self.rows)
        for group in groups:
            for name, change in group.changes.items():
                rows[name] = rows.get(name, 0) + len(change.added) - len(change.removed)
        return rows

    def roll_back(self, tickets: Sequence[Ticket]) -> None:
        """Withdraws those who came into the room alone, now or before anything else is written."""
        self.leaving.update(tickets)
        for ticket in tickets:
            with suppress(NobodyWaits):
                self.room.withdraw(ticket)
            self.leaving.discard(ticket)

    # ---- what stands

    def stands(self, pending: Pending) -> None:
        """Notes what stands in the store."""
        update = pending.update
        self.epoch, self.next_ticket, self.rows = update.epoch, update.next_ticket, pending.rows
        for waiter in update.waiting:
            self.note(waiter)
        for outcome in update.ended:
            self._end(outcome.ticket)
        for group in update.groups:
            if not self.groups or self.groups[-1].number < group.number:
                self.groups.append(group)
        if update.groups:
            self.last_group = update.groups[-1].number
            self.room.settled_through(self.last_group)
        if pending.counts:
            self.uncounted = 0

    def note(self, waiter: Waiter) -> None:
        """Somebody waits in the store."""
        if waiter.until is not None and waiter.ticket not in self.waiting:
            self._note_due(waiter.until, waiter.ticket)
        self.waiting[waiter.ticket] = waiter
        if waiter.patience is not Patience.UNTIL_WITHDRAWN:
            self.counted[waiter.ticket] = waiter
        if waiter.key is not None:
            self.keys[waiter.key] = waiter.ticket

    def _end(self, ticket: Ticket) -> None:
        """Somebody waits no more in the store."""
        waiter = self.waiting.get(ticket)
        if waiter is None:
            return
        if not self.ended or self.ended[0] != ticket:
            self.ended.appendleft(ticket)
        self.counted.pop(ticket, None)
        self.leaving.discard(ticket)
        if waiter.key is not None:
            self.keys.pop(waiter.key, None)
        del self.waiting[ticket]

    # ---- until when

    def _note_due(self, until: datetime, ticket: Ticket) -> None:
        """Somebody waits until a point in time. Who ended before it goes from the heap once half of it are such."""
        if len(self._due) > 2 * len(self.waiting) + _MOST_KEPT:
            due = [(one.until, one.ticket.number) for one in self.waiting.values() if one.until is not None]
            heapq.heapify(due)
            self._due = due
        heapq.heappush(self._due, (until, ticket.number))

    def due_at(self, time: datetime) -> list[Ticket]:
        """The tickets of those who wait, and whose time has come at this point, ascending."""
        found, places = set(), [0]
        while places:
            at = places.pop()
            if at < len(self._due) and self._due[at][0] <= time:
                found.add(self._due[at][1])
                places += (2 * at + 1, 2 * at + 2)
        while self._due and Ticket(self._due[0][1]) not in self.waiting:
            heapq.heappop(self._due)
        return [ticket for ticket in map(Ticket, sorted(found)) if ticket in self.waiting]
