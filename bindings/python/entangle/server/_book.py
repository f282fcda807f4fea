"""The requests that wait, each with its scripts."""

from __future__ import annotations

import time
from collections import Counter
from dataclasses import dataclass, field
from typing import Iterator, Mapping, Optional, Sequence

from .._tickets import Ticket
from ..stores import Outcome, Waiter
from ._declared import RequestType
from ._positions import Position, client_of, ended_position, seconds_of
from ._scripts import Label, label_of


@dataclass(eq=False)
class Waiting:
    """A request that waits: the stored texts of its scripts, the tickets of those that wait, how the others ended, and
    by whom it counts. `put_at` is when this process put it, by the clock that only goes on."""

    digest: str
    label: Label
    until: int
    scripts: dict[int, str] = field(default_factory=dict)
    tickets: dict[int, Ticket] = field(default_factory=dict)
    outcomes: dict[int, Outcome] = field(default_factory=dict)
    client: str = ""
    put_at: Optional[float] = None
    # why it waits, and after how many changes of the room that was said
    why: str = "waits"
    said_after: int = -1

    @property
    def waits(self) -> bool:
        """Whether it waits still: its first script does."""
        return 0 in self.tickets

    def position(self) -> Position:
        return Position(self.digest, self.label, self.until, "waits", why=self.why)


class Book:
    """All requests that wait, as the store has them."""

    def __init__(self, requests: Mapping[str, RequestType]) -> None:
        self._types = requests
        self.requests: dict[str, Waiting] = {}
        self.clients: Counter[str] = Counter()
        self._of_ticket: dict[Ticket, tuple[Waiting, int]] = {}
        self._headless: dict[str, Waiting] = {}

    def load(self, waiters: Sequence[Waiter]) -> None:
        """Takes in who waits in the store when it is opened."""
        for waiter in waiters:
            self.note(waiter)
        self._headless = {digest: request for digest, request in self.requests.items() if not request.waits}

    def note(self, waiter: Waiter) -> Optional[Waiting]:
        """A script waits since. None if no server has put it, or it waits already."""
        label = label_of(waiter.script)
        if label is None or waiter.key is None or waiter.ticket in self._of_ticket:
            return None
        digest, _, number = waiter.key.partition(".")
        request = self.requests.get(digest)
        if request is None:
            request = self.requests[digest] = Waiting(digest, label, seconds_of(waiter.until))
            if label.subject is not None:
                self._count(request, client_of(label.subject))
        index = int(number or 0)
        request.scripts[index], request.tickets[index] = waiter.script, waiter.ticket
        self._of_ticket[waiter.ticket] = request, index
        return request

    def name_of(self, ticket: Ticket) -> str:
        """The digest of the request that a script is of."""
        request, _ = self._of_ticket.get(ticket, (None, 0))
        return request.digest if request else ""

    def belongs(self, request: Waiting, client: str) -> None:
        """A request was put by this client now, and counts by it."""
        request.put_at = time.monotonic()
        if not request.client:
            self._count(request, client)

    def _count(self, request: Waiting, client: str) -> None:
        request.client = client
        self.clients[client] += 1

    def end(self, ended: Sequence[Outcome], number: int) -> Iterator[tuple[Waiting, Position]]:
        """Scripts have ended, together; gives the requests that have ended with them."""
        touched: dict[str, Waiting] = {}
        first = []
        for outcome in ended:
            found = self._of_ticket.pop(outcome.ticket, None)
            if found is None:
                continue
            request, index = found
            del request.tickets[index]
            request.outcomes[index] = outcome
            touched[request.digest] = request
            if index == 0:
                first.append(request)
        for request in touched.values():
            if not request.tickets:
                self._forget(request)
            elif not request.waits:
                self._headless[request.digest] = request
        for request in first:
            declared = self._types.get(request.label.request)
            outcomes, scripts = request.outcomes, request.scripts
            position = ended_position(request.digest, request.label, request.until, number, outcomes, scripts, declared)
            yield request, position

    def _forget(self, request: Waiting) -> None:
        del self.requests[request.digest]
        self._headless.pop(request.digest, None)
        if request.client:
            self.clients[request.client] -= 1
            if self.clients[request.client] <= 0:
                del self.clients[request.client]

    def orphans(self) -> list[Ticket]:
        """The scripts that wait for a request whose first script has ended."""
        return [ticket for request in self._headless.values() for ticket in request.tickets.values()]
