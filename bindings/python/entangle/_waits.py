"""Those who wait for the end of a ticket. The call that ends the ticket tells each of them."""

from __future__ import annotations

import threading
from dataclasses import dataclass
from typing import Callable, Union

from ._errors import Error
from ._tickets import Ending, Ticket


@dataclass(frozen=True)
class Broken:
    """A wait ends with an error, of which each who waits gets one of their own."""

    kind: type[Error]
    sentence: str


# What those who wait for a ticket are told, and a call that tells it.
News = Union[Ending, Broken]
Tell = Callable[[News], None]


def ending(told: News) -> Ending:
    """How a ticket ended; or the error, raised."""
    if isinstance(told, Broken):
        raise told.kind(told.sentence)
    return told


class Waits:
    """Who waits for which ticket."""

    def __init__(self) -> None:
        # a thread that has it may come here again, by what the garbage collector runs
        self._lock = threading.RLock()
        self._of_ticket: dict[Ticket, list[Tell]] = {}

    def add(self, ticket: Ticket, tell: Tell) -> None:
        """One waits, to be told once at most."""
        with self._lock:
            self._of_ticket.setdefault(ticket, []).append(tell)

    def forget(self, ticket: Ticket, tell: Tell) -> None:
        """One waits no more, or was told."""
        with self._lock:
            tells = self._of_ticket.get(ticket, [])
            if tell in tells:
                tells.remove(tell)
            if not tells:
                self._of_ticket.pop(ticket, None)

    def tell(self, ticket: Ticket, told: News) -> None:
        """Tells all who wait for a ticket. They are forgotten behind that: whoever is interrupted meanwhile tells them
        again."""
        with self._lock:
            tells = list(self._of_ticket.get(ticket, ()))
        for tell in tells:
            tell(told)
        for tell in tells:
            self.forget(ticket, tell)

    def has(self, ticket: Ticket) -> bool:
        """Whether anybody waits for a ticket."""
        return ticket in self._of_ticket

    def tickets(self) -> list[Ticket]:
        """The tickets for which anybody waits."""
        with self._lock:
            return list(self._of_ticket)
