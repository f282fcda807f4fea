"""Why a store doesn't do what it is asked for."""

from __future__ import annotations

import enum
from typing import Optional, Sequence

from .._errors import Error
from .._tickets import Ticket
from .._values import Row


class StoreError(Error):
    """The base of the errors of stores."""


class StoreFailed(StoreError):
    """The engine failed: it isn't there, its disk is full, another has the lock, a connection is lost. Its own error is
    the `__cause__`. Whether the transaction went through isn't known; the same call, made again, finds it out."""


class RefusedByStore(StoreFailed):
    """A group breaks a constraint of the store's database: UNIQUE, CHECK, a foreign key, or a trigger that refuses a
    row. Nothing of the transaction stands. The engine's own error is the `__cause__`.

    `group` is the group's number, and `tickets` has those who committed in it, as memory has it. `table` is the name of
    the table, and `row` the row that it doesn't take out or in; both are None if the engine refuses the whole, at its
    COMMIT. DurableRoom.set_aside() gets past it.
    """

    def __init__(
        self, group: int, tickets: Sequence[Ticket], table: Optional[str] = None, row: Optional[Row] = None
    ) -> None:
        super().__init__(group, tickets, table, row)
        self.group = group
        self.tickets = tuple(tickets)
        self.table = table
        self.row = row

    def __str__(self) -> str:
        numbers = ", ".join(str(ticket.number) for ticket in self.tickets)
        place = "" if self.table is None else f" with the row {self.row!r} of {self.table}"
        return f"group {self.group} of tickets {numbers} breaks a constraint{place}: {self.__cause__}"


class KeyUsedOtherwise(StoreError):
    """The key was used for another script, or for other values, under this ticket. Nothing was put."""

    def __init__(self, key: str, ticket: Ticket) -> None:
        super().__init__(key, ticket)
        self.key = key
        self.ticket = ticket

    def __str__(self) -> str:
        return f"the key {self.key!r} was used for another script or other values, under ticket {self.ticket.number}"


class StoreTaken(StoreError):
    """Another process has loaded the store since, and has it now. This one can change nothing there any more."""


class StoreDiffers(StoreError):
    """The store isn't as this process left it: a row that is to go isn't there, or one stands there twice. Somebody
    else has changed it. Nothing of the transaction stands; the same call may be made again once the store is
    repaired."""


class StoredFault(str, enum.Enum):
    """Why a table of a store can't be loaded."""

    NO_SUCH_TABLE = "there is no such table"
    NO_SUCH_COLUMN = "there is no such column"
    OTHER_TYPE = "the column has another type"
    """INT wants a column of 64 bits, and TEXT one that takes each text: whatever commits has to fit."""
    OTHER_COLUMN = "a column that isn't mapped takes no row without a value"
    """It is NOT NULL and has no default, or it is computed."""
    OF_ANOTHER_STORE = "another store has the table"
    NULL = "the value is NULL"
    OTHER_KIND = "the value is of another kind than its column"
    TOO_LONG = "the text has more than 255 bytes"
    NOT_UTF8 = "the text isn't UTF-8"
    CONTROL_CHARACTER = "a control character, U+0000 to U+001F or U+007F, stands in the text"
    TWICE = "the row stands there twice"
    TOO_MANY_ROWS = "the tables have more than 65,536 rows together"
    """Tables that collect don't count. The error says how many rows each table has."""
    ONCE = "a PRIMARY KEY or UNIQUE lets the table have no row twice, and it collects: drop that, or let it not collect"


class NotLoadable(StoreError):
    """A table of a store can't be one of a room: nothing was claimed or changed.

    `table` is its name in the store, `column` the column's name there, and `row` has the values of the mapped columns
    as they stand there. The last two are None if the fault isn't of one column or of one row. `more` is what else is to
    be said, for people.
    """

    def __init__(
        self,
        table: str,
        fault: StoredFault,
        column: Optional[str] = None,
        row: Optional[tuple[object, ...]] = None,
        more: str = "",
    ) -> None:
        super().__init__(table, fault, column, row, more)
        self.table = table
        self.fault = fault
        self.column = column
        self.row = row
        self.more = more

    def __str__(self) -> str:
        place = self.table if self.column is None else f"{self.table}.{self.column}"
        row = "" if self.row is None else f", row {self.row!r}"
        return f"{place}{row}: {self.fault.value}{self.more and ': '}{self.more}"


class NotRestored(StoreError):
    """Scripts that wait in the store can't wait in the room: most likely the tables were declared otherwise when they
    were put. `tickets` has the numbers of their tickets, ascending; `ticket` is the first. The room's own error for
    that one is the `__cause__`. A room that is opened with unrestored="set aside" gets past it."""

    def __init__(self, tickets: Sequence[int]) -> None:
        super().__init__(tickets)
        self.tickets = tuple(tickets)
        self.ticket = self.tickets[0]

    def __str__(self) -> str:
        others = f", nor {len(self.tickets) - 1} others" if len(self.tickets) > 1 else ""
        return f"ticket {self.ticket} can't wait again{others}: {self.__cause__}"
