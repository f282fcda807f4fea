"""Why calls of a room do nothing, beside the faults that have a number."""

from __future__ import annotations

import enum
from typing import Optional

from ._errors import Error, Refused

_TOO_LARGE = "the number has more than 64 bits"
_TOO_LONG = "the text has more than 255 bytes"
_NOT_UTF8 = "the text isn't UTF-8"
_CONTROL_CHARACTER = "a control character, U+0000 to U+001F or U+007F, stands in the text"


class BindingFault(str, enum.Enum):
    """Why a value isn't bound to a host variable."""

    LEAST_NUMBER = "no script can spell the number -9223372036854775808"
    TOO_LARGE = _TOO_LARGE
    TOO_LONG = _TOO_LONG
    NOT_UTF8 = _NOT_UTF8
    CONTROL_CHARACTER = _CONTROL_CHARACTER
    TWICE = "it is bound twice"
    SET_BY_SCRIPT = "the script gives it a value itself"
    UNUSED = "the script doesn't use it"
    NO_NAME = "no host variable can have this name"


class RowFault(str, enum.Enum):
    """Why a row can't be one of its table."""

    NO_SUCH_TABLE = "there is no such table"
    """E301."""
    OTHER_LENGTH = "it has another number of values than the table has columns"
    """E303."""
    OTHER_KIND = "a value is of another kind than its column"
    """E304."""
    TOO_LARGE = _TOO_LARGE
    TOO_LONG = _TOO_LONG
    NOT_UTF8 = _NOT_UTF8
    CONTROL_CHARACTER = _CONTROL_CHARACTER


class RoomError(Error):
    """The base of the refusals of a room beside the faults of texts, which are Refused. Each changes nothing."""


class RoomFull(RoomError):
    """As many scripts wait as there may be."""


class NotBound(RoomError):
    """A value isn't bound to the host variable of this name, which is without its @."""

    def __init__(self, variable: str, fault: BindingFault) -> None:
        super().__init__(variable, fault)
        self.variable = variable
        self.fault = fault

    def __str__(self) -> str:
        return f"@{self.variable} isn't bound: {self.fault.value}"


class NotARow(RoomError):
    """A row can't be one of its table.

    `row` counts from 0 among the rows that were given for the table. `column` is that of the value which no table can
    have, from 0; it is None if the row doesn't fit this table. Then `code` is the number of the fault, else None.
    """

    def __init__(self, table: str, row: int, fault: RowFault, column: Optional[int] = None) -> None:
        super().__init__(table, row, fault, column)
        self.table = table
        self.row = row
        self.fault = fault
        self.column = column

    @property
    def code(self) -> Optional[int]:
        """The number of the fault, if it has one: 301, 303 or 304."""
        return next((code for code, fault in MISFITS.items() if fault is self.fault), None)

    def __str__(self) -> str:
        of_value = "" if self.column is None else f"value {self.column} of "
        return f"{of_value}row {self.row} of {self.table}: {self.fault.value}"


class TicketUsed(RoomError):
    """The ticket can't come in again: it isn't of an earlier process, or one that is no less came in before."""


class NobodyWaits(RoomError):
    """Nobody waits under this ticket."""


class UnknownTicket(RoomError):
    """The ticket was never given out, or how it ended isn't kept any more."""


class BatchIsOn(RoomError):
    """The ticket is in a batch that isn't over, or a batch is on, since memory ran out. The next step goes on there."""


class NoMoreNumbers(RoomError):
    """The epoch, or the next group, has the greatest number that there is."""


FAULTY, NOT_A_ROW = 1, 16
_TOO_MANY_ROWS, _TOO_MANY_ROWS_FAULT = 14, 407

# The refusals that `enum entangle_room_refusal` numbers, but faults of texts, values and rows, and E407.
_REFUSALS: dict[int, tuple[type[RoomError], str]] = {
    2: (RoomFull, "as many scripts wait as there may be"),
    11: (TicketUsed, "the ticket can't come in again"),
    12: (NobodyWaits, "nobody waits under this ticket"),
    13: (BatchIsOn, "a batch isn't over"),
    15: (NoMoreNumbers, "the epoch, or the next group, has the greatest number that there is"),
}
# The faults of values, by the numbers of the same enum; those of names and values of a row.
BINDING_FAULTS = {
    3: BindingFault.LEAST_NUMBER,
    4: BindingFault.TOO_LONG,
    5: BindingFault.NOT_UTF8,
    6: BindingFault.CONTROL_CHARACTER,
    7: BindingFault.TWICE,
    8: BindingFault.SET_BY_SCRIPT,
    9: BindingFault.UNUSED,
    10: BindingFault.NO_NAME,
}
ROW_FAULTS = {
    4: RowFault.TOO_LONG,
    5: RowFault.NOT_UTF8,
    6: RowFault.CONTROL_CHARACTER,
    10: RowFault.NO_SUCH_TABLE,
    17: RowFault.OTHER_LENGTH,
}
# Why a row doesn't fit its table, by the number of the fault.
MISFITS = {301: RowFault.NO_SUCH_TABLE, 303: RowFault.OTHER_LENGTH, 304: RowFault.OTHER_KIND}


def refusal_of(number: int) -> Error:
    """The refusal of a number that is no fault of a text, of a value or of a row."""
    if number == _TOO_MANY_ROWS:
        return Refused(_TOO_MANY_ROWS_FAULT)
    kind, sentence = _REFUSALS[number]
    return kind(sentence)


# A public name stands where it is imported from, in tracebacks and in pickles too.
for _error in (RoomError, *RoomError.__subclasses__()):
    _error.__module__ = "entangle"
