"""Tickets of a room, and how they stand."""

from __future__ import annotations

from dataclasses import dataclass
from typing import ClassVar, Literal, Optional, Union

from ._library import TicketPosition
from ._standing import FAILURES, Failure


@dataclass(frozen=True, order=True)
class Ticket:
    """The ticket of a script that was put into a Room. One with a greater number was given out later, and none is given
    out twice. Who keeps tickets outside the process keeps their numbers, and gives them to Room.restore() again."""

    number: int

    def __post_init__(self) -> None:
        if not isinstance(self.number, int) or isinstance(self.number, bool):
            raise TypeError(f"the number of a ticket is an int, not {type(self.number).__name__}")
        if not 0 <= self.number < 2**64:
            raise ValueError(f"the number of a ticket has 64 bits at most: {self.number}")


@dataclass(frozen=True)
class TicketWaits:
    """It waits, and was in this number of batches that count against its patience."""

    batches: int
    kind: ClassVar[Literal["waits"]] = "waits"
    is_over: ClassVar[Literal[False]] = False


@dataclass(frozen=True)
class TicketLonely:
    """It waits, and nobody else who waits may offer this one of its demands, which count from 0."""

    demand: int
    kind: ClassVar[Literal["lonely"]] = "lonely"
    is_over: ClassVar[Literal[False]] = False


@dataclass(frozen=True)
class TicketNoMeeting:
    """It waits, and each of its demands may be met by somebody, but no meeting of it was found."""

    kind: ClassVar[Literal["no meeting"]] = "no meeting"
    is_over: ClassVar[Literal[False]] = False


@dataclass(frozen=True)
class TicketCut:
    """It waits, and a bound was reached: there may be more meetings of it. It goes on once something changes for it, or
    after Room.further."""

    kind: ClassVar[Literal["cut"]] = "cut"
    is_over: ClassVar[Literal[False]] = False


@dataclass(frozen=True)
class TicketInBatch:
    """It is in a batch that isn't over, since memory ran out. The next step goes on with it."""

    kind: ClassVar[Literal["in batch"]] = "in batch"
    is_over: ClassVar[Literal[False]] = False


@dataclass(frozen=True)
class TicketCommitted:
    """It committed, in this epoch, as the one of this number there."""

    epoch: int
    number: int
    kind: ClassVar[Literal["committed"]] = "committed"
    is_over: ClassVar[Literal[True]] = True


@dataclass(frozen=True)
class TicketRolledBack:
    """Its script ends with ROLLBACK."""

    kind: ClassVar[Literal["rolled back"]] = "rolled back"
    is_over: ClassVar[Literal[True]] = True


@dataclass(frozen=True)
class TicketFailed:
    """A statement failed."""

    failure: Failure
    kind: ClassVar[Literal["failed"]] = "failed"
    is_over: ClassVar[Literal[True]] = True


@dataclass(frozen=True)
class TicketGaveUp:
    """It was in as many batches as its patience allows."""

    kind: ClassVar[Literal["gave up"]] = "gave up"
    is_over: ClassVar[Literal[True]] = True


@dataclass(frozen=True)
class TicketWithdrawn:
    """It was withdrawn."""

    kind: ClassVar[Literal["withdrawn"]] = "withdrawn"
    is_over: ClassVar[Literal[True]] = True


@dataclass(frozen=True)
class TicketNotRestored:
    """It waited in a store, and its script can't wait any more, as the tables are declared now; `fault` says why. Only
    rooms over stores have such tickets, which were set aside when the room was opened."""

    fault: str
    kind: ClassVar[Literal["not restored"]] = "not restored"
    is_over: ClassVar[Literal[True]] = True


@dataclass(frozen=True)
class TicketRefusedByStore:
    """Its commit breaks a constraint of the store's database, as `fault` says, so it didn't commit. Only rooms over
    stores have such tickets, which were set aside."""

    fault: str
    kind: ClassVar[Literal["refused by the store"]] = "refused by the store"
    is_over: ClassVar[Literal[True]] = True


@dataclass(frozen=True)
class TicketUnknown:
    """It was never given out, or how it ended isn't kept any more."""

    kind: ClassVar[Literal["unknown"]] = "unknown"
    is_over: ClassVar[Literal[False]] = False


# How a script ended that waits no more.
Ending = Union[
    TicketCommitted,
    TicketRolledBack,
    TicketFailed,
    TicketGaveUp,
    TicketWithdrawn,
    TicketNotRestored,
    TicketRefusedByStore,
]
_ENDINGS = (
    TicketCommitted,
    TicketRolledBack,
    TicketFailed,
    TicketGaveUp,
    TicketWithdrawn,
    TicketNotRestored,
    TicketRefusedByStore,
)

# How a ticket stands. Each has its `kind`, and tells by `is_over` whether it is an Ending.
TicketState = Union[
    TicketWaits,
    TicketLonely,
    TicketNoMeeting,
    TicketCut,
    TicketInBatch,
    TicketCommitted,
    TicketRolledBack,
    TicketFailed,
    TicketGaveUp,
    TicketWithdrawn,
    TicketNotRestored,
    TicketRefusedByStore,
    TicketUnknown,
]


@dataclass(frozen=True)
class Submission:
    """A transaction that a script was: the epoch, and its number in the report of that epoch. A script that isn't
    answered is another transaction in each batch."""

    epoch: int
    tx: int


def checked_ticket(ticket: Ticket) -> int:
    """The number of a ticket."""
    if not isinstance(ticket, Ticket):
        raise TypeError(f"a ticket is a Ticket, not {type(ticket).__name__}")
    return ticket.number


def ending_of(state: TicketState) -> Optional[Ending]:
    """How a ticket ended, if it has."""
    return state if isinstance(state, _ENDINGS) else None


# The number of the state that says in how many batches a ticket was, and the states that say nothing more.
WAITS = 1
_STATES: dict[int, TicketState] = {
    0: TicketUnknown(),
    3: TicketNoMeeting(),
    4: TicketInBatch(),
    6: TicketRolledBack(),
    8: TicketGaveUp(),
    9: TicketWithdrawn(),
    10: TicketCut(),
}


def state_of(position: TicketPosition) -> TicketState:
    """What the library tells of a ticket."""
    if position.kind == WAITS:
        return TicketWaits(position.batches)
    if position.kind == 2:
        return TicketLonely(position.demand)
    if position.kind == 5:
        return TicketCommitted(position.epoch, position.number)
    if position.kind == 7:
        return TicketFailed(FAILURES[position.failure])
    return _STATES[position.kind]


def ending_of_words(kind: str, epoch: Optional[int], number: Optional[int], failure: Optional[str]) -> Ending:
    """An ending of the word for its kind, and of what else is said of it."""
    if kind == "committed" and epoch is not None and number is not None:
        return TicketCommitted(epoch, number)
    if kind == "failed" and failure is not None:
        return TicketFailed(Failure(failure))
    if kind == "not restored":
        return TicketNotRestored(failure or "")
    if kind == "refused by the store":
        return TicketRefusedByStore(failure or "")
    others: dict[str, Ending] = {
        "rolled back": TicketRolledBack(),
        "gave up": TicketGaveUp(),
        "withdrawn": TicketWithdrawn(),
    }
    return others[kind]
