"""What is asked by an inbox, and how that stands."""

from __future__ import annotations

from dataclasses import dataclass, field
from datetime import datetime
from typing import Mapping, Optional, Union

from .._values import Value
from ._kept import Outcome, Waiter
from ._requests import Request, checked_time


@dataclass(frozen=True)
class InboxRequest:
    """What is put into an inbox: the name of a script that the desk declares, with values; the caller's own key of the
    request, of 255 bytes at most; a point in time from which it waits no more, which has a time zone; and what else the
    caller says of it, which the desk is given."""

    script: str
    values: Mapping[str, Value]
    key: str
    until: Optional[datetime] = None
    label: str = ""

    def __post_init__(self) -> None:
        if not all(isinstance(text, str) and "\0" not in text for text in (self.script, self.label)):
            raise ValueError("the name of a script and a label are texts without U+0000")
        Request("", {}, key=self.key)  # it raises what a key is that no request can have
        if self.until is not None:
            checked_time(self.until, "until")


@dataclass(frozen=True)
class Queued:
    """It stands in the inbox, and no desk has taken it. `is_new` says that this call of ask() put it there."""

    request: InboxRequest
    is_new: bool = False


@dataclass(frozen=True)
class Rejected:
    """A desk couldn't put it, and never will: no script has this name, or it is refused with these values."""

    request: InboxRequest
    fault: str


@dataclass(frozen=True)
class Waiting:
    """A desk has put it, and it waits."""

    waiter: Waiter


@dataclass(frozen=True)
class Ended:
    """It waits no more. `waiter` is what was put; None if the store was told to forget it."""

    outcome: Outcome
    waiter: Optional[Waiter]


# How a request stands.
Fate = Union[Queued, Rejected, Waiting, Ended]


@dataclass(frozen=True)
class Row:
    """What a desk takes from an inbox: something to put, or the key of something to withdraw."""

    number: int
    key: str
    request: Optional[InboxRequest]
