"""What is passed between those who answer HTTP and the desk.

In a fleet a message may name its room; without one it is for whichever room knows of it.
"""

from __future__ import annotations

import asyncio
import time
from dataclasses import dataclass, field
from typing import Any, Generic, Mapping, Optional, Protocol, TypeVar, Union

from .._values import Value
from ..stores import RowCounts
from ._declared import RequestType
from ._metrics import Metrics
from ._positions import Position

Answer = TypeVar("Answer")


@dataclass(eq=False)
class Call(Generic[Answer]):
    """A call of the desk; its answer is told in the event loop."""

    future: asyncio.Future[Answer]
    came: float = field(default_factory=time.monotonic, init=False)
    is_answered: bool = field(default=False, init=False)


@dataclass(frozen=True)
class Taken:
    """How a request stands, and whether this call has put it."""

    position: Position
    is_new: bool


@dataclass(eq=False)
class Put(Call[Taken]):
    """A request is made: its values, with those of the server; until when it waits, if that is said; whose it is, and
    by whom it counts against the limit of those who wait."""

    declared: RequestType
    digest: str
    values: Mapping[str, Value]
    until: Optional[int]
    subject: Optional[str]
    client: str


@dataclass(eq=False)
class Withdraw(Call[Position]):
    """A request is to wait no more. An operator may withdraw anybody's."""

    digest: str
    subject: Optional[str]
    is_operator: bool = False
    room: Optional[str] = None


@dataclass(eq=False)
class Look(Call["list[Optional[Position]]"]):
    """How some requests stand; None for what was never put, or is another subject's. A reader may see anybody's."""

    digests: tuple[str, ...]
    subject: Optional[str]
    is_reader: bool = False
    room: Optional[str] = None


@dataclass(eq=False)
class ReadTable(Call[bytes]):
    """The rows of a table, in JSON."""

    name: str
    room: Optional[str] = None


@dataclass(eq=False)
class Survey(Call["dict[str, Any]"]):
    """What an operator sees."""


@dataclass(eq=False)
class SetAside(Call["list[str]"]):
    """The store refuses a group: its requests are to end, and the others to go on. The requests that ended so."""


@dataclass(frozen=True)
class Watch:
    """Somebody follows these requests from now on, or doesn't any more."""

    digests: tuple[str, ...]
    count: int
    room: Optional[str] = None


Message = Union[Put, Withdraw, Look, ReadTable, Survey, SetAside, Watch]


@dataclass(frozen=True)
class News:
    """What the desk did: how requests stand that stand otherwise since, which tables changed, and how many scripts have
    ended in the store."""

    positions: tuple[Position, ...]
    tables: frozenset[str]
    endings: int


class AnyDesk(Protocol):
    """What serves messages: the desk of a room, or a front."""

    metrics: Metrics
    rows: RowCounts

    @property
    def fault(self) -> Optional[str]:
        """Why nobody can be served; None if that isn't so."""

    def waiting(self) -> int:
        """How many requests wait."""

    def send(self, message: Message) -> None:
        """Passes a message on; any thread may."""

    def run(self) -> Optional[str]:
        """Serves until it is stopped; why it ended, if nobody stopped it."""

    def stop(self) -> None:
        """Has run() end once all that was sent until now is done."""
