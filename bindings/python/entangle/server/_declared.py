"""What a file declares: tables, requests, and how they are served."""

from __future__ import annotations

import ipaddress
import re
from dataclasses import dataclass, field
from pathlib import Path
from typing import Literal, Mapping, Optional, Union

from .._values import Value
from ..stores import Table
from ._scripts import Script

ParameterKind = Literal["INT", "TEXT", "request"]
Reader = Literal["nobody", "anybody", "token"]
Network = Union[ipaddress.IPv4Network, ipaddress.IPv6Network]

KEY = re.compile(r"[0-9a-f]{32}")
MOST_TEXT = 255
LEAST_NUMBER, GREATEST_NUMBER = -(2**63) + 1, 2**63 - 1
_CONTROL = re.compile("[\x00-\x1f\x7f\ud800-\udfff]")


@dataclass(frozen=True)
class Parameter:
    """A value that a request takes. A text has `length` characters at most, and is matched by `pattern` as a whole; a
    number is from `least` to `greatest`. That of kind `request` is the key of an earlier request. One that comes from
    the subject is never given: it is the name that stands with the token."""

    name: str
    kind: ParameterKind
    length: int = MOST_TEXT
    pattern: Optional[re.Pattern[str]] = None
    least: int = LEAST_NUMBER
    greatest: int = GREATEST_NUMBER
    from_subject: bool = False

    def wrong(self, value: object) -> Optional[str]:
        """Why a value can't be one of this parameter."""
        if self.kind == "INT":
            if type(value) is not int:
                return "is a whole number"
            return None if self.least <= value <= self.greatest else f"is from {self.least} to {self.greatest}"
        if not isinstance(value, str):
            return "is a text"
        if self.kind == "request":
            return None if KEY.fullmatch(value) else "is the key of a request: 32 hex digits, in small letters"
        if len(value) > self.length:
            return f"has {self.length} characters at most"
        if _CONTROL.search(value):
            return "has no control characters"
        if len(value.encode()) > MOST_TEXT:
            return f"has {MOST_TEXT} bytes at most"
        if self.pattern is not None and not self.pattern.fullmatch(value):
            return f"is a text like {self.pattern.pattern}"
        return None

    def least_value(self) -> Value:
        """A value of its kind, with which scripts are tried."""
        if self.kind == "INT":
            return min(max(0, self.least), self.greatest)
        return "0" * 32 if self.kind == "request" else ""


@dataclass(frozen=True)
class Wait:
    """For how many seconds a request waits: at least, at most, and if it doesn't say so."""

    least: int = 1
    most: int = 86_400
    default: int = 3_600


@dataclass(frozen=True)
class RequestType:
    """A request that clients may make: its scripts are put, and withdrawn, as one. `answers` has what its answers are
    called, with the item of a script that each is. One that is taken `when_full` is taken also where as many wait as
    may: who gives something back has to be served then too."""

    name: str
    parameters: Mapping[str, Parameter]
    scripts: tuple[Script, ...]
    wait: Wait
    answers: Mapping[str, str] = field(default_factory=dict)
    when_full: bool = False


@dataclass(frozen=True)
class ServedTable:
    """A table of the room, and who may read it."""

    table: Table
    read: Reader = "nobody"


@dataclass(frozen=True)
class Address:
    """Where a port is."""

    host: str
    port: int


@dataclass(frozen=True)
class StorePlace:
    """The store: a file of SQLite, or a database of PostgreSQL. `sets_aside` says what becomes of those who wait in the
    store and can't wait in the room as the tables are declared now. So many seconds after its end a request is
    forgotten, but for its key and how it ended; 0 is never."""

    name: str
    sqlite: Optional[Path] = None
    postgres: Optional[str] = None
    sets_aside: bool = False
    forget_after: int = 0


@dataclass(frozen=True)
class Limits:
    """What a client may, and all together. `rate` and `burst` are requests a second, and how many at once; the others
    are bytes of a body, seconds until it has come, keys of a call, requests that wait, and open streams."""

    body: int = 4_096
    body_seconds: int = 10
    keys: int = 20
    rate: int = 50
    burst: int = 100
    rate_in_all: int = 5_000
    waiting: int = 100
    waiting_in_all: int = 10_000
    streams: int = 20
    streams_in_all: int = 1_000


@dataclass(frozen=True)
class ServiceFile:
    """All that a file says. Where it names rooms, the parameter `partition` says to which one a request goes."""

    path: Path
    tables: Mapping[str, ServedTable]
    requests: Mapping[str, RequestType]
    store: StorePlace
    limits: Limits
    public: Address
    inner: Address
    origins: tuple[str, ...] = ()
    trusted_proxies: tuple[Network, ...] = ()
    tokens: Optional[Path] = None
    page: Optional[Path] = None
    partition: Optional[str] = None
    rooms: tuple[str, ...] = ()

    @property
    def declared(self) -> list[Table]:
        """The tables as a room and a store take them."""
        return [served.table for served in self.tables.values()]
