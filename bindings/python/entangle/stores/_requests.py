"""What is put into a room over a store."""

from __future__ import annotations

from dataclasses import dataclass, field
from datetime import datetime
from typing import Mapping, Optional, Union

from .._room import Patience
from .._values import Value

_LONGEST_KEY = 255


@dataclass(frozen=True)
class Request:
    """What is put into a room: a script with values, how long it waits, the caller's own key of the request, and a
    point in time from which expire() withdraws it. The last two may be None. A key has 255 bytes at most; `until` has a
    time zone."""

    script: str
    values: Mapping[str, Value] = field(default_factory=dict)
    patience: Union[int, Patience] = Patience.AS_WRITTEN
    key: Optional[str] = None
    until: Optional[datetime] = None

    def __post_init__(self) -> None:
        if not isinstance(self.script, str):
            raise TypeError(f"a script that is kept is a str, not {type(self.script).__name__}")
        if self.key is not None and not isinstance(self.key, str):
            raise TypeError(f"a key is a str, not {type(self.key).__name__}")
        if "\0" in self.script or self.key is not None and "\0" in self.key:
            raise ValueError("a text that is kept has no U+0000")
        if self.key is not None and not 0 < len(self.key.encode()) <= _LONGEST_KEY:
            raise ValueError(f"a key has 1 to {_LONGEST_KEY} bytes")
        if self.until is not None:
            checked_time(self.until, "until")


def checked_time(time: datetime, what: str) -> datetime:
    """A point in time that has a time zone."""
    if not isinstance(time, datetime):
        raise TypeError(f"{what} is a datetime, not {type(time).__name__}")
    if time.utcoffset() is None:
        raise ValueError(f"{what} has a time zone, such as datetime.timezone.utc")
    return time
