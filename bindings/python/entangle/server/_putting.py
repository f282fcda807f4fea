"""Requests as a room takes them."""

from __future__ import annotations

import time
from datetime import datetime
from typing import Mapping, Optional

from .._room import Patience
from .._values import Value
from ..stores import Request, key_of_part
from ._declared import RequestType
from ._messages import Put
from ._problems import Problem
from ._scripts import Label


def until_problem(call: Put) -> Optional[Problem]:
    """Why a request can't wait until then."""
    wait, now = call.declared.wait, time.time()
    if call.until is None or now + wait.least - 1 <= call.until <= now + wait.most + 1:
        return None
    said = f"{call.declared.name} waits for {wait.least} to {wait.most} seconds: until is in seconds since 1970"
    return Problem(400, "until_wrong", said)


def until_of(call: Put) -> int:
    """Until when a request waits, in seconds since 1970."""
    return call.until or int(time.time()) + call.declared.wait.default


def requests_of(
    declared: RequestType, digest: str, values: Mapping[str, Value], label: Label, until: Optional[datetime]
) -> list[Request]:
    """The scripts of a request as the room takes them."""
    whole: dict[str, Value] = {**values, "request": digest}
    return [
        Request(
            label.line() + script.text,
            script.bound(whole),
            Patience.UNTIL_WITHDRAWN,
            key_of_part(digest, number),
            until,
        )
        for number, script in enumerate(declared.scripts)
    ]
