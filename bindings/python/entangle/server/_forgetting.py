"""Has a store forget what ended long ago."""

from __future__ import annotations

import threading
import time
from datetime import datetime, timedelta, timezone
from typing import Optional

from .._errors import Error
from ..stores import DurableRoom
from ._log import Log

_MOST_PAUSE = 3_600.0


class Forgetting:
    """Forgets from time to time, by a thread of its own: the room serves others between the pieces."""

    def __init__(self, seconds: int, log: Log) -> None:
        self._seconds, self._log = seconds, log
        self._thread: Optional[threading.Thread] = None
        self._next = time.monotonic()

    def go_on(self, room: DurableRoom) -> None:
        """Begins to forget, if it is time for that and nobody is at it. Call it each second."""
        is_on = self._thread is not None and self._thread.is_alive()
        if not self._seconds or is_on or time.monotonic() < self._next:
            return
        self._next = time.monotonic() + min(self._seconds, _MOST_PAUSE)
        self._thread = threading.Thread(target=self._forget, args=(room,), name="forgetting", daemon=True)
        self._thread.start()

    def _forget(self, room: DurableRoom) -> None:
        before = datetime.now(timezone.utc) - timedelta(seconds=self._seconds)
        try:
            count = room.forget(before)
        except Error as error:  # the desk meets it too
            self._log.say("forgets later", error=str(error))
            return
        if count:
            self._log.say("forgot", scripts=count, before=before.isoformat(timespec="seconds"))
