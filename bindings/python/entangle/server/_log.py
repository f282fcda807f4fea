"""A log of JSON lines. Who writes it never waits for who reads it."""

from __future__ import annotations

import json
import logging
import os
import queue
import threading
import time
import warnings
from typing import Optional

from ..stores import NearlyFull

_MOST_LINES = 10_000


class _Handler(logging.Handler):
    """Passes warnings on to a log."""

    def __init__(self, log: Log) -> None:
        super().__init__(logging.WARNING)
        self._log = log

    def emit(self, record: logging.LogRecord) -> None:
        self._log.say("warning", of=record.name, said=record.getMessage(), error=str(record.exc_info or "") or None)


class Log:
    """Lines go to a file descriptor by a thread of their own. Where that is full or closed they are dropped, and
    counted."""

    def __init__(self, descriptor: int = 2) -> None:
        self.dropped = 0
        self._descriptor = descriptor
        self._lines: queue.Queue[Optional[bytes]] = queue.Queue(_MOST_LINES)
        self._thread = threading.Thread(target=self._write, name="log", daemon=True)
        self._thread.start()

    def say(self, event: str, **said: object) -> None:
        """Adds a line."""
        line = json.dumps({"at": round(time.time(), 3), "event": event, **said}, default=str)
        try:
            self._lines.put_nowait(line.encode() + b"\n")
        except queue.Full:
            self.dropped += 1

    def _write(self) -> None:
        while (line := self._lines.get()) is not None:
            try:
                while line:
                    line = line[os.write(self._descriptor, line) :]
            except OSError:
                self.dropped += 1

    def take_up(self) -> None:
        """Has all that the package, aiohttp and asyncio warn of become lines of this log."""
        logging.getLogger().addHandler(_Handler(self))
        warnings.simplefilter("ignore", NearlyFull)  # the logger says it too

    def close(self, seconds: float = 1.0) -> None:
        """Writes what is left, within so many seconds."""
        try:
            self._lines.put(None, timeout=seconds)
        except queue.Full:
            return
        self._thread.join(seconds)
