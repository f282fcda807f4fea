"""Whoever waits for notifications of PostgreSQL."""

from __future__ import annotations

import select
import threading
import time
from contextlib import suppress
from typing import Any, Callable

from ._connections import Hosts
from ._errors import StoreError

_SECONDS = 1.0
_JOIN_SECONDS = 2.0


class Ear:
    """Calls `heard` with the words of the notifications of a channel, by a thread and a connection of its own, until
    close(). It calls it without any each second too, also while there is no server: notifications are hints, and may be
    lost."""

    def __init__(
        self, engine: Any, hosts: Hosts, channel: Callable[[], str], heard: Callable[[list[str]], object]
    ) -> None:
        self._engine, self._hosts, self._channel, self._heard = engine, hosts, channel, heard
        self._is_over = threading.Event()
        self._connection: Any = None
        self._next = time.monotonic()
        self._thread = threading.Thread(target=self._listen, name="entangle ear", daemon=True)
        self._thread.start()

    def close(self) -> None:
        """Ends the thread, which calls nobody any more."""
        self._is_over.set()
        if self._thread is not threading.current_thread():
            self._thread.join(_JOIN_SECONDS)

    def _listen(self) -> None:
        while not self._is_over.is_set():
            try:
                if self._connection is None:
                    self._connect()
                words = self._words()
            except (self._engine.Error, StoreError):
                self._lose()
                words = None
                self._is_over.wait(_SECONDS / 4)
            if self._is_over.is_set():
                break
            is_time = time.monotonic() >= self._next
            if is_time:
                self._next = time.monotonic() + _SECONDS
            if is_time or words is not None and not all(words):
                self._heard([])
            elif words:
                self._heard(words)
        self._lose()

    def _connect(self) -> None:
        channel = self._channel()
        self._connection = self._hosts.connect()
        self._connection.execute(f'LISTEN "{channel}"')
        self._next = time.monotonic()  # what was said before is lost

    def _words(self) -> list[str]:
        """The words of those notifications that come until the next second; an empty one says that anything may be."""
        connection = self._connection.pgconn
        said: list[str] = []
        found = connection.notifies()
        if found is None:
            select.select([connection.socket], [], [], max(0.0, self._next - time.monotonic()))
            connection.consume_input()
            found = connection.notifies()
        while found is not None:
            said += found.extra.decode().split() or [""]
            found = connection.notifies()
        return said

    def _lose(self) -> None:
        connection, self._connection = self._connection, None
        if connection is not None:
            with suppress(self._engine.Error):
                connection.close()
