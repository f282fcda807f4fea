"""Connections to PostgreSQL: each host of a dsn by itself, and an end to the silence of a server."""

from __future__ import annotations

import os
import socket
import threading
import time
from contextlib import suppress
from types import TracebackType
from typing import Any, Optional

# What a dsn has unless it says otherwise: a machine that is gone is found out within 11 seconds.
_KEPT_ALIVE = {"keepalives_idle": 5, "keepalives_interval": 2, "keepalives_count": 3, "tcp_user_timeout": 10_000}
_OF_HOSTS = ("host", "hostaddr", "port")


# Connections of processes from which this one was forked.
_inherited: list[object] = []


class Connected:
    """What has a connection, if there is one, and the process that has it."""

    _connection: Any = None
    _process: int

    def _is_forked(self) -> bool:
        """Whether this process was forked from the one that has the connection, which stays with that one."""
        if self._process == os.getpid():
            return False
        _inherited.append(self._connection)  # to close it here would end what the other process does there
        self._process, self._connection = os.getpid(), None
        return True


def each_host(engine: Any, dsn: str, **settings: object) -> list[str]:
    """The dsn of each of its hosts by itself, with these settings where it has none: a host that doesn't answer keeps
    nobody from the next one. Raises ValueError for a dsn that can't be read."""
    try:
        given = engine.conninfo.conninfo_to_dict(dsn)
    except engine.ProgrammingError as error:
        raise ValueError(f"the dsn can't be read: {str(error).strip()}") from error
    lists = {key: str(given[key]).split(",") for key in _OF_HOSTS if given.get(key)}
    count = max((len(one) for key, one in lists.items() if key != "port"), default=1)
    more: dict[str, object] = {**_KEPT_ALIVE, **settings, **given}
    return [
        engine.conninfo.make_conninfo(**{**more, **{key: one[at % len(one)] for key, one in lists.items()}})
        for at in range(count)
    ]


class Hosts:
    """The hosts of a dsn, which are tried in order, from the one of the last connection on."""

    def __init__(self, engine: Any, dsns: list[str]) -> None:
        self._engine, self._dsns = engine, dsns
        self._first = 0

    def connect(self) -> Any:
        """A connection to the first host that takes it. Raises OperationalError, which says of each host why it
        doesn't."""
        order = [self._first] + [at for at in range(len(self._dsns)) if at != self._first]
        errors = []
        for at in order:
            try:
                connection = self._engine.connect(self._dsns[at], autocommit=True)
                self._first = at
                return connection
            except self._engine.OperationalError as error:
                errors.append(error)
        if len(errors) == 1:
            raise errors[0]
        raise self._engine.OperationalError("; ".join(str(error).strip() for error in errors)) from errors[-1]

    def others(self) -> Hosts:
        """The same hosts, for another connection."""
        return Hosts(self._engine, self._dsns)

    def pass_over(self) -> None:
        """Tries the next host first, since the one of the last connection doesn't answer."""
        self._first = (self._first + 1) % len(self._dsns)


class Watch:
    """Ends the silence of a server: it shuts the socket of a connection if somebody waits for an answer for so many
    seconds, `with watch: ..`. Then that fails as where a connection is lost.

    A thread of its own does that, from the first connection on until close(). The calls of one watch are made one after
    the other.
    """

    def __init__(self, seconds: float) -> None:
        self._seconds = seconds
        self._changed = threading.Condition()
        self._socket: Optional[socket.socket] = None
        self._thread: Optional[threading.Thread] = None
        self._is_over = False
        # how many blocks wait, one within the other; until when; and whether the thread sleeps until it is woken
        self._depth = 0
        self._until: Optional[float] = None
        self._sleeps = False
        # whether it has shut the socket of the last connection
        self.has_shut = False

    def attach(self, descriptor: int) -> None:
        """Answers come by the connection with this descriptor from now on."""
        # a descriptor of its own can't become that of another file before it is shut
        own = socket.socket(fileno=os.dup(descriptor))
        with self._changed:
            self._socket, self.has_shut, self._is_over = own, False, False
            if self._thread is None:
                self._thread = threading.Thread(target=self._watch, name="entangle watch", daemon=True)
                self._thread.start()

    def detach(self) -> None:
        """The connection is given up."""
        with self._changed:
            own, self._socket, self._until, self._depth = self._socket, None, None, 0
        if own is not None:
            own.close()

    def close(self) -> None:
        """Gives up the connection, and ends the thread."""
        self.detach()
        with self._changed:
            thread, self._thread, self._is_over = self._thread, None, True
            self._changed.notify()
        if thread is not None and thread is not threading.current_thread():
            thread.join()

    def __enter__(self) -> Watch:
        self._depth += 1
        # the thread looks at this when it wakes: it needn't be woken for each answer
        self._until = time.monotonic() + self._seconds
        if self._sleeps:
            with self._changed:
                self._changed.notify()
        return self

    def __exit__(
        self,
        kind: Optional[type[BaseException]],
        error: Optional[BaseException],
        trace: Optional[TracebackType],
    ) -> None:
        self._depth = max(0, self._depth - 1)
        self._until = time.monotonic() + self._seconds if self._depth else None

    def _watch(self) -> None:
        with self._changed:
            was_idle = False
            while not self._is_over:
                self._sleeps = was_idle  # before it looks, so that whoever asks now finds it asleep
                until = self._until
                if until is None:
                    self._changed.wait(None if was_idle else self._seconds)
                    was_idle = not was_idle
                    continue
                self._sleeps = was_idle = False
                left = until - time.monotonic()
                if left > 0:
                    self._changed.wait(left)
                    continue
                self._until = None
                if self._socket is not None:
                    self.has_shut = True
                    with suppress(OSError):
                        self._socket.shutdown(socket.SHUT_RDWR)
