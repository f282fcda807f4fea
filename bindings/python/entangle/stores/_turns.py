"""Turns: of several processes that would open a room over one store, one has the turn, and the others wait for it."""

from __future__ import annotations

import fcntl
import hashlib
import importlib
import logging
import os
import time
import weakref
from contextlib import suppress
from types import TracebackType
from typing import Any, NoReturn, Optional, Protocol, Union

from ._connections import Hosts, Watch, each_host
from ._errors import StoreError, StoreFailed
from ._sql import checked_store_name

# The first version of PostgreSQL that ends sessions which say nothing.
_OLDEST_SERVER = 140_000
_CONNECT_SECONDS = 2
# How often a server that can't be asked, and a file that another process has locked, is asked again.
_AGAIN_SECONDS = 0.2
_FILE_SECONDS = 0.02

_log = logging.getLogger("entangle")


class Turn(Protocol):
    """Says which of several processes may open a room over a store. One process has the turn, the others wait.

        with PostgresTurn(dsn, "travel") as turn:  # waits until no other process has it
            room = DurableRoom(TABLES, PostgresStore(dsn, name="travel"))
            while turn.keep():                     # at least each third of the lease
                room.step()

    A turn spares a room an unwanted end: to open a room ends the room of another process. What is written stays right
    without it, since the store's claim shuts out whoever had the store before.

    The calls of one turn are made one after the other, from any threads.
    """

    def take(self, timeout: Optional[float] = None) -> bool:
        """Waits until this process has the turn. False if it hasn't after so many seconds; 0 asks once."""

    def keep(self) -> bool:
        """Whether this process has the turn. Once it hasn't, close the room; take() waits for the next turn."""

    def give(self) -> None:
        """Gives the turn to the next process. Does nothing if this process hasn't the turn."""

    def __enter__(self) -> Turn:
        """Waits for the turn without an end."""

    def __exit__(
        self,
        kind: Optional[type[BaseException]],
        error: Optional[BaseException],
        trace: Optional[TracebackType],
    ) -> None:
        """Gives the turn to the next process."""


def _left(until: Optional[float], most: float) -> float:
    """How many seconds are left until a point in time, this many at most."""
    return most if until is None else max(0.0, min(most, until - time.monotonic()))


def _until(timeout: Optional[float]) -> Optional[float]:
    """The point in time at which so many seconds are over."""
    return None if timeout is None else time.monotonic() + timeout


# ---- PostgreSQL


class PostgresTurn:
    """The turn of a store in a database of PostgreSQL: an advisory lock, which a session of its own has.

    The next process has the turn at once when the one before ends, however it ends. It has it after `lease` seconds
    when that one stands still or its machine is gone: the server itself ends a session that says nothing for so long
    (`idle_session_timeout`). So no clocks are compared, and no table is asked again and again.

    It needs PostgreSQL 14 or later, psycopg 3, and a connection of its own: none through a pool of transactions. The
    stores of two schemas have two turns, whatever their names are.
    """

    def __init__(self, dsn: str, name: str, *, lease: float = 10.0) -> None:
        """`dsn` and `name` are those of the store. Raises ValueError for a name that no store has, for a `dsn` that
        can't be read, and for a lease below one second or above a day; and StoreError without psycopg. Nothing is
        asked yet."""
        self._name = checked_store_name(name)
        if not 1 <= lease <= 86_400:
            raise ValueError(f"a lease is 1 second at least and a day at most, not {lease!r}")
        try:
            self._engine: Any = importlib.import_module("psycopg")
        except ImportError as error:
            raise StoreError("PostgresTurn needs psycopg 3: Debian has it as python3-psycopg") from error
        self._lease = lease
        settings = {"connect_timeout": _CONNECT_SECONDS, "application_name": f"entangle turn {name}"}
        self._dsns = each_host(self._engine, dsn, **settings)
        self._hosts = Hosts(self._engine, self._dsns)
        self._connection: Any = None
        self._lock = 0
        self._has = False
        # whether the last session was lost; when this process may ask for the lock; and since when it is refused
        self._was_lost, self._asks_from = False, 0.0
        self._refused_since: Optional[float] = None
        self._new_watch()
        _opened.add(self)

    def _new_watch(self) -> None:
        self._watch = Watch(self._lease / 3)
        weakref.finalize(self, self._watch.close)

    # ---- the session

    def _connect(self) -> None:
        """Makes the session, with the first host that takes it."""
        self._connection = self._hosts.connect()
        self._watch.attach(self._connection.pgconn.socket)
        version = self._connection.info.server_version
        if version < _OLDEST_SERVER:
            raise StoreError(f"a turn needs PostgreSQL 14 or later, and the server has the version {version // 10_000}")
        milliseconds = str(round(1000 * self._lease))
        schema, *_ = self._ask(
            "SELECT current_schema(), set_config('idle_session_timeout', %s, false),"
            " set_config('statement_timeout', '0', false)",
            milliseconds,
        )
        digest = hashlib.sha256(f"entangle turn {schema}.{self._name}".encode()).digest()
        self._lock = int.from_bytes(digest[:8], "big", signed=True)

    def _ask(self, sql: str, *values: object) -> Any:
        """The row that the server answers within a third of the lease. Raises an error of psycopg."""
        with self._watch:
            return self._connection.execute(sql, values).fetchone()

    def _locks(self, seconds: float) -> bool:
        """Whether the session gets the lock within so many seconds; 0 asks once."""
        milliseconds = round(1000 * seconds)
        if milliseconds < 1:
            return bool(self._ask("SELECT pg_try_advisory_lock(%s)", self._lock)[0])
        self._ask("SELECT set_config('lock_timeout', %s, false)", str(milliseconds))
        try:
            self._ask("SELECT pg_advisory_lock(%s)", self._lock)
            return True
        except self._engine.errors.LockNotAvailable:
            return False

    def _lose(self) -> None:
        """Gives up the session, and the lock with it."""
        connection, self._connection = self._connection, None
        self._watch.detach()
        if self._watch.has_shut:
            self._hosts.pass_over()
            self._watch.has_shut = False
        if connection is not None:
            with suppress(self._engine.Error):
                connection.close()

    def _forked(self) -> None:
        """The turn stays with the process from which this one is forked."""
        _inherited.append(self._connection)  # to close it here would end the session of that process
        self._connection, self._has = None, False
        self._new_watch()  # its thread is in that process

    # ---- the calls

    def take(self, timeout: Optional[float] = None) -> bool:
        """Waits until this process has the turn. False if it hasn't after so many seconds; 0 asks once.

        Waits too while no server can be asked. Then whoever had the turn comes first: this process lets half a lease
        pass once a server is there again. Raises StoreFailed if each server of the dsn is up and has refused this user
        for a lease, for a wrong password, say, or a database that isn't there; and StoreError if the server is older
        than 14. It may be called again and again; who waits no more calls give().
        """
        if self.keep():
            return True
        until = _until(timeout)
        self._check_session()
        while True:
            try:
                if self._connection is None:
                    self._connect()
                    self._found_server()
                time.sleep(_left(until, max(0.0, self._asks_from - time.monotonic())))
                # the server has to answer within a third of the lease
                if time.monotonic() >= self._asks_from and self._locks(_left(until, self._lease / 6)):
                    self._has = True
                    return True
            except self._engine.Error as error:
                self._lose()
                if not self._was_lost:
                    _log.warning("the turn of %s waits for a server: %s", self._name, str(error).strip())
                self._was_lost, self._refused_since = True, self._refused(error, self._refused_since)
                time.sleep(_left(until, _AGAIN_SECONDS))
            except BaseException:
                self._lose()
                raise
            if until is not None and time.monotonic() >= until:
                return False

    def _check_session(self) -> None:
        """Gives up a session that the server has ended since the last call, when nobody waited."""
        try:
            if self._connection is not None:
                self._ask("SELECT 1")
        except self._engine.Error:
            self._lose()

    def _found_server(self) -> None:
        """A server is there. If one was lost, whoever had the turn asks first."""
        if self._was_lost:
            self._asks_from = time.monotonic() + self._lease / 2
        self._was_lost, self._refused_since = False, None

    def _refused(self, error: Exception, since: Optional[float]) -> Optional[float]:
        """Since when each server has been up and has refused this user, whatever the server is: primary or standby.
        None if one hasn't. Raises StoreFailed after a lease."""
        for dsn in self._dsns:
            anywhere = self._engine.conninfo.make_conninfo(dsn, target_session_attrs="any")
            if self._engine.pq.PGconn.ping(anywhere.encode()) != self._engine.pq.Ping.OK:
                return None
            with suppress(self._engine.OperationalError):
                self._engine.connect(anywhere).close()
                return None
        now = time.monotonic()
        if since is not None and now >= since + self._lease:
            raise StoreFailed(str(error).strip()) from error
        return now if since is None else since

    def keep(self) -> bool:
        """Whether this process has the turn. Call it at least each third of the lease, from the loop that makes the
        steps: so a process whose loop stands still loses its turn.

        False if the turn wasn't taken, or another process has it now. If no server can be asked, it says what it knew
        last: another process may have the turn then, and the store's claim shuts this one out. Where servers stand
        still it takes a lease and 4 seconds a host at most, or twice what connect_timeout of the dsn says. It never
        raises StoreFailed.
        """
        if not self._has:
            return False
        for _ in range(2):  # the session may have ended: then a new one asks
            try:
                if self._connection is not None:
                    self._ask("SELECT 1")
                    return True
                self._connect()
                self._has = self._locks(0.0)
                if not self._has:
                    self._lose()
                return self._has
            except self._engine.Error:
                self._lose()
            except BaseException:
                self._lose()
                raise
        return True

    def give(self) -> None:
        """Gives the turn to the next process. Does nothing if this process hasn't the turn."""
        self._has = False
        self._lose()
        self._watch.close()

    def __enter__(self) -> PostgresTurn:
        self.take()
        return self

    def __exit__(
        self,
        kind: Optional[type[BaseException]],
        error: Optional[BaseException],
        trace: Optional[TracebackType],
    ) -> None:
        self.give()

    def __reduce_ex__(self, protocol: object) -> NoReturn:
        raise TypeError("a turn can't be copied or pickled")


# ---- SQLite


class SqliteTurn:
    """The turn of a store in a file of SQLite: a lock of the file PATH.NAME.turn beside it, which the system frees
    when the process ends, however it ends.

    There is no lease: a process that stands still keeps its turn. The file stays; whoever removes it lets a second
    process have the turn. It needs a system that has `flock`, and a disk of this machine.
    """

    def __init__(self, path: Union[str, "os.PathLike[str]"], name: str) -> None:
        """`path` and `name` are those of the store. Raises ValueError for a name that no store has."""
        self._path = f"{os.path.abspath(os.fspath(path))}.{checked_store_name(name)}.turn"
        self._file: Optional[int] = None
        _opened.add(self)

    def take(self, timeout: Optional[float] = None) -> bool:
        """Waits until this process has the turn. False if it hasn't after so many seconds; 0 asks once. Raises
        StoreFailed if the file can't be made."""
        until = _until(timeout)
        while not self.keep():
            if self._locked():
                return True
            if until is not None and time.monotonic() >= until:
                return False
            time.sleep(_left(until, _FILE_SECONDS))
        return True

    def _locked(self) -> bool:
        """Whether the file can be locked now."""
        try:
            file = os.open(self._path, os.O_RDWR | os.O_CREAT, 0o666)
        except OSError as error:
            raise StoreFailed(f"{self._path}: {error.strerror}") from error
        try:
            fcntl.flock(file, fcntl.LOCK_EX | fcntl.LOCK_NB)
            self._file = file
        except BlockingIOError:
            os.close(file)
        except BaseException:
            os.close(file)
            raise
        return self.keep()

    def keep(self) -> bool:
        """Whether this process has the turn. False if the turn wasn't taken, or the file isn't the one that was
        locked. It never waits."""
        if self._file is None:
            return False
        try:
            found, ours = os.stat(self._path), os.fstat(self._file)
            is_ours = (found.st_dev, found.st_ino) == (ours.st_dev, ours.st_ino)
        except FileNotFoundError:
            is_ours = False
        except OSError:
            return True
        if not is_ours:
            self.give()
        return is_ours

    def _forked(self) -> None:
        """The turn stays with the process from which this one is forked, which holds the file too."""
        self.give()

    def give(self) -> None:
        """Gives the turn to the next process. Does nothing if this process hasn't the turn."""
        file, self._file = self._file, None
        if file is not None:
            os.close(file)

    def __enter__(self) -> SqliteTurn:
        self.take()
        return self

    def __exit__(
        self,
        kind: Optional[type[BaseException]],
        error: Optional[BaseException],
        trace: Optional[TracebackType],
    ) -> None:
        self.give()

    def __reduce_ex__(self, protocol: object) -> NoReturn:
        raise TypeError("a turn can't be copied or pickled")


# The turns of this process, and sessions of processes from which it was forked.
_opened: weakref.WeakSet[Union[PostgresTurn, SqliteTurn]] = weakref.WeakSet()
_inherited: list[object] = []


def _forked() -> None:
    """A process that is forked has no turn."""
    for turn in list(_opened):
        turn._forked()


os.register_at_fork(after_in_child=_forked)
