"""A connection to PostgreSQL, which is made anew where it is lost, and what is done over it."""

from __future__ import annotations

import importlib
import math
import os
import weakref
from contextlib import suppress
from typing import Any, Callable, Collection, Optional, Sequence, TypeVar

from ._connections import Connected, Hosts, Watch, each_host
from ._errors import StoreError, StoreFailed

Result = TypeVar("Result")

# Serialization failures and deadlocks: others disturbed a transaction, which may be made again.
_DISTURBED = ("40001", "40P01")
_MOST_TRIES = 10

_SETTINGS = """
SELECT current_setting('server_encoding'), current_setting('fsync'), current_setting('full_page_writes'),
       current_setting('synchronous_commit'), set_config('lock_timeout', %s, false),
       set_config('idle_in_transaction_session_timeout', %s, false)
"""
# The first version of libpq that sends many statements before it reads their results.
_OLDEST_LIBPQ = 140_000
# A setting of the server that may be off where the file system does its work: it never leaves half a page.
_MAY_BE_OFF = frozenset({"full_page_writes"})


def _ended(watch: Watch, process: int) -> None:
    """Ends the watch of a store that nobody has any more, in the process that began it."""
    if process == os.getpid():
        watch.close()


class Session(Connected):
    """A connection to the first host of a dsn that takes it. What is done over it is made again where others disturbed
    it, and once where a connection was lost that had stood for some time. Its calls are made one after the other.

    A server that may lose what it said to have is refused, and a COMMIT at which it warns that it didn't wait for its
    standby has failed.
    """

    def __init__(
        self,
        dsn: str,
        application: str,
        *,
        timeout: float,
        answer_timeout: float,
        connect_timeout: float,
        allow_settings: Collection[str],
    ) -> None:
        what = type(self).__name__
        if not set(allow_settings) <= _MAY_BE_OFF:
            raise ValueError(f"only full_page_writes may be off, and not {sorted(set(allow_settings) - _MAY_BE_OFF)}")
        if min(timeout, answer_timeout, connect_timeout) <= 0:
            raise ValueError("a time to wait for is more than 0 seconds")
        try:
            self._engine: Any = importlib.import_module("psycopg")
        except ImportError as error:
            raise StoreError(f"{what} needs psycopg 3: Debian has it as python3-psycopg") from error
        libpq = self._engine.pq.version()
        if libpq < _OLDEST_LIBPQ:
            raise StoreError(f"{what} needs libpq 14 or later, and psycopg has found version {libpq // 10_000}")
        settings = {"connect_timeout": math.ceil(connect_timeout), "application_name": application}
        self._hosts = Hosts(self._engine, each_host(self._engine, dsn, **settings))
        self._timeout, self._answer_timeout, self._allowed = timeout, answer_timeout, frozenset(allow_settings)
        self._process, self._connection = os.getpid(), None
        self._new_watch()
        # what the server has said, since the last COMMIT was sent, if something isn't as it should be
        self._warning: Optional[str] = None

    def _new_watch(self) -> None:
        self._watch = Watch(self._answer_timeout)
        weakref.finalize(self, _ended, self._watch, os.getpid())

    def _connected(self) -> Any:
        """The connection, which is made if there is none."""
        if self._is_forked():
            self._new_watch()  # its thread is in the other process
        if self._connection is None:
            self._connection = connection = self._hosts.connect()
            try:
                connection.add_notice_handler(self._noticed)
                self._watch.attach(connection.pgconn.socket)
                with self._watch:
                    self._prepare(connection)
            except BaseException:
                self._drop()
                raise
        return self._connection

    def _prepare(self, connection: Any) -> None:
        """What holds for all transactions of a connection. Raises StoreError if the server can't have a store."""
        locked, silent = min(self._timeout, self._answer_timeout / 2), self._timeout
        milliseconds = [str(max(1, round(seconds * 1000))) for seconds in (locked, silent)]
        encoding, fsync, full_pages, synchronous = connection.execute(_SETTINGS, milliseconds).fetchone()[:4]
        if encoding != "UTF8":
            raise StoreError(f"the database has to be in UTF8, and is in {encoding}")
        for setting, value in (("fsync", fsync), ("full_page_writes", full_pages)):
            if value == "off" and setting not in self._allowed:
                raise StoreError(f"{setting} is off: the server may lose what it said to have")
        if synchronous == "off":
            connection.execute("SET synchronous_commit = on")

    def _noticed(self, said: Any) -> None:
        """The server has said something beside its answers."""
        if said.severity_nonlocalized == "WARNING":  # messages may be translated
            self._warning = str(said.message_primary)

    def _drop(self) -> None:
        """Gives up the connection. The server takes back what isn't committed."""
        connection, self._connection = self._connection, None
        self._watch.detach()
        if connection is not None:
            with suppress(self._engine.Error):
                connection.close()

    def _give_up(self) -> None:
        """Gives up the connection, and the thread that watches it; the next call makes both anew."""
        self._drop()
        self._watch.close()

    def _commit(self) -> None:
        self._warning = None
        self._check_committed(self._run("COMMIT"))

    def _check_committed(self, cursor: Any) -> None:
        """Raises StoreFailed if the answer to COMMIT, or what the server said beside it, isn't as it should be."""
        said = cursor.statusmessage
        if said != "COMMIT":
            raise StoreFailed(f"the server answers {said} to COMMIT")
        # so it says that it didn't wait for its standby, since the wait was cancelled
        if self._warning is not None:
            raise StoreFailed(f"the server warns at COMMIT: {self._warning}")

    def _tried(self, work: Callable[[], Result]) -> Result:
        """Does work, again where it was disturbed, and once where a connection was lost that stood before."""
        was_lost = False
        for further in reversed(range(_MOST_TRIES)):
            had_connection = self._connection is not None
            try:
                self._connected()
                return work()
            except self._engine.Error as error:
                is_lost = had_connection and self._connection is not None and self._connection.closed
                is_disturbed = error.sqlstate in _DISTURBED
                said = self._said(error)
                self._take_back(is_disturbed)
                if not further or was_lost and is_lost or not (is_disturbed or is_lost):
                    raise StoreFailed(said) from error
                was_lost = was_lost or is_lost
            except BaseException:
                self._drop()
                raise
        raise AssertionError("the last try ends")

    def _said(self, error: Exception) -> str:
        """What is said of an error of the engine."""
        if not self._watch.has_shut:
            return str(error).strip()
        self._hosts.pass_over()
        self._watch.has_shut = False
        return f"the server hasn't answered for {self._answer_timeout:g} seconds"

    def _take_back(self, is_disturbed: bool) -> None:
        """Takes back what isn't committed. The connection stays where others disturbed the transaction; else the server
        does it, once the connection is gone."""
        if is_disturbed and self._connection is not None:
            with suppress(self._engine.Error), self._watch:
                self._connection.execute("ROLLBACK")
                return
        self._drop()

    def _run(self, sql: str, parameters: Sequence[object] = ()) -> Any:
        if self._connection is None:
            raise self._engine.OperationalError("the connection is closed")
        with self._watch:
            return self._connection.execute(sql, tuple(parameters) or None)
