"""Requests that stand in PostgreSQL before any room runs them."""

from __future__ import annotations

import hashlib
import threading
import time
from contextlib import suppress
from dataclasses import dataclass
from datetime import datetime
from typing import Any, Callable, Collection, Iterator, Mapping, Optional, Sequence

from .._tickets import Ticket, ending_of_words
from .._values import Row as TableRow
from ._asked import Ended, Fate, InboxRequest, Queued, Rejected, Row, Waiting
from ._ears import Ear
from ._errors import StoreError, StoreFailed, StoreTaken
from ._forms import OwnTables, quoted
from ._kept import Outcome, Waiter, answers_of, key_digest, microseconds_of, patience_of, time_of, values_of
from ._kept import values_text
from ._sessions import Result, Session
from ._sql import checked_store_name
from ._statements import array_text
from ._tables import Table

# Rows that come and go leave room behind, which the server takes back from so many on.
_AUTOVACUUM = "autovacuum_vacuum_scale_factor = 0, autovacuum_vacuum_threshold = 5000"
# A notification has 8,000 bytes at most.
_MOST_TOLD = 7_000
# For so many seconds it holds what a desk has counted.
_COUNTED_SECONDS = 5
# For a transaction that waits for no disk.
_UNSYNCED = ("SET LOCAL synchronous_commit = off", ())
# The advisory lock of those who make inboxes.
_LOCK = 0x656E74616E676C66


class InboxFull(StoreError):
    """As many requests stand in the inbox as may. Nothing was asked: ask again later, with the same keys."""


@dataclass(frozen=True)
class Backlog:
    """How much there is to do, as the desk said it last: requests in the inbox, and scripts that wait in the room."""

    queued: int
    waiting: int


class PostgresInbox(Session):
    """Requests for a room, in the database of its store. Processes that have no room (fronts) ask here, and the one
    that has it takes what they asked (Desk). A request is durable before any room runs it, and a process that asks may
    be killed at any time. Threads may share an inbox: a lock inside gives it to one call at a time.

    Whatever a call tells is on the disks of the synchronous standbys too, if the server has such: a call that has only
    read something that may be told writes a record behind it, and waits for that. Any call may raise StoreFailed; then
    make it again. It is asked by key, so nothing is done twice.
    """

    def __init__(
        self,
        dsn: str,
        *,
        name: str = "entangle",
        timeout: float = 10.0,
        answer_timeout: float = 30.0,
        connect_timeout: float = 5.0,
        allow_settings: Collection[str] = (),
        most_queued: int = 100_000,
    ) -> None:
        """All but the last is as PostgresStore takes it. Above `most_queued` requests, which are counted once a second,
        ask() raises InboxFull."""
        super().__init__(
            dsn,
            f"entangle inbox {checked_store_name(name)}",
            timeout=timeout,
            answer_timeout=answer_timeout,
            connect_timeout=connect_timeout,
            allow_settings=allow_settings,
        )
        self._name, self._most_queued = name, most_queued
        self._lock = threading.RLock()
        own = OwnTables(name, "BIGINT", "BYTEA")
        self._rows, self._state, self._claims = quoted(f"{name}_inbox"), quoted(f"{name}_inbox_state"), own.claims
        self._fates = _fates_sql(own, self._rows)
        self._count = f"(SELECT count(*) FROM {self._rows} WHERE refused IS NULL)"
        # the row of the claim stays as it is until the COMMIT: who loads the store waits for that
        self._held = f"SELECT 1 FROM {own.claims} WHERE claim = %s AND token = %s FOR SHARE"
        self._was_taken = (
            f"NOT EXISTS (SELECT 1 FROM {self._rows} AS p"
            " WHERE p.request_key = t.request_key AND p.kind = 'put' AND p.refused IS NULL)"
        )
        self._ears: list[Ear] = []
        # what names the inbox in channels, once that is known
        self._place: Optional[str] = None
        self._queued, self._counted_at = 0, -1.0

    # ---- the tables

    def make(self) -> None:
        """Makes the inbox if it isn't there. A desk does so before it serves."""

        def work() -> None:
            self._run("SELECT pg_advisory_xact_lock(%s)", (_LOCK,))
            self._run(
                f"CREATE TABLE IF NOT EXISTS {self._rows} (id BIGINT GENERATED ALWAYS AS IDENTITY PRIMARY KEY,"
                " request_key TEXT NOT NULL, kind TEXT NOT NULL CHECK (kind IN ('put', 'withdraw')),"
                " script TEXT, bound TEXT, label TEXT, until BIGINT, refused TEXT,"
                " at TIMESTAMPTZ NOT NULL DEFAULT now(), UNIQUE (request_key, kind),"
                f" CHECK ((script IS NULL) = (kind = 'withdraw'))) WITH ({_AUTOVACUUM})"
            )
            self._run(
                f"CREATE TABLE IF NOT EXISTS {self._state} (one BOOLEAN PRIMARY KEY CHECK (one),"
                " queued BIGINT NOT NULL, waiting BIGINT NOT NULL, at TIMESTAMPTZ NOT NULL)"
            )
            self._run(f"INSERT INTO {self._state} VALUES (true, 0, 0, now()) ON CONFLICT DO NOTHING")

        self._within(work)

    def _within(self, work: Callable[[], Result]) -> Result:
        """Does work in a transaction. Each of its statements sees what others have committed until then."""

        def whole() -> Result:
            self._run("BEGIN ISOLATION LEVEL READ COMMITTED")
            result = work()
            self._commit()
            return result

        with self._lock:
            return self._tried(whole)

    def _at_once(self, *statements: tuple[str, Sequence[object]]) -> list[Any]:
        """Makes a transaction of statements that are all sent before the first is answered; their cursors."""

        def whole() -> list[Any]:
            self._warning = None
            with self._watch, self._connection.pipeline():
                self._run("BEGIN ISOLATION LEVEL READ COMMITTED")
                cursors = [self._run(sql, parameters) for sql, parameters in statements]
                ended = self._run("COMMIT")
            self._check_committed(ended)
            return cursors

        with self._lock:
            return self._tried(whole)

    # ---- for those who ask

    def ask(self, requests: Sequence[InboxRequest]) -> list[Fate]:
        """Asks for requests, in one transaction, and gives how each stands: it is durable then, in the inbox or in the
        store. A key is one request: who asks again with it is told how the first one stands. Raises InboxFull."""
        if not requests:
            return []
        if self.backlog_seen() > self._most_queued:
            raise InboxFull(f"{self._queued:,} requests stand in the inbox, and {self._most_queued:,} may")
        first: dict[str, InboxRequest] = {}
        for request in requests:
            first.setdefault(request.key, request)
        inserted, found = self._asked([first[key] for key in sorted(first)])
        self._notify("asks")
        told, is_new = [], set(inserted)
        for request in requests:
            fate = found[request.key]
            if isinstance(fate, Queued) and request.key in is_new:
                is_new.discard(request.key)
                fate = Queued(fate.request, True)
            told.append(fate)
        return told

    def _asked(self, requests: Sequence[InboxRequest]) -> tuple[list[str], dict[str, Fate]]:
        """Puts requests in, and reads how they stand: the keys that weren't there, and all fates."""
        # where the key is there already the row is written again: so this COMMIT waits for a standby that lacks it
        insert = (
            f"INSERT INTO {self._rows} (request_key, kind, script, bound, label, until)"
            " SELECT k, 'put', s, b, l, u FROM unnest(%s::text[], %s::text[], %s::text[], %s::text[], %s::bigint[])"
            " AS v (k, s, b, l, u) ON CONFLICT (request_key, kind) DO UPDATE SET request_key = excluded.request_key"
            " RETURNING request_key, xmax = 0"
        )
        keys = [request.key for request in requests]
        untils = [None if request.until is None else microseconds_of(request.until) for request in requests]
        bound = [values_text(request.values) for request in requests]
        scripts, labels = [request.script for request in requests], [request.label for request in requests]
        columns: list[Sequence[object]] = [keys, scripts, bound, labels, untils]
        parameters = [array_text(values) for values in columns]
        rows, fates = self._at_once((insert, parameters), (self._fates, self._of_keys(keys)))
        return [key for key, is_new in rows.fetchall() if is_new], _read_fates(keys, fates.fetchall())

    def withdraw(self, keys: Sequence[str]) -> None:
        """Has the desk withdraw requests that were asked before; what has ended by then stays so. It is durable when
        this returns, and done once fates() says so. A key that nobody has asked with is passed over."""
        sql = (
            f"INSERT INTO {self._rows} (request_key, kind) SELECT k, 'withdraw' FROM unnest(%s::text[]) AS v (k)"
            " ON CONFLICT (request_key, kind) DO UPDATE SET request_key = excluded.request_key"
        )
        if keys:
            self._at_once((sql, (array_text(sorted(set(keys))),)))
            self._notify("asks")

    def fates(self, keys: Sequence[str]) -> dict[str, Optional[Fate]]:
        """How the requests with these keys stand; None of what nobody has asked for."""

        def work() -> dict[str, Optional[Fate]]:
            found = _read_fates(keys, self._run(self._fates, self._of_keys(keys)).fetchall())
            if found:
                self._affirm()
            return {key: found.get(key) for key in keys}

        with self._lock:
            return self._tried(work)

    def rows_of(self, table: Table) -> list[TableRow]:
        """The rows of a table as the store has it, ascending. Raises StoreFailed if there is no such table."""
        columns = ", ".join(quoted(name) for name in table.stored_names)

        def work() -> list[TableRow]:
            sql = f"SELECT {columns} FROM {quoted(*table.path)} ORDER BY {columns}"
            found: list[TableRow] = self._run(sql).fetchall()
            self._affirm()
            return found

        with self._lock:
            return self._tried(work)

    def last_group(self) -> int:
        """The number of the last group that is in the store: tables change by groups alone."""
        found = self._found(f"SELECT last_group FROM {self._claims}")
        return int(found[0][0]) if found else 0

    def backlog(self) -> Backlog:
        """How much there is to do, as the desk said it last. Where no desk has counted for some seconds the requests
        are counted here."""
        sql = (
            f"SELECT CASE WHEN at > now() - interval '{_COUNTED_SECONDS} seconds' THEN queued ELSE {self._count} END,"
            f" waiting FROM {self._state}"
        )
        ((queued, waiting),) = self._found(sql)
        return Backlog(queued, waiting)

    def backlog_seen(self) -> int:
        """How many requests stand in the inbox, as this was asked a second ago or later."""
        if time.monotonic() > self._counted_at + 1.0:
            self._queued = self.backlog().queued
            self._counted_at = time.monotonic()
        return self._queued

    def _found(self, sql: str, parameters: Sequence[object] = ()) -> list[tuple[Any, ...]]:
        """The rows that a statement finds which writes nothing."""

        def found() -> list[tuple[Any, ...]]:
            rows: list[tuple[Any, ...]] = self._run(sql, parameters).fetchall()
            return rows

        with self._lock:
            return self._tried(found)

    def _of_keys(self, keys: Sequence[str]) -> tuple[str, str, str]:
        """The parameters of a question about keys."""
        texts = array_text(list(keys))
        return texts, array_text([key_digest(key) for key in keys]), texts

    def _affirm(self) -> None:
        """Writes a record, at whose COMMIT the server waits for its standby: so it waits for all that was read."""
        self._warning = None
        self._run("SELECT pg_logical_emit_message(true, 'entangle', '')")
        if self._warning is not None:
            raise StoreFailed(f"the server warns at COMMIT: {self._warning}")

    # ---- for the desk

    def take(self, most: int, withdrawals_alone: bool = False) -> list[Row]:
        """What stands in the inbox, so many rows at most, in the order in which it was asked; or of it only what is to
        be withdrawn and was taken before. It stays there."""
        test = f" AND kind = 'withdraw' AND {self._was_taken}" if withdrawals_alone else ""
        sql = (
            f"SELECT id, request_key, script, bound, label, until FROM {self._rows} AS t WHERE refused IS NULL{test}"
            " ORDER BY id LIMIT %s"
        )
        found = self._found(sql, (most,))
        return [
            Row(number, key, None if script is None else _request(key, script, bound, label, until))
            for number, key, script, bound, label, until in found
        ]

    def done(self, numbers: Sequence[int], told: Optional[Sequence[str]], claim: int, token: int) -> None:
        """Takes rows out that are in the store, and says whose requests may stand otherwise since: with none named, any
        may. That needn't be durable: a row that comes back is put again, by its key, and gets its first ticket.

        Raises StoreTaken if the store hasn't this claim and this token: then what this process saw there may be lost,
        and the rows are still to be put.
        """
        sql = (
            f"WITH held AS ({self._held}) DELETE FROM {self._rows} USING held WHERE id = ANY (%s::bigint[])"
        )
        channel = self._channel("tells")
        notices = [("SELECT pg_notify(%s, %s)", (channel, payload)) for payload in _payloads(told)]
        # who notifies holds a lock over all databases until its COMMIT is done: so that waits for no disk
        if not numbers:
            self._at_once(_UNSYNCED, *notices)
            return
        deletion = sql, (claim, token, array_text(list(numbers)))
        _, deleted, *_ = self._at_once(_UNSYNCED, deletion, *notices)
        self._check_held(deleted.rowcount == len(numbers), claim, token)

    def reject(self, faults: Mapping[int, str], claim: int, token: int) -> None:
        """Says of rows why they can't be put, as long as the store has this claim and this token. Raises StoreTaken if
        it has others: another process has the room then, and may put them."""
        sql = (
            f"WITH held AS ({self._held}) UPDATE {self._rows} AS t SET refused = v.fault FROM held,"
            " unnest(%s::bigint[], %s::text[]) AS v (id, fault) WHERE t.id = v.id"
        )
        said = [fault.replace("\0", "") for fault in faults.values()]
        parameters = (claim, token, array_text(list(faults)), array_text(said))

        if faults:
            (rejected,) = self._at_once((sql, parameters))
            self._check_held(rejected.rowcount == len(faults), claim, token)

    def _check_held(self, is_done: bool, claim: int, token: int) -> None:
        """Raises StoreTaken if not all was done, since another process has the store. Then nothing was done."""
        if not is_done and self._found(f"SELECT claim, token FROM {self._claims}") != [(claim, token)]:
            raise StoreTaken("another process has loaded the store")

    def count(self, waiting: int) -> Backlog:
        """Counts the requests that stand in the inbox, and says so to those who ask, with how many scripts wait."""

        sql = (
            f"UPDATE {self._state} SET queued = {self._count}, waiting = %s, at = now() RETURNING queued, waiting"
        )
        _, counted = self._at_once(_UNSYNCED, (sql, (waiting,)))
        return Backlog(*counted.fetchone())

    def forget(self, before: datetime) -> int:
        """Takes out the requests that were rejected and asked before a point in time; how many these are."""
        sql = f"DELETE FROM {self._rows} WHERE refused IS NOT NULL AND at < %s"
        (forgotten,) = self._at_once((sql, (before,)))
        return int(forgotten.rowcount)

    # ---- notifications

    def _notify(self, what: str) -> None:
        """Says that something was asked. It is a hint: whoever waits for it looks each second anyway."""

        with suppress(StoreFailed):
            self._at_once(_UNSYNCED, ("SELECT pg_notify(%s, '')", (self._channel(what),)))

    def _channel(self, what: str) -> str:
        """The channel of an inbox: those of two schemas have two."""
        if self._place is None:
            ((schema,),) = self._found("SELECT current_schema()")
            if schema is None:
                raise StoreFailed("the schema of the inbox isn't there")
            self._place = hashlib.sha256(f"{schema}.{self._name}".encode()).hexdigest()[:32]
        return f"entangle_{what}_{self._place}"

    def asks(self, heard: Callable[[list[str]], object]) -> Ear:
        """Calls `heard` in a thread of its own whenever somebody has asked for something, and each second."""
        return self._ear("asks", heard)

    def tells(self, heard: Callable[[list[str]], object]) -> Ear:
        """Calls `heard` in a thread of its own with the keys of requests that may stand otherwise since, and each
        second with none: then any may."""
        return self._ear("tells", heard)

    def _ear(self, what: str, heard: Callable[[list[str]], object]) -> Ear:
        self._ears.append(Ear(self._engine, self._hosts.others(), lambda: self._channel(what), heard))
        return self._ears[-1]

    def close(self) -> None:
        """Gives up the connections. The next call makes one anew."""
        while self._ears:
            self._ears.pop().close()
        with self._lock:
            self._give_up()


def _fates_sql(own: OwnTables, rows: str) -> str:
    """How requests with some keys stand, by one statement and so by one snapshot: a request that was asked is in the
    inbox, or among the tickets, or among the keys that are kept of those, at each moment."""
    ended = "ended_in, ending, epoch, number, failure"
    none = ", ".join(["NULL"] * 4)
    return (
        f"SELECT 'ticket', request_key, NULL::bytea, ticket, script, bound, until, patience, batches, {ended}, answers,"
        f" NULL::text, NULL::text FROM {own.tickets} WHERE request_key = ANY (%s::text[])"
        f" UNION ALL SELECT 'key', NULL, key_digest, ticket, {none}, NULL, {ended}, '[]', NULL, NULL"
        f" FROM {own.keys} WHERE key_digest = ANY (%s::bytea[])"
        f" UNION ALL SELECT 'inbox', request_key, NULL, id, script, bound, until, {none}, {none}, label, refused"
        f" FROM {rows} WHERE kind = 'put' AND request_key = ANY (%s::text[])"
    )


def _read_fates(keys: Sequence[str], found: Sequence[tuple[Any, ...]]) -> dict[str, Fate]:
    """The fates of what was found. What the store has of a request goes before what the inbox has."""
    of_digests = {key_digest(key): key for key in keys}
    fates: dict[str, Fate] = {}
    for where, key, digest, number, script, bound, until, patience, batches, *ended, answers, label, refused in found:
        if where == "inbox":
            request = _request(key, script, bound, label, until)
            fates.setdefault(key, Queued(request) if refused is None else Rejected(request, refused))
            continue
        waiter = None
        if where == "ticket":
            due = None if until is None else time_of(until)
            waiter = Waiter(Ticket(number), script, values_of(bound), patience_of(patience), batches, key, due)
        group, kind, epoch, commit, failure = ended
        if kind is None:
            assert waiter is not None, "what is forgotten has ended"
            fates[key] = Waiting(waiter)
        else:
            ending = ending_of_words(kind, epoch, commit, failure)
            key = of_digests[digest] if waiter is None else key
            fates[key] = Ended(Outcome(Ticket(number), group, ending, answers_of(answers)), waiter)
    return fates


def _request(key: str, script: str, bound: str, label: str, until: Optional[int]) -> InboxRequest:
    """A request as it stands in the inbox."""
    return InboxRequest(script, values_of(bound), key, None if until is None else time_of(until), label)


def _payloads(keys: Optional[Sequence[str]]) -> Iterator[str]:
    """What notifications tell of keys: some of them each; one without any where any may stand otherwise."""
    if keys is None:
        return
    payload = ""
    for key in keys:
        if len(payload) + len(key) > _MOST_TOLD:
            yield payload
            payload = ""
        payload += f"{key}\n"
    yield payload
