"""What stores in SQL share: their tables, the claim, the compare, and the changes of one transaction."""

from __future__ import annotations

import os
import re
import secrets
import threading
import time
from abc import ABC, abstractmethod
from dataclasses import dataclass, replace
from datetime import datetime
from typing import Any, Callable, Iterator, Optional, Sequence, TypeVar

from .._groups import Group
from .._tickets import Ending, Ticket, TicketCommitted, TicketFailed, TicketNotRestored, TicketRefusedByStore
from .._tickets import ending_of_words
from .._values import Row
from ._connections import Connected
from ._errors import NotLoadable, RefusedByStore, StoreDiffers, StoredFault, StoreError, StoreFailed, StoreTaken
from ._forms import FORM, OwnTables, quoted
from ._kept import Loaded, Outcome, Update, UsedKey, Waiter, answers_of, answers_text, asked_digest, key_digest
from ._kept import microseconds_of, patience_number, patience_of, time_of, values_of, values_text
from ._protocol import Ready, nobody_ends
from ._rows import Column, Key, check_columns, checked_rows, is_own_key, keys_in_the_way, too_many
from ._statements import Columns, Statement, Type
from ._tables import MOST_ROWS, Table, checked_tables

Result = TypeVar("Result")

_WAITER: Columns = {
    "ticket": "INT",
    "request_key": "TEXT",
    "script": "TEXT",
    "bound": "TEXT",
    "patience": "INT",
    "batches": "INT",
    "until": "INT",
    "asked": "BYTES",
}
_ENDING: Columns = {
    "ended_in": "INT",
    "ending": "TEXT",
    "epoch": "INT",
    "number": "INT",
    "failure": "TEXT",
    "answers": "TEXT",
    "ended_at": "INT",
}
_FORGOTTEN: Columns = {
    "key_digest": "BYTES",
    "ticket": "INT",
    "asked": "BYTES",
    **{name: kind for name, kind in _ENDING.items() if name != "answers"},
}
_TICKET: Columns = {"ticket": "INT"}

# Runs statements in order, and gives how many rows each touched.
Running = Callable[[Sequence["Change"]], list[int]]

_STORE_NAME = re.compile(r"[a-z][a-z0-9_]{0,39}")
_TAKEN = "the store isn't as this process left it: another one has loaded it since, or it went back to an earlier state"
# So many who wait are read by one statement.
_WAITERS_AT_ONCE = 10_000
# Of so many tickets one transaction forgets those that ended.
_AT_ONCE = 1_000


def checked_store_name(name: str) -> str:
    """The name of a store. Raises ValueError for one that no store has."""
    if not _STORE_NAME.fullmatch(name):
        raise ValueError(f"a store's name has small letters, digits and _, 40 at most, not {name!r}")
    return name


def _drawn_token() -> int:
    """A number that no other process draws."""
    return secrets.randbits(63)


def _now() -> int:
    """The present time in microseconds since 1970 in UTC."""
    return time.time_ns() // 1000


@dataclass(frozen=True)
class Change:
    """A statement that has to touch one row; and, if a group makes the change, the group, the table and the row."""

    statement: Statement
    parameters: tuple[object, ...]
    what: str
    group: Optional[Group] = None
    table: Optional[str] = None
    row: Optional[Row] = None

    def refused(self) -> RefusedByStore:
        """The error that says that a group isn't taken, because of this change."""
        assert self.group is not None
        return RefusedByStore(self.group.number, _members(self.group), self.table, self.row)


class Uneven(StoreFailed):
    """One of many changes, which were made by one statement, doesn't touch exactly one row."""


def _members(group: Group) -> list[Ticket]:
    """The tickets of those who committed in a group."""
    return [commit.ticket for commit in group.commits]


@dataclass(frozen=True)
class Held:
    """What a process knows of a store that it has: the process; the version; the numbers from which the room goes on;
    what was written last; what is to be written, as long as that isn't known to stand, with the token that it drew; and
    the claims and tokens of those reloads of which it isn't known whether they stand.

    It is another one behind each write, by one assignment: so no interruption leaves a half of it.
    """

    process: int
    claim: int
    write: int
    token: int
    last_group: int
    next_ticket: int
    epoch: int
    written: Optional[Update] = None
    unsure: Optional[Update] = None
    drawn: int = 0
    reclaimed: tuple[tuple[int, int], ...] = ()

    def begun(self, update: Update) -> Held:
        """What is known before an update is sent for the first time. Raises ValueError for one that doesn't go on where
        the last one ended."""
        expected = range(self.last_group + 1, self.last_group + 1 + len(update.groups))
        if [group.number for group in update.groups] != list(expected):
            raise ValueError(f"the groups aren't those from {expected.start} on, one after the other")
        if update.next_ticket < self.next_ticket or update.epoch < self.epoch:
            raise ValueError("the next ticket or the epoch is less than before")
        if any(waiter.ticket.number >= update.next_ticket for waiter in update.waiting):
            raise ValueError("who waits has a ticket from next_ticket on")
        return replace(self, unsure=update, drawn=_drawn_token())

    def behind(self, update: Update) -> Held:
        """What is known once the update that was sent stands."""
        last_group, write = self.last_group + len(update.groups), self.write + 1
        return Held(self.process, self.claim, write, self.drawn, last_group, update.next_ticket, update.epoch, update)


class SqlStore(Connected, ABC):
    """A store in a database of SQL. Threads may share it: a lock inside gives it to one call at a time.

    Beside the tables of the room it has four of its own. NAME_claim has one row with the numbers of the claim and of
    the writes, a random number that the last of them drew, and the numbers from which the room goes on; NAME_tickets
    has a row for each script that was put, with its ending once it has one; NAME_keys has the keys of tickets that were
    forgotten; and entangle_tables says which store has which table.
    """

    _mark = "?"
    _integer = "INTEGER"
    _blob = "BLOB"
    # of so many keys one statement asks
    _keys_at_once = 400

    def __init__(self, name: str, timeout: float) -> None:
        self._name = checked_store_name(name)
        self._timeout = timeout
        self._own = OwnTables(name, self._integer, self._blob)
        self._claims, self._tickets, self._keys = self._own.claims, self._own.tickets, self._own.keys
        self._lock = threading.RLock()
        self._tables: dict[str, Table] = {}
        self._process = os.getpid()
        self._held: Optional[Held] = None
        self._puts = self._insertion(self._tickets, _WAITER)
        self._counts = self._update(self._tickets, {"batches": "INT"}, _TICKET, "ending")
        self._ends = self._update(self._tickets, _ENDING, _TICKET, "ending")
        self._forgets = self._deletion(self._tickets, _TICKET)
        self._keeps_key = self._insertion(self._keys, _FORGOTTEN)

    # ---- what each engine does

    @abstractmethod
    def _transaction(self, work: Callable[[], Result]) -> Result:
        """Does work in a transaction of its own, from its beginning again where that helps. Raises StoreFailed."""

    @abstractmethod
    def _reading(self, work: Callable[[], Result]) -> Result:
        """Does work that changes nothing. Raises StoreFailed."""

    @abstractmethod
    def _run(self, sql: str, parameters: Sequence[object] = ()) -> Any:
        """Runs a statement; its cursor. Each statement of a transaction passes here."""

    def _many_rows(self, columns: Sequence[str], source: str, parameters: Sequence[object]) -> Sequence[Sequence[Any]]:
        """Thousands of rows, in order of the first column: the columns of what stands behind FROM."""
        rows: Sequence[Sequence[Any]] = self._run(f"SELECT {', '.join(columns)} FROM {source}", parameters).fetchall()
        return rows

    @abstractmethod
    def _run_all(self, changes: Sequence[Change]) -> list[int]:
        """Runs statements in order; how many rows each touched."""

    @abstractmethod
    def _place(self, table: Table) -> str:
        """Where a table is in this database, as one text."""

    @abstractmethod
    def _described(self, table: Table) -> Optional[dict[str, Column]]:
        """The columns of a table by name. None if it isn't there."""

    @abstractmethod
    def _keys_of(self, table: Table) -> list[Key]:
        """What lets a table that is there have no row twice."""

    @abstractmethod
    def _drop_key(self, table: Table, key: Key) -> None:
        """Takes the key from a table that a store made."""

    @abstractmethod
    def _creation(self, table: Table) -> str:
        """The statement that makes a table."""

    @abstractmethod
    def _equal(self, column: str) -> str:
        """The test that a column, whose name is quoted, has the value of a parameter, byte for byte."""

    @abstractmethod
    def _one_of(self, place: str, tests: str) -> str:
        """The test that a row is one certain row of those that meet these tests."""

    @abstractmethod
    def _is_refusal(self, error: Optional[BaseException]) -> bool:
        """Whether the engine's error says that a constraint or a trigger refuses a change."""

    @abstractmethod
    def _check_constraints(self) -> None:
        """Has the engine check the constraints that it would check at COMMIT."""

    @abstractmethod
    def _has_own_tables(self) -> bool:
        """Whether the tables of the store itself are there."""

    @abstractmethod
    def _take_up_tickets(self, now: int) -> None:
        """Makes NAME_tickets of form 1 one of form 2."""

    @abstractmethod
    def close(self) -> None:
        """Gives up the connection; nothing that was written is lost. load() connects anew."""

    # ---- loading

    def load(self, tables: Sequence[Table], ready: Ready = nobody_ends) -> Loaded:
        """Claims the store for this process, and gives what it has: see Store.load()."""
        checked = checked_tables(tables)
        if any(table.path[-1].casefold() in self._own.reserved for table in checked):
            raise ValueError("a table or an index of the store itself can't be a table of a room")
        with self._lock:
            if not self._reading(self._has_own_tables):
                self._transaction(self._make_own_tables)
            loaded, held = self._transaction(lambda: self._load(checked, ready))
            self._held = None
            self._tables = {table.name: table for table in checked}
            self._held = held
            return loaded

    def reload(self, ready: Ready = nobody_ends) -> Loaded:
        """Claims the store anew for the process that has it: see Store.reload()."""
        with self._lock:
            self._claimed()
            loaded, held = self._transaction(lambda: self._reload(ready))
            self._held = held
            return loaded

    def _reload(self, ready: Ready) -> tuple[Loaded, Held]:
        self._check_held()
        before = self._claimed()
        loaded, held = self._load(tuple(self._tables.values()), ready)
        # it may stand without an answer, and then the claim is this process's all the same
        self._held = replace(before, reclaimed=(*before.reclaimed, (held.claim, held.token)))
        return loaded, held

    def _make_own_tables(self) -> None:
        for statement in self._own.creations():
            self._run(statement)

    def _load(self, tables: Sequence[Table], ready: Ready) -> tuple[Loaded, Held]:
        """What the store has, and what this process knows of it from then on."""
        self._take_up()
        token = _drawn_token()
        sets = f"claim = claim + 1, epoch = epoch + 1, token = {self._mark}"
        self._run(f"UPDATE {self._claims} SET {sets}", (token,))
        found = self._run(f"SELECT claim, write, epoch, last_group, next_ticket FROM {self._claims}").fetchone()
        claim, write, epoch, last_group, next_ticket = found
        self._register(tables)
        for table in tables:
            self._make_table(table)
        rows = self._rows_of(tables)
        loaded = Loaded(claim, rows, tuple(self._waiters()), next_ticket, epoch, last_group)
        self._make(list(map(self._ending_change, ready(loaded))), self._run_all)
        return loaded, Held(os.getpid(), claim, write, token, last_group, next_ticket, epoch)

    def _take_up(self) -> None:
        """Makes the store's own tables of an earlier form those of the present one. Raises StoreError, and writes
        nothing, if a later version of the package made them."""
        forms = [form for (form,) in self._run(f"SELECT form FROM {self._claims}").fetchall()]
        if len(forms) != 1 or not 1 <= forms[0] <= FORM:
            is_of = f"is of form {forms[0]}, which a later version writes" if len(forms) == 1 else "has no one form"
            raise StoreError(f"the store {self._name} {is_of}: this version takes forms 1 to {FORM}")
        if forms[0] == 1:
            for statement in self._own.claim_changes_of_1():
                self._run(statement)
            self._take_up_tickets(_now())

    def _register(self, tables: Sequence[Table]) -> None:
        """Says that this store has these tables, and no others."""
        places = [self._place(table) for table in tables]
        for table, place in zip(tables, places):
            found = self._run(f"SELECT store FROM entangle_tables WHERE place = {self._mark}", (place,)).fetchone()
            if found is not None and found[0] != self._name:
                raise NotLoadable(table.stored_name, StoredFault.OF_ANOTHER_STORE)
        self._run(f"DELETE FROM entangle_tables WHERE store = {self._mark}", (self._name,))
        for place in places:
            self._run(f"INSERT INTO entangle_tables VALUES ({self._mark}, {self._mark})", (place, self._name))

    def _make_table(self, table: Table) -> None:
        """Makes a table if it isn't there, and has one that is there collect, if it is to. Raises NotLoadable."""
        found = self._described(table)
        if found is None:
            if table.is_mapped:
                raise NotLoadable(table.stored_name, StoredFault.NO_SUCH_TABLE)
            self._run(self._creation(table))
            for row in table.initial:
                self._run(self._row_insertion(table).one, row)
            return
        check_columns(table, found)
        in_the_way = keys_in_the_way(table, self._keys_of(table)) if table.collects else []
        if in_the_way and is_own_key(table, found, in_the_way):
            self._drop_key(table, in_the_way[0])
        elif in_the_way:
            raise NotLoadable(table.stored_name, StoredFault.ONCE, None, None, in_the_way[0].name)

    def _rows_of(self, tables: Sequence[Table]) -> dict[str, list[Row]]:
        """The rows of tables that are there, none of those that collect. Raises NotLoadable."""
        rows: dict[str, list[Row]] = {table.name: [] for table in tables}
        most = MOST_ROWS
        for table in tables:
            if table.collects:
                continue
            columns = ", ".join(map(quoted, table.stored_names))
            found = self._run(f"SELECT {columns} FROM {quoted(*table.path)} LIMIT {most + 1}").fetchall()
            if len(found) > most:
                raise self._too_many_rows(tables)
            rows[table.name] = checked_rows(table, found)
            most -= len(found)
        return rows

    def _too_many_rows(self, tables: Sequence[Table]) -> NotLoadable:
        """What is said where there are too many rows: how many each table has, and which could collect."""
        counts, may_collect = {}, []
        for table in tables:
            if table.collects:
                continue
            (counts[table.stored_name],) = self._run(f"SELECT count(*) FROM {quoted(*table.path)}").fetchone()
            in_the_way = keys_in_the_way(table, self._keys_of(table))
            if not in_the_way or is_own_key(table, self._described(table) or {}, in_the_way):
                may_collect.append(table.stored_name)
        return too_many(counts, may_collect)

    def _waiters(self) -> Iterator[Waiter]:
        columns = ("ticket", "script", "bound", "patience", "batches", "request_key", "until")
        tests = f"ending IS NULL AND ticket > {self._mark}"
        source = f"{self._tickets} WHERE {tests} ORDER BY ticket LIMIT {_WAITERS_AT_ONCE}"
        scripts: dict[str, str] = {}  # many wait with the same one
        found = self._many_rows(columns, source, (-1,))
        while found:
            for ticket, script, bound, patience, batches, key, until in found:
                script = scripts.setdefault(script, script)
                due = None if until is None else time_of(until)
                yield Waiter(Ticket(ticket), script, values_of(bound), patience_of(patience), batches, key, due)
            found = self._many_rows(columns, source, (ticket,)) if len(found) == _WAITERS_AT_ONCE else ()

    # ---- writing

    def apply(
        self,
        groups: Sequence[Group],
        ended: Sequence[Outcome],
        waiting: Sequence[Waiter],
        next_ticket: int,
        epoch: int,
    ) -> None:
        """Writes what a room did since the last apply(), all of it or nothing: see Store.apply()."""
        update = Update(tuple(groups), tuple(ended), tuple(waiting), next_ticket, epoch)
        with self._lock:
            held = self._claimed()
            if held.unsure is None and held.written == update:
                return  # it stands, and whoever was interrupted behind it makes it again
            if held.unsure is None:
                held = held.begun(update)
            elif held.unsure != update:
                raise ValueError("the last apply() isn't known to stand: make it again first, with the same arguments")
            changes = list(self._changes(update, held.next_ticket))
            self._held = held
            try:
                self._transaction(lambda: self._apply(held, update, changes, self._run_all))
            except StoreFailed as error:
                if not isinstance(error, Uneven) and not (update.groups and self._is_refusal(error.__cause__)):
                    raise
                # by which change, the second try says
                self._transaction(lambda: self._apply(held, update, changes, self._run_each))
            self._held = held.behind(update)

    def _claimed(self) -> Held:
        """What this process knows of the store. Raises StoreTaken."""
        if self._held is None:
            raise StoreTaken("the store isn't loaded")
        if self._held.process != os.getpid():
            raise StoreTaken("the process that loaded the store has it, and this one was forked from it")
        return self._held

    def _apply(self, held: Held, update: Update, changes: Sequence[Change], run: Running) -> None:
        last_group, before = held.last_group + len(update.groups), (held.claim, held.write, held.token)
        mark = self._mark
        compared = self._run(
            f"UPDATE {self._claims} SET write = {mark}, last_group = {mark}, next_ticket = {mark}, epoch = {mark},"
            f" token = {mark} WHERE claim = {mark} AND write = {mark} AND token = {mark}",
            (held.write + 1, last_group, update.next_ticket, update.epoch, held.drawn, *before),
        )
        if compared.rowcount != 1:
            self._judge(held)
            return
        self._make(changes, run)

    def _make(self, changes: Sequence[Change], run: Running) -> None:
        """Makes changes. Raises StoreDiffers for the first that doesn't touch exactly one row."""
        for change, count in zip(changes, run(changes)):
            if count != 1:
                raise StoreDiffers(f"{change.what} touches {count} rows of the store, and should touch one")

    def _run_each(self, changes: Sequence[Change]) -> list[int]:
        """Runs statements one by one. Raises RefusedByStore for the first change of a group that the engine refuses, or
        for the first group behind whose changes it refuses the whole."""
        counts: list[int] = []
        for change, later in zip(changes, (*changes[1:], None)):
            try:
                counts.append(self._run(change.statement.one, change.parameters).rowcount)
                if change.group is not None and (later is None or later.group is not change.group):
                    change = replace(change, table=None, row=None)
                    self._check_constraints()
            except Exception as error:
                if change.group is None or not self._is_refusal(error):
                    raise
                raise change.refused() from error
        return counts

    def _judge(self, held: Held) -> None:
        """Why the claim, the number of writes and the token aren't as they were. Nothing is to be done if this very
        update stands: nobody else draws its token."""
        found = self._run(f"SELECT claim, write, token FROM {self._claims}").fetchone()
        if found is None:
            raise StoreDiffers(f"the claim {held.claim} stands behind {held.write} writes, and the store has none")
        if tuple(found) != (held.claim, held.write + 1, held.drawn):
            self._held = None
            raise StoreTaken(_TAKEN)
        # a server that waits for its standby does so for what is written: so it waits for that update too
        self._run(f"UPDATE {self._claims} SET write = write")

    def _changes(self, update: Update, next_ticket: int) -> Iterator[Change]:
        """The statements of an update, in order. Who waits from this ticket on waits since."""
        for waiter in update.waiting:
            yield self._waiting_change(waiter, next_ticket)
        for group in update.groups:
            for name, change in group.changes.items():
                if name not in self._tables:
                    raise ValueError(f"group {group.number} changes {name}, which isn't one of the store's tables")
                table = self._tables[name]
                if change.removed:
                    deletion = self._row_deletion(table)
                for row in change.removed:
                    what = f"group {group.number} takes out {row!r} of {name}, which"
                    yield Change(deletion, row, what, group, name, row)
                if change.added:
                    insertion = self._row_insertion(table)
                for row in change.added:
                    what = f"group {group.number} puts in {row!r} of {name}, which"
                    yield Change(insertion, row, what, group, name, row)
        for outcome in update.ended:
            yield self._ending_change(outcome)

    def _waiting_change(self, waiter: Waiter, next_ticket: int) -> Change:
        """Somebody waits since, or was in more batches."""
        ticket = waiter.ticket.number
        what = f"ticket {ticket}, which waits,"
        if ticket < next_ticket:
            return Change(self._counts, (waiter.batches, ticket), what)
        bound, patience = values_text(waiter.values), patience_number(waiter.patience)
        until = None if waiter.until is None else microseconds_of(waiter.until)
        asked = None if waiter.key is None else asked_digest(waiter.script, waiter.values)
        values = (ticket, waiter.key, waiter.script, bound, patience, waiter.batches, until, asked)
        return Change(self._puts, values, what)

    def _ending_change(self, outcome: Outcome) -> Change:
        """Somebody waits no more."""
        ending = outcome.ending
        epoch = ending.epoch if isinstance(ending, TicketCommitted) else None
        number = ending.number if isinstance(ending, TicketCommitted) else None
        ticket, answers = outcome.ticket.number, answers_text(outcome.answers)
        values = (outcome.group, ending.kind, epoch, number, _failure_of(ending), answers, _now(), ticket)
        return Change(self._ends, values, f"ticket {ticket}, which ended,")

    # ---- statements

    def _among(self, column: str, kind: Type, values: Sequence[object]) -> tuple[str, Sequence[object]]:
        """The test that a column has one of these values, and its parameters."""
        return f"{column} IN ({', '.join([self._mark] * len(values))})", values

    def _insertion(self, place: str, columns: Columns) -> Statement:
        """Puts a row into a table."""
        marks = ", ".join([self._mark] * len(columns))
        return Statement(f"INSERT INTO {place} ({', '.join(columns)}) VALUES ({marks})")

    def _update(self, place: str, sets: Columns, key: Columns, unset: str) -> Statement:
        """Sets columns of the row that has a key, and NULL in the column `unset`."""
        given = ", ".join(f"{column} = {self._mark}" for column in sets)
        tests = " AND ".join(f"{column} = {self._mark}" for column in key)
        return Statement(f"UPDATE {place} SET {given} WHERE {tests} AND {unset} IS NULL")

    def _deletion(self, place: str, columns: Columns) -> Statement:
        """Takes a row out of a table where it stands once."""
        return Statement(f"DELETE FROM {place} WHERE {' AND '.join(map(self._equal, columns))}")

    def _row_insertion(self, table: Table) -> Statement:
        return self._insertion(quoted(*table.path), _columns_of(table))

    def _row_deletion(self, table: Table) -> Statement:
        place, columns = quoted(*table.path), _columns_of(table)
        if table.collects:
            tests = " AND ".join(map(self._equal, columns))
            return Statement(f"DELETE FROM {place} WHERE {self._one_of(place, tests)}")
        return self._deletion(place, columns)

    # ---- forgetting

    def forget(self, before: datetime, first: int = 0) -> tuple[int, Optional[int]]:
        """Forgets tickets that ended: see Store.forget()."""
        with self._lock:
            self._claimed()
            return self._transaction(lambda: self._forget(microseconds_of(before), first))

    def _forget(self, before: int, first: int) -> tuple[int, Optional[int]]:
        self._check_held()
        mark, columns = self._mark, "ended_in, ending, epoch, number, failure, ended_at"
        found = self._run(
            f"SELECT ticket, request_key, asked, {columns}, CASE WHEN asked IS NULL THEN script END,"
            f" CASE WHEN asked IS NULL THEN bound END FROM {self._tickets} WHERE ticket >= {mark}"
            f" ORDER BY ticket LIMIT {_AT_ONCE}",
            (first,),
        ).fetchall()
        keys, tickets = [], []
        for ticket, key, asked, group, ending, *rest, ended_at, script, bound in found:
            if ending is None or ended_at >= before:
                continue
            what = f"ticket {ticket}, which is forgotten,"
            if key is not None:
                values = (key_digest(key), ticket, asked or asked_digest(script, values_of(bound)))
                keys.append(Change(self._keeps_key, (*values, group, ending, *rest, ended_at), what))
            tickets.append(Change(self._forgets, (ticket,), what))
        self._make([*keys, *tickets], self._run_all)
        return len(tickets), found[-1][0] + 1 if len(found) == _AT_ONCE else None

    def forget_keys(self, before: datetime, first: int = 0) -> tuple[int, Optional[int]]:
        """Forgets keys of forgotten tickets: see Store.forget_keys()."""
        with self._lock:
            self._claimed()
            return self._transaction(lambda: self._forget_keys(microseconds_of(before), first))

    def _forget_keys(self, before: int, first: int) -> tuple[int, Optional[int]]:
        self._check_held()
        mark = self._mark
        sql = f"SELECT ticket FROM {self._keys} WHERE ticket >= {mark} ORDER BY ticket LIMIT {_AT_ONCE}"
        found = self._run(sql, (first,)).fetchall()
        if not found:
            return 0, None
        last = found[-1][0]
        sql = f"DELETE FROM {self._keys} WHERE ticket >= {mark} AND ticket <= {mark} AND ended_at < {mark}"
        count: int = self._run(sql, (first, last, before)).rowcount
        return count, last + 1 if len(found) == _AT_ONCE else None

    # ---- looking

    def _read(self, sql: str, parameters: Sequence[object] = ()) -> Optional[tuple[Any, ...]]:
        """The first row that a statement finds, which changes nothing."""

        def first() -> Optional[tuple[Any, ...]]:
            row: Optional[tuple[Any, ...]] = self._run(sql, parameters).fetchone()
            return row

        return self._reading(first)

    def check(self) -> None:
        """Raises StoreTaken if another process has the store."""
        with self._lock:
            self._claimed()
            self._reading(self._check_held)

    def _check_held(self) -> None:
        """Raises StoreTaken if the store isn't as this process left it."""
        held = self._claimed()
        found = self._run(f"SELECT claim, token FROM {self._claims}").fetchone()
        tokens = (held.token,) if held.unsure is None else (held.token, held.drawn)
        own = {*((held.claim, token) for token in tokens), *held.reclaimed}
        if found is None or tuple(found) not in own:
            self._held = None
            raise StoreTaken(_TAKEN)

    def version(self) -> tuple[int, int]:
        """The claim of this process, and the token of its last write. Raises StoreTaken."""
        with self._lock:
            held = self._claimed()
            return held.claim, held.token

    def outcome(self, ticket: Ticket) -> Optional[Outcome]:
        """How a script ended, as it stands in the store, without answers if it was forgotten. None if it hasn't, or
        nobody has the ticket. This needs no claim: any process may ask."""
        columns, mark = "ended_in, ending, epoch, number, failure", self._mark
        sql = (
            f"SELECT {columns}, answers FROM {self._tickets} WHERE ticket = {mark} AND ending IS NOT NULL"
            f" UNION ALL SELECT {columns}, '[]' FROM {self._keys} WHERE ticket = {mark}"
        )
        with self._lock:
            found = self._read(sql, (ticket.number, ticket.number))
        if found is None:
            return None
        group, kind, epoch, number, failure, answers = found
        return Outcome(ticket, group, ending_of_words(kind, epoch, number, failure), answers_of(answers))

    def ticket_of(self, key: str) -> Optional[Ticket]:
        """The ticket of the request with this key, if there is one. This needs no claim: any process may ask."""
        used = self.tickets_of((key,)).get(key)
        return None if used is None else used.ticket

    def tickets_of(self, keys: Sequence[str]) -> dict[str, UsedKey]:
        """The tickets of those of these keys that were used, with the digest of what was asked. This needs no claim:
        any process may ask."""
        wanted, used = list(dict.fromkeys(keys)), {}
        with self._lock:
            for start in range(0, len(wanted), self._keys_at_once):
                some = wanted[start : start + self._keys_at_once]
                used.update(self._reading(lambda: self._used(some)))
        return used

    def _used(self, keys: Sequence[str]) -> dict[str, UsedKey]:
        of_digests = {key_digest(key): key for key in keys}
        of_key, with_keys = self._among("request_key", "TEXT", keys)
        of_digest, with_digests = self._among("key_digest", "BYTES", list(of_digests))
        # a ticket that was put by form 1 has no digest of what was asked: it is made of what stands there
        columns = "CASE WHEN asked IS NULL THEN script END, CASE WHEN asked IS NULL THEN bound END"
        sql = (
            f"SELECT request_key, NULL, ticket, asked, {columns} FROM {self._tickets} WHERE {of_key}"
            f" UNION ALL SELECT NULL, key_digest, ticket, asked, NULL, NULL FROM {self._keys} WHERE {of_digest}"
        )
        used = {}
        for key, digest, ticket, asked, script, bound in self._run(sql, (*with_keys, *with_digests)).fetchall():
            if script is not None:
                asked = asked_digest(script, values_of(bound))
            used[of_digests[digest] if key is None else key] = UsedKey(Ticket(ticket), asked)
        return used

    def put_with(self, key: str) -> Optional[Waiter]:
        """What was put with this key, whether it waits or has ended, if anything was. This needs no claim: any process
        may ask."""
        columns = "ticket, script, bound, patience, batches, until"
        sql = f"SELECT {columns} FROM {self._tickets} WHERE request_key = {self._mark}"
        with self._lock:
            found = self._read(sql, (key,))
        if found is None:
            return None
        ticket, script, bound, patience, batches, until = found
        due = None if until is None else time_of(until)
        return Waiter(Ticket(ticket), script, values_of(bound), patience_of(patience), batches, key, due)

    def waiters(self) -> list[Waiter]:
        """Who waits, by ticket; nobody where nothing was loaded yet. This needs no claim: any process may ask."""
        with self._lock:
            return self._reading(lambda: list(self._waiters()) if self._has_own_tables() else [])

    def endings(self) -> int:
        """How many scripts have ended, with those that were forgotten and had a key. This needs no claim: any process
        may ask."""
        ended = f"(SELECT count(*) FROM {self._tickets} WHERE ending IS NOT NULL)"
        with self._lock:
            found = self._read(f"SELECT {ended} + (SELECT count(*) FROM {self._keys})")
        return 0 if found is None else int(found[0])


def _columns_of(table: Table) -> Columns:
    """The columns of a table in the store, with quoted names."""
    return dict(zip(map(quoted, table.stored_names), table.columns.values()))


def _failure_of(ending: Ending) -> Optional[str]:
    """Why a script ended so, as stores have it."""
    if isinstance(ending, TicketFailed):
        return ending.failure.value
    return ending.fault if isinstance(ending, (TicketNotRestored, TicketRefusedByStore)) else None
