"""A store in a database of PostgreSQL."""

from __future__ import annotations

import json
from dataclasses import replace
from itertools import groupby
from operator import itemgetter
from typing import Any, Callable, Collection, Optional, Sequence

from ._forms import quoted
from ._kept import Loaded
from ._protocol import Ready
from ._rows import Column, Key
from ._sessions import Session
from ._sql import Change, Held, Result, SqlStore, Uneven
from ._statements import Columns, Statement, Type, among_many, array_text, deletion_of_many, insertion_of_many
from ._statements import update_of_many
from ._tables import Table

# What constraints, checks of views and triggers answer to a row that they refuse: data exceptions, integrity
# constraints, WITH CHECK OPTION, and errors that functions raise.
_REFUSALS = ("22", "23", "44", "P0")
# So many changes are sent before their results are read.
_AT_ONCE = 1_000
# PostgreSQL takes no key of many more bytes.
_LONGEST_KEY = 2_600
# The advisory lock of those who make tables of stores.
_LOCK = 0x656E74616E676C65
# So many seconds a process may take to make a room of what the store has.
_MOST_LOADING = 600

_COLUMNS = """
SELECT a.attname,
       CASE WHEN a.attgenerated <> '' OR a.attidentity = 'a' THEN NULL
            WHEN t.typname = 'int8' THEN 'INT'
            WHEN (t.typname = 'text' OR t.typname = 'varchar' AND a.atttypmod = -1)
                 AND coalesce(c.collisdeterministic, true) THEN 'TEXT' END,
       a.attnotnull AND NOT a.atthasdef AND a.attidentity = ''
  FROM pg_attribute a JOIN pg_type t ON t.oid = a.atttypid LEFT JOIN pg_collation c ON c.oid = a.attcollation
  JOIN pg_class r ON r.oid = a.attrelid
 WHERE a.attrelid = to_regclass(%s) AND r.relkind = 'r' AND a.attnum > 0 AND NOT a.attisdropped
"""

_KEYS = """
SELECT coalesce(c.conname, i.indexrelid::regclass::text), i.indisprimary,
       ARRAY (SELECT coalesce(a.attname, '')::text
                FROM unnest((i.indkey::int2[])[0 : i.indnkeyatts - 1]) WITH ORDINALITY AS k (number, at)
                LEFT JOIN pg_attribute a ON a.attrelid = i.indrelid AND a.attnum = k.number ORDER BY k.at)
  FROM pg_index i LEFT JOIN pg_constraint c ON c.conindid = i.indexrelid AND c.contype IN ('p', 'u')
 WHERE i.indrelid = to_regclass(%s) AND i.indisunique ORDER BY 1
"""

_CHECK_OF_GROUPS = """
SELECT c.conname FROM pg_constraint c JOIN pg_attribute a ON a.attrelid = c.conrelid AND a.attnum = ANY (c.conkey)
 WHERE c.conrelid = to_regclass(%s) AND c.contype = 'c' AND a.attname = 'ended_in'
"""


class PostgresStore(Session, SqlStore):
    """A store in a database of PostgreSQL, for rooms of any number of machines.

    It needs psycopg 3 with libpq 14 or later. Transactions are SERIALIZABLE; one that others disturb is made again. A
    lost connection is made anew, with the first of the hosts of the `dsn` that takes it, from the last one on. Several
    rooms may have stores in one database, under different names. They don't wait for each other.

    A call waits for another one's lock for `timeout` seconds, half of `answer_timeout` at most, and then raises
    StoreFailed; for `timeout` seconds a connection may also be silent within a transaction, before the server ends it.
    A connection whose server says nothing for `answer_timeout` seconds is given up, and the call made again, once; each
    host has `connect_timeout` seconds to take a connection. So where servers stand still, a call raises StoreFailed
    within twice `answer_timeout`, and twice `connect_timeout` for each host.

    A process that is forked has to load a store of its own.
    """

    _mark = "%s"
    _integer = "BIGINT"
    _blob = "BYTEA"
    _keys_at_once = 10_000

    def __init__(
        self,
        dsn: str,
        *,
        name: str = "entangle",
        timeout: float = 10.0,
        answer_timeout: float = 30.0,
        connect_timeout: float = 5.0,
        allow_settings: Collection[str] = (),
    ) -> None:
        """`dsn` says where the database is, as psycopg takes it: `dbname=trips host=db.example`. Its own settings of
        connect_timeout, keepalives and tcp_user_timeout count. A server with `fsync` or `full_page_writes` off is
        refused; `allow_settings=("full_page_writes",)` says that its file system never leaves half a page.

        Raises ValueError for a name that no store has, for a `dsn` that can't be read, and for times of no length; and
        StoreError without psycopg, and if libpq is older than 14. Nothing is asked yet."""
        SqlStore.__init__(self, name, timeout)
        Session.__init__(
            self,
            dsn,
            f"entangle {name}",
            timeout=timeout,
            answer_timeout=answer_timeout,
            connect_timeout=connect_timeout,
            allow_settings=allow_settings,
        )

    def close(self) -> None:
        """Gives up the connection; nothing that was written is lost. load() connects anew."""
        with self._lock:
            self._give_up()

    def _transaction(self, work: Callable[[], Result]) -> Result:
        def whole() -> Result:
            self._run("BEGIN ISOLATION LEVEL SERIALIZABLE")
            result = work()
            self._commit()
            return result

        return self._tried(whole)

    def _reading(self, work: Callable[[], Result]) -> Result:
        return self._tried(work)

    def _many_rows(self, columns: Sequence[str], source: str, parameters: Sequence[object]) -> Sequence[Sequence[Any]]:
        # a text for each column: a psycopg that has no part in C takes two microseconds for each value
        texts = ", ".join(f"json_agg({column})::text" for column in columns)
        found = self._run(f"SELECT {texts} FROM (SELECT {', '.join(columns)} FROM {source}) AS found", parameters)
        return sorted(zip(*(json.loads(text or "[]") for text in found.fetchone())), key=itemgetter(0))

    def _run_all(self, changes: Sequence[Change]) -> list[int]:
        counts: list[int] = []
        for start in range(0, len(changes), _AT_ONCE):
            sent: list[tuple[list[Change], Any]] = []
            with self._watch, self._connection.pipeline():
                for statement, same in groupby(changes[start : start + _AT_ONCE], lambda change: change.statement):
                    sent += self._sent(statement, list(same))
            for run, cursor in sent:
                counts += self._counts_of(run, cursor)
        return counts

    def _sent(self, statement: Statement, run: list[Change]) -> list[tuple[list[Change], Any]]:
        """Sends changes of one statement: by one for all of them, if there is such."""
        if len(run) == 1 or statement.many is None:
            return [([change], self._run(statement.one, change.parameters)) for change in run]
        arrays = [array_text(values) for values in zip(*(change.parameters for change in run))]
        return [(run, self._run(statement.many, arrays))]

    def _counts_of(self, run: list[Change], cursor: Any) -> list[int]:
        """How many rows each change touched. Raises Uneven if some of many changes doesn't touch one."""
        count: int = cursor.rowcount
        if len(run) == 1:
            return [count]
        touched = {number for (number,) in cursor} if run[0].statement.returns else run
        if count != len(run) or len(touched) != len(run):
            raise Uneven(f"{len(run)} changes from that of {run[0].what} on touch {count} rows of the store")
        return [1] * count

    def _among(self, column: str, kind: Type, values: Sequence[object]) -> tuple[str, Sequence[object]]:
        return among_many(column, kind), [array_text(values)]

    def _insertion(self, place: str, columns: Columns) -> Statement:
        return replace(super()._insertion(place, columns), many=insertion_of_many(place, columns))

    def _update(self, place: str, sets: Columns, key: Columns, unset: str) -> Statement:
        return replace(super()._update(place, sets, key, unset), many=update_of_many(place, sets, key, unset))

    def _deletion(self, place: str, columns: Columns) -> Statement:
        return replace(super()._deletion(place, columns), many=deletion_of_many(place, columns), returns=True)

    def _is_refusal(self, error: Optional[BaseException]) -> bool:
        if not isinstance(error, self._engine.Error):
            return False
        state: str = error.sqlstate or ""
        return state.startswith(_REFUSALS)

    def _check_constraints(self) -> None:
        self._run("SET CONSTRAINTS ALL IMMEDIATE")
        self._run("SET CONSTRAINTS ALL DEFERRED")

    def _has_own_tables(self) -> bool:
        # asked first, since who may not make tables can have a store that is there
        (place,) = self._run("SELECT to_regclass(%s)", (self._claims,)).fetchone()
        return place is not None

    def _take_up_tickets(self, now: int) -> None:
        self._run(f"ALTER TABLE {self._claims} ALTER COLUMN token DROP DEFAULT")
        for statement in self._own.ticket_changes_of_1(now):
            self._run(statement)
        found = self._run(_CHECK_OF_GROUPS, (self._tickets,)).fetchall()
        for (name,) in found:
            self._run(f"ALTER TABLE {self._tickets} DROP CONSTRAINT {quoted(name)}")
        self._run(f"ALTER TABLE {self._tickets} ADD {self._own.group_check}")

    def _make_own_tables(self) -> None:
        # two processes may come at once: one after the other makes what isn't there
        self._run("SELECT pg_advisory_xact_lock(%s)", (_LOCK,))
        super()._make_own_tables()

    def _load(self, tables: Sequence[Table], ready: Ready) -> tuple[Loaded, Held]:
        # before the snapshot is taken: who writes all the time can't be in the way for longer than one transaction
        self._run(f"LOCK TABLE {self._claims} IN EXCLUSIVE MODE")
        # a room with many who wait takes its time to be made ready
        self._run(f"SET LOCAL idle_in_transaction_session_timeout = {_MOST_LOADING * 1000}")
        return super()._load(tables, ready)

    def _place(self, table: Table) -> str:
        if len(table.path) == 2:
            return ".".join(table.path)
        sql = (
            "SELECT coalesce((SELECT relnamespace::regnamespace::text FROM pg_class WHERE oid = to_regclass(%s)),"
            " current_schema())"
        )
        (schema,) = self._run(sql, (quoted(*table.path),)).fetchone()
        return f"{schema}.{table.path[0]}"

    def _described(self, table: Table) -> Optional[dict[str, Column]]:
        found = self._run(_COLUMNS, (quoted(*table.path),)).fetchall()
        return {name: Column(kind, needs) for name, kind, needs in found} or None

    def _keys_of(self, table: Table) -> list[Key]:
        found = self._run(_KEYS, (quoted(*table.path),)).fetchall()
        return [Key(name, tuple(columns), is_primary) for name, is_primary, columns in found]

    def _drop_key(self, table: Table, key: Key) -> None:
        self._run(f"ALTER TABLE {quoted(*table.path)} DROP CONSTRAINT {quoted(key.name)}")

    def _creation(self, table: Table) -> str:
        types = {"INT": "BIGINT", "TEXT": 'TEXT COLLATE "C"'}
        columns = [f"{quoted(name)} {types[kind]} NOT NULL" for name, kind in table.columns.items()]
        longest = sum(260 if kind == "TEXT" else 8 for kind in table.columns.values())
        if not table.collects and longest <= _LONGEST_KEY:
            columns.append(f"PRIMARY KEY ({', '.join(map(quoted, table.stored_names))})")
        return f"CREATE TABLE {quoted(*table.path)} ({', '.join(columns)})"

    def _equal(self, column: str) -> str:
        return f"{column} = %s"

    def _one_of(self, place: str, tests: str) -> str:
        return f"ctid = (SELECT ctid FROM {place} WHERE {tests} LIMIT 1)"
