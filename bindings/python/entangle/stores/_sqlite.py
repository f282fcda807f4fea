"""A store in a file of SQLite."""

from __future__ import annotations

import os
import sqlite3
from contextlib import suppress
from dataclasses import replace
from typing import Any, Callable, Optional, Sequence, Union

from ._errors import StoreError, StoreFailed
from ._forms import quoted
from ._rows import Column, Key
from ._sql import Change, Result, SqlStore
from ._tables import Kind, Table


def _text(given: bytes) -> str:
    """A text of the file. Bytes that aren't UTF-8 become characters that no text of a room has."""
    return given.decode("utf-8", "surrogateescape")


def _kind(declared: str) -> Optional[Kind]:
    """The kind of a column that is declared with this type: by the rules of SQLite, which take the first that fits."""
    words = declared.upper()
    if "INT" in words:
        return "INT"
    return "TEXT" if any(word in words for word in ("CHAR", "CLOB", "TEXT")) else None


class SqliteStore(SqlStore):
    """A store in a file of SQLite, for rooms of one machine.

    The file has a write-ahead log, and each transaction is on the disk before it counts (synchronous FULL). A call
    waits for another one's lock for so many seconds, and then raises StoreFailed. Several rooms may have stores in one
    file, under different names; they write one at a time.
    """

    def __init__(self, path: Union[str, "os.PathLike[str]"], *, name: str = "entangle", timeout: float = 10.0) -> None:
        """The file is made by load(), if it isn't there."""
        super().__init__(name, timeout)
        given = os.fspath(path)
        # files without a name and in memory are none; of others the place stays, wherever the process goes
        self._path = given if given in ("", ":memory:") else os.path.abspath(given)
        self._connection: Optional[sqlite3.Connection] = None

    def _connected(self) -> sqlite3.Connection:
        """The connection, which is made if there is none."""
        self._is_forked()
        if self._connection is None:
            connection = sqlite3.connect(
                self._path, timeout=self._timeout, isolation_level=None, check_same_thread=False
            )
            try:
                connection.text_factory = _text
                (mode,) = connection.execute("PRAGMA journal_mode = WAL").fetchone()
                if mode != "wal":
                    raise StoreError(f"SQLite has no write-ahead log for {self._path}: it answers {mode!r}")
                connection.execute("PRAGMA synchronous = FULL")
            except BaseException:
                connection.close()
                raise
            self._connection = connection
        return self._connection

    def close(self) -> None:
        """Gives up the connection; nothing that was written is lost. load() connects anew."""
        with self._lock:
            connection, self._connection = self._connection, None
            if connection is not None:
                with suppress(sqlite3.Error):
                    connection.close()

    def _transaction(self, work: Callable[[], Result]) -> Result:
        try:
            self._connected()
            self._run("BEGIN IMMEDIATE")
            result = work()
            self._run("COMMIT")
            return result
        except sqlite3.Error as error:
            self.close()  # which takes back what isn't committed
            raise StoreFailed(f"{self._path}: {error}") from error
        except BaseException:
            self.close()
            raise

    def _reading(self, work: Callable[[], Result]) -> Result:
        try:
            self._connected()
            return work()
        except sqlite3.Error as error:
            self.close()
            raise StoreFailed(f"{self._path}: {error}") from error

    def _run(self, sql: str, parameters: Sequence[object] = ()) -> Any:
        if self._connection is None:
            raise sqlite3.ProgrammingError("the connection is closed")
        return self._connection.execute(sql, tuple(parameters))

    def _run_all(self, changes: Sequence[Change]) -> list[int]:
        return [self._run(change.statement.one, change.parameters).rowcount for change in changes]

    def _is_refusal(self, error: Optional[BaseException]) -> bool:
        return isinstance(error, sqlite3.IntegrityError)

    def _check_constraints(self) -> None:
        pass  # a store doesn't have SQLite check foreign keys, and nothing else is deferred

    def _has_own_tables(self) -> bool:
        sql = "SELECT count(*) FROM sqlite_master WHERE type = 'table' AND name = ?"
        (count,) = self._run(sql, (f"{self._name}_claim",)).fetchone()
        return bool(count)

    def _take_up_tickets(self, now: int) -> None:
        self._replace(f"{self._name}_tickets", self._own.ticket_copy_of_1(now))

    def _replace(self, name: str, statements: Sequence[str]) -> None:
        """Runs statements by which another table takes this one's place, since constraints can't be changed. Indexes
        and triggers stay."""
        sql = "SELECT sql FROM sqlite_master WHERE tbl_name = ? AND type IN ('index', 'trigger') AND sql IS NOT NULL"
        others = [text for (text,) in self._run(sql, (name,)).fetchall()]
        self._run("PRAGMA legacy_alter_table = ON")  # views that read the table stay as they are
        for statement in (*statements, *others):
            self._run(statement)
        self._run("PRAGMA legacy_alter_table = OFF")

    def _place(self, table: Table) -> str:
        schema, name = (("main",) + table.path)[-2:]
        return f"{schema}.{name}".casefold()

    def _described(self, table: Table) -> Optional[dict[str, Column]]:
        schema, name = (("main",) + table.path)[-2:]
        sql = f"SELECT 1 FROM {quoted(schema)}.sqlite_master WHERE type = 'table' AND lower(name) = lower(?)"
        if self._run(sql, (name,)).fetchone() is None:
            return None
        found = {}
        sql = "SELECT name, type, \"notnull\", dflt_value, hidden FROM pragma_table_xinfo(?, ?)"
        for column, declared, has_to_be, default, hidden in self._run(sql, (name, schema)):
            is_computed = hidden != 0
            needs = bool(has_to_be) and default is None and not is_computed
            found[column] = Column(None if is_computed else _kind(declared), needs)
        return found

    def _keys_of(self, table: Table) -> list[Key]:
        schema, name = (("main",) + table.path)[-2:]
        keys = []
        sql = "SELECT name FROM pragma_index_list(?, ?) WHERE \"unique\" AND origin <> 'pk'"
        for (index,) in self._run(sql, (name, schema)).fetchall():
            columns = self._run("SELECT name FROM pragma_index_info(?, ?) ORDER BY seqno", (index, schema)).fetchall()
            keys.append(Key(index, tuple(column or "" for (column,) in columns), False))
        sql = "SELECT name FROM pragma_table_info(?, ?) WHERE pk ORDER BY pk"
        primary = tuple(column for (column,) in self._run(sql, (name, schema)).fetchall())
        if self._lacks_rowid(table):  # by which a certain row of several is found
            primary = tuple(column for column in primary if column in table.stored_names)
        elif not primary:
            return keys
        return [*keys, Key("PRIMARY KEY", primary, True)]

    def _lacks_rowid(self, table: Table) -> bool:
        try:
            self._run(f"SELECT rowid FROM {quoted(*table.path)} LIMIT 0")
            return False
        except sqlite3.OperationalError as error:
            if "no such column" not in str(error):
                raise
            return True

    def _drop_key(self, table: Table, key: Key) -> None:
        other, columns = replace(table, stored_as=f"{self._name}_rebuilt"), ", ".join(map(quoted, table.stored_names))
        place, rebuilt = quoted(*table.path), quoted(*other.path)
        copy = f"INSERT INTO {rebuilt} ({columns}) SELECT {columns} FROM {place}"
        renamed = f"ALTER TABLE {rebuilt} RENAME TO {place}"
        self._replace(table.path[0], [self._creation(other), copy, f"DROP TABLE {place}", renamed])

    def _creation(self, table: Table) -> str:
        types = {"INT": "INTEGER", "TEXT": "TEXT"}
        columns = [f"{quoted(name)} {types[kind]} NOT NULL" for name, kind in table.columns.items()]
        if table.collects:
            return f"CREATE TABLE {quoted(*table.path)} ({', '.join(columns)})"
        columns.append(f"PRIMARY KEY ({', '.join(map(quoted, table.stored_names))})")
        return f"CREATE TABLE {quoted(*table.path)} ({', '.join(columns)}) WITHOUT ROWID"

    def _equal(self, column: str) -> str:
        return f"{column} COLLATE BINARY = ?"

    def _one_of(self, place: str, tests: str) -> str:
        return f"rowid = (SELECT max(rowid) FROM {place} WHERE {tests})"
