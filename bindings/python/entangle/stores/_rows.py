"""What stands in the tables of a database, and whether a room can have it."""

from __future__ import annotations

import re
from dataclasses import dataclass
from typing import Mapping, Optional, Sequence

from .._values import Row
from ._errors import NotLoadable, StoredFault
from ._tables import Kind, Table

_CONTROL = re.compile(r"[\x00-\x1f\x7f]")


@dataclass(frozen=True)
class Column:
    """A column as the engine describes it. Its kind is None if no column of a room is like it. It `needs` a value if it
    takes no row without one."""

    kind: Optional[Kind]
    needs: bool


@dataclass(frozen=True)
class Key:
    """Columns of which no two rows of a table may have the same values, and the name of what sees to that."""

    name: str
    columns: tuple[str, ...]
    is_primary: bool


def check_columns(table: Table, found: Mapping[str, Column]) -> None:
    """Raises NotLoadable if a table of a database can't have the rows of a room."""
    for column, kind in zip(table.stored_names, table.columns.values()):
        if column not in found:
            raise NotLoadable(table.stored_name, StoredFault.NO_SUCH_COLUMN, column)
        if found[column].kind != kind:
            raise NotLoadable(table.stored_name, StoredFault.OTHER_TYPE, column)
    for name, column_found in found.items():
        if column_found.needs and name not in table.stored_names:
            raise NotLoadable(table.stored_name, StoredFault.OTHER_COLUMN, name)


def keys_in_the_way(table: Table, keys: Sequence[Key]) -> list[Key]:
    """The keys for which a table can't have a row twice."""
    return [key for key in keys if set(key.columns) <= set(table.stored_names)]


def is_own_key(table: Table, found: Mapping[str, Column], keys: Sequence[Key]) -> bool:
    """Whether these keys are the one that a store makes for a table whose rows stand there once."""
    is_whole = not table.is_mapped and tuple(found) == table.stored_names
    return is_whole and [(key.columns, key.is_primary) for key in keys] == [(table.stored_names, True)]


def too_many(counts: Mapping[str, int], may_collect: Sequence[str]) -> NotLoadable:
    """The error that says how many rows each table has, and which tables could collect."""
    largest = sorted(counts, key=lambda name: -counts[name])
    said = ", ".join(f"{name} {counts[name]:,}" for name in largest)
    few = [name for name in largest if name in may_collect and counts[name]]
    if few:
        said += f"; {', '.join(few)} could be declared with collects=True, if no script relies on the rows there"
    return NotLoadable(largest[0], StoredFault.TOO_MANY_ROWS, None, None, said)


def _fault_of(value: object, kind: Kind) -> Optional[StoredFault]:
    """Why a value that stands in a store can't be one of a column of this kind."""
    if value is None:
        return StoredFault.NULL
    if not isinstance(value, int if kind == "INT" else str):
        return StoredFault.OTHER_KIND
    if isinstance(value, str):
        try:
            length = len(value.encode())
        except UnicodeEncodeError:
            return StoredFault.NOT_UTF8
        if length > 255:
            return StoredFault.TOO_LONG
        if _CONTROL.search(value):
            return StoredFault.CONTROL_CHARACTER
    return None


def checked_rows(table: Table, rows: Sequence[Row]) -> list[Row]:
    """The rows of a table. Raises NotLoadable for the first that can't be one of a room."""
    kinds = list(table.columns.values())
    for row in rows:
        for kind, column, value in zip(kinds, table.stored_names, row):
            fault = _fault_of(value, kind)
            if fault is not None:
                raise NotLoadable(table.stored_name, fault, column, row)
    seen: set[Row] = set()
    for row in rows:
        if row in seen:
            raise NotLoadable(table.stored_name, StoredFault.TWICE, None, row)
        seen.add(row)
    return list(rows)

