"""The tables that a store keeps for a room."""

from __future__ import annotations

import re
from dataclasses import dataclass, field
from typing import Literal, Mapping, Optional, Sequence

from .._values import Row

# The two kinds of columns.
Kind = Literal["INT", "TEXT"]

MOST_ROWS = 65_536

_NAME = re.compile(r"[A-Za-z][A-Za-z0-9_]{0,62}")
_STORED_NAME = re.compile(r'[^\x00-\x1f\x7f"?%.]{1,63}')


@dataclass(frozen=True)
class Table:
    """A table of a room, and where a store keeps it.

    `columns` names its columns in order, each with its kind. Where the store has no table of this name, it is made when
    the store is loaded, with the rows `initial`.

    A table that your database has already is used as it stands, if it has these columns. If it has another name there,
    `stored_as` says it, as `table` or `schema.table`; `stored_columns` says those of columns that have others. A table
    with either isn't made. Columns that aren't mapped must take a row without a value.

    Where `collects` is true, scripts add rows to the table, and the store keeps them all; a room begins without them,
    and may be rid of them at any turn. So scripts can't rely on the rows that are there. It may grow without limit, and
    have a row several times.
    """

    name: str
    columns: Mapping[str, Kind]
    stored_as: Optional[str] = None
    stored_columns: Mapping[str, str] = field(default_factory=dict)
    collects: bool = False
    initial: Sequence[Row] = ()

    def __post_init__(self) -> None:
        for name in (self.name, *self.columns):
            if not _NAME.fullmatch(name):
                raise ValueError(f"no table and no column can have the name {name!r}")
        if not self.columns:
            raise ValueError(f"{self.name} has no columns")
        if any(kind not in ("INT", "TEXT") for kind in self.columns.values()):
            raise ValueError(f"the kinds of the columns of {self.name} are INT and TEXT")
        if any(len(row) != len(self.columns) for row in self.initial):
            raise ValueError(f"a row of {self.name} has another number of values than the table has columns")
        if not set(self.stored_columns) <= set(self.columns):
            raise ValueError(f"stored_columns of {self.name} names a column that isn't there")
        if len(self.path) > 2 or not all(map(_STORED_NAME.fullmatch, (*self.path, *self.stored_names))):
            raise ValueError(f"a name that {self.name} has in the store can't be used")

    @property
    def is_mapped(self) -> bool:
        """Whether it has another name in the store, or a column of it has."""
        return self.stored_as is not None or bool(self.stored_columns)

    @property
    def path(self) -> tuple[str, ...]:
        """Its name in the store, behind the name of the schema if that is said."""
        return tuple((self.stored_as or self.name).split("."))

    @property
    def stored_name(self) -> str:
        """Its name in the store, as it is told to people."""
        return self.stored_as or self.name

    @property
    def stored_names(self) -> tuple[str, ...]:
        """The names of its columns in the store."""
        return tuple(self.stored_columns.get(name, name) for name in self.columns)

    @property
    def declaration(self) -> str:
        """The table as a room declares it."""
        columns = ", ".join(f"{name} {kind}" for name, kind in self.columns.items())
        return f"CREATE TABLE {self.name} ({columns});"


def checked_tables(tables: Sequence[Table]) -> tuple[Table, ...]:
    """Tables with names of their own, also where upper and lower case are one."""
    stored = [table.stored_name.casefold() for table in tables]
    if len({table.name for table in tables}) < len(tables) or len(set(stored)) < len(stored):
        raise ValueError("two tables have one name")
    for table in tables:
        if len({name.casefold() for name in table.stored_names}) < len(table.columns):
            raise ValueError(f"two columns of {table.name} have one name")
    return tuple(tables)
