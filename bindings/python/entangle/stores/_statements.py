"""Statements that touch one row each, and the ones that do so for many rows at once."""

from __future__ import annotations

from dataclasses import dataclass
from typing import Literal, Mapping, Optional, Sequence

# The types of columns: those of rooms, and bytes.
Type = Literal["INT", "TEXT", "BYTES"]
Columns = Mapping[str, Type]

# A name that no column of a room has, since it has a point.
_AT = '"many.at"'
_ARRAYS = {"INT": "bigint[]", "TEXT": "text[]", "BYTES": "bytea[]"}


@dataclass(frozen=True)
class Statement:
    """A statement that has to touch one row; and the one that does so for each of many rows, if the engine has such:
    its parameters are arrays, one for each parameter of the other. If that `returns` numbers, they are those of the
    rows, from 1, once for each row that it touched; if not, it can't touch two rows for one."""

    one: str
    many: Optional[str] = None
    returns: bool = False


def insertion_of_many(place: str, columns: Columns) -> str:
    """Puts many rows into a table."""
    return f"INSERT INTO {place} ({', '.join(columns)}) SELECT * FROM {_unnested(columns)}"


def update_of_many(place: str, sets: Columns, key: Columns, unset: str) -> str:
    """Sets columns of many rows, each of which has a key of its own and NULL in the column `unset`."""
    columns = {**sets, **key}
    given = ", ".join(f"{column} = v.{column}" for column in sets)
    tests = " AND ".join(f"t.{column} = v.{column}" for column in key)
    values = f"{_unnested(columns)} AS v ({', '.join(columns)})"
    return f"UPDATE {place} AS t SET {given} FROM {values} WHERE {tests} AND t.{unset} IS NULL"


def deletion_of_many(place: str, columns: Columns) -> str:
    """Takes many rows out of a table; the number of each that is there, from 1, as often as it is there."""
    tests = " AND ".join(f"t.{column} = v.{column}" for column in columns)
    unnested = f"{_unnested(columns)} WITH ORDINALITY AS v ({', '.join(columns)}, {_AT})"
    return f"DELETE FROM {place} AS t USING {unnested} WHERE {tests} RETURNING v.{_AT}"


def among_many(column: str, kind: Type) -> str:
    """The test that a column has one of many values, which are one array."""
    return f"{column} = ANY (%s::{_ARRAYS[kind]})"


def _unnested(columns: Columns) -> str:
    """Rows of arrays, one array a column."""
    return f"unnest({', '.join(f'%s::{_ARRAYS[kind]}' for kind in columns.values())})"


def _element(value: object) -> str:
    if value is None:
        return "NULL"
    if isinstance(value, bytes):
        return f'"\\\\x{value.hex()}"'
    if isinstance(value, str):
        return '"' + value.replace("\\", "\\\\").replace('"', '\\"') + '"'
    return str(value)


def array_text(values: Sequence[object]) -> str:
    """An array of PostgreSQL as a text."""
    return "{" + ",".join(map(_element, values)) + "}"
