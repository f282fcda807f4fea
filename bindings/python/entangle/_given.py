"""Values that are handed to the library: for host variables of a script, and in rows of tables."""

from __future__ import annotations

import ctypes
from contextlib import contextmanager
from typing import Any, Iterable, Iterator, Mapping, Sequence

from ._errors import OutOfMemory
from ._library import DONE, LIBRARY, OUT_OF_MEMORY, Told, encoded
from ._refusals import BINDING_FAULTS, MISFITS, ROW_FAULTS, BindingFault, NotARow, NotBound, RowFault
from ._values import Row, Value

Values = Mapping[str, Value]
Rows = Mapping[str, Iterable[Sequence[Value]]]


def _checked_mapping(given: Any, what: str) -> None:
    """What is given by names."""
    if not isinstance(given, Mapping):
        raise TypeError(f"{what} are a mapping, not {type(given).__name__}")


def _checked_name(name: Any, what: str) -> bytes:
    """The bytes of a name."""
    if not isinstance(name, str):
        raise TypeError(f"{what} is a str, not {type(name).__name__}")
    return encoded(name, what)


def _checked_value(value: Any) -> Value:
    """A value of one of the two types. A truth value is none, though Python calls it an int."""
    if isinstance(value, bool) or not isinstance(value, (int, str)):
        raise TypeError(f"a value is an int or a str, not {type(value).__name__}")
    return value


def _checked_row(row: Any) -> Row:
    """The values of a row: what has an order, and is no text."""
    if not isinstance(row, Sequence) or isinstance(row, (str, bytes, bytearray, memoryview)):
        raise TypeError(f"a row is a sequence of values, not {type(row).__name__}")
    return tuple(map(_checked_value, row))


def _is_too_large(number: int) -> bool:
    return not -(2**63) <= number < 2**63


def _is_taken(status: int) -> bool:
    """Whether the library has taken a name or a value. Raises OutOfMemory."""
    if status == OUT_OF_MEMORY:
        raise OutOfMemory()
    return status == DONE


class BoundValues:
    """Where the library finds values that are bound to host variables, for one call, as `with` gives it."""

    def __init__(self, values: Values) -> None:
        _checked_mapping(values, "the values of host variables")
        self._values = values
        self._place = ctypes.byref(ctypes.c_void_p())

    def __enter__(self) -> Any:
        refusal = ctypes.c_uint32()
        into = ctypes.byref(refusal)
        try:
            for name, value in self._values.items():
                if not _is_taken(self._bind(name, value, into)):
                    raise NotBound(name, BINDING_FAULTS[refusal.value])
        except BaseException:
            LIBRARY.ent_c_values_free(self._place)
            raise
        return self._place

    def _bind(self, name: str, value: Value, refusal: Any) -> int:
        """Binds a value to a host variable; the status."""
        given = _checked_name(name, "the name of a host variable")
        value = _checked_value(value)
        status: int
        if isinstance(value, str):
            text = encoded(value, "a value")
            status = LIBRARY.ent_c_values_text(self._place, given, len(given), text, len(text), refusal)
        elif _is_too_large(value):
            raise NotBound(name, BindingFault.TOO_LARGE)
        else:
            status = LIBRARY.ent_c_values_int(self._place, given, len(given), value, refusal)
        return status

    def __exit__(self, *_: object) -> None:
        LIBRARY.ent_c_values_free(self._place)


class GivenRows:
    """Rows of tables, where the library finds them."""

    def __init__(self) -> None:
        self.place: Any = ctypes.byref(ctypes.c_void_p())
        # of each table how many rows were begun
        self._counts: list[tuple[str, int]] = []

    def add_table(self, table: str, rows: Iterable[Sequence[Value]]) -> None:
        """Hands in the rows of a table."""
        name, count = _checked_name(table, "a table's name"), 0
        for count, row in enumerate(rows, start=1):
            self._add(table, name, count - 1, _checked_row(row))
        self._counts.append((table, count))

    def _add(self, table: str, name: bytes, number: int, row: Row) -> None:
        """Hands in the row of this number of a table."""
        refusal = ctypes.c_uint32()
        if not _is_taken(LIBRARY.ent_c_rows_begin(self.place, name, len(name), ctypes.byref(refusal))):
            raise NotARow(table, number, ROW_FAULTS[refusal.value])
        for column, value in enumerate(row):
            if isinstance(value, str):
                text = encoded(value, "a value")
                status = LIBRARY.ent_c_rows_text(self.place, text, len(text), ctypes.byref(refusal))
            elif _is_too_large(value):
                raise NotARow(table, number, RowFault.TOO_LARGE, column)
            else:
                status = LIBRARY.ent_c_rows_int(self.place, value, ctypes.byref(refusal))
            if not _is_taken(status):
                fault = ROW_FAULTS[refusal.value]
                raise NotARow(table, number, fault, None if fault is RowFault.OTHER_LENGTH else column)

    def refused(self, told: Told) -> NotARow:
        """The row that the library refuses, since it doesn't fit its table."""
        number = told.offset
        for table, count in self._counts:
            if number < count:
                return NotARow(table, number, MISFITS[told.code])
            number -= count
        raise AssertionError("a row that is refused was handed in")


@contextmanager
def given_rows(tables: Rows) -> Iterator[GivenRows]:
    """Rows of tables, for one call."""
    _checked_mapping(tables, "rows")
    rows = GivenRows()
    try:
        for table, of_table in tables.items():
            rows.add_table(table, of_table)
        yield rows
    finally:
        LIBRARY.ent_c_rows_free(rows.place)
