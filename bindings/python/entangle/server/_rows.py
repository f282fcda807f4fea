"""Rows of tables: in the file itself, or in a CSV file beside it."""

from __future__ import annotations

import csv
import re
from pathlib import Path
from typing import Mapping, Optional, Sequence

from .._values import Row, Value
from ..stores import Kind
from ._declared import GREATEST_NUMBER, LEAST_NUMBER, MOST_TEXT
from ._faults import FileFault
from ._section import Section, Source

_NUMBER = re.compile(r"-?[0-9]{1,19}")
_CONTROL = re.compile("[\x00-\x1f\x7f\ud800-\udfff]")


def rows_of(section: Section, columns: Mapping[str, Kind]) -> list[Row]:
    """The rows that a table of the file begins with."""
    if section.has("rows") and section.kind_of("rows") is str:
        return _rows_of_csv(section, columns, section.take("rows", str, ""))
    rows: list[Row] = []
    for number, given in enumerate(section.take("rows", list, [])):
        path, kinds = (*section.path, "rows", number), list(columns.values())
        if not isinstance(given, list) or len(given) != len(kinds):
            section.source.fault(path, f"a row has {len(kinds)} values: {', '.join(columns)}")
            continue
        wrong = [said for said in map(_wrong, given, kinds) if said]
        if wrong:
            section.source.fault(path, f"this can't be a row: {wrong[0]}")
        else:
            rows.append(tuple(given))
    return rows


def _wrong(value: object, kind: Kind) -> Optional[str]:
    """Why a value can't be one of a column."""
    if kind == "INT":
        if type(value) is not int:
            return f"{value!r} isn't a whole number"
        return None if LEAST_NUMBER <= value <= GREATEST_NUMBER else f"{value} has more than 64 bits"
    if not isinstance(value, str):
        return f"{value!r} isn't a text"
    if _CONTROL.search(value):
        return f"{value!r} has a control character"
    return None if len(value.encode()) <= MOST_TEXT else f"{value:.40}.. has more than {MOST_TEXT} bytes"


def _rows_of_csv(section: Section, columns: Mapping[str, Kind], name: str) -> list[Row]:
    """The rows of a CSV file, whose first line names the columns."""
    path = section.source.path.parent / name
    try:
        with open(path, newline="", encoding="utf-8") as file:
            lines = csv.reader(file)
            head: list[str] = next(lines, [])
            if head != list(columns):
                section.source.faults.append(
                    FileFault(path, 1, f"the first line names the columns {','.join(columns)}")
                )
                return []
            return [
                row
                for line in lines
                if line
                for row in _row_of_line(section.source, path, columns, line, lines.line_num)
            ]
    except OSError as error:
        section.fault("rows", f"names {name}, which can't be read: {error.strerror}")
    except (UnicodeDecodeError, csv.Error, ValueError) as error:
        section.fault("rows", f"names {name}, which isn't a CSV file in UTF-8: {error}")
    return []


def _row_of_line(
    source: Source, path: Path, columns: Mapping[str, Kind], line: Sequence[str], number: int
) -> list[Row]:
    """The row of a line; none if there is a fault."""
    kinds = list(columns.values())
    if len(line) != len(kinds):
        source.faults.append(FileFault(path, number, f"a row has {len(kinds)} values: {', '.join(columns)}"))
        return []
    values: list[Value] = [
        int(text) if kind == "INT" and _NUMBER.fullmatch(text) else text for kind, text in zip(kinds, line)
    ]
    wrong = [said for said in map(_wrong, values, kinds) if said]
    if wrong:
        source.faults.append(FileFault(path, number, f"this can't be a row: {wrong[0]}"))
        return []
    return [tuple(values)]
