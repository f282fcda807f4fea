"""What statements were answered, and rows: read from the lines of a report, and answers from JSON too."""

from __future__ import annotations

import re
from dataclasses import dataclass
from typing import Any, ClassVar, Iterator, Literal, Union

Value = Union[int, str]
Row = tuple[Value, ...]


@dataclass(frozen=True)
class Fact:
    """A row of an answer relation: what an entangled statement put there."""

    relation: str
    values: Row


@dataclass(frozen=True)
class CountAnswer:
    """INSERT, DELETE, UPDATE: how many rows."""

    count: int
    kind: ClassVar[Literal["count"]] = "count"


@dataclass(frozen=True)
class SetAnswer:
    """SET: the value."""

    value: Value
    kind: ClassVar[Literal["set"]] = "set"


@dataclass(frozen=True)
class RowsAnswer:
    """SELECT: its rows, ascending."""

    rows: tuple[Row, ...]
    kind: ClassVar[Literal["rows"]] = "rows"


@dataclass(frozen=True)
class EntangledAnswer:
    """An entangled SELECT: its row of each of its answer relations."""

    facts: tuple[Fact, ...]
    kind: ClassVar[Literal["answer"]] = "answer"


# What a statement was answered. Its `kind` is the word of a report.
Answer = Union[CountAnswer, SetAnswer, RowsAnswer, EntangledAnswer]

# A value at the front of a text: a number, or a text in quotes, with each quote inside doubled.
_VALUE = re.compile(r"(-?[0-9]+)|'((?:[^']|'')*)'")


def _row_at(text: str, place: int) -> tuple[Row, int]:
    """The row that stands at a place of a text, and where it ends."""
    values: list[Value] = []
    while text[place] != ")":
        found = _VALUE.match(text, place + (1 if text[place] == "(" else 2))
        assert found, "the lines of a report are rows"
        number, quoted = found.groups()
        values.append(int(number) if number is not None else quoted.replace("''", "'"))
        place = found.end()
    return tuple(values), place + 1


def _facts_in(text: str) -> Iterator[Fact]:
    place = 0
    while place < len(text):
        start = text.index("(", place)
        values, end = _row_at(text, start)
        yield Fact(text[place + 1 : start], values)
        place = end


def _answer(word: str, said: str, rest: Iterator[str]) -> Answer:
    """An answer: its word, what stands behind that, and the lines below."""
    if word == "count":
        return CountAnswer(int(said))
    if word == "set":
        return SetAnswer(_row_at(f"({said})", 0)[0][0])
    if word == "rows":
        return RowsAnswer(tuple(_row_at(next(rest), 0)[0] for _ in range(int(said))))
    return EntangledAnswer(tuple(_facts_in(f" {said}" if said else "")))


def answers_in(lines: str) -> list[Answer]:
    """The answers that lines of a report say, in order of their statements."""
    rest = iter(lines.split("\n")[:-1])
    answers = []
    for line in rest:
        _, word, said = (line.split(" ", 2) + [""])[:3]
        answers.append(_answer(word, said, rest))
    return answers


def table_in(lines: str) -> list[Row]:
    """The rows of a table that lines of a report say."""
    return [_row_at(line, 0)[0] for line in lines.split("\n")[1:-1]]


def answer_of_json(said: dict[str, Any]) -> Answer:
    """An answer as the lines of a feed have it, and stores: {"count": 1} or {"answer": {"Trip": ["Mickey", 122]}}."""
    ((word, what),) = said.items()
    if word == "count":
        return CountAnswer(what)
    if word == "set":
        return SetAnswer(what)
    if word == "rows":
        return RowsAnswer(tuple(map(tuple, what)))
    return EntangledAnswer(tuple(Fact(relation, tuple(values)) for relation, values in what.items()))
