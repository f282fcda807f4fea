"""What a script says about itself: which host variables it uses, and which items its answers have."""

from __future__ import annotations

import json
import re
from dataclasses import dataclass
from functools import lru_cache
from pathlib import Path
from typing import Iterator, Mapping, Optional, Sequence

from .._values import Answer, EntangledAnswer, SetAnswer, Value

_TOKEN = re.compile(r"--[^\n]*|\s+|'(?:[^']|'')*'|@?[A-Za-z][A-Za-z0-9_]*|[0-9]+|.", re.DOTALL)
_HOST_VARIABLE = re.compile(r"@[A-Za-z][A-Za-z0-9_]*")


@dataclass(frozen=True)
class Item:
    """An item of an answer: the term of the select list, and the host variable that gets its value, both as written."""

    term: str
    variable: Optional[str]

    @property
    def names(self) -> set[str]:
        """The names by which a file may call it: without the @."""
        return {name.lstrip("@") for name in (self.term, self.variable) if name}


@dataclass(frozen=True)
class Statement:
    """A statement that has an answer of one row: the items of the row."""

    number: int
    items: tuple[Item, ...]


def _tokens(text: str) -> list[str]:
    """The tokens of a script, without comments."""
    found = (match.group() for match in _TOKEN.finditer(text))
    return [token for token in found if not token.isspace() and not token.startswith("--")]


def _statements(tokens: Sequence[str]) -> Iterator[list[str]]:
    """The tokens of each statement, without its semicolon."""
    statement: list[str] = []
    for token in tokens:
        if token == ";":
            yield statement
            statement = []
        else:
            statement.append(token)


def _items(head: Sequence[str]) -> tuple[Item, ...]:
    """The items of a select list."""
    items: list[list[str]] = [[]]
    for token in head:
        if token == ",":
            items.append([])
        else:
            items[-1].append(token)
    return tuple(_item(item) for item in items)


def _item(tokens: Sequence[str]) -> Item:
    words = [token.upper() for token in tokens]
    if "AS" in words:
        place = words.index("AS")
        return Item(" ".join(tokens[:place]), " ".join(tokens[place + 1 :]))
    return Item(" ".join(tokens), None)


@lru_cache(4096)
def statements_of(text: str) -> tuple[Statement, ...]:
    """The statements of a script whose answer is one row. They count from 0, among all that are answered."""
    found = []
    for number, tokens in enumerate(_statements(_tokens(text)), start=-1):  # the first one is BEGIN
        words = [token.upper() for token in tokens]
        if words[:1] == ["SELECT"] and "INTO" in words:
            found.append(Statement(number, _items(tokens[1 : words.index("INTO")])))
        elif words[:1] == ["SET"] and len(tokens) > 1:
            found.append(Statement(number, (Item(tokens[1], None),)))
    return tuple(found)


@lru_cache(4096)
def variables_of(text: str) -> frozenset[str]:
    """The host variables that a script names, without the @."""
    return frozenset(token[1:] for token in _tokens(text) if _HOST_VARIABLE.fullmatch(token))


def answers_by_item(text: str, answers: Sequence[Answer]) -> dict[str, Value]:
    """What a script was answered, by the names of the items; of two with one name the first counts."""
    named: dict[str, Value] = {}
    for statement in statements_of(text):
        answer = answers[statement.number] if statement.number < len(answers) else None
        row: Sequence[Value] = ()
        if isinstance(answer, EntangledAnswer) and answer.facts:
            row = answer.facts[0].values
        elif isinstance(answer, SetAnswer):
            row = (answer.value,)
        for item, value in zip(statement.items, row):
            for name in item.names:
                named.setdefault(name, value)
    return named


@dataclass(frozen=True)
class Script:
    """A script of a request: its text, and where that begins."""

    text: str
    file: Path
    line: int

    def bound(self, values: Mapping[str, Value]) -> dict[str, Value]:
        """Those of the values that it uses."""
        names = variables_of(self.text)
        return {name: value for name, value in values.items() if name in names}


# ---- what a stored script says about its request


@dataclass(frozen=True)
class Label:
    """What the first line of a stored script says: the name of its request, a digest of the values that were given, and
    whose request it is, if the server knows people."""

    request: str
    values: str
    subject: Optional[str] = None

    def line(self) -> str:
        """The line, which is a comment to the room."""
        said = {"request": self.request, "values": self.values}
        if self.subject is not None:
            said["subject"] = self.subject
        return f"-- {json.dumps(said)}\n"


def label_of(text: str) -> Optional[Label]:
    """What the first line of a stored script says; None if no server has put it."""
    first, _, _ = text.partition("\n")
    try:
        said = json.loads(first.removeprefix("-- "))
        return Label(said["request"], said["values"], said.get("subject"))
    except (ValueError, KeyError, TypeError, AttributeError, RecursionError):
        return None
