"""What a store keeps of the scripts of a room."""

from __future__ import annotations

import hashlib
import json
from dataclasses import dataclass
from datetime import datetime, timedelta, timezone
from typing import Any, Mapping, Optional, Sequence, Union

from .._groups import Group
from .._room import Patience
from .._tickets import Ending, Ticket, TicketCommitted
from .._values import Answer, CountAnswer, Row, RowsAnswer, SetAnswer, Value, answer_of_json


@dataclass(frozen=True)
class Waiter:
    """A script that waits: its ticket and what was put, and in how many batches it was that count against its patience.
    `key` is the caller's own name of the request, if it has one; `until` a point in time up to which it waits, which
    has a time zone."""

    ticket: Ticket
    script: str
    values: Mapping[str, Value]
    patience: Union[int, Patience]
    batches: int = 0
    key: Optional[str] = None
    until: Optional[datetime] = None


@dataclass(frozen=True)
class UsedKey:
    """A key that was used: the ticket of its request, and the digest of what was asked (asked_digest). That is None if
    the ticket was forgotten by a store that had no digests yet."""

    ticket: Ticket
    asked: Optional[bytes]


@dataclass(frozen=True)
class Outcome:
    """A script that waits no more: how it ended, and, if it committed, what its statements were answered. `group` is
    the number of the group that tells of it; None of one that was withdrawn, since no group does."""

    ticket: Ticket
    group: Optional[int]
    ending: Ending
    answers: tuple[Answer, ...] = ()


@dataclass(frozen=True)
class Loaded:
    """What a store has: the number of the claim, the rows of each table, who waits, by ticket, and the numbers from
    which a room goes on. No earlier process had the epoch."""

    claim: int
    rows: Mapping[str, Sequence[Row]]
    waiting: tuple[Waiter, ...]
    next_ticket: int
    epoch: int
    last_group: int


@dataclass(frozen=True)
class Update:
    """What one transaction writes."""

    groups: tuple[Group, ...]
    ended: tuple[Outcome, ...]
    waiting: tuple[Waiter, ...]
    next_ticket: int
    epoch: int


def outcomes_of(group: Group) -> list[Outcome]:
    """How those of a group ended."""
    committed = [
        Outcome(one.ticket, group.number, TicketCommitted(group.epoch, one.number), tuple(one.answers))
        for one in group.commits
    ]
    return committed + [Outcome(one.ticket, group.number, one.ending) for one in group.ended]


# ---- as texts and numbers


def patience_number(patience: Union[int, Patience]) -> int:
    """A patience as one number: that of its batches, 0 until withdrawn, -1 as written."""
    return patience.value if isinstance(patience, Patience) else patience


def patience_of(number: int) -> Union[int, Patience]:
    return Patience(number) if number < 1 else number


# Made once, since thousands of texts are read and written.
_written = json.JSONEncoder(ensure_ascii=False).encode
_read = json.JSONDecoder().decode


def values_text(values: Mapping[str, Value]) -> str:
    return _written(dict(values))


def values_of(text: str) -> dict[str, Value]:
    values: dict[str, Value] = _read(text)
    return values


def asked_digest(script: str, values: Mapping[str, Value]) -> bytes:
    """The digest of what is asked: equal for equal texts with equal values, in any order."""
    return hashlib.sha256(json.dumps([script, sorted(values.items())]).encode()).digest()


def key_digest(key: str) -> bytes:
    """The digest of a key, which stands for a request whose ticket was forgotten."""
    return hashlib.sha256(key.encode()).digest()


_EPOCH = datetime(1970, 1, 1, tzinfo=timezone.utc)


def microseconds_of(time: datetime) -> int:
    """A point in time as stores have it: microseconds since 1970 in UTC."""
    return (time - _EPOCH) // timedelta(microseconds=1)


def time_of(microseconds: int) -> datetime:
    """A point in time that stands in a store."""
    return _EPOCH + timedelta(microseconds=microseconds)


def _answer_json(answer: Answer) -> dict[str, Any]:
    if isinstance(answer, CountAnswer):
        return {"count": answer.count}
    if isinstance(answer, SetAnswer):
        return {"set": answer.value}
    if isinstance(answer, RowsAnswer):
        return {"rows": answer.rows}
    return {"answer": {fact.relation: fact.values for fact in answer.facts}}


def answers_text(answers: Sequence[Answer]) -> str:
    """Answers in JSON: [{"answer": {"Trip": ["Mickey", 122]}}, {"count": 1}]."""
    return _written([_answer_json(answer) for answer in answers])


def answers_of(text: str) -> tuple[Answer, ...]:
    return tuple(map(answer_of_json, _read(text)))
