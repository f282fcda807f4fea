"""How requests stand."""

from __future__ import annotations

import hashlib
import json
from dataclasses import dataclass, field, replace
from datetime import datetime
from typing import Any, Literal, Mapping, Optional, Sequence

from .._tickets import Ending, TicketFailed, TicketNotRestored, TicketRefusedByStore
from .._values import Value
from ..stores import Outcome
from ._declared import RequestType
from ._scripts import Label, answers_by_item

State = Literal["waits", "booked", "ended"]


def digest_of(key: str) -> str:
    """A request as the store, the log and the metrics name it: a digest of its key."""
    return hashlib.sha256(key.encode()).hexdigest()[:32]


def client_of(subject: str) -> str:
    """A subject, as one whose requests are counted."""
    return f"subject {subject}"


def digest_of_values(name: str, values: Mapping[str, Value]) -> str:
    """A digest of what was asked for, by which a second request with the same key is known for another one."""
    said = json.dumps([name, sorted(values.items())], ensure_ascii=True)
    return hashlib.sha256(said.encode()).hexdigest()[:32]


@dataclass(frozen=True)
class Position:
    """How a request stands: it waits, and why; it is booked, with its answers by name; or it has ended otherwise, and
    how. `until` is when its time is over, in seconds since 1970; `number` is how many scripts had ended in the store
    when that was told."""

    digest: str
    label: Label
    until: int
    state: State
    number: int = 0
    why: Optional[str] = None
    how: Optional[str] = None
    answers: Mapping[str, Value] = field(default_factory=dict)

    @property
    def is_over(self) -> bool:
        return self.state != "waits"

    @property
    def is_forgotten(self) -> bool:
        """Whether the store has only how it ended."""
        return not self.label.request

    def said(self) -> dict[str, Any]:
        """What a client is told."""
        told: dict[str, Any] = {"request": self.digest, "name": self.label.request, "state": self.state}
        if self.state == "waits":
            told["why"] = self.why or "waits"
        elif self.state == "booked":
            told["answers"] = dict(self.answers)
        else:
            told["how"] = self.how
        told["until"] = self.until
        return told

    def waiting(self, why: str) -> Position:
        """The same, with another sentence why it waits."""
        return self if why == self.why else replace(self, why=why)


def ended_position(
    digest: str,
    label: Label,
    until: int,
    number: int,
    outcomes: Mapping[int, Outcome],
    scripts: Mapping[int, str],
    declared: Optional[RequestType],
) -> Position:
    """How a request stands whose first script has ended, by the outcomes of its scripts and their stored texts."""
    ending = outcomes[0].ending
    if ending.kind != "committed":
        return Position(digest, label, until, "ended", number, how=how_of(ending))
    items = [answers_by_item(scripts[one], outcomes[one].answers) for one in sorted(outcomes) if one in scripts]
    return Position(digest, label, until, "booked", number, answers=_named(items, declared))


def forgotten_position(digest: str, number: int, outcome: Outcome) -> Position:
    """How a request ended that the store was told to forget: what it was, and its answers, are gone."""
    label = Label("", "")
    if outcome.ending.kind == "committed":
        return Position(digest, label, 0, "booked", number)
    return Position(digest, label, 0, "ended", number, how=how_of(outcome.ending))


def how_of(ending: Ending) -> str:
    """How a script ended, in words; the first of them are its kind."""
    if isinstance(ending, TicketFailed):
        return f"{ending.kind}: {ending.failure.value}"
    if isinstance(ending, (TicketNotRestored, TicketRefusedByStore)):
        return f"{ending.kind}: {ending.fault.splitlines()[0] if ending.fault else ''}"
    return ending.kind


def seconds_of(until: Optional[datetime]) -> int:
    """A point in time in seconds since 1970; 0 for none."""
    return 0 if until is None else int(until.timestamp())


def _named(items: Sequence[Mapping[str, Value]], declared: Optional[RequestType]) -> dict[str, Value]:
    """Answers under the names that the file gives them; of a request that it doesn't name any more, by item."""
    first: dict[str, Value] = {}
    for one in items:
        first = {**one, **first}
    if declared is None:
        return first
    return {name: first[item] for name, item in declared.answers.items() if item in first}
