"""Calls that need no driver."""

from __future__ import annotations

from contextlib import suppress
from dataclasses import dataclass
from typing import Optional

from ._errors import OutOfMemory, Refused
from ._library import DONE, FIRST_CAPACITY, LIBRARY, OUT_OF_MEMORY, REFUSED, Text
from ._library import buffered, checked_version, encoded, fault_of


@dataclass(frozen=True)
class Verdict:
    """What a check of a report answers; for one that isn't legal, the line and the rule that is broken there first."""

    is_legal: bool
    line: int = 0
    rule: str = ""


def _capacity(given: bytes) -> int:
    return max(FIRST_CAPACITY, 2 * len(given))


def report(text: Text, version: int = 1) -> str:
    """The report of an input, of this version.

    All its scripts are submitted in order and run until each has its fate, as `entangle run` does it. Raises Refused
    for the first fault of the input, OutOfMemory, and ValueError for another version than 1 and 2.
    """
    given, version = encoded(text, "an input"), checked_version(version)
    status, said, told = buffered(LIBRARY.ent_c_report, given, len(given), version, capacity=_capacity(given))
    if status == DONE:
        return said
    fault = fault_of(status, told)
    if isinstance(fault, Refused):
        keep_explanation(fault, given)
    raise fault


def explain(text: Text) -> Optional[str]:
    """What is said of the fault of an input, as `entangle run --explain` says it: lines with their ends.

    None if the input has no fault. Its scripts were run to find that out. Raises OutOfMemory.
    """
    given = encoded(text, "an input")
    status, said, told = buffered(LIBRARY.ent_c_explain, given, len(given))
    if status == OUT_OF_MEMORY:
        raise fault_of(status, told)
    return said if status == REFUSED else None


def keep_explanation(fault: Refused, given: bytes) -> None:
    """Keeps what is said of the fault of an input, if there is memory for it."""
    with suppress(OutOfMemory):
        fault._explain(explain(given) or "")


def check(text: Text) -> Verdict:
    """Whether a report of version 2 tells of a legal book, by its text alone.

    Raises Refused if the report is too long (E603), and OutOfMemory.
    """
    given = encoded(text, "a report")
    status, said, told = buffered(LIBRARY.ent_c_check, given, len(given))
    if told.code != 0:
        raise fault_of(status, told)
    if status == DONE:
        return Verdict(is_legal=True)
    _, line, rule = said.split()
    return Verdict(is_legal=False, line=int(line), rule=rule)
