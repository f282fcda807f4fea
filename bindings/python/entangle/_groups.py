"""What the steps of a room brought: groups of scripts that ended together, in the order in which they did."""

from __future__ import annotations

import json
from dataclasses import dataclass
from typing import Any, Mapping

from ._tickets import Ending, Ticket, ending_of_words
from ._values import Answer, Row, answer_of_json


@dataclass(frozen=True)
class GroupCommit:
    """A script that committed with its group: its ticket, its number among the commits of the group's epoch, and what
    its statements were answered."""

    ticket: Ticket
    number: int
    answers: tuple[Answer, ...]


@dataclass(frozen=True)
class TableChange:
    """What a group changed in a table as a whole: the rows that it took out, and those that it put in, each ascending.
    No row is in both."""

    removed: tuple[Row, ...]
    added: tuple[Row, ...]


@dataclass(frozen=True)
class EndedTicket:
    """A script that ended without a commit, and how."""

    ticket: Ticket
    ending: Ending


@dataclass(frozen=True)
class Group:
    """Scripts that ended together: what a database takes in as one transaction.

    Those of `commits` committed together, and changed the tables of `changes`, by their names. Those of `ended` ended
    without a commit, and weren't withdrawn. Numbers count up by one over all epochs, so a group is told once, and none
    is left out.
    """

    number: int
    epoch: int
    commits: tuple[GroupCommit, ...]
    changes: Mapping[str, TableChange]
    ended: tuple[EndedTicket, ...]


def _commit(said: dict[str, Any]) -> GroupCommit:
    return GroupCommit(Ticket(said["ticket"]), said["number"], tuple(map(answer_of_json, said["answers"])))


def _change(said: dict[str, Any]) -> TableChange:
    return TableChange(tuple(map(tuple, said["removed"])), tuple(map(tuple, said["added"])))


def _ended(said: dict[str, Any]) -> EndedTicket:
    return EndedTicket(Ticket(said["ticket"]), ending_of_words(said["ending"], None, None, said.get("failure")))


def _group(said: dict[str, Any]) -> Group:
    return Group(
        said["group"],
        said["epoch"],
        tuple(map(_commit, said["commits"])),
        {table: _change(change) for table, change in said["changes"].items()},
        tuple(map(_ended, said["ended"])),
    )


def groups_in(lines: str) -> list[Group]:
    """The groups that lines of JSON say."""
    return [_group(json.loads(line)) for line in lines.split("\n")[:-1]]
