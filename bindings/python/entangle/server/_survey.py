"""What an operator sees."""

from __future__ import annotations

import json
import time
from dataclasses import dataclass
from itertools import islice
from typing import TYPE_CHECKING, Any, Sequence

from .._groups import Group
from .._values import Row
from ..stores import Table

if TYPE_CHECKING:
    from ._book import Book
    from ._desk import Desk

_MOST_SHOWN = 200


@dataclass(frozen=True)
class GroupSeen:
    """A group: its number, when it was written, the requests of those who committed, and how many rows it changed."""

    number: int
    at: float
    requests: tuple[str, ...]
    changes: dict[str, tuple[int, int]]

    @classmethod
    def of(cls, group: Group, book: Book) -> GroupSeen:
        """A group that is written; its members wait in the book until then."""
        names = dict.fromkeys(book.name_of(commit.ticket) for commit in group.commits)
        changes = {name: (len(change.removed), len(change.added)) for name, change in group.changes.items()}
        return cls(group.number, round(time.time(), 3), tuple(name for name in names if name), changes)

    def said(self) -> dict[str, Any]:
        return {"group": self.number, "at": self.at, "requests": self.requests, "changes": self.changes}


def survey(desk: Desk) -> dict[str, Any]:
    """Who waits and why, the last groups, and how many rows there are of how many."""
    waiting = [
        desk._waiting_position(one).said() for one in islice(desk.book.requests.values(), _MOST_SHOWN) if one.waits
    ]
    return {
        "waiting": waiting,
        "waiting_in_all": len(desk.book.requests),
        "groups": [group.said() for group in reversed(desk.groups)],
        "rows": dict(desk.rows.of_table),
        "rows_in_all": desk.rows.count,
        "most_rows": desk.rows.most,
        "limits": vars(desk.file.limits),
        "endings": desk.endings,
        "puts": desk.metrics.puts,
        "endings_by_kind": dict(desk.metrics.endings),
        "fault": desk.fault,
        "is_refused": desk.refused is not None,
    }


def json_of_rows(table: Table, rows: Sequence[Row]) -> bytes:
    """The rows of a table, with the names of its columns."""
    return json.dumps({"columns": list(table.columns), "rows": rows}, ensure_ascii=False).encode()
