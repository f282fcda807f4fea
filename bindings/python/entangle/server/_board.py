"""What the event loop knows of requests and tables, and who waits for news of them."""

from __future__ import annotations

import asyncio
import hashlib
import time
from collections import OrderedDict
from dataclasses import dataclass, field
from typing import Any, Callable, Iterable, Optional, TypeVar

from ._messages import Call, News
from ._positions import Position
from ._problems import Problem

Answer = TypeVar("Answer")

_MOST_ENDED = 10_000


@dataclass(eq=False)
class Follower:
    """Somebody who follows requests and tables: what is to be told next, and whether there is anything."""

    digests: frozenset[str]
    tables: frozenset[str] = frozenset()
    positions: dict[str, Position] = field(default_factory=dict)
    changed: set[str] = field(default_factory=set)
    news: asyncio.Event = field(default_factory=asyncio.Event)


@dataclass(frozen=True)
class TableBody:
    """The rows of a table as they are told, and the tag of exactly these."""

    body: bytes
    tag: str


class Board:
    """How requests stand, as far as the desk has told. It is used in the event loop alone."""

    def __init__(self) -> None:
        self.endings = 0
        self.waiting: dict[str, Position] = {}
        self.is_over = False
        self._ended: OrderedDict[str, Position] = OrderedDict()
        self._followers: dict[str, set[Follower]] = {}
        self._of_tables: set[Follower] = set()
        self._tables: dict[str, TableBody] = {}
        self._asked: dict[int, float] = {}
        self._number = 0

    # ---- the desk

    def lag(self) -> float:
        """For how many seconds the desk hasn't answered the oldest call."""
        return time.monotonic() - next(iter(self._asked.values())) if self._asked else 0.0

    def outstanding(self) -> int:
        """How many calls aren't answered."""
        return len(self._asked)

    async def answer(self, call: Call[Answer], send: Callable[[], None], seconds: float) -> Answer:
        """The desk's answer to a call, which `send` passes on. Raises the Problem that it answers; TimeoutError."""
        self._number += 1
        number = self._number
        self._asked[number] = call.came
        send()
        try:
            return await asyncio.wait_for(asyncio.shield(call.future), seconds)
        finally:
            if call.future.done():
                self._asked.pop(number, None)
            else:
                call.future.add_done_callback(lambda _: self._asked.pop(number, None))

    def take(self, answers: Iterable[tuple[Call[Any], object]], news: Optional[News]) -> None:
        """What the desk tells."""
        if news is not None:
            self._take_news(news)
        for call, answer in answers:
            if call.future.done():
                continue
            if isinstance(answer, Problem):
                call.future.set_exception(answer)
                call.future.exception()  # whoever asked may have gone
            else:
                call.future.set_result(answer)

    def _take_news(self, news: News) -> None:
        self.endings = news.endings
        for position in news.positions:
            self.remember(position)
            for follower in self._followers.get(position.digest, ()):
                follower.positions[position.digest] = position
                follower.news.set()
        for name in news.tables:
            self._tables.pop(name, None)
        for follower in self._of_tables if news.tables else ():
            if follower.tables & news.tables:
                follower.changed |= follower.tables & news.tables
                follower.news.set()

    def remember(self, position: Position) -> None:
        """A request stands like this."""
        if position.is_over:
            self.waiting.pop(position.digest, None)
            self._ended[position.digest] = position
            while len(self._ended) > _MOST_ENDED:
                self._ended.popitem(last=False)
        elif position.digest not in self._ended:
            self.waiting[position.digest] = position

    def position(self, digest: str) -> Optional[Position]:
        """How a request stands, if that is in memory."""
        return self._ended.get(digest) or self.waiting.get(digest)

    # ---- tables

    def table(self, name: str) -> Optional[TableBody]:
        """The rows of a table, unless they have changed since they were told."""
        return self._tables.get(name)

    def keep_table(self, name: str, body: bytes) -> TableBody:
        tag = f'"{hashlib.sha256(body).hexdigest()[:32]}"'
        self._tables[name] = TableBody(body, tag)
        return self._tables[name]

    # ---- those who follow

    def follow(self, follower: Follower) -> None:
        for digest in follower.digests:
            self._followers.setdefault(digest, set()).add(follower)
        if follower.tables:
            self._of_tables.add(follower)

    def leave(self, follower: Follower) -> None:
        for digest in follower.digests:
            followers = self._followers.get(digest, set())
            followers.discard(follower)
            if not followers:
                self._followers.pop(digest, None)
        self._of_tables.discard(follower)

    def end(self) -> None:
        """Nothing more comes: all who follow look up."""
        self.is_over = True
        for followers in (*self._followers.values(), self._of_tables):
            for follower in followers:
                follower.news.set()
