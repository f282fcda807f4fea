"""Streams of events."""

from __future__ import annotations

import asyncio
import json
from collections import Counter
from contextlib import contextmanager, suppress
from typing import Iterator, Mapping, Optional, Sequence

from aiohttp import web

from ._board import Board, Follower
from ._declared import Limits
from ._messages import AnyDesk, Watch
from ._positions import Position
from ._problems import Problem

_WRITE_SECONDS, _QUIET_SECONDS, _GATHER_SECONDS = 10.0, 10.0, 0.02
_HEADERS = {"Content-Type": "text/event-stream", "Cache-Control": "no-store", "X-Accel-Buffering": "no"}


class Streams:
    """The streams that are open, of all clients."""

    def __init__(self, limits: Limits, desk: AnyDesk, board: Board) -> None:
        self.count = 0
        self._limits, self._desk, self._board = limits, desk, board
        self._of_client: Counter[str] = Counter()

    @contextmanager
    def opened(self, client: str) -> Iterator[Stream]:
        """A stream, as long as it is open. Raises Problem if there are as many as may be."""
        if self.count >= self._limits.streams_in_all or self._of_client[client] >= self._limits.streams:
            raise Problem(429, "many_streams", "as many streams are open as may", 10)
        self.count += 1
        self._of_client[client] += 1
        try:
            yield Stream(self._desk, self._board)
        finally:
            self.count -= 1
            self._of_client[client] -= 1
            if not self._of_client[client]:
                del self._of_client[client]


class Stream:
    """A stream to one client: how its requests stand, and which tables have changed."""

    def __init__(self, desk: AnyDesk, board: Board) -> None:
        self._desk, self._board = desk, board

    async def serve(
        self,
        request: web.Request,
        digests: tuple[str, ...],
        tables: frozenset[str],
        seen: Sequence[Optional[Position]],
        after: int,
        headers: Mapping[str, str],
        room: Optional[str],
    ) -> web.StreamResponse:
        """Tells how requests stand, but for those that ended up to the event `after`; and from then on what changes."""
        own = frozenset(position.digest for position in seen if position is not None)
        response = web.StreamResponse(headers={**_HEADERS, "X-Request-Id": request["id"], **headers})
        follower = Follower(own, tables)
        self._board.follow(follower)
        self._desk.send(Watch(tuple(own), 1, room))
        with suppress(ConnectionError, asyncio.TimeoutError):  # the client comes again
            try:
                await response.prepare(request)
                await self._write(response, self._first(digests, seen, after))
                await self._go_on(response, follower)
            finally:
                self._board.leave(follower)
                self._desk.send(Watch(tuple(own), -1, room))
        return response

    def _first(self, digests: Sequence[str], seen: Sequence[Optional[Position]], after: int) -> bytes:
        told = []
        for digest, position in zip(digests, seen):
            if position is None:
                told.append({"request": digest, "state": "unknown"})
                continue
            newer = self._board.position(digest)  # it may have ended since it was looked at
            if newer is not None and newer.is_over:
                position = newer
            if not position.is_over or position.number > after:
                told.append(position.said())
        return b"retry: 1000\n" + self._event("requests", told)

    async def _go_on(self, response: web.StreamResponse, follower: Follower) -> None:
        while not self._board.is_over:
            try:
                await asyncio.wait_for(follower.news.wait(), _QUIET_SECONDS)
            except asyncio.TimeoutError:
                await self._write(response, b": still here\n\n")
                continue
            await asyncio.sleep(_GATHER_SECONDS)  # many news are one
            follower.news.clear()
            positions, follower.positions = follower.positions, {}
            changed, follower.changed = follower.changed, set()
            said = self._event("requests", [one.said() for one in positions.values()]) if positions else b""
            said += self._event("tables", sorted(map(_own_name, changed))) if changed else b""
            if said:
                await self._write(response, said)

    def _event(self, kind: str, told: object) -> bytes:
        return f"id: {self._board.endings}\nevent: {kind}\ndata: {json.dumps(told)}\n\n".encode()

    async def _write(self, response: web.StreamResponse, said: bytes) -> None:
        await asyncio.wait_for(response.write(said), _WRITE_SECONDS)


def _own_name(name: str) -> str:
    """A table as its file names it, of whichever room it is."""
    return name.rpartition("/")[2]
