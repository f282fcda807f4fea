"""The server as a process: two ports, the desk's thread, and signals."""

from __future__ import annotations

import asyncio
import os
import signal
from contextlib import suppress
from typing import Any, Optional, Protocol

from aiohttp import web

from ..stores import PostgresInbox, PostgresStore, PostgresTurn, SqliteStore, SqliteTurn, Turn
from ._access import Tokens
from ._answers import answered
from ._board import Board
from ._declared import Address, ServiceFile
from ._desk import Desk
from ._faults import FileRefused
from ._front import FrontDesk
from ._inner import InnerApi
from ._ledger import AnyStore
from ._log import Log
from ._messages import AnyDesk, Call, News
from ._metrics import Metrics
from ._public import PublicApi
from ._role import Role, made_schema, of_room
from ._room_desk import RoomDesk

_END_SECONDS, _TELL_SECONDS = 9.0, 6.0


class Api(Protocol):
    """The calls of a port, and who may make them."""

    def routes(self) -> list[web.RouteDef]:
        ...

    def admit(self, request: web.Request) -> Any:
        ...

    def headers(self, request: web.Request) -> Any:
        ...


def store_of(file: ServiceFile) -> AnyStore:
    """The store that a file names."""
    if file.store.postgres is not None:
        return PostgresStore(file.store.postgres, name=file.store.name)
    assert file.store.sqlite is not None, "a store is one of two"
    return SqliteStore(file.store.sqlite, name=file.store.name)


def inbox_of(file: ServiceFile) -> PostgresInbox:
    """The inbox of the room whose store a file names."""
    assert file.store.postgres is not None, "an inbox is in PostgreSQL"
    return PostgresInbox(file.store.postgres, name=file.store.name, most_queued=file.limits.waiting_in_all)


def turn_of(file: ServiceFile) -> Turn:
    """The turn of the store that a file names."""
    if file.store.postgres is not None:
        return PostgresTurn(file.store.postgres, file.store.name)
    assert file.store.sqlite is not None, "a store is one of two"
    return SqliteTurn(file.store.sqlite, file.store.name)


def url_of(address: Address) -> str:
    host = f"[{address.host}]" if ":" in address.host else address.host
    return f"http://{host}:{address.port}"


class Server:
    """Serves a file until a signal comes, or another process takes the store."""

    def __init__(self, file: ServiceFile, log: Log, role: Role) -> None:
        self.file, self.log, self.role = file, log, role
        self.tokens = None if file.tokens is None else Tokens(file.tokens)
        self.metrics, self.board = Metrics(), Board()
        self.desk = self._made_desk()
        self.public = PublicApi(file, self.desk, self.board, self.tokens)
        self.inner = InnerApi(file, self.desk, self.board, self.public, self.tokens, log)
        self._stopped = asyncio.Event()
        self._loop = asyncio.get_running_loop()

    def _made_desk(self) -> AnyDesk:
        """What serves messages: a front, or a desk with a room."""
        file, metrics, log = self.file, self.metrics, self.log
        if self.role.is_front:
            inboxes = {room: inbox_of(of_room(file, room)) for room in file.rooms or ("",)}
            return FrontDesk(file, inboxes, self._told, metrics, log)
        if self.role.room is None:
            return Desk(file, store_of(file), turn_of(file) if self.role.stands_by else None, self._told, metrics, log)
        own = of_room(file, self.role.room)
        store = store_of(own)
        assert isinstance(store, PostgresStore), "a room of a fleet has a store in PostgreSQL"
        return RoomDesk(own, store, inbox_of(own), turn_of(own), self._told, metrics, log, made_schema(own, self.role))

    def _told(self, answers: list[tuple[Call[Any], object]], news: Optional[News]) -> None:
        """What the desk tells, in its thread."""
        with suppress(RuntimeError):  # the loop is closed: nobody is there to be told
            self._loop.call_soon_threadsafe(self.board.take, answers, news)

    async def run(self) -> int:
        """Serves; the status with which the process ends."""
        self._listen_to_signals()
        inside = await self._opened(self.inner, self.file.inner)
        runners, inner, addresses = [inside[0]], inside[1], [inside[1]]
        if self.role.serves_clients:
            outside = await self._opened(self.public, self.file.public)
            runners.insert(0, outside[0])
            addresses.insert(0, outside[1])
            own = (url_of(outside[1]), f"http://localhost:{outside[1].port}")
            self.public.origins = self.file.origins or own
        work = self._loop.run_in_executor(None, self.desk.run)
        if self.file.inner.host in ("127.0.0.1", "::1", "localhost"):
            names = (url_of(inner).removeprefix("http://"), f"localhost:{inner.port}")
            self.inner.hosts = names
        print("\n".join(map(url_of, addresses)), flush=True)
        stopped = asyncio.ensure_future(self._stopped.wait())
        ends: list[asyncio.Future[Any]] = [stopped, work]
        await asyncio.wait(ends, return_when=asyncio.FIRST_COMPLETED)
        why = await self._end(work, runners)
        stopped.cancel()
        self.log.say("closed", error=why)
        return 0 if why is None else 1

    async def _opened(self, api: Api, address: Address) -> tuple[web.AppRunner, Address]:
        """A port with its calls; the address that it has."""
        limits = self.file.limits
        made = web.Application(client_max_size=limits.body, middlewares=[answered(api, self.metrics, self.log)])
        made.add_routes(api.routes())
        runner = web.AppRunner(made, access_log=None)
        await runner.setup()
        await web.TCPSite(runner, address.host, address.port, shutdown_timeout=2.0).start()
        return runner, Address(address.host, runner.addresses[0][1])

    # ---- the end

    def _listen_to_signals(self) -> None:
        for number in (signal.SIGINT, signal.SIGTERM):
            self._loop.add_signal_handler(number, self._stop)
        self._loop.add_signal_handler(signal.SIGHUP, self._reread)

    def _stop(self) -> None:
        """Ends soon; at the second time at once."""
        if self._stopped.is_set():
            os._exit(1)
        self._stopped.set()
        self._loop.call_later(_END_SECONDS, os._exit, 1)

    def _reread(self) -> None:
        """Takes the tokens that the file says now."""
        if self.tokens is None:
            return
        try:
            self.tokens.reread()
            self.log.say("tokens are read again")
        except FileRefused as error:
            self.log.say("tokens aren't read again", error=str(error))

    async def _end(self, work: asyncio.Future[Optional[str]], runners: list[web.AppRunner]) -> Optional[str]:
        """Takes no more requests, and ends once all that was asked is done; why it does, if nobody told it to."""
        self.public.is_ending = True
        for site in list(runners[0].sites) if self.role.serves_clients else ():
            await site.stop()
        self.desk.stop()
        with suppress(asyncio.TimeoutError):
            await asyncio.wait_for(asyncio.shield(work), _TELL_SECONDS)
        self.board.end()
        await asyncio.sleep(0)
        for runner in runners:
            await runner.cleanup()
        if not work.done():
            self.log.say("the store doesn't answer", error=self.desk.fault)
            self.log.close()
            os._exit(1)
        return work.result()
