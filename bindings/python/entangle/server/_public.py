"""The calls of clients."""

from __future__ import annotations

import asyncio
import json
from contextlib import suppress
from typing import Any, Mapping, Optional

from aiohttp import web

from ._access import Caller, Rates, Tokens, address_of
from ._answers import Response, caller_of, json_answer
from ._board import Board, Follower
from ._bodies import DIGEST, checked_key, checked_keys, checked_room, checked_until, checked_values, last_event
from ._bodies import object_of
from ._declared import ServiceFile
from ._front import name_in
from ._messages import AnyDesk, Call, Look, Put, ReadTable, Watch, Withdraw
from ._openapi import described
from ._positions import Position, digest_of
from ._problems import Problem, busy, ending, not_found
from ._streams import Streams

DESK_SECONDS, LAG_SECONDS, MOST_WAIT = 20.0, 5.0, 30
_POLICY = "default-src 'none'; script-src 'unsafe-inline'; style-src 'unsafe-inline'; connect-src 'self'"
_PAGE_HEADERS = {"Content-Security-Policy": f"{_POLICY}; frame-ancestors 'none'", "Cache-Control": "no-store"}
_UNKNOWN = {"state": "unknown"}
_KEY_HEADER = "Entangle-Key"


class PublicApi:
    """What clients may call: passes it to the desk, and tells what the desk says."""

    def __init__(self, file: ServiceFile, desk: AnyDesk, board: Board, tokens: Optional[Tokens]) -> None:
        self.file, self.desk, self.board, self.tokens = file, desk, board, tokens
        self.origins: tuple[str, ...] = file.origins
        self.is_ending = False
        self.streams = Streams(file.limits, desk, board)
        self._rates = Rates(file.limits.rate, file.limits.burst)
        self._rate_in_all = Rates(file.limits.rate_in_all, file.limits.rate_in_all)
        self._openapi = json.dumps(described(file), indent=1).encode()

    def routes(self) -> list[web.RouteDef]:
        one = "/v1/requests/{digest:[0-9a-f]{32}}"
        return [
            *([web.get("/", self.page)] if self.file.page else []),
            web.post("/v1/requests/look", self.look),
            web.get(one, self.one),
            web.delete(one, self.withdraw),
            web.post("/v1/requests/{name:[a-z][a-z0-9_]*}", self.put),
            web.post("/v1/events", self.events),
            web.get("/v1/tables/{name}", self.table),
            web.get("/v1/openapi.json", self.openapi),
            web.route("OPTIONS", "/v1/{rest:.*}", self.options),
        ]

    # ---- who asks

    def admit(self, request: web.Request) -> Caller:
        """Who asks, as long as that isn't too often. Raises Problem."""
        if self.is_ending:
            raise ending()
        address = address_of(request.remote, request.headers.getall("X-Forwarded-For", []), self.file.trusted_proxies)
        caller: Optional[Caller] = Caller(address)
        if self.tokens is not None:
            header = request.headers.get("Authorization")
            caller = Caller(address, rights=frozenset()) if header is None else self.tokens.caller(address, header)
        client = Caller(address).client if caller is None else caller.client
        after = self._rates.take(client) or self._rate_in_all.take("all")
        if after is not None:
            raise Problem(429, "rate", "too many requests a second", after)
        changes = request.method not in ("GET", "HEAD", "OPTIONS")
        if changes and request.headers.get("Origin") not in (None, *self.origins):
            raise Problem(403, "other_origin", "pages of this origin can't ask")
        if caller is None:
            raise Problem(401, "token_wrong", "nobody has this token")
        return caller

    def headers(self, request: web.Request) -> Mapping[str, str]:
        """Which pages may read an answer."""
        origin = request.headers.get("Origin")
        if origin is None or origin not in self.origins:
            return {"Vary": "Origin"} if self.origins else {}
        exposed = "ETag, Retry-After, X-Request-Id"
        return {"Access-Control-Allow-Origin": origin, "Access-Control-Expose-Headers": exposed, "Vary": "Origin"}

    async def options(self, request: web.Request) -> Response:
        """What a browser asks before a page of another origin may call."""
        allowed = {
            "Access-Control-Allow-Methods": "GET, POST, DELETE",
            "Access-Control-Allow-Headers": f"Authorization, Content-Type, {_KEY_HEADER}, If-None-Match, Last-Event-ID",
            "Access-Control-Max-Age": "600",
        }
        return web.Response(status=204, headers=allowed)

    def _may(self, request: web.Request, right: str) -> Caller:
        """Who asks, with this right. Raises Problem."""
        caller = caller_of(request)
        if self.tokens is not None and caller.subject is None:
            raise Problem(401, "token_wrong", "this wants a token: Authorization: Bearer TOKEN")
        caller.need(right)
        return caller

    async def _asked(self, call: Call[Any]) -> Any:
        """The desk's answer to a call. Raises Problem."""
        if self.board.lag() > LAG_SECONDS:
            raise busy()
        try:
            return await self.board.answer(call, lambda: self.desk.send(call), DESK_SECONDS)  # type: ignore[arg-type]
        except asyncio.TimeoutError:
            raise busy() from None

    # ---- requests

    async def put(self, request: web.Request) -> Response:
        declared = self.file.requests.get(request.match_info["name"])
        caller = self._may(request, "ask")
        if declared is None:
            raise Problem(404, "not_found", "there is no such request")
        given = await object_of(request, self.file.limits.body_seconds, ("key", "values", "until"))
        digest = checked_key(given.get("key"))
        values = checked_values(declared, given.get("values", {}), caller.subject)
        until = checked_until(given)
        future = asyncio.get_running_loop().create_future()
        taken = await self._asked(Put(future, declared, digest, values, until, caller.subject, caller.client))
        return json_answer(taken.position.said(), 202 if taken.is_new else 200)

    async def look(self, request: web.Request) -> Response:
        caller = self._may(request, "ask")
        given = await object_of(request, self.file.limits.body_seconds, ("keys", *self._fields()))
        digests, room = checked_keys(given, self.file.limits.keys), self._room(given)
        seen = await self._seen(digests, caller, room)
        return json_answer({"requests": [one.said() if one else _UNKNOWN for one in seen]})

    def _fields(self) -> tuple[str, ...]:
        """What a body may say beside what is asked: the room of a fleet."""
        return () if self.file.partition is None else (self.file.partition,)

    def _room(self, given: Mapping[str, Any], must: bool = False) -> Optional[str]:
        """The room that a call names, if it does. Raises Problem."""
        return checked_room(self.file, given, must)

    async def _seen(
        self, digests: tuple[str, ...], caller: Caller, room: Optional[str]
    ) -> list[Optional[Position]]:
        """How requests stand, for who may see them; by memory alone where they have ended, or the desk can't tell."""
        is_reader = self.tokens is not None and "read" in caller.rights
        known = [self.board.position(digest) for digest in digests]
        may_ask = self.desk.fault is None and self.board.lag() <= LAG_SECONDS
        if may_ask and not all(position is not None and position.is_over for position in known):
            future = asyncio.get_running_loop().create_future()
            found: list[Optional[Position]] = await self._asked(
                Look(future, digests, caller.subject, is_reader, room)
            )
            return found
        if not may_ask and None in known:
            raise busy()
        return [one if one and (is_reader or one.label.subject == caller.subject) else None for one in known]

    def _own(self, request: web.Request) -> tuple[str, Caller]:
        """The digest of a request and who asks, if that is its owner: whoever has the key, or the token's subject.
        Raises Problem."""
        digest, caller = request.match_info["digest"], self._may(request, "ask")
        if self.tokens is None and digest_of(request.headers.get(_KEY_HEADER, "")) != digest:
            raise Problem(404, "not_found", f"nobody's request, or the header {_KEY_HEADER} has another key")
        return digest, caller

    async def one(self, request: web.Request) -> Response:
        digest, caller = self._own(request)
        said = request.query.get("wait", "0")
        if not said.isdecimal() or len(said) > 3 or int(said) > MOST_WAIT:
            raise Problem(400, "value_wrong", f"wait is from 0 to {MOST_WAIT} seconds")
        room, follower = self._room(request.query), Follower(frozenset([digest]))
        self.board.follow(follower)
        if int(said):
            self.desk.send(Watch((digest,), 1, room))
        try:
            (position,) = await self._seen((digest,), caller, room)
            if position is None:
                raise not_found()
            until = asyncio.get_running_loop().time() + int(said)
            while not position.is_over and not self.board.is_over:
                left = until - asyncio.get_running_loop().time()
                if left <= 0:
                    break
                with suppress(asyncio.TimeoutError):
                    await asyncio.wait_for(follower.news.wait(), left)
                follower.news.clear()
                position = follower.positions.pop(digest, position)
        finally:
            self.board.leave(follower)
            if int(said):
                self.desk.send(Watch((digest,), -1, room))
        return json_answer(position.said())

    async def withdraw(self, request: web.Request) -> Response:
        digest, caller = self._own(request)
        future = asyncio.get_running_loop().create_future()
        position = await self._asked(Withdraw(future, digest, caller.subject, room=self._room(request.query)))
        return json_answer(position.said())

    async def events(self, request: web.Request) -> Response:
        caller = self._may(request, "ask")
        given = await object_of(request, self.file.limits.body_seconds, ("keys", "tables", *self._fields()))
        digests, tables = checked_keys(given, self.file.limits.keys), given.get("tables", [])
        if not isinstance(tables, list) or not all(isinstance(name, str) for name in tables):
            raise Problem(400, "value_wrong", "tables is a list of names")
        for name in tables:
            self._readable(name, caller)
        after, room = last_event(request), self._room(given, bool(tables))
        with self.streams.opened(caller.client) as stream:
            seen = await self._seen(digests, caller, room)
            headers, followed = self.headers(request), frozenset(name_in(room, name) for name in tables)
            return await stream.serve(request, digests, followed, seen, after, headers, room)

    # ---- tables, and what is told of all

    def _readable(self, name: str, caller: Caller) -> None:
        """Raises the Problem that this caller can't read a table."""
        served = self.file.tables.get(name)
        if served is None or served.read == "nobody" or served.read == "token" and self.tokens is None:
            raise Problem(404, "not_found", "there is no such table, or nobody may read it")
        if served.read == "token":
            if caller.subject is None:
                raise Problem(401, "token_wrong", "this wants a token: Authorization: Bearer TOKEN")
            caller.need("read")

    async def table(self, request: web.Request) -> Response:
        name = request.match_info["name"]
        self._readable(name, caller_of(request))
        room = self._room(request.query, True)
        table = self.board.table(name_in(room, name))
        if table is None:
            future = asyncio.get_running_loop().create_future()
            body = await self._asked(ReadTable(future, name, room))
            table = self.board.keep_table(name_in(room, name), body)
        headers = {"ETag": table.tag, "Cache-Control": "no-cache"}
        if request.headers.get("If-None-Match") == table.tag:
            return web.Response(status=304, headers=headers)
        return web.Response(body=table.body, content_type="application/json", headers=headers)

    async def openapi(self, request: web.Request) -> Response:
        return web.Response(body=self._openapi, content_type="application/json", headers={"Cache-Control": "no-cache"})

    async def page(self, request: web.Request) -> Response:
        assert self.file.page is not None, "the page has a route if there is one"
        body = await asyncio.to_thread(self.file.page.read_bytes)
        return web.Response(body=body, content_type="text/html", charset="utf-8", headers=_PAGE_HEADERS)
