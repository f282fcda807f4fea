"""The second port: for those who operate the server."""

from __future__ import annotations

import asyncio
from pathlib import Path
from typing import Any, Mapping, Optional

from aiohttp import web

from ._access import Caller, Tokens
from ._answers import Response, caller_of, json_answer
from ._board import Board
from ._bodies import DIGEST, object_of
from ._declared import ServiceFile
from ._log import Log
from ._messages import AnyDesk, Call, SetAside, Survey, Withdraw
from ._metrics import Metrics
from ._problems import Problem, busy, not_found
from ._public import DESK_SECONDS, LAG_SECONDS, PublicApi

_PAGE = Path(__file__).with_name("operate.html")
_POLICY = "default-src 'none'; script-src 'unsafe-inline'; style-src 'unsafe-inline'; connect-src 'self'"
_PAGE_HEADERS = {"Content-Security-Policy": f"{_POLICY}; frame-ancestors 'none'", "Cache-Control": "no-store"}


class InnerApi:
    """Whether the server lives and serves, what it counts, and what an operator sees and does."""

    def __init__(
        self, file: ServiceFile, desk: AnyDesk, board: Board, public: PublicApi, tokens: Optional[Tokens], log: Log
    ) -> None:
        self.file, self.desk, self.board, self.public, self.tokens, self.log = file, desk, board, public, tokens, log
        self.hosts: tuple[str, ...] = ()
        self.metrics: Metrics = desk.metrics

    def routes(self) -> list[web.RouteDef]:
        return [
            web.get("/livez", self.alive),
            web.get("/readyz", self.ready),
            web.get("/metrics", self.counted),
            web.get("/operate", self.page),
            web.post("/operate/survey", self.survey),
            web.post("/operate/withdraw", self.withdraw),
            web.post("/operate/set-aside", self.set_aside),
        ]

    def admit(self, request: web.Request) -> Caller:
        """Who asks. A page of another origin can't, also not by a name that it has for this address. Raises Problem."""
        origin, address = request.headers.get("Origin"), request.remote or "unknown"
        if request.method != "GET" and origin is not None and origin != f"http://{request.host}":
            raise Problem(403, "other_origin", "pages of this origin can't ask")
        if self.hosts and request.host not in self.hosts and request.path.startswith("/operate"):
            raise Problem(403, "other_origin", "this port is called by its own address")
        if self.tokens is None:
            return Caller(address)
        return self.tokens.caller(address, request.headers.get("Authorization")) or Caller(address, rights=frozenset())

    def headers(self, request: web.Request) -> Mapping[str, str]:
        return {}

    async def alive(self, request: web.Request) -> Response:
        return web.Response(text="alive\n")

    async def ready(self, request: web.Request) -> Response:
        """Whether it serves: the store can be written, and the desk doesn't lag."""
        fault = "the server ends" if self.public.is_ending else self.desk.fault
        lag = self.board.lag()
        if fault is None and lag > LAG_SECONDS:
            fault = f"the desk lags by {lag:.1f} seconds"
        return web.Response(text=f"{fault or 'ready'}\n", status=503 if fault else 200)

    async def counted(self, request: web.Request) -> Response:
        gauges = {
            "ready": float(self.desk.fault is None and not self.public.is_ending),
            "waiting": float(self.desk.waiting()),
            "most_waiting": float(self.file.limits.waiting_in_all),
            "rows": float(self.desk.rows.count),
            "most_rows": float(self.desk.rows.most),
            "streams": float(self.public.streams.count),
            "calls_of_the_desk": float(self.board.outstanding()),
            "lag_seconds": round(self.board.lag(), 3),
            "endings": float(self.board.endings),
            "log_lines_dropped": float(self.log.dropped),
        }
        return web.Response(text=self.metrics.text(gauges))

    # ---- operators

    async def page(self, request: web.Request) -> Response:
        body = await asyncio.to_thread(_PAGE.read_bytes)
        return web.Response(body=body, content_type="text/html", charset="utf-8", headers=_PAGE_HEADERS)

    def _operator(self, request: web.Request) -> Caller:
        caller = caller_of(request)
        if self.tokens is not None and caller.subject is None:
            raise Problem(401, "token_wrong", "this wants a token with the right operate")
        caller.need("operate")
        return caller

    async def _asked(self, call: Call[Any]) -> Any:
        try:
            return await self.board.answer(call, lambda: self.desk.send(call), DESK_SECONDS)  # type: ignore[arg-type]
        except asyncio.TimeoutError:
            raise busy() from None

    async def survey(self, request: web.Request) -> Response:
        self._operator(request)
        await object_of(request, self.file.limits.body_seconds, ())
        return json_answer(await self._asked(Survey(asyncio.get_running_loop().create_future())))

    async def set_aside(self, request: web.Request) -> Response:
        """Ends the requests of a group that the store refuses."""
        caller = self._operator(request)
        await object_of(request, self.file.limits.body_seconds, ())
        aside = await self._asked(SetAside(asyncio.get_running_loop().create_future()))
        self.log.say("set aside by an operator", requests=aside, operator=caller.subject)
        return json_answer({"requests": aside})

    async def withdraw(self, request: web.Request) -> Response:
        caller = self._operator(request)
        given = await object_of(request, self.file.limits.body_seconds, ("request",))
        digest = given.get("request")
        if not isinstance(digest, str) or not DIGEST.fullmatch(digest):
            raise not_found()
        future = asyncio.get_running_loop().create_future()
        position = await self._asked(Withdraw(future, digest, None, True))
        self.log.say("withdrawn by an operator", request=digest, operator=caller.subject)
        return json_answer(position.said())
