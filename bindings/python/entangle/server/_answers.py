"""What surrounds each answer: its id, problems, limits, origins, the log and the metrics."""

from __future__ import annotations

import json
import secrets
import time
from typing import Any, Awaitable, Callable, Mapping, Optional, Protocol

from aiohttp import web

from ..stores import StoreError
from ._access import Caller
from ._log import Log
from ._metrics import Metrics
from ._problems import Problem, store_fails

Response = web.StreamResponse
Handler = Callable[[web.Request], Awaitable[Response]]

_STATUS_CODES = {404: "not_found", 405: "not_this_method", 413: "body_long"}
_SAID = {404: "there is nothing here", 405: "nothing answers this method here", 413: "the body is too long"}


class Doorkeeper(Protocol):
    """Says who asks, before anything is answered, and which further headers an answer has. Raises Problem."""

    def admit(self, request: web.Request) -> Caller:
        ...

    def headers(self, request: web.Request) -> Mapping[str, str]:
        ...


def json_answer(told: object, status: int = 200, headers: Optional[Mapping[str, str]] = None) -> web.Response:
    """An answer in JSON, which nobody keeps."""
    body = json.dumps(told).encode()
    return web.Response(
        body=body,
        status=status,
        content_type="application/json",
        headers={"Cache-Control": "no-store", **(headers or {})},
    )


def _problem_answer(problem: Problem, request_id: str) -> web.Response:
    headers = {"Cache-Control": "no-store"}
    if problem.retry_after is not None:
        headers["Retry-After"] = str(problem.retry_after)
    if problem.status == 401:
        headers["WWW-Authenticate"] = "Bearer"
    body = json.dumps(problem.said(request_id)).encode()
    return web.Response(body=body, status=problem.status, content_type="application/problem+json", headers=headers)


def _problem_of(error: web.HTTPException) -> Problem:
    """What aiohttp itself refuses."""
    status = error.status if error.status in _SAID else 400
    return Problem(status, _STATUS_CODES.get(status, "not_json"), _SAID.get(status, error.reason))


def answered(doorkeeper: Doorkeeper, metrics: Metrics, log: Log) -> Any:
    """The middleware that all calls of a port go through."""

    async def answer(request: web.Request, handler: Handler, request_id: str) -> Response:
        try:
            request["caller"] = doorkeeper.admit(request)
            return await handler(request)
        except Problem as problem:
            return _problem_answer(problem, request_id)
        except web.HTTPException as error:
            return _problem_answer(_problem_of(error), request_id)
        except StoreError as error:
            log.say("store fails", id=request_id, error=str(error))
            return _problem_answer(store_fails(), request_id)
        except ConnectionError:
            raise
        except Exception as error:
            log.say("fault", id=request_id, error=repr(error))
            return _problem_answer(Problem(500, "fault", "the server has a fault, which its log tells"), request_id)

    @web.middleware
    async def middleware(request: web.Request, handler: Handler) -> Response:
        begun, request_id = time.monotonic(), secrets.token_hex(8)
        request["id"] = request_id
        resource = request.match_info.route.resource
        call = f"{request.method} {resource.canonical}" if resource else "unknown"
        response = await answer(request, handler, request_id)
        if not response.prepared:
            response.headers["X-Request-Id"] = request_id
            response.headers.update(doorkeeper.headers(request))
        metrics.answers[call, response.status] += 1
        spent = round(1000 * (time.monotonic() - begun), 1)
        log.say("answer", id=request_id, call=call, status=response.status, milliseconds=spent)
        return response

    return middleware


def caller_of(request: web.Request) -> Caller:
    """Who asks."""
    caller: Caller = request["caller"]
    return caller
