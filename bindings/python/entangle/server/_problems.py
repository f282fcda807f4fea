"""Why a call isn't answered as it asks: each reason has a stable code."""

from __future__ import annotations

from http import HTTPStatus
from typing import Any, Optional


class Problem(Exception):
    """A call's answer is a problem: a status of HTTP, a code that programs may rely on, and a sentence for people. A
    client may ask again after `retry_after` seconds, if that is said."""

    def __init__(self, status: int, code: str, detail: str, retry_after: Optional[int] = None, **more: object) -> None:
        super().__init__(status, code, detail)
        self.status, self.code, self.detail = status, code, detail
        self.retry_after = retry_after
        self.more = more

    def said(self, request_id: str) -> dict[str, Any]:
        """The problem as application/problem+json has it."""
        title = HTTPStatus(self.status).phrase
        told = {"title": title, "status": self.status, "code": self.code, "detail": self.detail}
        return {**told, "request_id": request_id, **self.more}


def not_found() -> Problem:
    return Problem(404, "not_found", "there is nothing here, or it belongs to somebody else")


def store_fails() -> Problem:
    return Problem(503, "store_fails", "the store fails: ask again, with the same key", 1)


def busy() -> Problem:
    return Problem(503, "busy", "the desk lags: ask again, with the same key", 5)


def ending() -> Problem:
    return Problem(503, "ending", "the server ends: ask again, with the same key", 1)


# Each code, with its status and what it means, for the description of the calls.
CODES = {
    "not_json": (400, "the body isn't a JSON object"),
    "not_a_field": (400, "the body has a field that means nothing"),
    "key_missing": (400, "the key is missing, or isn't 32 hex digits"),
    "value_missing": (400, "a value is missing"),
    "value_wrong": (400, "a value isn't as its parameter wants it"),
    "until_wrong": (400, "the request can't wait until then"),
    "token_wrong": (401, "there is no token, or nobody has it"),
    "not_allowed": (403, "the token doesn't allow the call"),
    "other_origin": (403, "pages of this origin can't ask"),
    "not_found": (404, "there is nothing here, or it belongs to somebody else"),
    "not_this_method": (405, "nothing answers this method here"),
    "body_late": (408, "the body doesn't come"),
    "other_values": (409, "the key was used for other values"),
    "nothing_refused": (409, "the store refuses no group"),
    "is_over": (409, "the request has ended"),
    "body_long": (413, "the body is too long"),
    "not_of_json": (415, "the body's type isn't application/json"),
    "rate": (429, "too many requests a second"),
    "many_wait": (429, "as many requests wait as may"),
    "many_streams": (429, "as many streams are open as may"),
    "fault": (500, "the server has a fault, which its log tells"),
    "store_fails": (503, "the store fails: ask again, with the same key"),
    "busy": (503, "the desk lags: ask again, with the same key"),
    "ending": (503, "the server ends: ask again, with the same key"),
}
