"""Reads what clients send."""

from __future__ import annotations

import asyncio
import json
import re
from typing import Any, Iterable, Mapping, Optional

from aiohttp import web

from .._values import Value
from ._declared import KEY, RequestType, ServiceFile
from ._positions import digest_of
from ._problems import Problem

DIGEST = re.compile(r"[0-9a-f]{32}")
_EVENT_ID = re.compile(r"[0-9]{1,18}")
_MOST_UNTIL = 2**53


async def object_of(request: web.Request, seconds: float, fields: Iterable[str]) -> dict[str, Any]:
    """The JSON object of a body, with no other fields than these. Raises Problem."""
    if request.content_type != "application/json":
        raise Problem(415, "not_of_json", "the body's type is application/json")
    try:
        body = await asyncio.wait_for(request.read(), seconds)
    except asyncio.TimeoutError:
        raise Problem(408, "body_late", "the body doesn't come") from None
    try:
        given = json.loads(body)
    except (ValueError, RecursionError):
        raise Problem(400, "not_json", "the body isn't JSON") from None
    if not isinstance(given, dict):
        raise Problem(400, "not_json", "the body is a JSON object")
    for name in given:
        if name not in fields:
            raise Problem(400, "not_a_field", f"{name:.40} means nothing here: there are {', '.join(fields)}")
    return given


def checked_key(key: object) -> str:
    """The digest of a key. Raises Problem."""
    if not isinstance(key, str) or not KEY.fullmatch(key):
        raise Problem(400, "key_missing", "key is 32 hex digits in small letters, drawn at random by the client")
    return digest_of(key)


def checked_keys(given: Mapping[str, Any], most: int) -> tuple[str, ...]:
    """The digests of keys. Raises Problem."""
    keys = given.get("keys", [])
    if not isinstance(keys, list) or len(keys) > most:
        raise Problem(400, "value_wrong", f"keys is a list of {most} keys at most")
    return tuple(map(checked_key, keys))


def checked_room(file: ServiceFile, given: Mapping[str, Any], must: bool) -> Optional[str]:
    """The room that a call names, by the parameter that parts requests; None if it names none, and needn't. Raises
    Problem."""
    name = file.partition
    if name is None:
        return None
    room = given.get(name)
    if room is None and must:
        raise Problem(400, "value_missing", f"{name} is missing: {', '.join(file.rooms)}", parameter=name)
    if room is not None and room not in file.rooms:
        raise Problem(400, "value_wrong", f"{name} is one of {', '.join(file.rooms)}", parameter=name)
    return room


def checked_until(given: Mapping[str, Any]) -> Optional[int]:
    """Until when a request waits, in seconds since 1970, if that is said. Raises Problem."""
    until = given.get("until")
    if until is not None and (type(until) is not int or not 0 <= until <= _MOST_UNTIL):
        raise Problem(400, "until_wrong", "until is a whole number: seconds since 1970")
    return until


def checked_values(declared: RequestType, given: object, subject: Optional[str]) -> dict[str, Value]:
    """The values of a request, as its scripts get them. Raises Problem for the first that is wrong."""
    if not isinstance(given, dict):
        raise Problem(400, "value_missing", "values is an object")
    values: dict[str, Value] = {}
    for name, parameter in declared.parameters.items():
        value = subject if parameter.from_subject else given.get(name)
        if not parameter.from_subject and name not in given:
            raise Problem(400, "value_missing", f"{name} is missing", parameter=name)
        why = parameter.wrong(value)
        if why is not None:
            raise Problem(400, "value_wrong", f"{name} {why}", parameter=name)
        assert isinstance(value, (int, str)), "it is a value of its kind"
        values[name] = digest_of(str(value)) if parameter.kind == "request" else value
    for name in given:
        if name not in declared.parameters or declared.parameters[name].from_subject:
            raise Problem(400, "not_a_field", f"{declared.name} takes no value {name:.40}")
    return values


def last_event(request: web.Request) -> int:
    """The id of the last event that a client has seen; 0 if it has seen none. Raises Problem."""
    said = request.headers.get("Last-Event-ID", "0")
    if not _EVENT_ID.fullmatch(said):
        raise Problem(400, "value_wrong", "Last-Event-ID is the id of an event of this server")
    return int(said)
