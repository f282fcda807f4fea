"""The calls of a server as OpenAPI 3.1 has them."""

from __future__ import annotations

from typing import Any, Mapping, Optional

from .. import __version__
from ._declared import Parameter, RequestType, ServiceFile
from ._problems import CODES

Schema = dict[str, Any]

_KEY: Schema = {"type": "string", "pattern": "^[0-9a-f]{32}$", "description": "drawn at random by the client"}
_DIGEST: Schema = {"type": "string", "pattern": "^[0-9a-f]{32}$"}
_VALUE: Schema = {"type": ["string", "integer"]}
_PROBLEM = {"application/problem+json": {"schema": {"$ref": "#/components/schemas/Problem"}}}
_STANDS = {"application/json": {"schema": {"$ref": "#/components/schemas/Request"}}}


def described(file: ServiceFile) -> Schema:
    """The description of all that a client of a file may call."""
    needs_token = file.tokens is not None
    paths: Schema = {f"/v1/requests/{name}": {"post": _put(one)} for name, one in file.requests.items()}
    paths["/v1/requests/look"] = {"post": _look(file)}
    paths["/v1/requests/{digest}"] = {"get": _one(file), "delete": _withdraw(file)}
    paths["/v1/events"] = {"post": _events(file)}
    for name, served in file.tables.items():
        if served.read != "nobody":
            paths[f"/v1/tables/{name}"] = {"get": _table(file, name)}
    paths["/v1/openapi.json"] = {"get": {"operationId": "openapi", "responses": {"200": {"description": "this text"}}}}
    described: Schema = {
        "openapi": "3.1.0",
        "info": {"title": file.path.stem, "version": __version__},
        "paths": paths,
        "components": {"schemas": {"Request": _request(), "Problem": _problem()}},
    }
    if needs_token:
        described["components"]["securitySchemes"] = {"token": {"type": "http", "scheme": "bearer"}}
        described["security"] = [{"token": []}]
    return described


def _body(properties: Mapping[str, Schema], required: list[str], example: Mapping[str, Any]) -> Schema:
    schema = {"type": "object", "properties": properties, "required": required, "additionalProperties": False}
    return {"required": True, "content": {"application/json": {"schema": schema, "example": example}}}


def _answers(good: Mapping[str, Schema], *statuses: int) -> Schema:
    """The answers of a call: good ones, and those of problems, with their codes."""
    found: Schema = dict(good)
    for status in sorted({400, 429, 503, *statuses}):
        codes = [f"{code}: {said}" for code, (of, said) in CODES.items() if of == status]
        found[str(status)] = {"description": "; ".join(codes), "content": _PROBLEM}
    return found


def _parameter(parameter: Parameter) -> Schema:
    if parameter.kind == "request":
        return {**_KEY, "description": "the key of an earlier request"}
    if parameter.kind == "INT":
        return {"type": "integer", "minimum": parameter.least, "maximum": parameter.greatest}
    schema: Schema = {"type": "string", "maxLength": parameter.length}
    return {**schema, "pattern": f"^(?:{parameter.pattern.pattern})$"} if parameter.pattern else schema


def example_of(parameter: Parameter) -> Optional[object]:
    """A value with which the call may be tried; None where the pattern leaves none to be guessed."""
    for value in ("0" * 32, "Ann", "1", "a", parameter.least_value()):
        if parameter.wrong(value) is None:
            return value
    return None


def _put(declared: RequestType) -> Schema:
    given = {name: one for name, one in declared.parameters.items() if not one.from_subject}
    values: Schema = {"type": "object", "properties": {name: _parameter(one) for name, one in given.items()}}
    values |= {"required": list(given), "additionalProperties": False}
    until = {"type": "integer", "description": "until when it waits, in seconds since 1970"}
    example = {
        "key": "0123456789abcdef0123456789abcdef",
        "values": {name: example_of(one) for name, one in given.items()},
    }
    new = {"description": "it is put, and outlives the process", "content": _STANDS}
    known = {"description": "it was put before, and stands like this", "content": _STANDS}
    return {
        "operationId": declared.name,
        "requestBody": _body({"key": _KEY, "values": values, "until": until}, ["key", "values"], example),
        "responses": _answers({"202": new, "200": known}, 401, 403, 404, 408, 409, 413, 415),
    }


def _look(file: ServiceFile) -> Schema:
    keys = {"type": "array", "items": _KEY, "maxItems": file.limits.keys}
    stand = {"type": "array", "items": {"$ref": "#/components/schemas/Request"}}
    schema = {"type": "object", "properties": {"requests": stand}, "required": ["requests"]}
    good = {"description": "how each stands", "content": {"application/json": {"schema": schema}}}
    return {
        "operationId": "look",
        "requestBody": _body(
            {"keys": keys, **_room(file)}, ["keys"], {"keys": ["0123456789abcdef0123456789abcdef"]}
        ),
        "responses": _answers({"200": good}, 401, 403, 408, 413, 415),
    }


def _room(file: ServiceFile) -> Mapping[str, Schema]:
    """The room that a call names, in a fleet."""
    return {} if file.partition is None else {file.partition: {"enum": list(file.rooms)}}


def _room_parameters(file: ServiceFile, must: bool) -> list[Schema]:
    return [{"name": name, "in": "query", "required": must, "schema": one} for name, one in _room(file).items()]


def _digest_parameters(needs_token: bool) -> list[Schema]:
    digest = {"name": "digest", "in": "path", "required": True, "schema": _DIGEST}
    key = {"name": "Entangle-Key", "in": "header", "required": True, "schema": _KEY}
    return [digest] if needs_token else [digest, key]


def _one(file: ServiceFile) -> Schema:
    wait = {"name": "wait", "in": "query", "schema": {"type": "integer", "minimum": 0, "maximum": 30}}
    return {
        "operationId": "one",
        "parameters": [*_digest_parameters(file.tokens is not None), *_room_parameters(file, False), wait],
        "responses": _answers({"200": {"description": "how it stands", "content": _STANDS}}, 401, 403, 404),
    }


def _withdraw(file: ServiceFile) -> Schema:
    return {
        "operationId": "withdraw",
        "parameters": [*_digest_parameters(file.tokens is not None), *_room_parameters(file, False)],
        "responses": _answers({"200": {"description": "it is withdrawn", "content": _STANDS}}, 401, 403, 404, 409),
    }


def _events(file: ServiceFile) -> Schema:
    keys = {"type": "array", "items": _KEY, "maxItems": file.limits.keys}
    tables = {"type": "array", "items": {"enum": [name for name, one in file.tables.items() if one.read != "nobody"]}}
    last = {"name": "Last-Event-ID", "in": "header", "schema": {"type": "string", "pattern": "^[0-9]{1,18}$"}}
    good = {"description": "events `requests` and `tables`", "content": {"text/event-stream": {}}}
    return {
        "operationId": "events",
        "parameters": [last],
        "requestBody": _body({"keys": keys, "tables": tables, **_room(file)}, [], {"keys": []}),
        "responses": _answers({"200": good}, 401, 403, 404, 408, 413, 415),
    }


def _table(file: ServiceFile, name: str) -> Schema:
    columns = {"type": "array", "items": {"type": "string"}}
    rows = {"type": "array", "items": {"type": "array", "items": _VALUE}}
    schema = {"type": "object", "properties": {"columns": columns, "rows": rows}, "required": ["columns", "rows"]}
    good = {"description": "its rows, with an ETag", "content": {"application/json": {"schema": schema}}}
    return {
        "operationId": f"table_{name}",
        "parameters": _room_parameters(file, True),
        "responses": _answers({"200": good, "304": {"description": "they are those of the ETag"}}, 401, 403, 404),
        **({"security": []} if file.tables[name].read == "anybody" else {}),
    }


def _request() -> Schema:
    return {
        "type": "object",
        "properties": {
            "request": _DIGEST,
            "name": {"type": "string"},
            "state": {"enum": ["waits", "booked", "ended", "unknown"]},
            "why": {"type": "string", "description": "why it waits"},
            "answers": {"type": "object", "additionalProperties": _VALUE},
            "how": {"type": "string", "description": "how it ended"},
            "until": {"type": "integer", "description": "in seconds since 1970"},
        },
        "required": ["state"],
    }


def _problem() -> Schema:
    return {
        "type": "object",
        "properties": {
            "title": {"type": "string"},
            "status": {"type": "integer"},
            "code": {"enum": list(CODES)},
            "detail": {"type": "string"},
            "request_id": {"type": "string"},
        },
        "required": ["title", "status", "code", "detail", "request_id"],
    }
