"""Makes every call of a server from its description in OpenAPI, and holds each answer against it."""

import json
import re
import secrets

from serving import digest_of

KINDS = {"string": str, "integer": int, "object": dict, "array": list}


def check(tally, served):
    """Each call, with the values of its examples, is answered by a status and in a form that the description has."""
    _, told = served.ask("GET", "/v1/openapi.json")
    tally.compare("it is OpenAPI 3.1", told["openapi"], "3.1.0")
    key = secrets.token_hex(16)
    made = 0
    for path, methods in told["paths"].items():
        for method, call in methods.items():
            head, place = {}, path.replace("{digest}", digest_of(key))
            for parameter in call.get("parameters", []):
                if parameter["in"] == "header" and parameter.get("required"):
                    head[parameter["name"]] = key
            body = call.get("requestBody", {}).get("content", {}).get("application/json", {}).get("example")
            if body is not None:
                conforms(
                    tally,
                    told,
                    call["requestBody"]["content"]["application/json"]["schema"],
                    body,
                    f"the example of {path}",
                )
                body = {**body, **({"key": key} if "key" in body else {})}
            if call["operationId"] == "events":
                with served.stream() as events:
                    tally.note("POST /v1/events", next(events)[1] == "requests")
                made += 1
                continue
            status, headers, said = served.whole(method.upper(), place, body, head)
            made += 1
            answer = call["responses"].get(str(status))
            tally.note(f"{method} {path}: {status} is described", answer is not None, said)
            for kind, of_kind in (answer or {}).get("content", {}).items():
                tally.compare(f"{method} {path} answers {kind}", headers["Content-Type"].split(";")[0], kind)
                conforms(tally, told, of_kind["schema"], json.loads(said), f"{method} {path}")
            if call["operationId"] in ("alone", "together"):
                tally.compare(f"{method} {path} takes its own example", status, 202)
                if call["operationId"] == "alone":
                    key = secrets.token_hex(16)
    tally.note(f"{made} calls were made from the description", made >= 9)


def conforms(tally, told, schema, value, name):
    why = _differs(told, schema, value)
    tally.note(f"{name} is as described", why is None, (why, value))


def _differs(told, schema, value):
    """Why a value isn't as a schema wants it."""
    if "$ref" in schema:
        schema = told["components"]["schemas"][schema["$ref"].rsplit("/", 1)[1]]
    if "enum" in schema and value not in schema["enum"]:
        return f"{value!r} is none of {schema['enum']}"
    kinds = schema.get("type", [])
    kinds = [kinds] if isinstance(kinds, str) else kinds
    if kinds and not any(type(value) is KINDS[kind] for kind in kinds):
        return f"{value!r} isn't of type {kinds}"
    if isinstance(value, str) and "pattern" in schema and not re.search(schema["pattern"], value):
        return f"{value!r} isn't like {schema['pattern']}"
    if isinstance(value, dict):
        missing = [name for name in schema.get("required", []) if name not in value]
        if missing:
            return f"{missing} are missing"
        for name, one in value.items():
            known = schema.get("properties", {}).get(name)
            if known is None and schema.get("additionalProperties") is False:
                return f"{name} is too much"
            why = _differs(told, known or {}, one)
            if why:
                return f"{name}: {why}"
    if isinstance(value, list):
        return next((why for one in value if (why := _differs(told, schema.get("items", {}), one))), None)
    return None
