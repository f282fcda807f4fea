"""Reads the file that tells a server its schema."""

from __future__ import annotations

import ipaddress
import re
from dataclasses import replace
from pathlib import Path
from typing import Mapping, Optional, Union, cast

from ..stores import Kind, Table
from ._declared import GREATEST_NUMBER, LEAST_NUMBER, MOST_TEXT, Address, Limits, Network, Parameter, ParameterKind
from ._declared import Reader, RequestType, ServedTable, ServiceFile, StorePlace, Wait
from ._faults import FileRefused
from ._rows import rows_of
from ._scripts import Script, statements_of, variables_of
from ._section import Section, read_toml

_NAME = re.compile(r"[a-z][a-z0-9_]{0,39}")
_VARIABLE = re.compile(r"[A-Za-z][A-Za-z0-9_]{0,62}")
_RESERVED = ("look",)
_REQUEST = "request"
_MOST_SECONDS = 366 * 86_400
_MOST = 1_000_000


def read_file(path: Union[str, Path]) -> ServiceFile:
    """What a file declares. Raises FileRefused with each fault that can be told by the file alone."""
    outer = read_toml(Path(path))
    tables = {name: _table(name, section) for name, section in outer.sections("tables")}
    wait = _wait(outer.section("wait"), Wait())
    partition, rooms = _partition(outer)
    requests = {name: _request(name, section, wait, partition) for name, section in outer.sections("requests")}
    requests = {name: _in_rooms(outer, one, partition, rooms) for name, one in requests.items()}
    limits, origins, proxies = _limits(outer.section("limits")), outer.texts("origins"), _networks(outer)
    public = _address(outer.section("listen"), Address("127.0.0.1", 8000))
    inner = _address(outer.section("operate"), Address("127.0.0.1", 8001))
    tokens, page = _beside(outer, "tokens"), _beside(outer, "page")
    store = _store(outer.section("store"), Path(path))
    outer.done()
    if partition is not None and store.postgres is None:
        outer.source.fault(("partition",), "a file with rooms names a database of PostgreSQL: store.postgres")
    if not tables:
        outer.source.fault((), "the file declares no table: [tables.NAME]")
    if not requests:
        outer.source.fault((), "the file declares no request: [requests.NAME]")
    if any(len(name) < 1 or "/" not in name for name in origins):
        outer.fault("origins", "has origins, like https://trips.example")
    if tokens is None:
        _refuse_subjects(outer, requests)
        if not _is_own(inner.host):
            outer.source.fault(("operate", "host"), "others may call operate.host: name tokens")
    served = {name: table for name, table in tables.items() if table is not None}
    if outer.source.faults:
        raise FileRefused(tuple(sorted(set(outer.source.faults))))
    return ServiceFile(
        Path(path),
        served,
        requests,
        store,
        limits,
        public,
        inner,
        tuple(origins),
        proxies,
        tokens,
        page,
        partition,
        rooms,
    )


def _refuse_subjects(outer: Section, requests: Mapping[str, RequestType]) -> None:
    """Without tokens there are no subjects."""
    for request in requests.values():
        for parameter in request.parameters.values():
            if parameter.from_subject:
                path = ("requests", request.name, "parameters", parameter.name)
                outer.source.fault(
                    path, f"{parameter.name} comes from the subject of a token, and the file names no tokens"
                )


def _is_own(host: str) -> bool:
    """Whether only this machine may call an address."""
    try:
        return ipaddress.ip_address(host).is_loopback
    except ValueError:
        return host == "localhost"


def _beside(outer: Section, key: str) -> Optional[Path]:
    """A file that is named by where it is from this one."""
    name = outer.find(key, str)
    return None if name is None else outer.source.path.parent / name


# ---- rooms


def _partition(outer: Section) -> tuple[Optional[str], tuple[str, ...]]:
    """The parameter by which requests go to rooms, and the rooms."""
    partition, rooms = outer.find("partition", str), tuple(outer.texts("rooms"))
    for number, room in enumerate(rooms):
        if not _NAME.fullmatch(room) or room.startswith("pg_"):
            outer.source.fault(("rooms", number), f"no room can have the name {room}: small letters, digits and _")
    if len(set(rooms)) < len(rooms):
        outer.fault("rooms", "names a room twice")
    if (partition is None) != (not rooms):
        outer.source.fault((), "partition names a parameter, and rooms the values that it may have: both are said")
    if partition in ("key", "keys", "tables", "values", "until", "wait"):
        outer.fault("partition", f"can't be {partition}, which calls have already")
    return (partition, rooms) if rooms else (None, ())


def _in_rooms(
    outer: Section, request: RequestType, partition: Optional[str], rooms: tuple[str, ...]
) -> RequestType:
    """A request whose parameter `partition` is the name of a room."""
    if partition is None:
        return request
    parameter = request.parameters.get(partition)
    if parameter is None or parameter.kind != "TEXT" or parameter.from_subject:
        said = f"{request.name} has no parameter {partition} of kind TEXT, by which it goes to a room"
        outer.source.fault(("requests", request.name), said)
        return request
    parameter = replace(parameter, pattern=re.compile("|".join(rooms)))
    return replace(request, parameters={**request.parameters, partition: parameter})


# ---- tables


def _table(name: str, section: Section) -> Optional[ServedTable]:
    columns = _columns(section)
    stored_as, collects = section.find("stored_as", str), section.take("collects", bool, False)
    stored_columns = _stored_columns(section)
    read = cast(Reader, section.choice("read", ("nobody", "anybody", "token"), "nobody"))
    if collects and read != "nobody":
        section.fault("read", "can't be said of a table that collects: the room doesn't have its rows")
    rows = rows_of(section, columns)
    if not collects and len(set(rows)) < len(rows):
        twice = next(row for row in rows if rows.count(row) > 1)
        section.fault("rows", f"has a row twice: {twice!r}")
    section.done()
    if not columns:
        return None
    try:
        table = Table(name, columns, stored_as, stored_columns, collects, rows)
    except ValueError as error:
        section.source.fault(section.path, str(error))
        return None
    return ServedTable(table, read)


def _columns(section: Section) -> dict[str, Kind]:
    """The columns of a table."""
    given = section.need("columns", dict)
    if given is not None and not given:
        section.fault("columns", "names no column")
    columns: dict[str, Kind] = {}
    for name, kind in (given or {}).items():
        if kind not in ("INT", "TEXT"):
            section.source.fault((*section.path, "columns", name), f"the kind of {name} is INT or TEXT, not {kind!r}")
        else:
            columns[name] = kind
    return columns


def _stored_columns(section: Section) -> dict[str, str]:
    given = section.take("stored_columns", dict, {})
    if not all(isinstance(name, str) for name in given.values()):
        section.fault("stored_columns", "has names")
        return {}
    return dict(given)


# ---- requests


def _request(name: str, section: Section, wait: Wait, partition: Optional[str]) -> RequestType:
    if not _NAME.fullmatch(name) or name in _RESERVED:
        section.source.fault(section.path, f"no request can have the name {name}: small letters, digits and _")
    parameters = {one: _parameter(one, inner) for one, inner in section.sections("parameters")}
    scripts = tuple(_scripts(section))
    own = _wait(section.section("wait"), wait)
    answers, when_full = _answers(section, scripts), section.take("when_full", bool, False)
    section.done()
    used = {variable for script in scripts for variable in variables_of(script.text)}
    for one in parameters:
        if scripts and one not in used and one != partition:
            section.source.fault((*section.path, "parameters", one), f"no script of {name} uses @{one}")
    return RequestType(name, parameters, scripts, own, answers, when_full)


def _parameter(name: str, section: Section) -> Parameter:
    if not _VARIABLE.fullmatch(name) or name == _REQUEST:
        section.source.fault(section.path, f"no parameter can have the name {name}")
    from_subject = section.has("from")
    section.choice("from", ("subject",), "subject")
    if not from_subject and not section.has("kind"):
        section.source.fault(section.path, f"the kind of {name} is missing: INT, TEXT or request")
    kind = section.choice("kind", ("INT", "TEXT", "request"), "TEXT")
    if from_subject and kind != "TEXT":
        section.fault("kind", "is TEXT for what comes from the subject of a token")
    length = section.number("length", MOST_TEXT, 1, MOST_TEXT) if kind == "TEXT" else MOST_TEXT
    pattern = _pattern(section) if kind == "TEXT" else None
    least, greatest = LEAST_NUMBER, GREATEST_NUMBER
    if kind == "INT":
        least = section.number("least", LEAST_NUMBER, LEAST_NUMBER, GREATEST_NUMBER)
        greatest = section.number("greatest", GREATEST_NUMBER, LEAST_NUMBER, GREATEST_NUMBER)
        if least > greatest:
            section.fault("greatest", "is less than the least")
    section.done()
    return Parameter(name, cast(ParameterKind, kind), length, pattern, least, greatest, from_subject)


def _pattern(section: Section) -> Optional[re.Pattern[str]]:
    text = section.find("pattern", str)
    if text is None:
        return None
    try:
        return re.compile(text)
    except (re.error, RecursionError, OverflowError) as error:
        section.fault("pattern", f"isn't a regular expression of Python: {error}")
        return None


def _scripts(section: Section) -> list[Script]:
    """The scripts of a request. What has white space is a script, and what has none the name of a file with one."""
    given = section.texts("scripts")
    if not given:
        section.fault("scripts", "names no script: it is a list of scripts, or of files that have one each")
    found = []
    for number, text in enumerate(given):
        path = (*section.path, "scripts", number)
        if re.search(r"\s", text):
            found.append(Script(text, section.source.path, section.source.lines.of_text(path)))
            continue
        file = section.source.path.parent / text
        try:
            found.append(Script(file.read_text(encoding="utf-8"), file, 1))
        except OSError as error:
            section.source.fault(path, f"the script {text} can't be read: {error.strerror}")
        except (UnicodeDecodeError, ValueError):
            section.source.fault(path, f"the script {text} isn't a text in UTF-8")
    return found


def _answers(section: Section, scripts: tuple[Script, ...]) -> dict[str, str]:
    """What the answers are called, and which item of a script each is."""
    given = section.take("answers", dict, {})
    items = {
        name for script in scripts for one in statements_of(script.text) for item in one.items for name in item.names
    }
    for name, item in given.items():
        path = (*section.path, "answers", name)
        if not isinstance(item, str):
            section.source.fault(path, f"the answer {name} is named by an item of a script")
        elif scripts and item not in items:
            section.source.fault(path, f"no script of {section.path[-1]} has an answer with an item {item}")
    return {name: item for name, item in given.items() if isinstance(item, str)}


def _wait(section: Section, default: Wait) -> Wait:
    least = section.number("least", default.least, 1, _MOST_SECONDS)
    most = section.number("most", default.most, 1, _MOST_SECONDS)
    by_default = section.number("default", min(max(default.default, least), most), 1, _MOST_SECONDS)
    if not least <= by_default <= most:
        section.fault("default", f"is from the least, {least}, to the most, {most}")
    section.done()
    return Wait(least, most, by_default)


# ---- how they are served


def _limits(section: Section) -> Limits:
    default = Limits()
    found = Limits(**{name: section.number(name, value, 1, _MOST) for name, value in vars(default).items()})
    section.done()
    return found


def _address(section: Section, default: Address) -> Address:
    host, port = section.take("host", str, default.host), section.number("port", default.port, 0, 65_535)
    section.done()
    return Address(host, port)


def _networks(outer: Section) -> tuple[Network, ...]:
    found = []
    for number, text in enumerate(outer.texts("trusted_proxies")):
        try:
            found.append(ipaddress.ip_network(text))
        except ValueError as error:
            outer.source.fault(("trusted_proxies", number), f"this is no address and no network: {error}")
    return tuple(found)


def _store(section: Section, path: Path) -> StorePlace:
    name = section.take("name", str, "entangle")
    if not _NAME.fullmatch(name):
        section.fault("name", "has small letters, digits and _, 40 at most")
    sqlite, postgres = section.find("sqlite", str), section.find("postgres", str)
    if sqlite is not None and postgres is not None:
        section.fault("postgres", "and sqlite are both named: a server has one store")
    if sqlite is not None and (not sqlite or "\0" in sqlite):
        section.fault("sqlite", "names no file")
    sets_aside = section.choice("unrestored", ("refuse", "set aside"), "refuse") == "set aside"
    forget_after = section.number("forget_after", 0, 0, 10 * _MOST_SECONDS)
    section.done()
    if postgres is not None:
        return StorePlace(name, None, postgres, sets_aside, forget_after)
    file = path.with_suffix(".sqlite") if sqlite is None else path.parent / sqlite
    return StorePlace(name, file, None, sets_aside, forget_after)
