"""The tables of a TOML file, whose keys are taken one by one."""

from __future__ import annotations

import difflib
import importlib
import json
import re
from pathlib import Path
from typing import Any, Iterator, Mapping, Optional, TypeVar

from ._faults import FileFault, FileRefused
from ._lines import KeyPath, Lines

Kind = TypeVar("Kind")

_KINDS = {str: "a text", int: "a whole number", bool: "true or false", list: "a list", dict: "a table"}
_MOST_BYTES = 16_777_216


class Source:
    """A file, and what is found to be wrong with it and with those that it names."""

    def __init__(self, path: Path, lines: Lines) -> None:
        self.path, self.lines = path, lines
        self.faults: list[FileFault] = []

    def fault(self, path: KeyPath, sentence: str) -> None:
        """Notes that something is wrong at a key."""
        self.faults.append(FileFault(self.path, self.lines.of(path), sentence))


class Section:
    """A table of a file. Keys that nobody takes until done() are faults, and so are values of other kinds."""

    def __init__(self, source: Source, path: KeyPath, values: Mapping[str, Any]) -> None:
        self.source, self.path = source, path
        self._values = dict(values)
        self._known: set[str] = set()

    def name(self, key: str) -> str:
        """A key as people read it: with those around it."""
        return ".".join(str(part) for part in (*self.path, key))

    def fault(self, key: str, sentence: str) -> None:
        """Notes that something is wrong with a key, whose name stands in front of the sentence."""
        self.source.fault((*self.path, key), f"{self.name(key)} {sentence}")

    def take(self, key: str, kind: type[Kind], default: Kind) -> Kind:
        """The value of a key, or else this one."""
        found = self.find(key, kind)
        return default if found is None else found

    def find(self, key: str, kind: type[Kind]) -> Optional[Kind]:
        """The value of a key, if it is there and of this kind."""
        self._known.add(key)
        if key not in self._values:
            return None
        value = self._values.pop(key)
        if type(value) is not kind:
            self.fault(key, f"is {_KINDS[kind]}, not {json.dumps(value, default=str):.60}")
            return None
        found: Kind = value
        return found

    def need(self, key: str, kind: type[Kind]) -> Optional[Kind]:
        """The value of a key that has to be there."""
        if key not in self._values:
            self._known.add(key)
            self.source.fault(self.path, f"{self.name(key)} is missing")
            return None
        return self.find(key, kind)

    def has(self, key: str) -> bool:
        return key in self._values

    def kind_of(self, key: str) -> type:
        """The kind of a value that is there and wasn't taken."""
        return type(self._values[key])

    def number(self, key: str, default: int, least: int, most: int) -> int:
        """A number within bounds."""
        value = self.take(key, int, default)
        if not least <= value <= most:
            self.fault(key, f"is a number from {least:,} to {most:,}, not {value:,}")
            return default
        return value

    def choice(self, key: str, choices: tuple[str, ...], default: str) -> str:
        """One of some words."""
        value = self.take(key, str, default)
        if value not in choices:
            self.fault(key, f"is {' or '.join(json.dumps(one) for one in choices)}, not {json.dumps(value)}")
            return default
        return value

    def texts(self, key: str) -> list[str]:
        """A list of texts, which may be left out."""
        values = self.take(key, list, [])
        for number, value in enumerate(values):
            if not isinstance(value, str):
                self.source.fault((*self.path, key, number), f"{self.name(key)} has texts, not {json.dumps(value)}")
        return [value for value in values if isinstance(value, str)]

    def section(self, key: str) -> Section:
        """A table inside, which may be left out."""
        return Section(self.source, (*self.path, key), self.take(key, dict, {}))

    def sections(self, key: str) -> Iterator[tuple[str, Section]]:
        """The tables inside a table, by their names."""
        outer = self.section(key)
        for name in list(outer._values):
            inner = outer.find(name, dict)
            if inner is not None:
                yield name, Section(self.source, (*outer.path, name), inner)

    def done(self) -> None:
        """Notes each key that nobody took."""
        for key in self._values:
            near = difflib.get_close_matches(key, self._known, 1)
            hint = f": did you mean {near[0]}?" if near else f": there are {', '.join(sorted(self._known))}"
            self.source.fault((*self.path, key), f"{self.name(key)} means nothing{hint}")


def read_toml(path: Path) -> Section:
    """The outermost table of a file. Raises FileRefused if it can't be read at all."""
    try:
        tomllib: Any = importlib.import_module("tomllib")
    except ImportError:
        raise FileRefused((FileFault(path, 1, "a file of a server needs Python 3.11 or later"),)) from None
    try:
        with open(path, "rb") as file:
            given = file.read(_MOST_BYTES + 1)
        if len(given) > _MOST_BYTES:
            raise FileRefused((FileFault(path, 1, f"the file has more than {_MOST_BYTES:,} bytes"),))
        text = given.decode().replace("\r\n", "\n")
        values = tomllib.loads(text)
        return Section(Source(path, Lines(text)), (), values)
    except OSError as error:
        raise FileRefused((FileFault(path, 1, f"the file can't be read: {error.strerror}"),)) from None
    except UnicodeDecodeError as error:
        line = given[: error.start].count(b"\n") + 1
        raise FileRefused((FileFault(path, line, "the file isn't UTF-8"),)) from None
    except RecursionError:
        raise FileRefused((FileFault(path, 1, "the file is nested too deeply"),)) from None
    except tomllib.TOMLDecodeError as error:
        found = re.search(r" \(at (?:line (\d+), column \d+|end of document)\)$", str(error))
        line = int(found.group(1)) if found and found.group(1) else text.count("\n") + 1
        sentence = str(error)[: found.start()] if found else str(error)
        raise FileRefused((FileFault(path, line, f"this isn't TOML: {sentence}"),)) from None
