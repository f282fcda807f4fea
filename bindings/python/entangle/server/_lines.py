"""Where the keys of a TOML text stand, which tomllib doesn't tell."""

from __future__ import annotations

import importlib
import re
from typing import Any, Union

# Names of keys, and numbers of elements, from the outside in.
KeyPath = tuple[Union[str, int], ...]

_BARE_KEY = re.compile(r"[A-Za-z0-9_-]+")
_BLANK = re.compile(r"[ \t]*")
_BLANK_LINES = re.compile(r"(?:[ \t\r\n]|#[^\n]*)*")
_BARE_VALUE = re.compile(r"[^,\]}\n#]*")


class Lines:
    """The line of each key and element of a text that tomllib has read, from 1."""

    def __init__(self, text: str) -> None:
        self._lines: dict[KeyPath, int] = {(): 1}
        self._texts: dict[KeyPath, int] = {}
        _Scanner(text, self._lines, self._texts).scan()

    def of(self, path: KeyPath) -> int:
        """The line of a key; if it isn't there that of the innermost table around it."""
        while path not in self._lines:
            path = path[:-1]
        return self._lines[path]

    def of_text(self, path: KeyPath) -> int:
        """The line on which the value of a key begins, if that is a text: the first line of its content."""
        return self._texts.get(path, self.of(path))


class _Scanner:
    """Reads a text once, and notes where things stand."""

    def __init__(self, text: str, lines: dict[KeyPath, int], texts: dict[KeyPath, int]) -> None:
        self.text, self.lines, self.texts = text, lines, texts
        self.place = 0
        # how many elements each array of tables has so far
        self.counts: dict[KeyPath, int] = {}

    def scan(self) -> None:
        prefix: KeyPath = ()
        while self.skip(_BLANK_LINES):
            if self.text[self.place] == "[":
                prefix = self.header()
            else:
                self.pair(prefix)

    def skip(self, what: re.Pattern[str]) -> bool:
        """Goes on behind what matches; whether there is more."""
        found = what.match(self.text, self.place)
        self.place = found.end() if found else self.place
        return self.place < len(self.text)

    def line(self) -> int:
        return self.text.count("\n", 0, self.place) + 1

    def note(self, path: KeyPath) -> None:
        self.lines.setdefault(path, self.line())

    def header(self) -> KeyPath:
        """The path of a table, or of an element of an array of tables."""
        is_array = self.text.startswith("[[", self.place)
        begin = self.line()
        self.place += 2 if is_array else 1
        *outer, last = self.keys()
        path: KeyPath = ()
        for key in outer:
            path = self.inner(path + (key,))
            self.lines.setdefault(path, begin)
        path += (last,)
        if is_array:
            count = self.counts.get(path, 0)
            self.counts[path] = count + 1
            self.lines.setdefault(path, begin)
            path += (count,)
        self.lines[path] = begin
        self.place += 2 if is_array else 1
        return path

    def inner(self, path: KeyPath) -> KeyPath:
        """The last element of an array of tables, or the table itself."""
        return path + (self.counts[path] - 1,) if path in self.counts else path

    def keys(self) -> list[str]:
        """Keys with dots between."""
        keys = []
        while True:
            self.skip(_BLANK)
            if self.text[self.place] in "\"'":
                start = self.place
                self.quoted()
                keys.append(_unquoted(self.text[start : self.place]))
            else:
                found = _BARE_KEY.match(self.text, self.place)
                assert found, "tomllib has read the text"
                keys.append(found.group())
                self.place = found.end()
            self.skip(_BLANK)
            if self.text[self.place] != ".":
                return keys
            self.place += 1

    def pair(self, prefix: KeyPath) -> None:
        """A key, with what it stands for."""
        begin, path = self.line(), prefix
        for key in self.keys():
            path += (key,)
            self.lines.setdefault(path, begin)
        self.place += 1  # the sign =
        self.skip(_BLANK)
        self.value(path)

    def value(self, path: KeyPath) -> None:
        first = self.text[self.place]
        if first in "\"'":
            self.texts[path] = self.quoted()
        elif first == "[":
            self.elements(path)
        elif first == "{":
            self.inline(path)
        else:
            self.skip(_BARE_VALUE)

    def elements(self, path: KeyPath) -> None:
        self.place += 1
        count = 0
        while self.skip(_BLANK_LINES) and self.text[self.place] != "]":
            if self.text[self.place] == ",":
                self.place += 1
                continue
            self.note(path + (count,))
            self.value(path + (count,))
            count += 1
        self.place += 1

    def inline(self, path: KeyPath) -> None:
        self.place += 1
        while self.skip(_BLANK_LINES) and self.text[self.place] != "}":
            if self.text[self.place] == ",":
                self.place += 1
            else:
                self.pair(path)
        self.place += 1

    def quoted(self) -> int:
        """Goes on behind a text; the line on which its content begins."""
        mark = self.text[self.place]
        is_long = self.text.startswith(mark * 3, self.place)
        width = 3 if is_long else 1
        self.place += width
        begin = self.line() + (1 if is_long and self.text[self.place : self.place + 2].lstrip("\r")[:1] == "\n" else 0)
        while not self.text.startswith(mark * width, self.place):
            self.place += 2 if mark == '"' and self.text[self.place] == "\\" else 1
        self.place += width
        while is_long and self.text.startswith(mark, self.place):  # up to two more quotes belong to the text
            self.place += 1
        return begin


def _unquoted(key: str) -> str:
    """A key that is written in quotes."""
    tomllib: Any = importlib.import_module("tomllib")
    (found,) = tomllib.loads(f"{key} = 0")
    return str(found)
