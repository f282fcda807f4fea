"""Why calls give nothing. Every error of this package is an Error."""

from __future__ import annotations

import sys
from typing import Optional


class Error(Exception):
    """The base of all errors of this package."""


class Fault(Error):
    """Why there is no report, no verdict or no transaction. As text it is the line of the program, as `E302 at 107`.

    `code` is the fault's number, `offset` its place in bytes of UTF-8 from the text's start, `line` and `column` count
    from 1, the column in characters. The last three are None if it has no place. `explanation` is what
    `entangle run --explain` says of a fault of an input or of a script: several lines, the first of which is the line
    of the program; it is empty for other faults.
    """

    explanation: str = ""

    def __init__(
        self, code: int, offset: Optional[int] = None, line: Optional[int] = None, column: Optional[int] = None
    ) -> None:
        super().__init__(code, offset, line, column)
        self.code = code
        self.offset = offset
        self.line = line
        self.column = column

    def __str__(self) -> str:
        return f"E{self.code}" if self.offset is None else f"E{self.code} at {self.offset}"

    def _explain(self, explanation: str) -> None:
        """Keeps what is said of the fault; a traceback shows the lines below the first, from Python 3.11 on."""
        self.explanation = explanation
        _, _, note = explanation.rstrip("\n").partition("\n")
        if sys.version_info >= (3, 11):
            if note:
                self.add_note(note)


class Refused(Fault):
    """The input, a script or a call is refused for its first fault."""


class OutOfMemory(Fault, MemoryError):
    """Memory ran out (E900). Nothing is lost, and the call can be made again."""

    def __init__(
        self, code: int = 900, offset: Optional[int] = None, line: Optional[int] = None, column: Optional[int] = None
    ) -> None:
        super().__init__(code, offset, line, column)


class StateError(Error):
    """The driver is closed or freed; or, for a report or a renewal, it isn't closed."""


class LibraryError(Error, ImportError):
    """The shared object isn't there, or isn't the one of this package. It is raised by `import entangle`."""


# A public name stands where it is imported from, in tracebacks and in pickles too.
for _error in (Error, Fault, Refused, OutOfMemory, StateError, LibraryError):
    _error.__module__ = "entangle"
