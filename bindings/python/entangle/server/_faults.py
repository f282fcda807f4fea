"""What is wrong with a file that a server is told."""

from __future__ import annotations

from dataclasses import dataclass
from pathlib import Path

from .._errors import Error


@dataclass(frozen=True, order=True)
class FileFault:
    """Something that is wrong at a line of a file. As text it is one line, and below it the explanation, if it has
    one."""

    file: Path
    line: int
    sentence: str
    explanation: str = ""

    def __str__(self) -> str:
        return f"{self.file}:{self.line}: {self.sentence}" + (f"\n{self.explanation}" if self.explanation else "")


class FileRefused(Error):
    """A file can't be served. `faults` has all that is wrong with it, in order of files and lines."""

    def __init__(self, faults: tuple[FileFault, ...]) -> None:
        super().__init__(faults)
        self.faults = faults

    def __str__(self) -> str:
        return "\n".join(map(str, self.faults))
