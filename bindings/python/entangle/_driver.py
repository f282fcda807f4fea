"""Drivers: tables that stay, scripts that come one by one, and runs."""

from __future__ import annotations

import ctypes
import threading
from contextlib import suppress
from types import TracebackType
from typing import Any, Literal, NoReturn, Optional

from ._calls import keep_explanation
from ._errors import OutOfMemory, Refused
from ._library import LIBRARY, OUT_OF_MEMORY, REFUSED, Position, Text, Told
from ._library import buffered, checked_tx, checked_version, encoded, raise_for
from ._standing import Standing, standing_of
from ._values import Answer, Row, answers_in, table_in

_NO_SUCH, _NOT_DONE, _TOO_MANY_ROWS = 401, 405, 407

Step = Literal["start run", "begin", "pick", "break cycle", "end run"]
Reply = Literal[
    "started",
    "blocked",
    "held back",
    "posted",
    "prepared",
    "committed",
    "rolled back",
    "stepped",
    "failed",
    "nothing",
    "answered",
    "no choice",
    "broken",
    "no cycle",
    "ended",
    "absent",
    "not now",
    "busy",
]

# In the order of their numbers, from 1.
_STEPS: tuple[Step, ...] = ("start run", "begin", "pick", "break cycle", "end run")
_REPLIES: tuple[Reply, ...] = (
    "started",
    "blocked",
    "held back",
    "posted",
    "prepared",
    "committed",
    "rolled back",
    "stepped",
    "failed",
    "nothing",
    "answered",
    "no choice",
    "broken",
    "no cycle",
    "ended",
    "absent",
    "not now",
    "busy",
)


class Driver:
    """Tables, and the scripts that were submitted over them. Each run lets those that wait take part, 64 at most.

    It is freed by close(), by the end of a `with`, or with the object. Threads may share one: a lock inside gives it to
    one call at a time. It can be neither copied nor pickled.
    """

    def __init__(self, opening: Text) -> None:
        """Opens it over an input: its tables with their rows. Scripts that it has wait for a run.

        Raises Refused for the first fault of the input, and OutOfMemory.
        """
        self._lock = threading.RLock()
        self._handle = ctypes.c_void_p()
        told, given = Told(), encoded(opening, "an opening")
        status = LIBRARY.ent_c_open(self._place(), given, len(given), ctypes.byref(told))
        try:
            raise_for(status, told)
        except Refused as fault:
            keep_explanation(fault, given)
            raise

    def _place(self) -> Any:
        """Where the library finds the driver."""
        return ctypes.byref(self._handle)

    def submit(self, script: Text) -> int:
        """Submits the script of a text that has this script alone; the number of its transaction, from 1.

        Raises Refused for the script's first fault, with its place and its explanation in the lines of this text, or if
        10,000 scripts were submitted (E406); and OutOfMemory.
        """
        told, given, number = Told(), encoded(script, "a script"), ctypes.c_uint64()
        with self._lock:
            status = LIBRARY.ent_c_submit(
                self._place(), given, len(given), ctypes.byref(number), ctypes.byref(told)
            )
            try:
                raise_for(status, told)
            except Refused as fault:
                self._explain(fault, given)
                raise
        return number.value

    def explain(self, script: Text) -> Optional[str]:
        """What is said of the fault of a script, as explain() says it of an input, in the lines of this text.

        None if the script has no fault. Nothing is submitted. Raises OutOfMemory.
        """
        given = encoded(script, "a script")
        with self._lock:
            status, said, told = buffered(LIBRARY.ent_c_explain_script, self._place(), given, len(given))
        if status == REFUSED:
            return said
        raise_for(status, told)
        return None

    def _explain(self, fault: Refused, script: bytes) -> None:
        """Keeps what is said of a fault, if it is the script's own, and there is memory for it."""
        with suppress(OutOfMemory):
            said = self.explain(script) or ""
            if said.startswith(f"{fault}\n"):
                fault._explain(said)

    def run(self) -> None:
        """Makes one run, if anything waits for one. After OutOfMemory what was done stands."""
        with self._lock:
            status = LIBRARY.ent_c_run(self._place())
        raise_for(status, Told())

    def step(self, what: Step, tx: int = 0) -> Reply:
        """Makes one event, for a caller that orders those of a run itself, and tells the reply.

        It is one of "start run", "begin" (of a transaction), "pick", "break cycle" and "end run"; the job that it lends
        is carried out within it. The reply is in the words of crates/ent_play_scenarios/CALLING.md, without what
        stands behind them; "absent" (E401), "not now" (E402) and "busy" (E404) are refusals, which change nothing.
        Raises ValueError for another event, and OutOfMemory: what was done stands, and the step may be made again.
        """
        if not isinstance(what, str):
            raise TypeError(f"a step is a str, not {type(what).__name__}")
        if what not in _STEPS:
            raise ValueError(f"a step is one of {', '.join(_STEPS)}, not {what}")
        number, reply = checked_tx(tx), ctypes.c_uint32()
        with self._lock:
            status = LIBRARY.ent_c_make(self._place(), _STEPS.index(what) + 1, number, ctypes.byref(reply))
        raise_for(status, Told())
        return _REPLIES[reply.value - 1]

    def why(self, tx: int) -> str:
        """What keeps a transaction from moving now, in words that begin with where it stands; or its fate.

        Raises Refused (E401) if no script has this number, and OutOfMemory.
        """
        return self._of_transaction(LIBRARY.ent_c_why, tx).rstrip("\n")

    def standing(self, tx: int) -> Standing:
        """Where a transaction stands. Raises Refused (E401) if no script has this number."""
        number, position = checked_tx(tx), Position()
        with self._lock:
            status = LIBRARY.ent_c_standing(self._place(), number, ctypes.byref(position))
        raise_for(status, Told(code=_NO_SUCH))
        return standing_of(position)

    def answer_lines(self, tx: int) -> str:
        """The lines in which a report has a transaction's answers: of one that committed all, of a member of a run that
        is on those that it has, which it may still lose; else none.

        Raises Refused (E401) if no script has this number, and OutOfMemory.
        """
        return self._of_transaction(LIBRARY.ent_c_answers, tx)

    def answers(self, tx: int) -> list[Answer]:
        """What the statements of a transaction were answered, as answer_lines() has it."""
        return answers_in(self.answer_lines(tx))

    def table(self, name: Text) -> list[Row]:
        """The rows of a table, ascending. Raises Refused (E401) if no table has this name, and OutOfMemory."""
        given = encoded(name, "a table's name")
        with self._lock:
            status, lines, told = buffered(LIBRARY.ent_c_table, self._place(), given, len(given))
        raise_for(status, told)
        return table_in(lines)

    def finish(self) -> None:
        """Closes the book, if every transaction has its fate and no run is on; then report() and renew() are left.

        Raises Refused (E405) if a run is on or a transaction waits for one, and OutOfMemory; then it stays open.
        """
        with self._lock:
            status = LIBRARY.ent_c_close(self._place())
        raise_for(status, Told(code=_NOT_DONE))

    def renew(self) -> None:
        """Opens a driver whose book is closed again: over the same tables, with the rows that they ended with.

        No script is submitted to it, and numbers begin at 1 again; so a service goes on when 10,000 scripts were
        submitted. Raises Refused (E407) if more than 65,536 rows stand in the tables together, and OutOfMemory; then
        the book stays closed. Raises StateError if it isn't.
        """
        with self._lock:
            status = LIBRARY.ent_c_renew(self._place())
        raise_for(status, Told(code=_TOO_MANY_ROWS))

    def report(self, version: int = 1) -> str:
        """The report of a driver whose book is closed, of this version. Raises StateError if it isn't."""
        number = checked_version(version)
        with self._lock:
            status, text, told = buffered(LIBRARY.ent_c_closed_report, self._place(), number)
        raise_for(status, told)
        return text

    def _of_transaction(self, call: Any, tx: int) -> str:
        """The text that a call gives of a transaction."""
        number = checked_tx(tx)
        with self._lock:
            status, text, told = buffered(call, self._place(), number)
        raise_for(status, told)
        return text

    def close(self) -> None:
        """Frees the driver, whatever its state. Each later call raises StateError."""
        with self._lock:
            LIBRARY.ent_c_free(self._place())

    def __enter__(self) -> Driver:
        return self

    def __exit__(
        self,
        kind: Optional[type[BaseException]],
        error: Optional[BaseException],
        trace: Optional[TracebackType],
    ) -> None:
        self.close()

    def __del__(self) -> None:
        if getattr(self, "_handle", None):
            self.close()

    def __copy__(self) -> NoReturn:
        raise TypeError("a driver can't be copied")

    def __deepcopy__(self, memo: object) -> NoReturn:
        raise TypeError("a driver can't be copied")

    def __reduce_ex__(self, protocol: object) -> NoReturn:
        raise TypeError("a driver can't be pickled")
