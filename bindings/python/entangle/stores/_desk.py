"""A desk: it serves a room from an inbox."""

from __future__ import annotations

import logging
import threading
import time
from itertools import count
from typing import Callable, Mapping, Optional, Sequence, Union

from .._errors import Error, OutOfMemory, Refused
from .._refusals import BatchIsOn, NotBound
from .._room import Patience
from .._tickets import Ticket
from ._asked import InboxRequest, Row
from ._durable import DurableRoom
from ._errors import KeyUsedOtherwise, RefusedByStore, StoreFailed, StoreTaken
from ._inbox import PostgresInbox
from ._postgres import PostgresStore
from ._requests import Request
from ._turns import Turn

# What a request is in the room: the first has its key, the others `key.1`, `key.2` and so on.
Unfolds = Callable[[InboxRequest], Sequence[Request]]
Scripts = Mapping[str, Union[str, Unfolds]]

_LEAST_PAUSE, _MOST_PAUSE, _SECONDS = 0.05, 1.0, 1.0
_log = logging.getLogger("entangle")


def key_of_part(key: str, number: int) -> str:
    """The key of the script of this number of a request."""
    return key if number == 0 else f"{key}.{number}"


class Desk:
    """Puts into a room what stands in an inbox, by key, and withdraws; makes steps, and says who may be told.

        with PostgresTurn(dsn, "travel") as turn:
            store, inbox = PostgresStore(dsn, name="travel"), PostgresInbox(dsn, name="travel")
            with DurableRoom(TABLES, store) as room:
                Desk(room, store, inbox, {"trip": TRIP}, turn=turn).serve()

    `scripts` says what each name is that may stand in the inbox: the text of a script, which waits until it is
    withdrawn; or a function that gives what is put, all or nothing. So no script comes from those who ask.

    A row stays in the inbox until the store has its request. If a desk is lost before the row is taken out, or that
    isn't durable yet, the next desk puts it again, by its key, and that gets the ticket of then.
    """

    def __init__(
        self,
        room: DurableRoom,
        store: PostgresStore,
        inbox: PostgresInbox,
        scripts: Scripts,
        *,
        turn: Optional[Turn] = None,
        most: int = 500,
        most_waiting: int = 100_000,
    ) -> None:
        """`store` is that of the room. It takes `most` rows at once; where `most_waiting` scripts wait, rows stay in
        the inbox. With a `turn`, which has been taken, it serves as long as that is kept."""
        self._room, self._store, self._inbox, self._scripts, self._turn = room, store, inbox, scripts, turn
        self._most, self._most_waiting = most, most_waiting
        self._heard, self._stops = threading.Event(), threading.Event()
        # rows whose requests the store has, and which are still to be taken out
        self._taken: set[int] = set()
        self._may_be_more = True

    # ---- its own loop

    def serve(self) -> str:
        """Serves until it is stopped, or another process has the turn or the store; why it ended. Raises RefusedByStore
        if a group breaks a constraint of the database: call set_aside() of the room, and serve again."""
        ear, pause, next_second, is_made = self._inbox.asks(lambda _: self._heard.set()), _LEAST_PAUSE, 0.0, False
        try:
            while not self._stops.is_set():
                try:
                    if not is_made:
                        self._inbox.make()
                        is_made = True
                    if time.monotonic() >= next_second:
                        if self._turn is not None and not self._turn.keep():
                            return "another process has the turn"
                        self.each_second()
                        next_second = time.monotonic() + _SECONDS
                    self._heard.clear()
                    took, stepped = self.take(), self._room.step()
                    is_idle = not took and stepped == "idle"
                    self.tell(None if is_idle else ())
                    if is_idle:
                        self._heard.wait(max(0.0, next_second - time.monotonic()))
                    pause = _LEAST_PAUSE
                except RefusedByStore:
                    raise
                except (StoreFailed, OutOfMemory) as error:  # the same is done again
                    _log.warning("the desk waits: %s", error)
                    self._stops.wait(pause)
                    pause = min(2 * pause, _MOST_PAUSE)
        except StoreTaken as error:
            return str(error)
        finally:
            ear.close()
        return "stopped"

    def stop(self) -> None:
        """Has serve() end; any thread may call it."""
        self._stops.set()
        self._heard.set()

    # ---- its parts, for a loop of one's own

    def each_second(self) -> None:
        """Withdraws those whose time is over, checks that this process has the store, and counts what waits."""
        self._room.check()
        self._room.expire()
        self._inbox.count(self._room.waiting_count())

    def take(self) -> int:
        """Puts what stands in the inbox, and withdraws; of how many rows. Raises StoreFailed, StoreTaken and BatchIsOn;
        then it is done again by the next call."""
        most = min(self._most, self._most_waiting - self._room.waiting_count())
        found = self._inbox.take(most) if most > 0 else []
        if most < self._most:  # there is little room: who wants to leave it needn't wait for those before
            found += self._inbox.take(self._most, True)
        rows = [row for row in {row.number: row for row in found}.values() if row.number not in self._taken]
        left = self._put([row for row in rows if row.request is not None])
        self._withdraw([row for row in rows if row.request is None and row.key not in left])
        return len(rows) - len(left)

    def tell(self, keys: Optional[Sequence[str]]) -> None:
        """Takes out the rows that the store has, and says whose requests may stand otherwise since: with no keys, any
        may; with None nobody's does. Call it behind a step. Raises StoreFailed and StoreTaken."""
        if self._taken or keys is not None:
            self._inbox.done(sorted(self._taken), keys, *self._store.version())
            self._taken.clear()

    def _put(self, rows: Sequence[Row]) -> set[str]:
        """Puts requests; the keys of those that can't be put now."""
        units, faults, left = list[tuple[Row, Sequence[Request]]](), dict[int, str](), set[str]()
        for row in rows:
            assert row.request is not None, "something is to be put"
            try:
                units.append((row, self._unfolded(row.request)))
            except (KeyError, TypeError, ValueError) as error:
                faults[row.number] = f"{type(error).__name__}: {error}"
        put = self._room.put_each([unit for _, unit in units]) if units else []
        for (row, _), told in zip(units, put):
            if isinstance(told, (Refused, NotBound)):
                faults[row.number] = str(told)
            elif isinstance(told, Error) and not isinstance(told, KeyUsedOtherwise):
                left.add(row.key)  # the room is full, or memory is
            else:
                # where the key was used for something else it is the first request that stands
                self._taken.add(row.number)
        if faults:
            self._room.check()  # it writes what is still to be written
            self._inbox.reject(faults, *self._store.version())
        return left

    def _unfolded(self, request: InboxRequest) -> Sequence[Request]:
        """What is put for a request. Raises KeyError, TypeError or ValueError for one that can't be."""
        script = self._scripts.get(request.script)
        if script is None:
            raise ValueError(f"no script has the name {request.script}")
        for name, value in request.values.items():
            if isinstance(value, bool) or not isinstance(value, (int, str)):
                raise TypeError(f"the value {name} is no whole number and no text")
        if isinstance(script, str):
            return [Request(script, request.values, Patience.UNTIL_WITHDRAWN, request.key, request.until)]
        return script(request)

    def _withdraw(self, rows: Sequence[Row]) -> None:
        tickets: list[Ticket] = []
        for row in rows:
            for number in count():
                found = self._room.waiting_with((key_of_part(row.key, number),))
                if number and not found:
                    break
                tickets += found.values()
        try:
            if tickets:
                self._room.withdraw_all(tickets)
            self._taken.update(row.number for row in rows)
        except BatchIsOn:  # memory ran out: a step goes on with it
            return
