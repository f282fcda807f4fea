"""Rooms: scripts wait until those whom they need are there."""

from __future__ import annotations

import ctypes
import enum
import operator
import threading
from contextlib import suppress
from dataclasses import dataclass
from types import TracebackType
from typing import TYPE_CHECKING, Any, Iterable, Literal, NoReturn, Optional, Union

from ._calls import keep_explanation
from ._errors import OutOfMemory, Refused, StateError
from ._given import BoundValues, Rows, Values, given_rows
from ._groups import Group, groups_in
from ._library import DONE, LIBRARY, MISUSED, REFUSED, Limits, SubmissionSeen, Text, TicketPosition, Told
from ._library import buffered, checked_version, encoded, fault_of
from ._refusals import BINDING_FAULTS, FAULTY, NOT_A_ROW, NotBound, UnknownTicket, refusal_of
from ._tickets import WAITS, Ending, Submission, Ticket, TicketState, TicketUnknown, checked_ticket, ending_of
from ._tickets import state_of
from ._values import Row, table_in
from ._waits import Broken, News, Tell, Waits, ending

if TYPE_CHECKING:
    import asyncio

_MOST_BATCHES = 1_000
_NO_SUCH = 401
_CLOSED = Broken(StateError, "the room is closed")
_NOT_KEPT = Broken(UnknownTicket, "the ticket was never given out, or how it ended isn't kept any more")

# What a step did.
Stepped = Literal["idle", "searched", "ran"]

# In the order of their numbers, from 1.
_STEPPED: tuple[Stepped, ...] = ("idle", "searched", "ran")


class Patience(enum.Enum):
    """For how long a script waits, if it isn't for a number of batches."""

    AS_WRITTEN = -1
    """For as many batches as its WITHIN says: 8 if it has none."""
    UNTIL_WITHDRAWN = 0
    """Until it is withdrawn."""


@dataclass(frozen=True)
class EpochReport:
    """The report of an epoch, and the epoch's number."""

    epoch: int
    text: str


def _stay(patience: Union[int, Patience]) -> int:
    """A patience as C has it."""
    if isinstance(patience, Patience):
        return patience.value
    if isinstance(patience, bool):
        raise TypeError("a patience is a number of batches or a Patience, not bool")
    batches = operator.index(patience)
    if not 1 <= batches <= _MOST_BATCHES:
        raise ValueError(f"a script waits for 1 to {_MOST_BATCHES:,} batches, not for {batches}")
    return batches


def _checked_number(number: int, what: str) -> int:
    """A number as C has it."""
    checked = operator.index(number)
    if not 0 <= checked < 2**64:
        raise ValueError(f"{what} is from 0 to {2**64 - 1}, not {checked}")
    return checked


def _raise_for(status: int, told: Told, refusal: int = 0) -> None:
    """Raises what the status of a call of a room says, whose room isn't closed."""
    if status == REFUSED and told.code == 0:
        raise refusal_of(refusal)
    if status != DONE:
        raise fault_of(status, told)


def _checked_drained(names: tuple[str, ...]) -> bytes:
    """Names of tables behind one another, with spaces between; one with a space, or of no length, is no table's."""
    for name in names:
        if not isinstance(name, str):
            raise TypeError(f"a table's name is a str, not {type(name).__name__}")
        if not name or " " in name:
            raise Refused(_NO_SUCH)
    return encoded(" ".join(names), "names")


class Room:
    """Tables, and scripts that wait. A script comes into a run only together with those whom it needs.

    It is freed by close(), by the end of a `with`, or with the object. Threads may share one: a lock inside gives it to
    one call at a time. So one thread makes steps, and others put scripts and wait for their ends, by wait(), or, in an
    event loop, by `await room.fate(ticket)`. Each end is told by the call that brings it; nothing polls. A room can be
    neither copied nor pickled.

    groups() tells what the steps did. It stays in memory until settled_through() says that it stands elsewhere, also if
    nobody asks for it.
    """

    def __init__(
        self,
        opening: Text,
        rows: Optional[Rows] = None,
        *,
        epoch: int = 1,
        next_ticket: Ticket = Ticket(1),
        next_group: int = 1,
        most_waiters: int = 100_000,
        most_ended: int = 1_024,
    ) -> None:
        """Opens it over an input: its tables with their rows. Scripts that it has are put in order, to wait for as long
        as they say. `rows` has further rows of its tables, by their names, as table() gives them.

        The first epoch has the number `epoch`, the first script that is put has the ticket `next_ticket`, and the first
        group the number `next_group`: those below them are of an earlier process. So many scripts may wait at once, and
        of the last `most_ended` that ended it is kept how. A step ends 128 at most: with fewer than these, a wait may
        be told that how its ticket ended isn't kept.

        Raises NotARow for the first of `rows` that can't be one of any table; else Refused for the first fault of the
        input, with its explanation, or for more than 65,536 rows together (E407); else NotARow for the first of `rows`
        that doesn't fit its table; else RoomFull if the input has more scripts than may wait. Raises OutOfMemory.
        """
        self._lock = threading.RLock()
        self._waits = Waits()
        self._handle = ctypes.c_void_p()
        self._most_ended = _checked_number(most_ended, "most_ended")
        self._last_ended: Optional[int] = None
        limits = Limits(_checked_number(most_waiters, "most_waiters"), self._most_ended)
        given, first_epoch = encoded(opening, "an opening"), _checked_number(epoch, "epoch")
        first_ticket, first_group = checked_ticket(next_ticket), _checked_number(next_group, "next_group")
        told, refusal = Told(), ctypes.c_uint32()
        with given_rows({} if rows is None else rows) as more:
            status = LIBRARY.ent_c_room_open(
                ctypes.byref(self._handle),
                given,
                len(given),
                more.place,
                first_epoch,
                first_ticket,
                first_group,
                ctypes.byref(limits),
                ctypes.byref(refusal),
                ctypes.byref(told),
            )
        if refusal.value == NOT_A_ROW:
            raise more.refused(told)
        try:
            _raise_for(status, told, refusal.value)
        except Refused as fault:
            if refusal.value == FAULTY:
                keep_explanation(fault, given)
            raise

    def _place(self) -> Any:
        """Where the library finds the room. Raises StateError if it is closed."""
        if not self._handle:
            raise StateError(_CLOSED.sentence)
        return ctypes.byref(self._handle)

    def put(
        self,
        script: Text,
        values: Optional[Values] = None,
        patience: Union[int, Patience] = Patience.AS_WRITTEN,
    ) -> Ticket:
        """Puts the script of a text that has this script alone, and gives its ticket. It waits from then on: for as
        many batches as it says, or as `patience` says, from 1 to 1,000, or until it is withdrawn. A script that meets
        nobody is in no batch.

        `values` binds values to its host variables, which are named without the @. A bound value is a value wherever it
        stands: nothing has to be quoted.

        Raises NotBound for a value that can't be bound; Refused for the script's first fault, with its place and its
        explanation in the lines of this text; RoomFull if as many wait as there may be; and OutOfMemory. Then nothing
        has changed.
        """
        given, stay = encoded(script, "a script"), _stay(patience)
        values = {} if values is None else values
        ticket, refusal, told = ctypes.c_uint64(), ctypes.c_uint32(), Told()
        with BoundValues(values) as place, self._lock:
            status = LIBRARY.ent_c_room_put(
                self._place(),
                given,
                len(given),
                place,
                stay,
                ctypes.byref(ticket),
                ctypes.byref(refusal),
                ctypes.byref(told),
            )
            self._raise_for_script(status, refusal.value, told, given, values, place)
        return Ticket(ticket.value)

    def restore(
        self,
        ticket: Ticket,
        script: Text,
        values: Optional[Values] = None,
        patience: Union[int, Patience] = Patience.AS_WRITTEN,
        batches: int = 0,
    ) -> None:
        """Puts a script again that waited in an earlier process: under its ticket, and after so many batches that
        count. They come in the order of their tickets, which are less than the room's `next_ticket`.

        Raises what put() raises, and TicketUsed if the ticket can't come in again.
        """
        given, stay = encoded(script, "a script"), _stay(patience)
        values = {} if values is None else values
        number, after = checked_ticket(ticket), _checked_number(batches, "batches")
        refusal, told = ctypes.c_uint32(), Told()
        with BoundValues(values) as place, self._lock:
            status = LIBRARY.ent_c_room_restore(
                self._place(),
                number,
                given,
                len(given),
                place,
                stay,
                after,
                ctypes.byref(refusal),
                ctypes.byref(told),
            )
            self._raise_for_script(status, refusal.value, told, given, values, place)

    def _raise_for_script(
        self, status: int, refusal: int, told: Told, script: bytes, values: Values, place: Any
    ) -> None:
        """Raises what the status of a call says that takes a script with values, which the library has in a place."""
        if status == MISUSED:
            raise ValueError("a script doesn't wait for so many batches")
        if refusal in BINDING_FAULTS:
            raise NotBound(list(values)[told.offset], BINDING_FAULTS[refusal])
        try:
            _raise_for(status, told, refusal)
        except Refused as fault:
            with suppress(OutOfMemory):
                fault._explain(self._said(script, place) or "")
            raise

    def explain(self, script: Text, values: Optional[Values] = None) -> Optional[str]:
        """What is said of the fault of a script with these values, as explain() says it of an input, in the lines of
        this text. None if put() would refuse neither the script nor its values. Nothing is put.

        Raises NotBound for a value that no host variable can have, or a name that none can have; and OutOfMemory.
        """
        given = encoded(script, "a script")
        with BoundValues({} if values is None else values) as place, self._lock:
            return self._said(given, place)

    def _said(self, script: bytes, place: Any) -> Optional[str]:
        """What is said of the fault of a script with the values that the library has in a place."""
        status, said, told = buffered(LIBRARY.ent_c_room_explain, self._place(), script, len(script), place)
        if status == REFUSED:
            return said
        _raise_for(status, told)
        return None

    def withdraw(self, ticket: Ticket) -> None:
        """A script waits no more, and will never commit.

        Raises NobodyWaits if nobody waits under this ticket; BatchIsOn if it is in a batch that isn't over, since
        memory ran out; and OutOfMemory.
        """
        number, refusal = checked_ticket(ticket), ctypes.c_uint32()
        with self._lock:
            status = LIBRARY.ent_c_room_withdraw(self._place(), number, ctypes.byref(refusal))
            self._tell_ended()
        _raise_for(status, Told(), refusal.value)

    def step(self) -> Stepped:
        """Makes runs, each of a script that needs nobody or of scripts that may meet, as many as a step's work allows.

        It answers "ran" if it made one; "searched" if it made none and there is more to look at; and "idle" if there is
        nothing to do until a script is put or restored. So make steps until one is "idle".

        Raises Refused (E407) if the epoch would have to end, and its tables have more than 65,536 rows together, or
        NoMoreNumbers if its number is the greatest: then nothing has changed. It raises NoMoreNumbers too if there is
        none for a further group: what was done stands then, and isn't told. After OutOfMemory what was done stands, and
        the next step goes on.
        """
        step, refusal = ctypes.c_uint32(), ctypes.c_uint32()
        with self._lock:
            status = LIBRARY.ent_c_room_step(self._place(), ctypes.byref(step), ctypes.byref(refusal))
            self._tell_ended()
        _raise_for(status, Told(), refusal.value)
        return _STEPPED[step.value - 1]

    def further(self) -> None:
        """Has those go on who are cut (TicketCut): each may try as many meetings again, in the next steps. Without it
        they go on once something changes for them. Raises OutOfMemory: then some of them go on."""
        refusal = ctypes.c_uint32()
        with self._lock:
            status = LIBRARY.ent_c_room_further(self._place(), ctypes.byref(refusal))
        _raise_for(status, Told(), refusal.value)

    def state(self, ticket: Ticket) -> TicketState:
        """How a ticket stands."""
        number, position = checked_ticket(ticket), TicketPosition()
        with self._lock:
            LIBRARY.ent_c_room_state(self._place(), number, ctypes.byref(position))
        return state_of(position)

    def why(self, ticket: Ticket) -> str:
        """How a ticket stands, in words. Raises OutOfMemory."""
        number = checked_ticket(ticket)
        with self._lock:
            status, line, told = buffered(LIBRARY.ent_c_room_why, self._place(), number)
        _raise_for(status, told)
        return line.rstrip("\n")

    def waiting(self, first: Ticket = Ticket(0)) -> list[Ticket]:
        """The tickets from this one on under which somebody waits, ascending."""
        start, found = checked_ticket(first), ctypes.c_uint64()
        tickets: list[Ticket] = []
        with self._lock:
            place = self._place()
            while start < 2**64 and LIBRARY.ent_c_room_waiting(place, start, ctypes.byref(found)) == DONE:
                tickets.append(Ticket(found.value))
                start = found.value + 1
        return tickets

    def ended(self) -> list[Ticket]:
        """The tickets that ended and of which it is kept how, the last first."""
        found = ctypes.c_uint64()
        tickets: list[Ticket] = []
        with self._lock:
            place = self._place()
            while LIBRARY.ent_c_room_ended(place, len(tickets), ctypes.byref(found)) == DONE:
                tickets.append(Ticket(found.value))
        return tickets

    def batches(self, tickets: Iterable[Ticket]) -> list[Optional[int]]:
        """In how many batches each of these tickets was that count against its patience; None of those whose state
        isn't TicketWaits. It costs a fraction of as many calls of state()."""
        position, batches = TicketPosition(), []
        into, state = ctypes.byref(position), LIBRARY.ent_c_room_state
        with self._lock:
            place = self._place()
            for ticket in tickets:
                state(place, ticket.number, into)
                batches.append(position.batches if position.kind == WAITS else None)
        return batches

    def submissions(self, ticket: Ticket) -> list[Submission]:
        """The transactions that the script of a ticket was, in order: each is in the report of its epoch."""
        number, seen = checked_ticket(ticket), SubmissionSeen()
        submissions: list[Submission] = []
        with self._lock:
            place = self._place()
            while LIBRARY.ent_c_room_submission(place, number, len(submissions), ctypes.byref(seen)) == DONE:
                submissions.append(Submission(seen.epoch, seen.tx))
        return submissions

    def table(self, name: Text) -> list[Row]:
        """The rows of a table, ascending. Raises Refused (E401) if no table has this name, and OutOfMemory."""
        given = encoded(name, "a table's name")
        with self._lock:
            status, lines, told = buffered(LIBRARY.ent_c_room_table, self._place(), given, len(given))
        _raise_for(status, told)
        return table_in(lines)

    def epoch(self) -> int:
        """The number of the present epoch."""
        epoch = ctypes.c_uint64()
        with self._lock:
            LIBRARY.ent_c_room_epoch(self._place(), ctypes.byref(epoch))
        return epoch.value

    def turn(self, *drained: str) -> int:
        """Ends the present epoch, whose number it gives: report() has its report then. The next one begins with the
        same tables, but that those of these names are empty. Who waits goes on waiting.

        A step that needs a new epoch ends the present one by itself. So turn to have its report, or to drain tables
        that only collect.

        Raises Refused if no table has a name (E401), or the other tables have more than 65,536 rows together (E407);
        BatchIsOn if a batch isn't over, since memory ran out; NoMoreNumbers; and OutOfMemory. Then nothing has
        changed.
        """
        names, refusal, told = _checked_drained(drained), ctypes.c_uint32(), Told()
        with self._lock:
            epoch = self.epoch()
            status = LIBRARY.ent_c_room_turn(
                self._place(), names, len(names), ctypes.byref(refusal), ctypes.byref(told)
            )
        _raise_for(status, told, refusal.value)
        return epoch

    def report(self, version: int = 1) -> Optional[EpochReport]:
        """The report of the last epoch that ended, by a turn or by a step, of this version. None if none ended yet."""
        number, epoch = checked_version(version), ctypes.c_uint64()

        def call(place: Any, buffer: Any, capacity: int, told: Any) -> int:
            status: int = LIBRARY.ent_c_room_report(place, number, buffer, capacity, ctypes.byref(epoch), told)
            return status

        with self._lock:
            status, text, told = buffered(call, self._place())
        if status == REFUSED:
            return None
        _raise_for(status, told)
        return EpochReport(epoch.value, text)

    def groups(self, first: int = 0) -> list[Group]:
        """The groups from this number on that are kept: in order, what was committed and what changed, and who else
        ended; but not who was withdrawn, nor rows that a turn drained. After a step that raised nothing they tell all
        that was done.

        They are kept until settled_through() says that they stand elsewhere. Raises OutOfMemory.
        """
        number = _checked_number(first, "first")
        with self._lock:
            status, lines, told = buffered(LIBRARY.ent_c_room_groups, self._place(), number)
        _raise_for(status, told)
        return groups_in(lines)

    def next_group(self) -> int:
        """The number of the next group."""
        number = ctypes.c_uint64()
        with self._lock:
            LIBRARY.ent_c_room_next_group(self._place(), ctypes.byref(number))
        return number.value

    def settled_through(self, number: int) -> None:
        """The groups up to this number are kept no longer, which frees their memory. Numbers go on as before."""
        last = _checked_number(number, "number")
        with self._lock:
            LIBRARY.ent_c_room_settled_through(self._place(), last)

    def wait(self, ticket: Ticket, timeout: Optional[float] = None) -> Ending:
        """Waits until a ticket has ended, and tells how.

        Raises TimeoutError if it hasn't after so many seconds: then it waits on. Raises UnknownTicket if it was never
        given out, or how it ended isn't kept; and StateError if the room is closed, maybe meanwhile.
        """
        ended = threading.Event()
        said: list[News] = []

        def tell(told: News) -> None:
            said.append(told)
            ended.set()

        told = self._listen(ticket, tell)
        if told is None:
            try:
                if not ended.wait(timeout):
                    raise TimeoutError(f"ticket {ticket.number} waits on")
            finally:
                self._waits.forget(ticket, tell)
            told = said[0]
        return ending(told)

    async def fate(self, ticket: Ticket) -> Ending:
        """How a ticket ends, once it has, with the errors of wait(). The steps may be made by another thread. To cancel
        it withdraws nothing: the ticket waits on."""
        import asyncio

        loop = asyncio.get_running_loop()
        future: asyncio.Future[News] = loop.create_future()

        def tell(told: News) -> None:
            with suppress(RuntimeError):  # the loop is closed: nobody is there to be told
                loop.call_soon_threadsafe(_settle, future, told)

        told = self._listen(ticket, tell)
        if told is None:
            try:
                told = await future
            finally:
                self._waits.forget(ticket, tell)
        return ending(told)

    def _listen(self, ticket: Ticket, tell: Tell) -> Optional[News]:
        """How a ticket ended. If it hasn't, that is told by this call once it has."""
        checked_ticket(ticket)
        with self._lock:
            told = self._told(ticket)
            if told is None:
                self._waits.add(ticket, tell)
        return told

    def _told(self, ticket: Ticket) -> Optional[News]:
        """What is told of a ticket that waits no more."""
        state = self.state(ticket)
        return _NOT_KEPT if isinstance(state, TicketUnknown) else ending_of(state)

    def _tell_ended(self) -> None:
        """Tells those who wait for tickets that ended since it was last called: these are the last ones that ended."""
        last, ended, back = self._last_ended, ctypes.c_uint64(), 0
        while LIBRARY.ent_c_room_ended(self._place(), back, ctypes.byref(ended)) == DONE:
            if ended.value == self._last_ended:
                break
            last = ended.value if back == 0 else last
            self._tell(Ticket(ended.value))
            back += 1
        if back >= self._most_ended:  # more may have ended than are kept
            for ticket in self._waits.tickets():
                self._tell(ticket)
        self._last_ended = last

    def _tell(self, ticket: Ticket) -> None:
        """Tells those who wait for a ticket, if it waits no more."""
        told = self._told(ticket) if self._waits.has(ticket) else None
        if told is not None:
            self._waits.tell(ticket, told)

    def close(self) -> None:
        """Frees the room. All that wait for a ticket raise StateError, and so does each later call."""
        with self._lock:
            LIBRARY.ent_c_room_free(ctypes.byref(self._handle))
            for ticket in self._waits.tickets():
                self._waits.tell(ticket, _CLOSED)

    def __enter__(self) -> Room:
        return self

    def __exit__(
        self,
        kind: Optional[type[BaseException]],
        error: Optional[BaseException],
        trace: Optional[TracebackType],
    ) -> None:
        self.close()

    def __del__(self) -> None:
        if getattr(self, "_handle", None):
            self.close()

    def __copy__(self) -> NoReturn:
        raise TypeError("a room can't be copied")

    def __deepcopy__(self, memo: object) -> NoReturn:
        raise TypeError("a room can't be copied")

    def __reduce_ex__(self, protocol: object) -> NoReturn:
        raise TypeError("a room can't be pickled")


def _settle(future: asyncio.Future[News], told: News) -> None:
    """Tells one who waits in an event loop, if nothing has cancelled that."""
    if not future.done():
        future.set_result(told)
