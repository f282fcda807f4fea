"""A front of a fleet: it has no room. It puts requests into the inboxes of rooms, and tells how they stand there."""

from __future__ import annotations

import queue
import threading
import time
from collections import OrderedDict
from contextlib import suppress
from dataclasses import dataclass, field
from datetime import datetime, timezone
from typing import Any, Callable, Mapping, Optional, Sequence, Union

from .._errors import Error
from ..stores import Ended, Fate, InboxFull, InboxRequest, Outcome, PostgresInbox, Queued, Rejected, RowCounts
from ..stores import StoreFailed, Waiting, key_of_part
from ._declared import ServiceFile
from ._log import Log
from ._messages import Call, Look, Message, News, Put, ReadTable, SetAside, Survey, Taken, Watch, Withdraw
from ._metrics import Metrics
from ._positions import Position, digest_of_values, ended_position, forgotten_position, seconds_of
from ._problems import Problem, ending, not_found, store_fails
from ._putting import until_of, until_problem
from ._scripts import Label, label_of
from ._survey import json_of_rows

# A front doesn't count endings: each event is told anew to who comes again.
ALWAYS_TOLD = 2**62
_SECONDS, _TABLE_SECONDS, _LEAST_PAUSE, _MOST_PAUSE = 1.0, 0.1, 0.05, 1.0
_MOST_ENDED = 10_000
_WITHDRAW_SECONDS = 60.0
_MOST_AT_ONCE = 500
Told = Callable[["list[tuple[Call[Any], object]]", Optional[News]], None]


@dataclass(frozen=True)
class Heard:
    """Requests may stand otherwise since; with none named, any may."""

    digests: tuple[str, ...]


@dataclass(eq=False)
class Part:
    """What rooms have answered until now to a call that is asked of several, and how many are still to answer."""

    call: Union[Look, Withdraw]
    left: int
    positions: dict[str, Position] = field(default_factory=dict)
    answer: object = None
    has_failed: bool = False

    @property
    def is_whole(self) -> bool:
        """Whether no other room has to answer."""
        if isinstance(self.call, Withdraw):
            return self.answer is not None
        return all(digest in self.positions for digest in self.call.digests)


class FrontDesk:
    """Serves messages as the desk of a room does, from the inboxes of all rooms. Each room has a line of its own: a
    thread and a connection, so that none waits for another."""

    def __init__(
        self, file: ServiceFile, inboxes: Mapping[str, PostgresInbox], tell: Told, metrics: Metrics, log: Log
    ) -> None:
        self.file, self.metrics, self.log = file, metrics, log
        self.rows = RowCounts({})
        self.tell = tell
        self._stops = threading.Event()
        self._lock = threading.Lock()
        self._parts: dict[Call[Any], Part] = {}
        self.lines = {room: Line(self, room, inbox) for room, inbox in inboxes.items()}

    @property
    def fault(self) -> Optional[str]:
        """Why no room can be asked; None if one can."""
        faults = [line.fault for line in self.lines.values()]
        return None if None in faults else faults[0]

    def waiting(self) -> int:
        """How many requests stand in the inboxes, as desks said it last."""
        return sum(line.queued for line in self.lines.values())

    # ---- messages

    def send(self, message: Message) -> None:
        """Passes a message on to the line of its room, or to all where its room isn't known."""
        if isinstance(message, (Survey, SetAside)):
            answer = self._survey() if isinstance(message, Survey) else Problem(409, "nothing_refused", "ask the room")
            self.tell([(message, answer)], None)
            return
        room = self._room_of(message)
        lines = list(self.lines.values()) if room is None else [self.lines[room]]
        if isinstance(message, (Look, Withdraw)):
            self._parts[message] = Part(message, len(lines))
        for line in lines:
            line.send(message)

    def _room_of(self, message: Message) -> Optional[str]:
        """The room of a message, if it says one; the only one there is."""
        if len(self.lines) == 1:
            return next(iter(self.lines))
        if isinstance(message, Put):
            assert self.file.partition is not None, "several rooms are told apart by a parameter"
            return str(message.values[self.file.partition])
        return message.room if isinstance(message, (Look, Withdraw, ReadTable, Watch)) else None

    def answered(self, call: Union[Look, Withdraw], positions: Mapping[str, Position], answer: object) -> None:
        """A line has answered its part of a call: how it found requests to stand, and what it says as a whole; None if
        the call is for another room."""
        with self._lock:
            part = self._parts.get(call)
            if part is None:
                return
            part.left -= 1
            part.positions.update(positions)
            part.has_failed |= answer is _FAILED
            part.answer = answer if answer not in (None, _FAILED) else part.answer
            if part.left and not part.is_whole:
                return
            del self._parts[call]
        self.tell([(call, self._whole(part))], None)

    def _whole(self, part: Part) -> object:
        """The answer to a call, of all its parts."""
        if isinstance(part.call, Withdraw):
            nothing = store_fails() if part.has_failed else not_found()
            return nothing if part.answer is None else part.answer
        found = [part.positions.get(digest) for digest in part.call.digests]
        if part.has_failed and None in found:
            return store_fails()
        return [one if one and _is_theirs(one, part.call) else None for one in found]

    def _survey(self) -> dict[str, Any]:
        """What an operator sees of a front."""
        faults = {f"{room or 'the room'}: {line.fault}" for room, line in self.lines.items() if line.fault}
        return {
            "waiting": [],
            "waiting_in_all": sum(line.waiting for line in self.lines.values()),
            "queued": {room: line.queued for room, line in self.lines.items()},
            "groups": [],
            "rows": {},
            "rows_in_all": 0,
            "most_rows": self.rows.most,
            "limits": vars(self.file.limits),
            "endings": 0,
            "puts": self.metrics.puts,
            "endings_by_kind": dict(self.metrics.endings),
            "fault": "; ".join(sorted(faults)) or None,
            "is_refused": False,
        }

    # ---- the threads

    def stop(self) -> None:
        """Has run() end once all that was sent until now is done."""
        self._stops.set()
        for line in self.lines.values():
            line.stop()

    def run(self) -> Optional[str]:
        """Serves until it is stopped."""
        threads = [
            threading.Thread(target=line.run, name=f"line of {room}", daemon=True) for room, line in self.lines.items()
        ]
        for one in threads:
            one.start()
        for one in threads:
            one.join()
        faults = [line.broken for line in self.lines.values() if line.broken]
        return faults[0] if faults else None


# What a line answers where its store fails.
_FAILED = object()


def _is_theirs(position: Position, call: Look) -> bool:
    return call.is_reader or position.label.subject == call.subject


class Line:
    """Asks the inbox of one room, in a thread of its own."""

    def __init__(self, front: FrontDesk, room: str, inbox: PostgresInbox) -> None:
        self.front, self.room, self.inbox = front, room, inbox
        self.fault: Optional[str] = "the inbox wasn't asked yet"
        self.broken: Optional[str] = None
        self.queued = self.waiting = 0
        self._queue: queue.SimpleQueue[Union[Message, Heard, None]] = queue.SimpleQueue()
        self._stops = threading.Event()
        self._most_parts = max(len(one.scripts) for one in front.file.requests.values())
        self._ended: OrderedDict[str, Position] = OrderedDict()
        # who is followed, and how often; of whom the room knows nothing; and how they stood last
        self._watched: dict[str, int] = {}
        self._strange: set[str] = set()
        self._last: dict[str, Position] = {}
        self._withdrawals: list[Withdraw] = []
        # of what is served now, the calls of which this line has answered its part
        self._said: set[Call[Any]] = set()
        self._last_group: Optional[int] = None
        self._next_tables = 0.0

    def send(self, message: Message) -> None:
        self._queue.put(message)

    def stop(self) -> None:
        self._stops.set()
        self._queue.put(None)

    def run(self) -> None:
        """Serves until it is stopped."""
        ear = self.inbox.tells(lambda keys: self._queue.put(Heard(tuple(keys))))
        pause = _LEAST_PAUSE
        try:
            while not self._stops.is_set() or not self._queue.empty():
                messages, self._said = self._sent(_SECONDS), set()
                if not messages:
                    continue
                try:
                    self._serve(messages)
                    self.fault, pause = None, _LEAST_PAUSE
                except StoreFailed as error:
                    if self.fault != str(error):
                        self.front.log.say("inbox fails", room=self.room, error=str(error))
                    self.fault = str(error)
                    self._refuse(messages)
                    self._stops.wait(pause)
                    pause = min(2 * pause, _MOST_PAUSE)
        except Exception as error:
            self.broken = self.fault = f"the front has a fault: {error!r}"
            self.front.log.say("fault", room=self.room, error=self.broken)
            self.front.stop()  # whoever started the process starts it again
            self._refuse(messages)
        self._refuse([*self._sent(0.0), *self._withdrawals])
        ear.close()
        self.inbox.close()

    def _sent(self, seconds: float) -> list[Union[Message, Heard]]:
        """All that is there, up to so many; for so long it waits for a first one."""
        found: list[Union[Message, Heard]] = []
        with suppress(queue.Empty):
            first = self._queue.get(timeout=seconds) if seconds else self._queue.get_nowait()
            while True:
                found += [] if first is None else [first]
                if len(found) >= _MOST_AT_ONCE:
                    break
                first = self._queue.get_nowait()
        return found

    def _serve(self, messages: Sequence[Union[Message, Heard]]) -> None:
        fresh = self._watch([message for message in messages if isinstance(message, Watch)])
        self._put([message for message in messages if isinstance(message, Put)])
        looks = [message for message in messages if isinstance(message, Look)]
        withdrawals = [message for message in messages if isinstance(message, Withdraw)]
        self._withdrawals += [one for one in withdrawals if one not in self._withdrawals]
        heard = [message for message in messages if isinstance(message, Heard)]
        is_time = any(not one.digests for one in heard)
        wanted = {digest for look in looks for digest in look.digests} | {one.digest for one in withdrawals} | fresh
        followed = (self._watched.keys() - self._strange) | {one.digest for one in self._withdrawals}
        wanted |= followed if is_time else followed & {digest for one in heard for digest in one.digests}
        found = self._found(wanted)
        self._withdraw(withdrawals, found)
        for look in looks:
            self._said.add(look)
            self.front.answered(look, found, None)
        self._tell(found, wanted, self._changed_tables() if is_time or heard else frozenset())
        for message in messages:
            if isinstance(message, ReadTable):
                table = self.front.file.tables[message.name].table
                self._answer(message, json_of_rows(table, self.inbox.rows_of(table)))
        if is_time:
            backlog = self.inbox.backlog()
            self.queued, self.waiting = backlog.queued, backlog.waiting

    def _answer(self, call: Call[Any], answer: object) -> None:
        call.is_answered = True
        self.front.tell([(call, answer)], None)

    # ---- requests

    def _put(self, calls: Sequence[Put]) -> None:
        """Asks for what may wait so long, in one transaction; equal keys are one request."""
        first: dict[str, Put] = {}
        for call in calls:
            problem = until_problem(call)
            if problem is not None:
                self._answer(call, problem)
            else:
                first.setdefault(call.digest, call)
        if not first:
            return
        try:
            fates = self.inbox.ask([self._asked(call) for call in first.values()])
        except InboxFull:
            full = Problem(429, "many_wait", "as many requests wait as may: ask again later", 10)
            for call in first.values():
                self._answer(call, full)
            return
        stands: dict[str, Optional[Fate]] = dict(zip(first, fates))
        positions = self._positions(stands)
        for call in calls:
            if not call.is_answered:
                fate = stands[call.digest]
                is_new = isinstance(fate, Queued) and fate.is_new and first[call.digest] is call
                self.front.metrics.puts += is_new
                self._answer(call, self._taken(call, positions[call.digest], is_new))

    def _asked(self, call: Put) -> InboxRequest:
        label = Label(call.declared.name, digest_of_values(call.declared.name, call.values), call.subject)
        until = datetime.fromtimestamp(until_of(call), timezone.utc)
        return InboxRequest(call.declared.name, call.values, call.digest, until, label.line())

    def _taken(self, call: Put, known: Position, is_new: bool) -> Union[Taken, Problem]:
        values = digest_of_values(call.declared.name, call.values)
        asked = (call.declared.name, values, call.subject)
        if not known.is_forgotten and (known.label.request, known.label.values, known.label.subject) != asked:
            return Problem(409, "other_values", "the key was used for another request, or with other values")
        return Taken(known, is_new)

    def _withdraw(self, calls: Sequence[Withdraw], found: Mapping[str, Position]) -> None:
        """Has the room withdraw what waits; that is told once the room has done so."""
        asked = []
        for call in calls:
            position = found.get(call.digest)
            is_theirs = position is not None and (call.is_operator or position.label.subject == call.subject)
            if position is None or not is_theirs:
                self._withdrawn(call, None)
            elif position.is_over:
                self._withdrawn(call, Problem(409, "is_over", "the request has ended", stands=position.said()))
            else:
                asked.append(call.digest)
        self.inbox.withdraw(asked)
        for call in list(self._withdrawals):
            position = found.get(call.digest)
            if position is not None and position.is_over:
                is_done = position.state == "ended"
                problem = Problem(409, "is_over", "the request has ended", stands=position.said())
                self._withdrawn(call, position if is_done else problem)
            elif time.monotonic() > call.came + _WITHDRAW_SECONDS:  # nobody waits for the answer any more
                self._withdrawn(call, store_fails())

    def _withdrawn(self, call: Withdraw, answer: object) -> None:
        self._withdrawals.remove(call)
        self._said.add(call)
        self.front.answered(call, {}, answer)

    # ---- how requests stand

    def _found(self, digests: set[str]) -> dict[str, Position]:
        """How those of these requests stand that the room knows."""
        known = {digest: self._ended[digest] for digest in digests if digest in self._ended}
        asked = sorted(digests - known.keys())
        if not asked:
            return known
        keys = [key_of_part(digest, number) for digest in asked for number in range(self._most_parts)]
        return {**known, **self._positions(self.inbox.fates(keys))}

    def _positions(self, fates: Mapping[str, Optional[Fate]]) -> dict[str, Position]:
        """How requests stand, by the fates of their scripts; those of further scripts are asked for if they lack."""
        missing = [
            key_of_part(digest, number)
            for digest, fate in fates.items()
            if isinstance(fate, Ended) and "." not in digest
            for number in range(1, self._most_parts)
            if key_of_part(digest, number) not in fates
        ]
        parts = {**fates, **(self.inbox.fates(missing) if missing else {})}
        found = {}
        for digest, fate in fates.items():
            if fate is not None and "." not in digest:
                found[digest] = self._position(digest, fate, parts)
                if found[digest].is_over:
                    self._remember(found[digest])
        return found

    def _position(self, digest: str, fate: Fate, parts: Mapping[str, Optional[Fate]]) -> Position:
        if isinstance(fate, (Queued, Rejected)):
            label = label_of(fate.request.label) or Label(fate.request.script, "")
            until = seconds_of(fate.request.until)
            if isinstance(fate, Queued):
                return Position(digest, label, until, "waits", why="asked: no room has taken it yet")
            said = fate.fault.splitlines()[0] if fate.fault else ""
            return Position(digest, label, until, "ended", ALWAYS_TOLD, how=f"rejected: {said}")
        if isinstance(fate, Waiting):
            label = label_of(fate.waiter.script) or Label("", "")
            return Position(digest, label, seconds_of(fate.waiter.until), "waits", why="waits")
        if fate.waiter is None:
            return forgotten_position(digest, ALWAYS_TOLD, fate.outcome)
        label, until = label_of(fate.waiter.script) or Label("", ""), seconds_of(fate.waiter.until)
        outcomes: dict[int, Outcome] = {}
        scripts: dict[int, str] = {}
        for number in range(self._most_parts):
            part = parts.get(key_of_part(digest, number))
            if isinstance(part, Ended) and part.waiter is not None:
                outcomes[number], scripts[number] = part.outcome, part.waiter.script
        declared = self.front.file.requests.get(label.request)
        return ended_position(digest, label, until, ALWAYS_TOLD, outcomes, scripts, declared)

    def _remember(self, position: Position) -> None:
        self._ended[position.digest] = position
        while len(self._ended) > _MOST_ENDED:
            self._ended.popitem(last=False)

    # ---- who follows

    def _watch(self, messages: Sequence[Watch]) -> set[str]:
        """Somebody follows requests, or doesn't any more; those that nobody followed before."""
        fresh = set()
        for message in messages:
            for digest in message.digests:
                count = self._watched.get(digest, 0) + message.count
                if count > 0:
                    fresh |= set() if digest in self._watched else {digest}
                    self._watched[digest] = count
                else:
                    self._watched.pop(digest, None)
                    self._last.pop(digest, None)
                    self._strange.discard(digest)
        return fresh & self._watched.keys()

    def _tell(self, found: Mapping[str, Position], asked: set[str], changed: frozenset[str]) -> None:
        """Tells those who follow what stands otherwise since. What the room knows nothing of isn't asked again."""
        news = []
        for digest in [digest for digest in found if digest in self._watched]:
            if self._last.get(digest) != found[digest]:
                self._last[digest] = found[digest]
                news.append(found[digest])
        self._strange |= (asked & self._watched.keys()) - found.keys() - self._last.keys()
        if news or changed:
            self.front.tell([], News(tuple(news), changed, 0))

    def _changed_tables(self) -> frozenset[str]:
        """The tables, if any may have changed since this was asked last."""
        if time.monotonic() < self._next_tables:
            return frozenset()
        self._next_tables = time.monotonic() + _TABLE_SECONDS
        before, self._last_group = self._last_group, self.inbox.last_group()
        if before == self._last_group:
            return frozenset()
        return frozenset(name_in(self.room, name) for name in self.front.file.tables)

    def _refuse(self, messages: Sequence[Union[Message, Heard]]) -> None:
        """Tells who isn't answered that the inbox fails."""
        said = ending() if self._stops.is_set() else store_fails()
        for message in messages:
            if isinstance(message, (Look, Withdraw)):
                if message in self._said:
                    continue
                if isinstance(message, Withdraw) and message in self._withdrawals:
                    self._withdrawals.remove(message)
                self.front.answered(message, {}, _FAILED)
            elif isinstance(message, Call) and not message.is_answered:
                self._answer(message, said)


def name_in(room: Optional[str], name: str) -> str:
    """A table of a room, as the board names it."""
    return f"{room}/{name}" if room else name
