"""The desk: the thread that has the room, and does what it is asked for by messages."""

from __future__ import annotations

import queue
import threading
import time
from collections import OrderedDict, deque
from contextlib import suppress
from datetime import datetime, timezone
from typing import Any, Callable, Optional, Sequence, Union, cast

from .._errors import Error, OutOfMemory
from .._groups import Group
from .._refusals import BatchIsOn, RoomFull
from ..stores import DurableRoom, Outcome, RefusedByStore, Request, RowCounts, StoreFailed, StoreTaken, Turn, Waiter
from ..stores import key_of_part
from ._book import Book, Waiting
from ._declared import ServiceFile
from ._forgetting import Forgetting
from ._ledger import AnyStore, Ledger
from ._log import Log
from ._messages import Call, Look, Message, News, Put, ReadTable, SetAside, Survey, Taken, Watch, Withdraw
from ._metrics import Metrics
from ._positions import Position, digest_of_values, ended_position, forgotten_position, seconds_of
from ._problems import Problem, busy, ending, not_found, store_fails
from ._putting import requests_of, until_of, until_problem
from ._scripts import Label, label_of
from ._survey import GroupSeen, json_of_rows, survey

SWEEP_SECONDS = 1.0
_LEAST_PAUSE, _MOST_PAUSE = 0.05, 1.0
_MOST_ENDED = 10_000
_MOST_GROUPS = 50
Told = Callable[["list[tuple[Call[Any], object]]", Optional[News]], None]


class Desk:
    """Serves messages until it is told to stop, or another process takes the store.

    run() is made by one thread, which alone calls the room. Any thread may send(). What is told goes out by `tell`, in
    the desk's thread: answers of calls, and news.
    """

    def __init__(
        self, file: ServiceFile, store: AnyStore, turn: Optional[Turn], tell: Told, metrics: Metrics, log: Log
    ) -> None:
        self.file, self.turn, self.metrics, self.log = file, turn, metrics, log
        self.ledger = Ledger(store, metrics.transactions)
        self.ledger.on_write = self._written
        self.book = Book(file.requests)
        self.endings = 0
        self.rows = RowCounts({})
        self.refused: Optional[RefusedByStore] = None
        self.groups: deque[GroupSeen] = deque(maxlen=_MOST_GROUPS)
        self.fault: Optional[str] = "the store isn't open yet"
        self._tell = tell
        self._queue: queue.SimpleQueue[Optional[Message]] = queue.SimpleQueue()
        self._stops = threading.Event()
        self._ended: OrderedDict[str, Position] = OrderedDict()
        self._watched: dict[str, int] = {}
        self._answers: list[tuple[Call[Any], object]] = []
        self._news: dict[str, Position] = {}
        self._changed: set[str] = set()
        # how often the room has changed: what was said of one who waits holds until then
        self._changes, self._is_settled = 0, False
        self._next_sweep = 0.0
        self._forgetting = Forgetting(file.store.forget_after, log)
        self._room: Optional[DurableRoom] = None

    def waiting(self) -> int:
        """How many requests wait."""
        return len(self.book.requests)

    @property
    def room(self) -> DurableRoom:
        """The room, once it is open."""
        assert self._room is not None, "the room is open"
        return self._room

    # ---- the thread

    def send(self, message: Message) -> None:
        self._queue.put(message)

    def stop(self) -> None:
        """Has run() end once all that was sent until now is done."""
        self._stops.set()
        self._queue.put(None)

    def run(self) -> Optional[str]:
        """Serves; why it ended, if nobody told it to."""
        why: Optional[str] = None
        try:
            self._room = self._opened() if self._has_turn() else None
            if self._room is not None:
                self._serve(self._room)
        except StoreTaken as error:
            why = str(error)
        except Error as error:
            why = f"{type(error).__name__}: {error}"
        except Exception as error:
            why = f"the desk has a fault: {error!r}"
        self._refuse_all()
        if self._room is not None:
            self._room.close()
        if self.turn is not None:
            self.turn.give()
        return why

    def _has_turn(self) -> bool:
        """Waits until no other process serves from the store, if it is to stand by; False if nobody wants it any
        more."""
        if self.turn is None:
            return True
        self.log.say("stands by")
        while not self._stops.is_set():
            try:
                if self.turn.take(SWEEP_SECONDS):
                    self.log.say("has the turn")
                    return True
                self.fault = "another process serves, and this one stands by"
            except StoreFailed as error:
                self.fault = str(error)
                self.log.say("store fails", error=self.fault)
                self._refuse_sent(SWEEP_SECONDS)
            self._refuse_sent(0.0)
        return False

    def _opened(self) -> Optional[DurableRoom]:
        """The room, once the store can be opened; None if nobody wants it any more."""
        while not self._stops.is_set():
            try:
                room = DurableRoom(
                    self.file.declared,
                    cast(Any, self.ledger),
                    most_waiters=max(100_000, 8 * self.file.limits.waiting_in_all),
                    unrestored="set aside" if self.file.store.sets_aside else "refuse",
                )
            except StoreFailed as error:
                self.fault = str(error)
                self.log.say("store fails", error=self.fault)
                self._refuse_sent(SWEEP_SECONDS)
                continue
            self._load()
            self.fault = None
            self.log.say("opened", waiting=len(self.book.requests), endings=self.endings)
            return room
        return None

    def _load(self) -> None:
        """Takes in what the store has."""
        loaded = self.ledger.loaded
        assert loaded is not None, "the store is loaded when its room is open"
        self.book.load(loaded.waiting)
        self.rows = RowCounts({name: len(rows) for name, rows in loaded.rows.items()})
        self.endings = self.ledger.store.endings() - len(self.ledger.aside)
        self._written((), self.ledger.aside, ())
        waiting = {digest: request.position() for digest, request in self.book.requests.items() if request.waits}
        self._news = {**self._news, **waiting}
        self._changed = set(self.file.tables)
        self._flush()

    def _serve(self, room: DurableRoom) -> None:
        """Does what is sent, and makes steps, until it is told to stop."""
        is_idle, pause = False, _LEAST_PAUSE
        while True:
            messages = self._sent(SWEEP_SECONDS if is_idle else 0.0)
            if self._stops.is_set() and self._queue.empty() and not messages:
                return
            try:
                is_idle = self._turn(room, messages)
                self.fault, self.refused, pause = None, None, _LEAST_PAUSE
            except StoreTaken:
                raise
            except (StoreFailed, OutOfMemory) as error:  # each further call of the room tries first what isn't written
                self.fault, self.refused = str(error), error if isinstance(error, RefusedByStore) else None
                self.log.say("store fails", error=self.fault)
                self._refuse(messages)
                is_idle = False
                if self._stops.is_set():
                    return
                self._refuse_sent(pause)
                pause = min(2 * pause, _MOST_PAUSE)
            self._flush()

    def _sent(self, seconds: float) -> list[Message]:
        """All messages that are there; for so long it waits for a first one."""
        found: list[Message] = []
        with suppress(queue.Empty):
            first = self._queue.get(timeout=seconds) if seconds else self._queue.get_nowait()
            while True:
                found += [] if first is None else [first]
                first = self._queue.get_nowait()
        return found

    def _turn(self, room: DurableRoom, messages: Sequence[Message]) -> bool:
        """Does what is sent, and makes a step. Whether nothing is left to do."""
        self._put([message for message in messages if isinstance(message, Put)])
        for message in messages:
            if isinstance(message, Withdraw):
                self._answer(message, self._withdrawn(message))
            elif isinstance(message, Watch):
                self._watch(message)
        self._flush()
        if time.monotonic() >= self._next_sweep:
            self._sweep(room)
        begun = time.monotonic()
        stepped = room.step()
        self.metrics.steps.note(time.monotonic() - begun)
        self.metrics.steps_made[stepped] += 1
        self._changes += stepped != "idle" or not self._is_settled
        self._is_settled, self.rows = stepped == "idle", room.rows()
        self._look([message for message in messages if isinstance(message, Look)])
        for message in messages:
            if isinstance(message, ReadTable):
                self._answer(message, json_of_rows(self.file.tables[message.name].table, room.table(message.name)))
            elif isinstance(message, Survey):
                self._answer(message, survey(self))
            elif isinstance(message, SetAside):
                self._answer(message, self._aside())
        return stepped == "idle"

    # ---- requests

    def _put(self, calls: Sequence[Put]) -> None:
        """Puts what is new, in one transaction; what is known already is told."""
        fresh: dict[str, Put] = {}
        again: list[Put] = []
        waiting = len(self.book.requests)
        used = self._used([call.digest for call in calls])
        for call in calls:
            if call.digest in fresh:
                again.append(call)
                continue
            known = self._position(call.digest) if call.digest in used else None
            problem = None if known else self._refusal(call, waiting + len(fresh))
            if known is not None:
                self._answer(call, self._known(call, known))
            elif problem is not None:
                self._answer(call, problem)
            else:
                fresh[call.digest] = call
        if fresh:
            self._put_fresh(list(fresh.values()))
        for call in again:
            known = self._position(call.digest)
            self._answer(call, store_fails() if known is None else self._known(call, known))

    def _used(self, digests: Sequence[str]) -> set[str]:
        """Which of these requests were ever put."""
        known = {digest for digest in digests if digest in self.book.requests or digest in self._ended}
        others = [digest for digest in digests if digest not in known]
        return known | set(self.ledger.store.tickets_of(others)) if others else known

    def _known(self, call: Put, known: Position) -> Union[Taken, Problem]:
        """What is told to who asks again."""
        if known.is_forgotten:
            return Taken(known, False)
        values = digest_of_values(call.declared.name, call.values)
        if (known.label.request, known.label.values, known.label.subject) != (call.declared.name, values, call.subject):
            return Problem(409, "other_values", "the key was used for another request, or with other values")
        return Taken(known, False)

    def _refusal(self, call: Put, waiting: int) -> Optional[Problem]:
        """Why a new request can't be put."""
        limits, problem = self.file.limits, until_problem(call)
        if problem is not None:
            return problem
        if call.declared.when_full:
            return None
        if waiting >= limits.waiting_in_all:
            return Problem(429, "many_wait", "as many requests wait as may: ask again later", 10)
        if self.book.clients[call.client] >= limits.waiting:
            return Problem(429, "many_wait", "as many of your requests wait as may: ask again later", 10)
        return None

    def _put_fresh(self, calls: Sequence[Put]) -> None:
        requests = [self._requests_of(call) for call in calls]
        self._is_settled = False
        for call, tickets in zip(calls, self.room.put_each(requests)):
            if isinstance(tickets, Error):
                self._answer(call, self._not_put(call, tickets))
                continue
            request = self.book.requests[call.digest]
            self.book.belongs(request, call.client)
            self.metrics.puts += 1
            self._answer(call, Taken(request.position(), True))

    def _requests_of(self, call: Put) -> list[Request]:
        """The scripts of a request as the room takes them."""
        until = datetime.fromtimestamp(until_of(call), timezone.utc)
        label = Label(call.declared.name, digest_of_values(call.declared.name, call.values), call.subject)
        return requests_of(call.declared, call.digest, call.values, label, until)

    def _not_put(self, call: Put, error: Error) -> Problem:
        if isinstance(error, RoomFull):
            return Problem(429, "many_wait", "as many scripts wait as may: ask again later", 10)
        self.log.say("not put", request=call.digest, name=call.declared.name, error=str(error))
        return Problem(500, "fault", "the request can't be put: the log says why")

    def _withdrawn(self, call: Withdraw) -> Union[Position, Problem]:
        position = self._position(call.digest) if self._used([call.digest]) else None
        if position is None or not (call.is_operator or position.label.subject == call.subject):
            return not_found()
        if position.is_over:
            return Problem(409, "is_over", "the request has ended", stands=position.said())
        try:
            self._is_settled = False
            self.room.withdraw_all(list(self.book.requests[call.digest].tickets.values()))
        except BatchIsOn:
            return busy()
        return self._position(call.digest) or not_found()

    def _aside(self) -> Union[list[str], Problem]:
        """Ends the requests of a group that the store refuses."""
        if self.refused is None:
            return Problem(409, "nothing_refused", "the store refuses no group")
        names = [name for name in map(self.book.name_of, self.refused.tickets) if name]
        try:
            self.room.set_aside(self.refused.tickets)
        except StoreFailed:
            return store_fails()
        self.log.say("set aside", requests=names, error=str(self.refused))
        self.refused, self._is_settled = None, False
        return list(dict.fromkeys(names))

    # ---- how requests stand

    def _look(self, calls: Sequence[Look]) -> None:
        """Tells how requests stand; the store is asked once for all that were never put. Raises StoreFailed."""
        used = self._used([digest for call in calls for digest in call.digests])
        for call in calls:
            self._answer(call, [self._seen(digest, call) if digest in used else None for digest in call.digests])

    def _seen(self, digest: str, call: Look) -> Optional[Position]:
        """How a request stands, for who may see it."""
        position = self._position(digest)
        is_theirs = position is not None and (call.is_reader or position.label.subject == call.subject)
        return position if is_theirs else None

    def _position(self, digest: str) -> Optional[Position]:
        """How a request stands: in memory, or else by the store. Raises StoreFailed."""
        request = self.book.requests.get(digest)
        if request is not None and request.waits:
            return self._waiting_position(request)
        known = self._ended.get(digest)
        if known is None:
            known = self._stored(digest)
            if known is not None:
                self._remember(known)
        return known

    def _waiting_position(self, request: Waiting) -> Position:
        if request.said_after != self._changes:
            request.why, request.said_after = self.room.why(request.tickets[0]), self._changes
        return request.position()

    def _stored(self, digest: str) -> Optional[Position]:
        """How a request ended that isn't in memory. Raises StoreFailed."""
        store = self.ledger.store
        outcomes: dict[int, Outcome] = {}
        scripts: dict[int, str] = {}
        label: Optional[Label] = None
        until = 0
        while (waiter := store.put_with(key_of_part(digest, len(scripts)))) is not None:
            number = len(scripts)
            label = label if number else label_of(waiter.script)
            until = seconds_of(waiter.until)
            scripts[number] = waiter.script
            outcome = store.outcome(waiter.ticket)
            if outcome is not None:
                outcomes[number] = outcome
        if label is None and not scripts:
            return self._forgotten(digest)
        if label is None or 0 not in outcomes:
            return None
        declared = self.file.requests.get(label.request)
        return ended_position(digest, label, until, self.endings, outcomes, scripts, declared)

    def _forgotten(self, digest: str) -> Optional[Position]:
        """How a request ended of which the store has nothing else any more. Raises StoreFailed."""
        used = self.ledger.store.tickets_of([digest]).get(digest)
        outcome = None if used is None else self.ledger.store.outcome(used.ticket)
        return None if outcome is None else forgotten_position(digest, self.endings, outcome)

    def _remember(self, position: Position) -> None:
        self._ended[position.digest] = position
        while len(self._ended) > _MOST_ENDED:
            self._ended.popitem(last=False)

    def _watch(self, message: Watch) -> None:
        for digest in message.digests:
            count = self._watched.get(digest, 0) + message.count
            if count > 0:
                self._watched[digest] = count
            else:
                self._watched.pop(digest, None)

    # ---- each second

    def _sweep(self, room: DurableRoom) -> None:
        """Withdraws whose time is over, and scripts of requests that have ended; says anew why those wait who are
        followed."""
        if self.turn is not None and not self.turn.keep():
            raise StoreTaken("another process has the turn")
        room.check()
        if self._is_settled:  # there is time for those who are cut
            room.further()
        self._forgetting.go_on(room)
        orphans = self.book.orphans()
        self._is_settled = not (room.expire() or orphans and room.withdraw_all(orphans)) and self._is_settled
        for digest in self._watched:
            followed = self.book.requests.get(digest)
            if followed is not None and followed.waits:
                before = followed.why
                position = self._waiting_position(followed)
                if before != followed.why:
                    self._news[digest] = position
        self._next_sweep = time.monotonic() + SWEEP_SECONDS

    def _written(self, groups: Sequence[Group], ended: Sequence[Outcome], waiting: Sequence[Waiter]) -> None:
        """The store has this since."""
        for waiter in waiting:
            request = self.book.note(waiter)
            if request is not None and request.waits:
                self._news[request.digest] = request.position()
        self.endings += len(ended)
        for group in groups:
            self.groups.append(GroupSeen.of(group, self.book))
            self.metrics.groups += 1
            self._changed |= set(group.changes)
        for request, position in self.book.end(ended, self.endings):
            self._remember(position)
            self._news[request.digest] = position
            self.metrics.endings[position.state if position.state == "booked" else outcome_word(position)] += 1
            if request.put_at is not None:
                self.metrics.told.note(time.monotonic() - request.put_at)

    # ---- what is told

    def _answer(self, call: Call[Any], answer: object) -> None:
        call.is_answered = True
        self._answers.append((call, answer))

    def _flush(self) -> None:
        """Tells what was done since."""
        if not self._answers and not self._news and not self._changed:
            return
        news = News(tuple(self._news.values()), frozenset(self._changed), self.endings)
        answers, self._answers, self._news, self._changed = self._answers, [], {}, set()
        self._tell(answers, news)

    def _refuse(self, messages: Sequence[Message]) -> None:
        """Tells who isn't answered yet that the store fails."""
        for message in messages:
            if isinstance(message, Watch):
                continue
            if not message.is_answered:
                self._answer(message, store_fails())
        self._flush()

    def _refuse_sent(self, seconds: float) -> None:
        """For so long, whoever asks is told at once that the store fails."""
        until, was_refused = time.monotonic() + seconds, self.refused
        while not self._stops.is_set() and self.refused is was_refused:
            left = max(0.0, until - time.monotonic())
            messages = self._sent(left)
            for message in messages:
                if isinstance(message, Watch):
                    self._watch(message)
                elif isinstance(message, SetAside):
                    self._answer(message, self._aside())
                elif isinstance(message, Survey):
                    self._answer(message, survey(self))
            self._refuse(messages)
            if not left:
                return

    def _refuse_all(self) -> None:
        """Whoever is still to be answered is told that the server ends."""
        for message in self._sent(0.0):
            if not isinstance(message, Watch):
                self._answer(message, ending())
        self._flush()


def outcome_word(position: Position) -> str:
    """The kind of an ending that is no booking."""
    return (position.how or "ended").split(":")[0]
