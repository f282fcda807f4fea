"""The desk of a room of a fleet: it takes what stands in the room's inbox."""

from __future__ import annotations

from datetime import datetime, timedelta, timezone
from typing import Callable, Optional, Sequence

from .._groups import Group
from ..stores import Desk as InboxDesk
from ..stores import DurableRoom, InboxRequest, Outcome, PostgresInbox, PostgresStore, Request, StoreFailed, Turn
from ..stores import Waiter
from ._declared import ServiceFile
from ._desk import SWEEP_SECONDS, Desk, Told
from ._log import Log
from ._messages import Message
from ._metrics import Metrics
from ._putting import requests_of
from ._scripts import label_of


class RoomDesk(Desk):
    """A desk that also takes requests from an inbox. Fronts ask there, and read how they stand from the store."""

    def __init__(
        self,
        file: ServiceFile,
        store: PostgresStore,
        inbox: PostgresInbox,
        turn: Optional[Turn],
        tell: Told,
        metrics: Metrics,
        log: Log,
        prepare: Callable[[], None],
    ) -> None:
        """`prepare` makes what has to be there before the turn and the store are asked for."""
        super().__init__(file, store, turn, tell, metrics, log)
        self._store, self._inbox, self._prepare = store, inbox, prepare
        self._asks: Optional[InboxDesk] = None
        self._told: set[str] = set()

    def run(self) -> Optional[str]:
        try:
            return super().run()
        finally:
            self._inbox.close()

    def _has_turn(self) -> bool:
        """Makes the inbox, then waits for the turn."""
        while not self._stops.is_set():
            try:
                self._prepare()
                self._inbox.make()
                return super()._has_turn()
            except StoreFailed as error:
                self.fault = str(error)
                self.log.say("store fails", error=self.fault)
                self._refuse_sent(SWEEP_SECONDS)
        return False

    def _serve(self, room: DurableRoom) -> None:
        scripts = {name: self._unfolded for name in self.file.requests}
        most = self.file.limits.waiting_in_all
        self._asks = InboxDesk(room, self._store, self._inbox, scripts, most_waiting=most)
        ear = self._inbox.asks(lambda _: self._queue.put(None))
        try:
            super()._serve(room)
        finally:
            ear.close()

    def _unfolded(self, asked: InboxRequest) -> Sequence[Request]:
        label = label_of(asked.label)
        if label is None or label.request != asked.script:
            raise ValueError("no front has asked so")
        return requests_of(self.file.requests[asked.script], asked.key, asked.values, label, asked.until)

    def _turn(self, room: DurableRoom, messages: Sequence[Message]) -> bool:
        assert self._asks is not None, "the room is open"
        took = self._asks.take()
        if took:
            self._is_settled = False
        is_idle = super()._turn(room, messages)
        told, self._told = sorted(self._told | set(self._news)), set()
        self._asks.tell(told if told or self._changed else None)
        return is_idle and not took

    def _flush(self) -> None:
        self._told |= set(self._news)
        super()._flush()

    def _sweep(self, room: DurableRoom) -> None:
        super()._sweep(room)
        self._inbox.count(room.waiting_count())
        seconds = self.file.store.forget_after
        if seconds:
            self._inbox.forget(datetime.now(timezone.utc) - timedelta(seconds=seconds))

    def _written(self, groups: Sequence[Group], ended: Sequence[Outcome], waiting: Sequence[Waiter]) -> None:
        fresh = {waiter.key for waiter in waiting if waiter.key} - self.book.requests.keys()
        super()._written(groups, ended, waiting)
        for digest in fresh & self.book.requests.keys():
            self.book.belongs(self.book.requests[digest], "")
            self.metrics.puts += 1
