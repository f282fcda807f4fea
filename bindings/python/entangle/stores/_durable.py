"""A room whose tables, tickets and fates outlive the process."""

from __future__ import annotations

import gc
import threading
from contextlib import contextmanager, suppress
from datetime import datetime, timezone
from types import TracebackType
from typing import TYPE_CHECKING, Any, Callable, Iterator, Literal, Mapping, NoReturn, Optional, Sequence, Union, cast

from .._errors import Error, Refused, StateError
from .._groups import Group
from .._refusals import BatchIsOn, NobodyWaits, NotBound, RoomError, UnknownTicket
from .._room import EpochReport, Patience, Room, Stepped, _settle as _give
from .._tickets import Ending, Ticket, TicketInBatch, TicketNotRestored, TicketRefusedByStore, TicketState
from .._tickets import TicketUnknown, TicketWaits, checked_ticket, ending_of
from .._values import Row, Value
from .._waits import Broken, News, Tell, Waits, ending
from ._errors import KeyUsedOtherwise, NotRestored, RefusedByStore, StoreFailed, StoreTaken
from ._kept import Loaded, Outcome, Update, UsedKey, Waiter, asked_digest
from ._memory import Memory, Opens, Pending
from ._protocol import Store
from ._requests import Request, checked_time
from ._tables import Table, checked_tables
from ._watched import LOGGER, RowCounts, StepStats, Watch, warn_of_rows

if TYPE_CHECKING:
    import asyncio

_CLOSED = "the room is closed"
_NEVER = "the ticket was never given out"


class DurableRoom:
    """A room over a store: who was told a ticket, a withdrawal or a fate finds it there again, whatever happened to the
    process meanwhile.

    It has the calls of a Room. Each writes what it did in one transaction of the store, and only then tells it. Who
    begins a process anew opens another DurableRoom over the same store. It goes on from there: with the tables, with
    all who wait, under their tickets, and with the fates of all others.

    Where the store fails, a call raises StoreFailed. Nothing is told then, and no step made, until the transaction went
    through: each later call makes it again first. So mend what is wrong, and call again. It is RefusedByStore if a
    group breaks a constraint of the database: then set_aside() gets past it. Where another process has opened a room
    over the store, each call that writes raises StoreTaken, and from then on each call: this one is over. check() finds
    that out without doing anything.

    A commit of memory whose transaction didn't go through before the process ended is lost, and nobody was told of it;
    its scripts still wait in the store. A call that is interrupted, as by KeyboardInterrupt, leaves a room that goes
    on: what the call began is done or undone by the next one.

    Threads may share one: a lock inside gives it to one call at a time, and a call may take as long as the store's
    transaction does. In an event loop make calls in a thread (`asyncio.to_thread`), and await fate().
    """

    def __init__(
        self,
        tables: Sequence[Table],
        store: Store,
        *,
        most_waiters: int = 100_000,
        unrestored: Literal["refuse", "set aside"] = "refuse",
        on_groups: Optional[Callable[[Sequence[Group]], object]] = None,
        on_step: Optional[Callable[[StepStats], object]] = None,
        opens: Opens = cast(Any, Room),
    ) -> None:
        """Claims the store, makes those of its tables that aren't there, and opens a room over their rows.

        A script that can't wait any more, as the tables are declared now, raises NotRestored; or, with `unrestored="set
        aside"`, it ends as TicketNotRestored. Raises NotLoadable for the first thing in a table that no room can have;
        StoreFailed; and what Room() raises. Then nothing has changed, and whoever had the store has it still.

        `on_groups` is called with the groups of each write, in order, once the store has them, before anybody is told;
        `on_step` behind each step. Both are called by the thread that makes the call, which has the room meanwhile. If
        a call was interrupted, they may be called again, with the same groups. What they raise is logged.
        """
        if unrestored not in ("refuse", "set aside"):
            raise ValueError(f'unrestored is "refuse" or "set aside", not {unrestored!r}')
        self._lock = threading.RLock()
        self._waits = Waits()
        self._store = store
        self._tables = {table.name: table for table in checked_tables(tables)}
        self._most_waiters, self._unrestored, self._opens = most_waiters, unrestored, opens
        self._on_groups, self._on_step = on_groups, on_step
        self._over: Optional[Broken] = None
        self._watch, self._has_many_rows = Watch(), False
        # who is to be set aside before anything else
        self._aside: Optional[Mapping[Ticket, Ending]] = None
        self._now = self._opened(lambda ready: store.load(tuple(self._tables.values()), ready), {})
        self._warn()

    def _opened(
        self, load: Callable[[Callable[[Loaded], Sequence[Outcome]]], Loaded], aside: Mapping[Ticket, Ending]
    ) -> Memory:
        """A room over what a store has, that is made before the store is claimed. Those of `aside` end so."""
        made: list[Memory] = []
        ended: list[Outcome] = []

        def ready(loaded: Loaded) -> Sequence[Outcome]:
            while made:  # the transaction is made again
                made.pop().room.close()
            memory, ended[:] = self._restored(loaded, aside)
            made.append(memory)
            return ended

        try:
            with _collecting_later():
                loaded = load(ready)
        except BaseException:
            while made:
                made.pop().room.close()
            raise
        for outcome in ended:
            LOGGER.warning("ticket %d ended: %s", outcome.ticket.number, outcome.ending)
        LOGGER.info("opened under claim %d: %d wait", loaded.claim, len(made[0].waiting))
        return made[0]

    def _restored(self, loaded: Loaded, aside: Mapping[Ticket, Ending]) -> tuple[Memory, list[Outcome]]:
        """A room that goes on from what a store has, and those who end by that."""
        room = self._opens(
            "\n".join(table.declaration for table in self._tables.values()),
            loaded.rows,
            epoch=loaded.epoch,
            next_ticket=Ticket(loaded.next_ticket),
            next_group=loaded.last_group + 1,
            most_waiters=self._most_waiters,
        )
        try:
            memory, ended = Memory(room, loaded), list[Outcome]()
            faults: dict[Ticket, Error] = {}
            for waiter in loaded.waiting:
                if waiter.ticket in aside:
                    ended.append(Outcome(waiter.ticket, None, aside[waiter.ticket]))
                    continue
                try:
                    room.restore(waiter.ticket, waiter.script, waiter.values, waiter.patience, waiter.batches)
                    memory.note(waiter)
                except (Refused, RoomError) as error:
                    if not isinstance(error, (Refused, NotBound)):
                        raise NotRestored((waiter.ticket.number,)) from error
                    faults[waiter.ticket] = error
            if faults and self._unrestored == "refuse":
                raise NotRestored([ticket.number for ticket in faults]) from next(iter(faults.values()))
            ended += [Outcome(one, None, TicketNotRestored(_said_of(error))) for one, error in faults.items()]
            return memory, sorted(ended, key=lambda outcome: outcome.ticket)
        except BaseException:
            room.close()
            raise

    # ---- what is done

    def put(
        self,
        script: str,
        values: Optional[Mapping[str, Value]] = None,
        patience: Union[int, Patience] = Patience.AS_WRITTEN,
        key: Optional[str] = None,
        until: Optional[datetime] = None,
    ) -> Ticket:
        """Puts a script, as Room.put() does, and gives its ticket once the store has it. From the point in time `until`
        on expire() withdraws it.

        A request with a key is put once: who puts the same script with the same values and a key that was used gets the
        ticket of then, whether that waits or ended.

        Raises what Room.put() raises, and KeyUsedOtherwise for a key that was used for another script or other values:
        then nothing has changed. Raises StoreFailed: then put a request with a key again; if the first time comes to
        stand, it gets the same ticket. One without a key will be withdrawn before anything else is done, so it may be
        put again as well; but if the process ends before that, it may wait there.
        """
        (ticket,) = self.put_all([Request(script, {} if values is None else values, patience, key, until)])
        return ticket

    def put_all(self, requests: Sequence[Request]) -> list[Ticket]:
        """Puts requests, all or none, in one transaction, which costs little more than that of one; gives their
        tickets. Raises what put() raises for the first that can't be put."""
        (tickets,) = self.put_each([requests])
        if isinstance(tickets, Error):
            raise tickets
        return tickets

    def put_each(self, units: Sequence[Sequence[Request]]) -> list[Union[list[Ticket], Error]]:
        """Puts units of requests in one transaction, each unit as put_all() does: gives of each its tickets, or the
        error for which none of it was put. Raises what put() raises of the store."""
        with self._lock:
            self._settle()
            now, came = self._now, dict[Ticket, Waiter]()
            used = self._used_keys([request for unit in units for request in unit])
            told = [self._put_unit(unit, used, came) for unit in units]
            if came:
                orphans = frozenset(ticket for ticket, waiter in came.items() if waiter.key is None)
                update = Update((), (), tuple(came.values()), next(reversed(came)).number + 1, now.epoch)
                now.pending = Pending(update, now.rows, orphans=orphans)
                self._write(now.pending)
                now.pending = None
            return told

    def _used_keys(self, requests: Sequence[Request]) -> dict[str, Union[Waiter, UsedKey]]:
        """Those keys of requests that were used before, by whoever waits or has ended."""
        keys = {request.key for request in requests if request.key is not None}
        used: dict[str, Union[Waiter, UsedKey]] = {
            key: self._now.waiting[self._now.keys[key]] for key in keys if key in self._now.keys
        }
        others = sorted(keys - used.keys())
        return {**used, **self._store.tickets_of(others)} if others else used

    def _put_unit(
        self, unit: Sequence[Request], used: dict[str, Union[Waiter, UsedKey]], came: dict[Ticket, Waiter]
    ) -> Union[list[Ticket], Error]:
        """Puts requests into the room, all or none; whose key was used isn't put again."""
        tickets: list[Ticket] = []
        new: dict[Ticket, Waiter] = {}
        keys: dict[str, Waiter] = {}
        try:
            for request in unit:
                key = request.key
                found = None if key is None else keys.get(key) or used.get(key)
                if found is not None:
                    _check_same(request, found)
                    tickets.append(found.ticket)
                    continue
                values = dict(request.values)
                ticket = self._now.room.put(request.script, values, request.patience)
                waiter = Waiter(ticket, request.script, values, request.patience, 0, key, request.until)
                new[ticket] = waiter
                if key is not None:
                    keys[key] = waiter
                tickets.append(ticket)
        except Error as error:
            self._now.roll_back(list(new))
            return error
        used.update(keys)
        came.update(new)
        return tickets

    def withdraw(self, ticket: Ticket) -> None:
        """A script waits no more, and will never commit, once this returns.

        Raises NobodyWaits if nobody waits under this ticket, and BatchIsOn. Raises OutOfMemory and StoreFailed: then
        it is withdrawn before anything else is done, and state() tells whether it was.
        """
        if not self.withdraw_all([ticket]):
            raise NobodyWaits("nobody waits under this ticket")

    def withdraw_all(self, tickets: Sequence[Ticket]) -> list[Ticket]:
        """Withdraws scripts in one transaction, and gives the tickets of those who waited; others aren't touched.
        Raises what withdraw() raises; if one is in a batch that isn't over, none is withdrawn."""
        for ticket in tickets:
            checked_ticket(ticket)
        with self._lock:
            self._settle()
            return self._withdrawn([ticket for ticket in dict.fromkeys(tickets) if ticket in self._now.waiting])

    def expire(self, time: Optional[datetime] = None) -> list[Ticket]:
        """Withdraws, in one transaction, those who wait until this point in time or an earlier one, and gives their
        tickets; None is the present time. So call it each second. Raises what withdraw_all() raises."""
        at = datetime.now(timezone.utc) if time is None else checked_time(time, "a point in time")
        with self._lock:
            self._settle()
            return self._withdrawn(self._now.due_at(at))

    def _withdrawn(self, tickets: Sequence[Ticket]) -> list[Ticket]:
        """Withdraws those of these who wait."""
        states = {ticket: self._now.room.state(ticket) for ticket in tickets}
        if any(isinstance(state, TicketInBatch) for state in states.values()):
            raise BatchIsOn("a batch isn't over")
        left = [ticket for ticket, state in states.items() if ending_of(state) is None]
        self._now.leaving.update(left)
        self._settle()
        return left

    def step(self) -> Stepped:
        """Makes a step, as Room.step() does, and tells of whom it ended once the store has that. So make steps until
        one is "idle". Raises what Room.step() raises; what was done until then is written too. Raises StoreFailed.

        In how many batches scripts were is written by a step that is "idle", and with the 64th that isn't.
        """
        with self._lock:
            self._settle()
            self._watch = watch = Watch()
            stepped: Optional[Stepped] = None
            self._now.uncounted += 1
            try:
                with watch.phase("room"):
                    stepped = self._now.room.step()
                if stepped != "ran":
                    self._now.uncounted -= 1
            finally:
                self._settle(stepped == "idle")
            if self._on_step is not None:
                stats = watch.stats(stepped)
                self._hook(lambda hook: hook(stats), self._on_step)
            self._warn()
            return stepped

    def further(self) -> None:
        """Has those go on who are cut, as Room.further() does. Raises OutOfMemory and StoreFailed."""
        with self._lock:
            self._settle()
            self._now.room.further()

    def turn(self, *drained: str) -> int:
        """Ends the present epoch, as Room.turn() does. Only tables that collect can be drained: the store keeps their
        rows."""
        for name in drained:
            if name not in self._tables or not self._tables[name].collects:
                raise ValueError(f"{name} isn't a table that collects")
        with self._lock:
            self._settle()
            ended = self._now.room.turn(*drained)
            self._now.rows = {**self._now.rows, **dict.fromkeys(drained, 0)}
            self._settle()
            self._warn()
            return ended

    def set_aside(self, tickets: Sequence[Ticket]) -> list[Ticket]:
        """Gets past a group that the store refuses: these tickets end as TicketRefusedByStore, in one transaction, and
        the room goes on from the tables of the store. So whatever was done in memory since the last write is as though
        it had never been, and the group's other tickets wait again. Gives the tickets that ended so.

        Call it behind RefusedByStore, with all or some of the tickets that this names. Raises ValueError for others,
        StateError if no group is refused, StoreTaken, and what DurableRoom() raises, such as NotLoadable. Raises
        StoreFailed: then it is done before anything else is.
        """
        wanted = {ticket for ticket in tickets if checked_ticket(ticket) >= 0}
        with self._lock:
            self._check_open()
            if self._aside is None or wanted != set(self._aside):
                self._set_aside()
                self._aside = self._to_be_set_aside(wanted)
            self._set_aside()
            return sorted(ticket for ticket in wanted if ticket not in self._now.waiting)

    def _to_be_set_aside(self, wanted: set[Ticket]) -> Mapping[Ticket, Ending]:
        """How those end who are to be set aside."""
        refused = self._now.refused
        if refused is None:
            raise StateError("the store refuses no group")
        if not wanted or not wanted <= set(refused.tickets):
            raise ValueError("only tickets of the group that the store refuses can be set aside")
        return {ticket: TicketRefusedByStore(str(refused)) for ticket in wanted}

    def _set_aside(self) -> None:
        """Opens the room over what the store has, where those end who are to be set aside, and tells who ended. That
        may be done again, if it is interrupted."""
        if self._aside is None:
            return
        try:
            with self._ending_if_taken():
                self._now = self._opened(self._store.reload, self._aside)
        except StoreFailed:
            raise
        except Error:  # nothing has changed
            self._aside = None
            raise
        for ticket in self._waits.tickets():
            if ticket not in self._now.waiting:
                self._waits.tell(ticket, self._news(ticket))
        self._aside = None

    def _news(self, ticket: Ticket) -> News:
        """How a ticket ended, or why that can't be told."""
        try:
            return ending_of(self.state(ticket)) or Broken(UnknownTicket, _NEVER)
        except Error as error:
            return Broken(type(error), str(error))

    def forget(self, before: datetime) -> int:
        """Takes the tickets out of the store that ended before a point in time, with their answers, and gives how many
        these are. Who waits stays. Of a ticket with a key its ending stays, and the digest of the key: who puts the
        same request again gets the ticket of then. It goes in pieces of 1,000, between which other calls are served.

        Raises StoreFailed and StoreTaken; what was forgotten until then stays so.
        """
        return self._in_pieces(self._store.forget, checked_time(before, "a point in time"))

    def forget_keys(self, before: datetime) -> int:
        """Takes out what forget() left of tickets that ended before a point in time, and gives how many these are. Call
        it once no request of then will be put again: it would be put anew. Raises what forget() raises."""
        return self._in_pieces(self._store.forget_keys, checked_time(before, "a point in time"))

    def _in_pieces(self, forget: Callable[[datetime, int], tuple[int, Optional[int]]], before: datetime) -> int:
        """Forgets piece by piece; how many are forgotten."""
        count, first = 0, cast(Optional[int], 0)
        while first is not None:
            with self._lock:
                self._settle()
                with self._ending_if_taken():
                    forgotten, first = forget(before, first)
            count += forgotten
        if count:
            LOGGER.info("forgot %d that ended before %s", count, before)
        return count

    def check(self) -> None:
        """Raises StoreTaken if another process has the store, and StoreFailed if it can't be asked."""
        with self._lock:
            self._settle()
            self._check_held()

    # ---- what is told

    def state(self, ticket: Ticket) -> TicketState:
        """How a ticket stands, as the store has it. Raises StoreFailed."""
        number = checked_ticket(ticket)
        with self._lock:
            self._check_open()
            waiter = self._now.waiting.get(ticket)
            if waiter is None:
                outcome = self._store.outcome(Ticket(number))
                if outcome is not None:
                    return outcome.ending
                self._check_held()  # another process may have given it out
                return TicketUnknown()
            state = self._now.room.state(ticket)
            # what ended or was counted in memory alone isn't told
            is_over = ending_of(state) is not None or isinstance(state, TicketUnknown)
            return TicketWaits(waiter.batches) if is_over or isinstance(state, TicketWaits) else state

    def outcome(self, ticket: Ticket) -> Optional[Outcome]:
        """How a script ended, and what its statements were answered: of each that ever ended in this store, but that
        one which was forgotten has no answers any more. None if it hasn't ended, or nobody has the ticket. Raises
        StoreFailed."""
        checked_ticket(ticket)
        with self._lock:
            self._check_open()
            return None if ticket in self._now.waiting else self._store.outcome(ticket)

    def ticket_of(self, key: str) -> Optional[Ticket]:
        """The ticket of the request with this key, if there is one. Raises StoreFailed."""
        with self._lock:
            self._check_open()
            return self._now.keys.get(key) or self._store.ticket_of(key)

    def why(self, ticket: Ticket) -> str:
        """How a ticket stands, in words. Raises StoreFailed."""
        with self._lock:
            state = self.state(ticket)
            waits_here = ticket in self._now.waiting and not ending_of(self._now.room.state(ticket))
            return self._now.room.why(ticket) if waits_here else state.kind

    def waiting(self) -> list[Ticket]:
        """The tickets under which somebody waits, ascending, as the store has them."""
        with self._lock:
            self._check_open()
            return sorted(self._now.waiting)

    def waiting_count(self) -> int:
        """How many scripts wait, as the store has it."""
        with self._lock:
            self._check_open()
            return len(self._now.waiting)

    def waiting_with(self, keys: Sequence[str]) -> dict[str, Ticket]:
        """The tickets under which those of the requests with these keys wait that wait still, as the store has it."""
        with self._lock:
            self._check_open()
            return {key: self._now.keys[key] for key in keys if key in self._now.keys}

    def ended(self) -> list[Ticket]:
        """The last 1,024 tickets that ended while this room was open, as the store has them, the last first."""
        with self._lock:
            self._check_open()
            return list(self._now.ended)

    def groups(self, first: int = 0) -> list[Group]:
        """The groups from this number on, of the last 1,024 that came while this room was open, as the store has them.
        `on_groups` tells each."""
        with self._lock:
            self._check_open()
            return [group for group in self._now.groups if group.number >= first]

    def rows(self) -> RowCounts:
        """How many rows the tables have, of how many. From three quarters on the room warns: NearlyFull, and a line of
        the logger `entangle`."""
        with self._lock:
            self._check_open()
            return RowCounts(self._now.rows)

    def explain(self, script: str, values: Optional[Mapping[str, Value]] = None) -> Optional[str]:
        """What Room.explain() says."""
        with self._lock:
            self._check_open()
            return self._now.room.explain(script, {} if values is None else values)

    def table(self, name: str) -> list[Row]:
        """The rows of a table, ascending; of one that collects those since the last turn that drained it, or since the
        process began. Raises Refused (E401) if no table has this name, and StoreFailed."""
        with self._lock:
            self._settle()
            return self._now.room.table(name)

    def epoch(self) -> int:
        """The number of the present epoch. Epochs of different processes have different numbers."""
        with self._lock:
            self._check_open()
            return self._now.room.epoch()

    def report(self, version: int = 1) -> Optional[EpochReport]:
        """The report of the last epoch that ended in this process: what Room.report() gives."""
        with self._lock:
            self._settle()
            return self._now.room.report(version)

    def wait(self, ticket: Ticket, timeout: Optional[float] = None) -> Ending:
        """Waits until a ticket has ended and the store has that, and tells how.

        Raises TimeoutError if it hasn't after so many seconds: then it waits on. Raises UnknownTicket if it was never
        given out; StoreTaken or StateError, maybe meanwhile; and StoreFailed.
        """
        ended = threading.Event()
        said: list[News] = []

        def tell(told: News) -> None:
            said.append(told)
            ended.set()

        told = self._listen(ticket, tell)
        if told is None:
            try:
                if not ended.wait(timeout):
                    raise TimeoutError(f"ticket {ticket.number} waits on")
            finally:
                self._waits.forget(ticket, tell)
            told = said[0]
        return ending(told)

    async def fate(self, ticket: Ticket) -> Ending:
        """How a ticket ends, once it has and the store has that, with the errors of wait(). The event loop goes on also
        while the store doesn't answer. To cancel it withdraws nothing: the ticket waits on."""
        import asyncio

        checked_ticket(ticket)
        loop = asyncio.get_running_loop()
        future: asyncio.Future[News] = loop.create_future()

        def tell(told: News) -> None:
            with suppress(RuntimeError):  # the loop is closed: nobody is there to be told
                loop.call_soon_threadsafe(_give, future, told)

        self._waits.add(ticket, tell)
        try:
            # who waits will be told; of others a thread asks the store, behind whatever call has the room
            if self._over is not None or ticket not in self._now.waiting:
                told = await asyncio.to_thread(self._told, ticket)
                if told is not None:
                    return ending(told)
            return ending(await future)
        finally:
            self._waits.forget(ticket, tell)

    def _told(self, ticket: Ticket) -> Optional[News]:
        """How a ticket ended; None if it waits."""
        with self._lock:
            state = self.state(ticket)
            if isinstance(state, TicketUnknown):
                raise UnknownTicket(_NEVER)
            return ending_of(state)

    def _listen(self, ticket: Ticket, tell: Tell) -> Optional[News]:
        """How a ticket ended. If it hasn't, that is told by this call once it has."""
        with self._lock:
            told = self._told(ticket)
            if told is None:
                self._waits.add(ticket, tell)
            return told

    # ---- the store

    def _check_open(self) -> None:
        """Raises StateError or StoreTaken if the room is over."""
        if self._over is not None:
            raise self._over.kind(self._over.sentence)

    def _check_held(self) -> None:
        """Raises StoreTaken, and ends the room, if another process has the store."""
        with self._ending_if_taken():
            self._store.check()

    @contextmanager
    def _ending_if_taken(self) -> Iterator[None]:
        """Ends the room if a call of the store raises StoreTaken."""
        try:
            yield
        except StoreTaken as error:
            LOGGER.warning("the room is over: %s", error)
            self._end(Broken(StoreTaken, str(error)))
            raise

    def _settle(self, is_idle: bool = False) -> None:
        """Has all that the room did written into the store, and told. Raises StoreFailed, StoreTaken or StoreDiffers:
        then what is to be written next stays as it is."""
        self._check_open()
        self._set_aside()
        now = self._now
        while True:
            if now.pending is None:
                with self._watch.phase("gathering"):
                    now.pending = now.gathered(is_idle)
            if now.pending is None:
                return
            self._write(now.pending)
            now.leaving.update(now.pending.orphans)
            now.pending = None

    def _write(self, pending: Pending) -> None:
        """Writes what is pending, and tells it. That may be done again, if it is interrupted."""
        update, now = pending.update, self._now
        try:
            with self._watch.phase("store"), self._ending_if_taken():
                self._store.apply(
                    update.groups, update.ended, update.waiting, next_ticket=update.next_ticket, epoch=update.epoch
                )
        except RefusedByStore as error:
            now.refused = error
            raise
        now.refused = None
        with self._watch.phase("telling"):
            now.stands(pending)
            if update.groups and self._on_groups is not None:
                self._hook(lambda hook: hook(update.groups), self._on_groups)
            for outcome in update.ended:
                self._waits.tell(outcome.ticket, outcome.ending)
        self._watch.updates.append(update)

    def _hook(self, call: Callable[[Any], object], hook: Any) -> None:
        """Calls what somebody wants to be called; what it raises stops nothing."""
        try:
            call(hook)
        except Exception:
            LOGGER.exception("a hook of the room raises")

    def _warn(self) -> None:
        """Warns once that the tables have many rows, and again if they had fewer meanwhile."""
        rows, was_warned = RowCounts(self._now.rows), self._has_many_rows
        self._has_many_rows = rows.are_many
        if rows.are_many and not was_warned:
            warn_of_rows(rows)

    # ---- the end

    def _end(self, why: Broken) -> None:
        """All that wait are told why nothing more comes."""
        self._over = self._over or why
        for ticket in self._waits.tickets():
            self._waits.tell(ticket, self._over)

    def close(self) -> None:
        """Frees the room and closes the store. All that wait for a ticket raise StateError, and so does each later
        call. What didn't go into the store until now is lost, and was never told."""
        with self._lock:
            self._end(Broken(StateError, _CLOSED))
            self._now.room.close()
            self._store.close()

    def __enter__(self) -> DurableRoom:
        return self

    def __exit__(
        self,
        kind: Optional[type[BaseException]],
        error: Optional[BaseException],
        trace: Optional[TracebackType],
    ) -> None:
        self.close()

    def __copy__(self) -> NoReturn:
        raise TypeError("a room can't be copied")

    def __deepcopy__(self, memo: object) -> NoReturn:
        raise TypeError("a room can't be copied")

    def __reduce_ex__(self, protocol: object) -> NoReturn:
        raise TypeError("a room can't be pickled")


@contextmanager
def _collecting_later() -> Iterator[None]:
    """Has Python look for garbage behind what is done within it: hundreds of thousands of objects come there to stay,
    and would be looked through again and again."""
    was_enabled = gc.isenabled()
    gc.disable()
    try:
        yield
    finally:
        if was_enabled:
            gc.enable()


def _check_same(request: Request, used: Union[Waiter, UsedKey]) -> None:
    """Raises KeyUsedOtherwise if a key was used for another script or other values."""
    if isinstance(used, Waiter):
        is_same = request.script == used.script and dict(request.values) == used.values
    else:
        is_same = used.asked is None or used.asked == asked_digest(request.script, request.values)
    if not is_same:
        raise KeyUsedOtherwise(request.key or "", used.ticket)


def _said_of(error: Error) -> str:
    """Why a script can't wait, in words that a store keeps."""
    explanation = error.explanation if isinstance(error, Refused) else ""
    return (explanation.rstrip("\n") or str(error)).replace("\0", "")
