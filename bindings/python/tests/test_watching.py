"""Who watches a room over a store: hooks, what it told, and event loops that go on while the store hangs."""

import asyncio
import contextlib
import os
import sqlite3
import threading
import time
import unittest
from unittest import mock

import entangle
from entangle import stores
from entangle.stores import DurableRoom, Request, SqliteStore

from .booking import FULL, TRIP
from .booking import TABLES as TRIPS
from .test_stores import ANN, BOB, UNTIL, Failing, settle
from .test_ways_out import Counted, WithStores


class Hooks(WithStores):
    def test_groups_are_told_behind_their_write(self):
        heard = []

        def hear(groups):
            with contextlib.closing(sqlite3.connect(self.path)) as connection:
                stood = connection.execute("SELECT last_group FROM entangle_claim").fetchone()
            heard.append(([group.number for group in groups], stood[0], list(told)))

        store, told = Failing(self.path), []
        room = self.room(store, on_groups=hear)
        tickets = room.put_all([Request("pair", ANN), Request("pair", BOB), Request("fail", ANN), Request("add", ANN)])
        room._listen(tickets[0], told.append)
        store.fails = 1
        self.assertRaises(stores.StoreFailed, room.step)
        self.assertEqual(heard, [])
        settle(room)
        self.assertEqual((heard, len(told)), ([([1, 2, 3], 3, [])], 1))
        self.assertEqual([group.number for group in room.groups()], [1, 2, 3])
        self.assertEqual(room.groups(3), room.groups()[2:])
        changed = {name for group in room.groups() for name in group.changes}
        self.assertEqual(changed, {"Counters", "Bookings", "Log"})

    def test_what_hooks_raise_is_logged_and_stops_nothing(self):
        room = self.room(on_groups=mock.Mock(side_effect=RuntimeError), on_step=mock.Mock(side_effect=RuntimeError))
        ticket = room.put("add", ANN)
        with self.assertLogs("entangle", "ERROR") as logged:
            settle(room)
        self.assertEqual((room.wait(ticket).kind, len(logged.records)), ("committed", 3))

    def test_each_step_is_told(self):
        heard = []
        room = self.room(on_step=heard.append)
        room.put_all([Request("pair", ANN), Request("pair", BOB), Request("fail", ANN), Request("alone", ANN, 3)])
        settle(room)
        first, *_, last = heard
        self.assertEqual((first.stepped, first.runs, first.groups, first.commits, first.ended), ("ran", 1, 2, 2, 3))
        self.assertEqual((first.transactions, last.transactions), (1, 0))
        self.assertGreater(first.bytes, len("Ann") + len("Bob's"))
        self.assertEqual((last.stepped, last.runs, last.groups, last.bytes), ("idle", 0, 0, 0))
        for stats in heard:
            times = (stats.in_room, stats.gathering, stats.in_store, stats.telling)
            self.assertTrue(all(0 <= one < 10 for one in times), times)
        self.assertGreater(min(first.in_room, first.in_store), 0)


class Told(WithStores):
    def test_rooms_tell_who_ended_the_last_first(self):
        with entangle.Room("CREATE TABLE T (a INT);") as room:
            script = "BEGIN TRANSACTION; INSERT INTO T VALUES (@a); COMMIT;"
            tickets = [room.put(script, {"a": a}) for a in range(3)]
            lonely = "BEGIN TRANSACTION; SELECT 1 INTO ANSWER A WHERE (2) IN ANSWER A CHOOSE 1; COMMIT;"
            tickets.append(room.put(lonely, {}, UNTIL))
            self.assertEqual((room.ended(), room.waiting(tickets[2])), ([], tickets[2:]))
            settle(room)
            room.withdraw(tickets[3])
            ended = room.ended()
            self.assertEqual((ended[0], sorted(ended), room.waiting()), (tickets[3], tickets, []))
            self.assertEqual(room.batches(tickets), 4 * [None])

    def test_a_room_over_a_store_tells_what_stands(self):
        store = Failing(self.path)
        room = self.room(store)
        ann, bob, eve = room.put_all([Request("add", ANN), Request("add", BOB), Request("pair", ANN, UNTIL, "e")])
        store.fails = 1
        self.assertRaises(stores.StoreFailed, room.step)
        self.assertEqual((room.ended(), room.groups()), ([], []))
        settle(room)
        room.withdraw(eve)
        self.assertEqual((room.ended(), len(room.groups())), ([eve, bob, ann], 2))
        self.assertEqual((room.ticket_of("e"), room.ticket_of("f")), (eve, None))
        later = self.room()
        self.assertEqual((later.ended(), later.groups(), later.ticket_of("e")), ([], [], eve))

    def test_a_restored_room_has_the_endings_of_the_store(self):
        """Over the real library: each ending that was told is the one that the next process tells."""
        room = DurableRoom(TRIPS, SqliteStore(self.path))
        self.addCleanup(room.close)
        rome = TRIP.replace("'LA'", "'Rome'")
        ann, bob, full, eve, gus, gone = room.put_all(
            [
                Request(TRIP, ANN, UNTIL, "ann"),
                Request(TRIP, BOB, UNTIL, "bob"),
                Request(FULL),
                Request(rome, {"me": "Eve", "friend": "Gus"}, 1),
                Request(rome, {"me": "Gus", "friend": "Eve"}, UNTIL),
                Request(TRIP, {"me": "Max", "friend": "nobody"}, UNTIL),
            ]
        )
        rolled = room.put("BEGIN TRANSACTION; DELETE FROM Flights; ROLLBACK;")
        settle(room)
        room.withdraw(gone)
        endings = {ticket: room.wait(ticket) for ticket in (ann, bob, full, eve, gone, rolled)}
        outcomes = {ticket: room.outcome(ticket) for ticket in endings}
        kinds = ["committed", "committed", "failed", "gave up", "withdrawn", "rolled back"]
        self.assertEqual([ending.kind for ending in endings.values()], kinds)
        told = {commit.ticket: commit for group in room.groups() for commit in group.commits}
        self.assertEqual({ticket: outcomes[ticket].answers for ticket in told}, {t: c.answers for t, c in told.items()})
        for _ in range(2):
            later = DurableRoom(TRIPS, SqliteStore(self.path))
            self.addCleanup(later.close)
            self.assertEqual({ticket: later.wait(ticket, 0) for ticket in endings}, endings)
            self.assertEqual({ticket: later.outcome(ticket) for ticket in endings}, outcomes)
            self.assertEqual(later.waiting(), [gus])
            for ticket, outcome in outcomes.items():
                self.assertEqual(later._store.outcome(ticket), outcome)


class Hanging(SqliteStore):
    """A store whose writes hang as long as it is told to."""

    def __init__(self, path):
        super().__init__(path)
        self.may_go = threading.Event()
        self.hangs = threading.Event()
        self.may_go.set()

    def _run(self, sql, parameters=()):
        if sql.startswith("BEGIN") and not self.may_go.is_set():
            self.hangs.set()
            self.may_go.wait(30)
        return super()._run(sql, parameters)


def present_time():
    """The seconds of a clock that stands still while this thread could go on, and the machine has no processor for it,
    where Linux says that."""
    with contextlib.suppress(OSError), open("/proc/thread-self/schedstat", encoding="ascii") as file:
        return time.perf_counter() - int(file.read().split()[1]) / 1e9
    return time.perf_counter()


async def longest_silence(done):
    """For how many seconds an event loop was silent at most, until an event."""
    longest, last = 0.0, present_time()
    while not done.is_set():
        await asyncio.sleep(0.001)
        now = present_time()
        longest, last = max(longest, now - last), now
    return longest


class Loops(WithStores):
    def test_an_event_loop_goes_on_while_the_store_hangs(self):
        """It is silent for less than 20 ms. A busy machine has other silences, so it may try again."""
        room, store = self.hanging()
        for _ in range(10):
            silent, alone, fates = asyncio.run(self.awaited(room, store))
            self.assertEqual([fate.kind for fate in fates], ["committed", "committed", "failed"])
            if silent < 0.02:
                return
        self.fail(f"the loop was silent for {silent:.3f} s, and for {alone:.3f} s while nothing hung")

    def hanging(self):
        store = Hanging(self.path)
        return self.room(store), store

    async def awaited(self, room, store):
        """Awaits the fates of two who wait and of one who has ended, while a put hangs for half a second."""
        failed = await asyncio.to_thread(room.put, "fail", ANN)
        ann = await asyncio.to_thread(room.put, "pair", ANN, UNTIL)
        await asyncio.to_thread(settle, room)
        nothing = threading.Event()
        threading.Timer(0.1, nothing.set).start()
        alone = await longest_silence(nothing)
        store.hangs.clear()
        store.may_go.clear()
        putting = asyncio.create_task(asyncio.to_thread(room.put, "pair", BOB, UNTIL))
        await asyncio.to_thread(store.hangs.wait, 30)
        done = threading.Event()
        watching = asyncio.create_task(longest_silence(done))
        await asyncio.sleep(0.01)
        fates = [asyncio.create_task(room.fate(ticket)) for ticket in (ann, ann, failed)]
        await asyncio.sleep(0.5)
        self.assertFalse(any(fate.done() for fate in fates))
        done.set()
        silent = await watching
        store.may_go.set()
        await putting
        await asyncio.to_thread(settle, room)
        return silent, alone, await asyncio.gather(*fates)

    def test_a_fate_that_is_cancelled_while_the_store_hangs_leaves_nobody(self):
        room, store = self.hanging()

        async def cancelled():
            failed = await asyncio.to_thread(room.put, "fail", ANN)
            await asyncio.to_thread(settle, room)
            store.may_go.clear()
            putting = asyncio.create_task(asyncio.to_thread(room.put, "add", BOB))
            await asyncio.to_thread(store.hangs.wait, 30)
            fate = asyncio.create_task(room.fate(failed))
            await asyncio.sleep(0.05)
            fate.cancel()
            with self.assertRaises(asyncio.CancelledError):
                await fate
            store.may_go.set()
            await putting

        asyncio.run(cancelled())
        self.assertEqual(room._waits.tickets(), [])

    def test_a_wrong_version_that_listens_in_the_loop_is_caught(self):
        async def wrong(room, ticket):
            future = asyncio.get_running_loop().create_future()
            return room._listen(ticket, lambda news: None) or await future

        def opened(test):
            room, store = hanging(test)
            threading.Thread(target=lambda: (store.hangs.wait(30), time.sleep(0.3), store.may_go.set())).start()
            return room, store

        hanging = Loops.hanging
        with mock.patch.object(DurableRoom, "fate", wrong), mock.patch.object(Loops, "hanging", opened):
            with self.assertRaises(AssertionError):
                self.test_an_event_loop_goes_on_while_the_store_hangs()


class Batches(WithStores):
    """In how many batches scripts were, of those with a numbered patience."""

    def test_who_is_tried_in_vain_needs_no_transaction(self):
        store = Counted(self.path)
        room = self.room(store)
        tickets = room.put_all([Request("alone", {"me": f"p{at}"}, 6 + at % 2) for at in range(40)])
        count = store.transactions
        for _ in range(5):
            self.assertEqual(room.step(), "ran")
        self.assertEqual((store.transactions - count, room.state(tickets[0])), (0, entangle.TicketWaits(0)))
        room.step()
        self.assertEqual((store.transactions - count, len(room.waiting())), (1, 20))
        settle(room)
        self.assertEqual((store.transactions - count, room.waiting()), (2, []))

    def test_counts_are_written_by_an_idle_step(self):
        room = self.room()
        (ticket,) = room.put_all([Request("alone", ANN, 9)])
        room.step()
        with mock.patch.object(room._now.room, "step", lambda: "idle"):
            room.step()
        self.assertEqual(room.state(ticket), entangle.TicketWaits(1))
        self.assertEqual(self.room().state(ticket), entangle.TicketWaits(1))

    def test_an_idle_step_asks_nobody(self):
        room = DurableRoom(TRIPS, SqliteStore(self.path))
        self.addCleanup(room.close)
        rome = TRIP.replace("'LA'", "'Rome'")
        room.put_all([Request(rome, {"me": f"p{at}", "friend": f"p{at ^ 1}"}, 1_000) for at in range(40)])
        settle(room)
        with mock.patch.object(room._now.room, "batches", wraps=room._now.room.batches) as asked:
            with mock.patch.object(room._now.room, "state", wraps=room._now.room.state) as asked_too:
                self.assertEqual(room.step(), "idle")
        self.assertEqual((asked.call_count, asked_too.call_count), (0, 0))


if __name__ == "__main__":
    unittest.main()
