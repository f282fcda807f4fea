"""Threads and event loops that wait in rooms."""

import asyncio
import gc
import threading
import time
import unittest
from unittest import mock

import entangle

from .rooms import FLIGHT, TABLES, TRIP, Stepping, WithRooms, put, settle, trip


class Waits(WithRooms, unittest.TestCase):
    """Threads that wait."""

    def test_threads_share_a_room(self):
        room, ends = self.room(), []

        def book(me, friend):
            ticket = put(room, f"p{me}", f"p{friend}")
            told()
            ends.append(room.wait(ticket, 60).kind)

        with Stepping(room) as told:
            people = [(2 * pair + one, 2 * pair + 1 - one) for pair in range(16) for one in range(2)]
            threads = [threading.Thread(target=book, args=pair) for pair in people]
            for thread in threads:
                thread.start()
            for thread in threads:
                thread.join()
        self.assertEqual((ends, len(room.table("Bookings")), room.waiting()), (32 * ["committed"], 32, []))

    def test_a_wait_has_a_deadline(self):
        room = self.room()
        mickey = put(room, "Mickey", "Minnie")
        settle(room)
        begun = time.monotonic()
        for timeout in (0.05, 0, -1):
            self.assertRaises(TimeoutError, room.wait, mickey, timeout)
        self.assertGreaterEqual(time.monotonic() - begun, 0.05)
        self.assertEqual(room.state(mickey), entangle.TicketLonely(demand=0))
        self.assertFalse(room._waits.tickets())
        put(room, "Minnie", "Mickey")
        settle(room)
        self.assertEqual(room.wait(mickey, 0).kind, "committed")
        self.assertRaises(entangle.UnknownTicket, room.wait, entangle.Ticket(3))

    def test_how_a_ticket_ended_is_kept_for_a_while(self):
        room, said = self.room(most_ended=1), []
        tickets = [put(room, "Mickey", "Minnie"), put(room, "Minnie", "Mickey")]
        for ticket in tickets:
            room._listen(ticket, said.append)
        settle(room)
        self.assertEqual(sorted(type(told).__name__ for told in said), ["Broken", "TicketCommitted"])
        self.assertEqual(sorted(room.state(ticket).kind for ticket in tickets), ["committed", "unknown"])
        room, said = self.room(most_ended=0), []
        room._listen(put(room, "Eve", "Finn"), said.append)
        settle(room)
        self.assertEqual(said, [])
        room.withdraw(entangle.Ticket(1))
        self.assertEqual(len(said), 1)

    def test_a_step_that_finds_no_memory_tells_who_ended(self):
        room, library, said = self.room(), entangle._room.LIBRARY, []
        step = library.ent_c_room_step

        def stops(*given):
            step(*given)
            return entangle._library.OUT_OF_MEMORY

        def is_busy(place, ticket, refusal):
            refusal._obj.value = 13
            return entangle._library.REFUSED

        room._listen(put(room, "Mickey", "Minnie"), said.append)
        put(room, "Minnie", "Mickey")
        with mock.patch.object(library, "ent_c_room_step", stops):
            self.assertRaises(entangle.OutOfMemory, room.step)
        self.assertEqual([told.kind for told in said], ["committed"])
        with mock.patch.object(library, "ent_c_room_withdraw", is_busy):
            self.assertRaises(entangle.BatchIsOn, room.withdraw, entangle.Ticket(1))

    def test_no_step_asks_for_ends_that_are_known(self):
        room = self.room()
        for fno in range(100):
            room.put(FLIGHT, {"fno": fno, "dest": "Rome"})
        settle(room)
        library = entangle._room.LIBRARY
        with mock.patch.object(library, "ent_c_room_ended", wraps=library.ent_c_room_ended) as asked:
            self.assertEqual((room.step(), asked.call_count), ("idle", 1))
            room.withdraw(put(room, "Mickey", "Minnie"))
            self.assertEqual(asked.call_count, 3)

    def test_a_closed_room_ends_all_waits(self):
        room, ends = self.room(), []
        mickey = put(room, "Mickey", "Minnie")

        def wait():
            try:
                room.wait(mickey)
            except entangle.StateError as error:
                ends.append(str(error))

        threads = [threading.Thread(target=wait) for _ in range(2)]
        for thread in threads:
            thread.start()
        while len(room._waits._of_ticket.get(mickey, [])) < 2:
            time.sleep(0.001)
        room.close()
        for thread in threads:
            thread.join()
        self.assertEqual(ends, 2 * ["the room is closed"])
        room.close()
        for call in (
            lambda: put(room, "Mickey", "Minnie"),
            lambda: room.restore(mickey, TRIP, trip("Mickey", "Minnie")),
            lambda: room.withdraw(mickey),
            lambda: room.state(mickey),
            lambda: room.wait(mickey),
            lambda: room.submissions(mickey),
            lambda: room.why(mickey),
            lambda: room.explain("BEGIN"),
            lambda: room.table("Flights"),
            lambda: room.turn("Flights"),
            room.step,
            room.epoch,
            room.turn,
            room.report,
            room.waiting,
        ):
            self.assertRaisesRegex(entangle.StateError, "the room is closed", call)


class Fates(WithRooms, unittest.IsolatedAsyncioTestCase):
    """Event loops that wait."""

    async def test_friends_await_their_fates(self):
        room = self.room()

        async def book(me, friend):
            ticket = put(room, me, friend)
            told()
            return (await room.fate(ticket)).kind

        with Stepping(room) as told:
            pairs = [(f"p{one}", f"p{one ^ 1}") for one in range(32)]
            self.assertEqual(await asyncio.gather(*(book(*pair) for pair in pairs)), 32 * ["committed"])
        self.assertEqual((len(room.table("Bookings")), room._waits.tickets()), (32, []))

    async def test_steps_may_be_made_in_the_loop_too(self):
        room = self.room()
        mickey = put(room, "Mickey", "Minnie")
        fate = asyncio.ensure_future(room.fate(mickey))
        await asyncio.sleep(0)
        self.assertEqual(room._waits.tickets(), [mickey])
        put(room, "Minnie", "Mickey")
        self.assertFalse(fate.done())
        settle(room)
        self.assertEqual((await fate).kind, "committed")
        self.assertEqual(await room.fate(mickey), room.state(mickey))

    async def test_a_cancelled_wait_withdraws_nothing(self):
        room = self.room()
        mickey = put(room, "Mickey", "Minnie")
        with self.assertRaises(asyncio.TimeoutError):
            await asyncio.wait_for(room.fate(mickey), 0.02)
        fate = asyncio.ensure_future(room.fate(mickey))
        await asyncio.sleep(0)
        fate.cancel()
        with self.assertRaises(asyncio.CancelledError):
            await fate
        self.assertEqual((room._waits.tickets(), room.state(mickey).kind), ([], "waits"))
        put(room, "Minnie", "Mickey")
        settle(room)
        self.assertEqual((await room.fate(mickey)).kind, "committed")

    async def test_a_wait_is_cancelled_while_it_is_told(self):
        room = self.room()
        eve = put(room, "Eve", "Finn")
        fate = asyncio.ensure_future(room.fate(eve))
        await asyncio.sleep(0)
        said = []
        asyncio.get_running_loop().set_exception_handler(lambda _, context: said.append(context))
        room.withdraw(eve)
        fate.cancel()
        with self.assertRaises(asyncio.CancelledError):
            await fate
        await asyncio.sleep(0)
        self.assertEqual((room._waits.tickets(), said), ([], []))

    async def test_errors_are_awaited_too(self):
        room = self.room()
        with self.assertRaises(entangle.UnknownTicket):
            await room.fate(entangle.Ticket(9))
        with self.assertRaises(TypeError):
            await room.fate(9)
        fates = [asyncio.ensure_future(room.fate(put(room, "Mickey", "Minnie"))) for _ in range(2)]
        await asyncio.sleep(0)
        room.close()
        for fate in fates:
            with self.assertRaises(entangle.StateError):
                await fate
        with self.assertRaises(entangle.StateError):
            await room.fate(entangle.Ticket(1))


class Loops(unittest.TestCase):
    """Event loops that come and go."""

    def test_a_loop_may_be_gone_when_it_would_be_told(self):
        with entangle.Room(TABLES) as room:
            loop = asyncio.new_event_loop()
            coroutine = room.fate(put(room, "Mickey", "Minnie"))
            task = loop.create_task(coroutine)
            loop.run_until_complete(asyncio.sleep(0))
            loop.close()
            room.withdraw(entangle.Ticket(1))
            self.assertFalse(task.done())
            task._log_destroy_pending = False
            coroutine.close()

    def test_a_room_that_nobody_has_any_more_is_freed(self):
        for _ in range(100):
            room = entangle.Room(TABLES)
            put(room, "Mickey", "Minnie")
        del room
        gc.collect()
