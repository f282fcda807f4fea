"""A call of a room over a store may be interrupted at any line: the room goes on, and what was told stands."""

import os
import sqlite3
import sys
import tempfile
import unittest
from dataclasses import replace
from datetime import datetime, timezone
from unittest import mock

import entangle
from entangle import stores
from entangle.stores import DurableRoom, Request, SqliteStore, Table, _durable, _memory, _sql

from .fake_room import FakeRoom

PACKAGE = os.path.dirname(entangle.__file__)
TRACED = {os.path.join(PACKAGE, "_waits.py")} | {
    os.path.join(PACKAGE, "stores", f"{name}.py") for name in ("_durable", "_memory", "_sql", "_sqlite")
}
TABLES = [
    Table("Counters", {"name": "TEXT", "n": "INT"}, initial=[("all", 0)]),
    Table("Bookings", {"who": "TEXT", "fno": "INT"}),
    Table("Log", {"n": "INT", "who": "TEXT"}, collects=True),
]
UNTIL = entangle.Patience.UNTIL_WITHDRAWN
SOON = datetime(2100, 1, 1, tzinfo=timezone.utc)
MEMORY = "/dev/shm" if os.access("/dev/shm", os.W_OK) else None


class Interrupted:
    """Raises KeyboardInterrupt at the line of a number, from 1, of those that are traced. A line counts when it comes
    for the first time."""

    def __init__(self, number):
        self.left, self.seen = number, set()

    def __enter__(self):
        sys.settrace(self.calls)

    def __exit__(self, kind, error, trace):
        sys.settrace(None)
        return kind is KeyboardInterrupt

    def calls(self, frame, event, given):
        is_wrong_version = frame.f_code.co_name.startswith("wrong_")
        return self.lines if is_wrong_version or frame.f_code.co_filename in TRACED else None

    def lines(self, frame, event, given):
        if event == "line":
            place = frame.f_code, frame.f_lineno
            self.left -= place not in self.seen
            self.seen.add(place)
            if self.left == 0:
                raise KeyboardInterrupt
        return self.lines


def pair(me, friend):
    return Request("pair", {"me": me, "friend": friend}, UNTIL, me)


class Life:
    """A room in which somebody waits for a partner, and is listened for; and a call that is interrupted."""

    def __init__(self, path):
        self.path, self.told = path, []
        self.room = DurableRoom(TABLES, SqliteStore(path), opens=FakeRoom)
        requests = [pair("Ann", "Bob"), pair("Eve", "nobody"), Request("pair", pair("X", "Y").values, UNTIL, "X", SOON)]
        self.ann, self.eve, self.late = self.room.put_all(requests)
        for ticket in (self.ann, self.eve, self.late):
            self.room._listen(ticket, lambda ending, ticket=ticket: self.told.append((ticket, ending)))
        self.got = None

    def sql(self, statement):
        connection = sqlite3.connect(self.path)
        try:
            return connection.execute(statement).fetchall()
        finally:
            connection.close()

    def goes_on(self, test):
        """The room goes on: what is in memory stands in the store, and everybody ends as they should."""
        room = self.room
        bob = room.put(*_put(pair("Bob", "Ann")))
        while room.step() != "idle":
            pass
        test.assertEqual((room.state(self.ann).kind, room.state(bob).kind), ("committed", "committed"))
        test.assertIn((self.ann, room.state(self.ann)), self.told)
        waiting = self.sql("SELECT ticket FROM entangle_tickets WHERE ending IS NULL")
        stands = [entangle.Ticket(one) for (one,) in waiting]
        test.assertEqual((room.waiting(), room._now.room.waiting()), (stands, stands))
        ((count,),) = self.sql("SELECT count(*) FROM entangle_tickets WHERE ending = 'committed'")
        test.assertEqual((room.table("Counters"), self.sql('SELECT * FROM "Counters"')), 2 * ([("all", count)],))
        keys = self.sql("SELECT count(*) FROM entangle_tickets WHERE request_key IS NULL AND ending IS NULL")
        test.assertEqual(keys, [(0,)])  # nobody waits whose ticket nobody was told
        for ticket, ending in self.told:
            test.assertEqual(room.state(ticket), ending)
        room.close()


def _put(request):
    return request.script, request.values, request.patience, request.key


def put_keyed(life):
    life.got = life.room.put(*_put(pair("Bob", "Ann")))


def put_unkeyed(life):
    life.room.put_all([Request("add", {"me": "Ann"}), Request("add", {"me": "Bob"})])
    raise KeyboardInterrupt  # before the caller has them


def put_refused(life):
    units = [[pair("Bob", "Ann")], [pair("Gus", "nobody"), Request("nonsense", {"me": "x"})], [pair("Hal", "nobody")]]
    life.room.put_each(units)


def step(life):
    life.room.step()


def withdraw(life):
    life.room.withdraw(life.eve)
    life.got = life.eve


def withdraw_all(life):
    life.room.withdraw_all([life.eve, life.late])


def expire(life):
    life.room.expire(SOON)


def turn(life):
    life.room.turn("Log")


def forget(life):
    life.room.forget(SOON)


# What is called before the call that is interrupted.
BEFORE = {step: put_keyed, turn: step, forget: withdraw}


class Interrupts(unittest.TestCase):
    def setUp(self):
        folder = tempfile.TemporaryDirectory(dir=MEMORY)
        self.addCleanup(folder.cleanup)
        self.folder, self.count = folder.name, 0

    def life(self, call):
        self.count += 1
        life = Life(os.path.join(self.folder, f"{self.count}.sqlite"))
        if call in BEFORE:
            BEFORE[call](life)
        return life

    def interrupted_at_each_line(self, call, check=lambda life: None):
        """Tries a call, interrupted at each of its lines; how many these are."""
        number, interrupt = 0, None
        while interrupt is None or interrupt.left <= 0:
            number += 1
            life, interrupt = self.life(call), Interrupted(number)
            with self.subTest(call=call.__name__, line=number):
                with interrupt:
                    call(life)
                check(life)
                life.goes_on(self)
            for name in os.listdir(self.folder):
                os.remove(os.path.join(self.folder, name))
        return number - 1

    def test_a_put_goes_on(self):
        for call in (put_keyed, put_refused):
            self.assertGreater(self.interrupted_at_each_line(call), 100)

    def test_requests_of_which_nobody_has_the_tickets_are_withdrawn(self):
        life = self.life(put_unkeyed)
        with Interrupted(10**9):
            put_unkeyed(life)
        self.assertEqual(len(life.room.waiting()), 5)  # whoever is interrupted behind the call had the tickets
        life.room.withdraw_all(life.room.waiting()[3:])

        def interrupted(life):
            life.room.put_all([Request("add", {"me": "Ann"}), Request("add", {"me": "Bob"})])
            life.room.withdraw_all(life.room.waiting()[3:])

        self.assertGreater(self.interrupted_at_each_line(interrupted), 100)

    def test_a_step_goes_on(self):
        self.assertGreater(self.interrupted_at_each_line(step), 100)

    def test_a_withdrawal_goes_on(self):
        def stands(life):
            if life.got is not None:
                self.assertEqual(life.room.state(life.eve), entangle.TicketWithdrawn())

        self.assertGreater(self.interrupted_at_each_line(withdraw, stands), 100)
        for call in (withdraw_all, expire):
            self.assertGreater(self.interrupted_at_each_line(call), 100)

    def test_a_turn_and_forgetting_go_on(self):
        for call in (turn, forget):
            self.assertGreater(self.interrupted_at_each_line(call), 40)

    def test_wrong_versions_are_caught(self):
        """Each notes something in another order than it has to, or not at all."""

        def wrong_written(held, update):
            return replace(behind(held, update), written=None)

        def wrong_tell(waits, ticket, told):
            tells = waits._of_ticket.pop(ticket, [])
            for tell in tells:
                tell(told)

        def wrong_settle(room, is_idle=False):
            pending = room._now.pending or room._now.gathered(is_idle)
            while pending is not None:
                room._now.pending = None
                room._write(pending)
                pending = room._now.gathered(is_idle)

        def wrong_left(memory):
            memory.next_ticket, next_ticket = 2**63, memory.next_ticket
            try:
                return left(memory)
            finally:
                memory.next_ticket = next_ticket

        def wrong_withdrawn(room, tickets):
            for ticket in tickets:
                room._now.room.withdraw(ticket)
            room._now.leaving.update(tickets)
            room._settle()
            return tickets

        behind, left = _sql.Held.behind, _memory.Memory._left
        wrong = [
            (_sql.Held, "behind", wrong_written, step),
            (_durable.Waits, "tell", wrong_tell, step),
            (DurableRoom, "_settle", wrong_settle, step),
            (_memory.Memory, "_left", wrong_left, put_keyed),
            (DurableRoom, "_withdrawn", wrong_withdrawn, withdraw_all),
        ]
        for place, name, version, call in wrong:
            with self.subTest(version.__name__), mock.patch.object(place, name, version):
                self.assertTrue(self.is_caught(call), "no interrupted call goes wrong")

    def is_caught(self, call):
        """Whether a call that is interrupted at some line goes wrong."""
        number, interrupt = 0, None
        while interrupt is None or interrupt.left <= 0:
            number += 1
            life, interrupt = self.life(call), Interrupted(number)
            with interrupt:
                call(life)
            try:
                life.goes_on(self)
            except (AssertionError, ValueError, entangle.Error):
                life.room.close()
                return True
        return False

    def test_whoever_sets_aside_goes_on(self):
        number, interrupt = 0, None
        while interrupt is None or interrupt.left <= 0:
            number += 1
            path = os.path.join(self.folder, f"aside{number}.sqlite")
            room, told = DurableRoom(TABLES, SqliteStore(path), opens=FakeRoom), []
            tickets = room.put_all([Request("add", {"me": "Ann"}), Request("add", {"me": "Bob"})])
            room._listen(tickets[1], told.append)
            connection = sqlite3.connect(path)
            refuses = "BEGIN SELECT RAISE(ABORT, 'nobody sits there'); END"
            connection.execute(f"""CREATE TRIGGER full BEFORE INSERT ON "Log" WHEN new.who = 'Bob' {refuses}""")
            connection.close()
            with self.assertRaises(stores.RefusedByStore) as caught:
                room.step()
            interrupt = Interrupted(number)
            with self.subTest(line=number):
                with interrupt:
                    room.set_aside(caught.exception.tickets)
                try:
                    room.step()
                except stores.RefusedByStore as error:
                    self.assertEqual(room.set_aside(error.tickets), list(error.tickets))
                while room.step() != "idle":
                    pass
                self.assertEqual([room.state(one).kind for one in tickets], ["committed", "refused by the store"])
                self.assertEqual((room.table("Counters"), set(told)), ([("all", 1)], {room.state(tickets[1])}))
                room.close()
        self.assertGreater(number, 100)
