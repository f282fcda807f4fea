"""What rooms over a store promise, over the real library and SQLite."""

import os
import sqlite3
import tempfile
import threading
import unittest

import entangle
from entangle.stores import DurableRoom, KeyUsedOtherwise, SqliteStore

from .booking import FULL, TABLES, TRIP, UNTIL, booked, kept, settle

ANN, BOB = {"me": "Ann", "friend": "Bob's"}, {"me": "Bob's", "friend": "Ann"}
CLEO = {"me": "Cleo", "friend": "nobody"}


class DurableRooms(unittest.TestCase):
    def setUp(self):
        folder = tempfile.TemporaryDirectory()
        self.addCleanup(folder.cleanup)
        self.folder = folder.name
        self.path = os.path.join(folder.name, "trips.sqlite")

    def room(self, path=None):
        room = DurableRoom(TABLES, SqliteStore(path or self.path))
        self.addCleanup(room.close)
        return room

    def sql(self, statement, path=None):
        connection = sqlite3.connect(path or self.path)
        try:
            return connection.execute(statement).fetchall()
        finally:
            connection.close()

    def test_friends_book_over_a_restart(self):
        room = self.room()
        ann, cleo = room.put(TRIP, ANN, UNTIL, key="a"), room.put(TRIP, CLEO, UNTIL)
        settle(room)
        self.assertEqual(room.state(ann), entangle.TicketLonely(0))
        later = self.room()
        self.assertEqual((later.waiting(), later.put(TRIP, ANN, UNTIL, key="a")), ([ann, cleo], ann))
        bob = later.put(TRIP, BOB)
        settle(later)
        self.assertEqual((later.wait(ann).kind, later.wait(bob).kind), ("committed", "committed"))
        outcome = later.outcome(ann)
        answers = (entangle.EntangledAnswer((entangle.Fact("Trip", ("Ann", 122)),)), entangle.CountAnswer(1))
        self.assertEqual((outcome.answers, outcome.group, outcome.ending), (answers, 1, later.state(ann)))
        self.assertEqual(later.outcome(bob).group, 1)
        epoch = later.turn("Bookings")
        report = later.report(2)
        self.assertTrue(entangle.check(report.text).is_legal)
        self.assertEqual((report.epoch, later.table("Bookings")), (epoch, []))
        last = self.room()
        self.assertEqual((last.waiting(), last.outcome(ann)), ([cleo], outcome))
        self.assertEqual(self.sql('SELECT * FROM "Bookings" ORDER BY who'), [("Ann", 122), ("Bob's", 122)])

    def test_friends_of_an_earlier_version_book(self):
        kept("form1.trips", self.path)
        room = self.room()
        self.assertEqual([ticket.number for ticket in room.waiting()], [5, 6, 7])
        endings = {1: entangle.TicketCommitted(1, 1), 4: entangle.TicketWithdrawn(), 8: entangle.TicketRolledBack()}
        self.assertEqual({number: room.state(entangle.Ticket(number)) for number in endings}, endings)
        self.assertEqual(room.put(TRIP, ANN, UNTIL, key="a"), entangle.Ticket(1))
        self.assertRaises(KeyUsedOtherwise, room.put, TRIP, BOB, UNTIL, "a")
        hal = room.put(TRIP, {"me": "Hal", "friend": "Gus"})
        room.put("BEGIN TRANSACTION; INSERT INTO Flights VALUES (7, 'Rome'); COMMIT;")
        settle(room)
        self.assertEqual((hal.number, room.waiting()), (9, []))
        booked = [("Ann", 122), ("Bob's", 122), ("Eve", 7), ("Finn", 7), ("Gus", 122), ("Hal", 122)]
        self.assertEqual(self.sql('SELECT * FROM "Bookings" ORDER BY who'), booked)
        self.assertEqual(self.room().outcome(entangle.Ticket(5)), room.outcome(entangle.Ticket(5)))

    def test_each_ending_is_kept(self):
        room = self.room()
        full = room.put(FULL)
        rolled_back = room.put("BEGIN TRANSACTION; DELETE FROM Flights; ROLLBACK;")
        paris = {"me": "Eve", "friend": "Finn"}
        script = TRIP.replace("'LA'", "'Rome'")
        # their meeting is tried for her, who came first
        gave_up, _finn = room.put(script, paris, 1), room.put(script, {"me": "Finn", "friend": "Eve"}, 1)
        withdrawn = room.put(TRIP, CLEO)
        settle(room)
        room.withdraw(withdrawn)
        endings = {
            full: entangle.TicketFailed(entangle.Failure.OVERFLOW),
            rolled_back: entangle.TicketRolledBack(),
            gave_up: entangle.TicketGaveUp(),
            withdrawn: entangle.TicketWithdrawn(),
        }
        for one in (room, self.room()):
            self.assertEqual({ticket: one.state(ticket) for ticket in endings}, endings)
        groups = {ticket: one.outcome(ticket).group for ticket in endings}
        self.assertIsNone(groups.pop(withdrawn))
        ((last,),) = self.sql("SELECT last_group FROM entangle_claim")
        self.assertEqual(set(groups.values()), set(range(1, last + 1)))
        self.assertEqual(one.table("Flights"), [(122, "LA"), (136, "Paris")])

    def test_groups_count_on_over_processes(self):
        numbers = []
        for fno in range(3):
            room = self.room()
            ticket = room.put("BEGIN TRANSACTION; INSERT INTO Flights VALUES (@fno, 'LA'); COMMIT;", {"fno": fno})
            settle(room)
            numbers.append(room.outcome(ticket).group)
            self.assertEqual(room._now.room.groups(), [])  # what the store has needs no memory
        self.assertEqual(numbers, [1, 2, 3])
        rows = [(0, "LA"), (1, "LA"), (2, "LA"), (122, "LA"), (136, "Paris")]
        self.assertEqual(room.table("Flights"), rows)
        self.assertEqual(self.sql('SELECT * FROM "Flights" ORDER BY fno'), rows)

    def test_batches_count_over_a_restart(self):
        script = TRIP.replace("'LA'", "'Rome'")
        room = self.room()
        eve = room.put(script, {"me": "Eve", "friend": "Finn"}, 2)
        finn = room.put(script, {"me": "Finn", "friend": "Eve"}, UNTIL)
        settle(room)
        self.assertEqual(room.state(eve), entangle.TicketWaits(1))
        later = self.room()
        self.assertEqual(later.state(eve), entangle.TicketWaits(1))
        settle(later)
        self.assertEqual((later.state(eve), later.waiting()), (entangle.TicketGaveUp(), [finn]))

    def test_threads_are_told_once_the_store_has_it(self):
        room, ends = self.room(), []
        ann = room.put(TRIP, ANN, UNTIL)
        thread = threading.Thread(target=lambda: ends.append(room.wait(ann, 60)))
        thread.start()
        room.put(TRIP, BOB)
        settle(room)
        thread.join()
        self.assertEqual(ends, [SqliteStore(self.path).outcome(ann).ending])

    def holds(self, path, told):
        """What has to hold once the friends have booked, whatever befell processes before."""
        self.assertEqual(self.sql('SELECT * FROM "Bookings" ORDER BY who', path), [("Ann", 122), ("Bob", 122)])
        self.assertEqual(self.sql('SELECT * FROM "Flights" ORDER BY fno', path), [(122, "LA"), (136, "Paris")])
        columns = "request_key, ticket, ending, ended_in"
        stood = {key: rest for key, *rest in self.sql(f"SELECT {columns} FROM entangle_tickets", path)}
        kinds = {key: kind for key, (_, kind, _) in stood.items()}
        wanted = {"ann": "committed", "bob": "committed", "eve": "withdrawn", "full": "failed"}
        self.assertEqual(kinds, wanted)
        self.assertEqual((stood["ann"][2], stood["eve"][2]), (stood["bob"][2], None))
        of_tickets = {ticket: kind for ticket, kind, _ in stood.values()}
        for said in told:
            if "key" in said:
                self.assertEqual(said["ticket"], stood[said["key"]][0])
            else:
                self.assertEqual(said["kind"], of_tickets[said["ended"]])

    def test_a_process_that_is_killed_at_any_commit_loses_nothing_that_was_told(self):
        for when in ("before", "behind"):
            status, number = -9, 0
            while status == -9:
                number += 1
                with self.subTest(when=when, number=number):
                    path = os.path.join(self.folder, f"{when}{number}.sqlite")
                    status, told = booked(path, number, when)
                    self.assertIn(status, (0, -9))
                    again, more = booked(path, 0, when)
                    self.assertEqual(again, 0)
                    self.holds(path, told + more)
            self.assertGreater(number, 8)
