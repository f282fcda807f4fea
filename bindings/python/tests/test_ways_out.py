"""What gets a room over a store out of what would lock it up: scripts that can't come back, groups that the database
refuses, tables that fill, times that are over, and tickets that nobody asks for any more."""

import contextlib
import os
import sqlite3
import tempfile
import unittest
import warnings
from datetime import datetime, timedelta, timezone
from unittest import mock

import entangle
from entangle import stores
from entangle.stores import DurableRoom, Request, SqliteStore, Table

from .fake_room import FakeRoom
from .test_stores import ANN, BOB, TABLES, UNTIL, Failing, settle

NOON = datetime(2030, 1, 1, 12, tzinfo=timezone.utc)
HOUR = timedelta(hours=1)


class Counted(SqliteStore):
    """A store that counts its transactions."""

    transactions = 0

    def _run(self, sql, parameters=()):
        self.transactions += sql == "COMMIT"
        return super()._run(sql, parameters)


class WithStores(unittest.TestCase):
    def setUp(self):
        folder = tempfile.TemporaryDirectory()
        self.addCleanup(folder.cleanup)
        self.path = os.path.join(folder.name, "rooms.sqlite")

    def room(self, store=None, tables=TABLES, **options):
        room = DurableRoom(tables, store or Counted(self.path), opens=FakeRoom, **options)
        self.addCleanup(room.close)
        return room

    def sql(self, *statements):
        with contextlib.closing(sqlite3.connect(self.path)) as connection:
            found = [connection.execute(statement).fetchall() for statement in statements]
            connection.commit()
            return found[-1]


class Openings(WithStores):
    """A room that can't be opened, and one that is opened all the same."""

    def test_a_start_that_fails_leaves_the_store_to_whoever_has_it(self):
        room = self.room()
        ann, add = room.put("pair", ANN, UNTIL), room.put("pair", {"me": "Eve", "friend": "nobody"}, UNTIL)
        before = self.sql("SELECT * FROM entangle_claim")
        for options in ({"most_waiters": 1}, {"opens": self.refusing}):
            with self.assertRaises(stores.NotRestored):
                DurableRoom(TABLES, SqliteStore(self.path), **{"opens": FakeRoom, **options})
            self.assertEqual(self.sql("SELECT * FROM entangle_claim"), before)
            room.check()
        other = [*TABLES, Table("More", {"a": "INT"})]
        self.assertRaises(stores.NotRestored, DurableRoom, other, SqliteStore(self.path), opens=self.refusing)
        self.assertEqual(self.sql("SELECT count(*) FROM sqlite_master WHERE name = 'More'"), [(0,)])
        room.put("pair", BOB)
        settle(room)
        self.assertEqual((room.state(ann).kind, room.waiting()), ("committed", [add]))

    def refusing(self, *given, **named):
        """A room that takes no script that waited."""
        room = FakeRoom(*given, **named)
        room.restore = mock.Mock(side_effect=entangle.Refused(302, 107, 3, 9))
        return room

    def test_who_claims_before_the_room_is_there_fences_off_the_other(self):
        """A wrong version of the store, which the test above has to catch."""

        def load(store, tables, ready):
            loaded = loads(store, tables)
            ready(loaded)
            return loaded

        loads = SqliteStore.load
        with mock.patch.object(SqliteStore, "load", load), self.assertRaises((AssertionError, stores.StoreTaken)):
            self.test_a_start_that_fails_leaves_the_store_to_whoever_has_it()

    def test_a_script_that_cannot_come_back_is_set_aside(self):
        room = self.room()
        ann, wrong, more = room.put("pair", ANN, UNTIL, "a"), room.put("add", BOB), room.put("alone", BOB, 9)
        self.sql(f"UPDATE entangle_tickets SET script = 'nonsense' WHERE ticket >= {wrong.number}")
        with self.assertRaises(stores.NotRestored) as caught:
            self.room()
        self.assertEqual(caught.exception.tickets, (wrong.number, more.number))
        self.assertEqual(str(caught.exception), "ticket 2 can't wait again, nor 1 others: E201 at 0")
        store = Counted(self.path)
        later = self.room(store, unrestored="set aside")
        self.assertEqual((later.waiting(), store.transactions), ([ann], 1))
        for one in (lambda: later, self.room):
            one = one()
            self.assertEqual(one.state(wrong), entangle.TicketNotRestored("E201 at 0"))
            self.assertEqual((one.wait(more).kind, one.outcome(wrong).group), ("not restored", None))
        self.assertRaises(ValueError, self.room, unrestored="ignore")

    def test_who_set_it_aside_says_why_in_the_lines_of_the_script(self):
        tables = [Table("T", {"a": "INT"}, initial=[(1,)])]
        with DurableRoom(tables, SqliteStore(self.path)) as room:
            ticket = room.put("BEGIN TRANSACTION;\nINSERT INTO T VALUES (@a);\nCOMMIT;", {"a": 2}, UNTIL)
        self.sql('ALTER TABLE "T" RENAME TO "U"')
        with DurableRoom([Table("U", {"a": "INT"})], SqliteStore(self.path), unrestored="set aside") as room:
            ending = room.wait(ticket)
            self.assertEqual(ending.kind, "not restored")
            self.assertTrue(ending.fault.startswith("E"), ending)
            self.assertIn("INSERT INTO T", ending.fault)


class Constraints(WithStores):
    """Groups that break a constraint of the database."""

    def broken(self, *constraint):
        """A room that stands before the group of a pair, which breaks a constraint, and what it raises."""
        room = self.room()
        tickets = room.put_all([Request("pair", ANN, UNTIL, "a"), Request("pair", BOB, UNTIL, "b")])
        other = room.put("add", ANN)
        self.sql(*constraint)
        for call in (room.step, lambda: room.withdraw(other), lambda: room.put("add", BOB)):
            with self.assertRaises(stores.RefusedByStore) as caught:
                call()
        return room, tickets, other, caught.exception

    def test_the_error_names_the_group_its_tickets_the_table_and_the_row(self):
        room, tickets, _, error = self.broken(
            """CREATE UNIQUE INDEX once ON "Bookings" (who)""", """INSERT INTO "Bookings" VALUES ('Bob''s', 7)"""
        )
        self.assertEqual((error.group, error.tickets, error.table), (1, tuple(tickets), "Bookings"))
        self.assertEqual(error.row, ("Bob's", 100))
        self.assertIsInstance(error, stores.StoreFailed)
        self.assertIsInstance(error.__cause__, sqlite3.IntegrityError)
        of_row = """with the row ("Bob's", 100) of Bookings: UNIQUE constraint failed: Bookings.who"""
        self.assertEqual(str(error), f"group 1 of tickets 1, 2 breaks a constraint {of_row}")
        self.assertEqual([room.state(ticket).kind for ticket in tickets], ["waits", "waits"])

    def test_its_tickets_are_set_aside_and_the_room_goes_on(self):
        constraint = """CREATE UNIQUE INDEX once ON "Bookings" (who)""", """INSERT INTO "Bookings" VALUES ('Ann', 7)"""
        trigger = """CREATE TRIGGER refused BEFORE INSERT ON "Bookings" WHEN new.who = 'Ann'
            BEGIN SELECT RAISE(ABORT, 'nobody sits there'); END"""
        for broken in (constraint, (trigger,)):
            with self.subTest(broken[0]):
                self.path += "2"  # another store
                room, (ann, bob), other, error = self.broken(*broken)
                told = []
                room._listen(ann, told.append)
                for wrong in ([other], [], [ann, other]):
                    self.assertRaises(ValueError, room.set_aside, wrong)
                self.assertEqual(room.set_aside([ann]), [ann])
                self.assertEqual(room.state(ann), entangle.TicketRefusedByStore(str(error)))
                self.assertEqual((told, room.waiting()), ([room.state(ann)], [bob, other]))
                self.assertRaises(entangle.StateError, room.set_aside, [ann])
                settle(room)
                self.assertEqual((room.waiting(), room.state(other).kind), ([bob], "committed"))
                self.assertEqual(room.table("Counters"), self.sql('SELECT * FROM "Counters"'))
                self.assertEqual(self.room().outcome(ann).ending, room._store.outcome(ann).ending)
                room.close()

    def test_a_constraint_that_is_mended_needs_no_setting_aside(self):
        room, tickets, other, _ = self.broken(
            """CREATE UNIQUE INDEX once ON "Bookings" (who)""", """INSERT INTO "Bookings" VALUES ('Ann', 7)"""
        )
        self.sql("DROP INDEX once")
        settle(room)
        self.assertEqual({room.state(ticket).kind for ticket in (*tickets, other)}, {"committed"})
        self.assertRaises(entangle.StateError, room.set_aside, tickets)

    def test_nobody_sets_aside_in_a_store_that_another_process_has(self):
        room, tickets, _, _ = self.broken(
            """CREATE UNIQUE INDEX once ON "Bookings" (who)""", """INSERT INTO "Bookings" VALUES ('Ann', 7)"""
        )
        later = self.room()
        self.assertRaises(stores.StoreTaken, room.set_aside, tickets)
        self.assertEqual(len(later.waiting()), 3)
        later.check()

    def test_who_is_to_be_set_aside_while_the_store_fails_is_so_before_anything_else(self):
        for is_again in (False, True):
            self.path += "2"  # another store
            room, tickets, other, _ = self.broken(
                """CREATE UNIQUE INDEX once ON "Bookings" (who)""", """INSERT INTO "Bookings" VALUES ('Ann', 7)"""
            )
            with mock.patch.object(room._store, "_transaction", side_effect=stores.StoreFailed("away")):
                self.assertRaises(stores.StoreFailed, room.set_aside, tickets)
                self.assertRaises(stores.StoreFailed, room.step)
                self.assertEqual(room.waiting(), [*tickets, other])
            if is_again:
                self.assertEqual(room.set_aside(tickets), tickets)
            settle(room)
            kinds = [room.state(one).kind for one in (*tickets, other)]
            self.assertEqual(kinds, ["refused by the store", "refused by the store", "committed"])


class Times(WithStores):
    """Points in time until which requests wait."""

    def test_whose_time_is_over_is_withdrawn_in_one_transaction(self):
        store = Counted(self.path)
        room = self.room(store)
        late = [Request("pair", {"me": f"p{at}", "friend": "x"}, UNTIL, None, NOON + at * HOUR) for at in (2, 1, 3, 1)]
        tickets = room.put_all([*late, Request("pair", ANN, UNTIL)])
        count = store.transactions
        self.assertEqual(room.expire(NOON), [])
        self.assertEqual(room.expire(NOON + HOUR), [tickets[1], tickets[3]])
        self.assertEqual((room.state(tickets[1]), store.transactions - count), (entangle.TicketWithdrawn(), 1))
        here = timezone(timedelta(hours=5))
        later = self.room()
        self.assertEqual(later.expire((NOON + 3 * HOUR).astimezone(here)), [tickets[0], tickets[2]])
        self.assertEqual((later.waiting(), later.expire(), later.expire(NOON + 9 * HOUR)), ([tickets[4]], [], []))
        past = later.put("pair", BOB, UNTIL, until=datetime.now(timezone.utc) - HOUR)
        self.assertEqual(later.expire(), [past])

    def test_a_point_in_time_has_a_time_zone(self):
        room = self.room()
        self.assertRaises(ValueError, room.put, "add", ANN, until=datetime(2030, 1, 1))
        self.assertRaises(TypeError, room.put, "add", ANN, until=7)
        for call in (room.expire, room.forget, room.forget_keys):
            self.assertRaises(ValueError, call, datetime(2030, 1, 1))

    def test_ten_thousand_expire_in_one_transaction(self):
        store = Counted(self.path)
        room = DurableRoom([Table("T", {"a": "INT"})], store)
        self.addCleanup(room.close)
        script = "BEGIN TRANSACTION; SELECT @me INTO ANSWER A WHERE (@friend) IN ANSWER A CHOOSE 1; COMMIT;"
        requests = [Request(script, {"me": at, "friend": -1}, UNTIL, None, NOON) for at in range(10_000)]
        tickets = room.put_all(requests)
        count = store.transactions
        self.assertEqual(room.expire(NOON), tickets)
        self.assertEqual((store.transactions - count, room.waiting()), (1, []))
        self.assertEqual(room.ended()[:2], tickets[:-3:-1])
        self.assertEqual(room.state(tickets[0]), entangle.TicketWithdrawn())

    def test_many_are_withdrawn_in_one_transaction(self):
        store = Counted(self.path)
        room = self.room(store)
        tickets = room.put_all([Request("pair", {"me": f"p{at}", "friend": "x"}, UNTIL) for at in range(5)])
        count = store.transactions
        unknown = entangle.Ticket(99)
        self.assertEqual(room.withdraw_all([tickets[3], unknown, tickets[1], tickets[3]]), [tickets[3], tickets[1]])
        self.assertEqual(store.transactions - count, 1)
        self.assertEqual(room.withdraw_all([tickets[1]]), [])
        self.assertEqual(room.waiting(), [tickets[0], tickets[2], tickets[4]])

    def test_who_is_in_a_batch_is_not_withdrawn(self):
        room = self.room()
        tickets = room.put_all([Request("pair", ANN, UNTIL), Request("add", ANN)])
        state = room._now.room.state
        in_batch = {tickets[1]: entangle.TicketInBatch()}
        with mock.patch.object(room._now.room, "state", lambda ticket: in_batch.get(ticket) or state(ticket)):
            self.assertRaises(entangle.BatchIsOn, room.withdraw_all, tickets)
            self.assertRaises(entangle.BatchIsOn, room.withdraw, tickets[1])
        self.assertEqual(room.waiting(), tickets)

    def test_a_withdrawal_that_failed_is_made_good(self):
        store = Failing(self.path)
        room = self.room(store)
        tickets = room.put_all([Request("pair", {"me": f"p{at}", "friend": "x"}, UNTIL) for at in range(3)])
        store.fails = 1
        self.assertRaises(stores.StoreFailed, room.withdraw_all, tickets[:2])
        self.assertEqual(room.waiting(), tickets)
        self.assertEqual(room.step(), "idle")
        self.assertEqual(room.waiting(), tickets[2:])


class Rows(WithStores):
    """Tables that fill."""

    def test_rows_are_counted(self):
        room = self.room()
        room.put_all([Request("pair", ANN), Request("pair", BOB), Request("add", ANN)])
        settle(room)
        rows = room.rows()
        self.assertEqual(rows.of_table, {"Counters": 1, "Bookings": 2, "Log": 1})
        self.assertEqual((rows.count, rows.most), (4, 65_536))
        room.turn("Log")
        self.assertEqual(room.rows().of_table, {"Counters": 1, "Bookings": 2, "Log": 0})
        self.assertEqual(self.room().rows().of_table, {"Counters": 1, "Bookings": 2, "Log": 0})

    def test_a_room_warns_from_three_quarters_on(self):
        filler = [Table("Filler", {"n": "INT"}, initial=[(n,) for n in range(49_148)]), *TABLES]
        room = self.room(tables=filler)
        with warnings.catch_warnings(record=True) as said:
            warnings.simplefilter("always")
            room.put("add", ANN)
            settle(room)
            self.assertEqual([one.category for one in said], [])
            with self.assertLogs("entangle", "WARNING") as logged:
                for _ in range(3):
                    room.put("add", BOB)
                    settle(room)
            self.assertEqual([one.category for one in said], [stores.NearlyFull])
        sentence = "the tables have 49,152 of 65,536 rows: Bookings 0, Counters 1, Filler 49,148, Log 3"
        self.assertEqual((str(said[0].message), len(logged.records)), (sentence, 1))
        self.assertIn(sentence, logged.output[0])
        room.turn("Log")
        with self.assertWarns(stores.NearlyFull):
            room.put_all([Request("add", BOB) for _ in range(3)])
            settle(room)

    def test_a_warning_that_is_an_error_undoes_nothing(self):
        room = self.room(tables=[Table("Filler", {"n": "INT"}, initial=[(n,) for n in range(49_150)]), *TABLES])
        ticket = room.put("add", ANN)
        with warnings.catch_warnings():
            warnings.simplefilter("error")
            self.assertRaises(stores.NearlyFull, room.step)
        self.assertEqual((room.state(ticket).kind, room.step()), ("committed", "idle"))


class Forgetting(WithStores):
    """Tickets that nobody asks for any more."""

    def test_ended_tickets_are_forgotten_and_their_keys_stay(self):
        room = self.room()
        ann, bob, add, fail, eve = room.put_all(
            [
                Request("pair", ANN, UNTIL, "a"),
                Request("pair", BOB, UNTIL, "b"),
                Request("add", ANN),
                Request("fail", ANN, UNTIL, "f"),
                Request("pair", {"me": "Eve", "friend": "x"}, UNTIL, "e"),
            ]
        )
        settle(room)
        endings = {ticket: room.state(ticket) for ticket in (ann, bob, fail)}
        groups = {ticket: room.outcome(ticket).group for ticket in endings}
        self.assertEqual(room.forget(datetime.now(timezone.utc) - HOUR), 0)
        self.assertEqual(room.forget(datetime.now(timezone.utc) + HOUR), 4)
        self.assertEqual(self.sql("SELECT ticket FROM entangle_tickets"), [(eve.number,)])
        for one in (lambda: room, self.room):
            one = one()
            self.assertEqual({ticket: one.state(ticket) for ticket in endings}, endings)
            self.assertEqual({ticket: one.outcome(ticket).group for ticket in endings}, groups)
            self.assertEqual((one.outcome(ann).answers, one.state(add)), ((), entangle.TicketUnknown()))
            self.assertEqual(one.put_all([Request("pair", ANN, UNTIL, "a"), Request("fail", ANN, 3, "f")]), [ann, fail])
            self.assertRaises(stores.KeyUsedOtherwise, one.put, "pair", BOB, UNTIL, "a")
            self.assertEqual((one.ticket_of("b"), one.waiting()), (bob, [eve]))
        stood = self.sql("SELECT hex(key_digest) FROM entangle_keys")
        self.assertEqual(len(stood), 3)  # digests alone: nobody reads the keys there

    def test_forgotten_keys_are_put_anew(self):
        room = self.room()
        first = room.put("add", ANN, key="a")
        settle(room)
        soon = datetime.now(timezone.utc) + HOUR
        self.assertEqual((room.forget_keys(soon), room.forget(soon)), (0, 1))
        self.assertEqual(room.forget_keys(datetime.now(timezone.utc) - HOUR), 0)
        self.assertEqual(room.put("add", ANN, key="a"), first)
        self.assertEqual(room.forget_keys(soon), 1)
        self.assertGreater(room.put("add", ANN, key="a"), first)

    def test_thousands_are_forgotten_in_pieces(self):
        store = Counted(self.path)
        room = self.room(store)
        wait = [Request("pair", {"me": f"p{at}", "friend": "x"}, UNTIL, f"k{at}") for at in range(2_500)]
        tickets = room.put_all(wait)
        room.withdraw_all(tickets[:2] + tickets[3:2_400])
        soon, count = datetime.now(timezone.utc) + HOUR, store.transactions
        self.assertEqual(room.forget(soon), 2_399)
        self.assertEqual(store.transactions - count, 3)
        self.assertEqual(room.waiting(), [tickets[2], *tickets[2_400:]])
        self.assertEqual(self.sql("SELECT count(*), min(ticket) FROM entangle_tickets"), [(101, 3)])
        self.assertEqual((room.put_all(wait[:1]), room.forget_keys(soon)), (tickets[:1], 2_399))
        self.assertEqual(self.sql("SELECT count(*) FROM entangle_keys"), [(0,)])
        self.room()
        self.assertRaises(stores.StoreTaken, room.forget, soon)

    def test_a_wrong_version_that_forgets_who_waits_is_caught(self):
        forget = SqliteStore._forget

        def wrong(store, before, first):
            store._run("UPDATE entangle_tickets SET ending = 'withdrawn', ended_at = 0 WHERE ending IS NULL")
            return forget(store, before, first)

        with mock.patch.object(SqliteStore, "_forget", wrong), self.assertRaises(AssertionError):
            self.test_ended_tickets_are_forgotten_and_their_keys_stay()
