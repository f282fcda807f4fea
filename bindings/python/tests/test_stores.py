"""What stores and the rooms over them promise, over SQLite and a toy room.

test_durable has real rooms. tools/check stores tries stores with faults, and over PostgreSQL.
"""

import asyncio
import copy
import datetime
import os
import pickle
import sqlite3
import tempfile
import threading
import unittest

import entangle
from entangle import stores
from entangle.stores import DurableRoom, Request, SqliteStore, StoredFault, Table

from .booking import kept
from .fake_room import FakeRoom

TABLES = [
    Table("Counters", {"name": "TEXT", "n": "INT"}, initial=[("all", 0)]),
    Table("Bookings", {"who": "TEXT", "fno": "INT"}),
    Table("Log", {"n": "INT", "who": "TEXT"}, collects=True),
]
UNTIL = entangle.Patience.UNTIL_WITHDRAWN
ANN, BOB = {"me": "Ann", "friend": "Bob's"}, {"me": "Bob's", "friend": "Ann"}


def settle(room):
    while room.step() != "idle":
        pass


class Failing(SqliteStore):
    """A store whose next writes fail, before or behind their commit."""

    fails = 0
    when = "before"

    def _run(self, sql, parameters=()):
        if sql == "COMMIT" and self.fails and self.when == "before":
            self.fails -= 1
            raise sqlite3.OperationalError("disk I/O error")
        result = super()._run(sql, parameters)
        if sql == "COMMIT" and self.fails:
            self.fails -= 1
            raise sqlite3.OperationalError("disk I/O error")
        return result


class Stores(unittest.TestCase):
    def setUp(self):
        folder = tempfile.TemporaryDirectory()
        self.addCleanup(folder.cleanup)
        self.path = os.path.join(folder.name, "rooms.sqlite")

    def room(self, tables=TABLES, store=None, **options):
        room = DurableRoom(tables, store or SqliteStore(self.path), opens=FakeRoom, **options)
        self.addCleanup(room.close)
        return room

    def sql(self, statement):
        connection = sqlite3.connect(self.path)
        try:
            found = connection.execute(statement).fetchall()
            connection.commit()
            return found
        finally:
            connection.close()

    def test_who_waits_and_who_ended_outlives_the_process(self):
        room = self.room()
        ann = room.put("pair", ANN, UNTIL)
        fan = room.put("fail", {"me": "Fan"})
        settle(room)
        self.assertEqual(room.state(ann), entangle.TicketLonely(0))
        later = self.room()
        self.assertEqual(later.waiting(), [ann])
        self.assertEqual(later.state(fan), entangle.TicketFailed(entangle.Failure.OVERFLOW))
        bob = later.put("pair", BOB)
        self.assertEqual(bob.number, fan.number + 1)
        settle(later)
        outcome = later.outcome(ann)
        self.assertEqual(outcome.ending, later.wait(ann))
        self.assertEqual(outcome.answers[0].facts[0].relation, "Trip")
        self.assertEqual(self.sql('SELECT who FROM "Bookings" ORDER BY who'), [("Ann",), ("Bob's",)])
        last = self.room()
        self.assertEqual((last.outcome(ann), last.waiting()), (outcome, []))
        self.assertEqual(last.table("Bookings"), later_rows(self.sql('SELECT * FROM "Bookings"')))
        self.assertEqual(last.state(entangle.Ticket(99)), entangle.TicketUnknown())
        self.assertGreater(last.epoch(), outcome.ending.epoch)

    def test_a_request_with_a_key_is_put_once(self):
        room = self.room()
        ticket = room.put("pair", ANN, UNTIL, key="a")
        self.assertEqual(room.put("pair", ANN, key="a"), ticket)
        other, same = room.put_all([Request("add", BOB, key="b"), Request("add", BOB, key="b")])
        self.assertEqual(other, same)
        settle(room)
        later = self.room()
        self.assertEqual(later.put_all([Request("pair", ANN, key="a"), Request("add", BOB, key="b")]), [ticket, other])
        self.assertEqual(SqliteStore(self.path).ticket_of("b"), other)

    def test_a_key_that_was_used_otherwise_is_refused(self):
        room = self.room()
        ticket = room.put("pair", ANN, UNTIL, key="a")
        room.put("add", BOB, key="b")
        settle(room)
        for one in (room, self.room()):
            for script, values, key in (("add", ANN, "a"), ("pair", BOB, "a"), ("add", ANN, "b"), ("pair", BOB, "b")):
                with self.assertRaises(stores.KeyUsedOtherwise) as caught:
                    one.put(script, values, key=key)
                self.assertEqual(caught.exception.key, key)
            self.assertEqual(one.put("pair", dict(reversed(ANN.items())), 3, key="a"), ticket)
            self.assertEqual(one.waiting(), [ticket])
        sentence = "the key 'b' was used for another script or other values, under ticket 2"
        self.assertEqual(str(caught.exception), sentence)

    def test_many_requests_are_put_all_or_none(self):
        room = self.room(most_waiters=2)
        add, wrong = [Request("add", values) for values in (ANN, BOB, ANN)], Request("nonsense", ANN)
        self.assertRaises(entangle.Refused, room.put_all, [add[0], wrong])
        self.assertRaises(entangle.RoomFull, room.put_all, add)
        keyed = [Request("add", ANN, key="a"), wrong]
        self.assertRaises(entangle.Refused, room.put_all, keyed)
        self.assertEqual((room.waiting(), room.put_all([]), self.sql("SELECT * FROM entangle_tickets")), ([], [], []))
        one, none, full, two = room.put_each([[add[0]], keyed, add[:2], [add[1]]])
        self.assertEqual((type(none), type(full)), (entangle.Refused, entangle.RoomFull))
        self.assertEqual(room.waiting(), [*one, *two])
        settle(room)
        self.assertEqual(room.table("Counters"), [("all", 2)])
        self.assertEqual(room.put_all(keyed[:1]), room.waiting())

    def test_a_request_is_checked(self):
        room = self.room()
        with self.assertRaises(entangle.Refused):
            room.put("nonsense", ANN)
        for script, key in (("add\0", None), ("add", ""), ("add", "a\0"), ("add", "é" * 128)):
            self.assertRaises(ValueError, Request, script, ANN, key=key)
        self.assertRaises(TypeError, lambda: Request(b"add", ANN))

    def test_a_failure_tells_nothing_and_is_made_good(self):
        for when in ("before", "behind"):
            with self.subTest(when):
                store = Failing(self.path, name=when)
                table = Table("Counters", {"name": "TEXT", "n": "INT"}, stored_as=f"counters_{when}")
                self.sql(f"CREATE TABLE counters_{when} (name TEXT, n INTEGER)")
                self.sql(f"INSERT INTO counters_{when} VALUES ('all', 0)")
                log = Table("Log", {"n": "INT", "who": "TEXT"}, stored_as=f"log_{when}", collects=True)
                self.sql(f"CREATE TABLE log_{when} (n INTEGER, who TEXT)")
                room = self.room([table, log], store)
                store.when = when
                ticket = room.put("add", ANN, key="a")
                store.fails = 2 if when == "before" else 1
                self.assertRaises(stores.StoreFailed, room.step)
                self.assertEqual(room.state(ticket), entangle.TicketWaits(0))
                self.assertEqual(room.why(ticket), "waits")
                self.assertRaises(TimeoutError, room.wait, ticket, 0.01)
                if when == "before":
                    self.assertRaises(stores.StoreFailed, room.put, "add", BOB)
                self.assertEqual(room.step(), "idle")
                self.assertEqual(room.wait(ticket).kind, "committed")
                self.assertEqual(self.sql(f"SELECT n FROM counters_{when}"), [(1,)])

    def test_a_request_whose_put_failed_is_withdrawn_or_has_its_key(self):
        store = Failing(self.path)
        room = self.room(store=store)
        store.fails = 1
        self.assertRaises(stores.StoreFailed, room.put, "add", ANN)
        kept = room.put("add", BOB, UNTIL)
        self.assertEqual(room.waiting(), [kept])
        self.assertEqual(room.state(entangle.Ticket(1)), entangle.TicketWithdrawn())
        store.fails = 1
        self.assertRaises(stores.StoreFailed, room.put, "add", ANN, UNTIL, "a")
        self.assertEqual(room.put("add", ANN, UNTIL, "a"), entangle.Ticket(3))
        self.assertEqual(len(room.waiting()), 2)

    def test_a_wrong_argument_amid_others_leaves_nobody_unknown(self):
        room = self.room()
        with self.assertRaises(AssertionError):
            room.put_all([Request("add", ANN), Request("add", {"me": 7})])
        settle(room)
        self.assertEqual((room.state(entangle.Ticket(1)), room.waiting()), (entangle.TicketUnknown(), []))
        self.assertEqual((room.table("Counters"), room._now.room.waiting()), ([("all", 0)], []))
        self.assertEqual(room.put("add", ANN), entangle.Ticket(2))

    def test_who_comes_later_has_the_store(self):
        room = self.room()
        ticket = room.put("pair", ANN, UNTIL)
        said = []

        def wait():
            try:
                room.wait(ticket, 20)
            except entangle.Error as error:
                said.append(type(error))

        thread = threading.Thread(target=wait)
        thread.start()
        later = self.room()
        self.assertEqual(later.waiting(), [ticket])
        self.assertRaises(stores.StoreTaken, room.put, "pair", BOB)
        thread.join()
        self.assertEqual(said, [stores.StoreTaken])
        for call in (room.step, room.check, room.waiting, lambda: room.state(ticket), lambda: room.table("Log")):
            self.assertRaises(stores.StoreTaken, call)
        later.put("pair", BOB)
        settle(later)
        self.assertEqual(self.sql("SELECT count(*) FROM entangle_tickets"), [(2,)])

    def test_a_room_that_is_fenced_calls_no_ticket_unknown(self):
        room, later = self.room(), self.room()
        ticket = later.put("pair", ANN, UNTIL)
        self.assertRaises(stores.StoreTaken, room.state, ticket)

    def test_threads_and_tasks_are_told_an_end(self):
        room = self.room()
        ann = room.put("pair", ANN, UNTIL)

        async def booked():
            fate = asyncio.ensure_future(room.fate(ann))
            await asyncio.sleep(0)
            await asyncio.to_thread(room.put, "pair", BOB)
            await asyncio.to_thread(settle, room)
            return await fate

        self.assertEqual(asyncio.run(booked()).kind, "committed")
        self.assertRaises(entangle.UnknownTicket, room.wait, entangle.Ticket(99))

    def test_batches_that_count_are_kept(self):
        room = self.room()
        ticket = room.put("alone", ANN, 66)
        for _ in range(63):
            room.step()
        self.assertEqual(room.state(ticket), entangle.TicketWaits(0))  # what isn't written isn't told
        room.step()
        self.assertEqual(self.sql("SELECT batches FROM entangle_tickets"), [(64,)])
        later = self.room()
        self.assertEqual(later.state(ticket), entangle.TicketWaits(64))
        later.step()
        later.step()
        self.assertEqual(later.wait(ticket), entangle.TicketGaveUp())

    def test_a_table_that_collects_keeps_in_the_store_what_a_turn_drains(self):
        room = self.room()
        for _ in range(2):
            room.put("add", ANN)
            settle(room)
            self.assertRaises(ValueError, room.turn, "Bookings")
            epoch = room.turn("Log")
            self.assertEqual(room.table("Log"), [])
        self.assertEqual(self.sql('SELECT * FROM "Log"'), [(0, "Ann"), (1, "Ann")])
        self.assertEqual(self.sql("SELECT epoch FROM entangle_claim"), [(epoch + 1,)])
        self.assertEqual(self.room().table("Log"), [])

    def test_withdrawals_stand(self):
        room = self.room()
        ticket = room.put("pair", ANN)
        room.withdraw(ticket)
        self.assertEqual(room.state(ticket), entangle.TicketWithdrawn())
        self.assertRaises(entangle.NobodyWaits, room.withdraw, ticket)
        self.assertEqual(self.room().state(ticket), entangle.TicketWithdrawn())

    def test_a_script_that_fits_no_more_is_named(self):
        room = self.room()
        ticket = room.put("add", ANN)
        self.sql("UPDATE entangle_tickets SET script = 'nonsense'")
        with self.assertRaises(stores.NotRestored) as caught:
            self.room()
        self.assertEqual(caught.exception.ticket, ticket.number)
        self.assertIsInstance(caught.exception.__cause__, entangle.Refused)

    def test_a_row_that_somebody_took_is_missed(self):
        room = self.room()
        room.put("add", ANN)
        self.sql('DELETE FROM "Counters"')
        self.assertRaises(stores.StoreDiffers, room.step)
        self.assertEqual(room.state(entangle.Ticket(1)), entangle.TicketWaits(0))
        self.sql("""INSERT INTO "Counters" VALUES ('all', 0)""")
        settle(room)
        self.assertEqual(room.state(entangle.Ticket(1)).kind, "committed")

    def test_a_store_takes_groups_in_order_and_once(self):
        store = SqliteStore(self.path)
        self.assertRaises(stores.StoreTaken, store.apply, (), (), (), 1, 1)
        loaded = store.load(TABLES)
        self.assertEqual((loaded.next_ticket, loaded.epoch, loaded.last_group), (1, 1, 0))
        self.assertEqual(loaded.rows, {"Counters": [("all", 0)], "Bookings": [], "Log": []})
        change = entangle.TableChange((), (("Ann", 122),))
        group = entangle.Group(1, 1, (), {"Bookings": change}, ())
        late = entangle.Group(2, 1, (), {}, ())
        self.assertRaises(ValueError, store.apply, (late,), (), (), 1, 1)
        self.assertRaises(ValueError, store.apply, (), (), (), 1, 0)
        unknown = entangle.Group(1, 1, (), {"Nowhere": change}, ())
        self.assertRaises(ValueError, store.apply, (unknown,), (), (), 1, 1)
        store.apply((group,), (), (), 1, 1)
        store.apply((group,), (), (), 1, 1)  # the same stands
        self.assertEqual(self.sql('SELECT * FROM "Bookings"'), [("Ann", 122)])
        self.assertRaises(ValueError, store.apply, (group,), (), (), 2, 1)
        store.check()
        store.close()

    def test_an_unsure_update_is_made_again_and_no_other(self):
        store = Failing(self.path)
        store.load(TABLES)
        store.fails, store.when = 1, "behind"
        waiter = stores.Waiter(entangle.Ticket(1), "add", {"me": "Ann"}, UNTIL)
        self.assertRaises(stores.StoreFailed, store.apply, (), (), (waiter,), 2, 1)
        self.assertRaises(ValueError, store.apply, (), (), (), 2, 1)
        store.apply((), (), (waiter,), 2, 1)
        self.assertEqual(self.sql("SELECT write FROM entangle_claim"), [(1,)])
        store.close()

    def test_a_store_of_an_earlier_version_is_taken_up(self):
        kept("form1", self.path)
        tables = [
            Table("Counters", {"name": "TEXT", "n": "INT"}, stored_as="counted", stored_columns={"n": "how_many"}),
            *TABLES[1:],
        ]
        for _ in range(2):
            room = self.room(tables)
            self.assertEqual([ticket.number for ticket in room.waiting()], [9, 10, 11])
            self.assertEqual(room.state(entangle.Ticket(8)), entangle.TicketCommitted(3, 1))
            self.assertEqual(room.ticket_of("k1"), entangle.Ticket(1))
            self.assertRaises(stores.KeyUsedOtherwise, room.put, "add", ANN, key="k1")
        self.assertEqual(room.put("pair", {"me": "Max", "friend": "Lea"}).number, 12)
        settle(room)
        self.assertEqual((room.outcome(entangle.Ticket(11)).group, room.outcome(entangle.Ticket(12)).group), (7, 7))
        self.assertEqual(self.sql("SELECT form, claim FROM entangle_claim"), [(2, 4)])

    def test_a_store_of_a_later_version_is_left_as_it_is(self):
        self.room()
        self.sql("UPDATE entangle_claim SET form = 3")
        before = self.sql("SELECT * FROM entangle_claim")
        with self.assertRaisesRegex(stores.StoreError, "of form 3, which a later version writes"):
            self.room()
        self.assertEqual(self.sql("SELECT * FROM entangle_claim"), before)
        # what a version that knows form 1 only writes first
        with self.assertRaises(sqlite3.OperationalError):
            self.sql("INSERT INTO entangle_claim VALUES (1, 0, 0, 0, 0, 1) ON CONFLICT DO NOTHING")

    def test_a_time_to_wait_until_is_kept(self):
        store = SqliteStore(self.path)
        store.load(TABLES)
        until = datetime.datetime(2026, 12, 1, 8, 30, 0, 1, tzinfo=datetime.timezone(datetime.timedelta(hours=1)))
        waiter = stores.Waiter(entangle.Ticket(1), "add", {"me": "Ann"}, UNTIL, key="a", until=until)
        store.apply((), (), (waiter,), 2, 1)
        self.assertEqual(self.sql("SELECT until FROM entangle_tickets"), [(1796110200000001,)])
        later = SqliteStore(self.path)
        self.assertEqual(later.load(TABLES).waiting, (waiter,))
        store.close()
        later.close()

    def test_what_was_asked_under_a_key_is_known(self):
        store = SqliteStore(self.path)
        store.load(TABLES)
        waiters = [
            stores.Waiter(entangle.Ticket(n), "add", {"me": "Ann", "n": n}, UNTIL, key=f"k{n}") for n in range(1, 1201)
        ]
        store.apply((), (), waiters, 1201, 1)
        used = store.tickets_of([f"k{n}" for n in range(1100, 1300)])
        self.assertEqual({key: one.ticket.number for key, one in used.items()}, {f"k{n}": n for n in range(1100, 1201)})
        self.assertEqual(used["k1100"].asked, stores.asked_digest("add", {"n": 1100, "me": "Ann"}))
        self.assertNotEqual(used["k1100"].asked, stores.asked_digest("add", {"n": "1100", "me": "Ann"}))
        self.assertEqual((len(store.tickets_of([f"k{n}" for n in range(2000)])), store.tickets_of(())), (1200, {}))
        store.close()

    def test_declared_tables(self):
        for wrong in (
            lambda: Table("2", {"a": "INT"}),
            lambda: Table("T", {}),
            lambda: Table("T", {"a": "REAL"}),
            lambda: Table("T", {"a": "INT"}, stored_columns={"b": "c"}),
            lambda: Table("T", {"a": "INT"}, stored_as='a"b'),
            lambda: Table("T", {"a": "INT"}, initial=[(1, 2)]),
            lambda: SqliteStore(self.path, name="No Name"),
            lambda: SqliteStore(self.path).load([Table("T", {"a": "INT"}), Table("t", {"a": "INT"})]),
            lambda: SqliteStore(self.path).load([Table("T", {"a": "INT", "A": "INT"})]),
            lambda: SqliteStore(self.path).load([Table("Entangle_Tickets", {"a": "INT"})]),
            lambda: SqliteStore(self.path).load([Table("Entangle_Waiting", {"a": "INT"})]),
            lambda: SqliteStore(self.path).load([Table("Entangle_Keys", {"a": "INT"})]),
        ):
            self.assertRaises(ValueError, wrong)
        self.assertEqual(TABLES[1].declaration, "CREATE TABLE Bookings (who TEXT, fno INT);")

    def test_a_refusal_names_its_place(self):
        self.sql("CREATE TABLE seen (who TEXT, n INTEGER)")
        self.sql("INSERT INTO seen VALUES ('Ann', 1), ('Bob', NULL)")
        table = Table("Seen", {"name": "TEXT", "n": "INT"}, stored_as="seen", stored_columns={"name": "who"})
        with self.assertRaises(stores.NotLoadable) as caught:
            SqliteStore(self.path).load([table])
        error = caught.exception
        self.assertEqual((error.table, error.column, error.row), ("seen", "n", ("Bob", None)))
        self.assertEqual(str(error), "seen.n, row ('Bob', None): the value is NULL")
        self.assertIs(error.fault, StoredFault.NULL)
        self.sql("UPDATE seen SET n = 2 WHERE n IS NULL")
        store = SqliteStore(self.path)
        self.assertEqual(store.load([table]).rows, {"Seen": [("Ann", 1), ("Bob", 2)]})
        store.close()

    def test_a_file_stays_where_it_was_when_the_store_was_made(self):
        folder = os.getcwd()
        self.addCleanup(os.chdir, folder)
        os.chdir(os.path.dirname(self.path))
        store = SqliteStore("rooms.sqlite")
        os.chdir("/")
        room = self.room(store=store)
        ticket = room.put("pair", ANN, UNTIL)
        store.close()
        self.assertEqual(self.room().waiting(), [ticket])

    def test_who_is_forked_has_no_store(self):
        room = self.room()
        room.put("pair", ANN, UNTIL)
        child = os.fork()
        if not child:
            status = 1
            try:
                room.put("pair", BOB)
            except stores.StoreTaken:
                status = 0
            finally:
                os._exit(status)
        self.assertEqual(os.waitpid(child, 0)[1], 0)
        room.put("pair", BOB)
        settle(room)
        self.assertEqual(self.sql("SELECT count(*) FROM entangle_tickets WHERE ending = 'committed'"), [(2,)])

    def test_a_store_that_lasts_nowhere_is_refused(self):
        self.assertRaises(stores.StoreError, SqliteStore(":memory:").load, TABLES)
        self.assertRaises(stores.StoreFailed, SqliteStore(f"{self.path}/nowhere/x").load, TABLES)

    def test_neither_copied_nor_pickled(self):
        room = self.room()
        for call in (copy.copy, copy.deepcopy, pickle.dumps):
            self.assertRaises(TypeError, call, room)

    def test_a_closed_room_says_so(self):
        room = self.room()
        ticket = room.put("pair", ANN, UNTIL)
        room.close()
        self.assertRaises(entangle.StateError, room.step)
        self.assertRaises(entangle.StateError, room.wait, ticket)


def later_rows(rows):
    """Rows as a room gives them."""
    return sorted(map(tuple, rows))
