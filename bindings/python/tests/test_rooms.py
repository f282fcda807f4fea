"""What rooms promise."""

import copy
import pickle
import unittest
from unittest import mock

import entangle

from .rooms import FLIGHT, TABLES, TRIP, UNTIL_WITHDRAWN, WithRooms, put, settle, trip


class Rooms(WithRooms, unittest.TestCase):
    def refused(self, code, call, *given):
        with self.assertRaises(entangle.Refused) as caught:
            call(*given)
        self.assertEqual(caught.exception.code, code)
        return caught.exception

    def test_friends_meet_whenever_they_come(self):
        room = self.room()
        mickey = put(room, "Mickey", "Minnie")
        self.assertEqual(room.state(mickey), entangle.TicketWaits(batches=0))
        settle(room)
        self.assertEqual(room.state(mickey), entangle.TicketLonely(demand=0))
        self.assertTrue(room.why(mickey).startswith("lonely"))
        self.assertEqual((room.submissions(mickey), room.waiting()), ([], [mickey]))
        minnie = put(room, "Minnie", "Mickey")
        self.assertLess(mickey, minnie)
        self.assertEqual(room.step(), "ran")
        ends = {room.state(mickey), room.state(minnie)}
        self.assertEqual(ends, {entangle.TicketCommitted(epoch=1, number=number) for number in (1, 2)})
        self.assertEqual(room.table("Bookings"), [("Mickey", 122), ("Minnie", 122)])
        self.assertEqual(room.submissions(mickey), [entangle.Submission(epoch=1, tx=1)])
        self.assertEqual(room.submissions(minnie), [entangle.Submission(epoch=1, tx=2)])
        self.assertEqual((room.waiting(), room.step()), ([], "idle"))

    def test_bound_values_are_values_wherever_they_stand(self):
        room = self.room()
        first, second = "O'Hara '); DELETE FROM Flights; --", "東 @me ''"
        tickets = [put(room, first, second), put(room, second, first)]
        settle(room)
        self.assertTrue(all(room.state(ticket).kind == "committed" for ticket in tickets))
        self.assertEqual(room.table("Bookings"), [(first, 122), (second, 122)])
        numbers = [2**63 - 1, -(2**63) + 1, 0]
        for number in numbers:
            room.put(FLIGHT, {"fno": number, "dest": ""})
        settle(room)
        self.assertEqual([fno for fno, dest in room.table("Flights") if dest == ""], sorted(numbers))

    def test_values_that_cannot_be_bound_are_refused(self):
        room, fault = self.room(), entangle.BindingFault
        for name, value, why in [
            ("me", -(2**63), fault.LEAST_NUMBER),
            ("me", 2**63, fault.TOO_LARGE),
            ("me", -(10**30), fault.TOO_LARGE),
            ("me", 86 * "東", fault.TOO_LONG),
            ("me", 256 * "a", fault.TOO_LONG),
            ("me", "\ud800", fault.NOT_UTF8),
            ("me", "a\nb", fault.CONTROL_CHARACTER),
            ("me", "\0", fault.CONTROL_CHARACTER),
            ("me", "\x7f", fault.CONTROL_CHARACTER),
            ("fno", 1, fault.SET_BY_SCRIPT),
            ("nobody", 1, fault.UNUSED),
            ("@me", 1, fault.NO_NAME),
            ("", 1, fault.NO_NAME),
            ("a b", "x", fault.NO_NAME),
        ]:
            with self.subTest(name=name, value=value), self.assertRaises(entangle.NotBound) as caught:
                room.put(TRIP, {**trip("Mickey", "Minnie"), name: value})
            self.assertEqual((caught.exception.variable, caught.exception.fault), (name, why))
            self.assertEqual(str(caught.exception), f"@{name} isn't bound: {why.value}")
        self.refused(306, room.put, TRIP, {"me": 1, "friend": 2})
        self.assertEqual(room.waiting(), [])
        self.assertEqual(put(room, "Mickey", "Minnie"), entangle.Ticket(1))

    def test_a_faulty_script_is_refused_and_explained(self):
        room = self.room()
        script = "BEGIN TRANSACTION;\n-- 東\nSELECT fno FROM Flights WHERE dst = 'LA';\nCOMMIT;"
        fault = self.refused(302, room.put, script)
        self.assertEqual((str(fault), fault.line, fault.column), ("E302 at 56", 3, 31))
        said = room.explain(script)
        self.assertTrue(said.startswith("E302 at 56\nline 3, column 31: Flights has no column dst\n"), said)
        self.assertEqual(fault.explanation, said)
        self.assertIsNone(room.explain("BEGIN TRANSACTION; COMMIT;"))
        self.assertEqual(self.refused(302, room.restore, entangle.Ticket(0), script).explanation, said)
        self.refused(201, room.put, "COMMIT;")
        self.refused(201, room.put, 2 * "BEGIN TRANSACTION; COMMIT;")
        self.refused(100, room.put, b"BEGIN \xff")
        opening = self.refused(201, entangle.Room, "CREATE TABLE T (a INTEGER);")
        self.assertTrue(opening.explanation.startswith("E201 at 18\nline 1, column 19: "))
        self.assertEqual(room.waiting(), [])

    def test_a_script_is_explained_with_its_values(self):
        room, values = self.room(epoch=1, next_ticket=entangle.Ticket(10)), trip("Mickey", "Minnie")
        self.assertIsNone(room.explain(TRIP, values))
        misspelt = TRIP.replace("dest =", "dst =")
        for script, given, code, place, said in [
            (misspelt, values, 302, misspelt.index("dst"), "Flights has no column dst"),
            (TRIP, {"me": "Mickey", "friend": "Minnie"}, 306, TRIP.index("@dest"), "@dest"),
            (TRIP, {**values, "dest": 5}, 304, TRIP.index("@dest"), "TEXT"),
        ]:
            for call in (room.put, lambda *given: room.restore(entangle.Ticket(3), *given)):
                with self.subTest(code=code):
                    fault = self.refused(code, call, script, given)
                    self.assertEqual((fault.offset, fault.explanation), (place, room.explain(script, given)))
                    self.assertTrue(fault.explanation.startswith(f"{fault}\nline 3, column "), fault.explanation)
                    self.assertIn(said, fault.explanation.split("\n")[1])
        self.assertTrue(room.explain(TRIP).startswith(f"E306 at {TRIP.index('@dest')}\n"))
        self.assertTrue(room.explain(TRIP, {"dest": "LA"}).startswith(f"E306 at {TRIP.index('@me')}\n"))
        for name, why in [("nobody", "isn't used by the script"), ("fno", "is set by the script itself")]:
            said = room.explain(TRIP, {**values, name: 1})
            self.assertEqual(said, f"@{name} {why}, so no value is bound to it\n")
        for name, value in [("me", "a\nb"), ("me", -(2**63)), ("@me", 1)]:
            self.assertRaises(entangle.NotBound, room.explain, TRIP, {name: value})
        self.assertEqual(room.waiting(), [])

    def test_patience_ends(self):
        room = self.room()

        def pair(patience, me, friend):
            # their meetings bring nothing: nothing flies to Rome
            values = [trip(me, friend, "Rome"), trip(friend, me, "Rome")]
            return [room.put(TRIP, *given) for given in zip(values, patience)]

        eve, finn = pair([1, UNTIL_WITHDRAWN], "Eve", "Finn")
        ann, bob = pair([entangle.Patience.AS_WRITTEN, 1_000], "Ann", "Bob")
        settle(room)
        self.assertEqual(room.state(eve), entangle.TicketGaveUp())
        self.assertEqual(room.state(finn), entangle.TicketLonely(demand=0))
        # each meeting is tried once, for one of its members
        self.assertEqual([room.state(ann), room.state(bob)], [entangle.TicketWaits(1), entangle.TicketWaits(0)])
        for fno in range(2, 7):
            # what they read changes, and so they are tried again, for him or for her
            self.assertFalse(room.state(ann).is_over and fno < 4)
            room.put(FLIGHT, {"fno": fno, "dest": "Oslo"})
            settle(room)
        self.assertEqual((room.state(ann).kind, room.state(bob).kind), ("gave up", "lonely"))
        for batches in (0, -1, 1_001, 2**70):
            self.assertRaises(ValueError, room.put, "BEGIN TRANSACTION; COMMIT;", None, batches)

    def test_scripts_end_as_they_say(self):
        room = self.room()
        scripts = ["INSERT INTO Bookings VALUES ('x', 1); ROLLBACK", "SET @d = 9223372036854775807 + 1; COMMIT"]
        scripts.append("INSERT INTO Bookings VALUES ('y', 2); COMMIT")
        tickets = [room.put(f"BEGIN TRANSACTION; {script};") for script in scripts]
        self.assertEqual(room.step(), "ran")
        ends = [entangle.TicketRolledBack(), entangle.TicketFailed(entangle.Failure.OVERFLOW)]
        ends.append(entangle.TicketCommitted(epoch=1, number=1))
        self.assertEqual([room.wait(ticket) for ticket in tickets], ends)
        self.assertEqual(room.table("Bookings"), [("y", 2)])

    def test_who_is_withdrawn_waits_no_more(self):
        room = self.room()
        mickey = put(room, "Mickey", "Minnie")
        room.withdraw(mickey)
        self.assertEqual(room.state(mickey), entangle.TicketWithdrawn())
        minnie = put(room, "Minnie", "Mickey")
        settle(room)
        self.assertEqual(room.state(minnie), entangle.TicketLonely(demand=0))
        for ticket in (mickey, entangle.Ticket(3), entangle.Ticket(2**64 - 1)):
            self.assertRaises(entangle.NobodyWaits, room.withdraw, ticket)
        self.assertEqual(room.wait(mickey), entangle.TicketWithdrawn())

    def test_who_is_lonely_is_told_which_demand_nobody_offers(self):
        room = self.room()
        mickey = room.put(
            """BEGIN TRANSACTION;
            SELECT 'Mickey', fno INTO ANSWER Trip WHERE fno IN (SELECT fno FROM Flights)
              AND ('Minnie', fno) IN ANSWER Trip AND ('Goofy', fno) IN ANSWER Trip CHOOSE 1;
            COMMIT;""",
            patience=UNTIL_WITHDRAWN,
        )
        put(room, "Minnie", "Mickey")
        settle(room)
        self.assertEqual(room.state(mickey), entangle.TicketLonely(demand=1))
        self.assertEqual(room.state(entangle.Ticket(99)), entangle.TicketUnknown())

    def test_who_waited_in_an_earlier_process_comes_in_again(self):
        room = self.room(epoch=7, next_ticket=entangle.Ticket(10))

        def restore(number, values, batches=0):
            room.restore(entangle.Ticket(number), TRIP, values, 2, batches)

        restore(3, trip("Eve", "Finn", "Rome"), 1)
        for used in (2, 3, 10):
            self.assertRaises(entangle.TicketUsed, restore, used, trip("Ann", "Bob"))
        self.assertRaises(entangle.NotBound, restore, 5, {"me": "\n"})
        self.refused(306, restore, 5, {})
        restore(7, trip("Finn", "Eve", "Rome"))
        self.assertEqual(put(room, "Ann", "Bob"), entangle.Ticket(10))
        self.assertEqual(room.waiting(), [entangle.Ticket(number) for number in (3, 7, 10)])
        settle(room)
        self.assertEqual(room.state(entangle.Ticket(3)), entangle.TicketGaveUp())
        self.assertEqual(room.submissions(entangle.Ticket(3)), [entangle.Submission(epoch=7, tx=1)])
        self.assertEqual((room.state(entangle.Ticket(5)), room.epoch()), (entangle.TicketUnknown(), 7))

    def test_a_turn_gives_a_report_and_drains_tables(self):
        room = self.room()
        self.assertEqual((room.epoch(), room.report(2)), (1, None))
        put(room, "Mickey", "Minnie")
        put(room, "Minnie", "Mickey")
        eve = put(room, "Eve", "Finn")
        settle(room)
        flights = room.table("Flights")
        for names in (["Bookings", "Nobody"], ["Bookings Flights"], [""], ["Bookings;"]):
            self.refused(401, room.turn, *names)
        self.assertEqual((room.epoch(), len(room.table("Bookings"))), (1, 2))
        self.assertEqual(room.turn("Bookings"), 1)
        self.assertEqual((room.epoch(), room.table("Flights"), room.table("Bookings")), (2, flights, []))
        told = room.report(2)
        self.assertEqual((told.epoch, entangle.check(told.text)), (1, entangle.Verdict(is_legal=True)))
        self.assertIn("\n('Mickey', 122)\n('Minnie', 122)\n", told.text)
        self.assertIn("joint 1 1.1 2.1\n", room.report().text)
        finn = put(room, "Finn", "Eve")
        settle(room)
        self.assertEqual((room.wait(eve).epoch, [one.epoch for one in room.submissions(finn)]), (2, [2]))
        self.assertEqual((room.turn(), len(room.table("Bookings"))), (2, 2))
        told = room.report(2)
        self.assertEqual((told.epoch, entangle.check(told.text).is_legal), (2, True))
        self.assertEqual(room.turn("Bookings", "Flights"), 3)
        self.assertEqual((room.table("Bookings"), room.table("Flights")), ([], []))
        self.assertRaises(ValueError, room.report, 3)

    def test_a_step_ends_an_epoch_by_itself(self):
        room = self.room()
        mickey = put(room, "Mickey", "Minnie")
        for _ in range(10_001):
            room.put("BEGIN TRANSACTION; COMMIT;")
        settle(room)
        told = room.report(2)
        self.assertEqual((told.epoch, entangle.check(told.text).is_legal, room.epoch()), (1, True, 2))
        put(room, "Minnie", "Mickey")
        settle(room)
        self.assertEqual(room.wait(mickey).epoch, 2)

    def test_there_is_a_last_epoch(self):
        room = self.room(epoch=2**64 - 1)
        self.assertRaises(entangle.NoMoreNumbers, room.turn)
        self.assertEqual((room.epoch(), room.report()), (2**64 - 1, None))

    def test_tables_with_too_many_rows_are_drained(self):
        rows = {"T": [(row,) for row in range(65_536)]}
        with entangle.Room("CREATE TABLE T (a INT); CREATE TABLE U (a INT);", rows) as room:
            room.put("BEGIN TRANSACTION; INSERT INTO U VALUES (1); COMMIT;")
            settle(room)
            self.refused(407, room.turn)
            self.assertEqual((room.epoch(), room.turn("T"), room.epoch()), (1, 1, 2))
            self.assertEqual((room.table("T"), room.table("U")), ([], [(1,)]))

    def test_rows_are_given_as_values(self):
        rows = [("it's", 1), ("東", -(2**63)), ("", 0), ("'); DELETE FROM U; --", 2), ("\x85\u2028", 2**63 - 1)]
        rows += [(85 * "東", 3), (255 * "'", 4)]
        tables = "CREATE TABLE T (a TEXT, b INT); CREATE TABLE U (a INT); INSERT INTO U VALUES (6); -- and no more"
        with entangle.Room(tables, {"T": rows, "U": iter([[5], (6,)])}) as room:
            self.assertEqual((room.table("T"), room.table("U")), (sorted(rows), [(5,), (6,)]))
            with entangle.Room(tables.encode(), {"T": room.table("T"), "U": []}) as again:
                self.assertEqual((again.table("T"), again.table("U")), (room.table("T"), [(6,)]))

    def test_rows_may_have_more_bytes_than_an_input(self):
        rows = [(f"{number:0255}",) for number in range(65_536)]
        tables = "CREATE TABLE T (a TEXT); CREATE TABLE U (a INT);"
        with entangle.Room(tables, {"T": rows}) as room:
            self.assertEqual(room.table("T"), rows)
        for inserted, more in [("", {"U": [(1,)]}), ("INSERT INTO U VALUES (1);", {})]:
            with mock.patch.object(entangle._calls.LIBRARY, "ent_c_explain") as explained:
                fault = self.refused(407, entangle.Room, tables + inserted, {"T": rows, **more})
            self.assertEqual((fault.offset, fault.explanation, explained.called), (None, "", False))

    def test_rows_that_do_not_fit_their_tables_are_refused(self):
        fault, strange = entangle.RowFault, ("T U", "", "T VALUES ('x', 1); --", "T\n", "Tä", "\ud800", 64 * "T")
        for rows, table, row, why, code in [
            ({"T": [("a", 1), (1, 1)]}, "T", 1, fault.OTHER_KIND, 304),
            ({"U": [(5,), (6,)], "T": [("a", 1), ("b", "2")]}, "T", 1, fault.OTHER_KIND, 304),
            ({"T": [("a", 1)], "U": iter([(1,), (2, 3), ("x",)])}, "U", 1, fault.OTHER_LENGTH, 303),
            ({"U": [(1,), (), (2, 3)]}, "U", 1, fault.OTHER_LENGTH, 303),
            ({"U": [(1,), range(17)]}, "U", 1, fault.OTHER_LENGTH, 303),
            ({"T": [("a", 1)], "V": [("a",)], "U": [()]}, "V", 0, fault.NO_SUCH_TABLE, 301),
            *[({"T": [("a", 1)], name: [("a", 1)]}, name, 0, fault.NO_SUCH_TABLE, 301) for name in strange],
        ]:
            with self.subTest(rows=rows), self.assertRaises(entangle.NotARow) as caught:
                entangle.Room("CREATE TABLE T (a TEXT, b INT); CREATE TABLE U (a INT);", rows)
            found = caught.exception
            self.assertEqual((found.table, found.row, found.column, found.fault), (table, row, None, why))
            self.assertEqual((found.code, str(found)), (code, f"row {row} of {table}: {why.value}"))

    def test_an_opening_is_refused_for_its_first_fault(self):
        tables = "CREATE TABLE T (a INT);"
        fault = self.refused(201, entangle.Room, "CREATE TABLE T (a INTEGER);", {"T": [("x",)]})
        self.assertTrue(fault.explanation.startswith("E201 at 18\nline 1, column 19: "))
        self.refused(407, entangle.Room, tables, {"T": [("x",), *((row,) for row in range(65_536))]})
        two = f"{tables} {2 * 'BEGIN TRANSACTION; COMMIT;'}"
        with self.assertRaises(entangle.NotARow):
            entangle.Room(two, {"T": [("x",)]}, most_waiters=1)
        with self.assertRaises(entangle.RoomFull):
            entangle.Room(two, {"T": [(1,)]}, most_waiters=1)

    def test_rows_with_values_that_no_table_can_have_are_refused(self):
        fault = entangle.RowFault
        for value, why in [
            (-(2**63) - 1, fault.TOO_LARGE),
            (2**63, fault.TOO_LARGE),
            (86 * "東", fault.TOO_LONG),
            (256 * "a", fault.TOO_LONG),
            ("\udfff", fault.NOT_UTF8),
            ("a\nb", fault.CONTROL_CHARACTER),
            ("\r", fault.CONTROL_CHARACTER),
            ("\x7f", fault.CONTROL_CHARACTER),
        ]:
            with self.subTest(value=value), self.assertRaises(entangle.NotARow) as caught:
                entangle.Room("CREATE TABLE T (a INT, b TEXT);", {"T": [(1, "a"), (2, value)]})
            found = caught.exception
            self.assertEqual((found.table, found.row, found.column, found.fault), ("T", 1, 1, why))
            self.assertEqual((found.code, str(found)), (None, f"value 1 of row 1 of T: {why.value}"))
        for wrong in (True, 1.5, None, b"a"):
            self.assertRaisesRegex(TypeError, "a value is an int or a str", entangle.Room, TABLES, {"T": [(wrong,)]})
        for wrong in ("ab", b"ab", bytearray(b"ab"), memoryview(b"ab"), {1, 2}, {1: 2}, iter([1]), 5, None):
            self.assertRaisesRegex(TypeError, "a row is a sequence of values", entangle.Room, TABLES, {"T": [wrong]})
        for wrong in (1, b"T", None):
            self.assertRaisesRegex(TypeError, "a table's name is a str", entangle.Room, TABLES, {wrong: [(1,)]})
        for wrong in ([("T", [(1,)])], "T", 0, False):
            self.assertRaisesRegex(TypeError, "rows are a mapping", entangle.Room, TABLES, wrong)
        self.assertRaises(TypeError, entangle.Room, TABLES, {"T": 5})

    def test_rows_and_values_for_which_there_is_no_memory_are_freed(self):
        room, library = self.room(), entangle._given.LIBRARY
        calls = [(f"rows_{name}", entangle.Room, {"Flights": [(1, "Rome")]}) for name in ("begin", "int", "text")]
        calls += [(f"values_{name}", room.put, {"me": 1, "friend": "a"}) for name in ("int", "text")]
        for name, call, given in calls:
            full = mock.patch.object(library, f"ent_c_{name}", return_value=entangle._library.OUT_OF_MEMORY)
            free = getattr(library, f"ent_c_{name.partition('_')[0]}_free")
            with self.subTest(name), full, mock.patch.object(library, free.__name__, wraps=free) as freed:
                self.assertRaises(entangle.OutOfMemory, call, TABLES, given)
                self.assertEqual(freed.call_count, 1)

    def test_scripts_of_an_opening_are_put_in_order(self):
        opening = "CREATE TABLE T (a INT); BEGIN TRANSACTION; COMMIT; BEGIN TRANSACTION; ROLLBACK;"
        with entangle.Room(opening, next_ticket=entangle.Ticket(5), most_waiters=2) as room:
            self.assertEqual(room.waiting(), [entangle.Ticket(5), entangle.Ticket(6)])
            settle(room)
            self.assertEqual(room.wait(entangle.Ticket(6)), entangle.TicketRolledBack())
        with self.assertRaises(entangle.RoomFull):
            entangle.Room(opening, most_waiters=1)

    def test_a_full_room_takes_nobody(self):
        room = self.room(most_waiters=1)
        eve = put(room, "Eve", "Finn")
        self.assertRaises(entangle.RoomFull, put, room, "Finn", "Eve")
        room.withdraw(eve)
        self.assertEqual(put(room, "Finn", "Eve"), entangle.Ticket(2))

    def test_wrong_types_are_refused(self):
        room = self.room()
        for wrong in (5, None, ("a",)):
            self.assertRaisesRegex(TypeError, " is a str or bytes, not ", room.put, wrong)
            self.assertRaisesRegex(TypeError, " is a str or bytes, not ", room.explain, wrong)
            self.assertRaisesRegex(TypeError, " is a str or bytes, not ", room.table, wrong)
            self.assertRaises(TypeError, room.turn, wrong)
        for wrong in (1, "1", None):
            for call in (room.state, room.withdraw, room.wait, room.submissions, room.why):
                with self.subTest(wrong=wrong, call=call):
                    self.assertRaisesRegex(TypeError, "a ticket is a Ticket", call, wrong)
            self.assertRaises(TypeError, entangle.Room, TABLES, next_ticket=wrong)
        for wrong in (True, 1.5, None, b"a", [1]):
            self.assertRaisesRegex(TypeError, "a value is an int or a str", room.put, TRIP, {"me": wrong})
        self.assertRaises(TypeError, room.put, TRIP, {1: "a"})
        for wrong in ([("me", "a")], "me", 0, False):
            for call in (room.put, room.explain):
                self.assertRaisesRegex(TypeError, "the values of host variables are a mapping", call, TRIP, wrong)
        for wrong in (True, 1.5, "1"):
            self.assertRaises(TypeError, room.put, TRIP, None, wrong)
            self.assertRaises(TypeError, entangle.Ticket, wrong)
        for wrong in (-1, 2**64):
            self.assertRaises(ValueError, entangle.Ticket, wrong)
            self.assertRaises(ValueError, entangle.Room, TABLES, epoch=wrong)
            self.assertRaises(ValueError, entangle.Room, TABLES, most_waiters=wrong)
        self.assertEqual(room.waiting(), [])

    def test_a_room_is_neither_copied_nor_pickled(self):
        room = self.room()
        self.assertRaisesRegex(TypeError, "a room can't be copied", copy.copy, room)
        self.assertRaisesRegex(TypeError, "a room can't be copied", copy.deepcopy, [room])
        self.assertRaisesRegex(TypeError, "a room can't be pickled", pickle.dumps, room)
        for thing in (entangle.Ticket(7), entangle.TicketCommitted(1, 2), entangle.Submission(1, 2)):
            self.assertEqual((copy.deepcopy(thing), pickle.loads(pickle.dumps(thing))), (thing, thing))
        errors = [entangle.NotBound("me", entangle.BindingFault.TWICE), entangle.RoomFull("full")]
        errors += [entangle.NotARow("T", 1, entangle.RowFault.TOO_LONG, 2)]
        for error in [*errors, entangle.NotARow("T", 1, entangle.RowFault.OTHER_KIND)]:
            again = pickle.loads(pickle.dumps(error))
            self.assertEqual((type(again), str(again), vars(again)), (type(error), str(error), vars(error)))

    def test_refusals_are_errors_of_the_package(self):
        kinds = "RoomFull NotBound NotARow TicketUsed NobodyWaits UnknownTicket BatchIsOn NoMoreNumbers"
        for name in kinds.split():
            self.assertTrue(issubclass(getattr(entangle, name), entangle.RoomError))
        self.assertTrue(issubclass(entangle.RoomError, entangle.Error))
