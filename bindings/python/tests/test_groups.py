"""What the feed of a room tells."""

import unittest

import entangle

from .rooms import FLIGHT, TABLES, TRIP, WithRooms, put, settle, trip


def booked(ticket, number, who, fno):
    """What the feed tells of somebody who flies where a friend does."""
    answers = (entangle.EntangledAnswer((entangle.Fact("Trip", (who, fno)),)), entangle.CountAnswer(1))
    return entangle.GroupCommit(ticket, number, answers)


def changed(tables, groups):
    """Tables, as sets of rows, after the changes of groups; each row that goes was there, and none that comes."""
    for group in groups:
        for name, change in group.changes.items():
            rows, removed, added = tables[name], set(change.removed), set(change.added)
            assert removed <= rows and not added & rows, (group, rows)
            tables[name] = rows - removed | added
    return tables


class Groups(WithRooms, unittest.TestCase):
    """What the feed tells."""

    def test_friends_are_one_group(self):
        room = self.room(next_group=7)
        mickey = put(room, "Mickey", "Minnie")
        settle(room)
        self.assertEqual((room.groups(), room.next_group()), ([], 7))
        minnie = put(room, "Minnie", "Mickey")
        settle(room)
        rows = (("Mickey", 122), ("Minnie", 122))
        commits = tuple(booked(*one) for one in ((mickey, 1, *rows[0]), (minnie, 2, *rows[1])))
        group = entangle.Group(7, 1, commits, {"Bookings": entangle.TableChange((), rows)}, ())
        self.assertEqual((room.groups(), room.groups(7), room.groups(8)), ([group], [group], []))
        self.assertEqual((room.next_group(), room.groups()), (8, [group]))

    def test_pairs_of_one_step_are_groups_of_their_own_in_order(self):
        room = self.room()
        pairs = [("Ann", "Bob"), ("Cleo", "Dan"), ("Eve", "Finn")]
        tickets = {me: put(room, me, friend) for pair in pairs for me, friend in (pair, pair[::-1])}
        settle(room)
        told = room.groups()
        self.assertEqual([group.number for group in told], [1, 2, 3])
        numbers = [commit.number for group in told for commit in group.commits]
        self.assertEqual(numbers, list(range(1, 7)))
        of_groups = {frozenset(commit.ticket for commit in group.commits) for group in told}
        self.assertEqual(of_groups, {frozenset(map(tickets.get, pair)) for pair in pairs})
        for group in told:
            for commit in group.commits:
                self.assertEqual(room.state(commit.ticket), entangle.TicketCommitted(group.epoch, commit.number))

    def test_each_kind_of_answer_is_told(self):
        room = self.room()
        select, rows = "SELECT * FROM Bookings;", []
        for number, text in enumerate(("it's \"quoted\" \\", "東\x85\u2028", ""), start=1):
            row = (text, -(2**63) + number)
            script = f"BEGIN TRANSACTION; INSERT INTO Bookings VALUES (@who, @fno); {select} COMMIT;"
            room.put(script, {"who": text, "fno": row[1]})
            settle(room)
            rows = sorted([*rows, row], key=lambda row: row[0].encode())
            (group,) = room.groups(number)
            answers = (entangle.CountAnswer(1), entangle.RowsAnswer(tuple(rows)))
            self.assertEqual(group.commits, (entangle.GroupCommit(entangle.Ticket(number), number, answers),))
            self.assertEqual(group.changes, {"Bookings": entangle.TableChange((), (row,))})
        room.put(f"BEGIN TRANSACTION; SET @a = 'x'; SET @b = 3 + 4; DELETE FROM Bookings; {select} COMMIT;")
        settle(room)
        (group,) = room.groups(4)
        answers = (entangle.SetAnswer("x"), entangle.SetAnswer(7), entangle.CountAnswer(3), entangle.RowsAnswer(()))
        self.assertEqual(group.commits[0].answers, answers)
        self.assertEqual(group.changes, {"Bookings": entangle.TableChange(tuple(rows), ())})

    def test_a_change_is_that_of_the_group_as_a_whole(self):
        room = self.room()
        moved = "UPDATE Flights SET dest = 'Rome' WHERE fno = 122; UPDATE Flights SET dest = 'Oslo' WHERE fno = 122;"
        taken = "INSERT INTO Flights VALUES (9, 'Bonn'); DELETE FROM Flights WHERE fno = 9;"
        for statements in (moved, taken, "DELETE FROM Flights WHERE fno = 7;"):
            room.put(f"BEGIN TRANSACTION; {statements} COMMIT;")
        settle(room)
        change = entangle.TableChange(((122, "LA"),), ((122, "Oslo"),))
        self.assertEqual([group.changes for group in room.groups()], [{"Flights": change}, {}, {}])

    def test_who_ends_otherwise_is_told_and_who_is_withdrawn_is_not(self):
        room = self.room()
        statement = "INSERT INTO Bookings VALUES ('x', 1);"
        rolled_back = room.put(f"BEGIN TRANSACTION; {statement} ROLLBACK;")
        failed = room.put(f"BEGIN TRANSACTION; {statement} SET @d = 9223372036854775807 + 1; COMMIT;")
        rome = [room.put(TRIP, trip(*pair, "Rome"), 1) for pair in (("Eve", "Finn"), ("Finn", "Eve"))]
        withdrawn = put(room, "Mickey", "Minnie")
        settle(room)
        room.withdraw(withdrawn)
        settle(room)
        told = room.groups()
        self.assertEqual([(group.commits, group.changes) for group in told], [((), {})] * len(told))
        endings = {one.ticket: one.ending for group in told for one in group.ended}
        self.assertEqual(endings.pop(rolled_back), entangle.TicketRolledBack())
        self.assertEqual(endings.pop(failed), entangle.TicketFailed(entangle.Failure.OVERFLOW))
        self.assertTrue(endings)
        for ticket, ending in endings.items():
            self.assertIn(ticket, rome)
            self.assertEqual((ending, room.state(ticket)), (entangle.TicketGaveUp(), entangle.TicketGaveUp()))
        self.assertEqual(sum(len(group.ended) for group in told), 2 + len(endings))

    def test_settled_groups_are_kept_no_longer(self):
        room = self.room(next_group=5)
        for fno in range(3):
            room.put(FLIGHT, {"fno": fno, "dest": "Oslo"})
        settle(room)
        told = room.groups()
        self.assertEqual([group.number for group in told], [5, 6, 7])
        room.settled_through(4)
        self.assertEqual(room.groups(), told)
        room.settled_through(6)
        self.assertEqual((room.groups(), room.groups(2**64 - 1)), (told[2:], []))
        room.settled_through(6)
        room.settled_through(2**64 - 1)
        self.assertEqual((room.groups(), room.next_group()), ([], 8))
        room.put(FLIGHT, {"fno": 9, "dest": "Oslo"})
        settle(room)
        self.assertEqual([group.number for group in room.groups()], [8])

    def test_numbers_go_on_over_turns(self):
        room = self.room(epoch=3)
        for count in range(3):
            room.put(FLIGHT, {"fno": count, "dest": "Oslo"})
            settle(room)
            room.turn("Bookings")
        told = room.groups()
        self.assertEqual([(group.number, group.epoch) for group in told], [(1, 3), (2, 4), (3, 5)])
        self.assertEqual([group.commits[0].number for group in told], [1, 1, 1])

    def test_the_groups_give_the_tables(self):
        room = self.room()
        names = ("Flights", "Bookings")
        tables = {name: set(room.table(name)) for name in names}
        scripts = [
            (FLIGHT, lambda n: {"fno": n % 7, "dest": "LA"}),
            (TRIP, lambda n: trip(f"p{n // 4}", f"q{n // 4}")),
            ("BEGIN TRANSACTION; DELETE FROM Flights WHERE fno = @fno; COMMIT;", lambda n: {"fno": n % 5}),
            (TRIP, lambda n: trip(f"q{n // 4}", f"p{n // 4}")),
        ]
        told = []
        for number in range(120):
            script, values = scripts[number % len(scripts)]
            room.put(script, values(number))
            if number % 9 == 8:
                settle(room)
                told += room.groups()
                room.settled_through(room.next_group() - 1)
        settle(room)
        told += room.groups()
        self.assertEqual([group.number for group in told], list(range(1, len(told) + 1)))
        self.assertEqual(changed(tables, told), {name: set(room.table(name)) for name in names})
        numbers = [commit.number for group in told for commit in group.commits]
        self.assertEqual(numbers, list(range(1, len(numbers) + 1)))

    def test_there_is_a_last_group(self):
        room = self.room(next_group=2**64 - 1)
        settle(room)
        room.put(FLIGHT, {"fno": 7, "dest": "Oslo"})
        for _ in range(2):
            self.assertRaises(entangle.NoMoreNumbers, room.step)
        self.assertEqual((room.groups(), room.next_group()), ([], 2**64 - 1))

    def test_wrong_numbers_of_groups_are_refused(self):
        room = self.room()
        for call in (room.groups, room.settled_through, lambda number: entangle.Room(TABLES, next_group=number)):
            for wrong in (-1, 2**64):
                self.assertRaises(ValueError, call, wrong)
            for wrong in ("1", 1.0, None):
                self.assertRaises(TypeError, call, wrong)
        room.close()
        for call in (room.groups, room.next_group, lambda: room.settled_through(1)):
            self.assertRaises(entangle.StateError, call)
