#!/usr/bin/python3
"""Books pairs over a store, and notes each thing that it tells, a line of JSON each.

    booking.py DSN NOTES NAME [--lease SECONDS] [--waiting N]

The store is in PostgreSQL; in a file of SQLite if DSN is a path that begins with `/`. With a lease the process waits
for its turn first, keeps it, and ends with status 3 once it hasn't the turn or the store any more. It ends with status
0 once a file NOTES.stop is there, or whoever started it has ended. With --waiting so many people wait in the store
whose friends never come.
"""

import argparse
import json
import os
import random
import sys
import time

sys.dont_write_bytecode = True
HERE = os.path.dirname(os.path.dirname(os.path.dirname(os.path.realpath(__file__))))
sys.path.insert(0, os.path.join(HERE, "bindings", "python"))

import entangle  # noqa: E402
from entangle.stores import DurableRoom, PostgresStore, PostgresTurn, Request, SqliteStore, SqliteTurn  # noqa: E402
from entangle.stores import StoreFailed, StoreTaken, Table  # noqa: E402

TABLES = [
    Table("Flights", {"fno": "INT", "dest": "TEXT"}, initial=[(122, "LA"), (123, "LA"), (136, "Paris")]),
    Table("Bookings", {"who": "TEXT", "fno": "INT"}, collects=True),
]
TRIP = """BEGIN TRANSACTION;
SELECT @me, fno AS @fno INTO ANSWER Trip
  WHERE fno IN (SELECT fno FROM Flights WHERE dest = 'LA') AND (@friend, fno) IN ANSWER Trip CHOOSE 1;
INSERT INTO Bookings VALUES (@me, @fno);
COMMIT;"""
UNTIL = entangle.Patience.UNTIL_WITHDRAWN
AGAIN_SECONDS = 0.05


def request(key, friend):
    return Request(TRIP, {"me": key, "friend": friend}, UNTIL, key)


class Counting(PostgresStore):
    """A store that notes whenever a write that it sends again stands there already."""

    note = None

    def _judge(self, *given):
        super()._judge(*given)
        self.note(stood=True)


class Booker:
    """A process that asks, and tells what it is told."""

    def __init__(self, words):
        self.words = words
        self.notes = os.open(words.notes, os.O_WRONLY | os.O_CREAT | os.O_APPEND)
        self.is_file = words.dsn.startswith("/")
        self.turn = None
        if words.lease and self.is_file:
            self.turn = SqliteTurn(words.dsn, words.name)
        elif words.lease:
            self.turn = PostgresTurn(words.dsn, words.name, lease=words.lease)
        self.beat, self.failing, self.parent = time.monotonic(), None, os.getppid()
        self.tickets, self.late, self.count = {}, [], 0
        self.random = random.Random(os.getpid())

    def note(self, **said):
        line = json.dumps({"at": time.time(), "used": time.process_time(), "pid": os.getpid(), **said}) + "\n"
        os.write(self.notes, line.encode())

    def insists(self, what, call, *given):
        """Makes a call again as long as the store fails."""
        while True:
            self.keep_turn()
            if os.getppid() != self.parent:
                sys.exit(0)
            begun = time.monotonic()
            try:
                result = call(*given)
                self.failing = None
                return result
            except StoreFailed as error:
                if self.failing != str(error):
                    self.failing = str(error)
                    self.note(failed=what, error=self.failing[:160], took=round(time.monotonic() - begun, 3))
                time.sleep(AGAIN_SECONDS)

    def keep_turn(self):
        if self.turn and time.monotonic() - self.beat > self.words.lease / 4:
            self.beat = time.monotonic()
            if not self.turn.keep():
                self.note(over="no turn")
                sys.exit(3)

    def put(self, *pairs):
        """Puts the requests of these keys, and notes who is told which ticket."""
        wanted = [request(key, friend) for key, friend in pairs]
        for one, ticket in zip(wanted, self.insists("put", self.room.put_all, wanted)):
            if isinstance(ticket, Exception):
                raise ticket
            self.note(key=one.key, ticket=ticket.number)
            self.tickets[one.key] = ticket

    def asks(self):
        """A pair asks: at once, one after the other, or the second one much later."""
        self.count += 1
        base = f"{os.getpid()}_{self.count}_{time.time_ns() // 1000}"
        first, second = (f"{base}a", f"{base}b"), (f"{base}b", f"{base}a")
        chosen = self.random.random()
        if chosen < 0.6:
            self.put(first, second)
        elif chosen < 0.8:
            self.put(first)
            self.put(second)
        else:
            self.put(first)
            self.late.append(second)
        if self.late and self.random.random() < 0.3:
            self.put(self.late.pop(0))

    def tells(self):
        """Notes each end."""
        for key, ticket in list(self.tickets.items()):
            outcome = self.insists("outcome", self.room.outcome, ticket)
            if outcome is not None:
                end = outcome.ending
                numbers = {"epoch": getattr(end, "epoch", None), "number": getattr(end, "number", None)}
                self.note(told=key, ticket=ticket.number, kind=end.kind, group=outcome.group, **numbers)
                del self.tickets[key]

    def open(self):
        store = (SqliteStore if self.is_file else Counting)(self.words.dsn, name=self.words.name)
        store.note = self.note
        return DurableRoom(TABLES, store)

    def goes(self):
        if self.turn:
            self.note(waits=True)
            self.turn.take()
            self.note(turn=True)
        self.room = self.insists("open", self.open)
        self.note(opened=True, waiting=len(self.room.waiting()))
        if len(self.room.waiting()) < self.words.waiting:
            lonely = [request(f"lonely{number}", f"never{number}") for number in range(self.words.waiting)]
            self.insists("put", self.room.put_all, lonely)
        while not os.path.exists(f"{self.words.notes}.stop") and os.getppid() == self.parent:
            self.asks()
            while self.insists("step", self.room.step) != "idle":
                pass
            self.tells()
        self.room.close()


def main():
    words = argparse.ArgumentParser(usage=__doc__)
    words.add_argument("dsn")
    words.add_argument("notes")
    words.add_argument("name")
    words.add_argument("--lease", type=float, default=0.0)
    words.add_argument("--waiting", type=int, default=0)
    booker = Booker(words.parse_args())
    try:
        booker.goes()
    except StoreTaken:
        booker.note(over="taken")
        return 3
    return 0


if __name__ == "__main__":
    sys.exit(main())
