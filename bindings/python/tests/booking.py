"""A process that has a room over a store, in which friends book; it may be killed at a COMMIT of the store."""

import json
import os
import signal
import sqlite3
import traceback
from contextlib import suppress

import entangle
from entangle.stores import DurableRoom, SqliteStore, Table

TABLES = [
    Table("Flights", {"fno": "INT", "dest": "TEXT"}, initial=[(122, "LA"), (136, "Paris")]),
    Table("Bookings", {"who": "TEXT", "fno": "INT"}, collects=True),
]
TRIP = """BEGIN TRANSACTION;
SELECT @me, fno AS @fno INTO ANSWER Trip
  WHERE fno IN (SELECT fno FROM Flights WHERE dest = 'LA') AND (@friend, fno) IN ANSWER Trip CHOOSE 1;
INSERT INTO Bookings VALUES (@me, @fno);
COMMIT;
"""
FULL = "BEGIN TRANSACTION; INSERT INTO Bookings VALUES ('x', 1); SET @d = 9223372036854775807 + 1; COMMIT;"
UNTIL = entangle.Patience.UNTIL_WITHDRAWN


def kept(name, path):
    """Makes a file of SQLite that has a store as an earlier version wrote it (tests/kept)."""
    with open(os.path.join(os.path.dirname(__file__), "kept", f"{name}.sqlite.sql"), encoding="utf-8") as file:
        connection = sqlite3.connect(path)
        connection.executescript(file.read())
        connection.close()


class Killed(SqliteStore):
    """A store whose process is killed at the COMMIT of this number, from 1, "before" it or "behind" it."""

    def __init__(self, path, number, when):
        super().__init__(path)
        self.left, self.when = number, when

    def _run(self, sql, parameters=()):
        self.left -= sql == "COMMIT"
        is_now = sql == "COMMIT" and self.left == 0
        if is_now and self.when == "before":
            os.kill(os.getpid(), signal.SIGKILL)
        result = super()._run(sql, parameters)
        if is_now:
            os.kill(os.getpid(), signal.SIGKILL)
        return result


def settle(room):
    while room.step() != "idle":
        pass


def book(room, tell):
    """Two friends book, one after the other; somebody fails, and somebody is withdrawn. What was put before, by a
    process that was killed, isn't put again. Each ticket and each ending that is known is told."""

    def put(key, script, values):
        ticket = room.put(script, values, UNTIL, key)
        tell(key=key, ticket=ticket.number)
        return ticket

    ann = put("ann", TRIP, {"me": "Ann", "friend": "Bob"})
    eve = put("eve", TRIP, {"me": "Eve", "friend": "nobody"})
    full = put("full", FULL, {})
    settle(room)
    bob = put("bob", TRIP, {"me": "Bob", "friend": "Ann"})
    settle(room)
    with suppress(entangle.NobodyWaits):
        room.withdraw(eve)
    for ticket in (ann, bob, eve, full):
        tell(ended=ticket.number, kind=room.state(ticket).kind)
    room.turn("Bookings")
    assert entangle.check(room.report(2).text).is_legal


def booked(path, number, when):
    """Has a process book over the store in a file, which is killed at a COMMIT, or at none if the number is 0; its
    status, and what it told."""
    heard, telling = os.pipe()
    child = os.fork()
    if not child:
        status = 1
        try:
            with DurableRoom(TABLES, Killed(path, number, when)) as room:
                book(room, lambda **said: os.write(telling, f"{json.dumps(said)}\n".encode()))
            status = 0
        except BaseException:
            traceback.print_exc()
        finally:
            os._exit(status)
    os.close(telling)
    with open(heard, encoding="utf-8") as told:
        lines = [json.loads(line) for line in told]
    return os.waitstatus_to_exitcode(os.waitpid(child, 0)[1]), lines
