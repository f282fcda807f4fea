"""Rooms in which friends fly to where the other one flies, for the tests."""

import queue
import threading

import entangle

TABLES = """CREATE TABLE Flights (fno INT, dest TEXT);
CREATE TABLE Bookings (who TEXT, fno INT);
INSERT INTO Flights VALUES (122, 'LA');
INSERT INTO Flights VALUES (123, 'LA');
INSERT INTO Flights VALUES (136, 'Paris');
"""

# Somebody flies where a friend does.
TRIP = """BEGIN TRANSACTION WITHIN 3 RUNS;
SELECT @me, fno AS @fno INTO ANSWER Trip
  WHERE fno IN (SELECT fno FROM Flights WHERE dest = @dest) AND (@friend, fno) IN ANSWER Trip CHOOSE 1;
INSERT INTO Bookings VALUES (@me, @fno);
COMMIT;
"""

FLIGHT = "BEGIN TRANSACTION; INSERT INTO Flights VALUES (@fno, @dest); COMMIT;"
UNTIL_WITHDRAWN = entangle.Patience.UNTIL_WITHDRAWN


def trip(me, friend, dest="LA"):
    return {"me": me, "friend": friend, "dest": dest}


def put(room, me, friend):
    """Puts the trip of somebody to LA, who waits until it is withdrawn."""
    return room.put(TRIP, trip(me, friend), UNTIL_WITHDRAWN)


def settle(room):
    """Makes steps until there is nothing to do."""
    while room.step() != "idle":
        pass


class Stepping:
    """A thread that makes steps whenever it is told that something was put."""

    def __init__(self, room):
        self.told = queue.Queue()
        self.thread = threading.Thread(target=self.run, args=(room,))

    def run(self, room):
        while self.told.get():
            settle(room)

    def __enter__(self):
        self.thread.start()
        return lambda: self.told.put(True)

    def __exit__(self, *_):
        self.told.put(False)
        self.thread.join()


class WithRooms:
    """Tests that open rooms."""

    def room(self, **options):
        room = entangle.Room(TABLES, **options)
        self.addCleanup(room.close)
        return room
