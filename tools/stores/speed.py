"""How fast stores are: what they write in a second, whole lives of requests in a room over them, and crowds."""

import asyncio
import os
import statistics
import threading
import time

import entangle
from clients import UNTIL
from engines import TABLES
from entangle import stores
from entangle.stores import DurableRoom, Request, Table

TRAVEL = [
    Table("Flights", {"fno": "INT", "dest": "TEXT"}, initial=[(122, "LA"), (136, "Paris")]),
    Table("Trips", {"who": "TEXT", "fno": "INT"}, collects=True),
]
TRIP = """BEGIN TRANSACTION;
SELECT @me, fno AS @fno INTO ANSWER Trip
  WHERE fno IN (SELECT fno FROM Flights WHERE dest = 'LA') AND (@friend, fno) IN ANSWER Trip CHOOSE 1;
INSERT INTO Trips VALUES (@me, @fno);
COMMIT;
"""
LIVES_SECONDS = 6.0
# After so many calls of put_all the table that collects is drained, as a service does it.
DRAINED_EACH = 50


def pairs(first_group, first_number, count, epoch):
    """Groups as those of friends who book a flight: two commits, two rows, and one that is counted."""
    groups, ended = [], []
    for at in range(count):
        number, group = first_number + 2 * at, first_group + at
        rows = tuple((f"who{one}", 100 + one % 7) for one in (number, number + 1))
        answers = [(entangle.EntangledAnswer((entangle.Fact("Trip", row),)), entangle.CountAnswer(1)) for row in rows]
        commits = tuple(
            entangle.GroupCommit(entangle.Ticket(number + one), number + one, answers[one]) for one in range(2)
        )
        counted = entangle.TableChange((("all", group - 1),), (("all", group),))
        changes = {"Counters": counted, "Bookings": entangle.TableChange((), rows)}
        groups.append(entangle.Group(group, epoch, commits, changes, ()))
        ended += stores.outcomes_of(groups[-1])
    return groups, ended


def written(engine):
    """How many tickets and groups are written in a second, in transactions of several sizes."""
    store = engine.store(engine.fresh())
    epoch, ticket, group = store.load(TABLES).epoch, 1, 1
    script = "x" * 300
    for size, transactions in ((1, 200), (64, 20)):
        began = time.perf_counter()
        for _ in range(2 * transactions):
            waiting = [
                stores.Waiter(entangle.Ticket(ticket + one), script, {"me": "Ann", "friend": "Bob"}, UNTIL)
                for one in range(size)
            ]
            ticket += size
            store.apply((), (), waiting, ticket, epoch)
        putting = time.perf_counter() - began
        began = time.perf_counter()
        for _ in range(transactions):
            groups, ended = pairs(group, 2 * group - 1, size, epoch)
            group += size
            store.apply(groups, ended, (), ticket, epoch)
        writing = time.perf_counter() - began
        tickets, groups = round(2 * size * transactions / putting), round(size * transactions / writing)
        print(f"{engine.name}, {size} a transaction: {tickets} tickets and {groups} groups a second", flush=True)
    store.close()


def used_by_server(room):
    """The seconds of processors that the server's process of a room's store has used; 0 if there is none."""
    connection = getattr(room._store._connection, "info", None)
    if connection is None:
        return 0.0
    with open(f"/proc/{connection.backend_pid}/stat", encoding="ascii") as file:
        user, system = file.read().rpartition(")")[2].split()[11:13]
    return (int(user) + int(system)) / os.sysconf("SC_CLK_TCK")


def lives(engine, couples=32, seconds=LIVES_SECONDS):
    """How many requests of friends are put and answered in a second, all of them with keys, 64 in one put_all, by a
    room of the library over the store; the table that collects is drained at times."""
    room, number = DurableRoom(TRAVEL, engine.store(engine.fresh())), 0
    began, used = time.perf_counter(), time.process_time()
    while time.perf_counter() - began < seconds:
        wanted = []
        for _ in range(couples):
            number += 1
            names = f"{number}a", f"{number}b"
            for me, friend in (names, names[::-1]):
                wanted.append(Request(TRIP, {"me": me, "friend": friend}, UNTIL, f"request-{me}"))
        tickets = room.put_all(wanted)
        while room.step() != "idle":
            pass
        if number % (couples * DRAINED_EACH) == 0:
            room.turn("Trips")
    took, used, servers = time.perf_counter() - began, time.process_time() - used, used_by_server(room)
    for ticket in tickets:
        assert room.state(ticket).kind == "committed"
    room.close()
    rate, each, of_server = 2 * number / took, 500 * used / number, 500 * servers / number
    print(f"{engine.name}, {2 * couples} keyed in one put_all: {rate:.0f} tickets a second, put and answered", end="; ")
    print(f"processors: {each:.2f} ms each here, and {of_server:.2f} ms in the server", flush=True)


# ---- crowds that wait


def crowded(engine, count, patience):
    """A store in which so many wait whose friends never come, and its place."""
    place = engine.fresh()
    store = engine.store(place)
    epoch = store.load(TRAVEL).epoch
    for first in range(1, count + 1, 1_000):
        tickets = range(first, min(first + 1_000, count + 1))
        waiting = [
            stores.Waiter(entangle.Ticket(at), TRIP, {"me": f"{at}", "friend": f"{at}'s"}, patience) for at in tickets
        ]
        store.apply((), (), waiting, tickets.stop, epoch)
    store.close()
    return place


def opening(engine, count=100_000):
    """How long the opening of a room takes over a store in which so many wait."""
    place = crowded(engine, count, UNTIL)
    store = engine.store(place)
    began, used = time.perf_counter(), time.process_time()
    room = DurableRoom(TRAVEL, store)
    took, used = time.perf_counter() - began, time.process_time() - used
    assert len(room.waiting()) == count
    room.close()
    print(f"{engine.name}, opening with {count} who wait: {took:.1f} s, {used:.1f} s of a processor", flush=True)


def idle(engine, count=10_000, times=50):
    """How long a step takes that has nothing to do, where so many wait for a number of batches."""
    room = DurableRoom(TRAVEL, engine.store(crowded(engine, count, 8)))
    while room.step() != "idle":
        pass
    took = []
    for _ in range(times):
        began = time.perf_counter()
        assert room.step() == "idle"
        took.append(1_000 * (time.perf_counter() - began))
    room.close()
    median = statistics.median(took)
    print(f"{engine.name}, an idle step with {count} who wait: {median:.3f} ms in the median of {times}", flush=True)


def hanging(engine, count=1_000, seconds=2.0):
    """For how long an event loop is silent in which so many await their fates, while the store doesn't answer."""
    place = crowded(engine, count, UNTIL)
    room = DurableRoom(TRAVEL, engine.store(place))
    silent = []

    async def ticking(until):
        last = time.perf_counter()
        while last < until:
            await asyncio.sleep(0)
            now = time.perf_counter()
            silent.append(1_000 * (now - last))
            last = now

    async def awaiting():
        early = [asyncio.ensure_future(room.fate(ticket)) for ticket in room.waiting()]
        await asyncio.sleep(0)
        with engine.locked(place):
            writing = threading.Thread(target=room.put, args=(TRIP, {"me": "Ann", "friend": "Bob"}, UNTIL))
            writing.start()
            await asyncio.sleep(0.2)
            late = asyncio.ensure_future(room.fate(entangle.Ticket(1)))
            await ticking(time.perf_counter() + seconds)
            assert writing.is_alive() and not any(task.done() for task in (late, *early))
        await asyncio.to_thread(writing.join)
        for task in (late, *early):
            task.cancel()

    asyncio.run(awaiting())
    room.close()
    said = f"{engine.name}, a store that doesn't answer for {seconds:.0f} s while {count} await their fates"
    print(f"{said}: the loop is silent for {max(silent):.1f} ms at most", flush=True)


def growing(engine, couples=32, rounds=4):
    """How long a room takes to book couples, by how many rows the table of their bookings has."""
    declared = "\n".join(table.declaration for table in TRAVEL)
    for rows in (0, 10_000, 20_000, 60_000):
        booked = [(f"who{at}", 122) for at in range(rows)]
        took = []
        with entangle.Room(declared, {"Flights": TRAVEL[0].initial, "Trips": booked}) as room:
            for number in range(rounds):
                for at in range(couples):
                    names = f"{number}.{at}a", f"{number}.{at}b"
                    for me, friend in (names, names[::-1]):
                        room.put(TRIP, {"me": me, "friend": friend}, UNTIL)
                began = time.process_time()
                while room.step() != "idle":
                    pass
                took.append(1_000 * (time.process_time() - began) / couples)
        print(f"a room, {rows} rows of bookings: {min(took):.2f} ms of a processor for a couple", flush=True)


OVER_LIBRARY = (lives, idle, hanging, opening, growing)


def measured(engine, only=""):
    """Measures what has a name that begins with one of these words."""
    words = tuple(only.split(","))
    if "written".startswith(words):
        written(engine)
    if "stub" in entangle.library_version():
        print(f"{engine.name}: no library is built, so nothing is tried in a room", flush=True)
        return
    for measure in OVER_LIBRARY:
        if measure.__name__.startswith(words):
            measure(engine)
