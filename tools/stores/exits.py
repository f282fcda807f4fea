"""What gets a room past what would lock it up, over both engines: a start that fails, scripts that can't come back,
groups that the database refuses, times that are over, and tickets that are forgotten."""

import os
import signal
from dataclasses import replace
from datetime import datetime, timedelta, timezone

import entangle
from clients import UNTIL, Fault, finished, forked, insisting
from engines import TABLES, Sqlite
from entangle import stores
from entangle.stores import DurableRoom, Request
from fake_room import FakeRoom
from trial import Wrong, need, raises

HOUR = timedelta(hours=1)
SOON = datetime.now(timezone.utc) + HOUR
ANN = [
    Request("pair", {"me": "Ann", "friend": "Bob"}, UNTIL, "a"),
    Request("pair", {"me": "Bob", "friend": "Ann"}, UNTIL, "b"),
]
EVE = Request("pair", {"me": "Eve", "friend": "nobody"}, UNTIL, "e")


def opened(engine, place, **how):
    return DurableRoom(TABLES, engine.store(place, timeout=5.0), **{"opens": FakeRoom, **how})


def run(engine, place, *statements):
    """Runs statements of SQL; what the last of them finds."""
    with engine.reading(place) as connection:
        cursors = [connection.execute(statement) for statement in statements]
        found = cursors[-1].fetchall() if cursors[-1].description else []
        connection.commit()
        return found


def settled(room):
    while room.step() != "idle":
        pass


class Stubborn(FakeRoom):
    """A room that takes no `add` again."""

    def restore(self, ticket, script, *given):
        if script == "add":
            raise entangle.Refused(302, 107, 3, 9)
        super().restore(ticket, script, *given)


def starts_that_fail(cases):
    """A start that fails leaves the store to whoever has it; one that sets aside doesn't fail."""
    engine, place = cases.engine, cases.engine.fresh()
    room = opened(engine, place)
    ann, add = room.put_all([ANN[0], Request("add", {"me": "Eve"}, UNTIL, "e")])
    before = run(engine, place, "SELECT claim, write, token, epoch FROM entangle_claim")
    for how in ({"opens": Stubborn}, {"most_waiters": 1}):
        raises(stores.NotRestored, lambda: opened(engine, place, **how))
        now = run(engine, place, "SELECT claim, write, token, epoch FROM entangle_claim")
        need(now == before, f"a start that fails leaves {now}, and {before} was there")
        room.check()
    bob = room.put(ANN[1].script, ANN[1].values, UNTIL, "b")
    later = opened(engine, place, opens=Stubborn, unrestored="set aside")
    need(later.state(add) == entangle.TicketNotRestored("E302 at 107"), f"{later.state(add)} is set aside")
    raises(stores.StoreTaken, room.check)
    settled(later)
    need([later.state(one).kind for one in (ann, bob)] == ["committed", "committed"], "the pair isn't booked")
    later.close()


# By what a row of Ann is refused: for SQLite, and for PostgreSQL.
CONSTRAINTS = {
    "UNIQUE": 2 * (["CREATE UNIQUE INDEX once ON {table} (who)", "INSERT INTO {table} VALUES ('Ann', 7)"],),
    "CHECK": (None, ["ALTER TABLE {table} ADD CHECK (who <> 'Ann')"]),
    "a trigger": (
        ["CREATE TRIGGER refuses BEFORE INSERT ON {table} WHEN new.who = 'Ann' BEGIN SELECT RAISE(ABORT, 'no'); END"],
        [
            "CREATE FUNCTION refuses() RETURNS trigger LANGUAGE plpgsql AS"
            " $$ BEGIN IF new.who = 'Ann' THEN RAISE 'no'; END IF; RETURN new; END $$",
            "CREATE TRIGGER refuses BEFORE INSERT ON {table} FOR EACH ROW EXECUTE FUNCTION refuses()",
        ],
    ),
    "what is checked at COMMIT": (
        None,
        [
            "CREATE TABLE people (who TEXT PRIMARY KEY)",
            "INSERT INTO people VALUES ('Bob')",
            "ALTER TABLE {table} ADD FOREIGN KEY (who) REFERENCES people DEFERRABLE INITIALLY DEFERRED",
        ],
    ),
}


def refused_groups(cases, kind, statements):
    """A group breaks a constraint: the error names it, its tickets are set aside, and all others go on."""
    engine, place = cases.engine, cases.engine.fresh()
    room = opened(engine, place)
    first = room.put("add", {"me": "Zoe"}, UNTIL)
    settled(room)
    run(engine, place, *[statement.format(table='"Bookings"') for statement in statements])
    ann, bob, eve = room.put_all([*ANN, Request("add", {"me": "Eve"}, UNTIL, "e")])
    for call in (room.step, lambda: room.withdraw(eve), lambda: room.put("add", {"me": "Max"}, UNTIL)):
        error = raises(stores.RefusedByStore, call)
    need((error.group, error.tickets) == (2, (ann, bob)), f"the error names {error.group} and {error.tickets}")
    place_of_row = (None, None) if kind == "what is checked at COMMIT" else ("Bookings", ("Ann", 101))
    need((error.table, error.row) == place_of_row, f"the error names {error.table} and {error.row}")
    need(room.outcome(ann) is None and room.ended() == [first], "what is refused is told")
    need(room.set_aside([ann]) == [ann], "nobody is set aside")
    ending = entangle.TicketRefusedByStore(str(error))
    need(room.state(ann) == ending and room.waiting() == [bob, eve], f"{room.state(ann)} is set aside")
    settled(room)
    need((room.state(eve).kind, room.waiting()) == ("committed", [bob]), "the others don't go on")
    stands = run(engine, place, "SELECT how_many FROM counted")
    need(room.table("Counters") == [("all", stands[0][0])] == [("all", 2)], f"the store has {stands}")
    room.close()
    later = opened(engine, place)
    need((later.state(ann), later.waiting()) == (ending, [bob]), "the next process finds something else")
    later.close()


def halves(cases):
    """Of requests that are put together either all are there or none; a key names one request for ever."""
    engine, place = cases.engine, cases.engine.fresh()
    room = opened(engine, place)
    raises(entangle.Refused, lambda: room.put_all([EVE, Request("nonsense", {"me": "x"})]))
    need(run(engine, place, "SELECT ticket FROM entangle_tickets") == [], "a half of a put stands")
    need(room.waiting() == room._now.room.waiting() == [], "a half of a put waits")
    pair, none = room.put_each([ANN, [EVE, Request("nonsense", {"me": "x"})]])
    need(len(pair) == 2 and isinstance(none, entangle.Refused), f"{pair} and {none} are put")
    settled(room)
    raises(stores.KeyUsedOtherwise, lambda: room.put_all([EVE, replace(ANN[0], values=ANN[1].values)]))
    need(room.waiting() == [] and room.put_all(ANN) == pair, "a key was used for something else")
    room.close()


def expired(cases):
    """Whose time is over is withdrawn in one transaction, by this process or the next one."""
    engine, place = cases.engine, cases.engine.fresh()
    room = opened(engine, place)
    until = [None, SOON, SOON + HOUR, SOON]
    tickets = room.put_all([replace(EVE, key=f"k{at}", until=one) for at, one in enumerate(until)])
    store, seen = room._store, []
    store.hook = lambda when, sql, _: seen.append(sql) if when == "before" else None
    need(room.expire(SOON - HOUR) == [] and room.expire(SOON) == [tickets[1], tickets[3]], "others expire")
    need(seen.count("COMMIT") == 1, f"they expire by {seen.count('COMMIT')} transactions")
    later = opened(engine, place)
    need(later.expire(SOON + HOUR) == [tickets[2]] and later.waiting() == tickets[:1], "the next process finds others")
    later.close()


def forgotten(cases):
    """Tickets that ended are forgotten, never one that waits; a late retry books nothing anew."""
    engine, place = cases.engine, cases.engine.fresh()
    room = opened(engine, place)
    ann, bob, add, eve = room.put_all([*ANN, Request("add", {"me": "Zoe"}), EVE])
    settled(room)
    outcome = room.outcome(ann)
    need(room.forget(SOON - 2 * HOUR) == 0 and room.forget(SOON) == 3, "others are forgotten")
    need(run(engine, place, "SELECT ticket FROM entangle_tickets") == [(eve.number,)], "others stay")
    need(room.put_all(ANN) == [ann, bob] and room.waiting() == [eve], "a late retry is put anew")
    raises(stores.KeyUsedOtherwise, lambda: room.put("add", {"me": "Ann"}, UNTIL, "a"))
    found = room.outcome(ann)
    need((found.ending, found.group, found.answers) == (outcome.ending, outcome.group, ()), f"{found} is forgotten")
    need(room.state(add) == entangle.TicketUnknown(), "a ticket without a key is kept")
    need(room.forget_keys(SOON) == 2 and room.put_all(ANN) > [eve, eve], "keys aren't forgotten")
    room.close()


# ---- the process is killed, or its connection is lost, at each statement


def life(engine, place, hook=None):
    """A process has a group refused and set aside, lets a time pass, and forgets; or goes on with that."""
    store = engine.store(place, timeout=5.0)
    store.hook = hook
    room = insisting(DurableRoom, TABLES, store, opens=Stubborn, unrestored="set aside")
    ann, *_ = insisting(room.put_all, [*ANN, replace(EVE, until=SOON), Request("roll", {"me": "Max"}, UNTIL, "m")])
    is_idle = False
    while not is_idle:
        try:
            is_idle = room.step() == "idle"
        except stores.RefusedByStore as error:
            need(ann in error.tickets, f"the error names {error.tickets}")
            insisting(room.set_aside, [ann])
        except stores.StoreFailed:
            pass
    insisting(room.expire, SOON)
    insisting(room.forget, SOON)
    store.close()


def lived(engine, place):
    """What has to hold once a process went through its life, whatever befell it and those before."""
    room = opened(engine, place)
    ends = {key: room.state(room.ticket_of(key)).kind for key in "abem"}
    wanted = {"a": "refused by the store", "b": "waits", "e": "withdrawn", "m": "rolled back"}
    need({**ends, "b": "waits"} == wanted and ends["b"] in ("waits", "lonely"), f"they stand as {ends}")
    need(room.waiting() == [room.ticket_of("b")], f"{room.waiting()} wait")
    need(room.table("Counters") == [("all", 0)], f"{room.table('Counters')} is counted")
    need(run(engine, place, "SELECT count(*) FROM entangle_tickets") == [(1,)], "others are forgotten")
    need(run(engine, place, 'SELECT who FROM "Bookings"') == [("Ann",)], "a booking stands")
    room.close()


def place_of_life(engine):
    """A place where a booking of Ann can't be written."""
    place = engine.fresh()
    opened(engine, place).close()
    run(engine, place, *[statement.format(table='"Bookings"') for statement in CONSTRAINTS["UNIQUE"][0]])
    return place


def faulty_lives(cases, kind):
    """The process is killed at each statement of its life, or its connection is lost: the end is the same."""
    engine, number, count = cases.engine, 1, 0
    fault = Fault(None, None, None)
    life(engine, place_of_life(engine), fault)
    for number in range(1, fault.count + 1, cases.every):
        for when in ("before", "after"):
            place, count = place_of_life(engine), count + 1
            act = engine.lost if kind == "lost" else lambda store: os.kill(os.getpid(), signal.SIGKILL)
            status = finished(forked(lambda: life(engine, place, Fault(number, when, act))))
            # behind a statement that fails there is nothing
            is_killed = kind == "killed" and status == -signal.SIGKILL
            need(status == 0 or is_killed, f"{when} {number}: it ends with {status}")
            if status:
                need(finished(forked(lambda: life(engine, place))) == 0, f"{when} {number}: nobody can go on")
            try:
                lived(engine, place)
            except Wrong as wrong:
                raise Wrong(f"{when} statement {number}: {wrong}") from wrong
            engine.forget(place)
    print(f"{engine.name}: {kind} {count} times in a life of {fault.count} statements, with setting aside", flush=True)


def cases_of_exits(cases):
    cases.case("exit from starts that fail", lambda: starts_that_fail(cases))
    for kind, statements in CONSTRAINTS.items():
        of_engine = statements[0 if isinstance(cases.engine, Sqlite) else 1]
        if of_engine is not None:
            cases.case(f"exit from {kind}", lambda: refused_groups(cases, kind, of_engine))
    cases.case("exit halves", lambda: halves(cases))
    cases.case("exit expired", lambda: expired(cases))
    cases.case("exit forgotten", lambda: forgotten(cases))
    for kind in ("killed", "lost"):
        cases.case(f"exit {kind} at each statement", lambda: faulty_lives(cases, kind))
    said = "starts that fail, groups that are refused, times and tickets that are over"
    print(f"{cases.engine.name}: {said}", flush=True)
