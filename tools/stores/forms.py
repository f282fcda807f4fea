"""Stores that other versions wrote: earlier ones are taken up, and later ones left as they are."""

import os
import signal

import entangle
from clients import UNTIL, Client, Fault, finished, forked, insisting
from engines import FIRST, TABLES, Sqlite
from entangle import stores
from entangle.stores import DurableRoom
from fake_room import FakeRoom
from trial import need, raises
from verdict import holds

# How tickets 1 to 8 of a kept store ended (tests/kept), and under which keys they stand.
ENDED = {
    1: ("k1", entangle.TicketCommitted(1, 1)),
    2: ("k2", entangle.TicketGaveUp()),
    3: ("k3", entangle.TicketCommitted(1, 2)),
    4: ("k4", entangle.TicketFailed(entangle.Failure.OVERFLOW)),
    5: ("k5", entangle.TicketRolledBack()),
    6: (None, entangle.TicketCommitted(1, 3)),
    7: ("k6", entangle.TicketWithdrawn()),
    8: ("k7", entangle.TicketCommitted(3, 1)),
}
WAITING = {9: "k8", 10: "k9", 11: None}
SHAPES = {
    "sqlite": (
        "SELECT m.name, c.name, lower(c.type), c.\"notnull\", c.pk FROM sqlite_master m, pragma_table_info(m.name) c"
        " WHERE m.name LIKE 'entangle%' AND m.type = 'table' ORDER BY 1, c.cid",
        "SELECT tbl_name, name, coalesce(sql, '') FROM sqlite_master WHERE tbl_name LIKE 'entangle%' AND type = 'index'"
        " ORDER BY 2",
    ),
    "postgres": (
        "SELECT table_name, column_name, data_type, is_nullable, column_default FROM information_schema.columns"
        " WHERE table_schema = current_schema() AND table_name LIKE 'entangle%' ORDER BY 1, 2",
        "SELECT indexname, replace(indexdef, current_schema() || '.', '') FROM pg_indexes"
        " WHERE schemaname = current_schema() AND tablename LIKE 'entangle%' ORDER BY 1",
        "SELECT conrelid::regclass::text, pg_get_constraintdef(oid) FROM pg_constraint WHERE connamespace ="
        " current_schema()::regnamespace AND conrelid::regclass::text LIKE 'entangle%' ORDER BY 1, 2",
    ),
}


def shape(engine, place):
    """The columns, indexes and constraints of a store's own tables."""
    with engine.reading(place) as connection:
        statements = SHAPES["sqlite" if isinstance(engine, Sqlite) else "postgres"]
        return [connection.execute(sql).fetchall() for sql in statements]


def contents(engine, place):
    """All rows of a store's own tables of form 1."""
    with engine.reading(place) as connection:
        names = ("entangle_claim", "entangle_tickets", "entangle_tables")
        return [sorted(map(repr, connection.execute(f"SELECT * FROM {name}").fetchall())) for name in names]


def goes_on(engine, place, form):
    """A room opens a kept store, finds all that it has, and goes on."""
    store = engine.store(place, timeout=5.0)
    room = DurableRoom(TABLES, store, opens=FakeRoom)
    for number, (key, ending) in ENDED.items():
        ticket = entangle.Ticket(number)
        outcome = room.outcome(ticket)
        need(outcome.ending == ending, f"form {form}: ticket {number} has {outcome.ending}")
        need(key is None or room.ticket_of(key) == ticket, f"form {form}: {key} isn't known")
        if key is not None:
            raises(stores.KeyUsedOtherwise, lambda: room.put("add", {"me": "other"}, key=key))
    need([ticket.number for ticket in room.waiting()] == sorted(WAITING), f"form {form}: {room.waiting()} wait")
    need(room.state(entangle.Ticket(9)) == entangle.TicketWaits(3), f"form {form}: batches aren't kept")
    used = store.tickets_of(["k2", "k9", "k10"])
    asked = stores.asked_digest("alone", {"size": -(2**63) + 1, "me": "Cleo"})
    need(used.keys() == {"k2", "k9"} and used["k2"].asked == asked, f"form {form}: keys were used so: {used}")
    gus = insisting(room.put, "pair", {"me": "Gus", "friend": "Finn"}, UNTIL, "k10")
    need(gus == entangle.Ticket(12), f"form {form}: {gus} is given out next")
    insisting(room.step)
    need(room.outcome(gus).group == room.outcome(entangle.Ticket(10)).group == 7, f"form {form}: the pair isn't one")
    need(room.state(entangle.Ticket(9)).kind == "waits", f"form {form}: ticket 9 is {room.state(entangle.Ticket(9))}")
    store.close()


def taken_up(cases, form):
    """A store of an earlier form becomes one of the present form, as a whole."""
    engine = cases.engine
    place, fresh = engine.of_form(form), engine.fresh()
    need(finished(forked(lambda: goes_on(engine, place, form))) == 0, "the store can't be taken up")
    holds(engine, place, [])
    need(finished(forked(lambda: Client(engine, fresh, cases.notes()).go([]))) == 0, "no fresh store")
    for taken, made in zip(shape(engine, place), shape(engine, fresh)):
        if taken and len(taken[0]) == 5 and isinstance(engine, Sqlite):
            taken, made = sorted(taken), sorted(made)
        need(taken == made, f"the tables taken up are {taken}, and fresh ones {made}")


def interrupted(cases, form):
    """The process that takes up a store is killed before and behind each statement: the store is of the one form or of
    the other, and another process goes on."""
    engine = cases.engine
    statements = 0
    for when in ("before", "after"):
        number, status = 0, -signal.SIGKILL
        while status == -signal.SIGKILL:
            number += cases.every
            place, before = engine.of_form(form), None
            before = contents(engine, place)

            def work():
                store = engine.store(place, timeout=5.0)
                store.hook = Fault(number, when, lambda _: os.kill(os.getpid(), signal.SIGKILL))
                store.load(TABLES)

            status = finished(forked(work))
            need(status in (0, -signal.SIGKILL), f"the process ends with {status}")
            with engine.reading(place) as connection:
                (found,) = connection.execute("SELECT form FROM entangle_claim").fetchone()
            need(found != form or contents(engine, place) == before, f"half taken up {when} statement {number}")
            need(finished(forked(lambda: goes_on(engine, place, form))) == 0, f"no going on {when} {number}")
            engine.forget(place)
        statements += number - 1
    need(statements > 40, f"{statements} statements only")


def later_form(cases):
    """A store of a later form is refused, and nothing is written; what a version of form 1 writes first fails."""
    engine, place = cases.engine, cases.engine.fresh()
    store = engine.store(place, timeout=5.0)
    store.load(TABLES)
    with engine.reading(place) as connection:
        first = f"INSERT INTO {FIRST.name}_claim VALUES (1, 0, 0, 0, 0, 1) ON CONFLICT DO NOTHING"
        raises(Exception, lambda: connection.execute(first))
    with engine.reading(place) as connection:
        connection.execute("UPDATE entangle_claim SET form = 3")
        connection.execute("DELETE FROM entangle_tables")
        connection.commit()
    before = contents(engine, place)
    error = raises(stores.StoreError, lambda: engine.store(place, timeout=5.0).load(TABLES))
    need("later version" in str(error), f"a later form is refused so: {error}")
    need(contents(engine, place) == before, "something is written into a store of a later form")
    store.close()


def cases_of_forms(cases):
    """Tries each form that was ever written."""
    for form in (1,):
        cases.case(f"form {form} taken up", lambda: taken_up(cases, form))
        cases.case(f"form {form} interrupted", lambda: interrupted(cases, form))
    cases.case("later form", lambda: later_form(cases))
