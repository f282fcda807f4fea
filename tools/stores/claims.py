"""Claims of which two have one number: a store that goes back to an earlier state, and a process that is forked."""

import os
from dataclasses import replace

from clients import UNTIL, finished, forked, insisting
from engines import TABLES, Sqlite
from entangle import stores
from entangle.stores import DurableRoom
from fake_room import FakeRoom
from trial import failed, need, raises

NUMBERS = "claim, write, epoch, last_group, next_ticket, token"


def opened(cases, place):
    return insisting(DurableRoom, TABLES, cases.engine.store(place, timeout=5.0), opens=FakeRoom)


def read(cases, place, sql):
    with cases.engine.reading(place) as connection:
        return connection.execute(sql).fetchall()


def keys_there(cases, place):
    return [key for (key,) in read(cases, place, "SELECT request_key FROM entangle_tickets ORDER BY ticket")]


def gone_back(cases, was_written, who):
    """A store goes back to a state before a claim, and gives the claim's number out again: who had it first says that
    the store is taken, whoever writes first."""
    place = cases.engine.fresh()
    first = opened(cases, place)
    first.put("add", {"me": "Ann"}, UNTIL, "one")
    (kept,) = read(cases, place, f"SELECT {NUMBERS} FROM entangle_claim")
    old = opened(cases, place)
    claim = read(cases, place, "SELECT claim FROM entangle_claim")
    if was_written:
        old.put("add", {"me": "Bob"}, UNTIL, "two")
    with cases.engine.reading(place) as connection:
        mark = "?" if isinstance(cases.engine, Sqlite) else "%s"
        connection.execute(f"UPDATE entangle_claim SET ({NUMBERS}) = ({', '.join([mark] * len(kept))})", kept)
        connection.execute("DELETE FROM entangle_tickets WHERE ticket > 1")
        connection.commit()
    new = opened(cases, place)
    need(read(cases, place, "SELECT claim FROM entangle_claim") == claim, "the claims have different numbers")
    if who == "new":
        new.put("add", {"me": "Cleo"}, UNTIL, "three")
    raises(stores.StoreTaken, lambda: old.put("add", {"me": "Dan"}, UNTIL, "four"))
    new.put("add", {"me": "Eve"}, UNTIL, "five")
    wanted = ["one", "three", "five"] if who == "new" else ["one", "five"]
    need(keys_there(cases, place) == wanted, f"there are the keys {keys_there(cases, place)}")
    for room in (first, old, new):
        room.close()


def gone_back_is_found(cases):
    """check() of who had the claim's number first finds that out without writing."""
    place = cases.engine.fresh()
    old = opened(cases, place)
    (kept,) = read(cases, place, f"SELECT {NUMBERS} FROM entangle_claim")
    with cases.engine.reading(place) as connection:
        connection.execute("UPDATE entangle_claim SET claim = claim - 1, epoch = epoch - 1, token = 1")
        connection.commit()
    new = opened(cases, place)
    need(read(cases, place, "SELECT claim FROM entangle_claim") == [kept[:1]], "the claims have different numbers")
    raises(stores.StoreTaken, old.check)
    new.check()
    old.close()
    new.close()


def forked_is_refused(cases):
    """Who is forked from a process that has a store has none, and can load it; the other one goes on until then."""
    place = cases.engine.fresh()

    def work():
        room = opened(cases, place)
        room.put("add", {"me": "Ann"}, UNTIL, "one")
        child = forked(lambda: raises(stores.StoreTaken, lambda: room.put("add", {"me": "Bob"}, UNTIL, "two")))
        need(finished(child) == 0, "the child isn't refused")
        room.put("add", {"me": "Cleo"}, UNTIL, "three")
        child = forked(lambda: opened(cases, place).put("add", {"me": "Dan"}, UNTIL, "four"))
        need(finished(child) == 0, "the child can't load the store")
        raises(stores.StoreTaken, lambda: room.put("add", {"me": "Eve"}, UNTIL, "five"))

    need(finished(forked(work)) == 0, "the process doesn't end well")
    need(keys_there(cases, place) == ["one", "three", "four"], f"there are the keys {keys_there(cases, place)}")


def twins(cases):
    """Two processes have one claim, as where a machine is copied with its memory: what one didn't write isn't told for
    the other's write of the same number."""
    place = cases.engine.fresh()
    waits, goes = os.pipe()

    def twin(room):
        os.read(waits, 1)
        # so it takes itself for the process that loaded the store
        room._store._held = replace(room._store._held, process=os.getpid())
        room.put("add", {"me": "Bob"}, UNTIL, "twin")

    def work():
        room = opened(cases, place)
        room.put("add", {"me": "Ann"}, UNTIL, "one")
        child = forked(lambda: twin(room))
        room._store.hook = lambda when, sql, store: sql == "COMMIT" and when == "before" and cases.engine.lost(store)
        failed(lambda: room.put("add", {"me": "Cleo"}, UNTIL, "two"))
        room._store.hook = None
        os.write(goes, b"!")
        need(finished(child) == 0, "the other one can't write")
        raises(stores.StoreTaken, lambda: room.put("add", {"me": "Cleo"}, UNTIL, "two"))

    need(finished(forked(work)) == 0, "the process doesn't end well")
    need(keys_there(cases, place) == ["one", "twin"], f"there are the keys {keys_there(cases, place)}")
    for end in (waits, goes):
        os.close(end)


def cases_of_claims(cases):
    for was_written in (False, True):
        for who in ("old", "new"):
            cases.case(f"gone_back {was_written} {who}", lambda: gone_back(cases, was_written, who))
    cases.case("gone_back found", lambda: gone_back_is_found(cases))
    cases.case("forked", lambda: forked_is_refused(cases))
    cases.case("twins", lambda: twins(cases))
