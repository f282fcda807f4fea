"""Many changes that one statement makes: which of them differs, what they leave, and how many statements there are."""

import entangle
from clients import UNTIL
from engines import TABLES, Sqlite
from entangle import stores
from entangle.stores import DurableRoom, Request, Table
from fake_room import FakeRoom
from trial import need, raises

# Texts that arrays and statements might read otherwise.
TEXTS = ['"', "\\", '\\"', "{a,b}", "NULL", "null", "", " ", "'", "%s", "é\u200b𝄞", "a,b", "\\x41", "{", "}"]


def rows_there(cases, place, sql):
    with cases.engine.reading(place) as connection:
        found = connection.execute(sql)
        return list(map(tuple, found.fetchall())) if found.description else connection.commit()


def group(loaded, number, removed, added):
    return entangle.Group(number, loaded.epoch, (), {"Seen": entangle.TableChange(removed, added)}, ())


def differs_in_a_run(cases):
    """Of many rows that go one isn't there, and another one is there twice: as many go as should, and the first that
    differs is named. Nothing stands; once that is mended, everything does."""
    place = cases.engine.fresh()
    rows_there(cases, place, "CREATE TABLE seen (n BIGINT, who TEXT)")
    rows_there(cases, place, "INSERT INTO seen VALUES (1, 'Ann'), (2, 'Bob'), (3, 'Cleo')")
    store = cases.engine.store(place)
    loaded = store.load((Table("Seen", {"n": "INT", "who": "TEXT"}, stored_as="seen"),))
    rows_there(cases, place, "DELETE FROM seen WHERE n = 2")
    rows_there(cases, place, "INSERT INTO seen VALUES (3, 'Cleo')")
    update = ((group(loaded, 1, ((1, "Ann"), (2, "Bob"), (3, "Cleo")), ((4, "Dan"),)),), (), (), 1, loaded.epoch)
    error = raises(stores.StoreDiffers, lambda: store.apply(*update))
    need("(2, 'Bob') of Seen, which touches 0 rows" in str(error), f"it is said so: {error}")
    found = rows_there(cases, place, "SELECT n FROM seen ORDER BY n")
    need(found == [(1,), (3,), (3,)], f"there are {found}")
    rows_there(cases, place, "DELETE FROM seen WHERE n = 3")
    rows_there(cases, place, "INSERT INTO seen VALUES (2, 'Bob'), (3, 'Cleo')")
    store.apply(*update)
    need(rows_there(cases, place, "SELECT n, who FROM seen") == [(4, "Dan")], "the changes aren't made")
    store.close()


def ended_before(cases):
    """Somebody ended a ticket by hand: of many that end it is named."""
    place = cases.engine.fresh()
    store = cases.engine.store(place)
    loaded = store.load(TABLES)
    tickets = list(map(entangle.Ticket, range(1, 6)))
    store.apply((), (), [stores.Waiter(ticket, "add", {}, UNTIL) for ticket in tickets], 6, loaded.epoch)
    rows_there(cases, place, "UPDATE entangle_tickets SET ending = 'withdrawn' WHERE ticket = 4")
    ended = [stores.Outcome(ticket, None, entangle.TicketWithdrawn()) for ticket in tickets]
    error = raises(stores.StoreDiffers, lambda: store.apply((), ended, (), 6, loaded.epoch))
    need("ticket 4, which ended, touches 0 rows" in str(error), f"it is said so: {error}")
    store.close()


def texts_stay(cases):
    """Texts of all kinds come back as they were put, in rows, in keys and in values."""
    place = cases.engine.fresh()
    store = cases.engine.store(place)
    table = Table("Seen", {"n": "INT", "who": "TEXT"})
    loaded = store.load((table,))
    rows = tuple((n - 2**62, text) for n, text in enumerate(TEXTS))
    store.apply((group(loaded, 1, (), rows),), (), (), 1, loaded.epoch)
    waiters = tuple(
        stores.Waiter(entangle.Ticket(n), text, {"text": text}, UNTIL, key=f"key {text}" if n % 3 else None)
        for n, text in enumerate(TEXTS, 1)
    )
    store.apply((), (), waiters, len(TEXTS) + 1, loaded.epoch)
    store.close()
    store = cases.engine.store(place)
    loaded = store.load((table,))
    need(sorted(loaded.rows["Seen"]) == sorted(rows), f"rows are {loaded.rows['Seen']}")
    need(loaded.waiting == waiters, f"{loaded.waiting} wait")
    used = store.tickets_of([f"key {text}" for text in TEXTS])
    need(used.keys() == {waiter.key for waiter in waiters if waiter.key}, f"the keys {sorted(used)} are used")
    store.apply((group(loaded, 2, rows, ()),), (), (), len(TEXTS) + 1, loaded.epoch)
    need(rows_there(cases, place, 'SELECT n FROM "Seen"') == [], "rows are left")
    store.close()


def statements_of(cases, count):
    """How many statements put_all makes for so many requests with keys, and tickets_of for their keys."""
    store = cases.engine.store(cases.engine.fresh())
    room, seen = DurableRoom(TABLES, store, opens=FakeRoom), []
    store.hook = lambda when, sql, _: when == "before" and seen.append(sql)
    room.put_all([Request("add", {"me": f"P{number}"}, UNTIL, f"k{number}") for number in range(count)])
    put = len(seen)
    store.tickets_of([f"k{number}" for number in range(count)])
    room.close()
    return put, len(seen) - put


def few_statements(cases):
    few, many = statements_of(cases, 2), statements_of(cases, 400)
    need(few[1] == many[1] == 1, f"of keys {few[1]} and {many[1]} statements ask")
    if not isinstance(cases.engine, Sqlite):
        need(few[0] == many[0] <= 5, f"2 requests are put by {few[0]} statements, and 400 by {many[0]}")


def cases_of_many(cases):
    cases.case("many differs", lambda: differs_in_a_run(cases))
    cases.case("many ended", lambda: ended_before(cases))
    cases.case("many texts", lambda: texts_stay(cases))
    cases.case("many keys", lambda: few_statements(cases))
