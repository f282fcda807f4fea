"""Tables that collect: one that didn't before, those that can't have a row twice, and what is said of too many rows."""

import entangle
from engines import Sqlite
from entangle import stores
from entangle.stores import Table
from trial import need, refused

COLUMNS = {"n": "INT", "who": "TEXT"}
ROWS = ((1, "Ann"), (1, "Ann"), (2, "Bob"))


def made(cases, place, *statements):
    with cases.engine.reading(place) as connection:
        for statement in statements:
            connection.execute(statement)
        connection.commit()


def add(store, loaded, number, rows, name="Seen", removed=()):
    """Writes a group that changes a table."""
    change = entangle.TableChange(tuple(removed), tuple(rows))
    store.apply((entangle.Group(number, loaded.epoch, (), {name: change}, ()),), (), (), 1, loaded.epoch)


def rows_of(cases, place, name):
    with cases.engine.reading(place) as connection:
        return sorted(map(tuple, connection.execute(f'SELECT n, who FROM "{name}"').fetchall()))


def collects_later(cases):
    """A table that a store made for rows that stand there once collects later, with the rows that it has, its index
    and its trigger."""
    place, table = cases.engine.fresh(), Table("Seen", COLUMNS, initial=[(1, "Ann")])
    store = cases.engine.store(place)
    add(store, store.load((table,)), 1, [(2, "Bob")])
    made(cases, place, 'CREATE INDEX seen_by ON "Seen" (who)')
    store.close()
    for number in (2, 3):
        store = cases.engine.store(place)
        loaded = store.load((Table("Seen", COLUMNS, collects=True),))
        need(loaded.rows == {"Seen": []}, "rows of a table that collects are loaded")
        add(store, loaded, number, ROWS)
        store.close()
    need(rows_of(cases, place, "Seen") == sorted([(1, "Ann"), (2, "Bob"), *ROWS, *ROWS]), "rows aren't those")
    with cases.engine.reading(place) as connection:
        sql = "SELECT count(*) FROM sqlite_master WHERE name = 'seen_by'"
        if not isinstance(cases.engine, Sqlite):
            sql = "SELECT count(*) FROM pg_indexes WHERE indexname = 'seen_by' AND schemaname = current_schema()"
        need(connection.execute(sql).fetchone() == (1,), "the index is gone")


def takes_rows_once(cases, creation, *more):
    """A table of the user's that can't have a row twice is refused, and whoever has the store has it still."""
    place = cases.engine.fresh()
    made(cases, place, f"CREATE TABLE seen {creation}", *more)
    holder = cases.engine.store(place)
    holder.load(())
    table = Table("Seen", COLUMNS, stored_as="seen", collects=True)
    error = refused(lambda: cases.engine.store(place).load((table,)), stores.StoredFault.ONCE)
    need(error.table == "seen" and "collects" in str(error), f"the refusal says {error}")
    holder.check()
    holder.close()


def takes_rows_twice(cases, creation, *more):
    """A table of the user's whose keys are in columns of its own collects as it stands."""
    place = cases.engine.fresh()
    made(cases, place, f"CREATE TABLE seen {creation}", *more)
    store = cases.engine.store(place)
    loaded = store.load((Table("Seen", COLUMNS, stored_as="seen", collects=True),))
    add(store, loaded, 1, ROWS)
    add(store, loaded, 2, (), removed=[(1, "Ann")])
    store.close()
    need(rows_of(cases, place, "seen") == [(1, "Ann"), (2, "Bob")], f"there are {rows_of(cases, place, 'seen')}")


def too_many_rows(cases):
    """Whoever has too many rows is told how many each table has, and which could collect; then the rows load."""
    place = cases.engine.fresh()
    made(cases, place, "CREATE TABLE few (n BIGINT, who TEXT, UNIQUE (n, who))", "INSERT INTO few VALUES (7, 'x')")
    small, mapped = Table("Small", COLUMNS, initial=[(1, "x"), (2, "y")]), Table("Few", COLUMNS, stored_as="few")
    store = cases.engine.store(place)
    store.load((small, mapped, Table("Many", COLUMNS)))
    store.close()
    mark = "?" if isinstance(cases.engine, Sqlite) else "%s"
    with cases.engine.reading(place) as connection:
        rows = [(n, "x") for n in range(65_534)]
        connection.cursor().executemany(f'INSERT INTO "Many" VALUES ({mark}, {mark})', rows)
        connection.commit()
    tables = (small, mapped, Table("Many", COLUMNS))
    error = refused(lambda: cases.engine.store(place).load(tables), stores.StoredFault.TOO_MANY_ROWS)
    wanted = "Many 65,534, Small 2, few 1; Many, Small could be declared with collects=True"
    need(wanted in str(error), f"the refusal says {error}")
    store = cases.engine.store(place)
    loaded = store.load((small, mapped, Table("Many", COLUMNS, collects=True)))
    need({name: len(rows) for name, rows in loaded.rows.items()} == {"Small": 2, "Few": 1, "Many": 0}, "rows load")
    add(store, loaded, 1, [(1, "x"), (1, "x")], "Many")
    store.close()


def cases_of_collecting(cases):
    cases.case("collecting later", lambda: collects_later(cases))
    once = [
        ("(n BIGINT, who TEXT, UNIQUE (who))",),
        ("(n BIGINT, who TEXT, PRIMARY KEY (who, n))",),
        ("(n BIGINT, who TEXT)", "CREATE UNIQUE INDEX seen_once ON seen (n) WHERE n > 5"),
    ]
    twice = [
        ("(n BIGINT, who TEXT)",),
        ("(n BIGINT, who TEXT, id BIGINT, UNIQUE (n, id))",),
        ("(n BIGINT, who TEXT, id BIGINT)", "CREATE UNIQUE INDEX seen_once ON seen (id)"),
    ]
    if isinstance(cases.engine, Sqlite):
        once.append(("(n INTEGER PRIMARY KEY, who TEXT)",))
        once.append(("(n BIGINT, who TEXT, id TEXT DEFAULT (hex(randomblob(9))) PRIMARY KEY) WITHOUT ROWID",))
        twice.append(("(id INTEGER PRIMARY KEY, n BIGINT, who TEXT)",))
    else:
        twice.append(("(id BIGINT GENERATED ALWAYS AS IDENTITY PRIMARY KEY, n BIGINT, who TEXT)",))
        twice.append(("(n BIGINT, who TEXT, id BIGSERIAL, UNIQUE (id) INCLUDE (n))",))
    for at, creation in enumerate(once):
        cases.case(f"collecting once {at}", lambda: takes_rows_once(cases, *creation))
    for at, creation in enumerate(twice):
        cases.case(f"collecting twice {at}", lambda: takes_rows_twice(cases, *creation))
    cases.case("too many rows", lambda: too_many_rows(cases))
