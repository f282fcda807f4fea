"""Where a store stands: names that its own tables and indexes have, and a file whose path is relative."""

import os

from clients import UNTIL, finished, forked
from engines import TABLES, Sqlite
from entangle.stores import DurableRoom, Table
from fake_room import FakeRoom
from trial import need, raises

NAMES = {
    "sqlite": "SELECT name FROM sqlite_master WHERE name LIKE 'entangle%'",
    "postgres": "SELECT relname FROM pg_class WHERE relnamespace = current_schema()::regnamespace"
    " AND relname LIKE 'entangle%'",
}


def own_names(cases):
    """No table of a room has the name of a table or an index of the store's, and whoever has the store has it still."""
    place = cases.engine.fresh()
    holder = cases.engine.store(place)
    holder.load(TABLES)
    with cases.engine.reading(place) as connection:
        sql = NAMES["sqlite" if isinstance(cases.engine, Sqlite) else "postgres"]
        names = sorted(name for (name,) in connection.execute(sql).fetchall())
    need({"entangle_claim", "entangle_tickets", "entangle_waiting", "entangle_commits"} <= set(names), f"{names}")
    for name in names:
        other = cases.engine.store(place)
        raises(ValueError, lambda: other.load((Table("T", {"a": "INT"}, stored_as=name),)))
        raises(ValueError, lambda: other.load((Table(name.capitalize(), {"a": "INT"}),)))
        other.close()
    holder.check()
    holder.close()


def relative_path(cases):
    """A store over a relative path stays with its file, wherever the process goes before it connects anew."""

    def work():
        os.chdir(os.path.dirname(place))
        room = DurableRoom(TABLES, cases.engine.store(os.path.basename(place)), opens=FakeRoom)
        os.chdir(elsewhere)
        for number in range(2):
            room.put("alone", {"me": f"P{number}"}, UNTIL, f"k{number}")
            room._store.close()

    place = cases.engine.fresh()
    elsewhere = os.path.join(cases.folder, f"elsewhere{cases.count}")
    os.mkdir(elsewhere)
    need(finished(forked(work)) == 0, "the client doesn't end well")
    need(os.listdir(elsewhere) == [], f"it makes {os.listdir(elsewhere)} elsewhere")
    with cases.engine.reading(place) as connection:
        found = connection.execute("SELECT request_key FROM entangle_tickets ORDER BY ticket").fetchall()
    need(found == [("k0",), ("k1",)], f"the file has {found}")


def cases_of_places(cases):
    cases.case("own_names", lambda: own_names(cases))
    if isinstance(cases.engine, Sqlite):
        cases.case("relative_path", lambda: relative_path(cases))
