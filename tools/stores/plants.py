"""Wrong versions of stores and rooms, with which the check has to fail."""

import os
from dataclasses import replace

from clients import Client
from engines import Sqlite
from entangle import stores
from entangle.stores import DurableRoom, _connections, _durable, _forms, _memory, _sessions, _sql


def without_compare(engine):
    """apply() writes whatever the claim and the number of writes are."""

    class Planted(engine.store_class):
        def _run(self, sql, parameters=()):
            if sql.startswith("UPDATE") and " WHERE claim = " in sql:
                sql, parameters = sql.partition(" WHERE claim = ")[0], parameters[:-3]
            return super()._run(sql, parameters)

    engine.store_class = Planted


def in_two_transactions(engine):
    """apply() commits in its midst."""

    class Planted(engine.store_class):
        def _run_all(self, changes):
            half = len(changes) // 2
            counts = super()._run_all(changes[:half])
            if half:
                self._run("COMMIT")
                self._run("BEGIN IMMEDIATE" if isinstance(engine, Sqlite) else "BEGIN")
            return counts + super()._run_all(changes[half:])

    engine.store_class = Planted


def claims_nothing(engine):
    """load() leaves the number of the claim, and nobody draws a token."""

    _sql._drawn_token = lambda: 1

    class Planted(engine.store_class):
        def _run(self, sql, parameters=()):
            return super()._run(sql.replace("SET claim = claim + 1", "SET claim = 1"), parameters)

    engine.store_class = Planted


def counts_no_rows(engine):
    """apply() doesn't look how many rows a change touched, nor compares."""

    without_compare(engine)

    class Planted(engine.store_class):
        def _run_all(self, changes):
            return [1] * len(super()._run_all(changes))

    engine.store_class = Planted


def tells_ends_first(engine):
    """A room tells fates before they are written."""

    class Planted(DurableRoom):
        def _write(self, pending):
            for outcome in pending.update.ended:
                self._waits.tell(outcome.ticket, outcome.ending)
            super()._write(pending)

    Client.room_class = Planted


def tells_tickets_first(engine):
    """A room tells tickets before they are written."""

    class Planted(DurableRoom):
        def put_each(self, units):
            store, self._store = self._store, Later(self._store)
            try:
                return super().put_each(units)
            finally:
                self._store, now = store, self._now
                update = Update((), (), tuple(store_waiters(self)), now.next_ticket, now.epoch)
                now.pending = Pending(update, now.rows)

    class Later:
        """A store that writes nothing yet."""

        def __init__(self, store):
            self.tickets_of, self.check = store.tickets_of, store.check

        def apply(self, groups, ended, waiting, next_ticket, epoch):
            later.extend(waiting)

    later = []

    def store_waiters(room):
        written, later[:] = list(later), []
        return written

    from entangle.stores._kept import Update
    from entangle.stores._memory import Pending

    Client.room_class = Planted


def takes_a_failure_for_success(engine):
    """A room goes on after a failure as though the transaction had gone through."""

    class Planted(engine.store_class):
        def apply(self, *given, **named):
            try:
                super().apply(*given, **named)
            except stores.StoreFailed:
                self._held = replace(self._held, unsure=None)

    engine.store_class = Planted


def gives_up_after_a_failure(engine):
    """A room forgets what couldn't be written."""

    class Planted(DurableRoom):
        def _settle(self):
            try:
                super()._settle()
            except stores.StoreFailed:
                self._now.pending = None
                self._store._held = replace(self._store._held, unsure=None)
                raise

    Client.room_class = Planted


# ---- of claims and servers


def without_tokens(engine):
    """Claims and writes are told apart by their numbers alone."""
    _sql._drawn_token = lambda: 1


def shared_with_forks(engine):
    """Who is forked from a process that has the store has it as well."""

    class Planted(engine.store_class):
        def _claimed(self):
            self._held = self._held and replace(self._held, process=os.getpid())
            return super()._claimed()

    engine.store_class = Planted


def ignores_the_form(engine):
    """load() takes each store as one of the present form."""

    class Planted(engine.store_class):
        def _take_up(self):
            pass

    engine.store_class = Planted


def makes_tables_always(engine):
    """load() makes the store's own tables if they aren't there, without looking."""

    class Planted(engine.store_class):
        def _has_own_tables(self):
            return False

    engine.store_class = Planted


def tells_what_no_standby_has(engine):
    """A write that is found to stand is told without waiting for the standby."""

    class Planted(engine.store_class):
        def _run(self, sql, parameters=()):
            return None if sql.endswith("SET write = write") else super()._run(sql, parameters)

    engine.store_class = Planted


def ignores_warnings(engine):
    """A COMMIT counts though the server warns that it didn't wait for its standby."""

    class Planted(engine.store_class):
        def _noticed(self, said):
            pass

    engine.store_class = Planted


def waits_for_ever(engine):
    """Nobody ends the silence of a server."""
    _connections.Watch._watch = lambda self: None


def tries_hosts_together(engine):
    """The engine is left to try the hosts of a dsn."""

    def all_hosts(engine, dsn, **settings):
        return [engine.conninfo.make_conninfo(**{**settings, **engine.conninfo.conninfo_to_dict(dsn)})]

    _sessions.each_host = all_hosts


def takes_any_server(engine):
    """A store doesn't look whether its server may lose what it has."""

    class Planted(engine.store_class):
        def _prepare(self, connection):
            self._allowed = {"fsync", "full_page_writes"}
            super()._prepare(connection)

    engine.store_class = Planted


def takes_any_libpq(engine):
    """A store takes each version of libpq."""
    _sessions._OLDEST_LIBPQ = 0


# ---- of places and names


def resolves_the_path_anew(engine):
    """A relative path is resolved at each connection."""
    if isinstance(engine, Sqlite):

        class Planted(engine.store_class):
            def __init__(self, path, **how):
                super().__init__(path, **how)
                self._path = os.fspath(path)

        engine.store_class = Planted


def reserves_no_index(engine):
    """A table of a room may have the name of a store's index."""
    tables = ("claim", "tickets", "keys")
    _forms.OwnTables.reserved = property(
        lambda own: frozenset({"entangle_tables", *(f"{own.name}_{table}" for table in tables)})
    )


# ---- of what gets a room past a lock-out


def claims_before_it_is_ready(engine):
    """load() claims the store, and then the room is made."""

    class Planted(engine.store_class):
        def load(self, tables, ready):
            loaded = super().load(tables)
            ready(loaded)
            return loaded

    engine.store_class = Planted


def sets_nobody_aside(engine):
    """Who is set aside is so in memory alone."""

    class Planted(engine.store_class):
        def _load(self, tables, ready):
            return super()._load(tables, lambda loaded: [] if ready(loaded) is None else [])

    engine.store_class = Planted


def names_no_group(engine):
    """A change that a constraint refuses is a failure as any other."""

    class Planted(engine.store_class):
        def _is_refusal(self, error):
            return False

    engine.store_class = Planted


def checks_nothing_before_commit(engine):
    """What is checked at COMMIT isn't checked behind each group."""

    class Planted(engine.store_class):
        def _check_constraints(self):
            pass

    engine.store_class = Planted


def puts_by_halves(engine):
    """Who came before a request that is refused waits."""
    _memory.Memory.roll_back = lambda memory, tickets: None


def takes_each_key(engine):
    """A key stands for whatever it was used for."""
    _durable._check_same = lambda request, used: None


def forgets_until_when(engine):
    """A store doesn't keep until when somebody waits."""

    class Planted(engine.store_class):
        def _waiting_change(self, waiter, *more):
            return super()._waiting_change(replace(waiter, until=None), *more)

    engine.store_class = Planted


def expires_one_by_one(engine):
    """Each withdrawal is a transaction."""
    withdrawn = DurableRoom._withdrawn
    DurableRoom._withdrawn = lambda room, tickets: [one for ticket in tickets for one in withdrawn(room, [ticket])]


def forgets_who_waits(engine):
    """forget() takes tickets out by their numbers alone."""

    class Planted(engine.store_class):
        def _forget(self, before, first):
            answer = super()._forget(before, first)
            self._run("DELETE FROM entangle_tickets")
            return answer

    engine.store_class = Planted


def forgets_keys_too(engine):
    """forget() keeps nothing of a key."""

    class Planted(engine.store_class):
        def _forget(self, before, first):
            answer = super()._forget(before, first)
            self._run("DELETE FROM entangle_keys")
            return answer

    engine.store_class = Planted


def forgets_its_claim(engine):
    """A claim that was made anew, and whose answer was lost, is taken for another process's."""

    class Planted(engine.store_class):
        def _reload(self, ready):
            answer = super()._reload(ready)
            self._held = replace(self._held, reclaimed=())
            return answer

    engine.store_class = Planted


# ---- of tables and of many changes


def collects_as_it_is(engine):
    """A table that has a row once at most collects as it stands."""

    class Planted(engine.store_class):
        def _keys_of(self, table):
            return []

    engine.store_class = Planted


def counts_whole_runs(engine):
    """Of many changes by one statement only the number of rows is looked at."""

    class Planted(engine.store_class):
        def _deletion(self, place, columns):
            return replace(super()._deletion(place, columns), returns=False)

    engine.store_class = Planted


def makes_many_one_by_one(engine):
    """There is a statement for each change."""

    class Planted(engine.store_class):
        def _insertion(self, place, columns):
            return replace(super()._insertion(place, columns), many=None)

    engine.store_class = Planted


def asks_each_key(engine):
    """Keys are asked for one by one."""

    class Planted(engine.store_class):
        def tickets_of(self, keys):
            return {key: used for one in keys for key, used in super(Planted, self).tickets_of([one]).items()}

    engine.store_class = Planted


# Each wrong version, with the engine and the cases that have to find it.
FOUND_BY = {
    without_compare: ("sqlite", "gone_back"),
    in_two_transactions: ("sqlite", "killed"),
    claims_nothing: ("sqlite", "two_stores"),
    counts_no_rows: ("sqlite", "many differs"),
    tells_ends_first: ("sqlite", "killed"),
    tells_tickets_first: ("sqlite", "killed"),
    takes_a_failure_for_success: ("sqlite", "locked"),
    gives_up_after_a_failure: ("sqlite", "locked"),
    without_tokens: ("sqlite", "gone_back"),
    shared_with_forks: ("sqlite", "forked"),
    ignores_the_form: ("sqlite", "later form"),
    makes_tables_always: ("sqlite", "later form"),
    tells_what_no_standby_has: ("postgres", "standby_away terminate"),
    ignores_warnings: ("postgres", "standby_away cancel"),
    waits_for_ever: ("postgres", "server_still"),
    tries_hosts_together: ("postgres", "silent_host"),
    takes_any_server: ("postgres", "set_off"),
    takes_any_libpq: ("postgres", "old_libpq"),
    resolves_the_path_anew: ("sqlite", "relative_path"),
    reserves_no_index: ("sqlite", "own_names"),
    claims_before_it_is_ready: ("sqlite", "exit from starts that fail"),
    sets_nobody_aside: ("sqlite", "exit from"),
    names_no_group: ("sqlite", "exit from"),
    checks_nothing_before_commit: ("postgres", "exit from"),
    puts_by_halves: ("sqlite", "exit halves"),
    takes_each_key: ("sqlite", "form"),
    forgets_until_when: ("sqlite", "exit expired"),
    expires_one_by_one: ("sqlite", "exit expired"),
    forgets_who_waits: ("sqlite", "exit forgotten"),
    forgets_keys_too: ("sqlite", "exit forgotten"),
    collects_as_it_is: ("sqlite", "collecting once"),
    counts_whole_runs: ("postgres", "many differs"),
    makes_many_one_by_one: ("postgres", "many keys"),
    asks_each_key: ("sqlite", "many keys"),
    forgets_its_claim: ("sqlite", "exit lost"),
}
PLANTS = {plant.__name__: plant for plant in FOUND_BY}
