"""Wrong versions of stores, turns and servers, each of which a case has to find."""

import os
from unittest.mock import patch

from entangle.stores import PostgresStore, PostgresTurn, StoreError, _connections, _sql
from faults import fault
from rounds import Rounds
from pair import Pair, Server, free_ports, until
from told import Told, faults_of
from trial import Wrong, need
from turns import again_and_again, calls


class WithoutAffirmation(PostgresStore):
    """A write that is found to stand is told without a wait for the standby."""

    def _run(self, sql, parameters=()):
        return None if sql.endswith("SET write = write") else super()._run(sql, parameters)


class WithoutWarnings(PostgresStore):
    """What the server says beside its answer to COMMIT is passed over."""

    def _noticed(self, said):
        pass


class WithoutShutdown(PostgresStore):
    """A server may be silent for ever."""

    def _new_watch(self):
        self._watch = _connections.Watch(1e9)


class OneHost(PostgresStore):
    """The first host of the dsn is tried alone."""

    def _connected(self):
        self._hosts._dsns = self._hosts._dsns[:1]
        return super()._connected()


class NoLease(PostgresTurn):
    """The server doesn't end a session that says nothing."""

    def _ask(self, sql, *values):
        return super()._ask(sql.replace("idle_session_timeout", "entangle.nothing"), *values)


class KeepsAlways(PostgresTurn):
    """Who had the turn once has it for ever."""

    def keep(self):
        return self._has


class OfAllSchemas(PostgresTurn):
    """The stores of all schemas have one turn."""

    def _ask(self, sql, *values):
        return super()._ask(sql.replace("current_schema()", "'public'"), *values)


class OvertakesHolder(PostgresTurn):
    """Who waits takes the turn as soon as a server is there again."""

    def _found_server(self):
        self._was_lost = False


class Inherited(PostgresTurn):
    """A process that is forked goes on with the turn of its parent."""

    def _forked(self):
        pass


def stored(name, store_class):
    """What a fault finds wrong with a store; nothing if it finds nothing."""
    return lambda folder: fault(name, folder, store_class)


def one_token(folder):
    """All claims and writes have one token."""
    with patch.object(_sql, "_drawn_token", lambda: 7):
        return fault("lagging old new old new", folder)


def turned(turn_class, tries=calls):
    """The calls of a wrong turn."""

    def tried(folder):
        server = Server(os.path.join(folder, "server"), *free_ports(1))
        try:
            server.make()
            with patch("turns.PostgresTurn", turn_class):
                return tries(server)
        finally:
            server.stop("immediate")

    return tried


def asynchronous(folder):
    """The primary waits for no standby, which lacks the last commits."""
    with patch.object(Pair, "waits_for_standby", lambda pair: pair.caught_up()):
        Rounds(folder, lambda line: None, 1, ["unsent"] * 3).run(3)
        return "all rounds are right"


def judged(*changes, **said):
    """What is told and what stands there aren't the same: the store is changed by SQL, or one more thing was told."""

    def tried(folder):
        server = Server(os.path.join(folder, "server"), *free_ports(1))
        try:
            server.make()
            told = Told(os.path.join(folder, "notes"), server.dsn(), "trips")
            told.books()
            until(lambda: sum("told" in note for note in told.more()) >= 4)
            told.stop()
            right, counts = faults_of(server.dsn(), "trips", told.more())
            need(not right, f"the judge finds {right} as it is")
            for sql in changes:
                server.sql(sql)
            faults, _ = faults_of(server.dsn(), "trips", [*told.notes, said])
            if faults:
                raise Wrong(faults[0])
            return counts
        finally:
            server.stop("immediate")

    return tried


ENDED = "ended_in = NULL, ending = NULL, number = NULL"
FIRST = '(SELECT ctid FROM "Bookings" LIMIT 1)'
PLANTS = {
    "judge_lost_ticket": judged(key="nobody", ticket=10**6),
    "judge_other_ticket": judged("UPDATE trips_tickets SET request_key = 'x' WHERE ticket = 1"),
    "judge_other_end": judged(f"UPDATE trips_tickets SET {ENDED} WHERE ticket = 1"),
    "judge_second_ticket": judged("SELECT 1", key="a", ticket=1),
    "judge_half_pair": judged(f'DELETE FROM "Bookings" WHERE ctid = {FIRST}'),
    "judge_twice": judged(f'INSERT INTO "Bookings" SELECT * FROM "Bookings" WHERE ctid = {FIRST}'),
    "judge_gap": judged("UPDATE trips_claim SET last_group = last_group + 1"),
    "without_affirmation_terminate": stored("lost_ack terminate", WithoutAffirmation),
    "without_affirmation_crash": stored("lost_ack crash", WithoutAffirmation),
    "without_warnings": stored("lost_ack cancel", WithoutWarnings),
    "without_shutdown": stored("hang", WithoutShutdown),
    "one_host": stored("hang", OneHost),
    "one_token": one_token,
    "asynchronous": asynchronous,
    "no_lease": turned(NoLease),
    "keeps_always": turned(KeepsAlways),
    "of_all_schemas": turned(OfAllSchemas),
    "overtakes_holder": turned(OvertakesHolder, again_and_again),
    "inherited": turned(Inherited),
}


def tried_plants(folder, words):
    """Tries wrong versions; how many, and how many weren't found."""
    names, missed = words.plants or list(PLANTS), 0
    for name in names:
        place = os.path.join(folder, name)
        os.mkdir(place)
        try:
            said = PLANTS[name](place)
            missed += 1
            print(f"{name}: NOT CAUGHT: {said}", flush=True)
        except (Wrong, StoreError) as error:
            print(f"{name}: caught: {error}"[:200], flush=True)
    print(f"{len(names)} wrong versions, {len(names) - missed} caught", flush=True)
    return len(names), missed
