"""What befalls a server: its standby is away, it stands still, it was set up otherwise.

No standby is needed: where synchronous_standby_names names one that isn't there, each COMMIT that has written something
waits, as though the standby were away; once the name is taken out, it is as though the standby were back.
"""

import os
import signal
import socket
import threading
import time
from contextlib import contextmanager, suppress

from clients import UNTIL, Client, Fault, finished, forked, insisting
from engines import TABLES
from entangle import stores
from entangle.stores import DurableRoom
from fake_room import FakeRoom
from trial import Wrong, need, psycopg, raises
from verdict import all_done

# Times of the stores that are tried here, in seconds.
TIMES = {"timeout": 0.6, "answer_timeout": 1.0, "connect_timeout": 1.0}
# A call ends within twice the time for an answer, and twice that for a connection; and the machine may be busy.
MOST_OF_A_CALL = 2 * 1.0 + 2 * 1.0 + 2.0
# Behind the return of a server a call that waits fails in its time, and the next one is told; each takes three times as
# long as usual at most.
MOST_BEHIND = 1.0 + 1.0


class Calling:
    """A thread that puts a request again and again, until it is told a ticket, and notes how long each call takes."""

    def __init__(self, room, key):
        self.room, self.key = room, key
        self.ticket, self.told_at, self.longest, self.failures = None, None, 0.0, []
        self.thread = threading.Thread(target=self.run, daemon=True)
        self.thread.start()

    def run(self):
        while self.ticket is None:
            began = time.monotonic()
            try:
                self.ticket = self.room.put("add", {"me": "Bob"}, UNTIL, self.key)
                self.told_at = time.monotonic()
            except stores.StoreFailed as error:
                self.failures.append(str(error))
                time.sleep(0.02)
            self.longest = max(self.longest, time.monotonic() - began)

    def is_told(self, since, usual):
        """Checks that a ticket is told soon after a point in time, and that no call took too long, where a call usually
        takes so many seconds."""
        self.thread.join(20)
        need(self.ticket is not None, f"nothing is told since the server is back: {self.failures[-3:]}")
        behind = self.told_at - since
        need(behind < MOST_BEHIND + 3 * usual, f"told {behind:.1f} seconds behind the return")
        need(self.longest < MOST_OF_A_CALL + 3 * usual, f"a call took {self.longest:.1f} seconds")


class Servers:
    """The cases of an engine that has a server; its standby is away for so many seconds, and it stands still for so
    many."""

    def __init__(self, cases, short, seconds):
        self.cases, self.engine, self.short, self.seconds = cases, cases.engine, short, seconds

    def run(self):
        case = self.cases.case
        for how in ("terminate", "crash", "cancel", "wait"):
            case(f"standby_away {how}", lambda: self.standby_away(how))
        case("server_still", self.server_still)
        for number in range(2, 80, 6 * self.cases.every):
            case(f"still_at statement {number}", lambda: self.still_at(number))
        case("silent_host", self.silent_host)
        case("without_create", self.without_create)
        case("old_libpq", self.old_libpq)
        for setting in ("fsync", "full_page_writes"):
            case(f"set_off {setting}", lambda: self.set_off(setting))
        print(f"{self.engine.name}: the standby away, the server still, and set up otherwise", flush=True)

    def sql(self, statement, *parameters):
        with self.engine.reading("public") as connection:
            found = connection.execute(statement, parameters or None)
            return found.fetchall() if found.description else []

    def set(self, setting, value):
        """A setting of the server, which counts at once and behind a crash."""
        self.sql(f"ALTER SYSTEM SET {setting} = '{value}'")
        self.sql("SELECT pg_reload_conf()")
        until = time.monotonic() + 20
        while self.sql(f"SHOW {setting}") != [(value,)]:
            need(time.monotonic() < until, f"the server doesn't take {setting} = {value!r}")
            time.sleep(0.02)

    def backends(self):
        """The server's processes for stores, and what each of them waits for."""
        sql = "SELECT pid, coalesce(wait_event, '') FROM pg_stat_activity WHERE application_name LIKE 'entangle %'"
        return self.sql(sql)

    def waits_for_standby(self):
        """The process that waits for the standby."""
        until = time.monotonic() + 20
        while time.monotonic() < until:
            found = [pid for pid, event in self.backends() if event == "SyncRep"]
            if found:
                return found[0]
            time.sleep(0.02)
        raise Wrong("nobody waits for the standby")

    def room(self, place):
        return DurableRoom(TABLES, self.engine.store(place, **TIMES), opens=FakeRoom)

    def first(self, place):
        """A room into which a first request was put, and how long that took."""
        room, began = insisting(self.room, place), time.monotonic()
        insisting(room.put, "add", {"me": "Ann"}, UNTIL, "one")
        return room, time.monotonic() - began

    def tickets(self, place):
        with self.engine.reading(place) as connection:
            return connection.execute("SELECT ticket, request_key FROM entangle_tickets ORDER BY 1").fetchall()

    def standby_away(self, how):
        """Nothing is told while the standby is away, whatever becomes of the process that waits for it; the server has
        three processes of the store at most; and all is told soon after the return."""
        place = self.engine.fresh()
        room, usual = self.first(place)
        self.set("synchronous_standby_names", "nobody")
        try:
            calling = Calling(room, "two")
            waits = self.waits_for_standby()
            if how == "terminate":
                self.sql("SELECT pg_terminate_backend(%s)", waits)
            elif how == "cancel":
                self.sql("SELECT pg_cancel_backend(%s)", waits)
            elif how == "crash":
                self.engine.stop("immediate")
                self.engine.start()
            until, most = time.monotonic() + self.seconds, 0
            while time.monotonic() < until:
                most = max(most, len(self.backends()))
                time.sleep(0.05)
            need(calling.ticket is None, f"{calling.ticket} is told, and no standby has it")
            need(most <= 3, f"the server has {most} processes of the store")
        finally:
            self.set("synchronous_standby_names", "")
            returned = time.monotonic()
        calling.is_told(returned, usual)
        found = self.tickets(place)
        need(found == [(1, "one"), (2, "two")], f"there are the tickets {found}")
        room.close()

    @contextmanager
    def still(self):
        """All processes of the server stand still."""
        stopped = []
        try:
            for pid in self.engine.processes():
                os.kill(pid, signal.SIGSTOP)
                stopped.append(pid)
            yield
        finally:
            for pid in stopped:
                with suppress(ProcessLookupError):
                    os.kill(pid, signal.SIGCONT)

    def server_still(self):
        """Each call fails in time, and all is told soon after the server goes on."""
        place = self.engine.fresh()
        room, usual = self.first(place)
        with self.still():
            calling = Calling(room, "two")
            time.sleep(self.seconds)
            need(calling.ticket is None and calling.failures, "no call failed while the server stood still")
        calling.is_told(time.monotonic(), usual)
        said = "the server hasn't answered for 1 seconds"
        need(said in calling.failures or "connection timeout expired" in calling.failures, f"{set(calling.failures)}")
        watches = threading.active_count()
        room.close()
        need(threading.active_count() == watches - 1, "the thread of a closed store goes on")

    def still_at(self, number):
        """The server stands still at a statement of a life, and goes on later."""
        place, notes = self.engine.fresh(), self.cases.notes()
        heard, asks = os.pipe()

        def stop(store):
            os.write(asks, b"!")
            time.sleep(0.3)

        def work():
            Client(self.engine, place, notes, Fault(number, "before", stop), **TIMES).go(self.short)

        child = forked(work)
        os.close(asks)
        os.read(heard, 1)
        os.close(heard)
        with self.still():
            time.sleep(2.5)
        need(finished(child) == 0, "the client doesn't end well")
        all_done(self.engine, place, notes.read(), self.short)
        self.engine.forget(place)

    def silent_host(self):
        """The first host takes connections and says nothing: the second one is found, and asked first from then on."""
        place = self.engine.fresh()
        with socket.socket() as listener:
            listener.bind(("127.0.0.1", 0))
            listener.listen()
            dsn = self.engine.dsn(place).replace("host=", "host=127.0.0.1,", 1)
            dsn += f" port={listener.getsockname()[1]},5432"
            store, taken = self.engine.store_class(dsn), []
            for _ in range(2):
                began = time.monotonic()
                store.load(TABLES)
                taken.append(time.monotonic() - began)
                store.close()
            need(4.9 <= taken[0] and taken[1] < 4.9, f"connections took {taken} seconds")
            store, began = self.engine.store_class(f"{dsn} connect_timeout=2"), time.monotonic()
            store.load(TABLES)
            need(1.9 <= time.monotonic() - began < 4.9, "connect_timeout of the dsn doesn't count")
            store.close()

    def without_create(self):
        """Once everything is there, the right to make tables isn't needed."""
        place = self.engine.fresh()
        self.room(place).close()
        with self.engine.reading(place) as connection:
            connection.execute("CREATE ROLE clerk LOGIN")
            connection.execute(f"GRANT USAGE ON SCHEMA {place} TO clerk")
            connection.execute(f"GRANT SELECT, INSERT, UPDATE, DELETE ON ALL TABLES IN SCHEMA {place} TO clerk")
            try:
                store = self.engine.store_class(self.engine.dsn(place).replace("user=tester", "user=clerk"))
                room = DurableRoom(TABLES, store, opens=FakeRoom)
                room.put("add", {"me": "Ann"}, UNTIL, "one")
                room.close()
            finally:
                connection.execute("DROP OWNED BY clerk")
                connection.execute("DROP ROLE clerk")

    def old_libpq(self):
        """A libpq that can't send many statements before it reads their results is refused before anything is asked."""
        version = psycopg.pq.version
        psycopg.pq.version = lambda: 130_014
        try:
            error = raises(stores.StoreError, lambda: self.engine.store("nowhere"))
        finally:
            psycopg.pq.version = version
        need("libpq 14 or later" in str(error) and "version 13" in str(error), f"it is refused so: {error}")

    def set_off(self, setting):
        """A server that may lose what it said to have is refused."""
        place = self.engine.fresh()
        self.set(setting, "off")
        try:
            error = raises(stores.StoreError, lambda: self.room(place))
            need(setting in str(error) and not isinstance(error, stores.StoreFailed), f"it is refused so: {error}")
            allowed = self.engine.store(place, allow_settings=("full_page_writes",))
            if setting == "full_page_writes":
                allowed.load(TABLES)
            else:
                raises(stores.StoreError, lambda: allowed.load(TABLES))
            allowed.close()
        finally:
            self.set(setting, "on")
        raises(ValueError, lambda: self.engine.store(place, allow_settings=("fsync",)))
