"""An inbox and its desk: whatever befalls a process or a server, what was asked is put once, and told as it stands."""

import os
import re
import signal
import threading
import time
from contextlib import contextmanager, suppress
from datetime import datetime, timedelta, timezone

from clients import UNTIL, Asking, Fault, ended, finished, forked, insisting, said_of_ending
from engines import TABLES
import entangle
from entangle import stores
from entangle.stores import Desk, DurableRoom, Ended, InboxFull, InboxRequest, PostgresInbox, Queued, Rejected, Table
from entangle.stores import Waiting
from fake_room import FakeRoom
from servers import Servers
from trial import HERE, Wrong, need, raises
from verdict import holds

SCRIPTS = {name: name for name in ("add", "pair", "fail", "roll", "alone", "wrong")}
# What is asked at once, in order; what has ended before the next is asked; and what is withdrawn.
PLAN = [
    ("ask", ("k1", "pair", {"me": "Ann", "friend": "Bob's"})),
    ("ask", ("k2", "alone", {"me": "Dan", "size": -(2**63) + 1}), ("k3", "pair", {"me": "Finn", "friend": "Gus"})),
    ("withdraw", "k3"),
    ("ask", ("k4", "pair", {"me": "Bob's", "friend": "Ann"}), ("k5", "fail", {"me": "Eve é"})),
    ("comes", "k1", "k4", "k5"),
    ("ask", ("k6", "add", {"me": "Hal"}), ("k7", "wrong", {"me": "Ida"})),
    ("withdraw", "k2"),
    ("comes", "k6", "k7"),
]
ENDS = {"k1": "committed", "k2": "withdrawn", "k3": "withdrawn", "k4": "committed", "k5": "failed", "k6": "committed"}


class Hooked(PostgresInbox):
    """An inbox that tells a hook of each statement, before it and behind it."""

    hook = None

    def _run(self, sql, parameters=()):
        if self.hook:
            self.hook("before", sql, self)
        result = super()._run(sql, parameters)
        if self.hook:
            self.hook("after", sql, self)
        return result


def has_library():
    """Whether there is a library that runs scripts, and no stub."""
    return "stub" not in entangle.library_version()


def request(key, script, values):
    return InboxRequest(script, values, key)


class Front:
    """A process that asks: it goes through a plan, and notes what it is told."""

    def __init__(self, inbox, notes):
        self.inbox, self.notes, self.told = inbox, notes, {}

    def go(self, plan):
        for word, *given in plan:
            getattr(self, word)(*given)

    def ask(self, *asked):
        fates = insisting(self.inbox.ask, [request(*one) for one in asked])
        for (key, *_), fate in zip(asked, fates):
            self.notes.note(asked=key)
            self.hears(key, fate)

    def hears(self, key, fate):
        need(fate is not None, f"{key}, which was asked, is unknown")
        if isinstance(fate, Rejected):
            self.notes.note(rejected=key, fault=fate.fault)
        elif isinstance(fate, Waiting):
            self.notes.note(key=key, ticket=fate.waiter.ticket.number)
        elif isinstance(fate, Ended):
            self.notes.note(key=key, ticket=fate.outcome.ticket.number)
            answered = [fate.outcome.group, repr(fate.outcome.answers)]
            ending = said_of_ending(fate.outcome.ending)
            self.notes.note(ended=fate.outcome.ticket.number, ending=ending, answered=answered)
        is_over = isinstance(fate, (Rejected, Ended))
        before = self.told.setdefault(key, fate) if is_over else None
        need(key not in self.told or before == fate, f"{key} was told {self.told.get(key)}, and then {fate}")

    def comes(self, *keys, seconds=60):
        until = time.monotonic() + seconds
        while set(keys) - set(self.told):
            for key, fate in insisting(self.inbox.fates, keys).items():
                self.hears(key, fate)
            if time.monotonic() > until:
                raise Wrong(f"{set(keys) - set(self.told)} don't end")
            time.sleep(0.01)

    def withdraw(self, key):
        insisting(self.inbox.withdraw, [key])
        self.comes(key)


# What the programs of the page of stores have from above.
PAGE_TABLES = [
    Table("Flights", {"fno": "INT", "dest": "TEXT"}, initial=[(122, "LA"), (136, "Paris")]),
    Table("Bookings", {"who": "TEXT", "fno": "INT"}, collects=True),
]
PAGE_TRIP = """BEGIN TRANSACTION;
SELECT @me, fno AS @fno INTO ANSWER Trip
  WHERE fno IN (SELECT fno FROM Flights WHERE dest = 'LA') AND (@friend, fno) IN ANSWER Trip CHOOSE 1;
INSERT INTO Bookings VALUES (@me, @fno);
COMMIT;"""
AT_STATEMENTS = ("desk_killed", "desk_lost", "desk_taken", "front_killed", "front_lost")


class Inboxes:
    """Cases of an inbox over an engine."""

    def __init__(self, cases):
        self.cases, self.engine = cases, cases.engine
        self.inbox_class, self.desk_class = Hooked, Desk

    def inbox(self, place, hook=None, **how):
        inbox = self.inbox_class(self.engine.dsn(place), timeout=5.0, **how)
        inbox.hook = hook
        return inbox

    def desk(self, place, hook=None, scripts=None, **how):
        """A desk with its room, whose tables are made."""
        store, inbox = self.engine.store(place, timeout=5.0), self.inbox(place)
        insisting(inbox.make)
        room = insisting(DurableRoom, TABLES, store, opens=FakeRoom)
        store.hook = inbox.hook = hook
        return self.desk_class(room, store, inbox, scripts or SCRIPTS, **how)

    def serves(self, place, hook=None):
        """A desk in a process of its own."""

        def work():
            ends = []
            signal.signal(signal.SIGTERM, lambda *_: ends.append(True))
            desk = self.desk(place, hook)
            signal.signal(signal.SIGTERM, lambda *_: desk.stop())
            if not ends and desk.serve() != "stopped":
                raise stores.StoreTaken("the desk has ended")

        return forked(work)

    def stops(self, child, place, killed=False):
        """Ends a desk in good order, once it has taken out what was put."""
        until = time.monotonic() + 20
        while any(row[2] is None for row in self.rows(place)) and time.monotonic() < until and not killed:
            time.sleep(0.02)
        if not killed and time.monotonic() > until:
            with self.engine.reading(place) as connection:
                sql = "SELECT application_name, state, wait_event, query FROM pg_stat_activity WHERE state IS NOT NULL"
                raise Wrong(f"{self.rows(place)} stay in the inbox: {connection.execute(sql).fetchall()}")
        with suppress(ProcessLookupError):
            os.kill(child, signal.SIGTERM)
        status = finished(child)
        need(status == 0 or killed and status == -signal.SIGKILL, f"the desk ends with {status}")

    @contextmanager
    def served(self, place):
        child = self.serves(place)
        yield child
        self.stops(child, place)

    def made(self):
        """A place in which the tables are."""
        place = self.engine.fresh()
        desk = self.desk(place)
        desk._room.close()
        return place

    def judged(self, place, notes):
        """Each request is there once, with its end, and each that was told is as it was told."""
        told = notes.read()
        by_key = holds(self.engine, place, [one for one in told if "key" in one or "ended" in one])
        need({key: one.ending for key, one in by_key.items()} == ENDS, f"they end as {by_key}")
        with self.engine.reading(place) as connection:
            left = connection.execute("SELECT request_key, refused IS NULL FROM entangle_inbox").fetchall()
        need(left == [("k7", False)], f"in the inbox are {left}")
        asked = {one["asked"] for one in told if "asked" in one}
        need(asked == {*ENDS, "k7"}, f"{asked} were asked")
        self.engine.forget(place)

    # ---- faults at each statement

    def statements(self):
        """How many statements a desk and a front make at least."""
        place, notes, counts = self.made(), self.cases.notes(), []
        fault = Fault(None, None, None)
        counted = os.path.join(self.cases.folder, "counted")

        def work():
            desk = self.desk(place, fault)
            signal.signal(signal.SIGTERM, lambda *_: desk.stop())
            desk.serve()
            with open(counted, "w", encoding="utf-8") as file:
                file.write(str(fault.count))

        child, hook = forked(work), Fault(None, None, None)
        Front(self.inbox(place, hook), notes).go(PLAN)
        self.stops(child, place)
        self.judged(place, notes)
        with open(counted, encoding="utf-8") as file:
            counts.append(int(file.read()))
        return counts[0], hook.count

    def each_statement(self):
        desks, fronts = self.statements()
        every = self.cases.every
        for number in range(1, desks + 1, every):
            for when in ("before", "after"):
                for kind in AT_STATEMENTS[:3]:
                    run = getattr(self, kind)
                    self.cases.case(f"{kind} {when} statement {number}", lambda: run(number, when))
        for number in range(1, fronts + 1, every):
            for when in ("before", "after"):
                for kind in AT_STATEMENTS[3:]:
                    run = getattr(self, kind)
                    self.cases.case(f"{kind} {when} statement {number}", lambda: run(number, when))
        said = f"{desks} statements of desks, {fronts} of fronts"
        print(f"{said}: killed, lost, taken before and behind each", flush=True)

    def desk_killed(self, number, when):
        """The desk is killed at a statement, and another one goes on."""
        place, notes = self.made(), self.cases.notes()
        child = self.serves(place, Fault(number, when, lambda _: os.kill(os.getpid(), signal.SIGKILL)))
        front = forked(lambda: Front(self.inbox(place), notes).go(PLAN))
        status = ended(child, 3)
        if status is None:  # it hasn't made so many statements, and may do so at its end
            self.stops(child, place, True)
        else:
            need(status == -signal.SIGKILL, f"the desk ends with {status}")
        with self.served(place):
            need(finished(front) == 0, "the front doesn't end well")
        self.judged(place, notes)

    def desk_lost(self, number, when):
        """A connection of the desk is lost at a statement, with the answer."""
        place, notes = self.made(), self.cases.notes()
        child = self.serves(place, Fault(number, when, self.engine.lost))
        Front(self.inbox(place), notes).go(PLAN)
        self.stops(child, place)
        self.judged(place, notes)

    def desk_taken(self, number, when):
        """Another desk begins while the first one is at a statement: that has to end, and harms nobody."""
        place, notes, others, asking = self.made(), self.cases.notes(), [], Asking()

        def come():
            others.append(self.serves(place))
            time.sleep(0.1)

        child = self.serves(place, Fault(number, when, asking.ask))
        front = forked(lambda: Front(self.inbox(place), notes).go(PLAN))
        status = None
        with suppress(Wrong):
            status = asking.served(child, come) if number else None
        asking.close()
        need(status in (0, 3), f"the first desk ends with {status}")
        need(finished(front) == 0, "the front doesn't end well")
        for other in others:
            self.stops(other, place)
        self.judged(place, notes)

    def front_killed(self, number, when):
        """A front is killed at a statement, and another one asks all of it again."""
        place, notes = self.made(), self.cases.notes()
        with self.served(place):
            fault = Fault(number, when, lambda _: os.kill(os.getpid(), signal.SIGKILL))
            status = finished(forked(lambda: Front(self.inbox(place, fault), notes).go(PLAN)))
            need(status in (0, -signal.SIGKILL), f"the front ends with {status}")
            status = finished(forked(lambda: Front(self.inbox(place), notes).go(PLAN)))
            need(status == 0, "the next one doesn't end well")
        self.judged(place, notes)

    def front_lost(self, number, when):
        """A front's connection is lost at a statement, with the answer."""
        place, notes = self.made(), self.cases.notes()
        with self.served(place):
            work = forked(lambda: Front(self.inbox(place, Fault(number, when, self.engine.lost)), notes).go(PLAN))
            need(finished(work) == 0, "the front doesn't end well")
        self.judged(place, notes)

    # ---- single cases

    def rows(self, place):
        with self.engine.reading(place) as connection:
            return connection.execute("SELECT request_key, kind, refused FROM entangle_inbox ORDER BY id").fetchall()

    def comes_back(self):
        """A row whose deletion is lost comes back: it is put again, by its key, and gets its ticket of then."""
        place = self.made()
        desk, front = self.desk(place), self.inbox(place)
        front.ask([request("k1", "add", {"me": "Ann"}), request("k2", "alone", {"me": "Bob"})])
        with self.engine.reading(place) as connection:
            connection.execute("CREATE TABLE kept AS SELECT * FROM entangle_inbox")
            self.worked(desk)
            before = front.fates(["k1", "k2"])
            need(isinstance(before["k1"], Ended) and isinstance(before["k2"], Waiting), f"they stand as {before}")
            need(self.rows(place) == [], "rows that were put stand in the inbox")
            connection.execute("INSERT INTO entangle_inbox OVERRIDING SYSTEM VALUE SELECT * FROM kept")
        self.worked(desk)
        need(front.fates(["k1", "k2"]) == before and self.rows(place) == [], "a row that came back was put anew")
        front.withdraw(["k2"])
        self.worked(desk)
        with self.engine.reading(place) as connection:
            connection.execute("INSERT INTO entangle_inbox OVERRIDING SYSTEM VALUE SELECT * FROM kept")
        self.worked(desk)
        need(front.fates(["k2"])["k2"].outcome.ending.kind == "withdrawn", "who was withdrawn waits again")
        need(front.ask([request("k1", "add", {"me": "Ann"})]) == [before["k1"]], "who asks again is told otherwise")
        self.worked(desk)
        need(front.ask([request("k1", "pair", {"me": "Zoe"})]) == [before["k1"]], "other values under a key are taken")
        self.worked(desk)
        need(self.rows(place) == [], "what a key was used for otherwise stays")
        desk._room.close()

    def worked(self, desk):
        """Has a desk do all that is there."""
        while True:
            desk.each_second()
            took, stepped = desk.take(), desk._room.step()
            desk.tell(())
            if not took and stepped == "idle":
                return

    def rejections(self):
        """What can't be put is rejected for good; and not by a desk that hasn't the store any more."""
        place = self.made()
        desk, front = self.desk(place), self.inbox(place)
        asked = [request("k1", "nothing", {"me": "Ann"}), request("k2", "wrong", {"me": "Ann"})]
        asked += [request("k3", "add", {"me": True}), request("k4", "add", {"me": "Dan"})]
        need(all(isinstance(one, Queued) and one.is_new for one in front.ask(asked)), "they aren't in the inbox")
        need(not front.ask(asked[:1])[0].is_new, "who asks again is new")
        need(front.fates(["k9"]) == {"k9": None}, "nobody's request stands")
        self.worked(desk)
        fates = front.fates(["k1", "k2", "k3", "k4"])
        kinds = [type(fate) for fate in fates.values()]
        need(kinds == [Rejected, Rejected, Rejected, Ended], f"they stand as {fates}")
        need("no script has the name nothing" in fates["k1"].fault, fates["k1"].fault)
        need(front.ask(asked[:1]) == [fates["k1"]], "who was rejected is taken")
        front.ask([request("k5", "wrong", {"me": "Eve"})])
        ((number,),) = front._found("SELECT id FROM entangle_inbox WHERE request_key = 'k5'")
        version = desk._store.version()
        other = self.desk(place, scripts={**SCRIPTS, "wrong": "add"})
        raises(stores.StoreTaken, desk.take)
        raises(stores.StoreTaken, lambda: front.reject({number: "no such script"}, *version))
        need(isinstance(front.fates(["k5"])["k5"], Queued), "who has lost the store rejects")
        self.worked(other)
        need(isinstance(front.fates(["k5"])["k5"], Ended), "the next desk doesn't put it")
        need(front.forget(_in_a_minute()) == 3 and self.rows(place) == [], "rejections aren't forgotten")
        other._room.close()

    def stale(self):
        """A desk that has lost the store takes nothing out, though it has seen that the store has it."""
        place = self.made()
        desk, front = self.desk(place), self.inbox(place)
        other = self.desk(place)
        front.ask([request("k1", "alone", {"me": "Ann"})])
        other.take()
        desk.take()
        raises(stores.StoreTaken, lambda: desk.tell(()))
        need(len(self.rows(place)) == 1, "a desk without the store takes rows out")
        other.tell(())
        need(self.rows(place) == [], "a desk doesn't take out what it has put")
        other._room.close()

    def withdrawals(self):
        """What is withdrawn before a desk takes it, what has ended, and what nobody has asked."""
        place = self.made()
        desk, front = self.desk(place), self.inbox(place)
        front.ask([request("k1", "alone", {"me": "Ann"}), request("k2", "add", {"me": "Bob"})])
        front.withdraw(["k1", "k9"])
        self.worked(desk)
        ends = {key: fate and fate.outcome.ending.kind for key, fate in front.fates(["k1", "k2", "k9"]).items()}
        need(ends == {"k1": "withdrawn", "k2": "committed", "k9": None}, f"they end as {ends}")
        front.withdraw(["k1", "k2"])
        self.worked(desk)
        need(front.fates(["k2"])["k2"].outcome.ending.kind == "committed", "what has ended is withdrawn")
        need(self.rows(place) == [], "withdrawals stand in the inbox")
        desk._room.close()

    def full(self):
        """Where the room is full rows stay where they are; what waits can be withdrawn; and the inbox has an end."""
        place = self.made()
        desk, front = self.desk(place, most_waiting=2), self.inbox(place, most_queued=2)
        front.ask([request(f"k{n}", "alone", {"me": f"p{n}"}) for n in range(2)])
        self.worked(desk)
        front.ask([request(f"k{n}", "alone", {"me": f"p{n}"}) for n in range(2, 5)])
        self.worked(desk)
        need(front.backlog() == stores.Backlog(3, 2), f"there are {front.backlog()}")
        time.sleep(1.1)
        raises(InboxFull, lambda: front.ask([request("k9", "add", {"me": "Zoe"})]))
        front.withdraw(["k4", "k0"])
        self.worked(desk)
        self.worked(desk)
        kinds = {key: type(fate) for key, fate in front.fates([f"k{n}" for n in range(5)]).items()}
        need(kinds["k0"] is Ended and kinds["k2"] is Waiting and kinds["k4"] is Queued, f"they stand as {kinds}")
        front.withdraw(["k1", "k2"])
        for _ in range(3):
            self.worked(desk)
        fates = front.fates([f"k{n}" for n in range(5)])
        need(isinstance(fates["k3"], Waiting) and fates["k4"].outcome.ending.kind == "withdrawn", f"{fates}")
        desk._room.close()
        time.sleep(1.1)
        front.ask([request(f"j{n}", "alone", {"me": f"q{n}"}) for n in range(3)])
        time.sleep(5.1)
        raises(InboxFull, lambda: front.ask([request("j9", "add", {"me": "Zoe"})]))

    def times(self):
        """A request whose time is over is withdrawn, and one that was forgotten gets its fate of then."""
        place = self.made()
        desk, front = self.desk(place), self.inbox(place)
        front.ask([InboxRequest("alone", {"me": "Ann"}, "k1", _in_a_minute(-59)), request("k2", "add", {"me": "Bob"})])
        self.worked(desk)
        time.sleep(1.1)
        self.worked(desk)
        before = front.fates(["k1", "k2"])
        need(before["k1"].outcome.ending.kind == "withdrawn", f"{before}")
        need(desk._room.forget(_in_a_minute()) == 2, "they aren't forgotten")
        after = front.ask([request("k2", "add", {"me": "Bob"})])[0]
        need(after.waiter is None and after.outcome.ending == before["k2"].outcome.ending, f"it stands as {after}")
        self.worked(desk)
        need(front.fates(["k2"])["k2"] == after, "a forgotten request is put anew")
        desk._room.close()

    def ears(self):
        """Whoever listens hears soon, of the own schema alone, and each second anyway."""
        place, other, heard = self.made(), self.made(), []
        desk, front = self.desk(place), self.inbox(place)
        front.tells(lambda keys: heard.append((time.monotonic(), keys)))
        elsewhere = []
        self.inbox(other).tells(elsewhere.append)
        time.sleep(0.5)
        front.ask([request("k1", "add", {"me": "Ann"})])
        desk.take()
        desk._room.step()
        at = time.monotonic()
        desk.tell(["k1", "k2"])
        time.sleep(1.6)
        soon = [then - at for then, keys in heard if keys == ["k1", "k2"]]
        need(soon and soon[0] < 0.5, f"heard {heard}")
        need(sum(not keys for _, keys in heard) >= 2, f"heard {heard}")
        need(not any(elsewhere), f"another schema heard {elsewhere}")
        desk._room.close()
        front.close()

    def page(self):
        """The programs of docs/EMBEDDING.md: a process without the room asks the one that has it."""
        with open(os.path.join(HERE, "docs", "EMBEDDING.md"), encoding="utf-8") as file:
            code = next(code for code in re.findall(r"```python\n(.*?)```", file.read(), re.DOTALL) if "Desk(" in code)
        asks, serves = code.split("# the process that has the room")
        names = {**vars(stores), "DSN": self.engine.dsn(self.engine.fresh()), "TABLES": PAGE_TABLES, "TRIP": PAGE_TRIP}
        desk = forked(lambda: exec(serves.partition("\n")[2], names))
        try:
            inbox = PostgresInbox(names["DSN"], name="travel")
            insisting(inbox.backlog)
            exec(asks, names)
            until = time.monotonic() + 30
            while not isinstance(inbox.fates(["a3f1"])["a3f1"], Ended) and time.monotonic() < until:
                time.sleep(0.05)
            fate = inbox.fates(["a3f1"])["a3f1"]
            need(isinstance(fate, Ended) and fate.outcome.ending.kind == "withdrawn", f"it stands as {fate}")
        finally:
            os.kill(desk, signal.SIGKILL)
            finished(desk)

    def standby_away(self, how):
        """Nothing is told while the standby is away, though it can be read, since the wait for it was ended."""
        place = self.made()
        desk, front = self.desk(place), self.inbox(place)
        servers = Servers(self.cases, None, 0)
        front.ask([request("k0", "add", {"me": "Ann"})])
        servers.set("synchronous_standby_names", "nobody")
        told, bob = [], request("k1", "add", {"me": "Bob"})
        try:
            asker = self.told(told, place, "ask", [bob])
            servers.sql("SELECT pg_%s_backend(%%s)" % how, servers.waits_for_standby())
            until = time.monotonic() + 20
            while not self.rows(place)[1:] and time.monotonic() < until:
                time.sleep(0.02)
            need(len(self.rows(place)) == 2, "the row can't be read")
            looker, again = self.told(told, place, "fates", ["k1"]), self.told(told, place, "ask", [bob])
            time.sleep(1.5)
            need(not told, f"{told} is told, and no standby has it")
        finally:
            servers.set("synchronous_standby_names", "")
        for one in (asker, looker, again):
            one.join(20)
        need(len(told) == 3, f"only {told} is told since the standby is back")
        self.worked(desk)
        need(isinstance(front.fates(["k1"])["k1"], Ended), "it isn't put")
        desk._room.close()

    def told(self, told, place, call, given):
        """A thread that makes a call of an inbox of its own, again and again, and notes the answer."""
        inbox = self.inbox(place)
        thread = threading.Thread(target=lambda: told.append(insisting(getattr(inbox, call), given)), daemon=True)
        thread.start()
        return thread

    def run(self):
        if has_library():
            self.cases.case("page", self.page)
        for call in (self.comes_back, self.rejections, self.stale, self.withdrawals, self.full, self.times, self.ears):
            self.cases.case(call.__name__, call)
        for how in ("terminate", "cancel"):
            self.cases.case(f"standby_away {how}", lambda: self.standby_away(how))
        if any(kind.startswith(self.cases.only.partition(" ")[0]) for kind in AT_STATEMENTS):
            self.each_statement()


def _in_a_minute(more=0):
    return datetime.now(timezone.utc) + timedelta(seconds=60 + more)
