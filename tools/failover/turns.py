"""Processes that take turns over one store: whether one has it at a time, and how soon the next one goes on."""

import os
import signal
import threading
import time
from contextlib import contextmanager, suppress

from entangle.stores import PostgresTurn, StoreError, StoreFailed
from pair import Server, free_ports, signalled, until
from told import Told, faults_of
from trial import need, raises

LEASE = 4.0
KILLS, KILLS_OF_MANY, MANY = 20, 5, 10_000
# how long the store's connection may be silent within a transaction, and what a busy machine takes beside it
TIMEOUT, SLACK = 10.0, 10.0


def figures(seconds):
    ordered = sorted(seconds)
    return f"median {ordered[len(ordered) // 2]:.3f} s, at worst {ordered[-1]:.3f} s"


class Turns:
    """Processes over one store, of which one has the turn."""

    def __init__(self, folder, dsn, **words):
        self.dsn = dsn
        self.told = Told(os.path.join(folder, f"turns{len(os.listdir(folder))}.notes"), dsn, "trips")
        self.words = ["--lease", str(LEASE), *(f"--{key}={said}" for key, said in words.items())]

    def begin(self):
        self.now = self.starts()
        self.told.comes("told", pid=self.now.pid, seconds=300)
        self.then = self.waits()
        return "one has the turn, and the other waits"

    def starts(self):
        return self.told.books(*self.words)

    def waits(self):
        """One more process, which waits."""
        process = self.starts()
        self.told.comes("waits", pid=process.pid)
        return process

    def judged(self):
        faults, counts = faults_of(self.dsn, "trips", self.told.more())
        need(not faults, f"{faults[:3]}")
        return counts

    def killed(self, times):
        """The holder is killed by signal 9, again and again; the next one goes on."""
        told, opened, used = [], [], []
        for _ in range(times):
            time.sleep(0.3)
            need(not self.told.first("turn", pid=self.then.pid), "two have the turn")
            begun = time.time()
            self.now.kill()
            self.now.wait()
            opened.append(self.told.comes("opened", pid=self.then.pid) - begun)
            told.append(self.told.comes("key", begun, self.then.pid) - begun)
            turn, key = (self.told.first(kind, pid=self.then.pid) for kind in ("turn", "key"))
            used.append(key["used"] - turn["used"])
            self.now, self.then = self.then, self.waits()
        said = f"to the first ticket {figures(told)}; to open {figures(opened)}; {figures(used)} of a processor"
        return f"{times} killed, and {times} taken over; {said}"

    def stands_still(self):
        """The holder stands still: it loses its turn, and ends once it goes on."""
        begun = time.time()
        self.now.send_signal(signal.SIGSTOP)
        try:
            took = self.told.comes("key", begun, self.then.pid) - begun
        finally:
            self.now.send_signal(signal.SIGCONT)
        need(self.now.wait(60) == 3, "who has no turn goes on")
        over = self.told.first("over", pid=self.now.pid)["over"]
        need(took < LEASE + TIMEOUT + SLACK, f"it took {took:.1f} s")
        self.now, self.then = self.then, self.waits()
        return f"with a lease of {LEASE:g} s the next one's first ticket after {took:.2f} s; the first one: {over}"

    def restarted(self, server, how):
        """The server is stopped and started again under both: one goes on."""
        time.sleep(0.5)
        server.stop(how)
        server.start()
        up = time.time()
        took = self.told.comes("key", up) - up
        time.sleep(1.5 * LEASE)
        lately = {note["pid"] for note in self.told.more() if "key" in note and note["at"] > time.time() - LEASE / 2}
        need(len(lately) == 1, f"{len(lately)} go on")
        is_same = lately == {self.now.pid}
        if not is_same:
            need(self.now.wait(60) == 3, "two go on")
            self.now, self.then = self.then, self.waits()
        return f"server stopped ({how}): a ticket {took:.2f} s after it was up, by the {'same' if is_same else 'other'}"

    def nine(self):
        """Nine wait; the holder is killed, and one takes over."""
        those = [self.then, *(self.starts() for _ in range(8))]
        for one in those:
            self.told.comes("waits", pid=one.pid)
        time.sleep(1)
        begun = time.time()
        self.now.kill()
        self.now.wait()
        self.told.comes("key", begun)
        time.sleep(2)
        turned = [one for one in those if self.told.first("turn", pid=one.pid)]
        need(len(turned) == 1, f"{len(turned)} have the turn")
        return "of nine who waited one took over"

    def close(self):
        for one in self.told.processes:
            with suppress(ProcessLookupError):
                one.kill()
            one.wait()


# ---- the calls, over PostgreSQL


def calls(server):
    """What take(), keep() and give() answer."""
    dsn = server.dsn()
    one, two = PostgresTurn(dsn, "calls", lease=3), PostgresTurn(dsn, "calls", lease=3)
    need(not one.keep(), "who took no turn has one")
    need(one.take(1) and one.take(0) and one.keep() and not two.take(0), "two have the turn")
    begun = time.monotonic()
    need(not two.take(1) and 0.9 < time.monotonic() - begun < 1 + SLACK, "take() doesn't wait as long as it should")
    need(PostgresTurn(dsn, "others").take(0), "another store has the same turn")
    elsewhere = f"{dsn} options='-c search_path=pg_catalog'"
    need(PostgresTurn(elsewhere, "calls").take(0), "a store of another schema has the same turn")
    one.give()
    need(two.take(1) and not one.keep() and two.keep(), "a turn that was given isn't the next one's")
    time.sleep(3 + 1)
    need(one.take(1) and not two.keep(), "a turn that isn't kept for its lease isn't free")
    with one:
        need(one.keep(), "with doesn't take the turn")
    need(not one.keep() and two.take(1), "with doesn't give the turn")
    child = os.fork()
    if not child:
        os._exit(1 if two.keep() or two.take(0) else 0)
    need(os.waitstatus_to_exitcode(os.waitpid(child, 0)[1]) == 0, "a forked process has the turn of its parent")
    need(two.keep(), "a forked process ends the turn of its parent")
    two.give()
    return "take, keep and give are as they should be"


def again_and_again(server):
    """Who waits asks again and again, for a short time each: in one session, and after whoever had the turn."""
    one, two = PostgresTurn(server.dsn(), "calls", lease=4), PostgresTurn(server.dsn(), "calls", lease=4)
    sql = "SELECT pid FROM pg_stat_activity WHERE application_name = 'entangle turn calls' ORDER BY pid"
    need(one.take(1) and not two.take(0.1), "two have the turn")
    before = server.sql(sql)
    need(not any(two.take(0.1) for _ in range(5)), "two have the turn")
    need(server.sql(sql) == before, "each call makes a session")
    waits = threading.Thread(target=lambda: until(lambda: two.take(0.2), 60))
    waits.start()
    server.stop("immediate")
    server.start()
    time.sleep(1)
    need(one.keep(), "who waits doesn't let the holder ask first")
    one.give()
    begun = time.monotonic()
    waits.join()
    took = time.monotonic() - begun
    need(two.keep() and took < 4 / 2 + SLACK, f"who waits has the turn after {took:.1f} s")
    two.give()
    return f"short calls wait in one session; the turn after {took:.2f} s"


def refusals(server):
    """A server that never lets this user in, and one that is too old."""
    for wrong in ("dbname=nowhere", "user=nobody"):
        key, _, name = wrong.partition("=")
        dsn = server.dsn().replace({"dbname": "dbname=postgres", "user": "user=tester"}[key], f"{key}={name}")
        error = raises(StoreFailed, PostgresTurn(dsn, "calls", lease=1).take)
        need(name in str(error), f"{error}")
        need(not PostgresTurn(dsn, "calls", lease=30).take(0.5), "who isn't let in has the turn")
    from psycopg import ConnectionInfo

    right = ConnectionInfo.server_version
    ConnectionInfo.server_version = property(lambda info: 130_011)
    try:
        error = raises(StoreError, PostgresTurn(server.dsn(), "calls").take)
        need("14" in str(error), f"{error}")
    finally:
        ConnectionInfo.server_version = right
    return "servers that refuse, and one that is too old, are told"


def hung(server):
    """The server stands still: keep() answers what it knew in time, and take() waits on."""
    one, two = PostgresTurn(server.dsn(), "calls", lease=3), PostgresTurn(server.dsn(), "calls", lease=3)
    need(one.take(1), "nobody has the turn")
    pids = server.processes()
    signalled(pids, signal.SIGSTOP)
    try:
        begun = time.monotonic()
        need(one.keep(), "keep() says more than it knows")
        took = time.monotonic() - begun
        need(took < 3 + 4 * 5 + SLACK, f"keep() takes {took:.1f} s")
        need(not two.take(1), "a turn of a server that stands still")
    finally:
        signalled(pids, signal.SIGCONT)
    need(until(one.keep, 30, "the turn doesn't come back") and not two.take(0), "two have the turn")
    one.give()
    return f"a server that stands still: keep() answers in {took:.1f} s"


# ---- both engines


def few_cases(turns, server=None):
    """The cases of processes over a store in which few wait."""
    yield "killed", lambda: turns.killed(KILLS)
    if server:
        yield "stands still", turns.stands_still
        for how in ("fast", "immediate", "fast", "immediate", "fast"):
            yield f"restarted {how}", lambda how=how: turns.restarted(server, how)
    yield "nine", turns.nine


def many_cases(turns):
    """The cases over one in which many wait."""
    yield f"killed while {MANY:,} wait", lambda: turns.killed(KILLS_OF_MANY)


class Part:
    """Cases, each of which is right or wrong."""

    def __init__(self, say):
        self.say, self.tried, self.wrong = say, 0, 0

    def case(self, name, work):
        self.tried += 1
        try:
            self.say(f"{name}: {work()}")
        except Exception as error:
            self.wrong += 1
            self.say(f"{name}: WRONG: {type(error).__name__}: {error}")

    def over(self, engine, folder, dsn, cases, **words):
        """Cases over one store, and whether what was told stands there."""
        turns = Turns(folder, dsn, **words)
        try:
            self.case(f"{engine}, two come", turns.begin)
            for name, work in cases(turns):
                self.case(f"{engine}, {name}", work)
            self.case(f"{engine}, all that was told", turns.judged)
        finally:
            turns.close()


def say(line):
    print(line, flush=True)


@contextmanager
def part_over(folder):
    """A part, with a server and a folder for notes."""
    server, notes = Server(os.path.join(folder, "server"), *free_ports(1)), os.path.join(folder, "notes")
    os.mkdir(notes)
    try:
        server.make()
        yield Part(say), server, notes
    finally:
        server.stop("immediate")


def tried_turns(folder, words):
    """Tries turns over both engines; how many cases, and how many are wrong."""
    with part_over(folder) as (part, server, notes):
        for work in (calls, again_and_again, refusals, hung):
            part.case(f"PostgreSQL, {work.__name__}", lambda work=work: work(server))
        part.over("PostgreSQL", notes, server.dsn(), lambda turns: few_cases(turns, server))
        part.over("SQLite", notes, os.path.join(folder, "few.sqlite"), few_cases)
    return part.tried, part.wrong


def tried_crowds(folder, words):
    """Tries turns over stores in which many wait; how many cases, and how many are wrong."""
    with part_over(folder) as (part, server, notes):
        part.over("PostgreSQL", notes, server.dsn(), many_cases, waiting=MANY)
        part.over("SQLite", notes, os.path.join(folder, "many.sqlite"), many_cases, waiting=MANY)
    return part.tried, part.wrong
