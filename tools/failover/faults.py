"""Faults of servers that a store has to meet: nothing that was told is lost, and nobody waits for ever."""

import collections
import os
import signal
import threading
import time
from contextlib import suppress

from entangle.stores import DurableRoom, PostgresStore, StoreError, StoreFailed, StoreTaken, Table
from pair import Pair, signalled, until
from trial import Wrong, need

TABLES = [Table("T", {"a": "INT"}, collects=True)]
PUT = "BEGIN TRANSACTION; INSERT INTO T VALUES (@a); COMMIT;"
ANSWER, CONNECT = 3.0, 2.0
# what a call may take where servers stand still, and what a busy machine takes beside it
BOUND, SLACK = 2 * ANSWER + 2 * 2 * CONNECT, 5.0
AWAY = 20.0


def opened(pair, store_class):
    return DurableRoom(TABLES, store_class(pair.dsn(), name="hole", answer_timeout=ANSWER, connect_timeout=CONNECT))


def tickets(server):
    """The tickets that stand there, by key."""
    return {key: ticket for ticket, key in server.sql("SELECT ticket, request_key FROM hole_tickets")}


class Asking:
    """A thread that puts one request after the other, and says what it was told, and how long each call took."""

    def __init__(self, room):
        self.room, self.told, self.took, self.errors = room, {}, [], collections.Counter()
        self.is_over, self.count = False, 0
        self.thread = threading.Thread(target=self.asks, daemon=True)
        self.thread.start()

    def asks(self):
        while not self.is_over:
            self.count += 1
            key = f"k{self.count}"
            while key not in self.told and not self.is_over:
                begun = time.monotonic()
                try:
                    ticket = self.room.put(PUT, {"a": self.count}, key=key)
                    self.told[key] = ticket.number
                except StoreFailed as error:
                    self.errors[str(error)] += 1
                    time.sleep(0.05)
                self.took.append(time.monotonic() - begun)

    def goes_on(self, seconds=60):
        """Waits until one more ticket is told; for how long."""
        before, begun = len(self.told), time.monotonic()
        until(lambda: len(self.told) > before, seconds, "nothing is told")
        return time.monotonic() - begun

    def stop(self):
        self.is_over = True
        self.thread.join(60)


class Fault:
    """A pair of servers, a room over them, and somebody who asks."""

    def __init__(self, folder, store_class):
        self.pair, self.store_class = Pair(folder), store_class
        self.asking = None

    def run(self, name, **how):
        try:
            self.pair.make()
            return getattr(self, name)(**how)
        finally:
            self.close()

    def close(self):
        for server in (self.pair.primary, self.pair.standby):
            with suppress(OSError):
                signalled(server.processes(), signal.SIGCONT)
        if self.asking:
            self.asking.is_over = True
        self.pair.stop()

    def asks(self):
        self.asking = Asking(opened(self.pair, self.store_class))
        self.asking.goes_on()

    def stands(self):
        """Each ticket that was told stands in the primary."""
        told, found = dict(self.asking.told), tickets(self.pair.primary)
        lost = {key: ticket for key, ticket in told.items() if found.get(key) != ticket}
        need(not lost, f"LOST: of {len(told)} told tickets {lost}")
        return f"{len(told)} tickets told, none lost"

    def lost_ack(self, how):
        """A COMMIT waits for a standby that is down, and something ends the wait. Then the primary is lost."""
        self.asks()
        primary, standby = self.pair.primary, self.pair.standby
        standby.stop("immediate")
        (waiting,) = until(primary.waiting_commits, what="no COMMIT waits for the standby")
        before = len(self.asking.told)
        if how == "crash":
            primary.kill()
            primary.start()
        else:
            primary.sql(f"SELECT pg_{how}_backend(%s)", waiting)
        time.sleep(2 * ANSWER)
        need(len(self.asking.told) == before, "a ticket was told that no standby has")
        primary.kill()
        standby.start()
        self.pair.promoted()
        took = self.asking.goes_on()
        self.asking.stop()
        return f"{self.stands()}; goes on {took:.2f} s after the promotion"

    def hang(self):
        """The primary stands still; the standby is promoted."""
        self.asks()
        signalled(self.pair.primary.processes(), signal.SIGSTOP)
        time.sleep(1)
        self.pair.promoted()
        took = self.asking.goes_on(BOUND + SLACK)
        self.asking.stop()
        longest = max(self.asking.took)
        need(longest < BOUND + SLACK, f"a call took {longest:.1f} s")
        return f"{self.stands()}; goes on {took:.2f} s after the promotion; the longest call took {longest:.1f} s"

    def both_hang(self):
        """Both servers stand still: each call fails in time. Then they go on."""
        self.asks()
        pids = [*self.pair.primary.processes(), *self.pair.standby.processes()]
        signalled(pids, signal.SIGSTOP)
        failed = sum(self.asking.errors.values())
        until(lambda: sum(self.asking.errors.values()) > failed, BOUND + SLACK, "no call fails")
        signalled(pids, signal.SIGCONT)
        took = self.asking.goes_on()
        self.asking.stop()
        longest = max(self.asking.took)
        need(longest < BOUND + SLACK, f"a call took {longest:.1f} s")
        return f"{self.stands()}; the longest call took {longest:.1f} s; goes on {took:.2f} s after the servers do"

    def away(self):
        """The standby is away for long: no ticket is told, and no connections are left behind."""
        self.asks()
        primary, standby = self.pair.primary, self.pair.standby
        standby.stop("immediate")
        until(primary.waiting_commits, what="no COMMIT waits for the standby")
        before, most, end = len(self.asking.told), 0, time.monotonic() + AWAY
        while time.monotonic() < end:
            sql = "SELECT count(*) FROM pg_stat_activity WHERE application_name LIKE 'entangle%'"
            most = max(most, primary.sql(sql)[0][0])
            time.sleep(0.2)
        need(len(self.asking.told) == before, "a ticket was told that no standby has")
        need(most <= 3, f"the server has {most} connections of the store")
        standby.start()
        self.pair.caught_up()
        took = self.asking.goes_on()
        self.asking.stop()
        longest = max(self.asking.took)
        need(longest < BOUND + SLACK, f"a call took {longest:.1f} s")
        said = f"{most} connections at most; the longest call took {longest:.1f} s"
        return f"{self.stands()}; {said}; goes on {took:.2f} s after the standby is there"

    def lagging(self, order):
        """The standby lacks the last claim. Who has it can't write once another process has claimed the store."""
        self.pair.waits_for("")
        first = opened(self.pair, self.store_class)
        first.put(PUT, {"a": 1}, key="first")
        self.pair.caught_up()
        self.pair.standby.stop("fast")
        old = opened(self.pair, self.store_class)
        if "written" in order:
            old.put(PUT, {"a": 2}, key="lost")
        self.pair.primary.kill()
        self.pair.standby.start()
        self.pair.promoted()
        new = opened(self.pair, self.store_class)
        told = {}
        for number, who in enumerate(order):
            if who == "written":
                continue
            room, key = (old if who == "old" else new), f"{who}{number}"
            try:
                told[key] = room.put(PUT, {"a": number}, key=key).number
                need(who == "new", "an earlier claimant writes into the store of a later one")
            except StoreTaken:
                need(who == "old", "the last claimant is shut out")
        found = tickets(self.pair.primary)
        lost = {key: ticket for key, ticket in told.items() if found.get(key) != ticket}
        need(not lost, f"LOST: {lost} were told, {found} are there")
        need(len(set(told.values())) == len(told), f"a ticket was told twice: {told}")
        return f"the earlier claimant is shut out; {told}"


FAULTS = {f"lost_ack {how}": ("lost_ack", {"how": how}) for how in ("terminate", "crash", "cancel")}
FAULTS |= {name: (name, {}) for name in ("hang", "both_hang", "away")}
for order in (("old", "new", "old", "new"), ("new", "old", "new", "old"), ("written", "old", "new", "old", "new"),
              ("written", "new", "old", "new", "old")):
    FAULTS[f"lagging {' '.join(order)}"] = ("lagging", {"order": order})


def fault(name, folder, store_class=PostgresStore):
    """Tries a fault with a store; what it says. Raises what is wrong."""
    method, how = FAULTS[name]
    return Fault(os.path.join(folder, name.replace(" ", "-")), store_class).run(method, **how)


def tried_faults(folder, words):
    """Tries all faults; how many, and how many are wrong."""
    wrong = 0
    for name in FAULTS:
        try:
            print(f"{name}: {fault(name, folder)}", flush=True)
        except (Wrong, StoreError) as error:
            wrong += 1
            print(f"{name}: WRONG: {error}", flush=True)
    return len(FAULTS), wrong
