"""Rounds: the primary is lost under a process that books, and the standby takes its place."""

import collections
import os
import random
import signal
import time

from pair import Pair, signalled
from told import Told, faults_of
from trial import need

# How often each kind comes in twenty rounds.
KINDS = {"killed": 5, "killed_late": 3, "standby_behind": 3, "unsent": 3, "stopped": 3, "restarted": 3}
ROUNDS = sum(KINDS.values())


def kinds_of(rounds, seed):
    """The kinds of so many rounds, in an order that the seed draws."""
    kinds = [kind for kind, count in KINDS.items() for _ in range(count)]
    random.Random(seed).shuffle(kinds)
    return [kinds[at % ROUNDS] for at in range(rounds)]


class Rounds:
    """Rounds over one pair of servers, under one process that books all the time."""

    def __init__(self, folder, say, seed, kinds=None):
        self.say, self.seed, self.random = say, seed, random.Random(seed)
        self.pair = Pair(os.path.join(folder, "pair"))
        self.folder, self.kinds = folder, kinds
        self.pauses, self.after = collections.defaultdict(list), collections.defaultdict(list)

    def run(self, rounds):
        """Makes the rounds, up to the first that is wrong. Raises what is wrong with it."""
        told = None
        try:
            self.pair.make()
            self.told = told = Told(os.path.join(self.folder, "rounds.notes"), self.pair.dsn(), "trips")
            process = told.books()
            told.comes("told")
            for number, kind in enumerate(self.kinds or kinds_of(rounds, self.seed), 1):
                self.round(number, kind)
                need(process.poll() is None, f"the process that books has ended: {told.said()}")
            need(told.stop() == [0], "the process that books doesn't end by itself")
        finally:
            if told:
                told.stop()
            self.pair.stop()

    def round(self, number, kind):
        """Loses the primary, waits until a ticket is told again, and judges all that was told."""
        time.sleep(self.random.uniform(0.3, 2.0))
        lost, promoted, how = getattr(self, kind)()
        again = self.told.comes("key", promoted)
        if how is None:
            time.sleep(self.random.uniform(0.05, 0.5))
            how = self.pair.standby_again(self.random.random() < 0.6)
        self.pair.caught_up()
        faults, counts = faults_of(self.pair.primary.dsn(), "trips", self.told.more())
        self.pauses[kind].append(again - lost)
        self.after[kind].append(again - promoted)
        stood = sum("stood" in note for note in self.told.notes)
        counts["sent again and there"] = stood
        figures = f"{again - lost:.2f} s from the loss to a ticket, {again - promoted:.2f} s from the promotion"
        self.say(f"round {number}, {kind}: {figures}; {how}; {counts}")
        need(not faults, f"round {number}, {kind}: {faults[:3]}")

    # ---- the kinds: each gives when the primary was lost, when another one was there, and how the standby came again

    def lost_and_promoted(self, late=0.0):
        lost = time.time()
        self.pair.primary.kill()
        time.sleep(late)
        self.pair.promoted()
        return lost, time.time(), None

    def killed(self):
        """The primary is killed, and the standby promoted at once."""
        return self.lost_and_promoted()

    def killed_late(self):
        """The standby is promoted some seconds later."""
        return self.lost_and_promoted(self.random.uniform(0.5, 3.0))

    def standby_behind(self):
        """The standby stands still before, so commits wait for it; then the primary is killed."""
        paused = self.pair.standby.processes()
        signalled(paused, signal.SIGSTOP)
        try:
            time.sleep(self.random.uniform(0.05, 0.6))
            lost = time.time()
            self.pair.primary.kill()
        finally:
            signalled(paused, signal.SIGCONT)
        self.pair.promoted()
        return lost, time.time(), None

    def unsent(self):
        """What is sent to the standby stands still before, so that this lacks the last commit."""
        for (pid,) in self.pair.primary.sql("SELECT pid FROM pg_stat_replication"):
            os.kill(pid, signal.SIGSTOP)
        time.sleep(self.random.uniform(0.2, 0.6))
        return self.lost_and_promoted()

    def stopped(self):
        """The primary is stopped in good order (`-m fast`)."""
        lost = time.time()
        self.pair.primary.stop("fast")
        self.pair.promoted()
        return lost, time.time(), None

    def restarted(self):
        """The primary is killed, and the same server started again: no standby takes its place."""
        lost = time.time()
        self.pair.primary.kill()
        time.sleep(self.random.uniform(0.0, 0.5))
        self.pair.primary.start()
        return lost, time.time(), "the same server"
