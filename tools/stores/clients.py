"""Processes that have a room over a store, and what befalls them."""

import json
import os
import select
import signal
import sys
import time
import traceback
from contextlib import suppress

import entangle
from engines import FIRST, MOST_SECONDS
from entangle import stores
from entangle.stores import DurableRoom, Request
from fake_room import FakeRoom
from trial import Wrong

UNTIL = entangle.Patience.UNTIL_WITHDRAWN


class Notes:
    """What clients are told, a line each, which stays when a client is killed."""

    def __init__(self, path):
        self.path = path
        self.file = os.open(path, os.O_WRONLY | os.O_CREAT | os.O_APPEND)

    def note(self, **said):
        os.write(self.file, (json.dumps(said) + "\n").encode())

    def read(self):
        with open(self.path, encoding="utf-8") as file:
            return [json.loads(line) for line in file if line.endswith("\n")]


def said_of_ending(ending):
    """An ending as notes have it."""
    failure = ending.failure.value if isinstance(ending, entangle.TicketFailed) else None
    return [ending.kind, getattr(ending, "epoch", None), getattr(ending, "number", None), failure]


def insisting(call, *given, **named):
    """Makes a call again as long as the store fails."""
    until = time.monotonic() + MOST_SECONDS
    while True:
        try:
            return call(*given, **named)
        except stores.StoreFailed:
            if time.monotonic() > until:
                raise
            time.sleep(0.01)


class Client:
    """A process that has a room over a store, and goes through a plan: requests, steps, withdrawals."""

    room_class = DurableRoom

    def __init__(self, engine, place, notes, hook=None, timeout=5.0, tickets=None, side=FIRST, **times):
        self.engine, self.place, self.notes = engine, place, notes
        self.store = engine.store(place, name=side.name, timeout=timeout, **times)
        self.store.hook = hook
        self.room = insisting(self.room_class, side.tables, self.store, opens=FakeRoom)
        # the tickets that were told to clients, by key; and those of which no end was told
        self.tickets, self.open = {}, {}
        for key, number in (tickets or {}).items():
            self.told(key, entangle.Ticket(number))

    def go(self, plan, done=0):
        for at, (word, *given) in enumerate(plan[done:], done + 1):
            getattr(self, word)(*given)
            self.notes.note(done=at)
        self.store.close()

    def put(self, *requests):
        """Puts requests by their keys, and notes who is told which ticket."""
        wanted = [Request(script, values, patience, key) for key, script, values, patience in requests]
        if len(wanted) == 1:
            one = wanted[0]
            tickets = [insisting(self.room.put, one.script, one.values, one.patience, one.key)]
        else:
            tickets = insisting(self.room.put_all, wanted)
        for request, ticket in zip(wanted, tickets):
            self.notes.note(key=request.key, ticket=ticket.number)
            self.told(request.key, ticket)

    def told(self, key, ticket):
        """Somebody has this ticket, and wants to be told how it ends."""
        self.tickets[key] = ticket
        ending = insisting(self.room._listen, ticket, lambda ending: self.heard(ticket, ending))
        if ending is None:
            self.open[key] = ticket

    def heard(self, ticket, ending):
        """Who waits for the end of a ticket is told it, or why it won't come."""
        if not isinstance(ending, entangle._waits.Broken):
            self.notes.note(ended=ticket.number, ending=said_of_ending(ending))

    def step(self):
        insisting(self.room.step)
        self.look()

    def steps(self):
        while insisting(self.room.step) != "idle":
            self.look()
        self.look()

    def withdraw(self, key):
        with suppress(entangle.NobodyWaits):
            insisting(self.room.withdraw, self.tickets[key])
        self.look()

    def turn(self):
        insisting(self.room.turn, "Log")

    def look(self):
        """Asks how the tickets stand, and notes each end that is told."""
        for key, ticket in list(self.open.items()):
            state = insisting(self.room.state, ticket)
            if state.is_over:
                del self.open[key]
                outcome = insisting(self.room.outcome, ticket)
                ending = said_of_ending(state)
                answered = None if outcome is None else [outcome.group, repr(outcome.answers)]
                self.notes.note(ended=ticket.number, ending=ending, answered=answered)


def forked(work):
    """Runs work in a process of its own; the number of that process. Its status says how it ended: 0, 3 if another
    process took the store, 4 for anything else."""
    child = os.fork()
    if child:
        return child
    status = 4
    signal.signal(signal.SIGTERM, signal.SIG_DFL)
    try:
        work()
        status = 0
    except stores.StoreTaken:
        status = 3
    except BaseException:
        traceback.print_exc()
    finally:
        sys.stderr.flush()
        os._exit(status)


def ended(child, seconds=MOST_SECONDS):
    """How a process ends: its status, or minus a signal's number. None if it hasn't within so many seconds."""
    until = time.monotonic() + seconds
    while True:
        found, status = os.waitpid(child, os.WNOHANG)
        if found:
            return os.waitstatus_to_exitcode(status)
        if time.monotonic() > until:
            return None
        time.sleep(0.002)


def finished(child, seconds=MOST_SECONDS):
    """How a process ends, which has to in so many seconds."""
    status = ended(child, seconds)
    if status is None:
        os.kill(child, signal.SIGKILL)
        os.waitpid(child, 0)
        raise Wrong(f"a process hasn't ended after {seconds} seconds")
    return status


class Fault:
    """A hook that does something at the statement of a number, before it or behind it, and counts the statements."""

    def __init__(self, number, when, act):
        self.number, self.when, self.act, self.count = number, when, act, 0

    def __call__(self, when, sql, store):
        self.count += when == "before"
        if (self.count, when) == (self.number, self.when):
            self.number = None
            self.act(store)


class Asking:
    """By which a client has its parent do something, and waits for that."""

    def __init__(self):
        self.heard, self.asks = os.pipe()
        self.waits, self.answers = os.pipe()

    def ask(self, store):
        os.write(self.asks, b"?")
        os.read(self.waits, 1)

    def served(self, child, do):
        """Waits for the end of a client, and does what it asks for; its status."""
        until = time.monotonic() + 2 * MOST_SECONDS
        while time.monotonic() < until:
            if select.select([self.heard], [], [], 0.005)[0]:
                os.read(self.heard, 1)
                do()
                os.write(self.answers, b"!")
            found, status = os.waitpid(child, os.WNOHANG)
            if found:
                return os.waitstatus_to_exitcode(status)
        os.kill(child, signal.SIGKILL)
        os.waitpid(child, 0)
        raise Wrong("a client hasn't ended")

    def close(self):
        for end in (self.heard, self.asks, self.waits, self.answers):
            os.close(end)
