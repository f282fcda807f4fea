"""What processes told, and whether all of it stands in the store: whole, and once."""

import collections
import json
import os
import sqlite3
import subprocess
import sys
from contextlib import closing

from pair import until
from trial import HERE, Wrong, psycopg

BOOKING = os.path.join(HERE, "tools", "failover", "booking.py")
TICKETS = "SELECT ticket, request_key, ending, ended_in, epoch, number FROM {name}_tickets"
CLAIM = "SELECT claim, write, last_group, next_ticket FROM {name}_claim"
BOOKED = 'SELECT who, fno FROM "Bookings"'

Row = collections.namedtuple("Row", "ticket key ending group epoch number")


class Told:
    """The notes of the processes that book under one name, and these processes."""

    def __init__(self, path, dsn, name):
        self.path, self.dsn, self.name = path, dsn, name
        self.read, self.notes, self.processes = 0, [], []
        open(path, "wb").close()

    def books(self, *words):
        """Starts one more process that books."""
        command = [sys.executable, "-B", BOOKING, self.dsn, self.path, self.name, *words]
        with open(f"{self.path}.err", "ab") as log:
            self.processes.append(subprocess.Popen(command, stdout=log, stderr=log))
        return self.processes[-1]

    def more(self):
        """Reads what was noted since."""
        with open(self.path, "rb") as file:
            file.seek(self.read)
            got = file.read()
        whole = got.rfind(b"\n") + 1
        self.read += whole
        self.notes += [json.loads(line) for line in got[:whole].splitlines()]
        return self.notes

    def first(self, kind, after=0.0, pid=None):
        """The first note of a kind since a point in time, of one process or of any."""
        notes = self.more()
        return next((n for n in notes if kind in n and n["at"] > after and pid in (None, n["pid"])), None)

    def comes(self, kind, after=0.0, pid=None, seconds=60):
        """When the first such note was made; it fails if none comes."""

        def found():
            if pid is None and self.processes and all(one.poll() is not None for one in self.processes):
                raise Wrong(f"all processes have ended: {self.said()}")
            return self.first(kind, after, pid)

        return until(found, seconds, f"no process notes {kind}")["at"]

    def said(self):
        """The end of what the processes wrote to standard error."""
        with open(f"{self.path}.err", encoding="utf-8", errors="replace") as file:
            return file.read()[-2000:]

    def stop(self):
        """Ends all processes; whether those that ran on ended by themselves."""
        open(f"{self.path}.stop", "wb").close()
        statuses = []
        for one in self.processes:
            try:
                statuses.append(one.wait(20))
            except subprocess.TimeoutExpired:
                one.kill()
                statuses.append(one.wait())
        return statuses


def snapshot(dsn, name):
    """What stands in the store, in one snapshot, since processes go on meanwhile."""

    def asked():
        is_file = dsn.startswith("/")
        try:
            with closing(sqlite3.connect(dsn) if is_file else psycopg.connect(dsn, autocommit=True)) as connection:
                connection.execute("BEGIN" if is_file else "BEGIN ISOLATION LEVEL REPEATABLE READ")
                sqls = [sql.format(name=name) for sql in (TICKETS, BOOKED, CLAIM)]
                return [connection.execute(sql).fetchall() for sql in sqls]
        except psycopg.OperationalError:
            return None

    return until(asked, what="the store can't be read")


def faults_of(dsn, name, notes):
    """What isn't as it was told, and what is half or twice, as a list; and counts."""
    rows, booked, ((claim, writes, last_group, next_ticket),) = snapshot(dsn, name)
    rows = [Row(*row) for row in rows]
    places = collections.defaultdict(list)
    for who, fno in booked:
        places[who].append(fno)
    faults = [*told_faults(rows, places, notes), *whole_faults(rows, places)]
    if sorted({row.group for row in rows if row.group is not None}) != list(range(1, last_group + 1)):
        faults.append(f"the groups up to {last_group} have gaps")
    if sorted(row.ticket for row in rows) != list(range(1, next_ticket)):
        faults.append(f"the tickets up to {next_ticket - 1} have gaps")
    told = sum("key" in note for note in notes)
    return faults, {"told": told, "tickets": len(rows), "groups": last_group, "writes": writes, "claim": claim}


def told_faults(rows, places, notes):
    """Each ticket and each end that was told stands there, and no other was told."""
    by_ticket = {row.ticket: row for row in rows}
    tickets, keys, ends = {}, {}, {}
    for note in notes:
        if "key" in note:
            if tickets.setdefault(note["key"], note["ticket"]) != note["ticket"]:
                yield f"{note['key']} was told two tickets"
            if keys.setdefault(note["ticket"], note["key"]) != note["key"]:
                yield f"the ticket {note['ticket']} was told to two: {note['key']} and {keys[note['ticket']]}"
        if "told" in note:
            said = (note["kind"], note["group"], note["epoch"], note["number"])
            if ends.setdefault(note["ticket"], said) != said:
                yield f"two ends of the ticket {note['ticket']} were told"
    for ticket, key in keys.items():
        if ticket not in by_ticket or by_ticket[ticket].key != key:
            yield f"LOST: {key} was told the ticket {ticket}, which is {by_ticket.get(ticket)}"
    for ticket, said in ends.items():
        row = by_ticket.get(ticket)
        if row is None or tuple(row[2:]) != said:
            yield f"LOST: the end {said} of the ticket {ticket} was told, which is {row}"
        elif said[0] == "committed" and len(places[row.key]) != 1:
            yield f"LOST: a booking of {row.key} was told, who has {places[row.key]}"


def whole_faults(rows, places):
    """Nobody is booked alone, twice or without a commit, and who committed is booked with the friend."""
    by_key = {row.key: row for row in rows}
    for key, booked in places.items():
        friend = key[:-1] + ("b" if key[-1] == "a" else "a")
        ours, theirs = by_key.get(key), by_key.get(friend)
        if len(booked) != 1 or places.get(friend) != booked:
            yield f"half or twice: {key} has {booked}, and {friend} {places.get(friend)}"
        elif not ours or not theirs or ours.ending != "committed" or ours.group != theirs.group:
            yield f"{key} is booked, and stands there as {ours} beside {theirs}"
    for row in rows:
        if row.ending == "committed" and not places.get(row.key):
            yield f"{row.key} committed without a booking"
