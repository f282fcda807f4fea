"""A fleet under a crowd, while its fronts, its rooms and its database server are killed."""

import collections
import contextlib
import http.client
import json
import os
import random
import re
import secrets
import shutil
import signal
import socket
import subprocess
import sys
import threading
import time

from pair import Pair, until
from serving import EXAMPLES, digest_of
from trial import Wrong, need, psycopg

CITIES = ("lima", "oslo", "rome")
ASKERS, WAIT_SECONDS, CALL_SECONDS = 8, 2, 10
MOST_SECONDS = 180


class Fleet:
    """The example of a fleet over servers of its own, started by its own script."""

    def __init__(self, folder, dsn, fronts=2, seconds=MOST_SECONDS):
        self.folder = os.path.join(folder, "fleet")
        shutil.copytree(os.path.join(EXAMPLES, "fleet"), self.folder)
        self.file = os.path.join(self.folder, "fleet.toml")
        with open(self.file, encoding="utf-8") as source:
            text = source.read()
        text = text.replace('"dbname=fleet"', json.dumps(dsn))
        text = text.replace("[limits]", "[limits]\nrate = 1000000\nburst = 1000000\nrate_in_all = 1000000")
        with open(self.file, "w", encoding="utf-8") as target:
            target.write(text)
        ports = free_range(fronts)
        self.lines, self.members = [], collections.defaultdict(list)
        words = [sys.executable, "-B", os.path.join(self.folder, "fleet.py"), self.file, "--fronts", str(fronts)]
        words += ["--port", str(ports), "--operate-port", str(free_range(fronts + 2 * len(CITIES)))]
        self.log = open(os.path.join(folder, "fleet.log"), "ab")
        self.process = subprocess.Popen(words, stdout=subprocess.PIPE, stderr=self.log, text=True, cwd=folder)
        threading.Thread(target=self._read, daemon=True).start()
        self.fronts = [f"127.0.0.1:{ports + n}" for n in range(fronts)]
        self.seconds = seconds

    def _read(self):
        """Notes which processes there are, by what they do."""
        for line in self.process.stdout:
            self.lines.append(line)
            what, name, pid = re.match(r"(started|ended) (\S+ \S+) (\d+)", line).groups()
            if what == "started":
                self.members[name].append(int(pid))
            else:
                self.members[name].remove(int(pid))

    def kill(self, name, which=None):
        """Kills a process that does this by signal 9, one of its kind; whether there was one."""
        for pid in list(self.members[name])[:which]:
            with contextlib.suppress(ProcessLookupError):
                os.kill(pid, signal.SIGKILL)
                return True
        return False

    def holder(self, dsn, city):
        """The process that has a room: the one whose session has its store's turn."""
        sql = (
            "SELECT a.client_port FROM pg_locks l JOIN pg_stat_activity a USING (pid) WHERE l.locktype = 'advisory'"
            " AND l.granted AND a.application_name = 'entangle turn entangle'"
        )
        with psycopg.connect(dsn, autocommit=True) as connection:
            ports = {port for (port,) in connection.execute(sql).fetchall()}
        for pid in self.members[f"room {city}"]:
            if ports & ports_of(pid):
                return pid
        return None

    def close(self):
        with contextlib.suppress(ProcessLookupError):
            self.process.send_signal(signal.SIGTERM)
        with contextlib.suppress(subprocess.TimeoutExpired):
            self.process.wait(30)
        for pids in self.members.values():
            for pid in pids:
                with contextlib.suppress(ProcessLookupError):
                    os.kill(pid, signal.SIGKILL)
        self.log.close()


def free_range(count):
    """The first of so many ports of 127.0.0.1 that nobody has."""
    chance = random.SystemRandom()
    while True:
        first, taken = chance.randrange(20_000, 32_000), []
        try:
            taken = [socket.create_server(("127.0.0.1", first + n)) for n in range(count)]
            return first
        except OSError:
            continue
        finally:
            for one in taken:
                one.close()


def ports_of(pid):
    """The local ports of a process's connections."""
    found = set()
    try:
        sockets = {os.readlink(f"/proc/{pid}/fd/{fd}") for fd in os.listdir(f"/proc/{pid}/fd")}
    except (FileNotFoundError, ProcessLookupError):
        return found
    with open("/proc/net/tcp", encoding="ascii") as file:
        for line in list(file)[1:]:
            words = line.split()
            if f"socket:[{words[9]}]" in sockets:
                found.add(int(words[1].rpartition(":")[2], 16))
    return found


def called(address, method, path, body=None, key=None, seconds=CALL_SECONDS):
    """The status and what is said; 0 if there is no answer."""
    connection = http.client.HTTPConnection(address, timeout=seconds)
    try:
        head = {"Content-Type": "application/json"} if body else {}
        head |= {"Entangle-Key": key} if key else {}
        connection.request(method, path, json.dumps(body) if body else None, head)
        answer = connection.getresponse()
        said = answer.read()
        return answer.status, json.loads(said) if said.startswith(b"{") else said
    except (OSError, http.client.HTTPException, ValueError):
        return 0, None
    finally:
        connection.close()


class Asker(threading.Thread):
    """Couples who ask, one after the other: each call is made again, by any front, until it is answered."""

    def __init__(self, crowd, number):
        super().__init__(daemon=True)
        self.crowd, self.number, self.chance = crowd, number, random.Random(number)
        self.unanswered = 0

    def run(self):
        for couple in range(10**9):
            if self.crowd.ends.is_set():
                return
            self.couple(f"{self.number}.{couple}")

    def couple(self, name):
        city, began = self.chance.choice(CITIES), time.time()
        names, keys = [f"{name}a", f"{name}b"], [secrets.token_hex(16) for _ in range(2)]
        for me, friend, key in zip(names, names[::-1], keys):
            body = {"key": key, "values": {"city": city, "me": me, "friend": friend}}
            self.again("POST", "/v1/requests/lunch", body, None, (200, 202))
            self.crowd.note(asked=digest_of(key), city=city, who=me, couple=name)
        for me, key in zip(names, keys):
            path = f"/v1/requests/{digest_of(key)}?wait={WAIT_SECONDS}&city={city}"
            said = self.again("GET", path, None, key, (200,), lambda said: said["state"] != "waits")
            place = said.get("answers", {}).get("where")
            self.crowd.note(told=said["request"], city=city, state=said["state"], place=place, began=began)

    def again(self, method, path, body, key, statuses, holds=lambda said: True):
        """What is said once a call is answered so."""
        end = time.monotonic() + self.crowd.seconds
        while time.monotonic() < end:
            status, said = called(self.chance.choice(self.crowd.fronts), method, path, body, key)
            if status in statuses and holds(said):
                return said
            if status and status not in (200, 202, 503, 429):
                self.crowd.wrong.append(f"{method} {path} is answered {status}, {said}")
            if not status or status == 503:
                time.sleep(0.05)
        self.crowd.wrong.append(f"{method} {path}: nothing is told within {self.crowd.seconds} seconds")
        raise Wrong("nothing is told")


class Crowd:
    """Askers, and all that they were told."""

    def __init__(self, fronts, seconds, askers=ASKERS):
        self.fronts, self.seconds = fronts, seconds
        self.notes, self.wrong, self.ends = [], [], threading.Event()
        self.askers = [Asker(self, number) for number in range(askers)]
        for one in self.askers:
            one.start()

    def note(self, **said):
        self.notes.append({"at": time.time(), **said})

    def told_after(self, at, city=None, seconds=MOST_SECONDS):
        """When somebody was told a booking, of this city if one is named, that was asked behind this point in time."""

        def found():
            told = (one for one in self.notes[:] if "told" in one and city in (None, one["city"]))
            return next((one["at"] for one in told if one["began"] > at), None)

        return until(found, seconds, f"nobody of {city or 'any city'} is told anything")

    def finish(self):
        self.ends.set()
        for one in self.askers:
            one.join(2 * self.seconds)
            need(not one.is_alive(), "an asker doesn't end")


def judged(dsn, crowd):
    """What is wrong with the rooms, of what was acknowledged and told."""
    faults, stands, rows = list(crowd.wrong), {}, collections.defaultdict(list)
    for city in CITIES:
        with psycopg.connect(dsn, autocommit=True) as connection:
            connection.execute("BEGIN ISOLATION LEVEL REPEATABLE READ")
            sql = f"SELECT request_key, ticket, ending, ended_in FROM {city}.entangle_tickets"
            for key, *rest in connection.execute(sql).fetchall():
                if key in stands:
                    faults.append(f"{key} is there twice")
                stands[key] = (city, *rest)
            sql = f'SELECT request, who, place FROM {city}."Lunches"'
            for request, who, place in connection.execute(sql).fetchall():
                rows[request].append((city, who, place))
            left = connection.execute(f"SELECT count(*) FROM {city}.entangle_inbox").fetchone()[0]
            if left:
                faults.append(f"{left} rows stand in the inbox of {city}")
    couples = collections.defaultdict(list)
    for one in crowd.notes:
        if "asked" in one:
            couples[one["couple"]].append(one["asked"])
            if one["asked"] not in stands:
                faults.append(f"{one['asked']} was acknowledged, and is lost")
        else:
            found = stands.get(one["told"])
            if found is None or found[2] != "committed" or one["state"] != "booked":
                faults.append(f"{one['told']} was told {one['state']}, and stands as {found}")
            if [row[2] for row in rows[one["told"]]] != [one["place"]]:
                faults.append(f"{one['told']} was told {one['place']}, and has {rows[one['told']]}")
    for name, members in couples.items():
        groups = {stands[one][3] for one in members if one in stands}
        places = [rows[one] for one in members]
        if len(members) != 2 or len(groups) != 1 or any(len(one) != 1 for one in places):
            faults.append(f"couple {name} is half: {groups}, {places}")
        elif places[0][0][2] != places[1][0][2]:
            faults.append(f"couple {name} is parted: {places}")
    return faults, len(couples)


class Kills:
    """Kills by turns: who has a room, a front, the primary, whose standby is promoted then, and who stands by."""

    def __init__(self, folder, say, seed, kinds=("room", "front", "primary", "standby_room")):
        self.say, self.chance, self.kinds, self.folder = say, random.Random(seed), kinds, folder
        self.pair = Pair(os.path.join(folder, "pair"))
        self.pauses = collections.defaultdict(list)

    def run(self, count):
        fleet = None
        self.pair.make()
        try:
            fleet = Fleet(self.folder, self.pair.dsn(connect_timeout=3))
            crowd = Crowd(fleet.fronts, MOST_SECONDS)
            for city in CITIES:
                crowd.told_after(0, city)
            self.say("all rooms serve")
            for number in range(count):
                kind = self.kinds[number % len(self.kinds)]
                time.sleep(self.chance.uniform(0.5, 2.0))
                getattr(self, kind)(fleet, crowd)
            crowd.finish()
            self.pair.caught_up()
            until(lambda: not self.left(), 30, "rows stay in the inboxes")
            faults, couples = judged(self.pair.primary.dsn(), crowd)
            told = sum("told" in one for one in crowd.notes)
            self.say(f"{couples} couples asked, {told} were told, {len(faults)} faults")
            need(not faults, f"{faults[:5]}")
            return couples
        finally:
            if fleet:
                fleet.close()
            self.pair.stop()

    def left(self):
        """How many rows stand in inboxes."""
        return sum(self.pair.primary.sql(f"SELECT count(*) FROM {city}.entangle_inbox")[0][0] for city in CITIES)

    def noted(self, kind, lost, again):
        self.pauses[kind].append(again - lost)
        self.say(f"{kind}: told again {again - lost:.2f} s behind the loss")

    # ---- what is killed

    def room(self, fleet, crowd):
        """Who has a room is killed, and who stood by has it."""
        city = self.chance.choice(CITIES)
        holder = until(lambda: fleet.holder(self.pair.primary.dsn(), city), 60, f"nobody has {city}")
        lost = time.time()
        os.kill(holder, signal.SIGKILL)
        self.noted("room", lost, crowd.told_after(lost, city))

    def standby_room(self, fleet, crowd):
        """Who stands by is killed: nobody notices."""
        city = self.chance.choice(CITIES)
        holder = until(lambda: fleet.holder(self.pair.primary.dsn(), city), 60, f"nobody has {city}")
        lost = time.time()
        for pid in list(fleet.members[f"room {city}"]):
            if pid != holder:
                with contextlib.suppress(ProcessLookupError):
                    os.kill(pid, signal.SIGKILL)
        self.noted("standby_room", lost, crowd.told_after(lost, city))

    def front(self, fleet, crowd):
        """A front is killed: its clients go to the other one."""
        name = self.chance.choice([name for name in fleet.members if name.startswith("front")])
        lost = time.time()
        need(fleet.kill(name), f"there is no {name}")
        self.noted("front", lost, crowd.told_after(lost))

    def primary(self, fleet, crowd):
        """All processes of the primary are killed, and the standby is promoted."""
        lost = time.time()
        self.pair.primary.kill()
        self.pair.promoted()
        promoted = time.time()
        self.noted("primary", lost, max(crowd.told_after(promoted, city) for city in CITIES))
        self.pair.standby_again(True)
