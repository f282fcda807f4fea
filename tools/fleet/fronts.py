"""The calls of a front, over rooms that begin, end, stand by, and know another file."""

import hashlib
import json
import os
import secrets
import shutil
import signal
import subprocess
import sys
import time

from entangle.stores import InboxRequest, PostgresInbox, Rejected
from serving import EXAMPLES, Served, digest_of, until


# All processes that a case has started.
STARTED = []


def closed():
    """Ends what a case has started, also where it broke."""
    while STARTED:
        STARTED.pop().close()


class Front(Served):
    """A front on free ports."""

    def __init__(self, file, *more):
        super().__init__(file, words=("--front", *more))
        STARTED.append(self)


class Room(Served):
    """The process of a room, which clients can't ask."""

    def __init__(self, file, room):
        super().__init__(file, words=("--room", room))
        STARTED.append(self)

    def start(self):
        words = [sys.executable, "-B", "-m", "entangle.server", self.file, *self.how["words"]]
        with open(self.log, "ab") as log:
            self.process = subprocess.Popen(words, stdout=subprocess.PIPE, stderr=log, text=True)
        self.address = self.inner = self.process.stdout.readline().strip()
        if not self.inner:
            raise AssertionError("the room doesn't start:\n" + self.said()[-2000:])


def made(folder, engine, more="", **texts):
    """The file of the example over a schema's worth of rooms of its own, on free ports."""
    place = os.path.join(folder, f"fleet{secrets.token_hex(4)}")
    shutil.copytree(os.path.join(EXAMPLES, "fleet"), place)
    file = os.path.join(place, "fleet.toml")
    with open(file, encoding="utf-8") as source:
        text = source.read()
    database = f"d{secrets.token_hex(4)}"
    with engine.reading("public") as connection:
        connection.execute(f"CREATE DATABASE {database}")
    dsn = f"host={engine.folder} user=tester dbname={database}"
    text = text.replace('"dbname=fleet"', json.dumps(dsn))
    for right, wrong in texts.items():
        assert right in text, right
        text = text.replace(right, wrong)
    text = text.replace("[limits]", "[limits]\nrate = 100000\nburst = 100000")
    with open(file, "w", encoding="utf-8") as target:
        target.write(f"listen = {{ port = 0 }}\noperate = {{ port = 0 }}\n{more}{text}")
    return file


def dsn_of(file):
    """The database of a file."""
    with open(file, encoding="utf-8") as source:
        return next(json.loads(line.split("=", 1)[1]) for line in source if line.startswith("postgres = "))


def wish(me, friend, city="rome"):
    return {"city": city, "me": me, "friend": friend}


def calls(tally, folder, engine):
    """Each call, with the room named and without."""
    file = made(folder, engine)
    front, rooms = Front(file), [Room(file, city) for city in ("rome", "oslo", "lima")]
    tally.note("a front is ready once a room is there", front.is_ready())
    tally.note("so is a room", all(room.is_ready() for room in rooms))
    for city in ("rome", "oslo"):
        one = front.put("lunch", wish("Ann", "Bob", city))[2]
        status, said, two = front.put("lunch", wish("Bob", "Ann", city))
        tally.compare(f"{city} takes it", (status, said["state"]), (202, "waits"))
        for query in ("", f"&city={city}"):
            path = f"/v1/requests/{digest_of(one)}?wait=20{query}"
            status, said = front.ask("GET", path, headers={"Entangle-Key": one})
            found = status, said["state"], said["answers"]
            tally.compare(f"{city} books both{query}", found, (200, "booked", {"where": "Bistro"}))
        status, said, _ = front.put("lunch", wish("Bob", "Ann", city), two)
        tally.compare("asked again it is the same", (status, said["state"]), (200, "booked"))
        status, said, _ = front.put("lunch", wish("Bob", "Zoe", city), two)
        tally.compare("other values under its key", (status, said.get("code")), (409, "other_values"))
    seen = front.look(one, two, secrets.token_hex(16))
    tally.compare("a look without a room", [one["state"] for one in seen], ["booked", "booked", "unknown"])
    said = front.ask("POST", "/v1/requests/look", {"keys": [one], "city": "oslo"})[1]
    tally.compare("a look in its room", said["requests"][0]["state"], "booked")
    for status, said in (
        front.put("lunch", wish("Ann", "Bob", "paris"))[:2],
        front.ask("POST", "/v1/requests/look", {"keys": [], "city": "paris"}),
        front.ask("GET", "/v1/tables/Places?city=paris"),
    ):
        tally.compare("a room that isn't there", (status, said["code"]), (400, "value_wrong"))
    status, said = front.ask("GET", "/v1/tables/Places")
    tally.compare("a table of no room", (status, said["code"]), (400, "value_missing"))
    status, said = front.ask("GET", "/v1/tables/Places?city=rome")
    tally.compare("a table", (status, said["rows"]), (200, [["Bistro"], ["Canteen"], ["Terrace"]]))
    withdrawn(tally, front)
    streamed(tally, front)
    tally.note("metrics of a front", front.metric("entangle_puts_total") > 0)
    status, said = front.ask("POST", "/operate/survey", {}, port=front.inner)
    found = status, said["fault"], sorted(said["queued"])
    tally.compare("what operators see", found, (200, None, ["lima", "oslo", "rome"]))
    paths = front.ask("GET", "/v1/openapi.json")[1]["paths"]
    named = [one["name"] for one in paths["/v1/requests/{digest}"]["get"]["parameters"]]
    tally.note("the room is described", "city" in named, named)
    for one in (front, *rooms):
        tally.compare("it ends in good order", one.ended(signal.SIGTERM), 0)
        one.close()


def withdrawn(tally, front):
    """A request that waits is withdrawn, by its key alone."""
    key = front.put("lunch", wish("Cleo", "Dan"))[2]
    tally.compare("another key", front.one(key, method="DELETE", headers={"Entangle-Key": "0" * 32})[0], 404)
    status, said = front.one(key, method="DELETE")
    tally.compare("it is withdrawn", (status, said.get("how")), (200, "withdrawn"))
    tally.compare("and has ended", front.one(key, method="DELETE")[0], 409)
    key = secrets.token_hex(16)
    tally.compare("nobody's request", front.one(key, method="DELETE")[0], 404)
    soon = int(time.time()) + 61
    tally.compare("a time that is too soon", front.put("lunch", wish("Eve", "Finn"), until=soon - 30)[0], 400)


def streamed(tally, front):
    """A stream tells what comes, and tells all anew to who comes again."""
    key = front.put("lunch", wish("Gus", "Hal"))[2]
    with front.stream([key]) as events:
        tally.compare("first how it stands", next(events)[2][0]["state"], "waits")
        front.put("lunch", wish("Hal", "Gus"))
        states = []
        while "booked" not in states:
            states.append(next(events)[2][0]["state"])
        tally.note("then what becomes of it", set(states) <= {"waits", "booked"}, states)
    with front.stream([key], headers={"Last-Event-ID": "999999"}) as events:
        tally.compare("it is told anew", next(events)[2][0]["state"], "booked")


def apart(tally, folder, engine):
    """Requests wait for rooms that begin later; a room that ends is had by who stands by; fronts may be killed."""
    file = made(folder, engine)
    front, room = Front(file), Room(file, "rome")
    front.is_ready()
    room.is_ready()
    tally.compare("a room that never was", front.put("lunch", wish("Ann", "Bob", "lima"))[0], 503)
    tally.compare("the room ends", room.ended(signal.SIGKILL), -signal.SIGKILL)
    status, said, key = front.put("lunch", wish("Ann", "Bob"))
    tally.compare("it is taken without a room", (status, said["why"]), (202, "asked: no room has taken it yet"))
    tally.compare("the front ends", front.ended(signal.SIGKILL), -signal.SIGKILL)
    front.start()
    front.is_ready()
    tally.compare("and outlives the front", front.state(key), "waits")
    front.put("lunch", wish("Bob", "Ann"))
    room.start()
    waits = Room(file, "rome")
    tally.note("a room that begins takes what stands there", front.becomes(key, "booked"))
    time.sleep(2)
    tally.compare("another one stands by", waits.ask("GET", "/readyz", port=waits.inner)[0], 503)
    is_had = room.process.poll() is None and room.is_ready(10)
    tally.note("and takes nothing from the first", is_had, room.said()[-500:])
    room.ended(signal.SIGKILL)
    tally.note("and has the room then", waits.is_ready(30))
    one = front.put("lunch", wish("Cleo", "Dan"))[2]
    front.put("lunch", wish("Dan", "Cleo"))
    tally.compare("it serves", front.one(one, wait=20)[1]["state"], "booked")
    for each in (front, room, waits):
        each.close()


def rejected(tally, folder, engine):
    """A room of another file rejects what it doesn't know, and the front tells so."""
    file = made(folder, engine)
    other = made(folder, engine)
    with open(file, encoding="utf-8") as source:
        text = source.read()
    with open(other, "w", encoding="utf-8") as target:
        target.write(text.replace("[requests.lunch]", "[requests.dinner]"))
    room, front = Room(other, "rome"), Front(file)
    room.is_ready()
    front.is_ready()
    key = front.put("lunch", wish("Ann", "Bob"))[2]
    tally.note("it ends", front.becomes(key, "ended"), front.look(key))
    how = front.look(key)[0]["how"]
    tally.note("and is told why", how.startswith("rejected: ") and "no script has the name lunch" in how, how)
    inbox = PostgresInbox(f"{dsn_of(file)} options='-c search_path=rome'")
    inbox.ask([InboxRequest("dinner", wish("Ann", "Bob"), "0" * 32)])
    is_rejected = until(lambda: isinstance(inbox.fates(["0" * 32])["0" * 32], Rejected), 30)
    tally.note("what no front has asked is rejected", is_rejected)
    inbox.close()
    tally.note("and the room serves on", room.is_ready(10), room.said()[-500:])
    for each in (front, room):
        each.close()


def owned(tally, folder, engine):
    """With tokens a request is its subject's, also while it stands in the inbox."""
    tokens = {name: secrets.token_hex(32) for name in ("ann", "bob")}
    file = made(folder, engine, 'tokens = "tokens.toml"\n')
    path = os.path.join(os.path.dirname(file), "tokens.toml")
    with open(path, "w", encoding="utf-8") as target:
        for name, token in tokens.items():
            digest = hashlib.sha256(token.encode()).hexdigest()
            target.write(f'[[tokens]]\nsubject = "{name}"\nmay = ["ask", "operate"]\nsha256 = "{digest}"\n')
    os.chmod(path, 0o600)
    rooms, front = [Room(file, city) for city in ("rome", "oslo", "lima")], Front(file)
    tally.note("all are ready", all(one.is_ready() for one in (*rooms, front)))
    heads = {name: {"Authorization": f"Bearer {token}"} for name, token in tokens.items()}
    for what in ("in the room", "in the inbox"):
        key = front.put("lunch", wish("Ann", "Bob"), headers=heads["ann"])[2]
        tally.compare(f"Ann sees hers {what}", front.state(key, heads["ann"]), "waits")
        tally.compare(f"Bob doesn't {what}", front.state(key, heads["bob"]), "unknown")
        tally.compare(f"nor withdraws it {what}", front.one(key, method="DELETE", headers=heads["bob"])[0], 404)
        status, said, _ = front.put("lunch", wish("Ann", "Bob"), key, headers=heads["bob"])
        tally.compare(f"nor asks with her key {what}", (status, said["code"]), (409, "other_values"))
        rooms[0].ended(signal.SIGKILL)
    for each in (front, *rooms):
        each.close()


def roles(tally, folder, engine):
    """What a file can't be served as is said in a line."""
    file = made(folder, engine)
    alone = os.path.join(os.path.dirname(file), "alone.toml")
    with open(file, encoding="utf-8") as source:
        text = source.read()
    plain = text.replace('partition = "city"\n', "").replace('rooms = ["lima", "oslo", "rome"]\n', "")
    with open(alone, "w", encoding="utf-8") as target:
        target.write(plain.replace("parameters.city = { kind = \"TEXT\" }\n", ""))
    sqlite = os.path.join(os.path.dirname(file), "sqlite.toml")
    with open(alone, encoding="utf-8") as source, open(sqlite, "w", encoding="utf-8") as target:
        target.writelines(line for line in source if not line.startswith("postgres = "))
    for path, words, said in (
        (file, (), "start it with --front, and with --room ROOM"),
        (file, ("--room", "paris"), "the file has no room paris"),
        (file, ("--room",), "which room: lima, oslo, rome"),
        (alone, ("--room", "rome"), "the file has no room rome"),
        (sqlite, ("--front",), "their inbox in PostgreSQL"),
        (file, ("--front", "--room", "rome"), "a process is a front, or has a room"),
    ):
        ran = subprocess.run(
            [sys.executable, "-B", "-m", "entangle.server", path, *words], capture_output=True, text=True, check=False
        )
        tally.note(f"{words} is refused", ran.returncode in (1, 2) and said in ran.stderr, ran.stderr)
    for right, wrong, said in (
        ('rooms = ["lima", "oslo", "rome"]', "rooms = []", "both are said"),
        ('"lima", "oslo"', '"lima", "lima"', "names a room twice"),
        ('"lima", "oslo"', '"lima", "O slo"', "no room can have the name O slo"),
        ('partition = "city"', 'partition = "town"', "has no parameter town"),
        ('partition = "city"', 'partition = "keys"', "which calls have already"),
        ("postgres = ", "sqlite = ", "a file with rooms names a database of PostgreSQL"),
    ):
        assert right in text, right
        path = os.path.join(os.path.dirname(file), "wrong.toml")
        with open(path, "w", encoding="utf-8") as target:
            target.write(text.replace(right, wrong, 1))
        words = [sys.executable, "-B", "-m", "entangle.server", path, "--check"]
        ran = subprocess.run(words, capture_output=True, text=True, check=False)
        tally.note(f"{wrong} is a fault", ran.returncode == 1 and said in ran.stderr, ran.stderr)
    one = Front(alone), Room(alone, "")
    for each in one:
        each.is_ready()
    key = one[0].put("lunch", {"me": "Ann", "friend": "Bob"})[2]
    one[0].put("lunch", {"me": "Bob", "friend": "Ann"})
    tally.compare("a room without a name", one[0].one(key, wait=20)[1]["state"], "booked")
    for each in one:
        each.close()


ALL = (calls, apart, rejected, owned, roles)
