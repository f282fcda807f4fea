"""Kills, stores that fail, a store that is taken, and the end: what was acknowledged stands, whole, once."""

import contextlib
import json
import os
import queue
import random
import secrets
import signal
import socket
import subprocess
import sys
import threading
import time

from calls import alone, pair
from serving import Served, copied, digest_of, until

PAIRS = 120


class Asker(threading.Thread):
    """Makes requests until each is acknowledged, again with the same key whatever happens."""

    def __init__(self, served, wishes):
        super().__init__()
        self.served, self.wishes = served, wishes
        self.acknowledged = {}

    def run(self):
        while True:
            try:
                key, values = self.wishes.get_nowait()
            except queue.Empty:
                return
            for _ in range(600):
                status, said, _ = self.served.put("together", values, key)
                if status in (200, 202):
                    self.acknowledged[key] = status
                    break
                time.sleep(0.1)


def killed(tally, folder, engine=None, kills=4, seed=None):
    """A crowd of pairs asks while the server is killed again and again."""
    seed = secrets.randbits(32) if seed is None else seed
    chance = random.Random(seed)
    print(f"seed {seed}", flush=True)
    texts = {'[136, "Paris"],': '[136, "Paris"], [200, "Oslo"],'}
    file = copied(
        folder, "trips", head=head_of(engine, "limits = { rate = 100000, burst = 100000, waiting = 1000 }"), texts=texts
    )
    with open(os.path.join(os.path.dirname(file), "seats.csv"), "a", encoding="utf-8") as seats:
        seats.writelines(f"200,{row}{letter}\n" for row in range(1, 101) for letter in "ABCD")
    served = Served(file)
    served.is_ready()
    couples = [[(secrets.token_hex(16), values) for values in pair("Oslo")] for _ in range(PAIRS)]
    wishes = queue.Queue()
    both = [one for couple in couples for one in couple]
    chance.shuffle(both)
    for one in both:
        wishes.put(one)
    askers = [Asker(served, wishes) for _ in range(8)]
    for one in askers:
        one.start()
    for _ in range(kills):
        time.sleep(chance.uniform(0.2, 1.5))
        tally.compare("signal 9 ends it", served.ended(signal.SIGKILL), -signal.SIGKILL)
        served.start()
        served.is_ready()
    for one in askers:
        one.join()
    acknowledged = {key for one in askers for key in one.acknowledged}
    tally.compare("each is acknowledged in the end", len(acknowledged), 2 * PAIRS)
    judged(tally, served, couples)
    served.close()


def judged(tally, served, couples):
    """All that was acknowledged is booked, no pair half, nobody twice."""
    keys = [key for couple in couples for key, _ in couple]

    def stands():
        found = {}
        for start in range(0, len(keys), 20):
            seen = served.look(*keys[start : start + 20])
            found.update(zip(keys[start : start + 20], seen))
        return found

    tally.note(
        "all are booked", until(lambda: {one["state"] for one in stands().values()} == {"booked"}, 120, 0.5), stands()
    )
    found, rows = stands(), served.rows("Seats")
    told = {digest_of(key): (one["answers"]["flight"], one["answers"]["seat"]) for key, one in found.items()}
    tally.compare("each sits where it was told", {row[3]: row[:2] for row in rows}, told)
    tally.compare("nobody twice", len(rows), len(keys))
    tally.compare("no seat twice", len({row[:2] for row in rows}), len(keys))
    people = {key: row for row in rows for key in keys if row[3] == digest_of(key)}
    tally.note("no pair is cut", all(people[one][0] == people[two][0] for (one, _), (two, _) in couples))


def head_of(engine, more=""):
    """What a file says of its store."""
    if engine is None:
        return f"{more}\n"
    return f"{more}\nstore = {{ postgres = {json.dumps(engine.dsn(engine.fresh()))} }}\n"


def failing_at_first(tally, folder, engine=None):
    """The store can't be opened at the start: a line a second says so, until it can."""
    file = copied(folder, "trips", head=head_of(engine))
    with unopenable(file, engine):
        served = Served(file)
        status, said = served.ask("GET", "/readyz", port=served.inner)
        tally.compare(
            "it isn't ready, and lives", (status, served.ask("GET", "/livez", port=served.inner)[0]), (503, 200)
        )
        status, said, _ = served.put("alone", alone())
        tally.compare("who asks is told so", (status, said["code"]), (503, "store_fails"))
        time.sleep(3.2)
        lines = [event for event in served.events() if event["event"] == "store fails"]
        tally.note("a line a second says so", 2 <= len(lines) <= 8, lines)
    tally.note("it goes on once it can", served.is_ready())
    key = served.put("alone", alone())[2]
    tally.note("and serves", served.becomes(key, "booked"))
    served.close()


@contextlib.contextmanager
def unopenable(file, engine):
    """The store of a file can't be opened."""
    if engine is not None:
        engine.stop("immediate")
        try:
            yield
        finally:
            engine.start()
        return
    path = file.replace(".toml", ".sqlite")
    os.mkdir(path)
    try:
        yield
    finally:
        os.rmdir(path)


def failing(tally, folder, engine=None):
    """The store fails for a while: nothing is acknowledged, and what was asked is put once."""
    served = Served(copied(folder, "trips", head=head_of(engine)))
    served.is_ready()
    lonely = served.put("together", pair()[0])[2]
    key = secrets.token_hex(16)
    with unwritable(served.file, engine):
        status, said, _ = served.put("alone", alone("Lea"), key)
        tally.compare("a store that fails", (status, said["status"]), (503, 503))
        tally.note("it isn't ready", until(lambda: served.ask("GET", "/readyz", port=served.inner)[0] == 503, 30))
        begun = time.monotonic()
        seen = served.look(lonely)
        tally.compare("how requests stand is told from memory", seen[0]["state"], "waits")
        tally.note("soon", time.monotonic() - begun < 5, time.monotonic() - begun)
        with served.stream([lonely]) as events:
            tally.compare("by streams too", next(events)[2][0]["state"], "waits")
    tally.note("it goes on", until(lambda: served.put("alone", alone("Lea"), key)[0] in (200, 202)))
    served.becomes(key, "booked")
    tally.compare("once", [row[2] for row in served.rows("Seats")].count("Lea"), 1)
    served.close()


@contextlib.contextmanager
def unwritable(file, engine):
    """The store of a file can't be written."""
    if engine is not None:
        engine.stop("immediate")
        try:
            yield
        finally:
            engine.start()
        return
    import sqlite3

    connection = sqlite3.connect(file.replace(".toml", ".sqlite"), isolation_level=None)
    connection.execute("BEGIN IMMEDIATE")
    try:
        yield
    finally:
        connection.close()


def lagging(tally, folder, engine=None):
    """The store doesn't answer: once the desk lags by five seconds, whoever asks is told so at once."""
    if engine is not None:
        return
    served = Served(copied(folder, "trips"))
    served.is_ready()
    with unwritable(served.file, engine):
        first = threading.Thread(target=served.put, args=("alone", alone()), daemon=True)
        first.start()
        time.sleep(6)
        begun = time.monotonic()
        status, head, said = served.whole(
            "POST", "/v1/requests/alone", {"key": secrets.token_hex(16), "values": alone()}
        )
        spent = time.monotonic() - begun
        tally.compare("the desk lags", (status, json.loads(said)["code"], head["Retry-After"]), (503, "busy", "5"))
        tally.note("which is said at once", spent < 2, spent)
        tally.note("readyz says so", b"lags" in served.ask("GET", "/readyz", port=served.inner)[1])
    first.join()
    tally.note("it goes on", served.is_ready())
    served.close()


def taken(tally, folder, engine=None):
    """Another server takes the store: the first one says so, and ends."""
    served = Served(copied(folder, "trips", head=head_of(engine)))
    served.is_ready()
    text = open(served.file, encoding="utf-8").read()
    other = served.file.replace("trips.toml", "other.toml")
    with open(other, "w", encoding="utf-8") as file:
        head = "" if engine else 'store = { sqlite = "trips.sqlite" }\n'
        file.write(
            head
            + "\n".join(
                "listen = { port = 0 }"
                if line.startswith("listen")
                else "operate = { port = 0 }"
                if line.startswith("operate")
                else line
                for line in text.splitlines()
            )
        )
    second = Served(other)
    tally.compare("the first ends with 1", served.status(), 1)
    tally.note(
        "and says why", "another one has loaded it since" in str(served.events()[-1]["error"]), served.events()[-1]
    )
    tally.note("the second serves", second.is_ready())
    second.close()
    served.close()


def stopped(tally, folder, engine=None):
    """SIGTERM: nothing more is taken, what was acknowledged is there; a second one ends it at once."""
    served = Served(
        copied(folder, "trips", head=head_of(engine, "limits = { rate = 10000, burst = 10000, waiting = 1000 }"))
    )
    served.is_ready()
    keys = []
    is_over = threading.Event()

    def ask():
        while not is_over.is_set():
            status, _, key = served.put("together", pair()[0])
            keys.extend([key] if status == 202 else [])

    with served.stream() as events:
        next(events)
        askers = [threading.Thread(target=ask) for _ in range(4)]
        for one in askers:
            one.start()
        time.sleep(0.5)
        begun = time.monotonic()
        tally.compare("SIGTERM ends it while streams are open", served.ended(signal.SIGTERM), 0)
        tally.note("within ten seconds", time.monotonic() - begun < 10, time.monotonic() - begun)
        tally.compare("the stream ends", next(events, None), None)
    is_over.set()
    for one in askers:
        one.join()
    served.start()
    served.is_ready()
    states = {served.state(key) for key in keys}
    tally.compare(f"the {len(keys) > 0 and 'acknowledged'} are there", states, {"waits"})
    with unwritable(served.file, engine):
        threading.Thread(target=served.put, args=("alone", alone()), daemon=True).start()
        time.sleep(0.5)
        served.process.send_signal(signal.SIGTERM)
        time.sleep(0.3)
        begun = time.monotonic()
        tally.note("a second SIGTERM ends it", served.ended(signal.SIGTERM) is not None)
        tally.note("soon", time.monotonic() - begun < 5, time.monotonic() - begun)
    served.close()


def port_in_use(tally, folder, engine=None):
    """A server whose port another one has ends, and says so."""
    if engine is not None:
        return
    served = Served(copied(folder, "trips"))
    served.is_ready()
    port = served.address.rsplit(":", 1)[1]
    words = [sys.executable, "-B", "-m", "entangle.server", copied(folder, "trips"), "--port", port]
    ran = subprocess.run(words, capture_output=True, text=True, timeout=60, check=False)
    tally.compare("it ends with 1", (ran.returncode, ran.stdout), (1, ""))
    tally.note("and says why", "address already in use" in ran.stderr, ran.stderr)
    tally.note("the other one serves on", served.is_ready())
    served.close()


def stands_by(tally, folder, engine=None):
    """Some processes stand by: one serves, and when it is killed, or loses its turn, another one does, with all that
    was acknowledged."""
    file = copied(folder, "trips", head=head_of(engine))
    words = ["--standby", "--port", "0", "--operate-port", "0"]
    first = Served(file, words=words)
    tally.note("one serves", first.is_ready())
    second = Served(file, words=words)
    key = first.put("together", pair()[0])[2]
    time.sleep(2.5)
    status, said = second.ask("GET", "/readyz", port=second.inner)
    tally.note("the other stands by", status == 503 and b"stands by" in said, (status, said))
    tally.compare("and says so to who asks", second.put("alone", alone())[1]["code"], "store_fails")
    begun = time.monotonic()
    first.ended(signal.SIGKILL)
    tally.note("it serves once the first is killed", second.is_ready())
    print(f"after {time.monotonic() - begun:.2f} s", flush=True)
    tally.compare("with all that was acknowledged", second.state(key), "waits")
    third = Served(file, words=words)
    loses_its_turn(second, engine)
    tally.note("it serves once the second has lost its turn", third.is_ready())
    second.process.send_signal(signal.SIGCONT)
    tally.compare("who has lost it ends", second.status(), 1)
    why = [str(one["error"]) for one in second.events() if one["event"] == "closed"][-1]
    # one that stood still may find first that its store is taken
    tally.note("and says why", "the turn" in why or engine is not None and "another one has loaded it" in why, why)
    tally.compare("all is there still", third.state(key), "waits")
    tally.compare("SIGTERM ends it", third.ended(signal.SIGTERM), 0)
    for one in (first, second, third):
        one.close()


def loses_its_turn(served, engine):
    """A server stands still for longer than its lease; with SQLite, where there is none, the turn's file is removed."""
    if engine is None:
        os.remove(served.file.replace(".toml", ".sqlite.entangle.turn"))
    else:
        served.process.send_signal(signal.SIGSTOP)


def refused(tally, folder, engine=None):
    """The database refuses a group: an operator sets its requests aside, and the others are served."""
    if engine is not None:
        return
    import sqlite3

    served = Served(copied(folder, "trips"))
    served.is_ready()
    with sqlite3.connect(served.file.replace(".toml", ".sqlite")) as connection:
        connection.execute(
            "CREATE TRIGGER refuses BEFORE INSERT ON Seats WHEN NEW.who = 'Bad' BEGIN SELECT RAISE(ABORT, 'no'); END"
        )
    connection.close()
    bad = served.put("alone", alone("Bad"))[2]
    tally.note("the store fails", until(lambda: served.ask("GET", "/readyz", port=served.inner)[0] == 503, 20))
    tally.compare("nobody is served", served.put("alone", alone("Good"))[0], 503)
    _, told = served.ask("POST", "/operate/survey", {}, port=served.inner)
    tally.note("the operator sees why", told["is_refused"] and "breaks a constraint" in told["fault"], told["fault"])
    status, said = served.ask("POST", "/operate/set-aside", {}, port=served.inner)
    tally.compare("and sets it aside", (status, said), (200, {"requests": [digest_of(bad)]}))
    tally.note(
        "it is told so",
        served.becomes(bad, "ended") and served.look(bad)[0]["how"].startswith("refused by the store"),
        served.look(bad),
    )
    good = secrets.token_hex(16)
    tally.note("others are served", until(lambda: served.put("alone", alone("Good"), good)[0] in (200, 202), 10))
    tally.note("and booked", served.becomes(good, "booked"))
    tally.compare(
        "there is nothing else to set aside",
        served.ask("POST", "/operate/set-aside", {}, port=served.inner)[1]["code"],
        "nothing_refused",
    )
    served.close()


def forgotten(tally, folder, engine=None):
    """What ended is forgotten after some seconds: its answers go, and its key still counts."""
    store = {"postgres": engine.dsn(engine.fresh())} if engine else {"sqlite": "trips.sqlite"}
    head = ", ".join(f"{name} = {json.dumps(value)}" for name, value in {**store, "forget_after": 2}.items())
    served = Served(copied(folder, "trips", head=f"store = {{ {head} }}\n"))
    served.is_ready()
    keys = [
        served.put("alone", alone("Old"))[2],
        served.put("together", pair()[0])[2],
        served.put("together", pair()[0])[2],
    ]
    tally.note("somebody is booked", served.becomes(keys[0], "booked"))
    served.one(keys[1], method="DELETE")
    tally.note("they are forgotten", until(lambda: served.said().count('"forgot"') > 0, 30), served.said()[-500:])
    time.sleep(3)
    number = served.metric("entangle_endings")
    served.ended(signal.SIGTERM)
    served.start()
    served.is_ready()
    found = served.look(*keys)
    tally.compare("how they ended is known", [one["state"] for one in found], ["booked", "ended", "waits"])
    tally.compare("and not what was answered", (found[0]["answers"], found[1]["how"]), ({}, "withdrawn"))
    tally.compare("whoever asks again is told so", served.put("alone", alone("Old"), keys[0])[0], 200)
    tally.compare("and sits once", [row[2] for row in served.rows("Seats")].count("Old"), 1)
    tally.compare("ids of events go on", served.metric("entangle_endings"), number)
    served.close()


def changed(tally, folder, engine=None):
    """The file changes: who waits keeps the stored text; `--check` tells who can't wait any more."""
    served = Served(copied(folder, "trips", head=head_of(engine)))
    served.is_ready()
    first, second = pair()
    key = served.put("together", first)[2]
    served.ended(signal.SIGTERM)
    with open(served.file, encoding="utf-8") as file:
        right = file.read()
    changed_text = right.replace(
        "(@request, fno, seat) IN ANSWER Noted CHOOSE 1", "(@request, fno, seat) IN ANSWER Noted CHOOSE 01"
    )
    with open(served.file, "w", encoding="utf-8") as file:
        file.write(changed_text)
    tally.compare("the check of a file that changed", checks(served.file)[0], 0)
    served.start()
    served.is_ready()
    tally.compare("who waits, waits on, and his key is known", served.put("together", first, key)[:2][0], 200)
    friend = served.put("together", second)[2]
    tally.note(
        "and is booked with one of the new text", served.becomes(friend, "booked") and served.state(key) == "booked"
    )
    lonely = served.put("together", pair()[0])[2]
    served.ended(signal.SIGTERM)
    free = 'Free = { columns = { fno = "INT", seat = "TEXT" }, rows = "seats.csv" }'
    without = right.replace(free, "").replace("Free", "Cabin")
    with open(served.file, "w", encoding="utf-8") as file:
        file.write(without)
    status, said = checks(served.file)
    tally.note(
        "the check tells who can't wait any more",
        status == 1 and "together, can't wait any more: E301" in said,
        (status, said),
    )
    served.start()
    tally.compare("and no server starts over him", served.status(), 1)
    tally.note("which the log says", "can't wait again" in str(served.events()[-1]["error"]), served.events()[-1])
    with open(served.file, "w", encoding="utf-8") as file:
        file.write(right)
    served.start()
    served.is_ready()
    tally.compare("with the old file he waits", served.state(lonely), "waits")
    served.ended(signal.SIGTERM)
    aside = 'store = { unrestored = "set aside"'
    if engine is None:
        without = f'{aside}, sqlite = "trips.sqlite" }}\n{without}'
    with open(served.file, "w", encoding="utf-8") as file:
        file.write(without if engine is None else without.replace("store = {", f"{aside},", 1))
    served.start()
    served.is_ready()
    tally.note("if the file says so he is set aside", served.becomes(lonely, "ended"))
    tally.note("and told why", served.look(lonely)[0]["how"].startswith("not restored"), served.look(lonely))
    served.close()


def told_by_the_command(tally, folder):
    """`--check` tells a fault of the file with its line, and of a script too."""
    for right, wrong, words in (
        ("page = ", "pgae = ", "pgae means nothing"),
        ("INTO ANSWER Back", "INTO ANSWR Back", "E201"),
    ):
        file = copied(folder, "trips", texts={right: wrong})
        with open(file, encoding="utf-8") as source:
            line = source.read().split(wrong)[0].count("\n") + 1
        status, said = checks(file)
        tally.note(f"{words} is told with its line", status == 1 and f"{file}:{line}: " in said and words in said, said)


def checks(file):
    """The status of `--check`, and what it says."""
    words = [sys.executable, "-B", "-m", "entangle.server", file, "--check"]
    ran = subprocess.run(words, capture_output=True, text=True, check=False)
    return ran.returncode, ran.stdout + ran.stderr


def slow_readers(tally, folder):
    """Clients that send nothing, send slowly, and never read; others are served meanwhile."""
    served = Served(
        copied(folder, "trips", head="limits = { rate = 100000, burst = 100000, streams = 200, waiting = 1000 }\n")
    )
    served.is_ready()
    port = int(served.address.rsplit(":", 1)[1])
    held = []
    for _ in range(50):
        held.append(socket.create_connection(("127.0.0.1", port)))
        held[-1].sendall(b"POST /v1/requests/alone HTTP/1.1\r\nHost: x\r\n")
    for _ in range(100):
        held.append(socket.create_connection(("127.0.0.1", port)))
        head = b"POST /v1/events HTTP/1.1\r\nHost: x\r\nContent-Type: application/json\r\nContent-Length: 21\r\n\r\n"
        held[-1].sendall(head + b'{"tables": ["Seats"]}')
    times = []
    for number in range(60):
        begun = time.monotonic()
        tally.compare(
            "served beside slow ones", served.put("alone", alone(f"s{number}"))[0], 202
        ) if number % 20 == 0 else served.put("alone", alone())
        times.append(time.monotonic() - begun)
    times.sort()
    print(f"beside 150 slow clients: median {1000 * times[30]:.0f} ms, worst {1000 * times[-1]:.0f} ms", flush=True)
    wrong = {"Authorization": "Bearer wrong"}
    begun = time.monotonic()
    statuses = {served.ask("GET", "/v1/tables/Flights", headers=wrong)[0] for _ in range(200)}
    tally.compare("a header that nobody asked for counts nothing", statuses, {200})
    for one in held:
        one.close()
    tally.note("streams end with their connections", until(lambda: served.metric("entangle_streams") == 0, 30))
    served.close()


BOTH = (failing_at_first, failing, lagging, port_in_use, taken, stopped, forgotten, changed, stands_by, refused, killed)
