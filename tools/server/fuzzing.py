"""Random files, bodies and ids of events: a fault is told, and nothing breaks."""

import json
import os
import random
import secrets

from calls import alone
from serving import Served, copied

PIECES = [
    "{",
    "}",
    "[",
    "]",
    '"',
    "'''",
    '"""',
    "=",
    ".",
    ",",
    "\n",
    "#",
    "\\",
    "\\u0000",
    "\x00",
    "é",
    "[[",
    "]]",
    "0",
    "-1",
    "1e999",
    "true",
    "9" * 30,
    "@",
    "tables",
    "requests",
    "scripts",
    "parameters",
    "kind",
    "\ud7ff",
    "\r",
    "\t",
    "1979-05-27",
]
VALUES = [
    None,
    True,
    False,
    0,
    -1,
    1.5,
    1e308,
    2**63,
    "",
    "a",
    "\x00",
    "\ud800",
    "é" * 200,
    "0" * 32,
    [],
    {},
    [[]],
    {"a": 1},
    "@x",
    "'; DROP TABLE Seats; --",
    [1] * 50,
    {"key": "k"},
]


def mutated(chance, text):
    """A text with some of it taken out, doubled, or replaced."""
    for _ in range(chance.randint(1, 4)):
        start = chance.randrange(len(text) + 1)
        end = min(len(text), start + chance.choice([0, 1, 2, 5, 40]))
        piece = chance.choice([*PIECES, text[start:end] * 2, text[chance.randrange(len(text) + 1) :][:20]])
        text = text[:start] + piece + text[end:]
    return text


def files(tally, folder, server, rounds, seed):
    """Each random file is read, or its faults are told with lines."""
    chance = random.Random(seed)
    file = copied(folder, "trips")
    with open(file, encoding="utf-8") as source:
        right = source.read()
    told = read = 0
    for number in range(rounds):
        text = mutated(chance, right)
        with open(file, "w", encoding="utf-8", errors="surrogatepass", newline="") as target:
            target.write(text)
        try:
            made = server.read_file(file)
            if number % 10 == 0:
                server.try_file(made)
            read += 1
        except server.FileRefused as error:
            told += 1
            lines = text.count("\n") + 1
            if not error.faults or any(
                not 1 <= fault.line <= lines for fault in error.faults if str(fault.file) == file
            ):
                tally.note(f"random file {number} of seed {seed}: {error}", False)
        except Exception as error:  # whatever it is, it is wrong
            kept = os.path.join(os.environ.get("TMPDIR", "/tmp"), f"fuzz{seed}-{number}.toml")
            with open(kept, "w", encoding="utf-8", errors="surrogatepass", newline="") as target:
                target.write(text)
            tally.note(f"random file {number} of seed {seed}, {kept}", False, repr(error))
    tally.note(f"{rounds} random files: {told} refused, {read} read", told > 0 and read > 0)


def _given(chance, deep=0):
    """A random body."""
    kind = chance.random()
    if kind < 0.2 and deep < 3:
        return {
            chance.choice(["key", "values", "until", "keys", "tables", "me", "place", "x"]): _given(chance, deep + 1)
            for _ in range(chance.randint(0, 4))
        }
    if kind < 0.3 and deep < 3:
        return [_given(chance, deep + 1) for _ in range(chance.randint(0, 4))]
    return chance.choice(VALUES)


def bodies(tally, folder, rounds, seed):
    """No random body and no random header makes a 500."""
    chance = random.Random(seed)
    served = Served(copied(folder, "trips", head="limits = { rate = 100000, burst = 100000 }\n"))
    served.is_ready()
    paths = [
        "/v1/requests/alone",
        "/v1/requests/move",
        "/v1/requests/look",
        "/v1/events",
        "/v1/requests/" + "0" * 32,
        "/v1/tables/Seats",
    ]
    statuses = {}
    for number in range(rounds):
        good = {"key": secrets.token_hex(16), "values": alone()}
        given = chance.choice(
            [_given(chance), {**good, chance.choice(["key", "values", "until", "x"]): _given(chance)}]
        )
        body = json.dumps(given).encode()
        if chance.random() < 0.3:
            body = mutated(chance, body.decode()).encode("utf-8", "surrogatepass")
        head = {
            "Last-Event-ID": mutated(chance, "17")
            .encode("utf-8", "ignore")
            .decode("latin-1")
            .replace("\n", "")
            .replace("\r", "")
            .replace("\0", "")
        }
        if chance.random() < 0.7:
            head = {}
        path = chance.choice(paths)
        if path == "/v1/events" and not head and isinstance(given, dict) and set(given) <= {"keys", "tables"}:
            continue  # it would be a stream
        status, _, _ = served.whole(
            chance.choice(["POST", "POST", "POST", "GET", "DELETE"]), path, body, head, seconds=1
        )
        statuses[status] = statuses.get(status, 0) + 1
        if status >= 500:
            tally.note(f"random body {number} of seed {seed}", False, (status, path, body[:200], head))
    faults = [event for event in served.events() if event["event"] == "fault"]
    tally.note(f"{rounds} random bodies: {statuses}", not faults and 400 in statuses, faults[:3])
    tally.compare("it serves on", served.put("alone", alone())[0], 202)
    served.close()
