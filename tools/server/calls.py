"""What the calls of a server do, tried over the file of the trips."""

import json
import os
import re
import secrets
import signal
import socket
import time

import serving
from serving import Served, copied, digest_of, until

TOKENS = """
[[tokens]]
sha256 = "{ann}"
subject = "ann"
may = ["ask"]

[[tokens]]
sha256 = "{bob}"
subject = "bob"
may = ["ask", "read"]

[[tokens]]
sha256 = "{eve}"
subject = "eve"
may = ["operate"]
"""


def pair(place="LA"):
    """Values of two who fly together."""
    me, friend = secrets.token_hex(4), secrets.token_hex(4)
    return [{"me": a, "friend": b, "place": place} for a, b in ((me, friend), (friend, me))]


def alone(me="Zoe", place="LA"):
    return {"me": me, "place": place}


def basics(tally, served):
    """Put, look, GET with wait, DELETE, tables."""
    first, second = pair()
    status, said, key = served.put("together", first)
    tally.compare("the first time 202", (status, said["state"], said["request"]), (202, "waits", digest_of(key)))
    again = served.put("together", first, key)[:2]
    tally.compare("afterwards 200 with its state", (again[0], again[1]["state"]), (200, "waits"))
    other = served.put("together", second, key)[:2]
    tally.compare("other values under the key 409", (other[0], other[1]["code"]), (409, "other_values"))
    other = served.put("alone", alone(), key)[:2]
    tally.compare("another request under the key 409", (other[0], other[1]["code"]), (409, "other_values"))
    why = f"nobody who waits may offer its demand 0, ('{second['me']}', '{first['me']}', 'LA', _, _)"
    tally.note("it is said why it waits", until(lambda: why in served.look(key)[0]["why"]), served.look(key))
    strangers = secrets.token_hex(16)
    tally.compare("a key that nobody has", served.look(strangers), [{"state": "unknown"}])
    tally.compare(
        "GET with another key 404",
        served.ask("GET", f"/v1/requests/{digest_of(key)}", headers={"Entangle-Key": strangers})[1]["code"],
        "not_found",
    )
    tally.compare("GET without a key 404", served.ask("GET", f"/v1/requests/{digest_of(key)}")[0], 404)
    begun = time.monotonic()
    status, said = served.one(key, wait=1)
    tally.note(
        "GET waits", status == 200 and said["state"] == "waits" and time.monotonic() - begun >= 1, (status, said)
    )
    tally.compare("and no longer than may be", [served.one(key, wait=n)[0] for n in (31, 999, "x", -1)], [400] * 4)
    booked(tally, served, key, second)


def why(tally, served):
    """Why a request waits is said anew once its partner is there."""
    first, second = pair("Nowhere")
    keys = [served.put("together", first)[2]]
    tally.note("nobody is there", until(lambda: "demand 0" in served.look(keys[0])[0]["why"]), served.look(keys[0]))
    with served.stream(keys) as events:
        tally.note("streams say so", "demand 0" in next(events)[2][0]["why"])
        keys.append(served.put("together", second)[2])
        is_told = until(lambda: "demand 0" not in served.look(keys[0])[0]["why"], 20)
        tally.note("until somebody comes", is_told, served.look(keys[0]))
    for key in keys:
        tally.compare("both go", served.one(key, method="DELETE")[0], 200)


def booked(tally, served, key, second):
    """The second comes, both are booked, and nothing changes any more."""
    _, _, friends = served.put("together", second)
    status, said = served.one(key, wait=20)
    tally.compare(
        "both are booked, which GET tells", (status, said["state"], said["answers"]["flight"]), (200, "booked", 122)
    )
    seats = sorted(one["answers"]["seat"] for one in served.look(key, friends))
    rows = {row[3]: row for row in served.rows("Seats")}
    tally.compare("on two seats", seats, sorted(rows[digest_of(one)][1] for one in (key, friends)))
    status, said = served.one(key, method="DELETE")
    tally.compare(
        "what has ended isn't withdrawn", (status, said["code"], said["stands"]["state"]), (409, "is_over", "booked")
    )
    _, _, lonely = served.put("together", pair()[0])
    status, said = served.one(lonely, method="DELETE")
    tally.compare("who waits is withdrawn", (status, said["state"], said["how"]), (200, "ended", "withdrawn"))
    tally.compare("once", served.one(lonely, method="DELETE")[0], 409)
    status, said = served.put("together", pair()[0], lonely)[:2]
    tally.compare("and not put again under its key", (status, said["code"]), (409, "other_values"))
    tally.compare("DELETE of nobody's 404", served.one(secrets.token_hex(16), method="DELETE")[0], 404)
    seat = next(one["answers"] for one in served.look(key))
    back = served.put("give_back", {"trip": key})[2]
    tally.note("a key of an earlier request gives its digest", served.becomes(back, "booked"))
    tally.compare("which gave back that seat", served.look(back)[0]["answers"], seat)


def counted(tally, served):
    """What Prometheus is told: histograms, and how many of how many."""
    for name in ("put_to_told_seconds", "step_seconds", "transaction_seconds"):
        counts = served.metric(f'entangle_{name}_bucket{{le="+Inf"}}'), served.metric(f"entangle_{name}_count")
        tally.note(f"a histogram of {name}", counts[0] == counts[1] > 0, counts)
    for name in ("groups_total", "puts_total", "rows", "most_rows", 'endings_total{ending="booked"}'):
        tally.note(f"{name} is counted", served.metric(f"entangle_{name}") > 0)
    call = 'answers_total{call="POST /v1/requests/{name}",status="202"}'
    tally.compare(
        "answers are counted by call and status",
        served.metric(f"entangle_{call}"),
        served.metric("entangle_puts_total"),
    )
    status, _, said = served.whole("GET", "/metrics", port=served.inner)
    form = re.compile(r"(# (HELP|TYPE) entangle_.*|entangle_\w+(\{.*\})? -?[0-9.e+-]+|)")
    wrong = [line for line in said.decode().split("\n") if not form.fullmatch(line)]
    tally.compare("the text has the form", (status, wrong), (200, []))


def trades(tally, served):
    """Two want one seat; who has moved can't move from the old seat; whoever gives back a seat can't trade it."""
    people = {me: served.put("alone", alone(me, "Paris"))[2] for me in ("Kim", "Lou", "Max")}
    for key in people.values():
        served.becomes(key, "booked")
    first = {me: served.look(key)[0]["answers"]["seat"] for me, key in people.items()}
    kim, lou, max_ = (first[me] for me in ("Kim", "Lou", "Max"))

    def wants(me, own, seat):
        values = {"trip": people[me], "me": me, "fno": 136, "own": own, "seat": seat}
        status, _, key = served.put("move", values)
        tally.compare(f"{me} may want {seat}", status, 202)
        return key

    def sits():
        rows = {row[3]: row[1] for row in served.rows("Seats")}
        return [rows.get(digest_of(key)) for key in people.values()]

    kims, maxs, stale = wants("Kim", kim, lou), wants("Max", max_, lou), wants("Kim", kim, max_)
    wants("Lou", lou, kim)
    tally.note("of two who want a seat one has it", served.becomes(kims, "booked"), served.look(kims))
    tally.compare("and the two trade", sits(), [lou, kim, max_])
    tally.compare("the others wait", [served.state(maxs), served.state(stale)], ["waits", "waits"])
    wants("Kim", lou, max_)
    tally.note("until one wants his", served.becomes(maxs, "booked"), served.look(maxs))
    tally.compare("and they trade", sits(), [max_, kim, lou])
    gone = wants("Lou", kim, lou)
    back = served.put("give_back", {"trip": people["Lou"]})[2]
    tally.note("a seat is given back", served.becomes(back, "booked"))
    wants("Max", lou, kim)
    time.sleep(1)
    tally.compare("nobody trades with who has left", (sits(), served.state(gone)), ([max_, None, lou], "waits"))


def timeouts(tally, served):
    now = int(time.time())
    for named, more in (
        ("at least", now - 100),
        ("at most", now + 90_000),
        ("a number", "soon"),
        ("whole", 1.5),
        ("true", True),
    ):
        status, said, _ = served.put("together", pair()[0], until=more)
        tally.compare(f"until is checked: {named}", (status, said["code"]), (400, "until_wrong"))
    _, said, key = served.put("together", pair()[0], until=now + 3)
    tally.compare("until is kept", said["until"], now + 3)
    tally.note("whose time is over is withdrawn", served.becomes(key, "ended", 15))
    tally.compare("and told so", served.look(key)[0]["how"], "withdrawn")
    _, said, _ = served.put("together", pair()[0])
    tally.note("by default it is an hour", 3590 <= said["until"] - now <= 3700, said)


def bad(tally, served):
    """Each kind of bad request has its status and its code, and nothing of it is in the store."""
    good, key = alone("Bad"), secrets.token_hex(16)
    whole = {"key": key, "values": good}
    before = served.metric("entangle_endings"), served.metric("entangle_waiting")
    cases = [
        (400, "not_json", b"{"),
        (400, "not_json", b"[]"),
        (400, "not_json", b"\xff"),
        (400, "not_json", b"[" * 4000),
        (400, "not_json", b"1" * 4000),
        (400, "key_missing", {}),
        (400, "not_a_field", {**whole, "more": 1}),
        (400, "key_missing", {**whole, "key": "1"}),
        (400, "key_missing", {**whole, "key": "G" * 32}),
        (400, "key_missing", {**whole, "key": None}),
        (400, "key_missing", {"values": good}),
        (400, "value_missing", {"key": key}),
        (400, "value_missing", {"key": key, "values": []}),
        (400, "value_missing", {"key": key, "values": {"me": "x"}}),
        (400, "value_wrong", {"key": key, "values": alone("")}),
        (400, "value_wrong", {"key": key, "values": alone("a" * 41)}),
        (400, "value_wrong", {"key": key, "values": alone("a\nb")}),
        (400, "value_wrong", {"key": key, "values": alone(7)}),
        (400, "value_wrong", {"key": key, "values": alone("\ud800")}),
        (400, "value_wrong", {"key": key, "values": alone(None)}),
        (400, "not_a_field", {"key": key, "values": {**good, "x": 1}}),
        (400, "value_wrong", {"key": key, "values": alone("x", ["LA"])}),
        (413, "body_long", b" " * 5000),
    ]
    for number, (status, code, given) in enumerate(cases):
        answer, said = served.ask("POST", "/v1/requests/alone", given)
        tally.compare(f"bad request {number}", (answer, said["code"]), (status, code))
    for number in (1.5, True, "3", 2**63, -(2**63)):
        values = {"trip": key, "me": "x", "fno": number, "own": "1A", "seat": "1B"}
        tally.compare(f"{number!r} is no number", served.put("move", values)[1]["code"], "value_wrong")
    status, said = served.ask("POST", "/v1/requests/alone", json.dumps(whole).encode(), {"Content-Type": "text/plain"})
    tally.compare("another type", (status, said["code"]), (415, "not_of_json"))
    for path, method, wanted in (
        ("/nothing", "GET", 404),
        ("/v1/requests/none", "POST", 404),
        ("/v1/events", "GET", 405),
        ("/v1/tables/Free", "GET", 404),
        ("/v1/tables/Nothing", "GET", 404),
        ("/metrics", "GET", 404),
    ):
        answer, said = served.ask(method, path, whole if method == "POST" else None)
        tally.compare(f"{method} {path}", (answer, said["status"]), (wanted, wanted))
    keys = [secrets.token_hex(16) for _ in range(21)]
    tally.compare("too many keys", served.ask("POST", "/v1/requests/look", {"keys": keys})[0], 400)
    status, head, said = served.whole("POST", "/v1/requests/alone", whole, {"Origin": "http://evil.example"})
    tally.compare("another origin", (status, json.loads(said)["code"]), (403, "other_origin"))
    tally.compare("a problem has the type of problems", head["Content-Type"], "application/problem+json")
    told = [event for event in served.events() if event.get("id") == json.loads(said)["request_id"]]
    tally.note("its id is in the log and in a header", told and head["X-Request-Id"] == told[0]["id"], told)
    after = served.metric("entangle_endings"), served.metric("entangle_waiting")
    tally.compare("nothing of it is in the store", after, before)


def streams(tally, served):
    """Events tell what changes; their ids go on over a kill, and no key is in a URL."""
    first, second = pair()
    key = served.put("together", first)[2]
    with served.stream([key], ["Seats"]) as events:
        number, kind, said = next(events)
        tally.compare("a stream begins with what stands", (kind, said[0]["state"]), ("requests", "waits"))
        served.put("together", second)
        heard = [next(events), next(events)]
        if not any(kind == "requests" and said[0]["state"] == "booked" for _, kind, said in heard):
            heard.append(next(events))
        kinds = {kind for _, kind, _ in heard}
        tally.note("it tells requests and tables", kinds == {"requests", "tables"}, heard)
        last = max(one for one, _, _ in heard)
        tally.note("ids go up by the endings", last >= number + 4, (number, last))
    tally.compare("it is the store's number", served.metric("entangle_endings"), last)
    tally.compare("signal 9 ends it", served.ended(signal.SIGKILL), -signal.SIGKILL)
    served.start()
    served.is_ready()
    with served.stream([key]) as events:
        tally.compare("the next process goes on from it", next(events)[0], last)
    served.look(key)
    third, fourth = pair()
    key = served.put("together", third)[2]
    served.put("together", fourth)
    served.becomes(key, "booked")
    with served.stream([key]) as events:
        number, _, said = next(events)
        tally.compare("who comes for the first time is told all", len(said), 1)
    with served.stream([key], headers={"Last-Event-ID": str(number)}) as events:
        tally.compare("who has seen an event isn't told before it", next(events)[2], [])
    for wrong in ("x", "-1", "1.5", "9" * 19, ""):
        with served.stream([key], headers={"Last-Event-ID": wrong}) as events:
            tally.compare(f"an event id {wrong!r}", next(events, None), None)
    status, _, _ = served.whole("POST", "/v1/events", {"tables": ["Free"]})
    tally.compare("nobody follows a table that nobody may read", status, 404)


def tables(tally, served):
    status, head, said = served.whole("GET", "/v1/tables/Flights")
    rows = json.loads(said)
    tally.compare("a table", (status, rows["columns"], len(rows["rows"])), (200, ["fno", "dest"], 3))
    again = served.whole("GET", "/v1/tables/Flights", headers={"If-None-Match": head["ETag"]})
    tally.compare("that hasn't changed", (again[0], again[2]), (304, b""))
    status, head, _ = served.whole("GET", "/v1/tables/Seats")
    key = served.put("alone", alone("Tab"))[2]
    served.becomes(key, "booked")
    again = served.whole("GET", "/v1/tables/Seats", headers={"If-None-Match": head["ETag"]})
    tally.compare("that has", (again[0], again[1]["ETag"] != head["ETag"]), (200, True))


def origins(tally, folder):
    served = Served(copied(folder, "trips", head='origins = ["https://trips.example"]\n'))
    served.is_ready()
    whole = {"key": secrets.token_hex(16), "values": alone()}
    status, head, _ = served.whole("POST", "/v1/requests/alone", whole, {"Origin": "https://trips.example"})
    tally.compare(
        "a page of a named origin may ask",
        (status, head["Access-Control-Allow-Origin"]),
        (202, "https://trips.example"),
    )
    status, head, _ = served.whole("OPTIONS", "/v1/requests/alone", headers={"Origin": "https://trips.example"})
    tally.note(
        "after its browser has asked", status == 204 and "POST" in head["Access-Control-Allow-Methods"], (status, head)
    )
    status, head, _ = served.whole("GET", "/v1/tables/Seats", headers={"Origin": "https://evil.example"})
    tally.compare("others can't read", head["Access-Control-Allow-Origin"], None)
    tally.compare("nor ask", served.ask("POST", "/v1/requests/alone", whole, {"Origin": served.address})[0], 403)
    served.close()


def limits(tally, folder):
    """Where four requests may wait, two of a client, ten calls a second, and two streams; behind a trusted proxy."""
    head = 'trusted_proxies = ["127.0.0.0/8"]\n'
    head += "limits = { waiting_in_all = 4, waiting = 2, rate = 10, burst = 20, streams = 1, streams_in_all = 2"
    head += ", body_seconds = 1 }\n"
    served = Served(copied(folder, "trips", head=head))
    served.is_ready()

    def by(number):
        return {"X-Forwarded-For": f"1.2.3.4, 10.0.0.{number}"}

    statuses = [served.put("together", pair()[0], headers=by(1))[0] for _ in range(3)]
    tally.compare("a client has as many who wait as may", statuses, [202, 202, 429])
    keys = [served.put("together", pair()[0], headers=by(number))[2] for number in (2, 3)]
    status, head, said = served.whole("POST", "/v1/requests/together", {"key": "a" * 32, "values": pair()[0]}, by(4))
    tally.compare("and all have", (status, json.loads(said)["code"], head["Retry-After"]), (429, "many_wait", "10"))
    tally.compare("but who is there already is told", [served.state(key, by(5)) for key in keys], ["waits"] * 2)
    tally.compare("and who gives back is served", served.put("give_back", {"trip": keys[0]}, headers=by(6))[0], 202)
    statuses = [served.ask("GET", "/v1/tables/Seats", headers=by(7))[0] for _ in range(40)]
    tally.note("so many calls a second", 20 <= statuses.count(200) < 40 and set(statuses) == {200, 429}, statuses)
    tally.compare("others have their own", served.ask("GET", "/v1/tables/Seats", headers=by(8))[0], 200)
    with served.stream(headers=by(9)) as one, served.stream(headers=by(10)) as two:
        next(one), next(two)
        tally.compare("a client has as many streams as may be", served.refusal(by(9)), "many_streams")
        tally.compare("and all have", served.refusal(by(11)), "many_streams")
    tally.note("streams that are closed don't count", until(lambda: served.metric("entangle_streams") == 0, 25))
    tally.compare("a body that doesn't come", starts_slowly(served), 408)
    served.close()


def starts_slowly(served):
    """The status with which a request is answered whose body doesn't come."""
    head = (
        b"POST /v1/requests/alone HTTP/1.1\r\nHost: x\r\nContent-Type: application/json\r\nContent-Length: 100\r\n\r\n{"
    )
    port = int(served.address.rsplit(":", 1)[1])
    with socket.create_connection(("127.0.0.1", port), 30) as connection:
        connection.sendall(head)
        return int(connection.recv(1000).split()[1])


def untrusted(tally, folder):
    served = Served(copied(folder, "trips", head="limits = { rate = 1, burst = 5 }\n"))
    served.is_ready()
    statuses = [served.ask("GET", "/v1/tables/Seats", headers={"X-Forwarded-For": f"10.0.0.{n}"})[0] for n in range(20)]
    tally.note("nobody else is believed where he comes from", statuses.count(429) >= 10, statuses)
    served.close()


def tokens(tally, folder):
    """Requests belong to the subject of a token; the file of tokens is read again at SIGHUP."""
    made = {name: secrets.token_hex(32) for name in ("ann", "bob", "eve", "new")}
    import hashlib

    digests = {name: hashlib.sha256(token.encode()).hexdigest() for name, token in made.items()}
    texts = {
        'me = { kind = "TEXT", length = 40, pattern = ".+" }, place': 'me = { from = "subject" }, place',
        'read = "anybody", rows = [': 'read = "token", rows = [',
    }
    file = copied(folder, "trips", head='tokens = "tokens.toml"\nlimits = { waiting = 1 }\n', texts=texts)
    path = os.path.join(os.path.dirname(file), "tokens.toml")
    with open(path, "w", encoding="utf-8") as target:
        target.write(TOKENS.format(**digests))
    os.chmod(path, 0o644)
    try:
        Served(file).close()
        tally.note("a file of tokens that others may read is refused", False)
    except AssertionError as error:
        tally.note("a file of tokens that others may read is refused", "chmod 600" in str(error), error)
    os.chmod(path, 0o600)
    served = Served(file)
    served.is_ready()
    by = {name: {"Authorization": f"Bearer {token}"} for name, token in made.items()}
    tally.compare("without a token", served.put("alone", {"place": "LA"})[0], 401)
    tally.compare(
        "with a wrong one", served.put("alone", {"place": "LA"}, headers={"Authorization": "Bearer x"})[0], 401
    )
    tally.compare(
        "without the right", served.put("alone", {"place": "LA"}, headers=by["eve"])[1]["code"], "not_allowed"
    )
    status, _, key = served.put("alone", {"place": "LA"}, headers=by["ann"])
    tally.compare("with it", status, 202)
    tally.note("she is booked", until(lambda: served.state(key, by["ann"]) == "booked"))
    tally.compare("under the token's name", [row[2] for row in served.rows("Seats")], ["ann"])
    tally.compare(
        "nobody says another one", served.put("alone", alone("bob"), headers=by["ann"])[1]["code"], "not_a_field"
    )
    waits = served.put("together", pair()[0], headers=by["ann"])[2]
    tally.compare("the key alone doesn't do", served.one(waits, headers={**by["eve"]})[0], 403)
    tally.compare("who may read sees it", served.one(waits, headers=by["bob"])[0], 200)
    tally.compare("and can't withdraw it", served.one(waits, method="DELETE", headers=by["bob"])[0], 404)
    tally.compare(
        "nor make it his", served.put("together", pair()[0], waits, headers=by["bob"])[1]["code"], "other_values"
    )
    tally.compare(
        "a table for who may read",
        [served.ask("GET", "/v1/tables/Flights", headers=by[one])[0] for one in ("ann", "bob")],
        [403, 200],
    )
    tally.compare(
        "operators have a right",
        [served.ask("POST", "/operate/survey", {}, by[one], served.inner)[0] for one in ("bob", "eve")],
        [403, 200],
    )
    with open(path, "w", encoding="utf-8") as target:
        target.write(TOKENS.format(**{**digests, "bob": digests["new"]}))
    served.process.send_signal(signal.SIGHUP)
    tally.note(
        "a new token at SIGHUP", until(lambda: served.put("alone", {"place": "LA"}, headers=by["new"])[0] in (200, 202))
    )
    tally.compare("the old one is none any more", served.put("alone", {"place": "LA"}, headers=by["bob"])[0], 401)
    with open(path, "w", encoding="utf-8") as target:
        target.write("[[tokens]]\nx = 1\n")
    served.process.send_signal(signal.SIGHUP)
    tally.note("a faulty file is told", until(lambda: "tokens aren't read again" in served.said()))
    tally.compare("and changes nothing", served.put("alone", {"place": "LA"}, headers=by["new"])[0], 202)
    with open(path, "w", encoding="utf-8") as target:
        target.write(TOKENS.format(**digests))
    tally.compare("she has as many who wait as she may", served.put("together", pair()[0], headers=by["ann"])[0], 429)
    served.ended(signal.SIGKILL)
    served.start()
    served.is_ready()
    tally.compare("also after a restart", served.put("together", pair()[0], headers=by["ann"])[1]["code"], "many_wait")
    tally.compare("she withdraws her own", served.one(waits, method="DELETE", headers=by["ann"])[0], 200)
    with open(served.file.replace(".toml", ".sqlite"), "rb") as store:
        tally.note(
            "no token is in store or log",
            not any(token in served.said() or token.encode() in store.read() for token in made.values()),
        )
    served.close()


def logs(tally, folder):
    """The log has no key; one that nobody reads, or that is closed, ends nothing."""
    served = Served(copied(folder, "trips"))
    served.is_ready()
    key = served.put("alone", alone())[2]
    served.becomes(key, "booked")
    with served.stream([key]) as events:
        next(events)
    kinds = {event["event"] for event in served.events()}
    tally.note("the log is lines of JSON", {"opened", "answer"} <= kinds, kinds)
    store = served.file.replace(".toml", ".sqlite")
    said = served.said().encode() + b"".join(open(store + end, "rb").read() for end in ("", "-wal"))
    tally.note("no key is in the log or the store", key.encode() not in said and digest_of(key).encode() in said)
    served.close()
    reading, writing = os.pipe()
    served = Served(copied(folder, "trips"), stderr=writing)
    os.close(writing)
    served.is_ready()
    statuses = {served.ask("GET", "/v1/tables/Seats")[0] for _ in range(90)}
    for _ in range(8):
        time.sleep(1)
        statuses |= {served.ask("GET", "/v1/tables/Seats")[0] for _ in range(60)}
    tally.compare("a log that nobody reads ends nothing", statuses, {200})
    os.close(reading)
    tally.compare("nor one that is closed", served.put("alone", alone())[0], 202)
    tally.note(
        "the lines that are lost are counted", until(lambda: served.metric("entangle_log_lines_dropped") > 0, 20)
    )
    tally.compare("SIGTERM ends it", served.ended(signal.SIGTERM), 0)
    served.close()


CALLS = (basics, why, counted, trades, timeouts, bad, streams, tables)
SERVERS = (origins, limits, untrusted, tokens, logs)
__all__ = ["CALLS", "SERVERS", "serving"]
