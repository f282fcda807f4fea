"""A server of a file as a process of its own, and what clients ask of it."""

import contextlib
import hashlib
import http.client
import json
import os
import secrets
import shutil
import subprocess
import sys
import time

HERE = os.path.dirname(os.path.dirname(os.path.dirname(os.path.realpath(__file__))))
EXAMPLES = os.path.join(HERE, "bindings", "python", "examples")
MOST_SECONDS = 60


def digest_of(key):
    """A request as the server names it."""
    return hashlib.sha256(key.encode()).hexdigest()[:32]


def copied(folder, name, **replaced):
    """A copy of an example in a folder; its file, in which texts are replaced, and which is put on free ports."""
    place = os.path.join(folder, f"{name}{secrets.token_hex(4)}")
    shutil.copytree(os.path.join(EXAMPLES, name), place)
    file = os.path.join(place, f"{name}.toml")
    with open(file, encoding="utf-8") as source:
        text = source.read()
    for right, wrong in replaced.get("texts", {}).items():
        assert right in text, right
        text = text.replace(right, wrong)
    head = "listen = { port = 0 }\noperate = { port = 0 }\n"
    with open(file, "w", encoding="utf-8") as target:
        target.write(replaced.get("head", "") + head + text)
    return file


class Served:
    """A server of a file; it can be started again on the same ports."""

    def __init__(self, file, **how):
        self.file, self.log, self.how = file, f"{file}.log", how
        self.is_moved = False
        self.start()

    def start(self):
        words = [sys.executable, "-B", "-m", "entangle.server", self.file, *self.how.get("words", ())]
        with open(self.log, "ab") as log:
            stderr = self.how.get("stderr", log)
            self.process = subprocess.Popen(words, stdout=subprocess.PIPE, stderr=stderr, text=True)
        self.address, self.inner = (self.process.stdout.readline().strip() for _ in range(2))
        if not self.inner:
            raise AssertionError("the server doesn't start:\n" + self.said()[-2000:])
        if not self.is_moved and "words" not in self.how:  # it comes again on the same ports
            self.is_moved = True
            with open(self.file, encoding="utf-8") as file:
                text = file.read()
            for address in (self.address, self.inner):
                text = text.replace("{ port = 0 }", f"{{ port = {address.rsplit(':', 1)[1]} }}", 1)
            with open(self.file, "w", encoding="utf-8") as file:
                file.write(text)

    def said(self):
        with open(self.log, encoding="utf-8") as log:
            return log.read()

    def events(self):
        """The lines of the log, each an object."""
        return [json.loads(line) for line in self.said().splitlines()]

    def is_ready(self, seconds=MOST_SECONDS):
        return until(lambda: self.ask("GET", "/readyz", port=self.inner)[0] == 200, seconds)

    def ended(self, number, seconds=MOST_SECONDS):
        """Sends a signal, and gives the status with which the server ends."""
        self.process.send_signal(number)
        return self.status(seconds)

    def status(self, seconds=MOST_SECONDS):
        with contextlib.suppress(subprocess.TimeoutExpired):
            return self.process.wait(seconds)

    def close(self):
        if self.process.poll() is None:
            self.process.kill()
        self.process.wait()
        self.process.stdout.close()

    # ---- calls

    def whole(self, method, path, body=None, headers=None, port=None, seconds=MOST_SECONDS):
        """The status, the headers and the body of an answer; 0 if there is none."""
        host = (port or self.address).removeprefix("http://")
        connection = http.client.HTTPConnection(host, timeout=seconds)
        try:
            given = body if body is None or isinstance(body, bytes) else json.dumps(body).encode()
            head = {} if body is None else {"Content-Type": "application/json"}
            connection.request(method, path, given, {**head, **(headers or {})})
            answer = connection.getresponse()
            return answer.status, answer.headers, answer.read()
        except (OSError, http.client.HTTPException):
            return 0, {}, b""
        finally:
            connection.close()

    def ask(self, method, path, body=None, headers=None, port=None, seconds=MOST_SECONDS):
        """The status of an answer and what it says, in JSON if it is that."""
        status, head, said = self.whole(method, path, body, headers, port, seconds)
        kind = head.get("Content-Type", "") if head else ""
        return status, json.loads(said) if "json" in kind else said

    def put(self, name, values, key=None, headers=None, **more):
        """Makes a request; the status, what is said, and the key."""
        key = key or secrets.token_hex(16)
        body = {"key": key, "values": values, **more}
        return (*self.ask("POST", f"/v1/requests/{name}", body, headers), key)

    def look(self, *keys, headers=None):
        status, said = self.ask("POST", "/v1/requests/look", {"keys": list(keys)}, headers)
        return said["requests"] if status == 200 else status

    def one(self, key, wait=0, method="GET", headers=None):
        """What a call says of one request."""
        path = f"/v1/requests/{digest_of(key)}" + (f"?wait={wait}" if wait else "")
        return self.ask(method, path, headers={"Entangle-Key": key, **(headers or {})})

    def state(self, key, headers=None):
        seen = self.look(key, headers=headers)
        return seen[0]["state"] if isinstance(seen, list) else None

    def becomes(self, key, state, seconds=MOST_SECONDS):
        """Whether a request comes to stand like this in good time."""
        return until(lambda: self.state(key) == state, seconds)

    def rows(self, name):
        status, said = self.ask("GET", f"/v1/tables/{name}")
        return [tuple(row) for row in said["rows"]] if status == 200 else status

    def metric(self, name):
        _, text = self.ask("GET", "/metrics", port=self.inner)
        return next(float(line.rsplit(" ", 1)[1]) for line in text.decode().split("\n") if line.startswith(name + " "))

    def refusal(self, headers=None):
        """The code of the problem for which a stream isn't opened; None if it is."""
        connection = http.client.HTTPConnection(self.address.removeprefix("http://"), timeout=MOST_SECONDS)
        try:
            connection.request("POST", "/v1/events", b"{}", {"Content-Type": "application/json", **(headers or {})})
            answer = connection.getresponse()
            return None if answer.status == 200 else json.loads(answer.read())["code"]
        finally:
            connection.close()

    @contextlib.contextmanager
    def stream(self, keys=(), tables=(), headers=None):
        """The events that a client hears, each with its id, its kind and its data."""
        connection = http.client.HTTPConnection(self.address.removeprefix("http://"), timeout=MOST_SECONDS)
        try:
            body = json.dumps({"keys": list(keys), "tables": list(tables)})
            connection.request("POST", "/v1/events", body, {"Content-Type": "application/json", **(headers or {})})
            answer = connection.getresponse()
            yield events_of(answer)
        finally:
            connection.close()


def events_of(answer):
    """The events of a stream."""
    event = {}
    for line in iter(answer.readline, b""):
        name, _, said = line.decode().rstrip("\n").partition(": ")
        if line == b"\n" and "data" in event:
            yield int(event["id"]), event["event"], json.loads(event["data"])
            event = {}
        elif name:
            event[name] = said


def until(holds, seconds=MOST_SECONDS, pause=0.05):
    """Whether something comes to hold in good time."""
    end = time.monotonic() + seconds
    while time.monotonic() < end:
        if holds():
            return True
        time.sleep(pause)
    return False
