"""Figures: requests a second through HTTP, and how soon a couple is told beside many who wait."""

import os
import re
import resource
import shutil
import socket
import subprocess
import threading
import time

import commands
from serving import Served, until
from spent import seconds_of

CONNECTIONS, SECONDS, CROWD, COUPLES, STREAMS = 64, 10, 10_000, 200, 5_000
MANY = "rate = 1000000, burst = 1000000, rate_in_all = 1000000, waiting = 1000000, waiting_in_all = 1000000"
MANY += ", streams = 1000000, streams_in_all = 1000000"
# Pairs ask one after the other, each request with a key of its own.
SCRIPT = """
math.randomseed(%d)
local n = 0
request = function()
  local pair = math.floor(n / 2)
  local me, friend = string.format("a%%d", pair), string.format("b%%d", pair)
  if n %% 2 == 1 then me, friend = friend, me end
  n = n + 1
  local key = string.format("%%08x%%08x%%08x%%08x", math.random(0, 2147483647), math.random(0, 2147483647), %d, n)
  local body = '{"key": "' .. key .. '", "values": {"me": "' .. me .. '", "friend": "' .. friend .. '"}}'
  return wrk.format("POST", "/v1/requests/lunch", {["Content-Type"] = "application/json"}, body)
end
"""


def served(folder, name):
    """A server of the page's first file, without limits, whose store is on a disk."""
    place = os.path.join(folder, name)
    os.mkdir(place)
    file = os.path.join(place, "lunch.toml")
    with open(file, "w", encoding="utf-8") as target:
        target.write(f"listen = {{ port = 0 }}\noperate = {{ port = 0 }}\nlimits = {{ {MANY} }}\n")
        target.write(
            commands.blocks("toml")[0].replace('read = "anybody"\n\n[requests', "collects = true\n\n[requests")
        )
    server = Served(file)
    server.is_ready()
    return server


def requests(tally, folder):
    """Requests a second, each in the store before it is answered."""
    if not shutil.which("wrk"):
        print("it lacks wrk: that is left out", flush=True)
        return
    server = served(folder, "requests")
    if os.cpu_count() > 1:
        os.sched_setaffinity(server.process.pid, {0})
    script = os.path.join(folder, "put.lua")
    with open(script, "w", encoding="utf-8") as file:
        file.write(SCRIPT % (time.time_ns() % 2**31, os.getpid()))
    spent = seconds_of(server.process)
    words = ["wrk", "-t1", f"-c{CONNECTIONS}", f"-d{SECONDS}", "--latency", "-s", script, server.address]
    said = subprocess.run(words, capture_output=True, text=True, check=True).stdout
    spent = seconds_of(server.process) - spent
    count = int(re.search(r"(\d+) requests in", said).group(1))
    rate = float(re.search(r"Requests/sec: +([\d.]+)", said).group(1))
    slowest = re.search(r"99% +(\S+)", said).group(1)
    print(
        f"{rate:.0f} requests a second, {1000 * spent / count:.2f} ms of the processor each, p99 {slowest}; "
        f"load {os.getloadavg()[0]:.0f}",
        flush=True,
    )
    tally.note("each is answered 202", "Non-2xx" not in said, said)
    waiting = server.metric("entangle_waiting")
    tally.note(
        "all pairs but the last are booked", server.metric("entangle_endings") >= count - waiting - CONNECTIONS, said
    )
    server.close()


def streams(tally, folder):
    """Calls beside streams that never read, clients that send slowly, and wrong tokens."""
    resource.setrlimit(resource.RLIMIT_NOFILE, (min(20_000, resource.getrlimit(resource.RLIMIT_NOFILE)[1]),) * 2)
    server = served(folder, "streams")
    port = int(server.address.rsplit(":", 1)[1])
    body = b'{"tables": []}'
    head = b"POST /v1/events HTTP/1.1\r\nHost: x\r\nContent-Type: application/json\r\nContent-Length: %d\r\n\r\n" % len(
        body
    )
    held = []
    for number in range(STREAMS + 200):
        held.append(socket.create_connection(("127.0.0.1", port)))
        held[-1].sendall(head + body if number < STREAMS else head[:30])
    tally.note(
        "all streams are open",
        until(lambda: server.metric("entangle_streams") == STREAMS, 120),
        server.metric("entangle_streams"),
    )
    is_over = threading.Event()

    def guesses():
        while not is_over.is_set():
            server.ask("GET", "/v1/tables/Places", headers={"Authorization": "Bearer wrong"})

    guessing = threading.Thread(target=guesses)
    guessing.start()
    times = []
    for number in range(COUPLES):
        begun = time.monotonic()
        status = server.put("lunch", {"me": f"x{number}", "friend": f"y{number}"})[0]
        times.append(time.monotonic() - begun)
        if status != 202:
            tally.note("a call beside streams", False, status)
    is_over.set()
    guessing.join()
    times.sort()
    print(
        f"a put beside {STREAMS:,} streams: median {1000 * times[COUPLES // 2]:.0f} ms, "
        f"p99 {1000 * times[COUPLES * 99 // 100]:.0f} ms; load {os.getloadavg()[0]:.0f}",
        flush=True,
    )
    for one in held:
        one.close()
    tally.note("they end with their connections", until(lambda: server.metric("entangle_streams") == 0, 120))
    server.close()


def told(tally, folder):
    """From the second put of a couple until it is told, beside many who wait."""
    server = served(folder, "told")
    threads = [
        threading.Thread(
            target=lambda first=first: [
                server.put("lunch", {"me": f"x{n}", "friend": f"y{n}"}) for n in range(first, CROWD, 8)
            ]
        )
        for first in range(8)
    ]
    for one in threads:
        one.start()
    for one in threads:
        one.join()
    tally.compare("the crowd waits", server.metric("entangle_waiting"), CROWD)
    times = []
    for number in range(COUPLES):
        server.put("lunch", {"me": f"a{number}", "friend": f"b{number}"})
        begun = time.monotonic()
        key = server.put("lunch", {"me": f"b{number}", "friend": f"a{number}"})[2]
        state = server.one(key, wait=20)[1]["state"]
        times.append(time.monotonic() - begun)
        if state != "booked":
            tally.note("a couple is booked", False, state)
    times.sort()
    print(
        f"put to told beside {CROWD:,}: median {1000 * times[COUPLES // 2]:.0f} ms, "
        f"p99 {1000 * times[COUPLES * 99 // 100]:.0f} ms; load {os.getloadavg()[0]:.0f}",
        flush=True,
    )
    server.close()
