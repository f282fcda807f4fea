#!/usr/bin/env python3
"""Starts a fleet on this machine, and starts again what ends, until it is ended itself.

    fleet.py [FILE] [--fronts N] [--port PORT] [--operate-port PORT]

For each room of FILE (fleet.toml beside this script) it starts two processes, of which one has the room and the other
stands by; and N fronts (2), from PORT (8000) on. The ports for operators begin at 8100: those of the fronts first, then
two for each room. It says in a line what it starts, with the number of the process, and what has ended. SIGTERM or
SIGINT ends all.
"""

import argparse
import signal
import subprocess
import sys
import time
from pathlib import Path

from entangle.server import read_file

HERE = Path(__file__).resolve().parent
LEAST_PAUSE, MOST_PAUSE, SOUND_SECONDS, END_SECONDS = 0.1, 5.0, 10.0, 15.0


class Member:
    """A process of the fleet, which is started again when it ends: at once, and later each time if it ends soon."""

    def __init__(self, name, words):
        self.name, self.words = name, words
        self.process, self.pause, self.since, self.next = None, LEAST_PAUSE, 0.0, 0.0

    def watch(self):
        """Starts it if it doesn't run."""
        if self.process is not None and self.process.poll() is not None:
            print(f"ended {self.name} {self.process.pid}: status {self.process.returncode}", flush=True)
            was_sound = time.monotonic() > self.since + SOUND_SECONDS
            self.pause = LEAST_PAUSE if was_sound else min(2 * self.pause, MOST_PAUSE)
            self.process, self.next = None, time.monotonic() + self.pause
        if self.process is None and time.monotonic() >= self.next:
            command = [sys.executable, "-B", "-m", "entangle.server", *self.words]
            self.process = subprocess.Popen(command, stdin=subprocess.DEVNULL, stdout=subprocess.DEVNULL)
            self.since = time.monotonic()
            print(f"started {self.name} {self.process.pid}", flush=True)

    def end(self):
        if self.process is not None:
            self.process.terminate()

    def wait(self, until):
        """Waits for its end, and has none after that point in time."""
        if self.process is not None:
            try:
                self.process.wait(max(0.1, until - time.monotonic()))
            except subprocess.TimeoutExpired:
                self.process.kill()
                self.process.wait()


def members(file, options):
    """The processes of a fleet."""
    operate = iter(range(options.operate_port, options.operate_port + 1000))
    found = []
    for number in range(options.fronts):
        port = options.port + number
        ports = ["--port", str(port), "--operate-port", str(next(operate))]
        found.append(Member(f"front http://127.0.0.1:{port}", [str(file), "--front", *ports]))
    for room in read_file(file).rooms:
        for _ in range(2):
            found.append(Member(f"room {room}", [str(file), "--room", room, "--operate-port", str(next(operate))]))
    return found


def main():
    parser = argparse.ArgumentParser(description=__doc__, formatter_class=argparse.RawDescriptionHelpFormatter)
    parser.add_argument("file", nargs="?", type=Path, default=HERE / "fleet.toml")
    parser.add_argument("--fronts", type=int, default=2)
    parser.add_argument("--port", type=int, default=8000)
    parser.add_argument("--operate-port", type=int, default=8100)
    options = parser.parse_args()
    ends = []
    for number in (signal.SIGTERM, signal.SIGINT):
        signal.signal(number, lambda *_: ends.append(True))
    fleet = members(options.file, options)
    while not ends:
        for one in fleet:
            one.watch()
        time.sleep(0.05)
    for one in fleet:
        one.end()
    until = time.monotonic() + END_SECONDS
    for one in fleet:
        one.wait(until)


if __name__ == "__main__":
    main()
