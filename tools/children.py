"""The processes that a tool starts: they end with it.

A tool that is told to stop, by Ctrl-C or by SIGTERM, ends all that it has started, removes its folders, and says so in
one line.
"""

import contextlib
import ctypes
import os
import shutil
import signal
import subprocess
import sys
import tempfile
import time

STOPPING = (signal.SIGINT, signal.SIGTERM, signal.SIGHUP)
MOST_SECONDS = 60  # that a process has to end in, once it is told to
SUBREAPER = 36  # a process that loses its parent becomes a child of one that is this (prctl of Linux)


class Stopped(Exception):
    """The tool was told to stop."""


class Children:
    """The processes that haven't ended, each of which is the first of its own group."""

    def __init__(self):
        self.running, self.told, self.deadline = set(), None, None
        self.adopts = False  # whether what loses its parent becomes a child of this process

    def tell(self, number, _frame):
        """Notes that the tool was told to stop, by the signal of this number, and tells its children."""
        if self.told is None:
            self.told, self.deadline = number, time.monotonic() + MOST_SECONDS
        self.signal(signal.SIGTERM)

    def signal(self, number):
        for process in list(self.running):
            with contextlib.suppress(ProcessLookupError):
                os.killpg(process.pid, number)

    def check(self):
        """Stops the tool here, if it was told to."""
        if self.told is not None:
            raise Stopped

    @contextlib.contextmanager
    def started(self, words, **how):
        """A process, which has ended at the end of this, and its group with it."""
        self.check()
        with subprocess.Popen(words, start_new_session=True, **how) as process:
            self.running.add(process)
            if self.told is not None:
                self.signal(signal.SIGTERM)
            try:
                yield process
            except BaseException:
                self.end(process)
                raise
            finally:
                self.wait(process)
                self.running.discard(process)
                with contextlib.suppress(ProcessLookupError):
                    os.killpg(process.pid, signal.SIGKILL)
                if self.adopts and not self.running:
                    end_orphans()
        self.check()

    def end(self, process):
        """Tells one process to end."""
        self.deadline = self.deadline or time.monotonic() + MOST_SECONDS
        with contextlib.suppress(ProcessLookupError):
            os.killpg(process.pid, signal.SIGTERM)

    def wait(self, process):
        """Waits until a process ends; one that was told to, and doesn't, is killed."""
        while process.poll() is None:
            with contextlib.suppress(subprocess.TimeoutExpired):
                process.wait(1)
            if self.deadline is not None and time.monotonic() > self.deadline:
                self.signal(signal.SIGKILL)


def parent_of(number):
    """The parent of a process; nothing, if the process isn't there any more."""
    with contextlib.suppress(OSError):
        with open(f"/proc/{number}/stat", "rb") as stat:
            return int(stat.read().rpartition(b")")[2].split()[1])
    return None


def end_orphans():
    """Kills what children left behind when they ended, and what that has started in turn."""
    here = os.getpid()
    while left := [int(it) for it in os.listdir("/proc") if it.isdigit() and parent_of(it) == here]:
        for number in left:
            with contextlib.suppress(ProcessLookupError, ChildProcessError):
                os.kill(number, signal.SIGKILL)
                os.waitpid(number, 0)


CHILDREN = Children()


def run(words, **how):
    """Runs a command to its end, with its input and output in files, and returns its status."""
    with CHILDREN.started(words, **{"stdin": subprocess.DEVNULL, **how}) as process:
        CHILDREN.wait(process)
    return process.returncode


@contextlib.contextmanager
def folder(prefix):
    """A folder for what is made, which goes at the end, also where a process that was killed still wrote into it."""
    room = tempfile.mkdtemp(prefix=prefix)
    try:
        yield os.path.realpath(room)
    finally:
        for _ in range(10):
            shutil.rmtree(room, ignore_errors=True)
            if not os.path.exists(room):
                break
            time.sleep(0.1)


@contextlib.contextmanager
def stoppable(name):
    """Lets a tool of this name be told to stop. It then ends with the status that a shell gives to that signal."""
    CHILDREN.adopts = ctypes.CDLL(None).prctl(SUBREAPER, 1, 0, 0, 0) == 0
    for number in STOPPING:
        signal.signal(number, CHILDREN.tell)
    try:
        yield
        CHILDREN.check()
    except BaseException:
        if CHILDREN.told is None:
            raise
        print(f"{name}: stopped; nothing that it started goes on", file=sys.stderr, flush=True)
        sys.exit(128 + CHILDREN.told)
