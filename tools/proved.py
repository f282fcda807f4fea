"""Proves a crate and all that it stands on, in a tree of its own, as the gate does.

What passes is kept beside the kit, for the gate and for the next time. No wrong body is tried.
"""

import contextlib
import functools
import os
import re
import shutil
import subprocess
import sys
import threading
import time

import children

HERE = os.path.dirname(os.path.dirname(os.path.realpath(__file__)))
ENDED = re.compile(r"rt: (\w+) (proved|is kept|NOT PROVED)\b")


def listed():
    """The line of each crate in crates.txt, and the crates of this repository that it names."""
    lines = {}
    with open(os.path.join(HERE, "crates.txt"), encoding="utf-8") as rows:
        for line in rows:
            name, colon, below = line.split("#")[0].partition(":")
            if colon:
                lines[name.split()[0]] = line, below.split()
    return {name: (line, [it for it in below if it in lines]) for name, (line, below) in lines.items()}


@functools.lru_cache(maxsize=None)
def kit():
    """The kit's folder."""
    if not shutil.which("rt"):
        tool = os.path.basename(sys.argv[0])
        sys.exit(f"{tool}: it lacks rt, the Rattle kit's command, on the PATH: README.md says how to get it")
    page = subprocess.run(["rt", "doc"], capture_output=True, text=True, check=True).stdout.strip()
    return os.path.dirname(page)


def words_over(tree, name):
    """The compiler's words for a crate, over libraries that are proved and built in a tree."""
    crates, home = listed(), kit()
    line = crates[name][0].partition(":")
    is_program = os.path.exists(os.path.join(HERE, "crates", name, "src", "main.rt"))
    root = os.path.join("src", "main.rt" if is_program else "lib.rt")
    of_kit = dict.fromkeys(["core", "std", *(it for it in line[2].split("#")[0].split() if it not in crates)])
    rlibs = {it: os.path.join(home, "rlibs", f"{it}.rlib") for it in of_kit}
    folders = {it: os.path.join(tree, "crates", it, "out", "rlib") for it in needed(crates, name)[:-1]}
    rlibs.update((it, os.path.join(folders[it], f"{it}.rlib")) for it in crates[name][1])
    words = ["--crate-name", name, root, "-L", f"dependency={os.path.join(home, 'rlibs')}"]
    words += ["--crate-type", "staticlib"] if "staticlib" in line[0] else []
    for it, rlib in rlibs.items():
        words += ["--extern", f"{it}={rlib}"]
    for folder in folders.values():
        words += ["-L", f"dependency={folder}"]
    words += ["--antt-project", os.path.join(home, "rattle", "logic", "antt-project.json")]
    return [*words, "--logic-built", os.path.join(home, "logic_built")]


def needed(crates, name, seen=None):
    """The crates that one stands on, and itself last; each behind those that it stands on."""
    seen = {} if seen is None else seen
    for below in crates[name][1]:
        if below not in seen:
            needed(crates, below, seen)
    seen[name] = None
    return list(seen)


def copy_to(tree, crates, names):
    """Makes a repository of these crates alone, without their wrong bodies."""
    without = shutil.ignore_patterns("out", "must-fail")
    for name in names:
        shutil.copytree(os.path.join(HERE, "crates", name), os.path.join(tree, "crates", name), ignore=without)
    shutil.copy(os.path.join(HERE, "HANDLES"), tree)
    with open(os.path.join(tree, "crates.txt"), "w", encoding="utf-8") as rows:
        rows.writelines(crates[name][0] for name in names)
    os.mkdir(os.path.join(tree, ".git"))  # it is the top of a repository


class Progress:
    """Says of each crate that it is proved, and how long that took."""

    def __init__(self, tree, names):
        self.tree, self.names, self.begun, self.done, self.said = tree, names, {}, 0, []

    def watch(self, process):
        """Notes when each crate is begun: then it gets a folder for what is made."""
        while process.poll() is None:
            for name in self.names:
                if name not in self.begun and os.path.isdir(os.path.join(self.tree, "crates", name, "out")):
                    self.begun[name] = time.monotonic()
            time.sleep(0.1)

    def hear(self, line):
        """Takes a line of the proof's log; what is said of a crate stands above the line that ends it."""
        ended = ENDED.match(line)
        if not ended or ended[1] not in self.names:
            self.said.append(line)
            return
        name, how = ended.groups()
        self.done += 1
        seconds = time.monotonic() - self.begun.get(name, time.monotonic())
        took = {"proved": f"{seconds:.0f} s", "is kept": "proved before", "NOT PROVED": "not proved"}[how]
        print(f"{self.done} of {len(self.names)}: {name}, {took}", flush=True)
        if how == "NOT PROVED":
            print("".join(self.said) + line, file=sys.stderr, end="", flush=True)
        self.said = []


def prove(tree, names, lanes):
    """Proves the tree, so many crates side by side, or as the kit thinks best; whether all are proved."""
    environment = {**os.environ, "RT_JOBS": str(lanes)} if lanes else os.environ
    how = {"stdin": subprocess.DEVNULL, "stdout": subprocess.PIPE, "stderr": subprocess.STDOUT, "errors": "replace"}
    progress = Progress(tree, names)
    with children.CHILDREN.started(["rt", "ci"], cwd=tree, env=environment, **how) as process:
        watching = threading.Thread(target=progress.watch, args=(process,))
        watching.start()
        for line in process.stdout:
            progress.hear(line)
        watching.join()
    if process.returncode != 0 and progress.done == len(names):
        print("".join(progress.said), file=sys.stderr, end="", flush=True)
    return process.returncode == 0


@contextlib.contextmanager
def proved_tree(name, lanes=0):
    """A tree in which a crate and all below it are proved and built; None where they aren't all proved."""
    kit()
    crates = listed()
    names = needed(crates, name)
    with children.folder("entangle-") as tree:
        copy_to(tree, crates, names)
        yield tree if prove(tree, names, lanes) else None
