"""Three nodes of Patroni and one etcd on 127.0.0.1, of which nodes are lost under a process that books."""

import collections
import json
import os
import random
import shutil
import signal
import subprocess
import sys
import time
import urllib.request
from contextlib import suppress

from engines import Postgres
from pair import free_ports, signalled, until
from told import Told, faults_of
from trial import HERE, Wrong, need

# docs/FAILOVER.md has those settings that stand between the two comments.
SETTINGS = """
scope: trips
name: {name}
restapi: {{listen: "127.0.0.1:{rest}", connect_address: "127.0.0.1:{rest}"}}
etcd3: {{host: "127.0.0.1:{etcd}"}}
bootstrap:
  initdb: [{{encoding: UTF8}}, {{locale: C.UTF-8}}]
  pg_hba: [local all all trust, host all all 127.0.0.1/32 trust, host replication all 127.0.0.1/32 trust]
  dcs:
    # what differs from the defaults
    ttl: 20
    loop_wait: 2
    retry_timeout: 8
    primary_start_timeout: 0
    synchronous_mode: true
    synchronous_mode_strict: true
    postgresql:
      use_pg_rewind: true
      parameters:
        wal_log_hints: "on"
        wal_keep_size: 1GB
        synchronous_commit: "on"
        wal_retrieve_retry_interval: 500ms
    # what the check has for itself
        max_connections: 60
        shared_buffers: 32MB
postgresql:
  listen: 127.0.0.1:{port}
  connect_address: 127.0.0.1:{port}
  data_dir: {folder}/{name}
  bin_dir: {programs}
  pgpass: {folder}/pgpass_{name}
  authentication:
    superuser: {{username: tester, password: x}}
    replication: {{username: repl, password: x}}
    rewind: {{username: rewinder, password: x}}
  parameters: {{unix_socket_directories: {folder}}}
"""
KINDS = ("node_lost", "server_killed", "stands_still", "switchover")
ROUNDS = 8
QUIET = {"stdin": subprocess.DEVNULL, "stderr": subprocess.STDOUT}


class Nodes:
    """The nodes, each with Patroni and the server that it starts."""

    def __init__(self, folder):
        os.makedirs(folder)
        os.chmod(folder, 0o755)
        self.engine = Postgres(folder)
        self.folder, self.etcd, self.patronis, self.servers = folder, None, {}, {}
        self.client, peer, *ports = free_ports(8)
        self.peer = peer
        self.ports = {name: (port, rest) for name, port, rest in zip(("n1", "n2", "n3"), ports[::2], ports[1::2])}

    def begins(self, name, command):
        env = {"PATH": "/usr/bin:/bin", "HOME": self.folder, "LC_ALL": "C.UTF-8", "LANG": "C.UTF-8"}
        with open(os.path.join(self.folder, f"{name}.log"), "ab") as log:
            return subprocess.Popen(command, cwd=self.folder, env=env, stdout=log, **QUIET, **self.engine.how)

    def make(self):
        """Starts etcd and the nodes; the first one leads."""
        url, peer = f"http://127.0.0.1:{self.client}", f"http://127.0.0.1:{self.peer}"
        words = ["--name", "e", "--data-dir", os.path.join(self.folder, "etcd"), "--initial-cluster", f"e={peer}"]
        words += ["--listen-client-urls", url, "--advertise-client-urls", url]
        words += ["--listen-peer-urls", peer, "--initial-advertise-peer-urls", peer]
        self.etcd = self.begins("etcd", ["etcd", *words])
        until(lambda: self.answer(f"{url}/health"), what="etcd doesn't start")
        for name, (port, rest) in self.ports.items():
            said = {"port": port, "rest": rest, "etcd": self.client, "programs": self.engine.programs}
            with open(self.settings(name), "w", encoding="utf-8") as file:
                file.write(SETTINGS.format(name=name, folder=self.folder, **said))
            self.start(name)
            until(lambda: self.leader() == "n1", 120, "the first node doesn't lead")
        self.whole()

    def settings(self, name):
        return os.path.join(self.folder, f"{name}.yml")

    def start(self, name):
        self.servers[name] = Postgres(self.folder)
        self.servers[name].data = os.path.join(self.folder, name)
        self.patronis[name] = self.begins(name, ["patroni", self.settings(name)])

    def answer(self, url):
        """What is said under an address; nothing if nobody answers."""
        with suppress(OSError), urllib.request.urlopen(url, timeout=2) as answer:
            return json.load(answer)

    def members(self):
        """The role and the state of each node, as any one has them."""
        for _, rest in self.ports.values():
            said = self.answer(f"http://127.0.0.1:{rest}/cluster")
            if said:
                return {one["name"]: (one["role"], one["state"]) for one in said["members"]}
        return {}

    def leader(self):
        return next((name for name, said in self.members().items() if said == ("leader", "running")), None)

    def whole(self):
        """Waits until all three are there, one leads, and one is its synchronous standby."""

        def is_whole():
            roles = collections.Counter(role for role, state in self.members().values())
            are_well = all(state in ("running", "streaming") for _, state in self.members().values())
            return roles["leader"] == 1 and roles["sync_standby"] >= 1 and sum(roles.values()) == 3 and are_well

        try:
            until(is_whole, 600, "the nodes aren't whole")
        except Wrong as error:
            raise Wrong(f"{error}: {self.members()}") from None

    def dsn(self):
        hosts, ports = zip(*(("127.0.0.1", str(port)) for port, _ in self.ports.values()))
        where = f"host={','.join(hosts)} port={','.join(ports)} user=tester dbname=postgres"
        return f"{where} target_session_attrs=read-write connect_timeout=5"

    def end(self):
        for name, one in self.patronis.items():
            with suppress(OSError):
                signalled([one.pid, *self.servers[name].processes()], signal.SIGCONT)
            one.terminate()
        for one in [*self.patronis.values(), self.etcd]:
            if one is not None:
                with suppress(subprocess.TimeoutExpired):
                    one.terminate()
                    one.wait(60)
                one.kill()
                one.wait()
        for server in self.servers.values():  # those that Patroni left
            with suppress(OSError):
                signalled(server.processes(), signal.SIGKILL)

    # ---- what befalls the node that leads

    def node_lost(self, name):
        """As though its machine was gone."""
        self.patronis[name].kill()
        signalled(self.servers[name].processes(), signal.SIGKILL)
        self.patronis[name].wait()
        return lambda: self.start(name)

    def server_killed(self, name):
        signalled(self.servers[name].processes(), signal.SIGKILL)
        return lambda: None

    def stands_still(self, name):
        pids = [self.patronis[name].pid, *self.servers[name].processes()]
        signalled(pids, signal.SIGSTOP)
        return lambda: signalled(pids, signal.SIGCONT)

    def switchover(self, name):
        """Another node leads, as planned."""
        self.begins("ctl", ["patronictl", "-c", self.settings(name), "switchover", "--master", name, "--force"])
        return lambda: None


class PatroniRounds:
    """Rounds under one process that books all the time."""

    def __init__(self, folder, seed):
        self.nodes, self.random = Nodes(os.path.join(folder, "nodes")), random.Random(seed)
        self.folder, self.pauses = folder, collections.defaultdict(list)

    def run(self, rounds):
        """Makes the rounds, up to the first that is wrong. Raises what is wrong with it."""
        told = None
        try:
            self.nodes.make()
            self.told = told = Told(os.path.join(self.folder, "patroni.notes"), self.nodes.dsn(), "trips")
            process = told.books()
            told.comes("told")
            for number in range(rounds):
                self.round(number + 1, KINDS[number % len(KINDS)])
                need(process.poll() is None, f"the process that books has ended: {told.said()}")
            need(told.stop() == [0], "the process that books doesn't end by itself")
        finally:
            if told:
                told.stop()
            self.nodes.end()

    def round(self, number, kind):
        """Something befalls the node that leads; all that was told is judged once the nodes are whole."""
        time.sleep(self.random.uniform(1.0, 4.0))
        old, lost = self.nodes.leader(), time.time()
        again = getattr(self.nodes, kind)(old)
        try:
            time.sleep(1)
            self.told.comes("key", time.time(), seconds=180)
            former = [None] if kind == "server_killed" else [None, old]
            until(lambda: self.nodes.leader() not in former, 120, "no other node leads")
        finally:
            again()
        self.nodes.whole()
        times = [lost, *(note["at"] for note in self.told.more() if "key" in note and note["at"] > lost)]
        pause = max(then - at for at, then in zip(times, times[1:]))
        self.pauses[kind].append(pause)
        faults, counts = faults_of(self.nodes.dsn(), "trips", self.told.more())
        whole = time.time() - lost
        print(f"round {number}, {kind}: no ticket for {pause:.2f} s, whole after {whole:.1f} s; {counts}", flush=True)
        need(not faults, f"round {number}, {kind}: {faults[:3]}")


def is_on_the_page():
    """Whether the page has these settings."""
    with open(os.path.join(HERE, "docs", "FAILOVER.md"), encoding="utf-8") as file:
        shown = file.read().partition("```yaml\n")[2].partition("```")[0].partition("  dcs:\n")[2]
    _, _, ours = SETTINGS.partition("# what differs from the defaults\n")
    return [line.partition(" #")[0].rstrip() for line in shown.splitlines()] == ours.partition("    #")[0].splitlines()


def tried_patroni(folder, words):
    """Makes the rounds; how many, and how many were wrong."""
    if not is_on_the_page():
        sys.exit("check failover: docs/FAILOVER.md has other settings of Patroni")
    lacking = [name for name in ("patroni", "patronictl", "etcd") if not shutil.which(name)]
    if lacking:
        sys.exit(f"check failover: it lacks {', '.join(lacking)}")
    rounds = PatroniRounds(folder, words.seed)
    wrong = 0
    try:
        rounds.run(words.rounds or ROUNDS)
    except Wrong as error:
        wrong = 1
        print(f"WRONG: {error}", flush=True)
    for kind, pauses in rounds.pauses.items():
        print(f"{kind}: no ticket for {', '.join(f'{pause:.2f}' for pause in pauses)} s", flush=True)
    return sum(map(len, rounds.pauses.values())), wrong
