"""Two servers of PostgreSQL on 127.0.0.1, a primary and a standby, which change places."""

import os
import shutil
import signal
import socket
import subprocess
import time
from contextlib import suppress

from engines import Postgres
from trial import Wrong, psycopg

MOST_SECONDS = 120
SETTINGS = """
listen_addresses = '127.0.0.1'
port = {port}
unix_socket_directories = '{folder}'
max_connections = 60
shared_buffers = 32MB
wal_log_hints = on
wal_keep_size = 128MB
wal_sender_timeout = 5s
wal_receiver_timeout = 5s
wal_retrieve_retry_interval = 500ms
"""
TRUSTED = """
local all all trust
local replication all trust
host all all 127.0.0.1/32 trust
host replication all 127.0.0.1/32 trust
"""


def free_ports(count):
    """Ports of 127.0.0.1 that nobody listens on."""
    taken = [socket.create_server(("127.0.0.1", 0)) for _ in range(count)]
    ports = [one.getsockname()[1] for one in taken]
    for one in taken:
        one.close()
    return ports


def until(holds, seconds=MOST_SECONDS, what="it doesn't come"):
    """The first thing that isn't nothing. It fails if none comes within so many seconds."""
    end = time.monotonic() + seconds
    while True:
        found = holds()
        if found:
            return found
        if time.monotonic() > end:
            raise Wrong(f"{what} within {seconds} seconds")
        time.sleep(0.01)


def signalled(pids, number):
    for pid in pids:
        with suppress(ProcessLookupError):
            os.kill(pid, number)


def is_gone(pid):
    try:
        with open(f"/proc/{pid}/stat", encoding="utf-8") as file:
            return file.read().rpartition(")")[2].split()[0] == "Z"
    except (FileNotFoundError, ProcessLookupError):
        return True


class Server(Postgres):
    """A server of the check's own, in a folder of its own."""

    def __init__(self, folder, port):
        os.makedirs(folder)
        super().__init__(folder)
        self.name, self.port, self.process = os.path.basename(folder), port, None

    def configure(self, text, name="postgresql.conf", mode="a"):
        with open(os.path.join(self.data, name), mode, encoding="utf-8") as file:
            file.write(text)

    def make(self):
        self.run("initdb", "-A", "trust", "-U", "tester", "-E", "UTF8", "--locale=C.UTF-8")
        self.configure(SETTINGS.format(port=self.port, folder=self.folder))
        self.configure(TRUSTED, "pg_hba.conf", "w")
        self.start()

    def start(self):
        """Starts it as a child of the check, which a server that was killed leaves no process of."""
        command = [os.path.join(self.programs, "postgres"), "-D", self.data]
        until(lambda: self.is_started(command), what=f"the server {self.name} doesn't start")

    def is_started(self, command):
        """Whether it answers; it is started again if it ended, since backends of a server that was killed may have its
        memory for a moment."""
        if self.process is None or self.process.poll() is not None:
            with open(os.path.join(self.folder, "log"), "ab") as log:
                quiet = {"stdin": subprocess.DEVNULL, "stdout": log, "stderr": log, "cwd": self.folder}
                self.process = subprocess.Popen(command, start_new_session=True, **quiet, **self.how)
        with suppress(psycopg.OperationalError):
            self.sql("SELECT 1")
            return True

    def stop(self, mode):
        super().stop(mode)
        if self.process is not None:
            self.process.wait(MOST_SECONDS)

    def kill(self):
        """Ends all its processes by signal 9, as a machine that loses its power."""
        pids = self.processes()
        signalled(pids, signal.SIGKILL)
        self.process.wait(MOST_SECONDS)
        until(lambda: all(map(is_gone, pids)), what="a killed server doesn't end")

    def promote(self):
        self.run("pg_ctl", "-w", "-t", str(MOST_SECONDS), "promote")

    def sql(self, text, *values):
        """Rows by plain SQL."""
        with psycopg.connect(self.dsn(), autocommit=True) as connection:
            cursor = connection.execute(text, values or None)
            return cursor.fetchall() if cursor.description else []

    def dsn(self, schema="public"):
        return f"host=127.0.0.1 port={self.port} user=tester dbname=postgres connect_timeout=5"

    def waiting_commits(self):
        """The backends whose COMMIT waits for the standby."""
        return [pid for (pid,) in self.sql("SELECT pid FROM pg_stat_activity WHERE wait_event = 'SyncRep'")]

    # ---- as a standby

    def follows(self, other):
        """Says that it is a standby of the other server."""
        self.configure(SETTINGS.format(port=self.port, folder=self.folder))
        source = f"host=127.0.0.1 port={other.port} user=tester application_name={self.name}"
        self.configure(f"primary_conninfo = '{source}'\n", "postgresql.auto.conf", "w")
        self.configure("", "standby.signal", "w")
        if self.how:
            for name in ("postgresql.auto.conf", "standby.signal"):
                os.chown(os.path.join(self.data, name), self.how["user"], self.how["group"])

    def copies(self, other):
        """Becomes a standby of the other server, by a copy of all it has."""
        shutil.rmtree(self.data, ignore_errors=True)
        source = ["-h", "127.0.0.1", "-p", str(other.port), "-U", "tester"]
        self.run("pg_basebackup", *source, "-X", "stream", "-c", "fast")
        self.follows(other)

    def rewinds(self, other):
        """Whether it becomes a standby of the other server, which was promoted, by what differs alone."""
        # until the other server's first checkpoint pg_rewind takes its old timeline for its present one
        other.sql("CHECKPOINT")
        is_done = self.run("pg_rewind", "--source-server", other.dsn(), check=False).returncode == 0
        if is_done:
            self.follows(other)
        return is_done


class Pair:
    """A primary and its synchronous standby."""

    def __init__(self, folder):
        os.makedirs(folder)
        os.chmod(folder, 0o755)
        ports = free_ports(2)
        self.primary, self.standby = (Server(os.path.join(folder, n), p) for n, p in zip(("a", "b"), ports))

    def make(self):
        self.primary.make()
        self.standby.copies(self.primary)
        self.standby.start()
        self.waits_for_standby()

    def dsn(self, **more):
        """Both servers, the first one first, whichever is the primary."""
        first, second = sorted((self.primary, self.standby), key=lambda one: one.name)
        where = f"host=127.0.0.1,127.0.0.1 port={first.port},{second.port} user=tester dbname=postgres"
        return " ".join([where, "target_session_attrs=read-write", *(f"{key}={said}" for key, said in more.items())])

    def waits_for_standby(self):
        """Has the primary wait for its standby at each COMMIT, from when that is there."""
        self.waits_for("*")
        self.caught_up("sync")

    def waits_for(self, names):
        """Has the primary wait for standbys of these names; for none if the text is empty."""
        self.primary.sql(f"ALTER SYSTEM SET synchronous_standby_names = '{names}'")
        self.primary.sql("SELECT pg_reload_conf()")

    def caught_up(self, state="%"):
        """Waits until the standby has all that the primary has, and is of this state."""
        ((target,),) = self.primary.sql("SELECT pg_current_wal_lsn()::text")
        sql = "SELECT 1 FROM pg_stat_replication WHERE sync_state LIKE %s AND state = 'streaming' AND flush_lsn >= %s"
        until(lambda: self.primary.sql(sql, state, target), what=f"the standby isn't there ({state})")

    def promoted(self):
        """The standby is the primary now."""
        self.standby.promote()
        self.primary, self.standby = self.standby, self.primary

    def standby_again(self, rewinds):
        """Makes the server that was the primary a standby; how it was done."""
        is_rewound = rewinds and self.standby.rewinds(self.primary)
        if not is_rewound:
            self.standby.copies(self.primary)
        self.standby.start()
        self.waits_for_standby()
        return "rewound" if is_rewound else "copied"

    def stop(self):
        for one in (self.primary, self.standby):
            with suppress(OSError):
                signalled(one.processes(), signal.SIGCONT)
            one.stop("immediate")
