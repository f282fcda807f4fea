"""The engines: files of SQLite, and a cluster of PostgreSQL that is started here; and disks that are full."""

import glob
import os
import pwd
import shutil
import sqlite3
import subprocess
import time
from contextlib import contextmanager, suppress
from dataclasses import dataclass

from entangle import stores
from entangle.stores import Table
from trial import PACKAGE, psycopg

MOST_SECONDS = 300

# ---- the tables, of which one has other names in the database

INITIAL = {"Counters": [("all", 0)], "Bookings": [], "Log": []}
COLUMNS = {
    "Counters": {"name": "TEXT", "n": "INT"},
    "Bookings": {"who": "TEXT", "fno": "INT"},
    "Log": {"n": "INT", "who": "TEXT"},
}
USERS_TABLE = "CREATE TABLE {name} (id {serial} PRIMARY KEY, name {text}, how_many {integer}, note {text} DEFAULT 'x')"


@dataclass(frozen=True)
class Side:
    """A room with a store in a database: the name of the store, its tables, and how these are read by plain SQL."""

    name: str
    tables: tuple
    read: dict
    counted: str


def side(name, counted, **stored_as):
    """A side whose table Counters the user has, under this name."""
    names = {"n": "how_many"}
    tables = (
        Table("Counters", COLUMNS["Counters"], stored_as=counted, stored_columns=names),
        Table("Bookings", COLUMNS["Bookings"], stored_as=stored_as.get("bookings")),
        Table("Log", COLUMNS["Log"], stored_as=stored_as.get("log"), collects=True),
    )
    read = {"Counters": f"SELECT name, how_many FROM {counted}"}
    for table in tables[1:]:
        read[table.name] = f'SELECT {", ".join(table.columns)} FROM "{table.stored_name}"'
    return Side(name, tables, read, counted)


FIRST = side("entangle", "counted")
SECOND = side("second", "counted_too", bookings="bookings_too", log="log_too")
TABLES = FIRST.tables


def make_users_tables(connection, **types):
    """The tables that the user's database has already."""
    for one in (FIRST, SECOND):
        connection.execute(USERS_TABLE.format(name=one.counted, **types))
        connection.execute(f"INSERT INTO {one.counted} (name, how_many) VALUES ('all', 0)")
    for table in SECOND.tables[1:]:
        kinds = {"INT": types["integer"], "TEXT": types["text"]}
        columns = ", ".join(f"{name} {kinds[kind]}" for name, kind in table.columns.items())
        connection.execute(f"CREATE TABLE {table.stored_name} ({columns})")


# ---- engines


def kept(form, engine):
    """The statements that make a store as this form of it had it: tests/kept says what stands there."""
    path = os.path.join(PACKAGE, "tests", "kept", f"form{form}.{engine}.sql")
    with open(path, encoding="utf-8") as file:
        return file.read()


def hooked(base):
    """A store that tells a hook of each statement, before it and behind it."""

    class Hooked(base):
        hook = None

        def _run(self, sql, parameters=()):
            if self.hook:
                self.hook("before", sql, self)
            result = super()._run(sql, parameters)
            if self.hook:
                self.hook("after", sql, self)
            return result

    return Hooked


class Sqlite:
    """Files of SQLite in a folder."""

    name = "SQLite"
    store_class = hooked(stores.SqliteStore)

    def __init__(self, folder):
        self.folder, self.count = folder, 0

    def fresh(self):
        """A place for a new store; the user's own table is there."""
        self.count += 1
        place = os.path.join(self.folder, f"case{self.count}.sqlite")
        with self.reading(place) as connection:
            make_users_tables(connection, serial="INTEGER", text="TEXT", integer="BIGINT")
            connection.commit()
        return place

    def of_form(self, form):
        """A place with a store that was written by an earlier version."""
        self.count += 1
        place = os.path.join(self.folder, f"case{self.count}.sqlite")
        with self.reading(place) as connection:
            connection.executescript(kept(form, "sqlite"))
        return place

    def store(self, place, **how):
        return self.store_class(place, **how)

    @contextmanager
    def reading(self, place):
        connection = sqlite3.connect(place)
        try:
            yield connection
        finally:
            connection.close()

    def is_there(self, connection, table):
        sql = "SELECT count(*) FROM sqlite_master WHERE type = 'table' AND name = ?"
        return connection.execute(sql, (table,)).fetchone()[0] == 1

    def forget(self, place):
        for path in glob.glob(f"{place}*"):
            os.remove(path)

    def lost(self, store):
        raise sqlite3.OperationalError("disk I/O error, as the check says")

    @contextmanager
    def locked(self, place):
        """Another one has the lock."""
        connection = sqlite3.connect(place, isolation_level=None)
        connection.execute("BEGIN IMMEDIATE")
        try:
            yield
        finally:
            connection.close()


class Postgres:
    """A cluster of PostgreSQL of the check's own; each case has a schema."""

    name = "PostgreSQL"
    store_class = hooked(stores.PostgresStore)

    def __init__(self, folder):
        self.folder, self.count = folder, 0
        found = shutil.which("initdb") or max(glob.glob("/usr/lib/postgresql/*/bin/initdb"), default=None)
        self.programs = os.path.dirname(os.path.realpath(found)) if found else None
        self.how = {}
        if os.geteuid() == 0:
            name = next(name for name in ("postgres", "nobody") if name in {user.pw_name for user in pwd.getpwall()})
            user = pwd.getpwnam(name)
            self.how = {"user": user.pw_uid, "group": user.pw_gid, "extra_groups": []}
            os.chown(folder, user.pw_uid, user.pw_gid)
        self.data = os.path.join(folder, "data")

    def run(self, program, *words, check=True):
        quiet = {"stdout": subprocess.DEVNULL, "stderr": subprocess.DEVNULL, "stdin": subprocess.DEVNULL}
        path = os.path.join(self.programs, program)
        return subprocess.run([path, "-D", self.data, *words], check=check, cwd=self.folder, **quiet, **self.how)

    def make(self):
        self.run("initdb", "-A", "trust", "-U", "tester", "-E", "UTF8", "--locale=C.UTF-8")
        with open(os.path.join(self.data, "postgresql.conf"), "a", encoding="utf-8") as file:
            file.write(f"listen_addresses = ''\nunix_socket_directories = '{self.folder}'\nmax_connections = 40\n")
        self.start()

    def start(self):
        self.run("pg_ctl", "-w", "-t", "60", "-l", os.path.join(self.folder, "log"), "start")

    def stop(self, mode):
        self.run("pg_ctl", "-w", "-t", "60", "-m", mode, "stop", check=False)

    def processes(self):
        """The numbers of the server's processes, its first one before all others."""
        with open(os.path.join(self.data, "postmaster.pid"), encoding="ascii") as file:
            first = int(file.readline())
        found = subprocess.run(["ps", "-o", "pid=", "--ppid", str(first)], capture_output=True, text=True, check=False)
        return [first, *map(int, found.stdout.split())]

    def dsn(self, schema):
        return f"host={self.folder} user=tester dbname=postgres options='-c search_path={schema}'"

    def fresh(self):
        self.count += 1
        place = f"case{self.count}"
        with self.reading(place) as connection:
            connection.execute(f"CREATE SCHEMA {place}")
            make_users_tables(
                connection, serial="BIGINT GENERATED ALWAYS AS IDENTITY", text="TEXT", integer="BIGINT"
            )
        return place

    def of_form(self, form):
        """A place with a store that was written by an earlier version."""
        self.count += 1
        place = f"case{self.count}"
        with self.reading(place) as connection:
            connection.execute(f"CREATE SCHEMA {place}")
            connection.execute(kept(form, "postgres"))
        return place

    def store(self, place, **how):
        return self.store_class(self.dsn(place), **how)

    @contextmanager
    def reading(self, place):
        until = time.monotonic() + MOST_SECONDS
        while True:
            try:
                connection = psycopg.connect(self.dsn(place), autocommit=True)
                break
            except psycopg.OperationalError:
                if time.monotonic() > until:
                    raise
                time.sleep(0.2)
        try:
            yield connection
        finally:
            connection.close()

    def is_there(self, connection, table):
        return connection.execute("SELECT to_regclass(%s)", (f'"{table}"',)).fetchone()[0] is not None

    def forget(self, place):
        with self.reading(place) as connection:
            connection.execute(f"DROP SCHEMA {place} CASCADE")

    def lost(self, store):
        """The server ends the connection, and the answer doesn't come."""
        process = store._connection.info.backend_pid
        with psycopg.connect(self.dsn("public"), autocommit=True) as connection:
            connection.execute("SELECT pg_terminate_backend(%s, 5000)", (process,))
        raise psycopg.OperationalError("the connection is lost, as the check says")

    @contextmanager
    def locked(self, place):
        with self.reading(place) as connection:
            connection.execute("BEGIN")
            connection.execute("LOCK TABLE entangle_tickets IN ACCESS EXCLUSIVE MODE")
            yield


# ---- disks


@contextmanager
def small_disk(folder, size):
    """A folder on a disk of its own, of this size; None where that may not be, or no size is said."""
    os.makedirs(folder, exist_ok=True)
    words = ["mount", "-t", "tmpfs", "-o", f"size={size}", "tmpfs", folder]
    may = size is not None and os.geteuid() == 0
    mounted = may and subprocess.run(words, capture_output=True, check=False).returncode == 0
    try:
        yield folder if mounted else None
    finally:
        if mounted:
            subprocess.run(["umount", "-l", folder], check=False)


@contextmanager
def full(folder):
    """The disk of a folder is full."""
    ballast = os.path.join(folder, "ballast")
    try:
        with open(ballast, "wb", buffering=0) as file, suppress(OSError):
            while True:
                file.write(bytes(1 << 16)) or file.write(bytes(512))
        yield
    finally:
        os.remove(ballast)
