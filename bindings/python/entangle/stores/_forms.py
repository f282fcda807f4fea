"""The tables that a store has for itself: how they are made, and how those of an earlier form are taken up."""

from __future__ import annotations

from dataclasses import dataclass

# The form of the tables that this version writes, and takes up from each earlier one.
FORM = 2

# The endings that a group tells; of all others no group does.
_TOLD_BY_GROUPS = "'committed', 'rolled back', 'failed', 'gave up'"


def quoted(*path: str) -> str:
    """A name as SQL has it."""
    return ".".join(f'"{name}"' for name in path)


@dataclass(frozen=True)
class OwnTables:
    """The tables of a store with this name, in an engine that has these types for numbers of 64 bits and for bytes."""

    name: str
    integer: str
    blob: str

    @property
    def claims(self) -> str:
        """One row: the form, the version (claim, write, token), and the numbers from which the room goes on."""
        return quoted(f"{self.name}_claim")

    @property
    def tickets(self) -> str:
        """A row for each script that was put, with its ending once it has one."""
        return quoted(f"{self.name}_tickets")

    @property
    def keys(self) -> str:
        """A row for each request with a key whose ticket was forgotten."""
        return quoted(f"{self.name}_keys")

    @property
    def reserved(self) -> frozenset[str]:
        """Names of tables and indexes that no table of a room can have, in small letters."""
        ends = ("claim", "tickets", "keys", "waiting", "commits", "claim_pkey", "tickets_pkey", "keys_pkey")
        more = ("tickets_request_key_key", "keys_ticket_key", "tickets_taken_up", "rebuilt")
        inbox = ("inbox", "inbox_id_seq", "inbox_pkey", "inbox_request_key_kind_key", "inbox_state", "inbox_state_pkey")
        own = {f"{self.name}_{end}" for end in (*ends, *more, *inbox)}
        return frozenset({"entangle_tables", "entangle_tables_pkey"} | own)

    def creations(self) -> list[str]:
        """The statements that make what isn't there, and the first row."""
        numbers = ("claim", "write", "epoch", "last_group", "next_ticket", "token")
        columns = ", ".join(f"{name} {self.integer} NOT NULL" for name in numbers)
        return [
            f"CREATE TABLE IF NOT EXISTS {self.claims} (form {self.integer} NOT NULL PRIMARY KEY, {columns})",
            self.ticket_creation(self.tickets),
            *self.ticket_indexes(),
            self.key_creation(),
            "CREATE TABLE IF NOT EXISTS entangle_tables (place TEXT NOT NULL PRIMARY KEY, store TEXT NOT NULL)",
            f"INSERT INTO {self.claims} (form, claim, write, epoch, last_group, next_ticket, token)"
            f" VALUES ({FORM}, 0, 0, 0, 0, 1, 0) ON CONFLICT DO NOTHING",
        ]

    @property
    def group_check(self) -> str:
        """A ticket has the number of a group if and only if a group tells how it ended."""
        return f"CHECK ((ended_in IS NOT NULL) = (ending IS NOT NULL AND ending IN ({_TOLD_BY_GROUPS})))"

    def ticket_creation(self, place: str) -> str:
        """`until` and `ended_at` are points in time: microseconds since 1970 in UTC. `asked` is the digest of what was
        put under a key."""
        integer = self.integer
        return (
            f"CREATE TABLE IF NOT EXISTS {place} (ticket {integer} NOT NULL PRIMARY KEY,"
            " request_key TEXT UNIQUE, script TEXT NOT NULL, bound TEXT NOT NULL,"
            f" patience {integer} NOT NULL, batches {integer} NOT NULL,"
            f" ended_in {integer}, ending TEXT, epoch {integer}, number {integer}, failure TEXT, answers TEXT,"
            f" until {integer}, asked {self.blob}, ended_at {integer},"
            f" {self.group_check}, CHECK ((ending = 'committed') = (number IS NOT NULL)))"
        )

    def ticket_indexes(self) -> list[str]:
        waiting, commits = quoted(f"{self.name}_waiting"), quoted(f"{self.name}_commits")
        return [
            f"CREATE INDEX IF NOT EXISTS {waiting} ON {self.tickets} (ticket) WHERE ending IS NULL",
            f"CREATE UNIQUE INDEX IF NOT EXISTS {commits} ON {self.tickets} (epoch, number) WHERE ending = 'committed'",
        ]

    def key_creation(self) -> str:
        integer, blob = self.integer, self.blob
        return (
            f"CREATE TABLE IF NOT EXISTS {self.keys} (key_digest {blob} NOT NULL PRIMARY KEY,"
            f" ticket {integer} NOT NULL UNIQUE, asked {blob}, ended_in {integer}, ending TEXT NOT NULL,"
            f" epoch {integer}, number {integer}, failure TEXT, ended_at {integer} NOT NULL)"
        )

    # ---- from form 1, which lacks the token, the points in time, what was asked, and the table of keys

    def claim_changes_of_1(self) -> list[str]:
        token = f"ALTER TABLE {self.claims} ADD COLUMN token {self.integer} NOT NULL DEFAULT 0"
        return [self.key_creation(), token, f"UPDATE {self.claims} SET form = 2"]

    def ticket_copy_of_1(self, now: int) -> list[str]:
        """The statements by which a table of form 2 takes the place of one of form 1, whose rows it has. Indexes and
        triggers go with the old one."""
        taken = quoted(f"{self.name}_tickets_taken_up")
        columns = "ticket, request_key, script, bound, patience, batches, ended_in, ending, epoch, number, failure"
        ended_at = f"CASE WHEN ending IS NOT NULL THEN {now} END"
        return [
            self.ticket_creation(taken),
            f"INSERT INTO {taken} ({columns}, answers, ended_at) SELECT {columns}, answers, {ended_at}"
            f" FROM {self.tickets}",
            f"DROP TABLE {self.tickets}",
            f"ALTER TABLE {taken} RENAME TO {self.tickets}",
        ]

    def ticket_changes_of_1(self, now: int) -> list[str]:
        """The statements by which a table of form 1 becomes one of form 2, but for its CHECK of groups. Tickets that
        ended before end now."""
        integer = self.integer
        return [
            f"ALTER TABLE {self.tickets} ADD COLUMN until {integer}, ADD COLUMN asked {self.blob},"
            f" ADD COLUMN ended_at {integer} DEFAULT {now}",
            f"ALTER TABLE {self.tickets} ALTER COLUMN ended_at DROP DEFAULT",
            f"UPDATE {self.tickets} SET ended_at = NULL WHERE ending IS NULL",
        ]
