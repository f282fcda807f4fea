"""Stores: databases in which the tables, the tickets and the fates of a room outlive the process.

    import entangle
    from entangle.stores import DurableRoom, SqliteStore, Table

    TABLES = [
        Table("Flights", {"fno": "INT", "dest": "TEXT"}, initial=[(122, "LA"), (136, "Paris")]),
        Table("Bookings", {"who": "TEXT", "fno": "INT"}, collects=True),
    ]
    with DurableRoom(TABLES, SqliteStore("trips.sqlite")) as room:
        mickey = room.put(TRIP, {"me": "Mickey", "friend": "Minnie"}, entangle.Patience.UNTIL_WITHDRAWN)
        while room.step() != "idle":
            pass
        room.state(mickey)       # TicketLonely(demand=0), and so it is in the next process

A ticket, a withdrawal and a fate are told once the store has them. SqliteStore needs nothing but Python; PostgresStore
needs psycopg 3.

Every error of this module is a StoreError, and so an entangle.Error.
"""

from ._asked import Ended, Fate, InboxRequest, Queued, Rejected, Waiting
from ._desk import Desk, Scripts, Unfolds, key_of_part
from ._durable import DurableRoom
from ._ears import Ear
from ._errors import KeyUsedOtherwise, NotLoadable, NotRestored, RefusedByStore, StoreDiffers, StoredFault, StoreError
from ._errors import StoreFailed, StoreTaken
from ._inbox import Backlog, InboxFull, PostgresInbox
from ._kept import Loaded, Outcome, UsedKey, Waiter, asked_digest, outcomes_of
from ._memory import OpenRoom, Opens
from ._postgres import PostgresStore
from ._protocol import Ready, Store, nobody_ends
from ._requests import Request
from ._sqlite import SqliteStore
from ._tables import Kind, Table
from ._turns import PostgresTurn, SqliteTurn, Turn
from ._watched import NearlyFull, RowCounts, StepStats

__all__ = [
    "Backlog",
    "Desk",
    "DurableRoom",
    "Ear",
    "Ended",
    "Fate",
    "InboxFull",
    "InboxRequest",
    "KeyUsedOtherwise",
    "Kind",
    "Loaded",
    "NearlyFull",
    "NotLoadable",
    "NotRestored",
    "OpenRoom",
    "Opens",
    "Outcome",
    "PostgresInbox",
    "PostgresStore",
    "PostgresTurn",
    "Queued",
    "Ready",
    "RefusedByStore",
    "Rejected",
    "Request",
    "RowCounts",
    "Scripts",
    "SqliteStore",
    "SqliteTurn",
    "StepStats",
    "Store",
    "StoreDiffers",
    "StoreError",
    "StoreFailed",
    "StoreTaken",
    "StoredFault",
    "Table",
    "Turn",
    "Unfolds",
    "UsedKey",
    "Waiter",
    "Waiting",
    "asked_digest",
    "key_of_part",
    "nobody_ends",
    "outcomes_of",
]

# A public name stands where it is imported from, in tracebacks and in pickles too.
for _thing in list(vars().values()):
    if isinstance(_thing, type) and _thing.__module__.startswith(f"{__name__}._"):
        _thing.__module__ = __name__
del _thing
