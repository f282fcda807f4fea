"""Entangled SQL from Python: scripts wait in a room until those whom they need are there, and commit together.

Two friends fly on one flight, whichever it is. Each puts the same script, with values of their own:

    import entangle

    TABLES = "CREATE TABLE Flights (fno INT, dest TEXT); CREATE TABLE Bookings (who TEXT, fno INT);"
    TRIP = (
        "BEGIN TRANSACTION;"
        " SELECT @me, fno AS @fno INTO ANSWER Trip"
        " WHERE fno IN (SELECT fno FROM Flights WHERE dest = 'LA') AND (@friend, fno) IN ANSWER Trip CHOOSE 1;"
        " INSERT INTO Bookings VALUES (@me, @fno);"
        " COMMIT;"
    )
    with entangle.Room(TABLES, {"Flights": [(122, "LA"), (136, "Paris")]}) as room:
        mickey = room.put(TRIP, {"me": "Mickey", "friend": "Minnie"})
        while room.step() != "idle":
            pass
        room.state(mickey)                           # TicketLonely(demand=0): Minnie isn't there
        minnie = room.put(TRIP, {"me": "Minnie", "friend": "Mickey"})
        while room.step() != "idle":
            pass
        room.wait(mickey)                            # TicketCommitted(epoch=1, number=1)
        room.table("Bookings")                       # [('Mickey', 122), ('Minnie', 122)]
        room.groups()                                # what committed together, and what that changed

In an event loop, `await room.fate(mickey)` waits. Calls without a room take an input whole:

    report = entangle.report(input)                  # version 1
    history = entangle.report(input, version=2)      # tells all that a check needs
    entangle.check(history)                          # Verdict(is_legal=True, line=0, rule='')
    try:
        entangle.report("CREATE TABLE T (a INTEGER);")
    except entangle.Refused as fault:
        print(fault.code, fault.line, fault.column)  # 201 1 19
        print(fault.explanation)

A Driver has no waiting room: each script takes part in the next runs, whoever is there:

    with entangle.Driver("CREATE TABLE T (a INT);") as driver:
        tx = driver.submit("BEGIN TRANSACTION; INSERT INTO T VALUES (1); COMMIT;")
        driver.run()
        driver.standing(tx)                         # Committed(number=1, runs=1)
        driver.answers(tx)                          # [CountAnswer(count=1)]
        driver.table("T")                           # [(1,)]

The work is done by a core that is proved, in the shared object that the environment's ENTANGLE_LIBRARY names; else in
libentangle.so of this package, or, in a checkout, that of bindings/archive. A call runs scripts on the thread that
makes it, and other threads of Python go on meanwhile. Calls that need neither a room nor a driver stand alone: any
number may be made at once. Threads may share a room or a driver, which has a lock inside.

`entangle.stores` keeps a room in SQLite or PostgreSQL, so that it outlives the process.

Every error of this package is an Error: Refused and OutOfMemory, which are Faults; the refusals of a room, which are
RoomErrors; StateError; and LibraryError, with which `import entangle` refuses a shared object that isn't the one of
this package. A wrong type is a TypeError; a version of a report, a step or a patience that doesn't exist is a
ValueError; and a wait that takes too long is a TimeoutError.
"""

from ._calls import Verdict, check, explain, report
from ._errors import Error, Fault, LibraryError, OutOfMemory, Refused, StateError
from ._given import Rows, Values
from ._groups import EndedTicket, Group, GroupCommit, TableChange
from ._library import Text, __version__, library_version
from ._driver import Driver, Reply, Step
from ._refusals import BatchIsOn, BindingFault, NoMoreNumbers, NobodyWaits, NotARow, NotBound, RoomError, RoomFull
from ._refusals import RowFault, TicketUsed, UnknownTicket
from ._room import EpochReport, Patience, Room, Stepped
from ._standing import Committed, Failed, Failure, Fate, GaveUp, RolledBack, Running, Standing, Waiting
from ._tickets import Ending, Submission, Ticket, TicketCommitted, TicketCut, TicketFailed, TicketGaveUp
from ._tickets import TicketInBatch, TicketLonely, TicketNoMeeting, TicketNotRestored, TicketRefusedByStore
from ._tickets import TicketRolledBack, TicketState, TicketUnknown, TicketWaits, TicketWithdrawn
from ._values import Answer, CountAnswer, EntangledAnswer, Fact, Row, RowsAnswer, SetAnswer, Value

__all__ = [
    "Answer",
    "BatchIsOn",
    "BindingFault",
    "Committed",
    "CountAnswer",
    "EndedTicket",
    "Ending",
    "EntangledAnswer",
    "EpochReport",
    "Error",
    "Fact",
    "Failed",
    "Failure",
    "Fate",
    "Fault",
    "GaveUp",
    "Group",
    "GroupCommit",
    "LibraryError",
    "Driver",
    "NoMoreNumbers",
    "NobodyWaits",
    "NotARow",
    "NotBound",
    "OutOfMemory",
    "Patience",
    "Refused",
    "Reply",
    "RolledBack",
    "Room",
    "RoomError",
    "RoomFull",
    "Row",
    "RowFault",
    "Rows",
    "RowsAnswer",
    "Running",
    "SetAnswer",
    "Standing",
    "StateError",
    "Step",
    "Stepped",
    "Submission",
    "TableChange",
    "Text",
    "Ticket",
    "TicketCommitted",
    "TicketCut",
    "TicketFailed",
    "TicketGaveUp",
    "TicketInBatch",
    "TicketLonely",
    "TicketNoMeeting",
    "TicketNotRestored",
    "TicketRefusedByStore",
    "TicketRolledBack",
    "TicketState",
    "TicketUnknown",
    "TicketUsed",
    "TicketWaits",
    "TicketWithdrawn",
    "UnknownTicket",
    "Value",
    "Values",
    "Verdict",
    "Waiting",
    "__version__",
    "check",
    "explain",
    "library_version",
    "report",
]

# A public name stands where it is imported from, in tracebacks and in pickles too.
for _thing in list(vars().values()):
    if isinstance(_thing, type) and _thing.__module__.startswith(f"{__name__}._"):
        _thing.__module__ = __name__
del _thing
