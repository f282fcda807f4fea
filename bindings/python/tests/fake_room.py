"""A room for tests of stores: it has the calls of entangle.Room, takes five kinds of scripts, and needs no library.

    add      commits by itself: it adds a row to Log, and one to the number of Counters
    pair     commits with the one whose values are the same the other way round: both book one flight, and are counted
    fail     fails; `roll` is rolled back
    alone    is in a batch at each step, and commits never

What they do is worked out by effects(), from the rows that are there and from nothing else: so who replays the groups
of a store gets its tables.
"""

from entangle import CountAnswer, EndedTicket, EntangledAnswer, Fact, Failure, Group, GroupCommit, NobodyWaits
from entangle import Patience, Refused, RoomFull, TableChange, Ticket, TicketCommitted, TicketFailed, TicketGaveUp
from entangle import TicketLonely, TicketRolledBack, TicketUnknown, TicketUsed, TicketWaits, TicketWithdrawn

AS_WRITTEN = 8
MOST_OF_A_STEP = 64


def effects(kind, values, tables):
    """What a group of scripts of a kind changes, and of each what its statements are answered."""
    (count,) = tables["Counters"]
    after = (count[0], count[1] + len(values))
    changes = {"Counters": TableChange((count,), (after,))}
    if kind == "add":
        (one,) = values
        changes["Log"] = TableChange((), ((count[1], one["me"]),))
        return changes, [(CountAnswer(1), CountAnswer(1))]
    booked = tuple(sorted((one["me"], 100 + count[1] % 7) for one in values))
    changes["Bookings"] = TableChange((), booked)
    answers = [(EntangledAnswer((Fact("Trip", row),)), CountAnswer(1)) for row in booked]
    order = sorted(range(len(values)), key=lambda at: values[at]["me"])
    return changes, [answers[order.index(at)] for at in range(len(values))]


def changed(tables, changes):
    """Makes changes; each row that goes has to be there, and each that comes not, but in Log."""
    for name, change in changes.items():
        rows = tables[name]
        for row in change.removed:
            rows.remove(row)
        for row in change.added:
            assert name == "Log" or row not in rows, (name, row)
            rows.append(row)


class FakeRoom:
    """A room with the calls that a DurableRoom makes."""

    def __init__(self, opening, rows=None, *, epoch=1, next_ticket=Ticket(1), next_group=1, most_waiters=100_000):
        given = {} if rows is None else rows
        self.tables = {name: [tuple(row) for row in given.get(name, ())] for name in ("Counters", "Bookings", "Log")}
        self.declared = opening
        self.number, self.first_epoch = epoch, epoch
        self.next_ticket, self.next_group = next_ticket.number, next_group
        self.most_waiters = most_waiters
        self.restored = 0
        self.waiters = {}
        # who waits for whom: the tickets of each pair of names
        self.pairs = {}
        self.states = {}
        self.kept = []
        self.commits = 0
        self.is_closed = False

    def put(self, script, values=None, patience=Patience.AS_WRITTEN):
        self.check(script, values)
        ticket = Ticket(self.next_ticket)
        self.next_ticket += 1
        self.enter(ticket, script, values, patience, 0)
        return ticket

    def restore(self, ticket, script, values=None, patience=Patience.AS_WRITTEN, batches=0):
        self.check(script, values)
        if not self.restored < ticket.number < self.next_ticket:
            raise TicketUsed("the ticket can't come in again")
        self.restored = ticket.number
        self.enter(ticket, script, values, patience, batches)

    def check(self, script, values):
        if script not in ("add", "pair", "fail", "roll", "alone"):
            raise Refused(201, 0, 1, 1)
        assert isinstance(values["me"], str)
        if len(self.waiters) >= self.most_waiters:
            raise RoomFull("as many scripts wait as there may be")

    def enter(self, ticket, script, values, patience, batches):
        most = {Patience.AS_WRITTEN: AS_WRITTEN, Patience.UNTIL_WITHDRAWN: None}.get(patience, patience)
        self.waiters[ticket] = (script, dict(values), most)
        if script == "pair":
            self.pairs.setdefault((values["me"], values["friend"]), []).append(ticket)
        self.states[ticket] = TicketWaits(batches)

    def withdraw(self, ticket):
        if ticket not in self.waiters:
            raise NobodyWaits("nobody waits under this ticket")
        self.end(ticket, TicketWithdrawn())

    def step(self):
        """At most so many scripts that need nobody, and so many that have their partner, by ticket."""
        done, self.counted = 0, False
        for ticket in sorted(self.waiters):
            if ticket in self.waiters and done < MOST_OF_A_STEP:
                done += self.moved(ticket)
        return "ran" if done or self.counted else "idle"

    def further(self):
        """Nobody is cut."""

    def moved(self, ticket):
        """How many ended by this one's turn."""
        script, values, most = self.waiters[ticket]
        if script == "add":
            return self.committed(script, [ticket])
        if script == "pair":
            friend = self.partner(values)
            if friend is None:
                self.states[ticket] = TicketLonely(0)
                return 0
            return self.committed(script, sorted([ticket, friend]))
        if script == "alone":
            batches = self.states[ticket].batches + 1
            if most is None or batches < most:
                self.states[ticket] = TicketWaits(batches)
                self.counted |= most is not None
                return 0
            self.group((), {}, [(ticket, TicketGaveUp())])
            return 1
        ending = TicketFailed(Failure.OVERFLOW) if script == "fail" else TicketRolledBack()
        self.group((), {}, [(ticket, ending)])
        return 1

    def partner(self, values):
        wanted = (values["friend"], values["me"])
        return min((ticket for ticket in self.pairs.get(wanted, ()) if ticket in self.waiters), default=None)

    def committed(self, kind, tickets):
        changes, answers = effects(kind, [self.waiters[ticket][1] for ticket in tickets], self.tables)
        changed(self.tables, changes)
        commits = []
        for ticket, answered in zip(tickets, answers):
            self.commits += 1
            commits.append(GroupCommit(ticket, self.commits, answered))
        self.group(tuple(commits), changes, [])
        return len(tickets)

    def group(self, commits, changes, ended):
        others = tuple(EndedTicket(*one) for one in ended)
        self.kept.append(Group(self.next_group, self.number, commits, changes, others))
        self.next_group += 1
        for commit in commits:
            self.end(commit.ticket, TicketCommitted(self.number, commit.number))
        for ticket, ending in ended:
            self.end(ticket, ending)

    def end(self, ticket, ending):
        """Somebody waits no more; one who is withdrawn is in no group."""
        self.states[ticket] = ending
        del self.waiters[ticket]

    def groups(self, first):
        return [group for group in self.kept if group.number >= first]

    def settled_through(self, number):
        self.kept = [group for group in self.kept if group.number > number]

    def state(self, ticket):
        return self.states.get(ticket, TicketUnknown())

    def why(self, ticket):
        return self.state(ticket).kind

    def explain(self, script, values=None):
        return None

    def batches(self, tickets):
        states = map(self.state, tickets)
        return [state.batches if isinstance(state, TicketWaits) else None for state in states]

    def waiting(self, first=Ticket(0)):
        return sorted(ticket for ticket in self.waiters if ticket >= first)

    def table(self, name):
        if name not in self.tables:
            raise Refused(401)
        return sorted(self.tables[name])

    def epoch(self):
        return self.number

    def turn(self, *drained):
        for name in drained:
            self.tables[name] = []
        self.number, self.commits = self.number + 1, 0
        return self.number - 1

    def report(self, version=1):
        return None

    def close(self):
        self.is_closed = True
