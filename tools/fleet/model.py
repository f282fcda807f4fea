"""A model of an inbox, two desks and a synchronous standby, and of what may befall them; and wrong versions of it.

Two friends ask, each with a key. A front writes what is asked into the inbox, and tells how it stands. A desk claims
the store, takes what stands in the inbox, puts it by key, makes a step that books both friends in one group, withdraws,
takes rows out, and forgets. A state is the database of the primary, that of its standby, which is an earlier one, what
each desk has in memory, and what clients were told. A transaction that is waited for ends in one of these ways:

  it goes through, and the standby has it then: only so is it acknowledged
  it goes through, and its acknowledgement is lost
  it goes through at the primary alone, can be read there, and isn't acknowledged: the wait for the standby was ended
  it is lost before it goes through: as if it hadn't been sent

The faults are the second and the third of these, the end of a desk, a second desk beside the first, and the standby
taking the place of the primary.

Where the standby has all that the primary has, clients are told at once how their requests stand: what was told is what
has to hold, so who is told more finds more. Two desks that change places are one state.
"""

from collections import namedtuple
from functools import partial

# Of each key the row of the inbox: none, queued, or rejected; whether it is to be withdrawn; and how many tickets it
# was ever given, which no program knows. `tickets` has (number, key, how it stands); `kept` those that are forgotten.
Database = namedtuple("Database", "claim token next rows withdrawals given tickets kept")
# A desk's claim, its last token, how many it drew, what waits by its memory, the number of the next ticket, which rows
# it is to take out, and what it has sent without an answer.
Desk = namedtuple("Desk", "claim token drawn waits next done sent")
# What a desk sends: of what kind, of which keys, the token it draws, and what its memory is once that stands.
Sent = namedtuple("Sent", "kind keys token waits next")
State = namedtuple("State", "primary standby desks told faults incarnations looking")

NONE, QUEUED, REJECTED = "-", "q", "x"
WAITS, BOOKED, WITHDRAWN = "waits", "booked", "withdrawn"
ASKED, UNKNOWN = "asked", "unknown"


class Broken(Exception):
    """Something holds no more that has to."""


def start(keys):
    """Nobody has asked for anything, and no desk is there."""
    empty = Database(0, (0, 0), 1, (NONE,) * keys, (False,) * keys, (0,) * keys, (), ())
    return State(empty, empty, (None, None), (None,) * keys, 0, 0, None)


def with_item(items, at, item):
    return items[:at] + (item,) + items[at + 1 :]


def found(database, key):
    """How a request stands: (how, its ticket)."""
    for number, of, how in (*database.tickets, *database.kept):
        if of == key:
            return how, number
    row = database.rows[key]
    return {NONE: (UNKNOWN, 0), QUEUED: (ASKED, 0), REJECTED: ("rejected", 0)}[row]


class Protocol:
    """What fronts and desks do. A wrong version does one thing otherwise."""

    # whether who looks for one request is told of that one alone
    looks_apart = False

    def __init__(self, keys=2, faults=3, rejects=(), withdraws=(0,), forgets=True):
        self.keys, self.faults = keys, faults
        # keys that the first desk that comes rejects, and that a later one knows; keys that somebody withdraws
        self.rejects, self.withdraws, self.forgets = frozenset(rejects), withdraws, forgets

    # ---- transactions

    def durable(self, state, database, acknowledged):
        """The states behind a transaction that is waited for: `acknowledged` makes the one where it is told."""
        whole = self.told(state._replace(primary=database, standby=database))
        yield acknowledged(whole)
        if state.faults < self.faults:
            yield whole._replace(faults=state.faults + 1)
            yield state._replace(primary=database, faults=state.faults + 1)

    def tell(self, state, key, seen):
        """A client is told how a request stands."""
        before = state.told[key]
        if before is not None and seen[0] == UNKNOWN:
            raise Broken(f"request {key}, of which {before} was told, is unknown")
        if before is not None and before[0] in (BOOKED, WITHDRAWN, "rejected") and before != seen:
            raise Broken(f"request {key} was told {before}, and then {seen}")
        return state if seen[0] == UNKNOWN else state._replace(told=with_item(state.told, key, seen))

    def told(self, state):
        """The standby has all: each client is told how its request stands."""
        seen = tuple(found(state.primary, key) for key in range(self.keys))
        if seen == state.told:
            return state
        for key in range(self.keys):
            state = self.tell(state, key, seen[key])
        return state

    # ---- fronts

    def ask(self, state, key):
        database = state.primary
        if database.rows[key] == NONE:
            database = database._replace(rows=with_item(database.rows, key, QUEUED))
        # where the row is there it is written again, so that this waits for the standby
        return self.durable(state, database, lambda after: self.tell(after, key, found(database, key)))

    def look(self, state, key):
        """Reads, writes a record behind that, and tells once this is acknowledged."""
        yield self.told(state._replace(standby=state.primary))

    def looked(self, state):
        """The second half of a look that reads twice."""
        return ()

    def withdraw(self, state, key):
        database = state.primary
        database = database._replace(withdrawals=with_item(database.withdrawals, key, True))
        return self.durable(state, database, lambda after: after)

    # ---- desks

    def load(self, state, at):
        """A desk claims the store; a number for each that ever did makes its tokens its own."""
        incarnation = state.incarnations + 1
        token = (incarnation, 0)
        database = state.primary._replace(claim=state.primary.claim + 1, token=token)
        waits = tuple((number, key) for number, key, how in database.tickets if how == WAITS)
        desk = Desk(database.claim, token, 0, waits, database.next, (), None)
        state = state._replace(incarnations=incarnation)
        return self.durable(state, database, lambda after: self.desk(after, at, desk))

    def desk(self, state, at, desk):
        return state._replace(desks=with_item(state.desks, at, desk))

    def ordered(self, state):
        """The same state, with its desks in one order."""
        one, two = state.desks
        if one is None and two is not None or one is not None and two is not None and one.token < two.token:
            return state._replace(desks=(two, one))
        return state

    def take(self, state, at):
        """Puts what stands in the inbox, but for what has a ticket already; then withdraws. The rows stay there."""
        database, desk = state.primary, state.desks[at]
        known = self.known(state, desk)
        puts = tuple(key for key in range(self.keys) if database.rows[key] == QUEUED)
        rejected = tuple(key for key in puts if key not in known and self.is_rejected(desk, key))
        new = tuple(key for key in puts if key not in known and key not in rejected)
        if rejected:
            yield from self.reject(state, at, desk, rejected)
        elif new:
            waits = desk.waits + tuple((desk.next + n, key) for n, key in enumerate(new))
            done = tuple(key for key in puts if key in known)
            yield self.send(state, at, desk._replace(done=done), "put", new, waits, desk.next + len(new))
        elif puts:
            yield self.desk(state, at, desk._replace(done=puts))
        elif any(database.withdrawals):
            yield self.leave(state, at, tuple(key for key in range(self.keys) if database.withdrawals[key]))

    def leave(self, state, at, withdrawals):
        """Withdraws what waits of these."""
        desk = state.desks[at]
        leaving = tuple(key for _, key in desk.waits if key in withdrawals)
        after = desk._replace(done=tuple(-1 - key for key in withdrawals))
        if not leaving:
            return self.desk(state, at, after)
        waits = tuple(one for one in desk.waits if one[1] not in leaving)
        return self.send(state, at, after, "withdraw", leaving, waits, desk.next)

    def is_rejected(self, desk, key):
        """Whether this desk knows no such script."""
        return key in self.rejects and desk.token[0] == 1

    def known(self, state, desk):
        """The keys that were used, by memory and by the store."""
        return {key for _, key in desk.waits} | {key for _, key, _ in (*state.primary.tickets, *state.primary.kept)}

    def reject(self, state, at, desk, keys):
        """Says of rows that they can't be put, under the desk's own claim."""
        database = state.primary
        if self.is_fenced(database, desk):
            yield self.desk(state, at, None)
            return
        for key in keys:
            if database.rows[key] == QUEUED:
                database = database._replace(rows=with_item(database.rows, key, REJECTED))
        yield from self.durable(state, database, lambda after: self.desk(after, at, desk))

    def is_fenced(self, database, desk):
        return (database.claim, database.token) != (desk.claim, desk.token)

    def send(self, state, at, desk, kind, keys, waits, following):
        """Draws a token, and remembers what is sent until it is known to stand."""
        token = (desk.token[0], desk.drawn + 1)
        sent = Sent(kind, keys, token, waits, following)
        return self.desk(state, at, desk._replace(drawn=desk.drawn + 1, sent=sent))

    def write(self, state, at):
        """Makes the transaction that was sent, once more if it isn't known to stand."""
        desk, database = state.desks[at], state.primary
        sent = desk.sent
        if (database.claim, database.token) == (desk.claim, desk.token):
            return self.durable(state, self.written(database, desk), partial(self.stands, at=at))
        if (database.claim, database.token) == (desk.claim, sent.token):
            return self.judged(state, at)
        return [self.desk(state, at, None)]

    def judged(self, state, at):
        """The write stands, and may be told once the standby has it too."""
        return [self.stands(state._replace(standby=state.primary), at)]

    def stands(self, state, at):
        """What was sent stands: the room tells it, and its memory is that from now on."""
        desk = state.desks[at]
        sent = desk.sent
        done = sent.keys if sent.kind == "put" else ()
        after = desk._replace(token=sent.token, waits=sent.waits, next=sent.next, done=desk.done + done, sent=None)
        state = self.desk(state, at, after)
        for key in sent.keys:
            state = self.tell(state, key, found(state.primary, key))
        return state

    def written(self, database, desk):
        """The database behind what a desk has sent."""
        sent = desk.sent
        database = database._replace(token=sent.token, next=sent.next)
        if sent.kind == "put":
            numbers = {key: number for number, key in sent.waits if number >= desk.next}
            tickets = database.tickets + tuple((numbers[key], key, WAITS) for key in sent.keys)
            given = tuple(count + (key in sent.keys) for key, count in enumerate(database.given))
            return database._replace(tickets=tickets, given=given)
        how = BOOKED if sent.kind == "step" else WITHDRAWN
        numbers = {number for number, key in desk.waits if key in sent.keys}
        tickets = tuple((n, key, how if n in numbers else before) for n, key, before in database.tickets)
        return database._replace(tickets=tickets)

    def step(self, state, at):
        """Books those who wait for each other: keys 0 and 1, 2 and 3 and so on."""
        desk = state.desks[at]
        waiting = {key for _, key in desk.waits}
        for key in range(0, self.keys, 2):
            if {key, key + 1} <= waiting:
                waits = tuple(one for one in desk.waits if one[1] not in (key, key + 1))
                yield self.send(state, at, desk, "step", (key, key + 1), waits, desk.next)
                return

    def clean(self, state, at):
        """Takes rows out whose requests the store has, under the desk's own claim; that needn't be durable."""
        desk, database = state.desks[at], state.primary
        if self.is_fenced(database, desk):
            yield self.desk(state, at, None)
            return
        rows, withdrawals = list(database.rows), list(database.withdrawals)
        for one in desk.done:
            if one < 0:
                withdrawals[-1 - one] = False
            else:
                rows[one] = NONE
        database = database._replace(rows=tuple(rows), withdrawals=tuple(withdrawals))
        yield self.desk(state._replace(primary=database), at, desk._replace(done=()))

    def forget(self, state, at):
        """Forgets what has ended, but for its key and how it ended."""
        database, desk = state.primary, state.desks[at]
        if self.is_fenced(database, desk):
            return [self.desk(state, at, None)]
        ended = tuple(one for one in database.tickets if one[2] != WAITS)
        tickets = tuple(one for one in database.tickets if one[2] == WAITS)
        database = database._replace(tickets=tickets, kept=database.kept + ended)
        return self.durable(state, database, lambda after: after) if ended else []

    # ---- all that may come next

    def following(self, state):
        for key in range(self.keys):
            if state.primary.rows[key] != REJECTED:
                yield from self.ask(state, key)
            if key == 0 or self.looks_apart:
                yield from self.look(state, key)
            if key in self.withdraws and state.told[key] is not None and not state.primary.withdrawals[key]:
                if found(state.primary, key)[0] in (ASKED, WAITS):
                    yield from self.withdraw(state, key)
        yield from self.looked(state)
        for at, desk in enumerate(state.desks):
            if desk is not None:
                yield from self.moves(state, at, desk)
            elif not any(state.desks):
                yield from self.load(state, at)
            elif state.faults < self.faults:
                yield from self.load(state._replace(faults=state.faults + 1), at)
        yield from self.losses(state)

    def moves(self, state, at, desk):
        """What a desk may do."""
        if desk.sent is not None:
            yield from self.write(state, at)
        else:
            yield from self.clean(state, at) if desk.done else self.take(state, at)
            yield from self.step(state, at)
            if self.forgets:
                yield from self.forget(state, at)
        if state.faults < self.faults:
            yield self.desk(state, at, None)._replace(faults=state.faults + 1)

    def losses(self, state):
        """The standby takes the place of the primary."""
        if state.standby != state.primary and state.faults < self.faults:
            yield state._replace(primary=state.standby, faults=state.faults + 1, looking=None)

    # ---- what has to hold

    def check(self, state):
        """Raises Broken if something doesn't hold, at the primary or at the standby that may take its place."""
        for database in (state.primary, state.standby):
            for key, told in enumerate(state.told):
                how, number = found(database, key)
                if told is not None and how == UNKNOWN:
                    raise Broken(f"request {key}, of which {told} was told, is lost")
                if told is not None and told[0] in (WAITS, BOOKED, WITHDRAWN) and told[1] != number:
                    raise Broken(f"request {key} has ticket {number}, and {told} was told")
                if told is not None and told[0] in (BOOKED, WITHDRAWN, "rejected") and told[0] != how:
                    raise Broken(f"request {key} is {how}, and {told} was told")
            if any(count > 1 for count in database.given):
                raise Broken(f"a request was put twice: {database}")
            booked = {key for _, key, how in (*database.tickets, *database.kept) if how == BOOKED}
            if any((key in booked) != (key + 1 in booked) for key in range(0, self.keys, 2)):
                raise Broken(f"half of a group is there: {database}")


# ---- wrong versions


class ConflictDoesNothing(Protocol):
    """Who asks again is acknowledged without a wait for the standby."""

    def ask(self, state, key):
        if state.primary.rows[key] != NONE:
            return [self.tell(state, key, found(state.primary, key))]
        return super().ask(state, key)


class TellsWhatItReads(Protocol):
    """A front tells what it reads, whether or not the standby has it."""

    looks_apart = True

    def look(self, state, key):
        yield self.tell(state, key, found(state.primary, key))


class ReadsTwice(Protocol):
    """A front reads the tickets, and then the inbox."""

    looks_apart = True

    def look(self, state, key):
        if state.looking is None:
            how = next((one for one in (*state.primary.tickets, *state.primary.kept) if one[1] == key), None)
            yield state._replace(looking=(key, how))

    def looked(self, state):
        if state.looking is not None:
            key, ticket = state.looking
            row = found(state.primary._replace(tickets=(), kept=()), key)
            seen = row if ticket is None else (ticket[2], ticket[0])
            yield self.tell(state._replace(standby=state.primary, looking=None), key, seen)


class TakesOutFirst(Protocol):
    """A desk takes rows out when it takes them."""

    def take(self, state, at):
        rows = tuple(NONE if row == QUEUED else row for row in state.primary.rows)
        for after in super().take(state, at):
            yield after._replace(primary=after.primary._replace(rows=rows))


class PutsWithoutKeys(Protocol):
    """A desk doesn't ask the store which keys were used."""

    def known(self, state, desk):
        return {key for _, key in desk.waits}


class ForgetsKeys(Protocol):
    """What is forgotten leaves nothing."""

    def forget(self, state, at):
        for after in super().forget(state, at):
            primary = after.primary._replace(kept=())
            yield after._replace(primary=primary, standby=primary if after.standby == after.primary else after.standby)


class RejectsUnfenced(Protocol):
    """A desk rejects whoever has the store."""

    def reject(self, state, at, desk, keys):
        fenced = desk._replace(claim=state.primary.claim, token=state.primary.token)
        for after in super().reject(state, at, fenced, keys):
            yield self.desk(after, at, desk) if after.desks[at] is fenced else after


class TakesOutUnfenced(Protocol):
    """A desk takes rows out whoever has the store."""

    def clean(self, state, at):
        desk = state.desks[at]
        fenced = desk._replace(claim=state.primary.claim, token=state.primary.token)
        for after in super().clean(self.desk(state, at, fenced), at):
            yield self.desk(after, at, desk._replace(done=()))


class WritesUnfenced(Protocol):
    """A desk writes whoever has claimed the store since."""

    def write(self, state, at):
        desk = state.desks[at]
        if state.primary.token != desk.sent.token:
            return self.durable(state, self.written(state.primary, desk), partial(self.stands, at=at))
        return super().write(state, at)


class ToldWhereItStands(Protocol):
    """A write that is found to stand is told without a wait for the standby."""

    def judged(self, state, at):
        return [self.stands(state, at)]


class BooksByHalves(Protocol):
    """A step writes who was booked one by one."""

    def step(self, state, at):
        desk = state.desks[at]
        waiting = {key for _, key in desk.waits}
        if {0, 1} <= waiting or state.primary.tickets and waiting == {1}:
            key = min(waiting)
            waits = tuple(one for one in desk.waits if one[1] != key)
            yield self.send(state, at, desk, "step", (key,), waits, desk.next)


# Of each wrong version what it is tried with.
WRONG = {
    ConflictDoesNothing: {},
    TellsWhatItReads: {},
    ReadsTwice: {},
    TakesOutFirst: {},
    PutsWithoutKeys: {},
    ForgetsKeys: {},
    RejectsUnfenced: {"rejects": (1,), "withdraws": ()},
    TakesOutUnfenced: {"rejects": (1,), "withdraws": (), "forgets": False},
    WritesUnfenced: {},
    ToldWhereItStands: {},
    BooksByHalves: {},
}
# What is explored whole: a name, and how the protocol is made.
WHOLE = {
    "with withdrawals": {"forgets": False},
    "with forgetting": {"withdraws": ()},
    "a desk that knows a script less": {"rejects": (1,), "withdraws": (), "forgets": False},
}


def explored(protocol, most=10_000_000):
    """Goes through all states that may come, each once; how many these are. Raises Broken."""
    first = start(protocol.keys)
    seen, level = {first}, [first]
    while level:
        following = []
        for state in level:
            for after in map(protocol.ordered, protocol.following(state)):
                if after not in seen:
                    protocol.check(after)
                    seen.add(after)
                    following.append(after)
            if len(seen) > most:
                raise MemoryError(f"more than {most:,} states")
        level = following
    return len(seen)


def wandered(protocol, steps, chance):
    """Goes one way of so many steps, at random. Raises Broken."""
    state = start(protocol.keys)
    for _ in range(steps):
        ways = list(protocol.following(state))
        state = chance.choice(ways)
        protocol.check(state)
