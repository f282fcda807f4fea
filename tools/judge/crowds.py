"""Crowds of people who wait, drawn from a kind and a seed: pairs, rings, fans, chains, strangers, and others.

A crowd has tables with rows, and calls: who is put, withdrawn, when steps are made until a room is idle and whether the
room is judged then, and when it is closed and restored. The same kind, seed and size give the same crowd.
"""

import random
from dataclasses import dataclass, field
from typing import Optional, Union

from scripts import Choice, Host, Pattern, Script, Var, is_among, script, written

COLUMNS = {
    "Flights": "fno INT, dest TEXT",
    "Bookings": "who TEXT, fno INT",
    "Free": "item INT, show INT",
    "Slots": "item INT",
    "Wishes": "who TEXT, item INT",
    "People": "who TEXT",
    "Names": "who TEXT, friend TEXT",
    "Counter": "n INT",
}
UNTIL_WITHDRAWN, AS_WRITTEN = "until withdrawn", "as written"


@dataclass(frozen=True)
class Put:
    """Somebody comes, and says for how long: until withdrawn, or as the script says. `apart` has the room bind the
    names of the script as values."""

    name: str
    script: Script
    stay: str = UNTIL_WITHDRAWN
    apart: bool = False


@dataclass(frozen=True)
class Withdraw:
    name: str


@dataclass(frozen=True)
class Steps:
    """So many steps; or as many as it takes until the room is idle, and then it is judged, or it isn't."""

    count: Optional[int] = None
    judged: bool = False


@dataclass(frozen=True)
class Restart:
    """The room is closed, and another one opened over its tables and those who wait."""


@dataclass(frozen=True)
class Committed:
    """By now these have to have committed."""

    names: tuple[str, ...]


Call = Union[Put, Withdraw, Steps, Restart, Committed]


@dataclass
class Crowd:
    """Who comes and what happens; the names of whom have to have committed in the end; sets, of any size, that are
    judged too where all of them wait; and how long a step may take, if that is judged."""

    kind: str
    seed: int
    rows: dict[str, list[tuple]]
    calls: list[Call]
    must: set[str] = field(default_factory=set)
    groups: list[list[str]] = field(default_factory=list)
    seconds: Optional[float] = None

    def opening(self):
        """The tables with their first rows, as an input has them."""
        return opening_text(self.rows)

    def lines(self):
        """The crowd in words: its tables, and a call in each line or more."""
        yield self.opening()
        for call in self.calls:
            if isinstance(call, Put):
                apart = ", names bound as values" if call.apart else ""
                yield f"-- put {call.name}, {call.stay}{apart}\n{call.script.text()}"
            elif isinstance(call, Withdraw):
                yield f"-- withdraw {call.name}\n"
            elif isinstance(call, Restart):
                yield "-- close and restore\n"
            elif isinstance(call, Committed):
                yield f"-- committed by now: {', '.join(call.names)}\n"
            else:
                many = "until idle" if call.count is None else f"{call.count}"
                yield f"-- steps: {many}{', judged' if call.judged else ''}\n"


def opening_text(rows):
    """The text of an input that has these tables with these rows, and no scripts."""
    creates = "".join(f"CREATE TABLE {name} ({COLUMNS[name]});\n" for name in rows)
    inserts = (f"INSERT INTO {name} VALUES ({', '.join(map(written, row))});\n" for name in rows for row in rows[name])
    return creates + "".join(inserts)


class Making:
    """A crowd that is being made: those who come, in order; calls before the room is idle for the first time; and what
    is changed after that."""

    def __init__(self, kind, seed, most):
        self.kind, self.seed = kind, seed
        self.make = random.Random(f"{kind} {seed}")
        self.size = self.make.randint(2, most)
        self.rows = {name: [] for name in COLUMNS}
        self.people, self.meanwhile, self.changes, self.names = [], [], [], 0
        self.must, self.groups = set(), []
        self.keeps_order = False
        self.is_quiet = False
        for number in range(self.make.randint(1, 3)):
            self.row("Flights", 122 + number, "LA")
        for number in range(self.make.randint(0, 2)):
            self.row("Flights", 300 + number, "Rome")

    def row(self, table, *values):
        if values not in self.rows[table]:
            self.rows[table].append(values)

    def name(self, stem):
        self.names += 1
        return f"{stem}{self.names}"

    def person(self, stem):
        """A new name, which stands among the people."""
        name = self.name(stem)
        self.row("People", name)
        return name

    def come(self, name, it, stay=None):
        """Somebody comes."""
        self.people.append(Put(name, it, stay or UNTIL_WITHDRAWN))

    def change(self, *texts):
        """A script comes after all the others, and changes tables."""
        self.changes.append(Put(self.name("writer"), script(*texts)))

    def goal(self):
        return self.make.choices(("LA", "Rome", "Oslo"), (6, 2, 2))[0]

    def random_change(self):
        """A change of tables that may let somebody be answered, or nobody any more."""
        make = self.make
        number, who = 122 + make.randint(0, 4), make.choice(self.people).name
        change = make.choice((
            f"INSERT INTO Flights VALUES ({number}, '{self.goal()}')",
            f"INSERT INTO Flights VALUES ({number + 500}, 'Oslo')",
            f"DELETE FROM Flights WHERE fno = {number}",
            f"UPDATE Flights SET dest = '{self.goal()}' WHERE fno = {number}",
            f"INSERT INTO Wishes VALUES ('{who}', {make.randint(1, 6)})",
            f"DELETE FROM Wishes WHERE who = '{who}'",
            f"INSERT INTO Free VALUES ({make.randint(1, 6)}, {make.randint(1, 2)})",
            f"INSERT INTO Slots VALUES ({make.randint(1, 6)})",
            f"UPDATE Names SET friend = '{make.choice(self.people).name}' WHERE who = '{who}'",
            "DELETE FROM Bookings",
            "DELETE FROM Flights WHERE fno = 0",
        ))
        self.change(change)

    def random_calls(self):
        """Changes, withdrawals and restarts, each of which is judged after steps."""
        calls = []
        for _ in range(self.make.randint(0, 4)):
            what = self.make.random()
            if what < 0.6:
                self.random_change()
                calls.append(self.changes.pop())
            elif what < 0.8:
                calls.append(Withdraw(self.make.choice(self.people).name))
            else:
                calls.append(Restart())
        return calls

    def crowd(self):
        """The crowd, put one by one or all at once, or with a few steps between."""
        make, people = self.make, list(self.people)
        if not self.keeps_order:
            make.shuffle(people)
        apart = make.random() < 0.3
        way = "at once" if self.meanwhile else make.choice(("one by one", "at once", "now and then"))
        calls = []
        for number, person in enumerate(people):
            calls.append(Put(person.name, person.script, person.stay, apart))
            if way == "one by one":
                calls.append(Steps(judged=number < 12 and make.random() < 0.2))
            elif way == "now and then" and make.random() < 0.3:
                calls.append(Restart() if make.random() < 0.1 else Steps(make.randint(1, 3)))
        calls += [*self.meanwhile, Steps(judged=True)]
        changes = list(self.changes)
        if not self.is_quiet:
            changes += self.random_calls()
        elif make.random() < 0.3:
            changes.insert(make.randint(0, len(changes)), Restart())
        for at, change in enumerate(changes):
            calls += [change, Steps(judged=at + 1 == len(changes) or make.random() * len(changes) < 4)]
        return Crowd(self.kind, self.seed, self.rows, calls, self.must, self.groups)


# ---- people


def flights_to(goal):
    return is_among(Var("f"), f"fno FROM Flights WHERE dest = '{goal}'")


def friend(me, wanted, goal="LA", *, within=None, before=()):
    """Books a flight together with those wanted, who have to take the same one."""
    posts = tuple(Pattern("R", (other, Var("f"))) for other in wanted)
    choice = Choice(Pattern("R", (me, Var("f"))), (flights_to(goal),), posts, ((1, "f"),))
    return script(*before, choice, f"INSERT INTO Bookings VALUES ('{me}', @f)", within=within)


def stranger(me, side, other):
    """Takes anybody of the other side with whom one of the wished things is shared."""
    tests = (is_among(Var("i"), f"item FROM Wishes WHERE who = '{me}'"), is_among(Var("who"), "who FROM People"))
    return script(Choice(Pattern(side, (me, Var("i"))), tests, (Pattern(other, (Var("who"), Var("i"))),)))


def late_friend(me, goal="LA"):
    """Reads the friend's name from a table, and books together with that friend."""
    asked = Choice(
        Pattern("Asked", (Var("w"),)), (is_among(Var("w"), f"friend FROM Names WHERE who = '{me}'"),), (), ((0, "w"),)
    )
    choice = Choice(
        Pattern("R", (me, Var("f"))), (flights_to(goal),), (Pattern("R", (Host("w"), Var("f"))),), ((1, "f"),)
    )
    return script(asked, choice, f"INSERT INTO Bookings VALUES ('{me}', @f)")


def taker(me, other, show):
    """Takes something free of a show together with another one, and takes it out of the table."""
    test = is_among(Var("i"), f"item FROM Free WHERE show = {show}")
    choice = Choice(Pattern("T", (me, Var("i"))), (test,), (Pattern("T", (other, Var("i"))),), ((1, "i"),))
    return script(choice, f"DELETE FROM Free WHERE item = @i AND show = {show}")


def guest(me, other):
    """Comes along with a taker, whatever that one takes."""
    test = is_among(Var("i"), "item FROM Slots")
    return script(Choice(Pattern("T", (me, Var("i"))), (test,), (Pattern("T", (other, Var("i"))),)))


def trader(me, thing, wanted):
    """Gives a thing to anybody, and wants another one."""
    anybody = is_among(Var("to"), "who FROM People")
    return script(Choice(Pattern("Gives", (thing, Var("to"))), (anybody,), (Pattern("Gives", (wanted, me)),)))


def driver(me, seats):
    """Has a seat for each of several riders, a statement a seat."""
    choices = []
    for seat in range(seats):
        others = tuple(f"r <> @r{earlier}" for earlier in range(seat))
        tests = (is_among(Var("r"), "who FROM People"), *others)
        choices.append(
            Choice(Pattern("Rides", (me, Var("r"))), tests, (Pattern("Riders", (Var("r"), me)),), ((1, f"r{seat}"),))
        )
    return script(*choices)


def rider(me, whose):
    """Rides with a driver, or with any."""
    if whose is not None:
        return script(Choice(Pattern("Riders", (me, whose)), (), (Pattern("Rides", (whose, me)),)))
    test = is_among(Var("d"), "who FROM People")
    return script(Choice(Pattern("Riders", (me, Var("d"))), (test,), (Pattern("Rides", (Var("d"), me)),)))


# ---- kinds of crowds


def pairs(it):
    for _ in range(it.size):
        one, other = it.person("p"), it.person("p")
        goal = it.goal()
        it.come(one, friend(one, [other], goal))
        it.come(other, friend(other, [one], goal if it.make.random() < 0.9 else it.goal()))


def rings(it):
    while len(it.people) < it.size:
        names = [it.person("r") for _ in range(it.make.randint(3, 9))]
        goal = it.goal()
        it.groups.append(names)
        for at, name in enumerate(names):
            it.come(name, friend(name, [names[(at + 1) % len(names)]], goal))


def fans(it):
    """Stars and their fans, some of whom want what nobody else wants; a star demands nobody, or a partner."""
    for _ in range(it.make.randint(1, 3)):
        star, partner, goal = it.person("s"), it.person("s"), it.goal()
        it.come(star, friend(star, [partner] if it.make.random() < 0.7 else [], goal))
        it.come(partner, friend(partner, [star], goal))
        for _ in range(it.make.randint(0, it.size)):
            name = it.person("f")
            it.come(name, friend(name, [star], goal if it.make.random() < 0.6 else it.goal()))


def chains(it):
    while len(it.people) < it.size:
        names = [it.person("c") for _ in range(it.make.randint(2, 6))]
        goal = it.goal()
        last = it.make.choice(([], [names[-2]], [names[0]]))
        for name, other in zip(names, names[1:]):
            it.come(name, friend(name, [other], goal))
        it.come(names[-1], friend(names[-1], last, goal))


def strangers(it):
    things = max(3, it.size)
    for side, other in (("Buys", "Sells"), ("Sells", "Buys")):
        for _ in range(it.make.randint(1, it.size)):
            name = it.person("x")
            for _ in range(it.make.randint(0, 2)):
                it.row("Wishes", name, it.make.randint(1, things))
            it.come(name, stranger(name, side, other))


def late_names(it):
    for _ in range(it.size):
        one, other = it.person("l"), it.person("l")
        goal = it.goal()
        it.row("Names", one, other)
        it.row("Names", other, one if it.make.random() < 0.8 else it.make.choice(it.people or [Put(one, None)]).name)
        if it.make.random() < 0.2:
            it.row("Names", one, it.person("l"))
        it.come(one, late_friend(one, goal))
        it.come(other, late_friend(other, goal) if it.make.random() < 0.7 else friend(other, [one], goal))


def several(it):
    """Scripts of several entangled statements, for several partners."""
    while len(it.people) < it.size:
        names = [it.person("m") for _ in range(it.make.randint(2, 4))]
        for name in names:
            others = [one for one in names if one != name]
            count = it.make.choice((1, 2, 2, 3))
            choices = []
            for relation in it.make.sample(("R", "H", "B"), count):
                posts = tuple(Pattern(relation, (other, Var("f"))) for other in it.make.sample(others, 1))
                choices.append(Choice(Pattern(relation, (name, Var("f"))), (flights_to(it.goal()),), posts))
            it.come(name, script(*choices))


def writers_before(it):
    """Pairs of whom one writes what it reads, or what somebody else reads, before its entangled statement."""
    for number in range(1, 4):
        it.row("Slots", number)
    for _ in range(it.size):
        one, other, item = it.person("w"), it.person("w"), it.make.randint(1, 5)
        before = it.make.choice((
            f"INSERT INTO Wishes VALUES ('{one}', {item})",
            f"DELETE FROM Wishes WHERE who = '{other}'",
            f"INSERT INTO Bookings VALUES ('{one}', {item})",
            f"SET @n = {item}",
        ))
        if it.make.random() < 0.4:
            it.row("Wishes", one, it.make.randint(1, 5))
        test = is_among(Var("i"), f"item FROM Wishes WHERE who = '{one}'")
        choice = Choice(Pattern("T", (one, Var("i"))), (test,), (Pattern("T", (other, Var("i"))),))
        it.come(one, script(before, choice))
        it.come(other, guest(other, one))


def rivals(it):
    """Rings of people who trade, and rivals who want a thing of the ring, or give the same one."""
    names = [it.person("t") for _ in range(it.make.randint(2, 4))]
    things = [f"{name}'s" for name in names]
    for at, name in enumerate(names):
        it.come(name, trader(name, things[at], things[(at + 1) % len(names)]))
    it.groups.append(names)
    for _ in range(it.size):
        name = it.person("t")
        thing = it.make.choice((f"{name}'s", it.make.choice(things)))
        it.come(name, trader(name, thing, it.make.choice(things)))


def drivers(it):
    """Drivers of one to three seats, who come first, and riders of one or of any."""
    it.keeps_order = it.make.random() < 0.8
    names = [it.person("d") for _ in range(it.make.randint(1, max(1, it.size // 4)))]
    seats = {name: it.make.randint(1, 3) for name in names}
    for name in names:
        it.come(name, driver(name, seats[name]))
    for name in names:
        for _ in range(seats[name] + it.make.randint(-1, 1)):
            one = it.person("r")
            it.come(one, rider(one, name if it.make.random() < 0.8 else None))


def takers(it):
    """Couples who take something scarce: one of each couple reads it and then writes it."""
    for item in range(1, it.make.randint(1, it.size) + 1):
        it.row("Slots", item)
        it.row("Free", item, 1)
    for _ in range(it.size):
        one, other = it.person("k"), it.person("k")
        it.come(one, taker(one, other, it.make.choice((1, 1, 1, 2))))
        it.come(other, guest(other, one))


def mixed(it):
    """Some of several kinds, who may demand each other."""
    whole = it.size
    for kind in it.make.sample(ORDINARY, 3):
        it.size = max(2, whole // 6)
        kind(it)
    for _ in range(it.make.randint(0, 3)):
        others = [person.name for person in it.people]
        name = it.person("z")
        it.come(name, friend(name, it.make.sample(others, it.make.randint(1, 2)), it.goal()))
    it.keeps_order = False


def few_names(it):
    """People whose statements offer a name of few and demand names of few, their own among them, or any name."""
    make = it.make
    names = "ABCDEFGH"[: make.randint(2, 8)]
    for name in names:
        it.row("People", name)

    def choice():
        demanded = [make.choice(names) if make.random() < 0.85 else None for _ in range(make.choice((0, 1, 1, 1, 2)))]
        tests = (flights_to(it.goal()), *((is_among(Var("w"), "who FROM People"),) if None in demanded else ()))
        posts = tuple(Pattern("R", (name if name else Var("w"), Var("f"))) for name in demanded)
        return Choice(Pattern("R", (make.choice(names), Var("f"))), tests, posts, ((1, "f"),))

    for _ in range(make.randint(1, 12)):
        name = it.name("n")
        statements = [choice() for _ in range(make.choice((1, 1, 1, 2)))]
        if make.random() < 0.2:
            statements.insert(make.randint(1, len(statements)), "SET @f = @f + 9223372036854775600")
        if make.random() < 0.3:
            statements.append(f"INSERT INTO Bookings VALUES ('{name}', @f)")
        it.come(name, script(*statements))


ORDINARY = (pairs, rings, fans, chains, strangers, late_names, several, writers_before, rivals, drivers, takers)
KINDS = {kind.__name__: kind for kind in (*ORDINARY, mixed, few_names)}
