"""Crowds by which rooms and `entangle meet` are measured, each with the most that can be served.

The most is worked out apart from any room: by a greatest matching of those who take something with what they may take,
by trying all ways where there are few, or as a bound that the crowd reaches by how it is made.
"""

import itertools
import random
from dataclasses import dataclass
from typing import Callable

from crowds import AS_WRITTEN, COLUMNS, Crowd, Put, Steps, driver, friend, rider, trader
from scripts import Choice, Pattern, Var, is_among, script
from verdict import Trials


@dataclass(frozen=True)
class Figure:
    """A crowd, the most who can be served, and how that is known."""

    name: str
    crowd: Callable[[], Crowd]
    most: Callable[[Crowd], int]


class Measured:
    """A crowd that is being made: rows, and those who come, in order."""

    def __init__(self, name):
        self.name, self.rows, self.people, self.wishes = name, {one: [] for one in COLUMNS}, [], {}

    def come(self, name, it):
        self.people.append((name, it))

    def crowd(self, seed=None):
        """The crowd, in random order of a seed, or as it came."""
        if seed is not None:
            random.Random(seed).shuffle(self.people)
        calls = [Put(name, it, AS_WRITTEN) for name, it in self.people]
        return Crowd(self.name, seed or 0, self.rows, [*calls, Steps()])


def as_input(crowd):
    """The crowd as an input for the program."""
    return crowd.opening() + "".join(call.script.text() for call in crowd.calls if isinstance(call, Put))


# ---- matching


def greatest_matching(wishes):
    """How many of those who wish for one of several things can each have one of their own."""
    holder = {}

    def gets(one, asked):
        for thing in wishes[one]:
            if thing not in asked:
                asked.add(thing)
                if thing not in holder or gets(holder[thing], asked):
                    holder[thing] = one
                    return True
        return False

    return sum(gets(one, set()) for one in wishes)


def greatest_by_trying(wishes):
    """The same by trying all ways: for few."""
    if not wishes:
        return 0
    (_, things), *others = wishes.items()
    rest = dict(others)
    ways = [greatest_by_trying(rest)]
    for thing in things:
        ways.append(1 + greatest_by_trying({one: [it for it in its if it != thing] for one, its in rest.items()}))
    return max(ways)


# ---- a restaurant


def couple(it, one, other, hours):
    """A couple who take a table at one of some hours: one of the two takes it out of the free ones."""
    for hour in hours:
        it.rows["Wishes"].append((one, hour))
    free = "f.item FROM Free AS f, Wishes AS w WHERE w.who = '{}' AND w.item = f.show".format(one)
    head, post = Pattern("T", (one, Var("i"))), Pattern("T", (other, Var("i")))
    takes = Choice(head, (is_among(Var("i"), free),), (post,), ((1, "i"),))
    it.come(one, script(takes, "DELETE FROM Free WHERE item = @i"))
    it.come(other, script(Choice(post, (is_among(Var("i"), "item FROM Slots"),), (head,))))


def restaurant(guests):
    """Couples, each of whom can come at one or two of six hours, mostly the early ones; later there are more tables."""
    make, it = random.Random(f"restaurant {guests}"), Measured(f"restaurant of {guests}")
    couples = guests // 2
    tables = [max(1, couples * share // 100) for share in (8, 10, 12, 14, 18, 24)]
    numbers = itertools.count(1)
    items = {hour: [next(numbers) for _ in range(count)] for hour, count in enumerate(tables)}
    it.rows["Free"] = [(item, hour) for hour, its in items.items() for item in its]
    it.rows["Slots"] = [(item,) for its in items.values() for item in its]
    for number in range(couples):
        hours = {make.choices(range(6), (26, 22, 18, 14, 12, 8))[0] for _ in range(make.choice((1, 2, 2)))}
        couple(it, f"g{number}", f"h{number}", sorted(hours))
    return it.crowd(guests)


def most_at_tables(crowd):
    """Twice the greatest matching of couples with tables at their hours."""
    return 2 * greatest_matching(wishes_of(crowd))


def wishes_of(crowd):
    """The tables that each couple can have, by the rows."""
    tables = {}
    for item, hour in crowd.rows["Free"]:
        tables.setdefault(hour, []).append(item)
    wishes = {}
    for who, hour in crowd.rows["Wishes"]:
        wishes.setdefault(who, []).extend(tables.get(hour, ()))
    return wishes


# ---- a car pool


def commuter(me, side, other):
    """Rides with, or takes along, anybody of the other side who goes on one of the same days."""
    tests = (is_among(Var("i"), f"item FROM Wishes WHERE who = '{me}'"), is_among(Var("who"), "who FROM People"))
    return script(Choice(Pattern(side, (me, Var("i"))), tests, (Pattern(other, (Var("who"), Var("i"))),)))


def car_pool(people):
    """A third of the people have a car with one free seat; each goes on one to three of many days."""
    make, it = random.Random(f"car pool {people}"), Measured(f"car pool of {people}")
    for number in range(people):
        side, other = ("Drives", "Rides") if number % 3 == 0 else ("Rides", "Drives")
        name = f"{side[0].lower()}{number}"
        it.rows["People"].append((name,))
        it.rows["Wishes"] += [(name, day) for day in sorted(make.sample(range(people // 8), make.choice((1, 2, 3))))]
        it.come(name, commuter(name, side, other))
    return it.crowd(people)


def most_in_cars(crowd):
    """Twice the greatest matching of drivers with riders of a common day."""
    days = {}
    for who, day in crowd.rows["Wishes"]:
        days.setdefault(who, set()).add(day)
    riders = [who for who in days if who.startswith("r")]
    return 2 * greatest_matching({
        one: [rider_ for rider_ in riders if days[one] & days[rider_]] for one in days if one.startswith("d")
    })


# ---- others


def couple_without_a_car():
    """Six couples who take one of six cars, and behind the first one a couple whose car isn't there."""
    it = Measured("one couple without a car")
    it.rows["Free"] = [(item, 1) for item in range(1, 7)]
    it.rows["Slots"] = [(item,) for item in range(1, 7)]
    couple(it, "g", "h", [2])
    for number in range(6):
        couple(it, f"g{number}", f"h{number}", [1])
    return it.crowd()


def ring_with_a_rival():
    """A ring of three who trade, and a fourth who wants a thing of it."""
    it = Measured("a ring with a rival")
    it.rows["People"] = [(name,) for name in ("Ann", "Bob", "Cy", "Dan")]
    for name, thing, wanted in (
        ("Ann", "bike", "car"), ("Bob", "car", "boat"), ("Dan", "skates", "bike"), ("Cy", "boat", "bike"),
    ):
        it.come(name, trader(name, thing, wanted))
    return it.crowd()


def most_by_trying(crowd):
    """The most who can be served where nobody's answer changes tables: all ways to part some of them into sets, each
    of which a run by itself answers whole."""
    scripts = {call.name: call.script for call in crowd.calls if isinstance(call, Put)}
    trials, answered = Trials(crowd.rows), []
    for count in range(1, len(scripts) + 1):
        for names in itertools.combinations(scripts, count):
            fates, _ = trials.run([scripts[name] for name in names])
            if all(fate == "committed" for fate in fates):
                answered.append(frozenset(names))
    trials.close()

    def most(left):
        return max((len(one) + most(left - one) for one in answered if one <= left), default=0)

    return most(frozenset(scripts))


def drivers_of_three_seats(count):
    """Drivers with a seat for each of three riders, who name them; each driver comes before the riders."""
    it = Measured(f"{count} drivers of three seats")
    for number in range(count):
        names = [f"d{number}", *(f"r{number}-{seat}" for seat in range(3))]
        it.rows["People"] += [(name,) for name in names[1:]]
        it.come(names[0], driver(names[0], 3))
        for name in names[1:]:
            it.come(name, rider(name, names[0]))
    return it.crowd()


def hopeless(count):
    """Pairs who want to fly to where no flight goes, in random order."""
    it = Measured(f"{count} hopeless")
    it.rows["Flights"] = [(122, "LA"), (123, "LA")]
    for number in range(count // 2):
        one, other = f"a{number}", f"b{number}"
        it.come(one, friend(one, [other], "Oslo"))
        it.come(other, friend(other, [one], "Oslo"))
    return it.crowd(count)


def pairs_and_rings(count):
    """Pairs, and rings of 3 to 9, in random order."""
    make, it = random.Random(f"pairs and rings {count}"), Measured(f"{count} in pairs and rings")
    it.rows["Flights"] = [(122, "LA"), (123, "LA")]
    while len(it.people) < count:
        size = make.choice((2, 2, 2, *range(3, 10)))
        names = [f"p{len(it.people)}-{at}" for at in range(size)]
        for at, name in enumerate(names):
            it.come(name, friend(name, [names[(at + 1) % size]]))
    return it.crowd(count)


def everybody(crowd):
    return sum(isinstance(call, Put) for call in crowd.calls)


FIGURES = (
    Figure("restaurant-200", lambda: restaurant(200), most_at_tables),
    Figure("restaurant-2000", lambda: restaurant(2000), most_at_tables),
    Figure("car-pool-200", lambda: car_pool(200), most_in_cars),
    Figure("car-pool-2000", lambda: car_pool(2000), most_in_cars),
    Figure("couple-without-a-car", couple_without_a_car, most_at_tables),
    Figure("ring-with-a-rival", ring_with_a_rival, most_by_trying),
    Figure("drivers-of-three-seats", lambda: drivers_of_three_seats(400), everybody),
    Figure("pairs-and-rings-10000", lambda: pairs_and_rings(9990), everybody),
    Figure("hopeless-10000", lambda: hopeless(10_000), lambda _: 0),
)
