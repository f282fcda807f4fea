"""Crowds in which many are in the way of a few who can be answered: each kind takes how many.

Where a crowd says who must have committed in the end, no withdrawal and no change of others makes that impossible.
"""

from crowds import AS_WRITTEN, Committed, Put, Restart, Steps, Withdraw, driver, flights_to, friend, guest, late_friend
from crowds import rider, stranger, taker, trader
from scripts import Choice, Host, Pattern, Var, is_among, script


def must(it, *names):
    """These have to have committed in the end; so nothing is changed but what the kind itself changes."""
    it.must |= set(names)
    it.is_quiet = True


def pair(it, goal="LA", *, within=None, stay=None):
    """A pair comes, which the tables fit."""
    one, other = it.person("a"), it.person("a")
    it.come(one, friend(one, [other], goal, within=within), stay)
    it.come(other, friend(other, [one], goal, within=within), stay)
    must(it, one, other)
    return one, other


def hopeless_fans(it):
    """Fans of one of a pair, with a wish that no table fits: they come first, or all in random order."""
    it.keeps_order = it.make.random() < 0.5
    one, _ = pair(it, within=it.make.choice((None, None, 1, 2, 8)), stay=AS_WRITTEN)
    couple, it.people = it.people, []
    for _ in range(it.size):
        name = it.person("f")
        it.come(name, friend(name, [one], it.make.choice(("Oslo", "Bergen"))))
    it.people += couple


def writers_of_nothing(it):
    """A pair waits for a flight; scripts that change no row come, and then the flight."""
    it.keeps_order = True
    one, other = pair(it, "Oslo", stay=AS_WRITTEN)
    for number in range(it.size):
        it.change(it.make.choice((
            f"DELETE FROM Flights WHERE fno = {number}",
            "UPDATE Flights SET dest = 'LA' WHERE dest = 'LA'",
            "INSERT INTO Flights VALUES (122, 'LA')",
        )))
    it.change("INSERT INTO Flights VALUES (900, 'Oslo')")
    it.groups.append([one, other])


def names_in_tables(it):
    """Pairs each of whom reads the other's name from a table, among others who read names of nobody."""
    for _ in range(it.size):
        name = it.person("l")
        it.row("Names", name, it.make.choice(("nobody", name + "0")))
        it.come(name, late_friend(name))
    for _ in range(2):
        one, other = it.person("l"), it.person("l")
        it.row("Names", one, other)
        it.row("Names", other, one)
        it.come(one, late_friend(one))
        it.come(other, late_friend(other))
        must(it, one, other)


def only_the_last_fit(it):
    """Strangers of two sides, each of whom anybody of the other side may meet; the tables fit the last two."""
    it.keeps_order = True
    for number in range(it.size):
        for side, other in (("Buys", "Sells"), ("Sells", "Buys")):
            name, is_last = it.person("x"), number == it.size - 1
            it.row("Wishes", name, 0 if is_last else it.names)
            it.come(name, stranger(name, side, other))
            if is_last:
                must(it, name)


def counters(it):
    """Scripts that read a counter and then write it."""
    it.row("Counter", 0)
    for _ in range(it.size):
        name = it.name("n")
        it.come(name, script("SELECT n FROM Counter", "UPDATE Counter SET n = n + 1"), AS_WRITTEN)
        must(it, name)


def deadlocked(it):
    """Couples who read the same table and then write it, one for each thing that is free, beside newcomers, who come
    before each step: the couples commit meanwhile."""
    it.keeps_order = True
    for item in range(1, it.size + 1):
        it.row("Free", item, 1)
        it.row("Slots", item)
        one, other = it.person("k"), it.person("k")
        it.come(one, taker(one, other, 1), AS_WRITTEN)
        it.come(other, guest(other, one), AS_WRITTEN)
        must(it, one, other)
    for _ in range(4 * it.size):
        newcomers = it.person("a"), it.person("a")
        it.meanwhile += [Put(me, friend(me, [friend_of])) for me, friend_of in (newcomers, newcomers[::-1])]
        it.meanwhile.append(Steps(1))
    it.meanwhile.append(Committed(tuple(sorted(it.must))))


def one_of_many_demands(it):
    """One script with many statements and demands of people who don't come, among pairs."""
    goals = [f"g{number}" for number in range(it.size)]
    wanted = [it.person("nobody") for _ in range(8)]
    posts = tuple(Pattern("R", (one, Var("f"))) for one in wanted)
    it.come("heavy", script(*(Choice(Pattern("R", ("heavy", Var("f"))), (flights_to(goal),), posts) for goal in goals)))
    for _ in range(it.size):
        pair(it)


def seats_for_two(it):
    """Drivers with a seat for each of two riders, and their riders."""
    it.keeps_order = True
    for _ in range(max(1, it.size // 3)):
        name = it.person("d")
        riders = [it.person("r"), it.person("r")]
        it.come(name, driver(name, 2))
        for one in riders:
            it.come(one, rider(one, name))
        must(it, name, *riders)


def sold_out(it):
    """Couples wait for a show that is sold out; one comes for another show."""
    it.keeps_order = it.make.random() < 0.5
    it.row("Free", 1, 2)
    it.row("Slots", 1)
    for show in [1] * it.size + [2]:
        one, other = it.person("k"), it.person("k")
        it.come(one, taker(one, other, show))
        it.come(other, guest(other, one))
    must(it, one, other)


def come_and_go(it):
    """Somebody stays; partners come, are tried in vain and withdrawn; the last one fits."""
    it.keeps_order = True
    stays = it.person("a")
    tests = (flights_to("LA"), is_among(Var("p"), "who FROM People"))
    it.come(stays, script(Choice(Pattern("S", (stays, Var("f"))), tests, (Pattern("R", (Var("p"), Var("f"))),))))
    for number in range(it.size):
        partner = it.person("a")
        goal = "LA" if number == it.size - 1 else "Oslo"
        post = Pattern("S", (stays, Var("f")))
        it.changes.append(Put(partner, script(Choice(Pattern("R", (partner, Var("f"))), (flights_to(goal),), (post,)))))
        if goal == "Oslo":
            it.changes += [Steps(), Withdraw(partner)]
    must(it, stays, partner)


def surely_met_twice(it):
    """A script of several statements, whom several need who each meet one demand of somebody: all commit together."""
    it.keeps_order = it.make.random() < 0.8
    count = it.make.randint(2, 3)
    for number in range(1, count + 1):
        it.row("Slots", number)
    slot = is_among(Var("v"), "item FROM Slots")
    one, hub = it.person("x"), it.person("D")
    offers = [f"{one}-{number}" for number in range(1, count + 1)]
    posts = [Pattern("R", (hub, 0)), *(Pattern("H", (hub, number)) for number in range(2, count + 1))]
    it.come(one, script(*(Choice(Pattern("R", (offer, 0)), (), (post,)) for offer, post in zip(offers, posts))))
    it.come(hub, script(Choice(Pattern("R", (hub, 0)), (slot,), (Pattern("H", (hub, Var("v"))),))))
    names = [it.person("o") for _ in offers]
    for number, (name, offer) in enumerate(zip(names, offers), 1):
        it.come(name, script(Choice(Pattern("H", (hub, number)), (), (Pattern("R", (offer, 0)),))))
    it.groups.append([one, hub, *names])
    for _ in range(it.size):
        name, item = it.person("o"), it.make.randint(2, 9)
        it.come(name, script(Choice(Pattern("H", (hub, item)), (), (Pattern("R", ("nobody", 0)),))))
    it.is_quiet = True


def crossed(it):
    """Couples whose statements meet crosswise, which no run answers, and couples whose statements meet in order."""
    for number in range(it.size):
        one, other = it.person("c"), it.person("c")
        order = ("R", "H") if it.make.random() < 0.7 else ("H", "R")
        for me, wanted, names in ((one, other, ("R", "H")), (other, one, order)):
            it.come(me, script(*(Choice(Pattern(name, (me, 0)), (), (Pattern(name, (wanted, 0)),)) for name in names)))
        if order == ("R", "H"):
            must(it, one, other)
    it.is_quiet = True


def rows_that_went(it):
    """Somebody takes the least row of one table together with a partner, and then the same of another table, which has
    the greatest alone: it commits once the lesser rows went."""
    it.keeps_order = it.make.random() < 0.5
    it.row("Counter", it.size)
    for number in range(1, it.size + 1):
        it.row("Free", number, 1)
    one, other = it.person("g"), it.person("g")
    for me, friend_of in ((one, other), (other, one)):
        free, same = is_among(Var("i"), "item FROM Free"), is_among(Var("n"), "n FROM Counter")
        first = Choice(Pattern("R", (me, Var("i"))), (free,), (Pattern("R", (friend_of, Var("i"))),), ((1, "i"),))
        second = Choice(Pattern("H", (me, Var("n"))), (same, "n = @i"))
        it.come(me, script(first, second))
    for number in range(1, it.size):
        it.change(f"DELETE FROM Free WHERE item = {number}")
    must(it, one, other)


def rows_of_others(it):
    """Couples wait for a seat of their show; rows of other shows come, in one of two ways, and at last the seat."""
    it.keeps_order = True
    test = "(i, 1) IN (SELECT item, show FROM Free)"
    if it.make.random() < 0.5:
        test = is_among(Var("i"), "item FROM Free WHERE show = 1")
    one, other = it.person("k"), it.person("k")
    for me, friend_of in ((one, other), (other, one)):
        it.come(me, script(Choice(Pattern("T", (me, Var("i"))), (test,), (Pattern("T", (friend_of, Var("i"))),))))
    for number in range(it.size):
        it.change(f"INSERT INTO Free VALUES ({number}, 2)")
    it.change(it.make.choice(("INSERT INTO Free VALUES (1, 1)", "UPDATE Free SET show = 1 WHERE item = 1")))
    must(it, one, other)


def fails_first(it):
    """Partners whose SET fails before they meet; then one who doesn't fail."""
    it.keeps_order = True
    one, other = it.person("e"), it.person("e")
    it.come(one, friend(one, [other]))
    for _ in range(it.size):
        name = it.name("e")
        before = ("SET @n = 9223372036854775807", "SET @n = @n + 1")
        it.come(name, friend(other, [one], before=before))
    it.come(other, friend(other, [one], before=("SET @n = 1",)))
    must(it, one, other)


def rests(it):
    """A ring, each of whom comes before the one that is demanded, so that all rest when the last one comes."""
    it.keeps_order = True
    names = [it.person("r") for _ in range(it.size)]
    for at, name in enumerate(names):
        it.come(name, friend(name, [names[(at + 1) % len(names)]]))
    must(it, *names)


def impersonated(it):
    """A ring of three, each of whom several others impersonate, who demand people who lack somebody."""
    it.keeps_order = it.make.random() < 0.5
    ring = [it.person("i") for _ in range(3)]
    levels = [[it.person("q") for _ in range(min(it.size, 8))] for _ in range(3)]
    for names, wanted in zip(levels, [*levels[1:], ["nobody"]]):
        for name in names:
            it.come(name, friend(name, [it.make.choice(wanted)]))
    lacks = levels[0]
    for _ in range(min(it.size, 20)):
        for name in ring:
            it.come(it.name("fake"), friend(name, [it.make.choice(lacks)]))
    for at, name in enumerate(ring):
        it.come(f"true-{name}", friend(name, [ring[(at + 1) % 3]]))
    must(it, *(f"true-{name}" for name in ring))


def toggling(it):
    """Pairs wait for two flights at once that are never there together; writers bring one and take it, and at last a
    pair comes that can fly."""
    it.keeps_order = True
    for _ in range(it.size):
        one, other = it.person("a"), it.person("a")
        it.come(one, friend(one, [other], "Oslo"))
        it.come(other, friend(other, [one], "Bergen"))
    for _ in range(min(it.size, 10)):
        it.change("INSERT INTO Flights VALUES (900, 'Oslo')")
        it.change("DELETE FROM Flights WHERE fno = 900")
    one, other = it.person("b"), it.person("b")
    it.changes += [Put(one, friend(one, [other])), Put(other, friend(other, [one]))]
    must(it, one, other)


def one_bad_fan(it):
    """A fan whom the tables don't fit, then fans whom they fit, then the pair: at least the pair commits."""
    it.keeps_order = True
    one, other = it.person("s"), it.person("s")
    it.come("bad", friend("bad", [one], "Oslo"))
    for _ in range(it.size):
        name = it.person("f")
        it.come(name, friend(name, [one]))
    it.come(one, friend(one, [other]))
    it.come(other, friend(other, [one]))
    must(it, one, other)


def ring_and_rivals(it):
    """A ring of three who trade, and others who want a thing of it."""
    it.keeps_order = it.make.random() < 0.5
    names = [it.person("t") for _ in range(3)]
    rival = [it.person("t") for _ in range(it.size)]
    for at, name in enumerate(names):
        it.come(name, trader(name, f"thing {at}", f"thing {(at + 1) % 3}"))
    for name in rival:
        it.come(name, trader(name, f"{name}'s", "thing 0"))
    must(it, *names)


def demands_anybody(it):
    """People who demand anybody, and whom the tables don't fit; behind them a pair."""
    it.keeps_order = it.make.random() < 0.5
    test = is_among(Var("w"), "who FROM People")
    for _ in range(it.size):
        name = it.person("y")
        post = Pattern("R", (Var("w"), Var("f")))
        it.come(name, script(Choice(Pattern("R", (name, Var("f"))), (flights_to("Oslo"), test), (post,))))
    pair(it)


def learns_the_friend(it):
    """Fans who learn in a first joint answer whom they demand in a second one."""
    test = is_among(Var("f"), "fno FROM Flights")
    for _ in range(max(1, it.size // 4)):
        one, other = it.person("u"), it.person("u")
        told = is_among(Var("w"), "who FROM People")
        it.come(one, script(
            Choice(Pattern("Told", (one, Var("w"))), (told,), (Pattern("Tells", (one, Var("w"))),), ((1, "w"),)),
            Choice(Pattern("R", (one, Var("f"))), (test,), (Pattern("R", (Host("w"), Var("f"))),)),
        ))
        it.come(other, script(
            Choice(Pattern("Tells", (one, other)), (), (Pattern("Told", (one, other)),)),
            Choice(Pattern("R", (other, Var("f"))), (test,), (Pattern("R", (one, Var("f"))),)),
        ))
        must(it, one, other)


def restarted(it):
    """Pairs of whom one half waits when the room is closed, and the other half comes to the restored one."""
    it.keeps_order = True
    later = []
    for _ in range(it.size):
        one, other = it.person("a"), it.person("a")
        it.come(one, friend(one, [other]))
        later.append(Put(other, friend(other, [one])))
        must(it, one, other)
    it.changes += [Restart(), *later, Restart()]


KINDS = {
    kind.__name__: kind
    for kind in (
        hopeless_fans,
        writers_of_nothing,
        names_in_tables,
        only_the_last_fit,
        counters,
        deadlocked,
        one_of_many_demands,
        seats_for_two,
        sold_out,
        come_and_go,
        surely_met_twice,
        crossed,
        rows_that_went,
        rows_of_others,
        fails_first,
        rests,
        impersonated,
        toggling,
        one_bad_fan,
        ring_and_rivals,
        demands_anybody,
        learns_the_friend,
        restarted,
    )
}
