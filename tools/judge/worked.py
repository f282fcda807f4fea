"""Worked crowds: what has to come out of each is known, and said by its docstring."""

from crowds import AS_WRITTEN, UNTIL_WITHDRAWN, Committed, Crowd, Making, Put, Restart, Steps, Withdraw, driver
from crowds import flights_to, friend, guest, late_friend, rider, stranger, taker, trader
from scripts import Choice, Pattern, Var, is_among, script


class Worked(Making):
    """A worked crowd that is being made: its calls in order."""

    def __init__(self, name):
        super().__init__(name, 0, 2)
        self.rows["Flights"] = [(122, "LA"), (123, "LA")]
        self.calls, self.seconds, self.is_whole = [], None, True
        self.stay = UNTIL_WITHDRAWN

    def puts(self, name, it):
        self.calls.append(Put(name, it, self.stay))
        return name

    def pair(self, one, other, goal="LA", within=None):
        """Two come who want one flight."""
        self.puts(one, friend(one, [other], goal, within=within))
        self.puts(other, friend(other, [one], goal, within=within))

    def couple(self, one, other, show):
        """Two come who take a seat of a show."""
        self.puts(one, taker(one, other, show))
        self.puts(other, guest(other, one))

    def writes(self, *texts):
        self.puts(self.name("writer"), script(*texts))

    def then(self, *calls):
        self.calls += calls

    def idle(self):
        self.then(Steps(judged=True))

    def crowd(self):
        """The crowd; in the end it is judged."""
        if self.is_whole:
            self.idle()
        return Crowd(self.kind, 0, self.rows, self.calls, self.must, [], self.seconds)


# ---- what is wrong with a room that tries whom it finds first


def four_fans(it):
    """Four want to fly with Mickey to where no flight goes; then he and Minnie come, and commit."""
    it.stay = AS_WRITTEN
    for number in range(4):
        it.puts(f"fan{number}", friend(f"fan{number}", ["Mickey"], "Oslo"))
    it.pair("Mickey", "Minnie")
    it.must = {"Mickey", "Minnie"}


def one_fan_and_one_try(it):
    """One such fan, and a pair that asks for one try: the pair commits."""
    it.stay = AS_WRITTEN
    it.puts("fan", friend("fan", ["Mickey"], "Oslo"))
    it.pair("Mickey", "Minnie", within=1)
    it.must = {"Mickey", "Minnie"}


def deletes_of_no_row(it):
    """A pair waits for a flight to Oslo; seven scripts delete no row; then the flight comes, and the pair commits."""
    it.stay = AS_WRITTEN
    it.pair("Ann", "Bob", "Oslo")
    it.idle()
    for number in range(7):
        it.writes(f"DELETE FROM Flights WHERE fno = {number}")
        it.idle()
    it.writes("INSERT INTO Flights VALUES (900, 'Oslo')")
    it.must = {"Ann", "Bob"}


def names_from_a_table(it):
    """Ann reads Bob's name from a table, and he hers: they commit."""
    it.rows["Names"] = [("Ann", "Bob"), ("Bob", "Ann")]
    it.puts("Ann", late_friend("Ann"))
    it.puts("Bob", late_friend("Bob"))
    it.must = {"Ann", "Bob"}


def nine_and_nine(it):
    """Nine and nine take anybody of the other side whom the tables fit; only the last two fit, and commit."""
    _strangers(it, 9)


def forty_and_forty(it):
    """The same with forty and forty, put at once."""
    _strangers(it, 40)


def _strangers(it, count):
    for number in range(count):
        for side, other in (("Buys", "Sells"), ("Sells", "Buys")):
            name, is_last = it.person(side), number == count - 1
            it.row("Wishes", name, 0 if is_last else it.names)
            it.puts(name, stranger(name, side, other))
            it.must |= {name} if is_last else set()


def sixty_four_count(it):
    """64 scripts read a counter and then write it: all commit."""
    it.stay = AS_WRITTEN
    it.rows["Counter"] = [(0,)]
    for number in range(64):
        it.must.add(it.puts(f"n{number}", script("SELECT n FROM Counter", "UPDATE Counter SET n = n + 1")))


def beside_newcomers(it):
    """Two couples read a table and then write it, at once; newcomers come before each step: both commit meanwhile."""
    for item in (1, 2):
        it.row("Free", item, 1)
        it.row("Slots", item)
    it.couple("Ann", "Bob", 1)
    it.couple("Cy", "Dee", 1)
    for number in range(50):
        it.pair(f"a{number}", f"b{number}")
        it.then(Steps(1))
    it.then(Committed(("Ann", "Bob", "Cy", "Dee")))


def one_of_640_demands(it):
    """One script of 640 demands among 1,000 who wait: no step takes more than a second of processor time."""
    posts = [Pattern("R", (f"n{number}", Var("f"))) for number in range(640)]
    head, test = Pattern("R", ("all", Var("f"))), flights_to("LA")
    it.puts("all", script(*(Choice(head, (test,), tuple(posts[at : at + 10])) for at in range(0, 640, 10))))
    for number in range(1000):
        it.puts(f"w{number}", friend(f"n{number % 640}", [f"n{(number + 1) % 640}"]))
    it.then(Steps(20))
    it.seconds, it.is_whole = 1.0, False


def a_driver_of_two_seats(it):
    """A driver with a seat for each of two riders, and these: all commit."""
    it.rows["People"] = [("Ann",), ("Bob",), ("Cy",)]
    it.puts("Ann", driver("Ann", 2))
    it.puts("Bob", rider("Bob", "Ann"))
    it.puts("Cy", rider("Cy", "Ann"))
    it.must = {"Ann", "Bob", "Cy"}


def a_sold_out_show(it):
    """1,600 wait for a show that is sold out, through 20 steps; then a couple comes for another one, and commits in its
    first two steps."""
    it.rows["Free"], it.rows["Slots"] = [(1, 2)], [(1,)]
    for number in range(800):
        it.couple(f"a{number}", f"b{number}", 1)
    it.then(Steps(20))
    it.couple("Ann", "Bob", 2)
    it.then(Steps(2), Committed(("Ann", "Bob")))


def who_comes_and_goes(it):
    """Somebody takes anybody; 100 come whom the tables don't fit, and are withdrawn; the next one fits, and commits."""
    posts = (Pattern("R", (Var("p"), Var("f"))),)
    tests = (flights_to("LA"), is_among(Var("p"), "who FROM People"))
    it.puts("stays", script(Choice(Pattern("S", ("stays", Var("f"))), tests, posts)))
    for number in range(101):
        partner = it.person("p")
        goal = "LA" if number == 100 else "Oslo"
        post = (Pattern("S", ("stays", Var("f"))),)
        it.puts(partner, script(Choice(Pattern("R", (partner, Var("f"))), (flights_to(goal),), post)))
        it.idle()
        if number < 100:
            it.then(Withdraw(partner))
    it.must = {"stays", partner}


# ---- what a reading of the design found


def two_surely_meet_one_demand(it):
    """A demand that two surely meet, of whom another script needs both, with two statements: all four commit."""
    it.rows["Slots"] = [(1,), (2,)]
    first = Choice(Pattern("R", ("x1", 0)), (), (Pattern("R", ("D", 0)),))
    it.puts("x", script(first, Choice(Pattern("R", ("x2", 0)), (), (Pattern("R", ("h", 2)),))))
    slot = is_among(Var("v"), "item FROM Slots")
    it.puts("D", script(Choice(Pattern("R", ("D", 0)), (slot,), (Pattern("R", ("h", Var("v"))),))))
    it.puts("o1", script(Choice(Pattern("R", ("h", 1)), (), (Pattern("R", ("x1", 0)),))))
    it.puts("o2", script(Choice(Pattern("R", ("h", 2)), (), (Pattern("R", ("x2", 0)),))))
    it.must = {"x", "D", "o1", "o2"}


def a_row_that_went(it):
    """Two take the least of two rows together; then each needs the greater one: they commit once the lesser went."""
    it.rows["Free"], it.rows["Counter"] = [(1, 1), (2, 1)], [(2,)]
    for me, other in (("Ann", "Bob"), ("Bob", "Ann")):
        free, same = is_among(Var("i"), "item FROM Free"), is_among(Var("n"), "n FROM Counter")
        first = Choice(Pattern("R", (me, Var("i"))), (free,), (Pattern("R", (other, Var("i"))),), ((1, "i"),))
        it.puts(me, script(first, Choice(Pattern("H", (me, Var("n"))), (same, "n = @i"))))
    it.idle()
    it.writes("DELETE FROM Free WHERE item = 1")
    it.must = {"Ann", "Bob"}


def a_row_tested_in_the_tuple(it):
    """Two wait for a seat of show 1, by a literal in the tuple; such a row comes by an UPDATE, and they commit."""
    it.rows["Free"] = [(1, 2)]
    for me, other in (("Ann", "Bob"), ("Bob", "Ann")):
        test = "(i, 1) IN (SELECT item, show FROM Free)"
        it.puts(me, script(Choice(Pattern("T", (me, Var("i"))), (test,), (Pattern("T", (other, Var("i"))),))))
    it.idle()
    it.writes("UPDATE Free SET show = 1 WHERE item = 1")
    it.must = {"Ann", "Bob"}


def what_was_written_before(it):
    """One writes what it reads before it demands the other, for whom a row comes later: they commit."""
    one, other = Pattern("T", ("Ann", Var("i"))), Pattern("T", ("Bob", Var("i")))
    own = is_among(Var("i"), "item FROM Free WHERE show = 7")
    it.puts("Ann", script("DELETE FROM Wishes", "INSERT INTO Free VALUES (5, 7)", Choice(one, (own,), (other,))))
    it.puts("Bob", script(Choice(other, (is_among(Var("i"), "item FROM Slots"),), (one,))))
    it.idle()
    it.writes("INSERT INTO Slots VALUES (5)")
    it.must = {"Ann", "Bob"}


def one_fails_first(it):
    """The first Bob's SET fails before he meets Ann; she commits with the second one."""
    it.puts("Ann", friend("Ann", ["Bob"]))
    it.puts("Bob", friend("Bob", ["Ann"], before=("SET @n = 9223372036854775807", "SET @n = @n + 1")))
    it.puts("the second Bob", friend("Bob", ["Ann"]))
    it.must = {"Ann", "the second Bob"}


def all_rest_until_the_last(it):
    """r demands u, who demands w, who demands r; each comes while the others rest: all commit when w comes."""
    for name, wanted in (("r", "u"), ("u", "w"), ("w", "r")):
        it.puts(name, friend(name, [wanted]))
        it.idle()
    it.must = {"r", "u", "w"}


def an_impersonated_ring(it):
    """A ring of three, whose names twenty others each give who lead to nobody: the three commit."""
    levels = [[f"q{level}-{number}" for number in range(20)] for level in range(3)]
    for names, wanted in zip(levels, [*levels[1:], ["nobody"]]):
        for at, name in enumerate(names):
            it.puts(name, friend(name, [wanted[at % len(wanted)]]))
    for number in range(20):
        for name in "MNP":
            it.puts(f"fake {name} {number}", friend(name, [levels[0][number]]))
    for name, wanted in zip("MNP", "NPM"):
        it.must.add(it.puts(f"the true {name}", friend(name, [wanted])))


def thirty_good_fans(it):
    """A fan whom no table fits, thirty whom they fit, and then the pair: it and the good fans commit."""
    it.puts("bad", friend("bad", ["Mickey"], "Oslo"))
    for number in range(30):
        it.must.add(it.puts(f"fan{number}", friend(f"fan{number}", ["Mickey"])))
    it.pair("Mickey", "Minnie")
    it.must |= {"Mickey", "Minnie"}


def a_ring_with_a_rival(it):
    """Three trade in a ring, and a fourth wants a thing of it: the three commit."""
    it.rows["People"] = [(name,) for name in ("Ann", "Bob", "Cy", "Dan")]
    it.puts("Ann", trader("Ann", "bike", "car"))
    it.puts("Bob", trader("Bob", "car", "boat"))
    it.puts("Dan", trader("Dan", "skates", "bike"))
    it.puts("Cy", trader("Cy", "boat", "bike"))
    it.must = {"Ann", "Bob", "Cy"}


def a_row_that_comes_and_goes(it):
    """100 pairs wait for a row beside another one that never comes; it comes and goes; a new pair isn't kept."""
    for number in range(100):
        it.puts(f"a{number}", friend(f"a{number}", [f"b{number}"], "Oslo"))
        it.puts(f"b{number}", friend(f"b{number}", [f"a{number}"], "Bergen"))
    for number in range(10):
        it.writes("INSERT INTO Flights VALUES (900, 'Oslo')")
        it.then(Steps(1))
        it.writes("DELETE FROM Flights WHERE fno = 900")
        it.then(Steps(1))
        it.pair(f"new{number}", f"friend{number}")
        it.then(Steps(4), Committed((f"new{number}", f"friend{number}")))


def beside_two_hundred_strangers(it):
    """A pair comes while 200 strangers are tried in vain: it commits in its first four steps."""
    for number in range(100):
        for side, other in (("Buys", "Sells"), ("Sells", "Buys")):
            name = it.person(side)
            it.row("Wishes", name, it.names)
            it.puts(name, stranger(name, side, other))
    it.then(Steps(20))
    it.pair("Ann", "Bob")
    it.then(Steps(4), Committed(("Ann", "Bob")))


def closed_and_restored(it):
    """A room is closed while a pair waits for a flight; in the restored one it comes, and they commit."""
    it.pair("Ann", "Bob", "Oslo")
    it.idle()
    it.then(Restart())
    it.writes("INSERT INTO Flights VALUES (900, 'Oslo')")
    it.must = {"Ann", "Bob"}


MAKERS = (
    four_fans,
    one_fan_and_one_try,
    deletes_of_no_row,
    names_from_a_table,
    nine_and_nine,
    forty_and_forty,
    sixty_four_count,
    beside_newcomers,
    one_of_640_demands,
    a_driver_of_two_seats,
    a_sold_out_show,
    who_comes_and_goes,
    two_surely_meet_one_demand,
    a_row_that_went,
    a_row_tested_in_the_tuple,
    what_was_written_before,
    one_fails_first,
    all_rest_until_the_last,
    an_impersonated_ring,
    thirty_good_fans,
    a_ring_with_a_rival,
    a_row_that_comes_and_goes,
    beside_two_hundred_strangers,
    closed_and_restored,
)
WORKED = {maker.__name__: maker for maker in MAKERS}


def worked_crowd(name):
    """The worked crowd of a name."""
    it = Worked(name)
    WORKED[name](it)
    return it.crowd()
