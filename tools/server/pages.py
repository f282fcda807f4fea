"""People use the pages of a server, each in a headless Chromium."""

import os
import signal
import time

from browser import Browser
from serving import Served, copied, digest_of, until

SOON = 5  # seconds


class People:
    """A server, and the people who have its page open."""

    def __init__(self, tally, folder, example, ready, **how):
        self.tally, self.folder, self.ready = tally, folder, ready
        self.served = Served(copied(folder, example, **how))
        self.served.is_ready()
        self.people = []

    def person(self):
        name = f"{os.path.basename(os.path.dirname(self.served.file))}-person{len(self.people)}"
        self.people.append(Browser(os.path.join(self.folder, name), self.served.address, self.ready))
        return self.people[-1]

    def told(self, name, person, words, seconds=60):
        self.tally.note(name, person.is_told(words, seconds), person.lines())

    def close(self):
        for person in self.people:
            person.close()
        self.served.close()


def trips(tally, folder):
    """Friends, a click that comes twice, a ring of three, a waiting list, ends, and a kill."""
    people = People(tally, folder, "trips", "document.querySelectorAll('#place option').length > 0")
    try:
        mickey, minnie, zoe = people.person(), people.person(), people.person()
        _friends(people, mickey, minnie, zoe)
        _ring(people, mickey, minnie, zoe)
        _ends(people, mickey, zoe)
        _killed(people, mickey, minnie, zoe)
    finally:
        people.close()


def _friends(people, mickey, minnie, zoe):
    mickey.books(me="Mickey", place="LA", friend="Minnie")
    people.told("the first waits, and is told for whom", mickey, "Waits for Minnie to fly to LA too")
    minnie.books(me="Minnie", place="LA", friend="Mickey")
    people.told("the second is booked", minnie, "Minnie: Booked: flight 122, seat 1B, with Mickey.")
    people.told("so is the first, at once", mickey, "Mickey: Booked: flight 122, seat 1A, with Minnie.", SOON)
    zoe.books(clicks=3, me="Zoe", place="Paris")
    people.told("who flies alone is booked at once", zoe, "Zoe: Booked: flight 136, seat 1A.")
    people.tally.compare("three clicks are one line", len(zoe.lines()), 1)
    people.tally.compare("and one seat", [row[2] for row in people.served.rows("Seats")].count("Zoe"), 1)


def _ring(people, mickey, minnie, zoe):
    for person, me, seat in ((mickey, "Ann", "1C"), (minnie, "Bob", "1D"), (zoe, "Cleo", "2A")):
        person.books(me=me, place="LA")
        people.told(f"{me} has a seat", person, f"{me}: Booked: flight 122, seat {seat}.")
    mickey.trades("1D")
    people.told("Ann waits to trade hers for Bob's", mickey, "Ann: Waits for 1D, and for somebody who takes yours")
    minnie.trades("2A")
    people.told("Bob waits for Cleo's", minnie, "Bob: Waits for 2A")
    mickey.trades("2A")
    people.told("Ann would take Cleo's too", mickey, "Ann: Waits for 2A")
    zoe.trades("1C")
    for person, me, seat in ((mickey, "Ann", "1D"), (minnie, "Bob", "2A"), (zoe, "Cleo", "1C")):
        people.told(f"{me} has moved", person, f"{me}: Moved to {seat}.")
        people.told(f"{me}'s booking says so", person, f"{me}: Booked: flight 122, seat {seat}.")
    found = {row[1]: row[2] for row in people.served.rows("Seats") if row[2] in ("Ann", "Bob", "Cleo")}
    people.tally.compare("so does the table", found, {"1D": "Ann", "2A": "Bob", "1C": "Cleo"})
    people.told("who has moved wants no other seat for the old one", mickey, "Ann: Withdrawn.")


def _ends(people, mickey, zoe):
    for number in range(23):
        people.served.put("alone", {"me": f"p{number}", "place": "Paris"})
    mickey.books(me="Hal", place="Paris")
    people.told("a flight is full", mickey, "Hal: Waits for a seat to Paris")
    zoe.cancels("Zoe: Booked")
    people.told("somebody gives a seat back", zoe, "Zoe: The seat is given back.")
    people.told("who waits has it", mickey, "Hal: Booked: flight 136, seat 1A.")
    zoe.books(me="Eve", place="LA", friend="Finn", seconds="2")
    people.told("who waits too long is told so", zoe, "Eve: Not booked: the time is over.")
    zoe.books(me="Eve", place="LA", friend="Gus")
    people.told("somebody waits", zoe, "Eve: Waits for Gus")
    zoe.cancels("Eve: Waits for Gus")
    people.told("and cancels", zoe, "Eve: Withdrawn.")
    people.tally.note(
        "nobody waits any more, and no clerk", until(lambda: people.served.metric("entangle_waiting") == 0, 10)
    )


def _killed(people, mickey, minnie, zoe):
    minnie.books(me="Daisy", place="LA", friend="Donald")
    people.told("somebody waits", minnie, "Daisy: Waits for Donald")
    before = people.served.rows("Seats")
    people.tally.compare("signal 9 ends it", people.served.ended(signal.SIGKILL), -signal.SIGKILL)
    time.sleep(1)
    people.served.start()
    people.served.is_ready()
    people.tally.compare("the seats are those of before", people.served.rows("Seats"), before)
    zoe.books(me="Donald", place="LA", friend="Daisy")
    people.told("a friend comes", zoe, "Donald: Booked: flight 122")
    people.told("who waited is told so, without a new page", minnie, "Daisy: Booked: flight 122")
    minnie.call("Page.reload")
    people.told("a new page says so too", minnie, "Daisy: Booked: flight 122")


def restaurant(tally, folder):
    """Two dine at one table; somebody cancels."""
    people = People(tally, folder, "restaurant", "document.getElementById('free').textContent.length > 0")
    try:
        ann, bob = people.person(), people.person()
        ann.fills(me="Ann", friend="Bob", people="3")
        ann.value("document.querySelector('#dine button').click()")
        people.told("Ann waits for Bob", ann, "Ann: Waits for Bob.")
        bob.fills(me="Bob", friend="Ann", people="3")
        bob.value("document.querySelector('#dine button').click()")
        people.told("Bob has a table", bob, "Bob: Table 5, which has 4 seats.")
        people.told("so has Ann", ann, "Ann: Table 5, which has 4 seats.", SOON)
        is_less = ann.waits_for("document.getElementById('free').textContent.includes('3 of 4 seats')", SOON)
        tally.note("one less is free", is_less, ann.value("document.getElementById('free').textContent"))
        ann.cancels("Ann: Table")
        people.told("Ann cancels", ann, "Ann: The table is cancelled.")
        is_back = bob.waits_for("document.getElementById('free').textContent.includes('4 of 4 seats')", SOON)
        tally.note("it is free again", is_back)
    finally:
        people.close()


def shifts(tally, folder):
    """Two swap, which both are told."""
    people = People(tally, folder, "shifts", "document.querySelectorAll('#plan tr').length == 7")
    try:
        ann, bob = people.person(), people.person()
        ann.fills(me="Ann", own="1", wanted="2")
        ann.value("document.querySelector('#swap button').click()")
        people.told("Ann waits", ann, "Ann waits for Tuesday, and for somebody who takes Monday.")
        bob.fills(me="Bob", own="2", wanted="1")
        bob.value("document.querySelector('#swap button').click()")
        people.told("Bob has swapped", bob, "Bob works on Monday.")
        people.told("so has Ann", ann, "Ann works on Tuesday.", SOON)
        tally.note(
            "the plan says so",
            ann.waits_for("document.getElementById('plan').rows[0].textContent == 'MondayBob'", SOON),
        )
    finally:
        people.close()


def operate(tally, folder):
    """The operator's page: who waits and why, the last groups, rows; withdraws somebody."""
    served = Served(copied(folder, "trips"))
    served.is_ready()
    keys = [served.put("alone", {"me": f"p{number}", "place": "LA"})[2] for number in range(3)]
    lonely = served.put("together", {"me": "Ann", "friend": "Bob", "place": "LA"})[2]
    served.becomes(keys[-1], "booked")
    page = Browser(
        os.path.join(folder, "operator"),
        f"{served.inner}/operate",
        "document.querySelectorAll('#figures tr').length > 0",
    )
    text = "document.body.innerText"
    try:
        tally.note("it says that it serves", page.waits_for(f"{text}.includes('It serves.')"))
        why = "nobody who waits may offer its demand 0, ('Bob', 'Ann', 'LA', _, _)"
        tally.note(
            "who waits and why", page.waits_for(f"document.getElementById('waiting').innerText.includes({why!r})")
        )
        tally.note(
            "the last groups",
            page.waits_for(f"document.getElementById('groups').innerText.includes('{digest_of(keys[0])}')"),
        )
        tally.note("rows of how many", page.waits_for(f"{text}.includes('147 of 65536')"), page.value(text))
        tally.note("and limits", page.waits_for(f"{text}.includes('1 of 10000, 100 of a client')"))
        tally.note("and requests a second", page.waits_for(f"{text}.includes('4 since the start')"), page.value(text))
        page.value("document.querySelector('#waiting button').click()")
        tally.note("it withdraws", served.becomes(lonely, "ended"))
        tally.note("which the page shows", page.waits_for("document.querySelectorAll('#waiting tr').length == 0"))
        tally.note("the log says who", any(one["event"] == "withdrawn by an operator" for one in served.events()))
        told = served.ask(
            "POST",
            "/operate/withdraw",
            {"request": digest_of(keys[0])},
            {"Origin": "http://evil.example"},
            served.inner,
        )
        tally.compare("pages of others can't", told[1]["code"], "other_origin")
        told = served.ask("POST", "/operate/survey", {}, {"Host": "evil.example"}, served.inner)
        tally.compare("nor by another name of the address", told[1]["code"], "other_origin")
    finally:
        page.close()
        served.close()
