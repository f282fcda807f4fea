"""Crowds at the restaurant and at the swap of shifts: as many are served as could be."""

import random
import secrets
import time

from serving import Served, copied, until

MANY = "limits = { rate = 100000, burst = 100000, waiting = 100000 }\n"
QUIET = 3  # seconds without a booking, after which no more are awaited


def settled(served):
    """Waits until nobody else is booked; the number of endings then."""
    last, since = -1, time.monotonic()
    while time.monotonic() < since + QUIET:
        found = served.metric("entangle_endings")
        if found != last:
            last, since = found, time.monotonic()
        time.sleep(0.2)
    return last


def states(served, keys):
    """How requests stand, by their keys."""
    found = {}
    for start in range(0, len(keys), 20):
        some = keys[start : start + 20]
        found.update(zip(some, served.look(*some)))
    return found


def trips(tally, folder, seed=None, pairs=34):
    """More pairs than seats to LA, whose two flights have 24 each; and who waits gets what is given back."""
    seed = secrets.randbits(32) if seed is None else seed
    chance = random.Random(seed)
    served = Served(copied(folder, "trips", head=MANY))
    served.is_ready()
    asked, keys = [], []
    for number in range(pairs):
        names, both = (f"a{number}", f"b{number}"), [secrets.token_hex(16), secrets.token_hex(16)]
        asked += [
            ({"me": me, "friend": friend, "place": "LA"}, key) for me, friend, key in zip(names, names[::-1], both)
        ]
        keys.append(both)
    chance.shuffle(asked)
    for values, key in asked:
        tally.compare("somebody asks", served.put("together", values, key)[0], 202)
    settled(served)
    found = states(served, [key for _, key in asked])
    flights = [{found[key].get("answers", {}).get("flight") for key in both} for both in keys]
    tally.note(f"seed {seed}: no pair is cut", all(len(one) == 1 for one in flights), flights)
    booked = [both for both, flight in zip(keys, flights) if flight != {None}]
    print(f"trips, seed {seed}: {pairs} pairs, {len(booked)} booked, 24 could be", flush=True)
    tally.compare("each seat to LA is somebody's", (len(booked), len(served.rows("Seats"))), (24, 48))
    for key in booked[0]:
        back = served.put("give_back", {"trip": key})[2]
        tally.note("a seat is given back", served.becomes(back, "booked"))
    waits = [both for both in keys if both not in booked]
    tally.note(
        "and a pair who waits has both", until(lambda: any(served.state(both[0]) == "booked" for both in waits), 30)
    )
    tally.compare("the flights are full again", len(served.rows("Seats")), 48)
    served.close()


def most_matched(wishes, places):
    """The most wishes that could each have a place of its own, where a place fits if it is as large: by augmenting
    paths, in no order."""
    holder = {}

    def finds(wish, seen):
        for place, size in enumerate(places):
            if size >= wishes[wish] and place not in seen:
                seen.add(place)
                if place not in holder or finds(holder[place], seen):
                    holder[place] = wish
                    return True
        return False

    return sum(finds(wish, set()) for wish in range(len(wishes)))


def restaurant(tally, folder, seed=None, groups=45):
    """More parties than tables, half of them two parties at one table."""
    seed = secrets.randbits(32) if seed is None else seed
    chance = random.Random(seed)
    sizes = [2] * 12 + [4] * 12 + [6] * 8
    tables = ", ".join(f"[{number}, {size}]" for number, size in enumerate(sizes, start=1))
    file = copied(folder, "restaurant", head=MANY)
    with open(file, encoding="utf-8") as source:
        text = source.read()
    start, end = text.index("rows = [["), text.index("]]") + 2
    text = text.replace(text[start:end], f"rows = [{tables}]")
    with open(file, "w", encoding="utf-8") as target:
        target.write(text)
    served = Served(file)
    served.is_ready()
    wishes = [chance.choice([1, 2, 2, 3, 4, 5, 6]) for _ in range(groups)]
    asked, members = [], []
    for number, people in enumerate(wishes):
        names = [f"a{number}"] if people == 1 or chance.random() < 0.5 else [f"a{number}", f"b{number}"]
        members.append([])
        for me in names:
            friend = {"friend": next(name for name in names if name != me)} if len(names) == 2 else {}
            key = secrets.token_hex(16)
            members[-1].append(key)
            asked.append(("together" if friend else "alone", {"me": me, "people": people, **friend}, key))
    chance.shuffle(asked)
    for name, values, key in asked:
        tally.compare("a party asks", served.put(name, values, key)[0], 202)
    settled(served)
    found = states(served, [key for _, _, key in asked])
    at_table = [{found[key].get("answers", {}).get("table") for key in keys} for keys in members]
    tally.note(f"seed {seed}: no two who dine together sit apart", all(len(one) == 1 for one in at_table), at_table)
    booked = [one.pop() for one in at_table]
    given = [table for table in booked if table is not None]
    tally.compare("no table is given twice", len(given), len(set(given)))
    small = [
        (people, table) for people, table in zip(wishes, booked) if table is not None and sizes[table - 1] < people
    ]
    tally.compare("each table has room", small, [])
    most = most_matched(wishes, sizes)
    print(
        f"restaurant, seed {seed}: {groups} parties, {len(sizes)} tables, {len(given)} served, {most} could be",
        flush=True,
    )
    tally.compare("as many are served as could be", len(given), most)
    _cancelled(tally, served, members, booked, sizes, wishes)
    served.close()


def _cancelled(tally, served, members, booked, sizes, wishes):
    """Somebody cancels a table, and who waits for one like it has it."""
    hungry = [number for number, table in enumerate(booked) if table is None]
    if not hungry:
        return
    number = min(hungry, key=lambda one: wishes[one])
    gone = next(one for one, table in enumerate(booked) if table is not None and sizes[table - 1] >= wishes[number])
    key = served.put("cancel", {"dinner": members[gone][0]})[2]
    tally.note("a table is cancelled", served.becomes(key, "booked"), served.look(key))
    waits = [members[one] for one in hungry if sizes[booked[gone] - 1] >= wishes[one]]
    tally.note("who waited for one has it", until(lambda: any(served.state(keys[0]) == "booked" for keys in waits), 30))


def shifts(tally, folder, seed=None, people=40):
    """Each wants another's shift: all who are on a ring of wishes swap, and nobody else."""
    seed = secrets.randbits(32) if seed is None else seed
    chance = random.Random(seed)
    file = copied(folder, "shifts", head=MANY)
    with open(file, encoding="utf-8") as source:
        text = source.read()
    for name, rows in (
        ("Shifts", [f'[{n}, "day {n}"]' for n in range(people)]),
        ("Works", [f'[{n}, "p{n}"]' for n in range(people)]),
    ):
        start = text.index("rows = [[", text.index(f"[tables.{name}]"))
        text = text.replace(text[start : text.index("]]", start) + 2], f"rows = [{', '.join(rows)}]")
    with open(file, "w", encoding="utf-8") as target:
        target.write(text)
    served = Served(file)
    served.is_ready()
    wishes = {
        own: chance.choice([other for other in range(max(0, own - 6), min(people, own + 7)) if other != own])
        for own in range(people)
    }
    keys = {}
    for own in chance.sample(sorted(wishes), people):
        status, _, keys[own] = served.put("swap", {"me": f"p{own}", "own": own, "wanted": wishes[own]})
        tally.compare("somebody wishes", status, 202)
    settled(served)
    found = states(served, list(keys.values()))
    swapped = {own for own, key in keys.items() if found[key]["state"] == "booked"}
    rings = on_rings(wishes)
    print(f"shifts, seed {seed}: {people} wish, {len(swapped)} swap, {len(rings)} could", flush=True)
    tally.compare("all who could swap do", sorted(swapped), sorted(rings))
    works = dict(served.rows("Works"))
    wanted = {**{own: f"p{own}" for own in range(people)}, **{wishes[own]: f"p{own}" for own in rings}}
    tally.compare("each has the shift that was wished for", works, wanted)
    tally.compare(
        "told so", {found[keys[own]]["answers"]["shift"] for own in swapped}, {wishes[own] for own in swapped}
    )
    served.close()


def on_rings(wishes):
    """Those who come back to themselves by going from wish to wish."""
    found = set()
    for start in wishes:
        place = wishes[start]
        for _ in wishes:
            if place == start:
                found.add(start)
                break
            place = wishes[place]
    return found
