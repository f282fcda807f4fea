"""Figures: tickets a second of rooms that are asked by their inboxes, and the processor time of a ticket."""

import contextlib
import os
import secrets
import time

from clients import finished, forked
from entangle.stores import InboxFull, InboxRequest, PostgresInbox
from fronts import Room, made
from serving import until
from spent import of_server, seconds_of
from trial import psycopg

REQUESTS, AT_ONCE = 4_000, 64
CITIES = ("rome", "oslo", "lima", "bern")


def asks(dsn, city, count):
    """Puts so many requests into an inbox, of couples, some at once."""
    inbox = PostgresInbox(dsn)
    label = '-- {"request": "lunch", "values": ""}\n'
    for first in range(0, count, AT_ONCE):
        asked = []
        for number in range(first, first + AT_ONCE):
            pair = f"{number // 2}"
            me, friend = (f"a{pair}", f"b{pair}") if number % 2 else (f"b{pair}", f"a{pair}")
            values = {"city": city, "me": me, "friend": friend}
            asked.append(InboxRequest("lunch", values, secrets.token_hex(16), None, label))
        while True:
            with contextlib.suppress(InboxFull):
                inbox.ask(asked)
                break
            time.sleep(0.05)
    inbox.close()


def rooms(folder, engine, count, say):
    """The figures of so many rooms, each with a crowd of its own."""
    cities = CITIES[:count]
    named = ", ".join(f'"{city}"' for city in cities)
    file = made(folder, engine, **{'"lima", "oslo", "rome"': named, "waiting_in_all = 20000": "waiting_in_all = 2000"})
    served = [Room(file, city) for city in cities]
    if not all(room.is_ready() for room in served):
        raise AssertionError("a room doesn't start")
    with open(file, encoding="utf-8") as source:
        dsn = next(line.split("=", 1)[1].strip().strip('"') for line in source if line.startswith("postgres = "))
    database = dsn.rsplit("=", 1)[1]

    tickets, counts = count * REQUESTS, [f"SELECT last_group FROM {city}.entangle_claim" for city in cities]

    def spent():
        return sum(seconds_of(one.process) for one in served), of_server(engine), time.monotonic()

    def is_booked():
        with psycopg.connect(f"host={engine.folder} user=tester dbname={database}", autocommit=True) as connection:
            return 2 * sum(connection.execute(sql).fetchone()[0] for sql in counts) >= tickets

    before = spent()
    places = [(f"{dsn} options='-c search_path={city}'", city) for city in cities]
    children = [forked(lambda place=place: asks(*place, REQUESTS)) for place in places]
    if not until(is_booked, 600, 0.1):
        raise AssertionError("not all are booked")
    of_rooms, of_postgres, seconds = (after - then for after, then in zip(spent(), before))
    if any(finished(child) for child in children):
        raise AssertionError("not all were asked")
    say(
        f"rooms {count}: {tickets / seconds:.0f} tickets a second; of a ticket {1000 * of_rooms / tickets:.2f} ms of a "
        f"room, {1000 * of_postgres / tickets:.2f} ms of PostgreSQL, with the asking; load {os.getloadavg()[0]:.0f}"
    )
    for one in served:
        one.close()


def run(folder, engine, say):
    for count in (1, 4, 1, 4):
        rooms(folder, engine, count, say)
