"""Pairs of travellers who book a common flight out of a hundred: the input by which the program is counted.

    python3 tools/benchmarks/flights.py PAIRS > INPUT
"""

import sys

FLIGHTS = 100
TO_LA = 40
OTHERS = ("Paris", "Rome", "Oslo")
OPENING = "CREATE TABLE Flights (fno INT, dest TEXT);\nCREATE TABLE Bookings (who TEXT, fno INT);\n"


def destination(place):
    """Where the flight at a place goes; those to LA are spread evenly."""
    is_to_la = (place + 1) * TO_LA // FLIGHTS > place * TO_LA // FLIGHTS
    return "LA" if is_to_la else OTHERS[place % len(OTHERS)]


def request(traveller, partner):
    """The script of a traveller who takes the partner's flight."""
    return (
        "BEGIN TRANSACTION;\n"
        f"SELECT '{traveller}', fno AS @f INTO ANSWER R WHERE fno IN (SELECT fno FROM Flights WHERE dest = 'LA') "
        f"AND ('{partner}', fno) IN ANSWER R CHOOSE 1;\n"
        f"INSERT INTO Bookings VALUES ('{traveller}', @f);\n"
        "COMMIT;\n"
    )


def bookings(count):
    """So many pairs, each beside its partner."""
    rows = (f"INSERT INTO Flights VALUES ({100 + at}, '{destination(at)}');\n" for at in range(FLIGHTS))
    scripts = (request(f"A{at}", f"B{at}") + request(f"B{at}", f"A{at}") for at in range(count))
    return OPENING + "".join(rows) + "".join(scripts)


if __name__ == "__main__":
    sys.stdout.write(bookings(int(sys.argv[1])))
