"""Faulty files: what is replaced in the file of the trips, and what `--check` has to say of it, with its line."""

# Each has what stands in the file, what takes its place, a text on the line of the fault, and words that are said.
FAULTS = [
    ("page = ", "page == ", 'page == "trips.html"', "this isn't TOML"),
    ("page = ", "pgae = ", 'pgae = "trips.html"', "pgae means nothing: did you mean page?"),
    ("page = ", "origins = [3]\npage = ", "origins = [3]", "origins has texts, not 3"),
    ("page = ", 'trusted_proxies = ["x"]\npage = ', 'trusted_proxies = ["x"]', "no address and no network"),
    ("page = ", "limits = { body = 0 }\npage = ", "limits = { body = 0 }", "limits.body is a number from 1 to"),
    ("page = ", "limits = { body = true }\npage = ", "limits = { body", "limits.body is a whole number, not true"),
    ("page = ", "limits = { bdy = 3 }\npage = ", "limits = { bdy", "limits.bdy means nothing: did you mean body?"),
    ("page = ", 'store = { sqlite = "a", postgres = "b" }\npage = ', "store = {", "a server has one store"),
    (
        "operate = { port",
        'operate = { host = "0.0.0.0", port',
        'host = "0.0.0.0"',
        "others may call operate.host: name tokens",
    ),
    ("page = ", 'store = { name = "A b" }\npage = ', "store = {", "small letters, digits and _"),
    ("page = ", 'store = { unrestored = "drop" }\npage = ', "store = {", 'is "refuse" or "set aside", not "drop"'),
    ("least = 1, ", "least = 9000, ", "wait = {", "wait.default is from the least, 9000"),
    ("most = 86400", 'most = "a day"', "wait = {", 'wait.most is a whole number, not "a day"'),
    ('fno = "INT", dest', 'fno = "NUMBER", dest', "Flights = {", "the kind of fno is INT or TEXT, not 'NUMBER'"),
    ('[123, "LA"]', "[123]", '[136, "Paris"]', "a row has 2 values: fno, dest"),
    ('[123, "LA"]', '["123", "LA"]', '[136, "Paris"]', "this can't be a row: '123' isn't a whole number"),
    ('[123, "LA"]', '[122, "LA"]', "Flights = {", "has a row twice: (122, 'LA')"),
    (
        'read = "anybody", rows = [',
        'read = "all", rows = [',
        "Flights = {",
        'tables.Flights.read is "nobody" or "anybody"',
    ),
    (
        'read = "anybody", rows = [',
        'read = "anybody", collects = true, rows = [',
        "Flights = {",
        "a table that collects",
    ),
    ('rows = "seats.csv", read', 'rows = "seat.csv", read', "Cabin = {", "names seat.csv, which can't be read"),
    ("Free = {", "free-seats = {", "free-seats = {", "no table and no column can have the name 'free-seats'"),
    ("[requests.alone]", "[requests.look]", "[requests.look]", "no request can have the name look"),
    ("[requests.alone]", "[requests.Alone]", "[requests.Alone]", "no request can have the name Alone"),
    (
        'kind = "request" }\nparameters.me',
        'kind = "key" }\nparameters.me',
        "parameters.trip",
        '"INT" or "TEXT" or "request"',
    ),
    (
        'kind = "request" }\nparameters.me',
        'knd = "request" }\nparameters.me',
        "parameters.trip",
        "the kind of trip is missing",
    ),
    (
        'pattern = ".+" }\nparameters.friend',
        'pattern = "(" }\nparameters.friend',
        "parameters.me",
        "isn't a regular expression",
    ),
    (
        'parameters.fno = { kind = "INT"',
        'parameters.fno = { kind = "INT", least = 3, greatest = 2',
        "parameters.fno",
        "greatest is less than the least",
    ),
    (
        'parameters.fno = { kind = "INT"',
        'parameters.fno = { kind = "INT", length = 2',
        "parameters.fno",
        "length means nothing",
    ),
    (
        "parameters.fno =",
        'parameters.x = { kind = "INT" }\nparameters.fno =',
        "parameters.x",
        "no script of move uses @x",
    ),
    (
        "parameters.fno =",
        'parameters.request = { kind = "INT" }\nparameters.fno =',
        "parameters.request",
        "no parameter can have the name request",
    ),
    (
        'parameters.trip = { kind = "request" }\nanswers',
        'parameters.trip = { from = "subject" }\nanswers',
        "parameters.trip",
        "trip comes from the subject of a token, and the file names no tokens",
    ),
    (
        'answers = { flight = "fno", seat = "seat" }\nscripts = ["""\nBEGIN TRANSACTION;\nSELECT @fno',
        'answers = { flight = "flight" }\nscripts = ["""\nBEGIN TRANSACTION;\nSELECT @fno',
        'answers = { flight = "flight" }',
        "no script of move has an answer with an item flight",
    ),
    ("UPDATE Seats SET who", "UPDATE Seat SET who", "UPDATE Seat SET who", "a script of move has the fault E301"),
    (
        "booking = @trip) CHOOSE 1;",
        "booking = @trip) CHOOSE 2;",
        "booking = @trip) CHOOSE 2;",
        "a script of give_back has the fault E201",
    ),
    (
        "WHERE dest = @place)\n    AND (fno, seat)",
        "WHERE fno = @place)\n    AND (fno, seat)",
        "WHERE fno = @place)",
        "a script of together has the fault E3",
    ),
    (
        "SELECT fno AS @fno, seat AS @seat INTO ANSWER Back",
        "SELECT fno AS @fno, seat AS @trip INTO ANSWER Back",
        "BEGIN TRANSACTION;",
        "@trip is a parameter of give_back, and the script gives it a value itself",
    ),
    (
        'scripts = ["""\nBEGIN TRANSACTION;\nSELECT fno AS',
        'scripts = ["none.sql", """\nBEGIN TRANSACTION;\nSELECT fno AS',
        'scripts = ["none.sql"',
        "the script none.sql can't be read",
    ),
]


def line_of(text, words, behind=0):
    """The number of the first line of a text that has these words."""
    return text[: text.index(words, behind)].count("\n") + 1


def said_of(server, file):
    """The faults of a file, as `--check` tells them."""
    try:
        server.try_file(server.read_file(file))
    except server.FileRefused as error:
        return str(error)
    return ""


def check(server, tally, file):
    """Each faulty file is told with its line."""
    with open(file, encoding="utf-8") as source:
        right = source.read()
    tally.compare("the file as it is", said_of(server, file), "")
    for number, (old, new, place, words) in enumerate(FAULTS):
        if right.count(old) < 1:
            tally.note(f"faulty file {number}", False, f"{old!r} isn't in the file")
            continue
        at = right.index(old)
        text = right.replace(old, new, 1)
        with open(file, "w", encoding="utf-8") as target:
            target.write(text)
        section = text.rfind("\n[requests", 0, at)
        line = line_of(text, place, max(section, 0) if place.startswith("BEGIN") else max(0, at - 400))
        said = said_of(server, file)
        wanted = f"{file}:{line}: "
        is_told = any(one.startswith(wanted) and words in one for one in said.splitlines())
        tally.note(f"faulty file {number}: {words}", is_told, f"line {line} of {said!r}")
    with open(file, "w", encoding="utf-8") as target:
        target.write(right)
