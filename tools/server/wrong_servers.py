"""Wrong versions of the server, each of which a case of the check has to find."""

import os
import shutil

import calls
import durability
from serving import HERE, Served, copied

PACKAGE = os.path.join(HERE, "bindings", "python", "entangle")
# Of each the module, what a wrong version says in place of what it says, and the case that finds it.
PLANTS = {
    "key_is_no_secret": ("_positions", "hashlib.sha256(key.encode()).hexdigest()[:32]", "key[:32]", "basics"),
    "any_values_under_a_key": ("_desk", "if known.is_forgotten:", "if True:", "basics"),
    "anybody_sees_it": ("_public", 'digest_of(request.headers.get(_KEY_HEADER, "")) != digest', "False", "basics"),
    "waits_no_seconds": ("_public", "if left <= 0:", "if True:", "basics"),
    "why_is_old": ("_desk", "if request.said_after != self._changes:", "if request.said_after < 0:", "why"),
    "takes_what_has_ended": ("_desk", "if position.is_over:", "if False:", "basics"),
    "waits_for_ever": ("_desk", "room.expire() or", "False or", "timeouts"),
    "takes_any_until": (
        "_desk",
        "if call.until is not None and not",
        "if call.until is not None and False and not",
        "timeouts",
    ),
    "reads_any_length": ("_server", "client_max_size=limits.body", "client_max_size=1000 * limits.body", "bad"),
    "asked_from_anywhere": ("_public", "not in (None, *self.origins)", "== ''", "bad"),
    "control_characters": ("_declared", "if _CONTROL.search(value):", "if False:", "bad"),
    "table_is_never_new": ("_board", "self._tables.pop(name, None)", "pass", "tables"),
    "tag_of_any_rows": ("_board", "hashlib.sha256(body)", "hashlib.sha256(name.encode())", "tables"),
    "events_begin_anew": ("_desk", "self.ledger.store.endings() - len(self.ledger.aside)", "0", "streams"),
    "told_what_was_seen": ("_streams", "or position.number > after", "or True", "streams"),
    "any_number_waits": ("_desk", "if waiting >= limits.waiting_in_all:", "if False:", "limits"),
    "a_client_has_all": ("_desk", "if self.book.clients[call.client] >= limits.waiting:", "if False:", "limits"),
    "any_number_of_streams": ("_streams", "self.count >= self._limits.streams_in_all", "False", "limits"),
    "waits_for_a_body": ("_bodies", "request.read(), seconds", "request.read(), 10 * seconds", "limits"),
    "believes_anybody": ("_access", "while hops and _is_of(address, trusted):", "while hops:", "untrusted"),
    "any_mode": ("_access", "if mode & 0o077:", "if False:", "tokens"),
    "every_right": ("_access", "if right not in self.rights:", "if False:", "tokens"),
    "withdraws_anybodys": ("_desk", "call.is_operator or position.label.subject == call.subject", "True", "tokens"),
    "sees_anybodys": (
        "_access",
        "Caller(address, found.subject, found.rights)",
        "Caller(address, found.subject)",
        "tokens",
    ),
    "tokens_are_read_once": (
        "_access",
        "self._tokens = read_tokens(self.path)\n",
        "read_tokens(self.path)\n",
        "tokens",
    ),
    "log_has_the_key": (
        "_answers",
        'log.say("answer", id=request_id',
        'log.say("answer", id=repr(request._read_bytes)',
        "logs",
    ),
    "log_waits": ("_log", "self._lines.put_nowait(", "self._lines.put(", "logs"),
    "failing_is_hidden": (
        "_desk",
        "self.fault, self.refused = str(error), error",
        "self.fault, self.refused = None, error",
        "failing",
    ),
    "lag_is_hidden": (
        "_public",
        "LAG_SECONDS, MOST_WAIT = 20.0, 5.0, 30",
        "LAG_SECONDS, MOST_WAIT = 20.0, 500.0, 30",
        "lagging",
    ),
    "ends_at_a_faulty_start": (
        "_desk",
        "self._refuse_sent(_SWEEP_SECONDS)\n                continue",
        "raise",
        "failing_at_first",
    ),
    "second_signal_is_ignored": ("_server", "if self._stopped.is_set():", "if False:", "stopped"),
    "stands_by_nobody": ("_desk", "if self.turn is None:", "if True:", "stands_by"),
    "keeps_no_turn": ("_desk", "self.turn is not None and not self.turn.keep()", "False", "stands_by"),
    "sets_nothing_aside": ("_desk", "self.room.set_aside(self.refused.tickets)", "pass", "refused"),
    "starts_over_anybody": (
        "_desk",
        '"set aside" if self.file.store.sets_aside else "refuse"',
        '"set aside"',
        "changed",
    ),
    "told_before_it_is_written": (
        "_desk",
        "        self._is_settled = False\n        for call, tickets in",
        "        for call in calls:\n            self._answer(call, Taken(Position(call.digest, "
        'Label(call.declared.name, ""), 0, "waits"), True))\n        self._flush()\n'
        "        for call, tickets in",
        "failing",
    ),
    "lines_are_wrong": (
        "_lines",
        'return self.text.count("\\n", 0, self.place) + 1',
        'return self.text.count("\\n", 0, self.place)',
        "told_by_the_command",
    ),
}


def planted(name, folder):
    """Makes a wrong version of the package in a folder; its place."""
    return copied_with(folder, name, *PLANTS[name][:3])


def copied_with(folder, name, module, right, wrong):
    """A copy of the package in a folder, in which a module of the server says one thing in place of another; its
    place."""
    place = os.path.join(folder, name)
    shutil.copytree(PACKAGE, os.path.join(place, "entangle"))
    path = os.path.join(place, "entangle", "server", f"{module}.py")
    with open(path, encoding="utf-8") as file:
        text = file.read()
    if right not in text:
        raise SystemExit(f"{name} doesn't fit the server")
    with open(path, "w", encoding="utf-8") as file:
        file.write(text.replace(right, wrong, 1))
    return place


def tried(name, tally, folder):
    """Runs the case that has to find a wrong version, whose place PYTHONPATH has."""
    case = PLANTS[name][3]
    if case in {call.__name__ for call in calls.CALLS}:
        served = Served(copied(folder, "trips", head="limits = { rate = 100000, burst = 100000 }\n"))
        served.is_ready()
        try:
            getattr(calls, case)(tally, served)
        finally:
            served.close()
    else:
        getattr(calls if case in {call.__name__ for call in calls.SERVERS} else durability, case)(tally, folder)
