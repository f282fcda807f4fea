"""Wrong versions of inbox, desk and front, each of which a case has to find."""

import contextlib
import io
import os
from unittest.mock import patch

import fronts
from entangle.stores import Desk
from inboxes import Hooked, Inboxes
from trial import HERE, Wrong
from wrong_servers import copied_with

UPDATES = "DO UPDATE SET request_key = excluded.request_key RETURNING request_key, xmax = 0"


class ConflictDoesNothing(Hooked):
    """Who asks again writes nothing, and so waits for no standby."""

    def _run(self, sql, parameters=()):
        return super()._run(sql.replace(UPDATES, "DO NOTHING RETURNING request_key, true"), parameters)


class TellsWhatItReads(Hooked):
    """What is read is told, whether or not the standby has it."""

    def _affirm(self):
        pass


class IgnoresWarnings(Hooked):
    """What the server says beside its answer to COMMIT is passed over."""

    def _noticed(self, said):
        pass


class RejectsUnfenced(Hooked):
    """A desk rejects whoever has the store."""

    def reject(self, faults, claim, token):
        if faults:
            super().reject(faults, *self._found(f"SELECT claim, token FROM {self._claims}")[0])


class TakesOutUnfenced(Hooked):
    """A desk takes rows out whoever has the store."""

    def done(self, numbers, told, claim, token):
        super().done(numbers, told, *self._found(f"SELECT claim, token FROM {self._claims}")[0])


class OfAllSchemas(Hooked):
    """The inboxes of all schemas have one channel."""

    def _channel(self, what):
        return f"entangle_{what}"


class NeverFull(Hooked):
    """An inbox takes any number of requests."""

    def backlog_seen(self):
        return 0


class PutsAnew(Desk):
    """A desk puts without keys."""

    def _unfolded(self, request):
        return [type(one)(one.script, one.values, one.patience) for one in super()._unfolded(request)]


class TakesOutFirst(Desk):
    """A desk takes rows out before the store has them."""

    def take(self):
        rows = self._inbox.take(self._most)
        self._inbox.done([row.number for row in rows], None, *self._store.version())
        self._inbox.take = lambda *_: rows
        try:
            return super().take()
        finally:
            del self._inbox.take


class PutsAll(Desk):
    """A desk puts however many wait."""

    def take(self):
        self._most_waiting = 10**9
        return super().take()


class LosesWithdrawals(Desk):
    """What is withdrawn is done, whether or not it was put."""

    def _put(self, rows):
        super()._put(rows)
        return set()

    def take(self):
        for row in self._inbox.take(self._most):
            if row.request is None:
                self._withdraw([row])
        return super().take()


class KeepsNoTime(Desk):
    """Whose time is over waits on."""

    def each_second(self):
        self._inbox.count(self._room.waiting_count())


# Of each wrong version the cases that have to find it.
CASES = {
    ConflictDoesNothing: "standby_away terminate",
    TellsWhatItReads: "standby_away terminate",
    IgnoresWarnings: "standby_away cancel",
    RejectsUnfenced: "rejections",
    TakesOutUnfenced: "stale",
    OfAllSchemas: "ears",
    NeverFull: "full",
    PutsAnew: "comes_back",
    TakesOutFirst: "desk_killed before",
    PutsAll: "full",
    LosesWithdrawals: "withdrawals",
    KeepsNoTime: "times",
}
# Wrong versions of fronts and of rooms' processes: the module, what it says in place of what, and the case of fronts.
SERVERS = {
    "sees_anybodys": ("_front", "call.is_reader or position.label.subject == call.subject", "True", "owned"),
    "withdraws_anybodys": ("_front", "call.is_operator or position.label.subject == call.subject", "True", "owned"),
    "any_values_under_a_key": ("_front", "if not known.is_forgotten and (", "if False and (", "calls"),
    "told_once": ("_front", "ALWAYS_TOLD = 2**62", "ALWAYS_TOLD = 0", "calls"),
    "asks_a_room": ("_front", "list(self.lines.values()) if room", "list(self.lines.values())[:1] if room", "calls"),
    "any_room": ("_bodies", "room not in file.rooms", "False", "calls"),
    "waits_any_time": ("_front", "problem = until_problem(call)", "problem = None", "calls"),
    "tells_no_more": ("_front", "self._last.get(digest) != found[digest]", "digest not in self._last", "calls"),
    "has_no_turn": ("_server", "inbox_of(own), turn_of(own)", "inbox_of(own), None", "apart"),
    "rejects_nobody": ("_room_desk", "if label is None or label.request != asked.script:", "if False:", "rejected"),
}
PLANTS = {**{version.__name__: version for version in CASES}, **SERVERS}


def tried_server(cases, name, tally, say):
    """Whether the case of fronts finds a wrong version of the server."""
    place = copied_with(cases.folder, name, *SERVERS[name][:3])
    tally.case = SERVERS[name][3]
    library = os.environ.get("ENTANGLE_LIBRARY") or os.path.join(HERE, "bindings", "archive", "libentangle.so")
    said, environment = io.StringIO(), patch.dict(os.environ, PYTHONPATH=place, ENTANGLE_LIBRARY=library)
    with environment, contextlib.redirect_stdout(said):
        fault = None
        try:
            getattr(fronts, tally.case)(tally, cases.folder, cases.engine)
        except Exception as error:  # what is wrong may break the case
            if "doesn't start" in str(error):
                raise
            fault = error
        finally:
            fronts.closed()
    found = [line for line in said.getvalue().splitlines() if "WRONG" in line]
    found += [f"{tally.case} breaks: {fault!r}"] if fault else []
    say(f"{name}: " + (f"found: {found[0]:.150}" if found else "NOT FOUND"))
    return bool(found)


def tried_plants(cases, names, tally, say):
    """Tries wrong versions; how many, and how many aren't found."""
    wrong = 0
    for name in names or PLANTS:
        if name in SERVERS:
            wrong += not tried_server(cases, name, tally, say)
            continue
        version, before = PLANTS[name], cases.wrong
        inboxes = Inboxes(cases)
        kind = "desk_class" if issubclass(version, Desk) else "inbox_class"
        setattr(inboxes, kind, version)
        cases.only, said = CASES[version], io.StringIO()
        with contextlib.redirect_stdout(said):
            try:
                inboxes.run()
            except Wrong as error:  # a life without faults goes wrong already
                cases.wrong += 1
                print(f"WRONG: {error}")
        found = [line for line in said.getvalue().splitlines() if "WRONG" in line]
        wrong += cases.wrong == before
        say(f"{name}: " + (f"found: {found[0]:.150}" if found else "NOT FOUND"))
    return len(names or PLANTS), wrong
