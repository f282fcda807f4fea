"""Plays a crowd in a room, and has it judged."""

import re
import time
from dataclasses import dataclass, field

from crowds import AS_WRITTEN, Committed, Put, Restart, Withdraw, opening_text
from verdict import Party, judged

MOST_STEPS, MOST_FURTHER, MOST_STEPS_FURTHER = 20_000, 256, 1_000


class Fault(Exception):
    """Something isn't as it has to be: its kind, and what it is."""

    def __init__(self, kind, what):
        super().__init__(f"{kind}: {what}")
        self.kind, self.what = kind, what


@dataclass
class Outcome:
    """What came of a crowd: the fault, if there is one, and what was done."""

    kind: str
    seed: int
    size: int
    fault: str = ""
    told: list = field(default_factory=list)
    judgements: int = 0
    sets: int = 0
    in_part: int = 0
    further: int = 0
    cut: int = 0
    steps: int = 0
    longest: float = 0.0
    seconds: float = 0.0


class Playing:
    """A crowd in a room."""

    def __init__(self, crowd, room):
        self.crowd, self.room = crowd, room
        self.tickets, self.put, self.cut = {}, {}, set()
        puts = [call for call in crowd.calls if isinstance(call, Put)]
        self.outcome = Outcome(crowd.kind, crowd.seed, len(puts))

    def play(self):
        """Makes the calls of the crowd; what came of it."""
        begun, outcome = time.process_time(), self.outcome
        try:
            for number, call in enumerate(self.crowd.calls, 1):
                self.number = number
                self._make(call)
            self._all_committed(self.crowd.must)
        except Fault as fault:
            outcome.fault = fault.kind
            outcome.told = [f"{fault.kind}: {fault.what}", *outcome.told]
        finally:
            self.room.close()
        outcome.seconds = time.process_time() - begun
        return outcome

    def _make(self, call):
        room = self.room
        if isinstance(call, Put):
            self.tickets[call.name] = room.put(call.script, call.stay, call.apart)
            self.put[self.tickets[call.name]] = call
        elif isinstance(call, Withdraw):
            if self.tickets[call.name] in room.waiting():
                room.withdraw(self.tickets[call.name])
        elif isinstance(call, Restart):
            room.restart()
        elif isinstance(call, Committed):
            self._all_committed(call.names)
        elif call.count is not None:
            for _ in range(call.count):
                self._step()
        else:
            self._until_idle()
            if call.judged:
                self._judge()

    def _step(self):
        begun = time.process_time()
        answer = self.room.step()
        self.outcome.longest = max(self.outcome.longest, time.process_time() - begun)
        self.outcome.steps += 1
        if self.crowd.seconds is not None and self.outcome.longest > self.crowd.seconds:
            raise Fault("long step", f"{self.outcome.longest:.2f} s of processor time")
        return answer

    def _until_rest(self):
        """Steps until nothing is left to do."""
        for _ in range(MOST_STEPS):
            if self._step() == "idle":
                return
        raise Fault("never idle", f"not after {MOST_STEPS} steps, in call {self.number}")

    def _until_idle(self):
        """Steps until nothing is left to do, and nobody is cut. It notes who is cut still after so many calls of further,
        or so many steps."""
        begun = self.outcome.steps
        for _ in range(MOST_FURTHER):
            self._until_rest()
            self.cut = self.room.who_is_cut()
            if not self.cut or self.outcome.steps - begun > MOST_STEPS_FURTHER:
                break
            self.room.further()
            self.outcome.further += 1
        self.outcome.cut += bool(self.cut)

    def _judge(self):
        """Whether somebody waits, or gave up, who needn't."""
        outcome, room = self.outcome, self.room
        outcome.judgements += 1
        waiting = room.waiting()
        for ticket, call in self.put.items():
            state = room.state(ticket)
            has_no_bound = call.stay != AS_WRITTEN or call.script.within is None
            if state == "gave up" and (has_no_bound or call.script.is_ordinary()):
                raise Fault("gave up", f"{call.name}, whom no WITHIN lets give up, at call {self.number}")
            if ticket in waiting and call.script.is_ordinary():
                raise Fault("waits", f"{call.name}, who needs nobody, at call {self.number}")
        parties = [Party(self.put[ticket].name, self.put[ticket].script) for ticket in waiting]
        rows = room.tables()
        cut = {self.put[ticket].name for ticket in self.cut}
        verdict = judged(parties, rows, self.crowd.groups, self.crowd.seed, cut)
        outcome.sets += verdict.sets
        outcome.in_part += not verdict.is_whole
        if verdict.found is not None:
            found = verdict.found
            scripts = "".join(it.for_one_run().text() for it in found.scripts)
            named = {name: its for name, its in rows.items() if re.search(rf"\b{name}\b", scripts)}
            outcome.told = ["./entangle run <<'END'", *(opening_text(named) + scripts).splitlines(), "END"]
            fates = ", ".join(f"{name} {fate}" for name, fate in zip(found.names, found.fates))
            raise Fault("left out", f"of {len(parties)} who wait at call {self.number}, a run by itself has: {fates}")

    def _all_committed(self, names):
        """Whether those have committed who have to by now."""
        states = {name: self.room.state(self.tickets[name]) for name in names}
        lacking = sorted(f"{name} {state}" for name, state in states.items() if state != "committed")
        if lacking:
            served = f"{len(states) - len(lacking)} of {len(states)} who can be served"
            raise Fault("not committed", f"{served} at call {self.number}, and not: {', '.join(lacking[:6])}")
