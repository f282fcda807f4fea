"""What is counted, in the text format of Prometheus."""

from __future__ import annotations

import threading
from bisect import bisect_left
from collections import Counter
from typing import Iterable, Iterator, Mapping

SECONDS = (0.001, 0.0025, 0.005, 0.01, 0.025, 0.05, 0.1, 0.25, 0.5, 1.0, 2.5, 5.0, 10.0)
LONG_SECONDS = (*SECONDS, 60.0, 600.0, 3_600.0, 86_400.0)


class Histogram:
    """How many values are at most as great as each of some bounds. Threads may share one."""

    def __init__(self, name: str, about: str, bounds: tuple[float, ...] = SECONDS) -> None:
        self.name, self.about, self.bounds = name, about, bounds
        self._counts = [0] * (len(bounds) + 1)
        self._sum = 0.0
        self._lock = threading.Lock()

    def note(self, value: float) -> None:
        with self._lock:
            self._counts[bisect_left(self.bounds, value)] += 1
            self._sum += value

    def lines(self) -> Iterator[str]:
        with self._lock:
            counts, total = list(self._counts), self._sum
        name, sum_so_far = f"entangle_{self.name}", 0
        yield f"# HELP {name} {self.about}"
        yield f"# TYPE {name} histogram"
        for bound, count in zip((*map(str, self.bounds), "+Inf"), counts):
            sum_so_far += count
            yield f'{name}_bucket{{le="{bound}"}} {sum_so_far}'
        yield f"{name}_sum {total:.6f}"
        yield f"{name}_count {sum_so_far}"


class Metrics:
    """All that a server counts."""

    def __init__(self) -> None:
        self.told = Histogram("put_to_told_seconds", "from a put until the request has ended", LONG_SECONDS)
        self.steps = Histogram("step_seconds", "a step of the room, with its transaction")
        self.transactions = Histogram("transaction_seconds", "a transaction of the store")
        self.answers: Counter[tuple[str, int]] = Counter()
        self.endings: Counter[str] = Counter()
        self.steps_made: Counter[str] = Counter()
        self.groups = self.puts = 0

    def text(self, gauges: Mapping[str, float]) -> str:
        """The whole text, with the present values of gauges."""
        lines = [line for name, value in gauges.items() for line in _plain(name, "gauge", [("", value)])]
        lines += _plain("groups_total", "counter", [("", self.groups)])
        lines += _plain("puts_total", "counter", [("", self.puts)])
        answers = sorted(self.answers.items())
        lines += _plain(
            "answers_total", "counter", [(f'{{call="{call}",status="{code}"}}', n) for (call, code), n in answers]
        )
        endings = sorted(self.endings.items())
        lines += _plain("endings_total", "counter", [(f'{{ending="{kind}"}}', count) for kind, count in endings])
        for histogram in (self.told, self.steps, self.transactions):
            lines += histogram.lines()
        return "\n".join(lines) + "\n"


def _plain(name: str, kind: str, values: Iterable[tuple[str, float]]) -> list[str]:
    return [f"# TYPE entangle_{name} {kind}", *(f"entangle_{name}{labels} {value}" for labels, value in values)]
