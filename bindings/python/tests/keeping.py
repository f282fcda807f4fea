"""Code over stores as users write it, which a strict type checker takes. It is checked by `tools/check bindings`."""

from datetime import datetime, timedelta, timezone
from typing import Optional, Sequence, Union

import entangle
from entangle.stores import DurableRoom, Loaded, NotLoadable, Outcome, PostgresStore, PostgresTurn, Ready
from entangle.stores import RefusedByStore, Request, SqliteStore, SqliteTurn, StepStats, Store, StoreFailed, StoreTaken
from entangle.stores import Table, Turn, UsedKey, Waiter, nobody_ends

TABLES = [
    Table("Flights", {"fno": "INT", "dest": "TEXT"}, initial=[(122, "LA")]),
    Table("Bookings", {"who": "TEXT", "fno": "INT"}, stored_as="travel.bookings", stored_columns={"who": "name"}),
]


def store_of(place: str) -> Store:
    return PostgresStore(place, name="trips", timeout=2.5) if "=" in place else SqliteStore(place)


def turn_of(place: str) -> Turn:
    if "=" in place:
        return PostgresTurn(place, "trips", lease=2.5)
    return SqliteTurn(place, "trips")


def steps_while_kept(place: str, room: DurableRoom) -> int:
    steps = 0
    with turn_of(place) as turn:
        while turn.keep() and room.step() != "idle":
            steps += 1
        is_free: bool = turn.take(timeout=0.5)
        turn.give()
    return steps if is_free else -1


def said_of(outcome: Optional[Outcome]) -> str:
    if outcome is None:
        return "waits"
    answers: tuple[entangle.Answer, ...] = outcome.answers
    where = "no group" if outcome.group is None else f"group {outcome.group + 0}"
    return f"{outcome.ending.kind} in {where} with {len(answers)} answers"


def booked(place: str, script: str, names: Sequence[str]) -> list[str]:
    said: list[str] = []
    try:
        with DurableRoom(TABLES, store_of(place)) as room:
            requests = [Request(script, {"me": name}, entangle.Patience.UNTIL_WITHDRAWN, name) for name in names]
            told: list[entangle.Ticket] = room.put_all(requests)
            each: list[Union[list[entangle.Ticket], entangle.Error]] = room.put_each([requests[:1], requests[1:]])
            soon = datetime.now(timezone.utc) + timedelta(minutes=5)
            last: entangle.Ticket = room.put(script, {"me": "Ann"}, 3, key="Ann", until=soon)
            while room.step() != "idle":
                pass
            said += [said_of(room.outcome(one)) for one in (*told, last)]
            said += [str(one) for one in each if isinstance(one, entangle.Error)]
            said += [str(one.number) for one in (*room.expire(soon), *room.withdraw_all(told), *room.ended())]
            said.append(f"{room.rows().count} of {room.rows().most}, {room.forget(soon) + room.forget_keys(soon)} gone")
    except NotLoadable as error:
        said.append(f"{error.table} {error.column or ''} {error.row or ''} {error.fault.name}")
    except RefusedByStore as error:
        said.append(f"{error.group}: {[one.number for one in error.tickets]} {error.table or ''} {error.row or ()}")
    except (StoreFailed, StoreTaken) as error:
        said.append(str(error))
    return said


async def ending(room: DurableRoom, ticket: entangle.Ticket) -> entangle.Ending:
    return await room.fate(ticket)


class Nothing:
    """A store that keeps nothing."""

    def load(self, tables: Sequence[Table], ready: Ready = nobody_ends) -> Loaded:
        loaded = Loaded(1, {table.name: [] for table in tables}, (), 1, 1, 0)
        ready(loaded)
        return loaded

    def reload(self, ready: Ready = nobody_ends) -> Loaded:
        return self.load(TABLES, ready)

    def apply(
        self,
        groups: Sequence[entangle.Group],
        ended: Sequence[Outcome],
        waiting: Sequence[Waiter],
        next_ticket: int,
        epoch: int,
    ) -> None:
        pass

    def check(self) -> None:
        pass

    def outcome(self, ticket: entangle.Ticket) -> Optional[Outcome]:
        return None

    def ticket_of(self, key: str) -> Optional[entangle.Ticket]:
        return None

    def tickets_of(self, keys: Sequence[str]) -> dict[str, UsedKey]:
        return {}

    def forget(self, before: datetime, first: int = 0) -> tuple[int, Optional[int]]:
        return 0, None

    def forget_keys(self, before: datetime, first: int = 0) -> tuple[int, Optional[int]]:
        return 0, None

    def close(self) -> None:
        pass


def told_of_step(stats: StepStats) -> None:
    print(stats.stepped, stats.in_room + stats.in_store, stats.transactions)


def told_of_groups(groups: Sequence[entangle.Group]) -> None:
    print([group.number for group in groups])


def over_nothing() -> DurableRoom:
    return DurableRoom(TABLES, Nothing(), unrestored="set aside", on_step=told_of_step, on_groups=told_of_groups)
