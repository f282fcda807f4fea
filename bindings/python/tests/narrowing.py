"""Code as users write it, which a strict type checker takes: it knows of each answer and each standing which one it is.

It is checked and run by `tools/check bindings`.
"""

import asyncio
from typing import NoReturn

import entangle


def never(value: NoReturn) -> NoReturn:
    """Code that isn't reached: a type checker finds no value that comes here."""
    raise AssertionError(value)


def said_of_answer(answer: entangle.Answer) -> str:
    if isinstance(answer, entangle.CountAnswer):
        return f"{answer.count + 0} rows"
    if isinstance(answer, entangle.SetAnswer):
        value: entangle.Value = answer.value
        return value.upper() if isinstance(value, str) else str(value + 1)
    if isinstance(answer, entangle.RowsAnswer):
        return f"{len(answer.rows)} rows"
    if isinstance(answer, entangle.EntangledAnswer):
        return " ".join(fact.relation for fact in answer.facts)
    never(answer)


def said_of_standing(standing: entangle.Standing) -> str:
    if isinstance(standing, (entangle.Waiting, entangle.Running)):
        return standing.kind
    fate: entangle.Fate = standing
    if isinstance(fate, entangle.Committed):
        return f"commit {fate.number + 0}"
    if isinstance(fate, entangle.Failed):
        return f"{fate.failure.value} after {fate.runs + 0}"
    if isinstance(fate, (entangle.GaveUp, entangle.RolledBack)):
        return f"{fate.kind} after {fate.runs + 0}"
    never(fate)


def said_by_kind(standing: entangle.Standing) -> int:
    if standing.kind == "committed":
        return standing.number
    if standing.kind == "running":
        return 0
    return standing.runs


def said_of_ticket(state: entangle.TicketState) -> str:
    if isinstance(state, entangle.TicketWaits):
        return f"waits after {state.batches + 0}"
    if isinstance(state, entangle.TicketLonely):
        return f"lacks demand {state.demand + 0}"
    if isinstance(state, (entangle.TicketNoMeeting, entangle.TicketCut, entangle.TicketInBatch)):
        return state.kind
    if isinstance(state, entangle.TicketUnknown):
        return state.kind
    ending: entangle.Ending = state
    if isinstance(ending, entangle.TicketCommitted):
        return f"commit {ending.number + 0} of epoch {ending.epoch + 0}"
    if isinstance(ending, entangle.TicketFailed):
        return ending.failure.value
    if isinstance(ending, (entangle.TicketRolledBack, entangle.TicketGaveUp, entangle.TicketWithdrawn)):
        return ending.kind
    if isinstance(ending, (entangle.TicketNotRestored, entangle.TicketRefusedByStore)):
        return ending.fault
    never(ending)


def said_by_kind_of_ticket(state: entangle.TicketState) -> int:
    return state.number if state.kind == "committed" else 0


def said_of_group(group: entangle.Group) -> str:
    said = [said_of_answer(answer) for commit in group.commits for answer in commit.answers]
    said += [f"{name} {len(change.added) - len(change.removed):+}" for name, change in group.changes.items()]
    said += [said_of_ticket(one.ending) for one in group.ended]
    return f"group {group.number + 0}: {', '.join(said)}"


async def awaited(room: entangle.Room, ticket: entangle.Ticket) -> entangle.Ending:
    return await room.fate(ticket)


def said_of_error(error: entangle.Error) -> str:
    if isinstance(error, entangle.Fault):
        return f"E{error.code + 0}" if error.offset is None else f"E{error.code + 0} at {error.offset + 0}"
    if isinstance(error, entangle.NotBound):
        return f"{error.variable}: {error.fault.name}"
    if isinstance(error, entangle.NotARow):
        return f"{error.table} {error.row + 0} {said_of_row_fault(error.fault)}"
    return str(error)


def said_of_row_fault(fault: entangle.RowFault) -> str:
    return "in no table" if fault is entangle.RowFault.NO_SUCH_TABLE else fault.name


def tell_of_room() -> None:
    rows: dict[str, list[entangle.Row]] = {"T": [(1,), (2,)]}
    with entangle.Room("CREATE TABLE T (a INT);", rows, most_waiters=10) as room:
        script, values = "BEGIN TRANSACTION; INSERT INTO T VALUES (@a); COMMIT;", {"a": 3}
        ticket: entangle.Ticket = room.put(script, values, entangle.Patience.UNTIL_WITHDRAWN)
        other = room.put(script, {"a": 4}, patience=2)
        assert said_of_ticket(room.state(ticket)) == "waits after 0"
        stepped: entangle.Stepped = room.step()
        assert stepped == "ran"
        ending: entangle.Ending = room.wait(ticket, 1.0)
        assert said_of_ticket(ending) == "commit 1 of epoch 1"
        assert said_by_kind_of_ticket(room.state(other)) == 2
        assert said_of_ticket(asyncio.run(awaited(room, other))) == "commit 2 of epoch 1"
        groups: list[entangle.Group] = room.groups(2)
        assert [said_of_group(group) for group in groups] == ["group 2: 1 rows, T +1"]
        room.settled_through(groups[-1].number)
        assert room.groups() == [] and room.next_group() - 3 == 0
        epoch: int = room.turn("T")
        report = room.report(2)
        assert report is not None and report.epoch == epoch and room.table("T") == []
        try:
            room.put(script, {"b": "x"})
        except entangle.Error as error:
            assert said_of_error(error) == "b: UNUSED"
        said = room.explain(script, {"a": "x"})
        assert said is not None and said.startswith("E304 at ")
    try:
        entangle.Room("CREATE TABLE T (a INT);", {"T": ([number] for number in (1, 2**63))})
    except entangle.NotARow as error:
        column, code = error.column, error.code
        assert column is not None and column + 0 == 0 and code is None
        assert said_of_error(error) == "T 1 TOO_LARGE"


def main() -> None:
    tell_of_room()
    with entangle.Driver("CREATE TABLE T (a INT);") as driver:
        tx: int = driver.submit("BEGIN TRANSACTION; INSERT INTO T VALUES (1); SET @a = 'x'; SELECT * FROM T; COMMIT;")
        assert said_of_standing(driver.standing(tx)) == "waiting"
        driver.run()
        assert [said_of_answer(answer) for answer in driver.answers(tx)] == ["1 rows", "X", "1 rows"]
        assert said_of_standing(driver.standing(tx)) == "commit 1"
        assert said_by_kind(driver.standing(tx)) == 1
        rows: list[entangle.Row] = driver.table("T")
        assert rows == [(1,)]
        reply: entangle.Reply = driver.step("start run")
        assert reply == "absent"
        try:
            driver.submit("COMMIT")
        except entangle.Error as error:
            assert said_of_error(error) == "E201 at 0"


if __name__ == "__main__":
    main()
