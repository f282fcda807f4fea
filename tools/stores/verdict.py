"""What has to hold of a store, as plain SQL reads it, and of what was told."""

import collections
import json

from engines import FIRST, INITIAL
from entangle.stores._kept import answers_of
from fake_room import changed, effects
from trial import need


def stands(engine, place, side):
    """What stands in a store: the numbers of the claim, the tickets, and the tables."""
    columns = "ticket, request_key, script, bound, batches, ended_in, ending, epoch, number, failure, answers"
    with engine.reading(place) as connection:
        if not engine.is_there(connection, f"{side.name}_claim") or not engine.is_there(
            connection, side.tables[1].stored_name
        ):
            return [], [], {}
        numbers = "claim, write, epoch, last_group, next_ticket"
        claim = connection.execute(f"SELECT {numbers} FROM {side.name}_claim").fetchall()
        tickets = connection.execute(f"SELECT {columns} FROM {side.name}_tickets ORDER BY ticket").fetchall()
        tables = {name: [tuple(row) for row in connection.execute(sql).fetchall()] for name, sql in side.read.items()}
    return claim, [Stored(*row) for row in tickets], tables


Stored = collections.namedtuple("Stored", "ticket key script bound batches group ending epoch number failure answers")


def group_holds(number, members, tables, numbers):
    """A group is whole, and its answers are those that its changes give; makes the changes."""
    first = members[0]
    if first.ending != "committed":
        need(len(members) == 1, f"group {number} has {len(members)} who didn't commit")
        fates = {"fail": ("failed", "F1"), "roll": ("rolled back", None), "alone": ("gave up", None)}
        is_right = (first.ending, first.failure) == fates.get(first.script)
        need(is_right, f"ticket {first.ticket}, {first.script}, has {first.ending}")
        return
    values = [json.loads(member.bound) for member in members]
    need({member.ending for member in members} == {"committed"}, f"group {number} is half committed")
    need({member.script for member in members} == {first.script}, f"group {number} has different scripts")
    if first.script == "pair":
        is_whole = len(values) == 2 and [one["me"] for one in values] == [one["friend"] for one in values[::-1]]
        need(is_whole, f"group {number} isn't a whole pair: {values}")
    else:
        need(first.script == "add" and len(values) == 1, f"group {number} of {first.script} has {len(values)}")
    changes, answers = effects(first.script, values, tables)
    changed(tables, changes)
    for member, answered in zip(members, answers):
        said = answers_of(member.answers)
        need(said == answered, f"ticket {member.ticket} was answered {said}, and not {answered}")
        numbers[member.epoch].append(member.number)


def holds(engine, place, told, side=FIRST):
    """What has to hold at any time; the tickets that stand in the store by key."""
    claims, tickets, tables = stands(engine, place, side)
    if not claims:
        need(not told, "the store was never loaded, and tickets were told")
        return {}
    _, _, epoch, last_group, next_ticket = claims[0]
    by_number = {one.ticket: one for one in tickets}
    need(all(one.ticket < next_ticket for one in tickets), "a ticket that is to come is there")
    groups = collections.defaultdict(list)
    for one in tickets:
        if one.ending == "withdrawn":
            need(one.group is None, f"ticket {one.ticket} is withdrawn, and in group {one.group}")
        elif one.ending is not None:
            groups[one.group].append(one)
    need(sorted(groups) == list(range(1, last_group + 1)), f"{last_group} groups, and those of tickets are others")
    replayed, numbers, epochs = {name: list(rows) for name, rows in INITIAL.items()}, collections.defaultdict(list), []
    for number in sorted(groups):
        members = sorted(groups[number], key=lambda one: (one.number or 0))
        group_holds(number, members, replayed, numbers)
        epochs += [member.epoch for member in members if member.epoch]
    need(epochs == sorted(epochs) and all(one <= epoch for one in epochs), "epochs aren't in order")
    for of_epoch in numbers.values():
        need(of_epoch == list(range(1, len(of_epoch) + 1)), f"commits of an epoch are {of_epoch}")
    for name, rows in replayed.items():
        need(sorted(rows) == sorted(tables[name]), f"{name} isn't that after the groups")
    for said in told:
        if "key" in said:
            found = by_number.get(said["ticket"])
            is_there = found is not None and found.key == said["key"]
            need(is_there, f"ticket {said['ticket']} of {said['key']} isn't there")
        elif "ended" in said:
            found = by_number.get(said["ended"])
            need(found is not None, f"ticket {said['ended']}, which is said to have ended, isn't there")
            stood = [found.ending, found.epoch if found.number else None, found.number, found.failure]
            need(stood == said["ending"], f"ticket {found.ticket} has {stood}, and {said['ending']} was told")
            if "answered" in said:
                stood = [found.group, repr(answers_of(found.answers))]
                need(stood == said["answered"], f"ticket {found.ticket} has {stood}, and {said['answered']} was told")
    return {one.key: one for one in tickets}


# How each kind of script may end, if it may.
ENDS = {
    "add": {"committed"},
    "pair": {"committed"},
    "fail": {"failed"},
    "roll": {"rolled back"},
    "alone": {"gave up", None},
}


def all_done(engine, place, told, plan, side=FIRST):
    """What has to hold once a client has gone through a whole plan without a fault."""
    by_key = holds(engine, place, told, side)
    withdrawn = {given[0] for word, *given in plan if word == "withdraw"}
    wanted = [request for word, *given in plan if word == "put" for request in given]
    names = {values["me"] for _, script, values, _ in wanted if script == "pair"}
    need(set(by_key) == {key for key, *_ in wanted}, "the requests aren't those of the plan")
    for key, script, values, _ in wanted:
        may = ENDS[script] | ({"withdrawn"} if key in withdrawn else set())
        if script == "pair" and values["friend"] not in names:
            may = {None, "withdrawn"}
        need(by_key[key].ending in may, f"{key}, {script}, has {by_key[key].ending}")
    tickets = collections.defaultdict(set)
    for said in told:
        if "key" in said:
            tickets[said["key"]].add(said["ticket"])
    need(all(len(found) == 1 for found in tickets.values()), "a request was told two tickets")
