"""Scripts that wait, and which of them meet: worked out step by step, for tools/check arrange.

Written from docs/ROOM.md and docs/LANGUAGE.md alone. A script is a list of statements, each the name that it offers and
the names that it demands; None demands any name. Those who wait stand in a dictionary by number.
"""

MOST_MEMBERS = 64


def offers(script):
    return [head for head, _ in script]


def demands(script):
    return [name for _, names in script for name in names]


def may_meet(demand, offer):
    return demand is None or demand == offer


def ways(scripts, demand):
    """How many offers of the scripts may meet a demand."""
    return sum(may_meet(demand, offer) for script in scripts for offer in offers(script))


def serves(one, other):
    """Whether one script offers what the other demands."""
    return any(ways([one], demand) for demand in demands(other))


def is_crowded(scripts):
    return any(ways(scripts, demand) > 1 for script in scripts for demand in demands(script))


def first_unmet(scripts):
    """The first demand that none of the scripts may meet, alone in a list; else an empty list."""
    return [demand for script in scripts for demand in demands(script) if not ways(scripts, demand)][:1]


def closed_set(waiting, chosen, clear):
    """The first set with the chosen of which each demand may be met, by one offer alone where it has to be clear."""
    scripts = [waiting[number] for number in chosen]
    lacking = first_unmet(scripts)
    if clear and is_crowded(scripts):
        return None
    if not lacking:
        return sorted(chosen)
    if len(chosen) == MOST_MEMBERS:
        return None
    others = (number for number in sorted(waiting) if ways([waiting[number]], lacking[0]))
    found = (closed_set(waiting, [*chosen, number], clear) for number in others)
    return next((meeting for meeting in found if meeting), None)


def may_come(scripts, other):
    """Whether one offer alone may meet each demand of another script, which offers nothing that these demand."""
    once = all(ways([*scripts, other], demand) == 1 for demand in demands(other))
    return once and not any(serves(other, script) for script in scripts)


def widened(waiting, meeting):
    """The meeting with those who demand what it offers, one offer after the other, as far as they may come."""
    tickets = list(meeting)
    for member in tickets:
        for offer in offers(waiting[member]):
            for number in sorted(waiting):
                asks = any(may_meet(demand, offer) for demand in demands(waiting[number]))
                if not asks or number in tickets or len(tickets) == MOST_MEMBERS:
                    continue
                if may_come([waiting[ticket] for ticket in tickets], waiting[number]):
                    tickets.append(number)
    return sorted(tickets)


def meetings_of(waiting):
    """The meetings of those who wait, each of the first who isn't in one yet; these wait no more."""
    meetings = []
    for root in sorted(waiting):
        meeting = root in waiting and (closed_set(waiting, [root], True) or closed_set(waiting, [root], False))
        if meeting:
            meetings.append({number: waiting[number] for number in widened(waiting, meeting)})
            for number in meetings[-1]:
                del waiting[number]
    return meetings


def lonely_of(waiting):
    """Who stands in no set of those who wait in which each demand may be met."""
    left = dict(waiting)
    while hopeless := [
        number for number, script in left.items() if not all(ways(left.values(), demand) for demand in demands(script))
    ]:
        left = {number: script for number, script in left.items() if number not in hopeless}
    return [number for number in waiting if number not in left]


def in_a_block(meetings):
    """The meetings in the order of one block: the first that may meet none before it, else the first."""
    placed, left = [], list(meetings)
    while left:
        scripts = [script for meeting in placed for script in meeting.values()]
        apart = (
            meeting
            for meeting in left
            if not any(serves(one, other) or serves(other, one) for one in scripts for other in meeting.values())
        )
        placed.append(next(apart, left[0]))
        left.remove(placed[-1])
    return placed
