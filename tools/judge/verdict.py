"""The judge: which sets of those who wait a run by itself would answer.

It runs them over a Driver whose tables are those of the room. It chooses by the text alone which sets are worth a run:
each demand of a member may be met by a head of a member, and these links connect the set. What the text doesn't tell is
left to the run.
"""

import functools
import itertools
import operator
import random
from dataclasses import dataclass, replace
from typing import Optional

from crowds import opening_text
from scripts import Choice, Script

import entangle

MOST_MEMBERS = 4
# Bounds of one judgement, which says where it stays below all sets.
MOST_RUNS = 20_000
MOST_LOOKED = 300_000
# As many may wait that each set of them is run, whatever their texts say.
FEW = 9
MOST_SUBMITTED = 9_000


@dataclass(frozen=True)
class Party:
    """Somebody who waits."""

    name: str
    script: Script


class Trials:
    """Runs over tables, each from the same rows."""

    def __init__(self, rows):
        self.opening, self.runs = opening_text(rows), 0
        self.core, self.submitted = None, MOST_SUBMITTED

    def run(self, scripts):
        """What a run of these, in this order, makes of each: its standing and its answers."""
        if self.submitted + len(scripts) > MOST_SUBMITTED:
            self.close()
            self.core, self.submitted = entangle.Driver(self.opening), 0
        core = self.core
        numbers = [core.submit(one.for_one_run().text()) for one in scripts]
        core.run()
        self.runs, self.submitted = self.runs + 1, self.submitted + len(scripts)
        standings = [core.standing(number) for number in numbers]
        answers = [core.answers(number) if it.kind == "committed" else [] for number, it in zip(numbers, standings)]
        if any(it.kind == "committed" and one.writes() for it, one in zip(standings, scripts)):
            self.submitted = MOST_SUBMITTED
        return [it.kind for it in standings], answers

    def close(self):
        if self.core is not None:
            self.core.close()


# ---- what somebody can do alone


def until_it_demands(it):
    """The statements of a script before the first one that demands somebody; and that one as if it demanded nobody."""
    before = list(itertools.takewhile(lambda one: not isinstance(one, Choice) or not one.posts, it.statements))
    rest = it.statements[len(before) :]
    return before, [replace(rest[0], posts=())] if rest else []


def as_it_would_run(party, trials, is_demanded):
    """The script with the values that it gets alone before it demands anybody; None if its first demand can't come
    up from these tables. Nothing is known of what a head gets that somebody demands."""
    before, first = until_it_demands(party.script)
    if not before and not first[0].tests:
        return party.script
    kinds, answers = trials.run([Script((*before, *first))])
    if kinds == ["gave up"]:
        return None
    values = {}
    if kinds == ["committed"]:
        for one, answer in zip(before, answers[0]):
            if isinstance(one, Choice) and not is_demanded(one.head):
                row = answer.facts[0].values
                values.update({name: row[place] for place, name in one.binds})
    if not values:
        return party.script
    rest = tuple(one.valued(values) if isinstance(one, Choice) else one for one in party.script.statements)
    return replace(party.script, statements=rest)


# ---- sets by text


class Links:
    """Who may meet whom, as bits: of each demand those who may meet it, and those who surely do."""

    def __init__(self, scripts):
        heads = {}
        for at, it in enumerate(scripts):
            for choice in it.choices():
                heads.setdefault(choice.head.relation, []).append((at, choice))
        self.is_single = [it.is_single() for it in scripts]
        self.near = [0] * len(scripts)
        self.demands = [[] for _ in scripts]
        for at, it in enumerate(scripts):
            for choice in it.choices():
                for post in choice.posts:
                    self._add(at, choice, post, heads.get(post.relation, ()))
        self.reach_several = self._reach_several()
        self.is_whole = True

    def _add(self, at, choice, post, heads):
        may, surely = 0, 0
        for other, its in heads:
            if (other == at and its is not choice) or not post.may_meet(its.head):
                continue
            may |= 1 << other
            surely |= (1 << other) * post.surely_meets(its.head)
            if other != at:
                self.near[at] |= 1 << other
                self.near[other] |= 1 << at
        self.demands[at].append((may, surely))

    def _reach_several(self):
        """Those who are linked, by others, to a script of several entangled statements."""
        found = sum(1 << at for at, single in enumerate(self.is_single) if not single)
        grown = -1
        while grown != found:
            grown = found
            for at in bits(found):
                found |= self.near[at]
        return found

    def unmet(self, chosen):
        """Of each demand that none of the chosen may meet: those who may."""
        demands = (may for at in bits(chosen) for may, _ in self.demands[at])
        return [may for may in demands if not may & chosen]

    def crowding(self, chosen):
        """Whether two heads surely meet one demand, and who may come nevertheless. Where each script has one entangled
        statement, one of two such heads is held back, and the others are a smaller set."""
        if not all(self.is_single[at] for at in bits(chosen)):
            return False, -1
        met = [surely for at in bits(chosen) for _, surely in self.demands[at] if surely & chosen]
        is_crowded = any((surely & chosen).bit_count() > 1 for surely in met)
        if chosen & self.reach_several:
            return is_crowded, -1
        return is_crowded, 0 if is_crowded else ~functools.reduce(operator.or_, met, 0)

    def coming(self, chosen, unmet, left):
        """Who may come next: to meet the first demand that nobody meets, or all of them if one more has to do that;
        else anybody who is linked."""
        if left == 0:
            return 0
        if unmet:
            return functools.reduce(operator.and_, unmet) if left == 1 else unmet[0]
        return functools.reduce(operator.or_, (self.near[at] for at in bits(chosen)))

    def closed_sets(self, most):
        """Each linked set of at most so many in which each demand may be met; as far as a bounded search finds them."""
        todo, seen = [1 << at for at in range(len(self.near))], set()
        while todo and len(seen) < MOST_LOOKED:
            chosen = todo.pop()
            if chosen in seen:
                continue
            seen.add(chosen)
            unmet, (is_crowded, others) = self.unmet(chosen), self.crowding(chosen)
            if not unmet and not is_crowded:
                yield chosen
            coming = self.coming(chosen, unmet, most - chosen.bit_count()) & others & ~chosen
            todo += [chosen | 1 << at for at in bits(coming)]
        self.is_whole = not todo


def bits(mask):
    while mask:
        one = mask & -mask
        yield one.bit_length() - 1
        mask ^= one


# ---- the judge


@dataclass
class LeftOut:
    """A set that a run answers, and how it ends."""

    names: list
    scripts: list
    fates: list


@dataclass
class Judged:
    """What a judgement found, how many sets it ran, and whether these were all."""

    found: Optional[LeftOut] = None
    sets: int = 0
    is_whole: bool = True


def closed_by_text(parties, trials):
    """The closed sets of at most four, by places, the small ones first; and whether these are all."""
    posts = [post for it in parties for choice in it.script.choices() for post in choice.posts]
    scripts = [as_it_would_run(it, trials, lambda head: any(post.may_meet(head) for post in posts)) for it in parties]
    able = [at for at, it in enumerate(scripts) if it is not None]
    links = Links([scripts[at] for at in able])
    listed = (tuple(able[at] for at in bits(one)) for one in links.closed_sets(MOST_MEMBERS))
    return sorted(listed, key=lambda one: (len(one), one)), links.is_whole


def every_set(count):
    """Each set of at most four of so many."""
    sizes = range(1, MOST_MEMBERS + 1)
    return itertools.chain.from_iterable(itertools.combinations(range(count), size) for size in sizes)


def sets_to_run(parties, trials, make):
    """Sets of places that are run, and whether these are all closed ones. Where few wait, all sets are run."""
    sets, is_whole = closed_by_text(parties, trials)
    if len(sets) > MOST_RUNS:
        small = [one for one in sets if len(one) <= 2][:MOST_RUNS]
        large = [one for one in sets if len(one) > 2]
        return small + sorted(make.sample(large, min(len(large), MOST_RUNS - len(small)))), False
    if len(parties) <= FEW:
        known = set(sets)
        sets += [one for one in every_set(len(parties)) if one not in known]
    return sets, is_whole


def judged(parties, rows, groups, seed, cut):
    """Judges those who wait, by arrival: whether a set of at most four of them, or one of the groups of names, would be
    answered by a run by itself over these rows. A set with somebody who is cut isn't run."""
    trials, verdict = Trials(rows), Judged()
    sets, verdict.is_whole = sets_to_run(parties, trials, random.Random(seed))
    place = {it.name: at for at, it in enumerate(parties)}
    sets += [tuple(sorted(place[name] for name in names)) for names in groups if all(name in place for name in names)]
    for one in sets:
        chosen = [parties[at] for at in one]
        if any(it.name in cut for it in chosen):
            continue
        verdict.sets += 1
        fates, _ = trials.run([it.script for it in chosen])
        if "committed" in fates or "rolled back" in fates:
            verdict.found = LeftOut([it.name for it in chosen], [it.script for it in chosen], fates)
            break
    trials.close()
    return verdict


def missed_by_text(parties, rows):
    """How many sets of at most four a run answers whole, that aren't made up of smaller ones; and the names of those of
    them that aren't closed by text."""
    trials = Trials(rows)
    listed, _ = closed_by_text(parties, trials)
    answered = []
    for one in every_set(len(parties)):
        fates, _ = trials.run([parties[at].script for at in one])
        if all(fate == "committed" for fate in fates):
            answered.append(frozenset(one))
    trials.close()
    whole = [one for one in answered if frozenset().union(*(other for other in answered if other < one)) != one]
    missed = [one for one in whole if tuple(sorted(one)) not in set(listed)]
    return len(whole), [[parties[at].name for at in sorted(one)] for one in missed]
