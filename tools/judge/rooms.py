"""Rooms that are judged: that of the library, and a model of one that leaves nobody out, which can be planted a fault.

Each has the same calls: put, withdraw, step, who_is_cut, further, state, tables, waiting and restart. Tickets are
numbers.
"""

from crowds import AS_WRITTEN, COLUMNS, opening_text

import entangle

MOST_WAITERS = 20_000


class LibraryRoom:
    """The room of the library that the Python package has."""

    def __init__(self, rows):
        self.put_texts, self.tries, self.ended = {}, {}, {}
        self.room = self._opened(rows, 1, 1)

    def _opened(self, rows, next_ticket, next_group):
        return entangle.Room(
            opening_text({name: [] for name in COLUMNS}),
            {name: its for name, its in rows.items() if its},
            next_ticket=entangle.Ticket(next_ticket),
            next_group=next_group,
            most_waiters=MOST_WAITERS,
            most_ended=MOST_WAITERS,
        )

    def put(self, script, stay, apart):
        it, values = script.with_values_apart() if apart else (script, {})
        patience = entangle.Patience.AS_WRITTEN if stay == AS_WRITTEN else entangle.Patience.UNTIL_WITHDRAWN
        text = it.text()
        ticket = self.room.put(text, values, patience).number
        self.put_texts[ticket] = (text, values, patience)
        return ticket

    def withdraw(self, ticket):
        self.room.withdraw(entangle.Ticket(ticket))

    def step(self):
        return self.room.step()

    def who_is_cut(self):
        """The tickets whose search a bound stopped."""
        return {one.number for one in self.room.waiting() if self.room.state(one).kind == "cut"}

    def further(self):
        """Has the searches go on that a bound stopped."""
        self.room.further()

    def state(self, ticket):
        return self.ended.get(ticket) or self.room.state(entangle.Ticket(ticket)).kind

    def tables(self):
        return {name: self.room.table(name) for name in COLUMNS}

    def waiting(self):
        return [one.number for one in self.room.waiting()]

    def restart(self):
        rows, waiting = self.tables(), self.waiting()
        self.ended = {ticket: self.state(ticket) for ticket in self.put_texts if ticket not in set(waiting)}
        for ticket in waiting:
            state = self.room.state(entangle.Ticket(ticket))
            self.tries[ticket] = getattr(state, "batches", self.tries.get(ticket, 0))
        group, last = self.room.next_group(), max(self.put_texts, default=0)
        self.room.close()
        self.room = self._opened(rows, last + 1, group)
        for ticket in waiting:
            text, values, patience = self.put_texts[ticket]
            self.room.restore(entangle.Ticket(ticket), text, values, patience, self.tries[ticket])

    def close(self):
        self.room.close()


# ---- the model

NO_LARGER_SETS = "no_larger_sets"
CHANGES_WAKE_NOBODY = "changes_wake_nobody"
CAP_COUNTS_TRIED = "cap_counts_tried"
CUTS_WHO_MEETS_TWICE = "cuts_who_meets_twice"
COUNTS_TRIES_OF_OTHERS = "counts_tries_of_others"
PLANTS = {
    NO_LARGER_SETS: "tries the smallest sets alone, and never one with somebody more",
    CHANGES_WAKE_NOBODY: "never tries a set again that was tried before a change",
    CAP_COUNTS_TRIED: "counts those sets too that were tried, against the number that it tries for one",
    CUTS_WHO_MEETS_TWICE: "tries no set in which two heads surely meet one demand, also where scripts meet twice",
    COUNTS_TRIES_OF_OTHERS: "counts a try in vain against each member, not against the one for whom it is made",
}
MOST_EXTRAS, MOST_IN_MODEL, CAP = 3, 12, 4


class ModelRoom:
    """A room that tries each closed set in turn, with up to three more than it needs. It is slow, and plain. Whoever
    had four tries is cut, and goes on by `further`.

    It keeps scripts by ticket, how many tries were made for each, and which sets were tried since a table changed. What
    somebody may meet it reads from the texts. Sets of more than twelve it doesn't look for.
    """

    def __init__(self, rows, plant=None):
        self.rows = {name: sorted(set(rows.get(name, ()))) for name in COLUMNS}
        self.plant = plant
        self.scripts, self.ended, self.tried = {}, {}, set()
        self.patience, self.tries, self.cut = {}, {}, set()
        self.last = 0

    def put(self, script, stay, _apart):
        self.last += 1
        self.scripts[self.last] = script
        self.patience[self.last] = script.within if stay == AS_WRITTEN else None
        self.tries[self.last] = 0
        return self.last

    def withdraw(self, ticket):
        self._end(ticket, "withdrawn")

    def state(self, ticket):
        return self.ended.get(ticket, "waits")

    def tables(self):
        return self.rows

    def waiting(self):
        return sorted(self.scripts)

    def who_is_cut(self):
        return self.cut & set(self.scripts)

    def further(self):
        self.cut = set()

    def restart(self):
        self.tried, self.cut = set(), set()

    def close(self):
        pass

    def step(self):
        """Makes runs until somebody ends, or nobody who isn't cut has a set to try."""
        for ticket in self.waiting():
            if self.scripts[ticket].is_ordinary() and self._run((ticket,)):
                return "ran"
        for root in self.waiting():
            for chosen in self._to_try(root):
                if self._run(chosen):
                    return "ran"
                self.tried.add(chosen)
                self._count(root, chosen)
        return "idle"

    def _to_try(self, root):
        """The next sets that are tried for a root, until somebody ends."""
        looked, count = 0, len(self.scripts)
        for chosen in self._sets(root) if root in self.scripts and root not in self.cut else ():
            is_new = chosen not in self.tried
            looked += is_new or self.plant == CAP_COUNTS_TRIED
            if looked == CAP and is_new:
                self.cut.add(root)
            if is_new:
                yield chosen
            if looked == CAP or len(self.scripts) < count:
                return

    def _count(self, root, chosen):
        """Counts a try in vain; whose patience is over gives up."""
        for one in chosen if self.plant == COUNTS_TRIES_OF_OTHERS else (root,):
            self.tries[one] += 1
            if self.tries[one] == self.patience[one]:
                self._end(one, "gave up")

    def _end(self, ticket, how):
        del self.scripts[ticket]
        self.ended[ticket] = how

    def _run(self, chosen):
        """Whether anybody ends in a run of these alone."""
        scripts = [self.scripts[ticket] for ticket in chosen]
        with entangle.Driver(opening_text(self.rows)) as core:
            numbers = [core.submit(one.for_one_run().text()) for one in scripts]
            core.run()
            fates = {ticket: core.standing(number).kind for ticket, number in zip(chosen, numbers)}
            rows = {name: core.table(name) for name in COLUMNS}
        ended = {ticket: fate for ticket, fate in fates.items() if fate != "gave up"}
        for ticket, fate in ended.items():
            self._end(ticket, fate)
        if rows != self.rows:
            self.rows = rows
            if self.plant != CHANGES_WAKE_NOBODY:
                self.tried, self.cut = set(), set()
        return bool(ended)

    def _sets(self, root):
        """The closed sets that demands lead to from a root, the smallest choices first; none twice."""
        seen = set()
        for extras in range(1 if self.plant == NO_LARGER_SETS else MOST_EXTRAS + 1):
            for chosen in self._closing((root,), 0, extras):
                if chosen not in seen and not self._is_cut(chosen):
                    seen.add(chosen)
                    yield chosen

    def _is_cut(self, chosen):
        """Whether the planted fault keeps a set from being tried."""
        if self.plant != CUTS_WHO_MEETS_TWICE:
            return False
        choices = [choice for one in chosen for choice in self.scripts[one].choices()]
        met = (sum(post.surely_meets(one.head) for one in choices) for choice in choices for post in choice.posts)
        return any(count > 1 for count in met)

    def _closing(self, chosen, at, extras):
        """Goes through the demands of the chosen: somebody new for one that nobody meets; and for one that somebody
        may meet, if anything but the text may forbid it, nobody or somebody new."""
        choices = [(one, choice) for one in chosen for choice in self.scripts[one].choices()]
        demands = [(one, choice, post) for one, choice in choices for post in choice.posts]
        if at == len(demands):
            if extras == 0:
                yield tuple(sorted(chosen))
            return
        owner, its, post = demands[at]
        meets = [one for one in chosen if self._may_meet(owner, its, post, one)]
        if meets:
            yield from self._closing(chosen, at + 1, extras)
        if len(chosen) < MOST_IN_MODEL and (not meets or extras and not self._is_settled(owner, post, meets)):
            for other in self.waiting():
                if other not in chosen and self._may_meet(owner, its, post, other):
                    yield from self._closing((*chosen, other), at + 1, extras - bool(meets))

    def _may_meet(self, owner, its, post, other):
        choices = self.scripts[other].choices()
        return any(post.may_meet(one.head) for one in choices if other != owner or one is its)

    def _is_settled(self, owner, post, meets):
        """Whether a demand is met whatever the tables are, so that a second head would be held back."""
        scripts = [self.scripts[one] for one in (owner, *meets)]
        heads = [choice.head for one in meets for choice in self.scripts[one].choices()]
        return all(one.is_single() for one in scripts) and any(post.surely_meets(head) for head in heads)
