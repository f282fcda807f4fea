"""Scripts as data: what they offer and demand by their text, and that text.

A script is a list of statements, each an entangled one (Choice) or the text of an ordinary one. A term is a number, a
text, a written variable (Var) or a host variable (Host).
"""

from dataclasses import dataclass, replace
from typing import Optional, Union


@dataclass(frozen=True)
class Var:
    """A written variable."""

    name: str


@dataclass(frozen=True)
class Host:
    """A host variable, whose value may be known only when the script runs."""

    name: str


Term = Union[int, str, Var, Host]


def written(term):
    """A term as a script has it."""
    if isinstance(term, Var):
        return term.name
    if isinstance(term, Host):
        return f"@{term.name}"
    return str(term) if isinstance(term, int) else "'" + term.replace("'", "''") + "'"


def is_literal(term):
    return isinstance(term, (int, str))


@dataclass(frozen=True)
class Pattern:
    """A head or a postcondition."""

    relation: str
    terms: tuple[Term, ...]

    def may_meet(self, other):
        """Whether no two terms in one place are known to differ."""
        if (self.relation, len(self.terms)) != (other.relation, len(other.terms)):
            return False
        pairs = zip(self.terms, other.terms)
        return all(mine == its for mine, its in pairs if is_literal(mine) and is_literal(its))

    def surely_meets(self, other):
        """Whether the two fit each other whatever the tables are: each place has a variable, or one literal twice."""
        return self.may_meet(other) and self._binds_at_once() and other._binds_at_once()

    def _binds_at_once(self):
        """Whether no term is a host variable, and no variable stands twice."""
        names = [term.name for term in self.terms if isinstance(term, Var)]
        return len(set(names)) == len(names) and not any(isinstance(term, Host) for term in self.terms)

    def valued(self, values):
        """The pattern with these values in place of the host variables that they name."""
        return Pattern(self.relation, tuple(valued(term, values) for term in self.terms))

    def tuple_text(self):
        return f"({', '.join(map(written, self.terms))})"


def valued(term, values):
    return values.get(term.name, term) if isinstance(term, Host) else term


@dataclass(frozen=True)
class Choice:
    """An entangled statement: its head, the tests of its WHERE as texts, its postconditions, and which host variables
    take the values of which terms of the head."""

    head: Pattern
    tests: tuple[str, ...] = ()
    posts: tuple[Pattern, ...] = ()
    binds: tuple[tuple[int, str], ...] = ()

    def text(self):
        names = dict(self.binds)
        terms = enumerate(self.head.terms)
        items = [written(term) + (f" AS @{names[at]}" if at in names else "") for at, term in terms]
        tests = [*self.tests, *(f"{post.tuple_text()} IN ANSWER {post.relation}" for post in self.posts)]
        where = f"\n  WHERE {' AND '.join(tests)}" if tests else ""
        return f"SELECT {', '.join(items)} INTO ANSWER {self.head.relation}{where} CHOOSE 1"

    def valued(self, values):
        """The statement with these values in place of host variables of its head and its postconditions."""
        return replace(self, head=self.head.valued(values), posts=tuple(post.valued(values) for post in self.posts))


Statement = Union[Choice, str]


@dataclass(frozen=True)
class Script:
    """The statements of a script, and for how many runs it asks, if it says so."""

    statements: tuple[Statement, ...]
    within: Optional[int] = None

    def text(self):
        within = "" if self.within is None else f" WITHIN {self.within} RUNS"
        lines = [one if isinstance(one, str) else one.text() for one in self.statements]
        return f"BEGIN TRANSACTION{within};\n" + "".join(f"{line};\n" for line in lines) + "COMMIT;\n"

    def choices(self):
        return [one for one in self.statements if isinstance(one, Choice)]

    def is_ordinary(self):
        return not self.choices()

    def is_single(self):
        """Whether it has one entangled statement."""
        return len(self.choices()) == 1

    def writes(self):
        """Whether an ordinary statement of it may change a table."""
        texts = (one for one in self.statements if isinstance(one, str))
        return any(text.startswith(("INSERT", "DELETE", "UPDATE")) for text in texts)

    def for_one_run(self):
        return replace(self, within=1)

    def with_values_apart(self):
        """The script with a host variable in place of each text of its heads and postconditions, and their values."""
        names = {}

        def apart(pattern):
            terms = (Host(names.setdefault(term, f"v{len(names)}")) if isinstance(term, str) else term
                     for term in pattern.terms)
            return Pattern(pattern.relation, tuple(terms))

        statements = tuple(
            one if isinstance(one, str) else replace(one, head=apart(one.head), posts=tuple(map(apart, one.posts)))
            for one in self.statements
        )
        return replace(self, statements=statements), {name: value for value, name in names.items()}


def script(*statements, within=None):
    """A script of these statements."""
    return Script(tuple(statements), within)


def is_among(term, select):
    """A test: a term is in the result of a sub-select."""
    return f"{written(term)} IN (SELECT {select})"
