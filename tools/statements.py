"""Values and statements of scripts as a report has them: read from a line, printed, and resolved.

A second reader, written from docs/LANGUAGE.md, docs/REPORTS.md and docs/ERRORS.md alone, for tools/check report.
"""

import re

MOST = 2**63 - 1
RESERVED = set(
    """AND ANSWER AS BEGIN CHOOSE COMMIT CREATE DELETE FROM IN INSERT INT INTO ROLLBACK RUNS SELECT SET TABLE TEXT
    TRANSACTION UPDATE VALUES WHERE WITHIN""".split()
)
MOST_STATEMENTS, MOST_PARTS, MOST_SOURCES, MOST_RUNS, MOST_TEXT, MOST_NAME = 64, 16, 4, 1_000, 255, 63


class Unfit(Exception):
    """A text isn't what it has to be."""


def need(holds):
    if not holds:
        raise Unfit


# ---- values


def is_name(word):
    return (
        re.fullmatch(r"[A-Za-z][A-Za-z0-9_]*", word) is not None
        and len(word) <= MOST_NAME
        and word.upper() not in RESERVED
    )


def natural(word):
    """A number as it is printed, without a sign."""
    need(re.fullmatch(r"0|[1-9][0-9]*", word) and int(word) <= MOST)
    return int(word)


def key(value):
    return (0, value, b"") if isinstance(value, int) else (1, 0, value.encode())


def row_key(row):
    return [key(value) for value in row]


def kind(value):
    return "INT" if isinstance(value, int) else "TEXT"


def good_text(text):
    return len(text.encode()) <= MOST_TEXT and not any(ord(c) < 32 or ord(c) == 127 for c in text)


VALUE = re.compile(r"-?[0-9]+|'(?:[^']|'')*'")


def value_at(line, at):
    """The value that is printed at a place of a line, and the place behind it."""
    found = VALUE.match(line, at)
    need(found)
    word = found.group()
    if word[0] == "'":
        text = word[1:-1].replace("''", "'")
        need(good_text(text))
        return text, found.end()
    number = int(word)
    need(word == str(number) and -MOST - 1 <= number <= MOST)
    return number, found.end()


def row_at(line, at):
    """The row that is printed at a place of a line, and the place behind it."""
    need(line.startswith("(", at))
    values, at = [], at + 1
    while True:
        value, at = value_at(line, at)
        values.append(value)
        if line.startswith(")", at):
            return tuple(values), at + 1
        need(line.startswith(", ", at))
        at += 2


def whole(read, line):
    got, at = read(line, 0)
    need(at == len(line))
    return got


# ---- scripts: tokens and grammar

TOKEN = re.compile(
    r"(?P<word>[A-Za-z][A-Za-z0-9_]*)|@(?P<host>[A-Za-z][A-Za-z0-9_]*)|(?P<number>[0-9]+)"
    r"|(?P<text>'(?:[^']|'')*')|(?P<sign><>|!=|<=|>=|[(),;.*+\-=<>])|(?P<blank>[ \t\r\n]+)"
)


def tokens(line):
    found, at = [], 0
    while at < len(line):
        match = TOKEN.match(line, at)
        need(match)
        at = match.end()
        sort, text = match.lastgroup, match.group(match.lastgroup)
        if sort == "blank":
            continue
        if sort == "word" and text.upper() in RESERVED:
            sort, text = "reserved", text.upper()
        elif sort in ("word", "host"):
            need(len(text) <= MOST_NAME)
        elif sort == "number":
            need(int(text) <= MOST)
        elif sort == "text":
            text = text[1:-1].replace("''", "'")
            need(good_text(text))
        found.append((sort, text))
    return found


class Reader:
    """Reads one statement from its tokens."""

    def __init__(self, line):
        self.tokens, self.at = tokens(line), 0

    def next_is(self, *wanted):
        return self.tokens[self.at : self.at + len(wanted)] == [
            ("reserved" if it.isalpha() else "sign", it) for it in wanted
        ]

    def take_if(self, *wanted):
        found = self.next_is(*wanted)
        if found:
            self.at += len(wanted)
        return found

    def take(self, *wanted):
        need(self.take_if(*wanted))

    def sort(self):
        return self.tokens[self.at][0] if self.at < len(self.tokens) else None

    def of(self, sort):
        need(self.sort() == sort)
        self.at += 1
        return self.tokens[self.at - 1][1]

    def name(self):
        return self.of("word")

    def many(self, read, divider, most):
        parts = [read()]
        while self.take_if(divider):
            parts.append(read())
        need(len(parts) <= most)
        return parts

    def value(self):
        """A literal or a host variable."""
        if self.sort() == "host":
            return ("host", self.of("host"))
        if self.sort() == "text":
            return ("literal", self.of("text"))
        if self.take_if("-"):
            return ("literal", -int(self.of("number")))
        return ("literal", int(self.of("number")))

    def term(self):
        return ("variable", self.name()) if self.sort() == "word" else self.value()

    def operand(self):
        if self.sort() != "word":
            return self.value()
        first = self.name()
        return ("column", first, self.name()) if self.take_if(".") else ("column", None, first)

    def comparison(self):
        for sign in ("=", "<>", "!=", "<=", ">=", "<", ">"):
            if self.take_if(sign):
                return "<>" if sign == "!=" else sign
        raise Unfit

    def test(self):
        left = self.operand()
        return (left, self.comparison(), self.operand())

    def tests(self):
        return self.many(self.test, "AND", MOST_PARTS) if self.take_if("WHERE") else []

    def source(self):
        table = self.name()
        if self.take_if("AS"):
            return (table, self.name())
        return (table, self.name() if self.sort() == "word" else None)

    def items(self):
        return None if self.take_if("*") else self.many(self.operand, ",", MOST_PARTS)

    def select(self):
        self.take("SELECT")
        items = self.items()
        self.take("FROM")
        sources = self.many(self.source, ",", MOST_SOURCES)
        return ("select", items, sources, self.tests())

    def expression(self, operand):
        left = operand()
        for sign in ("+", "-"):
            if self.take_if(sign):
                return (left, sign, operand())
        return (left, None, None)

    def tuple(self):
        if self.take_if("("):
            terms = self.many(self.term, ",", MOST_PARTS)
            self.take(")")
            return terms, True
        return self.many(self.term, ",", MOST_PARTS), False

    def condition(self):
        terms, closed = self.tuple()
        if self.take_if("IN", "ANSWER"):
            return ("post", terms, self.name())
        if self.take_if("IN", "("):
            select = self.select()
            self.take(")")
            return ("member", terms, select)
        need(len(terms) == 1 and not closed)
        return ("test", terms[0], self.comparison(), self.term())

    def item(self):
        term = self.term()
        return (term, self.of("host") if self.take_if("AS") else None)

    def relation(self):
        self.take("ANSWER")
        return self.name()

    def entangled(self):
        self.take("SELECT")
        items = self.many(self.item, ",", MOST_PARTS)
        self.take("INTO")
        relations = self.many(self.relation, ",", MOST_PARTS)
        conditions = self.many(self.condition, "AND", MOST_PARTS) if self.take_if("WHERE") else []
        self.take("CHOOSE")
        need(int(self.of("number")) == 1)
        return ("entangled", items, relations, conditions)

    def assignment(self):
        column = self.name()
        self.take("=")
        return (column, self.expression(self.operand))

    def statement(self):
        if self.next_is("SELECT"):
            begun = self.at
            try:
                return self.select()
            except Unfit:
                self.at = begun
                return self.entangled()
        if self.take_if("INSERT", "INTO"):
            table = self.name()
            self.take("VALUES", "(")
            values = self.many(self.value, ",", MOST_PARTS)
            self.take(")")
            return ("insert", table, values)
        if self.take_if("DELETE", "FROM"):
            return ("delete", self.name(), self.tests())
        if self.take_if("UPDATE"):
            table = self.name()
            self.take("SET")
            changes = self.many(self.assignment, ",", MOST_PARTS)
            return ("update", table, changes, self.tests())
        self.take("SET")
        variable = self.of("host")
        self.take("=")
        return ("set", variable, self.expression(self.value))

    def end(self):
        self.take(";")
        need(self.at == len(self.tokens))


# ---- scripts as they are printed


def show_value(value):
    return str(value) if isinstance(value, int) else "'" + value.replace("'", "''") + "'"


def show_term(term):
    if term[0] == "literal":
        return show_value(term[1])
    if term[0] == "host":
        return "@" + term[1]
    if term[0] == "variable":
        return term[1]
    return term[2] if term[1] is None else f"{term[1]}.{term[2]}"


def show_tests(tests):
    shown = " AND ".join(f"{show_term(a)} {sign} {show_term(b)}" for a, sign, b in tests)
    return f" WHERE {shown}" if tests else ""


def show_expression(expression):
    left, sign, right = expression
    return show_term(left) if sign is None else f"{show_term(left)} {sign} {show_term(right)}"


def show_tuple(terms):
    return "(" + ", ".join(show_term(term) for term in terms) + ")"


def show_select(select):
    _, items, sources, tests = select
    shown = "*" if items is None else ", ".join(show_term(item) for item in items)
    of = ", ".join(table if alias is None else f"{table} AS {alias}" for table, alias in sources)
    return f"SELECT {shown} FROM {of}{show_tests(tests)}"


def show_condition(condition):
    if condition[0] == "post":
        return f"{show_tuple(condition[1])} IN ANSWER {condition[2]}"
    if condition[0] == "member":
        return f"{show_tuple(condition[1])} IN ({show_select(condition[2])})"
    return f"{show_term(condition[1])} {condition[2]} {show_term(condition[3])}"


def show(statement):
    sort = statement[0]
    if sort == "select":
        return show_select(statement)
    if sort == "insert":
        return f"INSERT INTO {statement[1]} VALUES {show_tuple(statement[2])}"
    if sort == "delete":
        return f"DELETE FROM {statement[1]}{show_tests(statement[2])}"
    if sort == "update":
        changes = ", ".join(f"{column} = {show_expression(it)}" for column, it in statement[2])
        return f"UPDATE {statement[1]} SET {changes}{show_tests(statement[3])}"
    if sort == "set":
        return f"SET @{statement[1]} = {show_expression(statement[2])}"
    _, items, relations, conditions = statement
    shown = ", ".join(show_term(term) + (f" AS @{bound}" if bound else "") for term, bound in items)
    into = ", ".join(f"ANSWER {relation}" for relation in relations)
    where = " WHERE " + " AND ".join(show_condition(it) for it in conditions) if conditions else ""
    return f"SELECT {shown} INTO {into}{where} CHOOSE 1"


# ---- forms


def columns_of(sources, tables):
    """The columns that sources have, side by side: (source's name, column, kind, table)."""
    names, found = [], []
    for table, alias in sources:
        need(table in tables)
        own = alias or table
        need(own not in names)
        names.append(own)
        found += [(own, column, of) for column, of in tables[table]]
    return names, found


def kind_of(operand, scope, kinds):
    if operand[0] == "literal":
        return kind(operand[1])
    if operand[0] == "host":
        need(operand[1] in kinds)
        return kinds[operand[1]]
    names, columns = scope
    need(operand[1] is None or operand[1] in names)
    fits = [of for own, column, of in columns if column == operand[2] and operand[1] in (None, own)]
    need(len(fits) == 1)
    return fits[0]


def resolve_tests(tests, scope, kinds):
    for left, _, right in tests:
        need(kind_of(left, scope, kinds) == kind_of(right, scope, kinds))


def resolve_select(select, tables, kinds):
    """The kinds of a SELECT's items."""
    _, items, sources, tests = select
    scope = columns_of(sources, tables)
    resolve_tests(tests, scope, kinds)
    if items is None:
        return [of for _, _, of in scope[1]]
    return [kind_of(item, scope, kinds) for item in items]


def resolve_expression(expression, scope, kinds):
    left, sign, right = expression
    first = kind_of(left, scope, kinds)
    if sign is None:
        return first
    need(first == "INT" and kind_of(right, scope, kinds) == "INT")
    return "INT"


def terms_in_order(statement):
    _, items, _, conditions = statement
    for term, _ in items:
        yield term
    for condition in conditions:
        if condition[0] == "test":
            yield condition[1]
            yield condition[3]
        else:
            yield from condition[1]


def written_variables(statement):
    """By first appearance."""
    return list(dict.fromkeys(term[1] for term in terms_in_order(statement) if term[0] == "variable"))


def resolve_entangled(statement, tables, kinds):
    """The kinds of its variables; what it binds is put into `kinds`."""
    _, items, relations, conditions = statement
    found = {}
    for condition in conditions:
        if condition[0] == "member":
            given = resolve_select(condition[2], tables, kinds)
            need(len(given) == len(condition[1]))
            for term, of in zip(condition[1], given):
                if term[0] == "variable":
                    need(found.setdefault(term[1], of) == of)
                else:
                    need(kind_of(term, None, kinds) == of)

    def term_kind(term):
        if term[0] == "variable":
            need(term[1] in found)
            return found[term[1]]
        return kind_of(term, None, kinds)

    bound = [(name, term_kind(term)) for term, name in items if name]
    for term in terms_in_order(statement):
        term_kind(term)
    for condition in conditions:
        if condition[0] == "test":
            need(term_kind(condition[1]) == term_kind(condition[3]))
    need(len(set(relations)) == len(relations))
    need(len({name for name, _ in bound}) == len(bound))
    kinds.update(bound)
    return found


def resolve(statement, tables, kinds):
    sort = statement[0]
    if sort == "select":
        resolve_select(statement, tables, kinds)
    elif sort == "insert":
        need(statement[1] in tables)
        columns = tables[statement[1]]
        need(len(columns) == len(statement[2]))
        for value, (_, of) in zip(statement[2], columns):
            need(kind_of(value, None, kinds) == of)
    elif sort == "delete":
        resolve_tests(statement[2], columns_of([(statement[1], None)], tables), kinds)
    elif sort == "update":
        scope = columns_of([(statement[1], None)], tables)
        own, assigned = dict(tables[statement[1]]), [column for column, _ in statement[2]]
        need(len(set(assigned)) == len(assigned))
        for column, expression in statement[2]:
            need(column in own and resolve_expression(expression, scope, kinds) == own[column])
        resolve_tests(statement[3], scope, kinds)
    elif sort == "set":
        kinds[statement[1]] = resolve_expression(statement[2], None, kinds)
    else:
        return resolve_entangled(statement, tables, kinds)
    return None


class Script:
    """Lines of a script, read one by one."""

    def __init__(self, tables):
        self.tables, self.kinds = tables, {}
        self.statements, self.variables, self.end = [], [], None

    def begin(self, line):
        found = re.fullmatch(r"BEGIN TRANSACTION WITHIN ([0-9]+) RUNS;", line)
        need(found and 1 <= natural(found.group(1)) <= MOST_RUNS)

    def statement(self, line):
        reader = Reader(line)
        statement = reader.statement()
        reader.end()
        need(show(statement) + ";" == line and len(self.statements) < MOST_STATEMENTS)
        self.variables.append(resolve(statement, self.tables, self.kinds))
        self.statements.append(statement)

    def finish(self, line):
        need(line in ("COMMIT;", "ROLLBACK;"))
        self.end = line[:-1]
