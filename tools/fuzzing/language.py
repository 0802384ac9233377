"""What texts of the language say, and which refusal they get: docs/FORMATS.md ("The language"), and no code.

`schema_of`, `transaction_of` and `question_of` take bytes, and give what they say or raise `Refused` with the refusal as it is shown.
"""
import collections
import datetime
import re

RESERVED = set("""ALWAYS AND AS BETWEEN CONTAINS CREATE DATE DELETE END EQUALS FOR FOREIGN FROM GENERATED IMMEDIATELY INSERT INTEGER
INTO KEY OF OVERLAPS PERIOD PORTION PRECEDES PRIMARY REFERENCES ROW SELECT SET START SUCCEEDS SYSTEM SYSTEM_TIME TABLE TIMESTAMP TO
UPDATE VALUES VARCHAR VERSIONING WHERE WITH WITHOUT""".split())
TOKEN = re.compile(rb"[ \t\n\r]*(?:([A-Za-z][A-Za-z0-9_]{0,31})|([0-9]+)|('(?:[\x20-\x26\x28-\x7e]|'')*')|(<>|<=|>=|[(),;*=<>+-]))")
BLANKS = re.compile(rb"[ \t\n\r]*")
LEAST, MOST = -(2**63), 2**63 - 1
EPOCH = datetime.datetime(1970, 1, 1)
LAST_INSTANT = (datetime.datetime(9999, 12, 31) - EPOCH) // datetime.timedelta(microseconds=1) - 1
LAST_DAY = datetime.date(9999, 12, 31)
PREDICATES = ["OVERLAPS", "EQUALS", "PRECEDES", "SUCCEEDS"]

Column = collections.namedtuple("Column", "name kind length")
Foreign = collections.namedtuple("Foreign", "parent columns")
Insert = collections.namedtuple("Insert", "table values")
Update = collections.namedtuple("Update", "table portion sets where")
Delete = collections.namedtuple("Delete", "table portion where")
# The instants from the first to the last are asked about; none where no system time is named.
Question = collections.namedtuple("Question", "table instants where")
# A comparison, or a period predicate: what stands on its left, its sign or word, and what on its right.
Term = collections.namedtuple("Term", "name sign right")


class Refused(Exception):
    pass


class Table:
    def __init__(self, name, columns, period, system, key, foreign):
        self.name, self.columns, self.period, self.system, self.key, self.foreign = name, columns, period, system, key, foreign
        self.period_name = None
        self.places = {column.name.upper(): place for place, column in enumerate(columns)}
        self.values = [place for place in range(len(columns)) if place not in {*period, *system, *key}]


def tokens_of(text):
    """Tokens, each with its kind, what it says and where it begins; the last one is where no token begins, or the text's end."""
    found, at = [], 0
    while True:
        token = TOKEN.match(text, at)
        if not token:
            found.append(("none", b"", BLANKS.match(text, at).end()))
            return found
        kind = token.lastindex
        said = token[kind]
        found.append((["word", "digits", "text", "sign"][kind - 1], said, token.start(kind)))
        at = token.end()


class Reader:
    """The parts of the grammar over the tokens of a text."""

    def __init__(self, text):
        self.tokens, self.at = tokens_of(text), 0

    def refuse(self):
        raise Refused(f"10 syntax error at byte {self.tokens[self.at][2]}")

    def is_next(self, said):
        kind, token, _ = self.tokens[self.at]
        token = token.decode()
        return kind in ("word", "sign") and token.upper() == said

    def take(self, *all_said):
        for said in all_said:
            if not self.is_next(said):
                self.refuse()
            self.at += 1

    def may_take(self, said):
        found = self.is_next(said)
        self.at += found
        return found

    def kind(self, kind):
        if self.tokens[self.at][0] != kind:
            self.refuse()
        self.at += 1
        return self.tokens[self.at - 1][1].decode()

    def name(self):
        kind, token, _ = self.tokens[self.at]
        if kind != "word" or token.decode().upper() in RESERVED:
            self.refuse()
        self.at += 1
        return token.decode()

    def text(self):
        return self.kind("text")[1:-1].replace("''", "'")

    def shaped(self, shape):
        """A text of a shape, in which 0 stands for any digit."""
        kind, token, _ = self.tokens[self.at]
        if kind != "text" or re.sub(rb"[0-9]", b"0", token[1:-1]).decode() != shape:
            self.refuse()
        return self.text()

    def date(self):
        self.take("DATE")
        return self.shaped("0000-00-00")

    def instant(self):
        self.take("TIMESTAMP")
        return self.shaped("0000-00-00 00:00:00.000000")

    def span(self):
        self.take("PERIOD", "(")
        start = self.date()
        self.take(",")
        end = self.date()
        self.take(")")
        return start, end

    def literal(self):
        """Its type, and what it says."""
        if self.is_next("DATE"):
            return "DATE", self.date()
        if self.tokens[self.at][0] == "text":
            return "VARCHAR", self.text()
        sign = -1 if self.may_take("-") else 1
        return "INTEGER", sign * int(self.kind("digits"))

    def commas(self, part):
        found = [part()]
        while self.may_take(","):
            found.append(part())
        return found

    def many(self, part, most):
        """Parts up to the text's end."""
        found = [part()]
        while self.tokens[self.at][0] != "none" or not self.is_end():
            found.append(part())
        if len(found) > most:
            raise Refused("17 too large")
        return found

    def is_end(self):
        return self.tokens[self.at][2] == self.length

    # A transaction.

    def statement(self):
        if self.may_take("INSERT"):
            self.take("INTO")
            table = self.name()
            self.take("(")
            names = self.commas(self.name)
            self.take(")", "VALUES", "(")
            literals = self.commas(self.literal)
            self.take(")", ";")
            return "insert", table, names, literals
        if self.may_take("UPDATE"):
            table = self.name()
            portion = self.portion()
            self.take("SET")
            sets = self.commas(self.assignment)
            where = self.where(self.comparison)
            self.take(";")
            return "update", table, portion, sets, where
        self.take("DELETE", "FROM")
        table = self.name()
        portion = self.portion()
        where = self.where(self.comparison)
        self.take(";")
        return "delete", table, portion, where

    def portion(self):
        if not self.may_take("FOR"):
            return None
        self.take("PORTION", "OF")
        name = self.name()
        self.take("FROM")
        start = self.date()
        self.take("TO")
        return name, start, self.date()

    def assignment(self):
        name = self.name()
        self.take("=")
        kind, token, _ = self.tokens[self.at]
        if kind == "word" and token.decode().upper() != "DATE":
            other = self.name()
            sign = "+" if self.may_take("+") else "-"
            if sign == "-":
                self.take("-")
            return name, other, sign, int(self.kind("digits"))
        return name, self.literal()

    def where(self, term):
        found = []
        if self.may_take("WHERE"):
            found.append(term())
            while self.may_take("AND"):
                found.append(term())
        return found

    def comparison(self, name=None):
        name = name or self.name()
        for sign in ("=", "<>", "<=", ">=", "<", ">"):
            if self.may_take(sign):
                return Term(name, sign, self.literal())
        self.refuse()

    # A question.

    def question(self):
        self.take("SELECT", "*", "FROM")
        table, instants = self.name(), None
        if self.may_take("FOR"):
            self.take("SYSTEM_TIME")
            instants = self.instants()
        where = self.where(self.term)
        self.take(";")
        if not self.is_end():
            self.refuse()
        return table, instants, where

    def instants(self):
        if self.may_take("AS"):
            self.take("OF")
            return "AS", self.instant(), None
        word, between = ("FROM", "TO") if self.is_next("FROM") else ("BETWEEN", "AND")
        self.take(word)
        first = self.instant()
        self.take(between)
        return word, first, self.instant()

    def term(self):
        name = self.name()
        if self.may_take("CONTAINS"):
            return Term(name, "CONTAINS", self.date() if self.is_next("DATE") else self.span())
        if self.may_take("IMMEDIATELY"):
            word = "PRECEDES" if self.is_next("PRECEDES") else "SUCCEEDS"
            self.take(word)
            return Term(name, "IMMEDIATELY " + word, self.span())
        for word in PREDICATES:
            if self.may_take(word):
                return Term(name, word, self.span())
        return self.comparison(name)

    # A schema.

    def table(self):
        self.take("CREATE", "TABLE")
        name = self.name()
        self.take("(")
        columns = [self.column()]
        self.take(",")
        while not self.may_take("PERIOD"):
            columns.append(self.column())
            self.take(",")
        self.take("FOR")
        period = (self.name(), *self.pair())
        self.take(",", "PERIOD", "FOR", "SYSTEM_TIME")
        system = self.pair()
        self.take(",", "PRIMARY", "KEY", "(")
        key = self.names_before("WITHOUT", "OVERLAPS")
        foreign = []
        while self.may_take(","):
            self.take("FOREIGN", "KEY", "(")
            own = self.names_with_period()
            self.take("REFERENCES")
            parent = self.name()
            self.take("(")
            foreign.append((own, parent, self.names_with_period()))
        self.take(")", "WITH", "SYSTEM", "VERSIONING", ";")
        return name, columns, period, system, key, foreign

    def pair(self):
        self.take("(")
        first = self.name()
        self.take(",")
        second = self.name()
        self.take(")")
        return first, second

    def names_before(self, *words):
        """Two names or more, and these words behind the last."""
        names = [self.name()]
        self.take(",")
        names.append(self.name())
        while self.may_take(","):
            names.append(self.name())
        self.take(*words, ")")
        return names

    def names_with_period(self):
        """Names, and another one behind PERIOD."""
        names = [self.name()]
        self.take(",")
        while not self.may_take("PERIOD"):
            names.append(self.name())
            self.take(",")
        names.append(self.name())
        self.take(")")
        return names

    def column(self):
        name = self.name()
        for kind in ("INTEGER", "DATE"):
            if self.may_take(kind):
                return Column(name, kind, None)
        if self.may_take("VARCHAR"):
            self.take("(")
            length = int(self.kind("digits"))
            self.take(")")
            return Column(name, "VARCHAR", length)
        self.take("TIMESTAMP", "(")
        if self.tokens[self.at][:2] != ("digits", b"6"):
            self.refuse()
        self.at += 1
        self.take(")", "GENERATED", "ALWAYS", "AS", "ROW")
        word = "START" if self.is_next("START") else "END"
        self.take(word)
        return Column(name, word, None)


def reader_of(text, most):
    if len(text) > most:
        raise Refused("17 too large")
    reader = Reader(text)
    reader.length = len(text)
    return reader


def check(is_so, refusal):
    if not is_so:
        raise Refused(refusal)


UNKNOWN_TABLE, UNKNOWN_COLUMN, WRONG_TYPE, NOT_ASSIGNABLE = "11 unknown table", "12 unknown column", "13 wrong type", "14 not assignable"
EMPTY_PERIOD, OUT_OF_RANGE, TOO_LARGE, BAD_SCHEMA = "15 empty period", "16 value out of range", "17 too large", "18 bad schema"


def day_of(text):
    try:
        return datetime.date.fromisoformat(text)
    except ValueError:
        raise Refused(OUT_OF_RANGE) from None


def instant_of(text):
    """Microseconds since 1970."""
    try:
        micros = (datetime.datetime.strptime(text, "%Y-%m-%d %H:%M:%S.%f") - EPOCH) // datetime.timedelta(microseconds=1)
    except ValueError:
        raise Refused(OUT_OF_RANGE) from None
    check(text[17:19] < "60" and 0 <= micros <= LAST_INSTANT, OUT_OF_RANGE)
    return micros


def days_of(start, end):
    days = day_of(start), day_of(end)
    check(days[0] < days[1], EMPTY_PERIOD)
    return days


def value_of(column, literal, most=None):
    kind, said = literal
    check(kind == column.kind, WRONG_TYPE)
    if kind == "INTEGER":
        check(LEAST <= said <= MOST, OUT_OF_RANGE)
    elif kind == "VARCHAR":
        check(len(said) <= (most or column.length), OUT_OF_RANGE)
    else:
        return day_of(said)
    return said


def table_named(tables, name):
    found = [table for table in tables if table.name.upper() == name.upper()]
    check(found, UNKNOWN_TABLE)
    return found[0]


def place_of(table, name):
    check(name.upper() in table.places, UNKNOWN_COLUMN)
    return table.places[name.upper()]


def checked_term(table, term):
    name, sign, right = term
    if sign in ("=", "<>", "<", "<=", ">", ">="):
        place = table.places.get(name.upper())
        check(place is not None and (place in table.key or place in table.values), UNKNOWN_COLUMN)
        return Term(place, sign, value_of(table.columns[place], right, 255))
    check(name.upper() == table.period_name.upper(), UNKNOWN_COLUMN)
    return Term(None, sign, days_of(*right) if isinstance(right, tuple) else day_of(right))


def checked_portion(table, portion):
    if portion is None:
        return None
    name, start, end = portion
    check(name.upper() == table.period_name.upper(), UNKNOWN_COLUMN)
    return days_of(start, end)


def checked_insert(table, names, literals):
    places = []
    for name in names:
        place = place_of(table, name)
        check(place not in table.system and place not in places, NOT_ASSIGNABLE)
        places.append(place)
    check(len(places) == len(table.columns) - 2, UNKNOWN_COLUMN)
    check(len(literals) == len(places), WRONG_TYPE)
    values = {place: value_of(table.columns[place], literal) for place, literal in zip(places, literals)}
    check(values[table.period[0]] < values[table.period[1]], EMPTY_PERIOD)
    return Insert(table, values)


def checked_sets(table, sets):
    found = {}
    for name, *said in sets:
        place = place_of(table, name)
        check(place in table.values and place not in found, NOT_ASSIGNABLE)
        if len(said) == 1:
            found[place] = value_of(table.columns[place], said[0])
        else:
            other, sign, number = said
            check(place_of(table, other) == place, NOT_ASSIGNABLE)
            check(table.columns[place].kind == "INTEGER", WRONG_TYPE)
            check(number <= MOST, OUT_OF_RANGE)
            found[place] = ("sum", number if sign == "+" else -number)
    return found


def checked_statement(tables, statement):
    kind, name, *rest = statement
    table = table_named(tables, name)
    if kind == "insert":
        return checked_insert(table, *rest)
    portion = checked_portion(table, rest[0])
    if kind == "update":
        sets = checked_sets(table, rest[1])
        return Update(table, portion, sets, [checked_term(table, term) for term in rest[2]])
    return Delete(table, portion, [checked_term(table, term) for term in rest[1]])


def transaction_of(tables, text):
    reader = reader_of(text, 4096)
    return [checked_statement(tables, it) for it in reader.many(reader.statement, 16)]


def question_of(tables, text):
    name, instants, where = reader_of(text, 4096).question()
    table = table_named(tables, name)
    if instants:
        word, first, second = instants
        first = instant_of(first)
        last = first if second is None else instant_of(second)
        check(first < last or (word != "FROM" and first == last), EMPTY_PERIOD)
        instants = first, last - (word == "FROM")
    return Question(table, instants, [checked_term(table, term) for term in where])


def schema_of(text):
    reader = reader_of(text, 65536)
    tables = []
    for parts in reader.many(reader.table, 16):
        tables.append(checked_table(tables, *parts))
    return tables


def places_in(columns, names):
    """The places of two columns that are declared."""
    found = []
    for name in names:
        place = next((at for at, it in enumerate(columns) if it.name.upper() == name.upper()), None)
        check(place is not None, UNKNOWN_COLUMN)
        found.append(place)
    return found


def checked_table(tables, name, columns, period, system, key, foreign):
    check(all(it.name.upper() != name.upper() for it in tables), BAD_SCHEMA)
    check(len(columns) <= 16, TOO_LARGE)
    for at, column in enumerate(columns):
        check(all(it.name.upper() != column.name.upper() for it in columns[:at]), BAD_SCHEMA)
        check(column.kind != "VARCHAR" or 1 <= column.length <= 255, BAD_SCHEMA)
    check(all(it.name.upper() != period[0].upper() for it in columns), BAD_SCHEMA)
    days = places_in(columns, period[1:])
    check(days[0] != days[1] and all(columns[it].kind == "DATE" for it in days), BAD_SCHEMA)
    rows = places_in(columns, system)
    for place, kind in zip(rows, ("START", "END")):
        check([at for at, it in enumerate(columns) if it.kind == kind] == [place], BAD_SCHEMA)
    check(len(key) <= 4, TOO_LARGE)
    table = Table(name, columns, days, rows, [], [])
    table.period_name = period[0]
    table.key = key_places(table, key)
    table.values = [it for it in range(len(columns)) if it not in {*days, *rows, *table.key}]
    for at, (own, parent, names) in enumerate(foreign):
        check(at < 8, TOO_LARGE)
        table.foreign.append(checked_foreign(tables, table, own, parent, names))
    return table


def key_places(table, names):
    """The places of a key's columns; the last name has to be that of the application period."""
    found = []
    for name in names[:-1]:
        place = place_of(table, name)
        check(place not in {*table.period, *table.system, *found}, BAD_SCHEMA)
        found.append(place)
    check(names[-1].upper() == table.period_name.upper(), BAD_SCHEMA)
    return found


def checked_foreign(tables, table, own, parent, names):
    places = key_places(table, own)
    parent = table_named(tables, parent)
    wanted = [*(parent.columns[it].name.upper() for it in parent.key), parent.period_name.upper()]
    check([it.upper() for it in names] == wanted and len(places) == len(parent.key), BAD_SCHEMA)
    for mine, theirs in zip(places, parent.key):
        check(table.columns[mine].kind == parent.columns[theirs].kind, WRONG_TYPE)
    return Foreign(parent, places)
