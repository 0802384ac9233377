"""Schemas, requests, questions and scripts that chance draws, and changes of texts."""
import groups
import language
import scripts
import tables as tabled

LAST = groups.LAST
# Days that follow each other over a leap day, the ends of the calendar, and some between.
DAYS = ["2024-02-27", "2024-02-28", "2024-02-29", "2024-03-01", "2024-03-02", "2024-03-03", "0001-01-01", "0001-01-02", "1969-12-31",
        "1970-01-01", "2000-02-29", "2100-02-28", "9999-12-29", "9999-12-30", "9999-12-31"]
NAMES = ["Emp", "Dept", "Pay", "Stay", "x", "Y_1", "Select_", "a" * 32, "Period1", "ROOM", "Old", "floor"]
WORDS = ["", "a", "b", "A", " a", "it's", "''", "a,b", "~", "x" * 255, '"', "end", "\\n"]
LINES = ["timeout", "beat", "close", "floor"]


def cased(chance, word):
    """A word in capital letters, in small ones or as it is."""
    return chance.choice([word, word, word, word.upper(), word.lower()])


class Tongue:
    """A schema and texts over it."""

    def __init__(self, chance, most_tables=3):
        self.chance = chance
        self.days = sorted(chance.sample(DAYS, chance.randint(4, 8)))
        self.names = chance.sample(NAMES, len(NAMES))
        self.keys = chance.choice([2, 5, 8, 12])
        self.parts = []
        for at in range(chance.randint(1, most_tables)):
            self.parts.append(self.table(at))
        self.schema = "\n".join(self.parts)
        self.tables = language.schema_of(self.schema.encode() + b"\n")

    def kind(self):
        return self.chance.choice(["INTEGER", "INTEGER", "VARCHAR(3)", "VARCHAR(255)", "DATE"])

    def table(self, at):
        """A table whose columns stand in any order; it may refer to those before it."""
        chance, name = self.chance, self.names.pop()
        tables = language.schema_of("\n".join(self.parts).encode()) if self.parts else []
        keys = [(f"k{it}", self.kind()) for it in range(chance.choice([1, 1, 1, 2, 3]))]
        values = [(f"v{it}", self.kind()) for it in range(chance.choice([0, 1, 1, 2, 3]))]
        foreign = []
        for parent in tables:
            if chance.random() < 0.35:
                foreign.append(self.foreign(parent, at, keys, values, len(foreign)))
        columns = [f"{one} {kind}" for one, kind in [*keys, *values]]
        columns += ["F DATE", "U DATE", "S TIMESTAMP(6) GENERATED ALWAYS AS ROW START", "E TIMESTAMP(6) GENERATED ALWAYS AS ROW END"]
        if chance.random() < 0.5:
            chance.shuffle(columns)
        order = [one for one, _ in keys]
        chance.shuffle(order)
        parts = [*columns, "PERIOD FOR P (F, U)", "PERIOD FOR SYSTEM_TIME (S, E)", f"PRIMARY KEY ({', '.join(order)}, P WITHOUT OVERLAPS)"]
        return f"CREATE TABLE {name} (" + chance.choice([", ", ",\n "]).join([*parts, *foreign]) + ") WITH SYSTEM VERSIONING;"

    def foreign(self, parent, at, keys, values, count):
        """A reference to a table: by key columns of this one where they fit, else by new value columns."""
        own = []
        for place in parent.key:
            kind = parent.columns[place].kind
            fits = [one for one, said in keys if said.partition("(")[0] == kind and one not in own]
            if not fits or self.chance.random() < 0.5:
                values.append((f"r{count}_{len(own)}", "VARCHAR(255)" if kind == "VARCHAR" else kind))
                fits = [values[-1][0]]
            own.append(fits[0])
        theirs = [parent.columns[it].name for it in parent.key]
        return f"FOREIGN KEY ({', '.join(own)}, PERIOD P) REFERENCES {parent.name} ({', '.join(theirs)}, PERIOD P)"

    # Parts of statements.

    def day(self):
        return f"DATE '{self.chance.choice(self.days)}'"

    def span(self):
        """Two days, mostly in their order."""
        first, second = self.chance.sample(self.days, 2)
        if first > second and self.chance.random() < 0.95:
            first, second = second, first
        return f"DATE '{first}'", f"DATE '{second}'"

    def is_odd(self):
        """Whether something that is refused stands here."""
        return self.chance.random() < 0.01

    def literal(self, column):
        if self.is_odd():
            column = self.chance.choice([language.Column("", kind, 3) for kind in ("INTEGER", "VARCHAR", "DATE")])
        if column.kind == "DATE":
            return self.day()
        if column.kind in ("INTEGER", "START", "END"):
            small = self.chance.randint(0, self.keys)
            return str(small if self.chance.random() < 0.97 else self.chance.choice([-small, 2**63 - 1, -(2**63), 2**63]))
        fitting = [it for it in WORDS if len(it) <= column.length]
        word = self.chance.choice(fitting[: self.keys] if self.chance.random() < 0.8 else WORDS)
        return "'" + word.replace("'", "''") + "'"

    def comparisons(self, table, count):
        found = []
        for _ in range(count):
            places = range(len(table.columns)) if self.is_odd() else [*table.key, *table.values]
            column = table.columns[self.chance.choice(places)]
            sign = self.chance.choice(["=", "=", "=", "<>", "<", "<=", ">", ">="])
            found.append(f"{cased(self.chance, column.name)} {sign} {self.literal(column)}")
        return found

    def where(self, terms):
        return (" WHERE " + " AND ".join(terms)) if terms else ""

    def some(self):
        return self.chance.choice([0, 0, 1, 1, 2])

    def statement(self):
        chance = self.chance
        table = chance.choice(self.tables)
        name = "Nowhere" if self.is_odd() else cased(chance, table.name)
        kind = chance.choice(["insert"] * 5 + ["update"] * 3 + ["delete"])
        if kind == "insert":
            return self.insert(table, name)
        portion = " FOR PORTION OF P FROM {} TO {}".format(*self.span()) if chance.random() < 0.7 else ""
        where = self.where(self.comparisons(table, self.some()))
        if kind == "delete" or not table.values:
            return f"DELETE FROM {name}{portion}{where};"
        sets = chance.sample(table.values, chance.randint(1, len(table.values)))
        if self.is_odd():
            sets.append(chance.randrange(len(table.columns)))
        return f"UPDATE {name}{portion} SET {', '.join(self.set(table.columns[it]) for it in sets)}{where};"

    def insert(self, table, name):
        places = [it for it in range(len(table.columns)) if it not in table.system]
        if self.chance.random() < 0.3:
            self.chance.shuffle(places)
        first, second = self.span()
        if self.is_odd():
            places = self.chance.choice([places[1:], places * 2, [*places, table.system[0]]])
        said = {table.period[0]: first, table.period[1]: second}
        values = [said.get(it) or self.literal(table.columns[it]) for it in places]
        return f"INSERT INTO {name} ({', '.join(table.columns[it].name for it in places)}) VALUES ({', '.join(values)});"

    def set(self, column):
        if column.kind == "INTEGER" and self.chance.random() < 0.5:
            by = self.chance.choice([0, 1, 1, 2, 2**63 - 1, 2**63 - 2])
            return f"{column.name} = {column.name} {self.chance.choice('+-')} {by}"
        return f"{column.name} = {self.literal(column)}"

    def transaction(self):
        """The text of a request; some are changed in one byte."""
        count = self.chance.choice([16, 17]) if self.is_odd() else self.chance.choice([1, 1, 1, 1, 2, 2, 3, 5])
        text = self.chance.choice([" ", ""]).join(self.statement() for _ in range(count))
        return self.perhaps_changed(text)

    def perhaps_changed(self, text):
        if self.is_odd():
            text += " " * (self.chance.choice([4096, 4097]) - len(text))
        if self.chance.random() < 0.04:
            text = changed(self.chance, text.encode()).decode("ascii", "replace").replace("\n", " ").replace("�", "?")
        return text

    def question(self, stamps):
        """A question; its system time is near these instants."""
        table = self.chance.choice(self.tables)
        name = "Nowhere" if self.is_odd() else cased(self.chance, table.name)
        terms = self.comparisons(table, self.some() // 2)
        if self.chance.random() < 0.4:
            terms.append(self.period_term())
        text = f"SELECT * FROM {name}{self.system_time(stamps)}{self.where(terms)};"
        return self.perhaps_changed(text)

    def period_term(self):
        word = self.chance.choice(["CONTAINS", "CONTAINS", *language.PREDICATES, "IMMEDIATELY PRECEDES", "IMMEDIATELY SUCCEEDS"])
        if word == "CONTAINS" and self.chance.random() < 0.6:
            return f"P CONTAINS {self.day()}"
        return "P {} PERIOD ({}, {})".format(word, *self.span())

    def system_time(self, stamps):
        kind = self.chance.choice(["", "", " FOR SYSTEM_TIME AS OF {}", " FOR SYSTEM_TIME FROM {} TO {}", " FOR SYSTEM_TIME BETWEEN {} AND {}"])
        instants = sorted(max(0, self.chance.choice(stamps or [0]) + self.chance.choice([-1, 0, 0, 1])) for _ in range(2))
        return kind.format(*(f"TIMESTAMP '{tabled.instant(min(it, LAST))}'" for it in instants))


class NoTables:
    """Takes each request, for a group that only has to say what may be sent next."""

    def run(self, statements, stamp):
        return f"accepted {tabled.instant(stamp)}"

    def answer(self, question, closed):
        return []


class Drawn:
    """A script of chance."""

    def __init__(self, chance, steps):
        self.chance, self.tongue = chance, Tongue(chance)
        count = chance.choice([3, 3, 3, 4, 5, 6, 7])
        self.group = scripts.Group(count, self.tongue.tables, None)
        for node in self.group.nodes.values():
            node.make_tables = NoTables
            node.forget()
        self.lines, self.stamps = [], []
        has_floors, has_ends = chance.random() < 0.6, chance.random() < 0.1
        self.ends = [LAST, LAST + 1, 2**63 - 1, -(2**63)] if has_ends else [LAST + 1, -5]
        kinds = {
            self.timeout: 4, self.beat: 8, self.close: 3, self.floor: 8 * has_floors, self.submit: 28, self.deliver: 26, self.lose: 2,
            self.stop: 2, self.torn: 3, self.start: 7, self.settle: 18, self.clock: 3, self.ask: 8, self.recover: 0.4, self.odd: 0.5,
        }
        if chance.random() < 0.7:
            self.begin()
        for kind in chance.choices(list(kinds), kinds.values(), k=steps):
            kind()
        if chance.random() < 0.5:
            self.add("recover")
            for number in self.group.nodes:
                self.add("ask", number, self.tongue.question(self.stamps))

    def begin(self):
        """A leader is elected, and has some rows stored, of parents first."""
        self.add("timeout", 1)
        self.add("settle")
        for number in range(1, self.chance.choice([2, 5, 9])):
            table = self.tongue.tables[(number - 1) % len(self.tongue.tables)]
            self.add("submit", 1, 3, number, " ".join(self.tongue.insert(table, table.name) for _ in range(2)))
        self.add("settle")

    def text(self):
        lines = "".join(f"{line}\n" for line in self.lines)
        return f"members {len(self.group.nodes)}\nschema\n{self.tongue.schema}\nend\n{lines}".encode()

    def add(self, *words):
        self.lines.append(" ".join(map(str, words)))
        scripts.play(self.group, list(words))
        logs = [node.log for node in self.group.nodes.values()]
        self.stamps = [entry.stamp for entry in max(logs, key=len)[-6:]]

    def any(self):
        return self.chance.choice(list(self.group.nodes))

    def leader(self):
        leaders = [it.number for it in self.group.nodes.values() if it.is_up and it.role == "leader"]
        return self.chance.choice(leaders) if leaders and self.chance.random() < 0.8 else self.any()

    def message(self):
        """One of the last messages, or of all, counted from 1; or one that is not sent yet."""
        sent = len(self.group.messages)
        return self.chance.randint(1 if self.chance.random() < 0.25 else max(1, sent - 11), max(1, sent))

    def request(self):
        """Mostly the number after the last one that stands in a log, else one again, an old one or one too far."""
        client = self.chance.choice([1, 1, 1, 2, 65535])
        log = max((it.log for it in self.group.nodes.values()), key=len)
        last = max((it.request[1] for it in log if it.request and it.request[0] == client), default=0)
        executed = max(it.executed[client] for it in self.group.nodes.values())
        number = self.chance.choice([last, last, last, executed, executed]) + self.chance.choice([1] * 12 + [2, 3, 0, -7, -8])
        return client, max(1, number), self.tongue.transaction()

    def timeout(self):
        self.add("timeout", self.any())

    def beat(self):
        self.add("beat", self.leader())

    def close(self):
        self.add("close", self.leader())

    def floor(self):
        self.add("floor", self.leader())

    def submit(self):
        self.add("submit", self.leader(), *self.request())

    def deliver(self):
        self.add("deliver", self.message())

    def lose(self):
        self.add("lose", self.chance.choice([self.message(), self.message(), "all"]))

    def stop(self):
        self.add("stop", self.any())

    def start(self):
        downs = [it.number for it in self.group.nodes.values() if not it.is_up]
        self.add("start", self.chance.choice(downs or [self.any()]))

    def settle(self):
        rounds = self.chance.choice([1, 1, 1, 5, 100, None])
        self.add("settle", *([rounds] if rounds else []))

    def clock(self):
        reading = self.chance.choice([self.chance.randint(0, 60), self.chance.randint(0, 1000), self.chance.choice(self.ends)])
        self.add("clock", self.chance.choice([self.any(), "all"]), reading)

    def ask(self):
        self.add("ask", self.any(), self.tongue.question(self.stamps))

    def recover(self):
        self.add("recover")

    def torn(self):
        when, kind = self.chance.choice(["old", "new"]), self.chance.choice([*LINES, "submit", "submit", "deliver", "deliver"])
        if kind == "submit":
            self.add("torn", self.leader(), when, kind, *self.request())
        elif kind == "deliver":
            number = self.message()
            to = self.group.messages[number - 1].to if number <= len(self.group.messages) and self.chance.random() < 0.9 else self.any()
            self.add("torn", to, when, kind, number)
        else:
            self.add("torn", self.leader(), when, kind)

    def odd(self):
        """Messages that are not sent, and lines that bring nothing."""
        far = len(self.group.messages) + self.chance.choice([0, 1, 2**64 - 1 - len(self.group.messages)])
        self.add(self.chance.choice(["deliver", "lose"]), far)


def changed(chance, text):
    """Bytes in which one was put in, taken out or changed, or two exchanged, or some there twice."""
    at = chance.randrange(len(text) + 1) if text else 0
    signs = b" '();,=<>+-*#\n\r\t\x00\xff\xc3\xa9.@019_aZ"
    byte = bytes([chance.choice(signs) if chance.random() < 0.7 else chance.randrange(256)])
    kind = chance.randrange(6)
    if kind == 0:
        return text[:at] + byte + text[at:]
    if kind == 1:
        return text[:at] + text[at + 1 :]
    if kind == 2:
        return text[:at] + byte + text[at + 1 :]
    if kind == 3:
        other = chance.randrange(len(text) + 1)
        first, second = sorted((at, other))
        return text[:first] + text[second : second + 1] + text[first + 1 : second] + text[first : first + 1] + text[second + 1 :]
    if kind == 4:
        return text[:at] + text[at : at + chance.randint(1, 40)] + text[at:]
    return text[:at] + text[at + chance.randint(1, 40) :]


def changed_lines(chance, text):
    """Lines of which one is left out, there twice, or exchanged with another."""
    lines = text.splitlines(keepends=True)
    if not lines:
        return text
    at, other = chance.randrange(len(lines)), chance.randrange(len(lines))
    kind = chance.randrange(3)
    if kind == 0:
        del lines[at]
    elif kind == 1:
        lines.insert(other, lines[at])
    else:
        lines[at], lines[other] = lines[other], lines[at]
    return b"".join(lines)
