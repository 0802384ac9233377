"""What requests do and what questions get: docs/FORMATS.md ("What a transaction does", "What a question gets"), and no code.

A table has, for each key and each day, nothing, or values with their birth; and for each key the days that are cuts. Days stand
here as places on an axis of all the days that a run names, since nothing ever begins or ends elsewhere.
"""
import bisect
import collections
import datetime

from language import Delete, Insert, LAST_DAY, Refused

OPEN = "9999-12-31 23:59:59.999999"
MOST_ROWS = 20_000
SIGNS = {
    "=": lambda one, other: one == other, "<>": lambda one, other: one != other, "<": lambda one, other: one < other,
    "<=": lambda one, other: one <= other, ">": lambda one, other: one > other, ">=": lambda one, other: one >= other,
}
PREDICATES = {
    "OVERLAPS": lambda x, y: x[0] < y[1] and y[0] < x[1], "EQUALS": lambda x, y: x == y,
    "CONTAINS": lambda x, y: x[0] <= y[0] and y[1] <= x[1], "PRECEDES": lambda x, y: x[1] <= y[0],
    "SUCCEEDS": lambda x, y: y[1] <= x[0], "IMMEDIATELY PRECEDES": lambda x, y: x[1] == y[0],
    "IMMEDIATELY SUCCEEDS": lambda x, y: y[1] == x[0],
}
# A row of a table: its key, its days from the first to the one before the last, its values and its birth.
Row = collections.namedtuple("Row", "key start end values birth")


def instant(stamp):
    return (datetime.datetime(1970, 1, 1) + datetime.timedelta(microseconds=stamp)).strftime("%Y-%m-%d %H:%M:%S.%f").zfill(26)


def shown(value):
    if isinstance(value, str):
        return "'" + value.replace("'", "''") + "'"
    return value.isoformat() if isinstance(value, datetime.date) else str(value)


def days_in(thing):
    """All days that stand in a statement or a question."""
    if isinstance(thing, datetime.date):
        yield thing
    elif isinstance(thing, dict):
        for value in thing.values():
            yield from days_in(value)
    elif isinstance(thing, (list, tuple)):
        for part in thing:
            yield from days_in(part)


class Axis:
    """The days that are named, in order."""

    def __init__(self, days):
        self.days = sorted({datetime.date(1, 1, 1), LAST_DAY, *days})

    def place(self, day):
        return bisect.bisect_left(self.days, day)


class Keyed:
    """What a table has of one key."""

    def __init__(self):
        self.filled, self.cuts = {}, set()

    def copy(self):
        other = Keyed()
        other.filled, other.cuts = dict(self.filled), set(self.cuts)
        return other

    def runs(self):
        """The first place of each row, and the place after its last."""
        start = before = None
        for place in sorted(self.filled):
            if before is None or place != before + 1 or place in self.cuts:
                if start is not None:
                    yield start, before + 1
                start = place
            before = place
        if start is not None:
            yield start, before + 1


def passes(where, key_of, values, days):
    """Whether a row passes: `key_of` and `values` give its columns by their places."""
    for place, sign, right in where:
        if sign in SIGNS:
            if not SIGNS[sign](key_of[place] if place in key_of else values[place], right):
                return False
        elif not isinstance(right, tuple):
            if not days[0] <= right < days[1]:
                return False
        elif not PREDICATES[sign](days, right):
            return False
    return True


class Tables:
    def __init__(self, tables, axis):
        self.tables, self.axis = tables, axis
        self.now = {table.name: {} for table in tables}
        # The rows that each accepted request left, with its stamp.
        self.past = []

    def run(self, statements, stamp):
        """The outcome of a request that is executed at this stamp."""
        before = {name: {key: keyed.copy() for key, keyed in keys.items()} for name, keys in self.now.items()}
        try:
            for statement in statements:
                self.execute(statement, stamp)
                if sum(1 for _ in self.rows(statement.table)) > MOST_ROWS:
                    raise Refused("22 row limit")
            self.look_at_parents()
        except Refused as refusal:
            self.now = before
            return f"refused {refusal}"
        self.past.append((stamp, {table.name: list(self.rows(table)) for table in self.tables}))
        return f"accepted {instant(stamp)}"

    def execute(self, statement, stamp):
        if isinstance(statement, Insert):
            self.insert(statement, stamp)
        else:
            self.change(statement, stamp)

    def insert(self, statement, stamp):
        table, given = statement
        keyed = self.now[table.name].setdefault(tuple(given[it] for it in table.key), Keyed())
        start, end = (self.axis.place(given[it]) for it in table.period)
        if any(place in keyed.filled for place in range(start, end)):
            raise Refused("20 key overlap")
        values = tuple(given[it] for it in table.values)
        keyed.filled.update(dict.fromkeys(range(start, end), (values, stamp)))
        keyed.cuts = {cut for cut in keyed.cuts if not start < cut < end} | {start, end}

    def change(self, statement, stamp):
        table = statement.table
        portion = tuple(map(self.axis.place, statement.portion)) if statement.portion else (0, len(self.axis.days))
        for key, keyed in self.now[table.name].items():
            key_of = dict(zip(table.key, key))
            met = []
            for start, end in keyed.runs():
                values = dict(zip(table.values, keyed.filled[start][0]))
                if start < portion[1] and portion[0] < end and passes(statement.where, key_of, values, None):
                    met.append((start, end, values))
            for start, end, values in met:
                self.change_row(statement, keyed, portion, (start, end, values), stamp)

    def change_row(self, statement, keyed, portion, row, stamp):
        start, end, values = row
        is_delete = isinstance(statement, Delete)
        new = None if is_delete else tuple(self.new_value(statement.sets, values, place) for place in statement.table.values)
        for place in range(start, end):
            if not portion[0] <= place < portion[1]:
                keyed.filled[place] = (keyed.filled[place][0], stamp)
            elif is_delete:
                del keyed.filled[place]
            else:
                keyed.filled[place] = (new, stamp)
        if not is_delete and statement.portion:
            keyed.cuts.update(it for it in portion if start < it < end)

    def new_value(self, sets, values, place):
        said = sets.get(place, values[place])
        if isinstance(said, tuple):
            said = values[place] + said[1]
            if not -(2**63) <= said < 2**63:
                raise Refused("23 number out of range")
        return said

    def look_at_parents(self):
        for table in self.tables:
            for key in sorted(self.now[table.name]):
                orphans = [place for place, (values, _) in self.now[table.name][key].filled.items()
                           if not self.has_parents(table, key, values, place)]
                if orphans:
                    said = ",".join(map(shown, key))
                    raise Refused(f"21 no parent for {table.name} ({said}) on {self.axis.days[min(orphans)].isoformat()}")

    def has_parents(self, table, key, values, place):
        columns = {**dict(zip(table.key, key)), **dict(zip(table.values, values))}
        for parent, places in table.foreign:
            keyed = self.now[parent.name].get(tuple(columns[it] for it in places))
            if keyed is None or place not in keyed.filled:
                return False
        return True

    def rows(self, table):
        for key, keyed in self.now[table.name].items():
            for start, end in keyed.runs():
                values, birth = keyed.filled[start]
                yield Row(key, self.axis.days[start], self.axis.days[end], values, birth)

    def answer(self, question, closed):
        """The lines of an answer, below `node N answer`."""
        table, instants, where = question
        first, last = instants or (closed, closed)
        states = [(stamp, set(rows[table.name])) for stamp, rows in self.past]
        begun = [at for at, (stamp, _) in enumerate(states) if stamp <= first]
        asked = states[begun[-1] if begun else 0 :] if states else []
        asked = [state for state in asked if state[0] <= last]
        found = set().union(*(rows for _, rows in asked))
        lines = []
        for row in sorted(found, key=lambda it: (it.key, it.start, it.birth)):
            if passes(where, dict(zip(table.key, row.key)), dict(zip(table.values, row.values)), (row.start, row.end)):
                ends = [stamp for stamp, rows in states if row.birth < stamp <= last and row not in rows]
                lines.append("row " + self.shown_row(table, row, ends[0] if ends else None))
        names = ",".join(column.name for column in table.columns)
        return [f"last {instant(last)}", f"columns {names}", *lines, f"rows {len(lines)}"]

    def shown_row(self, table, row, end):
        columns = {**dict(zip(table.key, row.key)), **dict(zip(table.values, row.values))}
        columns.update(zip(table.period, (row.start, row.end)))
        said = {place: shown(value) for place, value in columns.items()}
        said.update(zip(table.system, (instant(row.birth), OPEN if end is None else instant(end))))
        return ",".join(said[place] for place in range(len(table.columns)))
