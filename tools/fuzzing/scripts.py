"""What a script prints: a group with tables, and the lines of docs/FORMATS.md ("Script")."""
import re

import groups
import language
import tables as tabled
from language import Refused
from tables import instant

NUMBER = "(0|[1-9][0-9]*)"
SIGNED = "(0|-?[1-9][0-9]*)"
REQUEST = f"{NUMBER} {NUMBER} (.*)"
JOB = f"(?:timeout|beat|close|floor|submit {REQUEST}|deliver {NUMBER})"
FORMS = [re.compile(form, re.S) for form in (
    f"(clock) {NUMBER} {SIGNED}", f"(clock) (all) {SIGNED}", f"(timeout|beat|close|floor|stop|start) {NUMBER}",
    f"(submit) {NUMBER} {REQUEST}", f"(deliver|lose) {NUMBER}", "(lose) (all)", "(settle)", f"(settle) {NUMBER}", "(recover)",
    f"(torn) {NUMBER} (old|new) (timeout|beat|close|floor)", f"(torn) {NUMBER} (old|new) (submit) {REQUEST}",
    f"(torn) {NUMBER} (old|new) (deliver) {NUMBER}", f"(ask) {NUMBER} (.*)",
)]


class Node(groups.Node):
    def __init__(self, number, count, make_tables):
        self.make_tables = make_tables
        super().__init__(number, count)

    def forget(self):
        super().forget()
        self.tables = self.make_tables()

    def kept(self):
        return self.term, self.vote, self.floor, list(self.log)


class Group(groups.Group):
    """A group over these tables. A request is a client, a number and a text."""

    def __init__(self, count, schema, axis):
        super().__init__(count)
        self.schema = schema
        self.nodes = {it: Node(it, count, lambda: tabled.Tables(schema, axis)) for it in self.nodes}
        self.read = {}

    def transaction(self, text):
        """What a text says, or the refusal that it gets."""
        if text not in self.read:
            try:
                self.read[text] = language.transaction_of(self.schema, text.encode())
            except Refused as refusal:
                self.read[text] = refusal
        return self.read[text]

    def input(self, number, kind, request=None):
        said = self.transaction(request[2]) if kind == "submit" else None
        if self.nodes[number].is_up and isinstance(said, Refused):
            self.refuse(number, said)
        else:
            super().input(number, kind, request)

    def outcome(self, node, entry):
        client, number, text = entry.request
        if number > node.executed[client] + 1:
            return "refused 31 gap in requests"
        if number == node.executed[client] + 1:
            node.executed[client] = number
            node.outcomes[client, number] = node.tables.run(self.transaction(text), entry.stamp)
        if number <= node.executed[client] - groups.KEPT:
            return "refused 30 old request"
        return node.outcomes[client, number]

    def torn(self, number, is_stored, act):
        """What this act does to a member that is up is cut short, before its save or after it."""
        node = self.nodes[number]
        before, sent, printed = node.kept(), len(self.messages), len(self.printed)
        act()
        del self.messages[sent:], self.printed[printed:]
        if not is_stored:
            node.term, node.vote, node.floor, node.log = before
        node.is_up = False

    def ask(self, number, text):
        node = self.nodes[number]
        try:
            question = language.question_of(self.schema, text.encode())
        except Refused as refusal:
            return self.refuse(number, refusal)
        closed = node.closed()
        if not node.is_up:
            self.refuse(number, "41 node down")
        elif closed is None:
            self.refuse(number, "33 not closed, nothing closed")
        elif question.instants and question.instants[1] > closed:
            self.refuse(number, f"33 not closed, closed to {instant(closed)}")
        else:
            self.printed += [f"node {number} answer", *node.tables.answer(question, closed)]

    # A recovery.

    def is_well(self, leader):
        return leader.log and leader.last_term() == leader.term and all(
            it.term == leader.term and it.commit == len(leader.log) for it in self.nodes.values())

    def turns(self, most, leader):
        for _ in range(most):
            if self.is_well(leader):
                return
            sent = len(self.messages)
            self.input(leader.number, "timeout")
            self.input(leader.number, "beat")
            for number in range(sent + 1, sent + 2 * len(self.nodes) + 1):
                if number <= len(self.messages):
                    self.deliver(number)

    def recover(self):
        for number in self.nodes:
            self.start(number)
        leader = max(self.nodes.values(), key=lambda it: (it.last_term(), len(it.log), it.number))
        longest = max(len(it.log) for it in self.nodes.values())
        self.turns(2, leader)
        if leader.log and leader.last_term() == leader.term:
            self.turns(2 * longest + 4, leader)
        else:
            self.input(leader.number, "close")
        self.passed.update(range(1, len(self.messages) + 1))


class Script:
    """A script that is read; `refusal` where it is none."""

    def __init__(self, text):
        self.refusal, self.lines, self.schema_text = None, [], b""
        self.members, self.tables = 0, []
        try:
            self.read(text)
        except Refused as refusal:
            self.refusal = str(refusal)

    def bad(self, line):
        raise Refused(f"60 bad script at line {line}")

    def read(self, text):
        try:
            text.decode()
        except UnicodeDecodeError:
            self.bad(0)
        pieces = text.split(b"\n")
        lines = list(enumerate(pieces[:-1], 1))
        after = len(lines) + 1

        def counted():
            while lines:
                number, line = lines.pop(0)
                if line and not line.startswith(b"#"):
                    return number, line
            self.bad(after)

        number, line = counted()
        found = re.fullmatch(rb"members ([3-7])", line)
        if not found:
            self.bad(number)
        self.members = int(found[1])
        number, line = counted()
        if line != b"schema":
            self.bad(number)
        self.schema_at, block = number, []
        while True:
            if not lines:
                self.bad(after)
            _, line = lines.pop(0)
            if line == b"end":
                break
            block.append(line + b"\n")
        self.schema_text = b"".join(block)
        self.tables = language.schema_of(self.schema_text)
        for number, line in lines:
            if line and not line.startswith(b"#"):
                self.lines.append((number, self.words(number, line.decode())))
        if pieces[-1]:
            self.bad(after)

    def words(self, number, line):
        for form in FORMS:
            found = form.fullmatch(line)
            if found and self.is_in_range(found.groups()):
                return [int(it) if re.fullmatch(SIGNED, it) and at > 0 else it for at, it in enumerate(found.groups())]
        self.bad(number)

    def is_in_range(self, words):
        kind, *rest = words
        if kind == "settle":
            return not rest or 1 <= int(rest[0]) <= 100
        if kind in ("deliver", "lose"):
            return rest == ["all"] or int(rest[0]) < 2**64
        if kind == "recover":
            return True
        is_member = rest[0] == "all" or 1 <= int(rest[0]) <= self.members
        if kind == "clock":
            return is_member and -(2**63) <= int(rest[1]) < 2**63
        if kind == "torn" and rest[2] == "deliver":
            return is_member and int(rest[3]) < 2**64
        request = rest[1:] if kind == "submit" else rest[3:] if kind == "torn" and rest[2] == "submit" else None
        return is_member and (request is None or (1 <= int(request[0]) < 2**16 and 1 <= int(request[1]) <= 2**62))


def texts_of(words):
    """The request or question of a line, and whether it is a request."""
    if words[0] in ("submit", "ask") or words[:1] == ["torn"] and words[3] == "submit":
        return [(str(words[-1]), words[0] != "ask")]
    return []


def axis_of(script):
    """All days that the lines of a script name."""
    days = []
    for _, words in script.lines:
        for text, is_request in texts_of(words):
            try:
                said = (language.transaction_of if is_request else language.question_of)(script.tables, text.encode())
                days += tabled.days_in([tuple(it) for it in said] if is_request else tuple(said))
            except Refused:
                pass
    return tabled.Axis(days)


def play(group, words):
    """One line of a script."""
    kind, *rest = words
    if kind == "clock":
        for number in group.nodes if rest[0] == "all" else rest[:1]:
            group.clocks[number] = rest[1]
    elif kind in ("timeout", "beat", "close", "floor"):
        group.input(rest[0], kind)
    elif kind == "submit":
        group.input(rest[0], kind, (rest[1], rest[2], str(rest[3])))
    elif kind == "deliver":
        if 1 <= rest[0] <= len(group.messages):
            group.deliver(rest[0])
    elif kind == "lose":
        sent = range(1, len(group.messages) + 1)
        group.passed.update(it for it in sent if rest[0] in ("all", it))
    elif kind == "settle":
        group.settle(rest[0] if rest else 100)
    elif kind == "recover":
        group.recover()
    elif kind == "stop":
        group.stop(rest[0])
    elif kind == "start":
        group.start(rest[0])
    elif kind == "torn":
        play_torn(group, *rest)
    else:
        group.ask(rest[0], str(rest[1]))


def play_torn(group, number, when, kind, *rest):
    if not group.nodes[number].is_up:
        return
    if kind == "deliver":
        if not 1 <= rest[0] <= len(group.messages) or group.messages[rest[0] - 1].to != number:
            return

        def act():
            group.deliver(rest[0])
    else:
        def act():
            group.input(number, kind, (rest[0], rest[1], str(rest[2])) if rest else None)
    group.torn(number, when == "new", act)


def predicted(text):
    """The lines that `sim` prints, and the refusal that ends it, or none."""
    script = Script(text)
    if script.refusal:
        return [], script.refusal
    group = Group(script.members, script.tables, axis_of(script))
    for _, words in script.lines:
        play(group, words)
    return group.printed, None
