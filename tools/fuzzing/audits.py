"""What an audit says of flights: docs/FORMATS.md ("Flight file", "Marks", "What an audit does"), and no code."""
import collections
import re

import groups
import language
import scripts
import tables as tabled
from language import Refused

BAD, YES = "50 bad flight file", "audit: yes"
NUMBER = re.compile("0|[1-9][0-9]*")
MOST_MARK, LAST = 2**63 - 1, groups.LAST
Entry, Message = groups.Entry, groups.Message
Life = collections.namedtuple("Life", "mark stored steps ending")
# A step: the input or the message that it takes, with its sender and that one's mark; what it told, or none in version 1.
Step = collections.namedtuple("Step", "mark reading kind request source message told")
Answer = collections.namedtuple("Answer", "mark query text")
Flight = collections.namedtuple("Flight", "version node members schema lives answers")
BODIES = {"votereq": 2, "append": 4, "seek": 2, "stored": 2, "seal": 2}


class Bad(Exception):
    pass


def check(is_so):
    if not is_so:
        raise Bad


class Reader:
    """A flight, read line by line."""

    def __init__(self, text):
        try:
            text.decode()
        except UnicodeDecodeError:
            raise Bad from None
        self.text, self.at = text, 0

    def peek(self):
        end = self.text.find(b"\n", self.at)
        check(end >= 0)
        return self.text[self.at : end].decode()

    def line(self):
        words = self.peek().split(" ")
        self.at = self.text.index(b"\n", self.at) + 1
        return words

    def bytes(self, length):
        part = self.text[self.at : self.at + length]
        check(len(part) == length and self.text[self.at + length : self.at + length + 1] == b"\n")
        self.at += length + 1
        try:
            return part.decode()
        except UnicodeDecodeError:
            raise Bad from None

    def block(self, name):
        words = self.line()
        check(len(words) == 2 and words[0] == name)
        return self.bytes(number(words[1]))

    def flight(self):
        words = self.line()
        check(words[:2] == ["bitable", "flight"] and words[2:] in (["1"], ["2"], ["3"]))
        self.version = int(words[2])
        words = self.line()
        check(len(words) == 4 and words[0] == "node" and words[2] == "of")
        members = number(words[3], 3, 7)
        node = number(words[1], 1, members)
        schema = self.block("schema")
        tables = schema_of(schema)
        lives = [self.life()]
        while self.peek().startswith("life "):
            check(lives[-1].ending != "up")
            lives.append(self.life())
        answers = []
        while self.peek() != "end":
            answers.append(self.answer(tables))
        self.line()
        check(self.at == len(self.text))
        return Flight(self.version, node, members, schema, lives, answers)

    def life(self):
        words = self.line()
        has_floor = self.version == 3
        check(words[0] == "life" and len(words) == 5 + has_floor)
        floor = floor_of(words[4]) if has_floor else None
        mark, term, vote, count = number(words[1], 1, MOST_MARK), number(words[2]), number(words[3]), number(words[-1])
        stored = term, vote or None, floor, self.entries(count)
        steps = []
        while True:
            words = self.line()
            if words[0] == "step":
                steps.append(self.step(words))
            elif words in (["up"], ["stopped"]):
                return Life(mark, stored, steps, words[0])
            else:
                check(words[0] == "torn")
                return Life(mark, stored, steps, self.step(words))

    def entries(self, count):
        found = []
        for _ in range(count):
            words = self.line()
            check(words[0] == "entry" and len(words) in (4, 6))
            term, stamp = number(words[1]), number(words[2], 0, LAST)
            check(len(words) == 6 or words[3] == "close")
            found.append(Entry(term, stamp, self.request(words[3:]) if len(words) == 6 else None))
        return found

    def request(self, words):
        check(len(words) == 3)
        return number(words[0], 1, 65535), number(words[1], 1, 2**62), self.bytes(number(words[2]))

    def step(self, words):
        check(len(words) > 3)
        is_torn, mark, reading, kind, more = words[0] == "torn", number(words[1], 1, MOST_MARK), words[2], words[3], words[4:]
        check(re.fullmatch("0|-?[1-9][0-9]*", reading) and -(2**63) <= int(reading) < 2**63)
        request = source = message = None
        if kind == "submit":
            request = self.request(more)
        elif kind == "from":
            check(len(more) > 3)
            source = number(more[0]), number(more[1], 1, MOST_MARK)
            message = self.message(more[2:])
        else:
            check(not more and kind in ("timeout", "beat", "close", *(["floor"] if self.version == 3 else [])))
        told = None if self.version == 1 else [] if is_torn else self.told()
        return Step(mark, int(reading), kind, request, source, message, told)

    def told(self):
        found = []
        while self.at < len(self.text) and self.peek().startswith("outcome "):
            words = self.line()
            check(len(words) == 4)
            found.append((number(words[1]), number(words[2], 1, 65535), number(words[3], 1, 2**62), self.block("text")))
        return found

    def message(self, words):
        """Its kind, its term and its body."""
        kind, term, rest = words[0], number(words[1]), words[2:]
        if kind in ("vote", "reply"):
            has_more = kind == "reply" or self.version == 3
            check(len(rest) == 1 + has_more and rest[0] in ("0", "1"))
            said = (number(rest[1]) if kind == "reply" else floor_of(rest[1])) if has_more else None
            return kind, term, (rest[0] == "1", said)
        check(kind in BODIES and (self.version == 3 or kind in ("votereq", "append")))
        check(len(rest) == BODIES[kind])
        if kind == "append":
            return kind, term, (*map(number, rest[:3]), self.entries(number(rest[3])))
        if kind == "votereq":
            return kind, term, tuple(map(number, rest))
        return kind, term, (number(rest[0]), number(rest[1], 0, LAST))

    def answer(self, tables):
        words = self.line()
        check(len(words) == 2 and words[0] == "answer")
        mark, query = number(words[1], 1, MOST_MARK), self.block("query")
        try:
            language.question_of(tables, query.encode())
        except Refused:
            raise Bad from None
        return Answer(mark, query, self.block("text"))


def number(word, least=0, most=2**64 - 1):
    check(NUMBER.fullmatch(word) and least <= int(word) <= most)
    return int(word)


def floor_of(word):
    return None if word == "-1" else number(word, 0, LAST)


def schema_of(text):
    try:
        return language.schema_of(text.encode())
    except Refused:
        raise Bad from None


class No(Exception):
    pass


def no(number, node, mark):
    words = {51: "broken life of node {} at {}", 52: "unsent message to node {} at {}", 53: "marks out of order at node {} at {}",
             54: "wrong answer of node {} at {}"}
    return No(f"audit: {number} " + words[number].format(node, mark))


class Audit:
    def __init__(self, flights):
        self.flights = {it.node: it for it in sorted(flights, key=lambda it: it.node)}
        heads = {(it.version, it.members, it.schema) for it in flights}
        check(len(heads) == 1 and list(self.flights) == list(range(1, flights[0].members + 1)) and len(flights) == flights[0].members)
        tables = language.schema_of(flights[0].schema.encode())
        self.group = scripts.Group(len(flights), tables, self.axis(tables))
        # What was sent to whom, by whom, at which mark; the marks that each node has had; the step by which it was torn.
        self.sent, self.marks, self.torn = collections.defaultdict(list), collections.defaultdict(set), {}

    def axis(self, tables):
        days = []
        for flight in self.flights.values():
            for life in flight.lives:
                texts = [step.request[2] for step in self.steps(life) if step.request]
                for text in {*texts}:
                    try:
                        days += tabled.days_in([tuple(it) for it in language.transaction_of(tables, text.encode())])
                    except Refused:
                        pass
        return tabled.Axis(days)

    def steps(self, life):
        return life.steps if isinstance(life.ending, str) else [*life.steps, life.ending]

    def look_at_marks(self):
        for node, flight in self.flights.items():
            last = 0
            for life in flight.lives:
                for mark, source in [(life.mark, None), *((step.mark, step.source) for step in self.steps(life))]:
                    if mark <= last or (source and mark <= source[1]):
                        raise no(53, node, mark)
                    last = mark

    def moments(self):
        """All that is recorded, in one order."""
        found = []
        for node, flight in self.flights.items():
            for at, life in enumerate(flight.lives):
                following = flight.lives[at + 1].stored if at + 1 < len(flight.lives) else None
                found.append(((life.mark, node, 0, 0), self.open, (node, life, at == 0)))
                for step in life.steps:
                    found.append(((step.mark, node, 0, 0), self.step, (node, step)))
                last = self.steps(life)[-1].mark if self.steps(life) else life.mark
                if life.ending == "stopped":
                    found.append(((last, node, 2, 0), self.group.stop, (node,)))
                elif life.ending != "up":
                    found.append(((last, node, 0, 0), self.tear, (node, life.ending, following)))
            for at, answer in enumerate(flight.answers):
                found.append(((answer.mark, node, 1, at), self.answer, (node, answer)))
        return sorted(found, key=lambda it: it[0])

    def open(self, number, life, is_first):
        node = self.group.nodes[number]
        self.marks[number].add(life.mark)
        if node.kept() != life.stored or (not is_first and node.is_up):
            raise no(51, number, life.mark)
        self.group.start(number)

    def take(self, number, step):
        """The node takes what the step says; what comes of it is printed by the group."""
        group = self.group
        group.clocks[number] = step.reading
        if step.kind == "from":
            sender, mark = step.source
            if step.message not in self.sent[sender, mark, number]:
                raise no(52, number, step.mark)
            kind, term, body = step.message
            if group.nodes[number].is_up:
                group.take(Message(sender, number, term, kind, body))
        else:
            group.input(number, step.kind, step.request)

    def step(self, number, step):
        self.marks[number].add(step.mark)
        messages, printed = len(self.group.messages), len(self.group.printed)
        self.take(number, step)
        for message in self.group.messages[messages:]:
            self.sent[number, step.mark, message.to].append((message.kind, message.term, message.body))
        told = [re.fullmatch("node [0-9]+ entry ([0-9]+) request ([0-9]+) ([0-9]+) (.*)", line) for line in self.group.printed[printed:]]
        told = [(int(it[1]), int(it[2]), int(it[3]), it[4]) for it in told if it]
        if step.told is not None and step.told != told:
            raise no(54, number, step.mark)

    def tear(self, number, step, following):
        self.marks[number].add(step.mark)
        node, before = self.group.nodes[number], self.group.nodes[number].kept()
        messages, printed = len(self.group.messages), len(self.group.printed)
        self.take(number, step)
        del self.group.messages[messages:], self.group.printed[printed:]
        if following == before:
            node.term, node.vote, node.floor, node.log = before
        self.group.stop(number)

    def answer(self, number, answer):
        printed = len(self.group.printed)
        self.group.ask(number, answer.query)
        first, *lines = self.group.printed[printed:]
        refused = re.fullmatch("node [0-9]+ refused (33 .*)", first)
        text = refused[1] if refused else "".join(f"{line}\n" for line in lines) if first.endswith(" answer") else None
        if answer.mark not in self.marks[number] or answer.text != text:
            raise no(54, number, answer.mark)


def verdict(texts):
    """What an audit of files with these texts says."""
    try:
        audit = Audit([Reader(text).flight() for text in texts])
    except Bad:
        return BAD
    try:
        audit.look_at_marks()
        for _, what, about in audit.moments():
            what(*about)
    except No as found:
        return str(found)
    return YES
