"""What `live` prints and records: docs/FORMATS.md ("What `live` plays", "Marks", "Flight file"), and no code."""
import collections
import re

import scripts

WIDE = 2**64
MULTIPLIER, INCREMENT = 6364136223846793005, 11634580027462260723
LAST_READING = 2**63 - 1
ROUNDS, AGAIN = 10_000, 50
OUTCOME = re.compile("node ([0-9]+) entry ([0-9]+) request ([0-9]+) ([0-9]+) (.*)")
# A message with the mark of the step that sent it; what goes to a node: a packet is an input, or one of these.
Letter = collections.namedtuple("Letter", "message mark")


def word_of(state):
    bits = ((state ^ (state >> 18)) >> 27) & 0xFFFFFFFF
    turn = state >> 59
    return (bits >> turn | bits << (32 - turn)) & 0xFFFFFFFF


class Words:
    """The words that a seed gives."""

    def __init__(self, seed):
        state, words = seed, []
        for _ in range(4):
            state = (MULTIPLIER * state + INCREMENT) % WIDE
            words.append(word_of(state))
        self.increment = (words[2] | words[3] << 32) | 1
        self.state = (words[0] | words[1] << 32) + self.increment
        self.go_on()

    def go_on(self):
        self.state = (MULTIPLIER * self.state + self.increment) % WIDE

    def next(self):
        word = word_of(self.state)
        self.go_on()
        return word


def block(name, text):
    return f"{name} {len(text.encode())}\n{text}\n"


def entry_text(entry):
    if entry.request is None:
        return f"entry {entry.term} {entry.stamp} close\n"
    client, number, text = entry.request
    return block(f"entry {entry.term} {entry.stamp} {client} {number}", text)


def floor_text(floor):
    return -1 if floor is None else floor


def message_text(message):
    kind, term, body = message.kind, message.term, message.body
    if kind == "append":
        before, of_term, commit, entries = body
        return f"append {term} {before} {of_term} {commit} {len(entries)}\n" + "".join(map(entry_text, entries))
    if kind == "vote":
        return f"vote {term} {int(body[0])} {floor_text(body[1])}\n"
    if kind == "reply":
        return f"reply {term} {int(body[0])} {body[1]}\n"
    return " ".join(map(str, [kind, term, *body])) + "\n"


class Member:
    """A node's records, its timer and its mark."""

    def __init__(self, number, seed):
        self.number, self.words = number, Words((seed + number) % WIDE)
        self.mark, self.inbox, self.answers = 0, [], []
        self.record, self.ticks = [], 0
        self.new_patience()

    def new_patience(self):
        self.patience = 10 + self.words.next() % 10


class Network:
    """A group whose members elect their leaders by themselves."""

    def __init__(self, text, seed, loss):
        self.script = scripts.Script(text)
        self.group = scripts.Group(self.script.members, self.script.tables, scripts.axis_of(self.script))
        self.members = {it: Member(it, seed) for it in self.group.nodes}
        self.weather, self.loss = Words(seed), loss
        self.set_to = dict.fromkeys(self.members, 0)
        # Each message that is under way: the round in which it comes, and how many were sent before it.
        self.under_way, self.sent, self.round = [], 0, 0
        self.printed, self.told, self.last_told = [], [], 0
        for member in self.members.values():
            self.open(member)

    # Records.

    def open(self, member):
        node = self.group.nodes[member.number]
        member.mark += 1
        member.ticks, member.answer_mark = 0, member.mark
        head = f"life {member.mark} {node.term} {node.vote or 0} {floor_text(node.floor)} {len(node.log)}\n"
        member.record.append(head + "".join(map(entry_text, node.log)))

    def flight(self, number):
        member = self.members[number]
        ending = "up\n" if self.group.nodes[number].is_up else ""
        head = f"bitable flight 3\nnode {number} of {len(self.members)}\n" + block("schema", self.script.schema_text.decode())
        return head + "".join(member.record) + ending + "".join(member.answers) + "end\n"

    # Steps.

    def reading(self, number):
        return min(self.set_to[number] + self.round - 1, LAST_READING)

    def step(self, member, packet):
        """A node takes a packet: what it sends goes on its way."""
        group, node = self.group, self.group.nodes[member.number]
        sent, printed = len(group.messages), len(group.printed)
        commit, sealed = node.commit, node.sealed
        reading = self.reading(member.number)
        group.clocks[member.number] = reading
        if isinstance(packet, Letter):
            member.mark = max(member.mark, packet.mark) + 1
            said = f"from {packet.message.sender} {packet.mark} " + message_text(packet.message)
            group.take(packet.message)
        else:
            member.mark += 1
            kind, request = packet
            said = block("submit {} {}".format(*request[:2]), request[2]) if kind == "submit" else f"{kind}\n"
            group.input(member.number, kind, request)
        outcomes = [it for it in map(OUTCOME.fullmatch, group.printed[printed:]) if it]
        told = "".join(block("outcome {} {} {}\ntext".format(*it.groups()[1:4]), it[5]) for it in outcomes)
        member.record.append(f"step {member.mark} {reading} {said}" + told)
        if node.commit > commit or (node.sealed is not None and (sealed is None or node.sealed > sealed)):
            member.answer_mark = member.mark
        self.told += [(int(it[2]), int(it[3]), int(it[4]), it[5]) for it in outcomes]
        if isinstance(packet, Letter) and packet.message.kind == "append" and packet.message.term == node.term:
            member.ticks = 0
        for message in group.messages[sent:]:
            self.send(Letter(message, member.mark))
        return [line for line in group.printed[printed:] if " refused " in line and " entry " not in line]

    def send(self, letter):
        if self.weather.next() % 100 < self.loss:
            return
        fate = self.weather.next() % 10
        late = 1 + self.weather.next() % 5 if fate in (1, 2) else 0
        for _ in range(2 if fate == 0 else 1):
            self.under_way.append((self.round + 1 + late, self.sent, letter))
            self.sent += 1

    def tick(self, member):
        node = self.group.nodes[member.number]
        if node.role == "leader":
            member.ticks = 0
            if self.round % 3 == 0:
                member.inbox.append(("beat", None))
            if self.round % 5 == 0:
                member.inbox.append(("floor", None))
            return
        member.ticks += 1
        if member.ticks >= member.patience:
            member.ticks = 0
            member.new_patience()
            member.inbox.append(("timeout", None))

    def play_round(self, request=None):
        """One round; what the node that gets the request refuses, or nothing."""
        self.round += 1
        for member in self.members.values():
            if self.group.nodes[member.number].is_up:
                self.tick(member)
        coming = sorted(it for it in self.under_way if it[0] <= self.round)
        self.under_way = [it for it in self.under_way if it[0] > self.round]
        for _, _, letter in coming:
            if self.group.nodes[letter.message.to].is_up:
                self.members[letter.message.to].inbox.append(letter)
        if request:
            self.members[request[0]].inbox.append(("submit", request[1]))
        refused = None
        for member in self.members.values():
            packets, member.inbox = member.inbox, []
            for packet in packets:
                said = self.step(member, packet)
                if not isinstance(packet, Letter) and packet[0] == "submit" and said:
                    refused = said[0].partition(" refused ")[2]
        return refused

    # Lines.

    def after(self, number):
        return number % len(self.members) + 1

    def submit(self, number, client, request, text):
        self.last_told = max([self.last_told, *(it[0] for it in self.told)])
        self.told, to, since = [], number, 0
        for _ in range(ROUNDS):
            went, since = to, since + 1
            if went:
                at, since = went, 1
            runs = went and self.group.nodes[went].is_up
            refused = self.play_round((went, (client, request, text)) if runs else None)
            to = self.after(at) if went and not runs or since == AGAIN else None
            if refused and refused.startswith("32 "):
                named = re.search("try ([0-9]+)", refused)
                to = int(named[1]) if named else self.after(at)
            elif refused:
                return f"refused {refused}"
            for index, *whose, outcome in self.told:
                if whose == [client, request] and index > self.last_told:
                    return outcome
        return "unanswered"

    def ask(self, number, text):
        printed = len(self.group.printed)
        self.group.ask(number, text)
        lines = self.group.printed[printed:]
        self.printed += lines
        first = lines[0].partition(f"node {number} ")[2]
        said = "".join(f"{line}\n" for line in lines[1:])
        if first.startswith("refused 33 "):
            said = first.removeprefix("refused ")
        elif first != "answer":
            return
        member = self.members[number]
        member.answers.append(f"answer {member.answer_mark}\n" + block("query", text) + block("text", said))

    def play(self, words):
        kind, *rest = words
        if kind == "clock":
            for number in self.members if rest[0] == "all" else rest[:1]:
                self.set_to[number] = rest[1]
        elif kind == "submit":
            number, client, request, text = rest[0], rest[1], rest[2], str(rest[3])
            self.printed.append(f"request {client} {request} {self.submit(number, client, request, text)}")
        elif kind == "settle":
            for _ in range(rest[0] if rest else 100):
                self.play_round()
        elif kind == "stop" and self.group.nodes[rest[0]].is_up:
            self.group.stop(rest[0])
            self.members[rest[0]].record.append("stopped\n")
        elif kind == "start" and not self.group.nodes[rest[0]].is_up:
            self.group.start(rest[0])
            self.open(self.members[rest[0]])
        elif kind == "ask":
            self.ask(rest[0], str(rest[1]))

    def play_all(self):
        """The lines that the run prints, and the flights of its nodes."""
        for _, words in self.script.lines:
            self.play(words)
        return [*self.printed, "audit: yes"], [self.flight(number) for number in self.members]
