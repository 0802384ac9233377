"""A group of members and the messages between them: the tables of docs/FORMATS.md ("Script", "What a node does", "Requests"), and no code.

What a request or a question comes to says a group over this one (`scripts`).
"""
import collections

LAST = 253402214399999999
SENT_AT_ONCE = 64
KEPT = 8
Entry = collections.namedtuple("Entry", "term stamp request")
Message = collections.namedtuple("Message", "sender to term kind body")
Seal = collections.namedtuple("Seal", "term index floor")


def shown(value):
    """What a line says of a part of a message: yes or no, how many entries, a number or none."""
    if isinstance(value, bool):
        return "yes" if value else "no"
    return len(value) if isinstance(value, list) else "none" if value is None else value


def greatest(*numbers):
    """The greatest of those that are there, or none."""
    return max((it for it in numbers if it is not None), default=None)


class Node:
    def __init__(self, number, count):
        self.number, self.count = number, count
        self.term, self.vote, self.floor, self.log = 0, None, None, []
        self.is_up = True
        self.forget()

    def forget(self):
        """All that is not stored is gone."""
        self.leader, self.commit, self.sealed, self.waiting = None, 0, None, None
        self.executed, self.outcomes = collections.Counter(), {}
        self.follow()

    def follow(self):
        self.role, self.votes, self.told_floor = "follower", set(), None
        self.next, self.match, self.asked, self.stored = {}, {}, None, set()

    def others(self):
        return [it for it in range(1, self.count + 1) if it != self.number]

    def is_majority(self, members):
        return 2 * members > self.count

    def term_at(self, index):
        return self.log[index - 1].term if 0 < index <= len(self.log) else 0

    def last_term(self):
        return self.term_at(len(self.log))

    def last_stamp(self):
        return self.log[-1].stamp if self.log else None

    def closed(self):
        return greatest(self.log[self.commit - 1].stamp if self.commit else None, self.sealed)


class Group:
    def __init__(self, count):
        self.nodes = {it: Node(it, count) for it in range(1, count + 1)}
        self.clocks = dict.fromkeys(self.nodes, 0)
        self.messages, self.passed, self.printed = [], set(), []

    # What is sent, told and refused.

    def send(self, node, to, kind, *body):
        self.messages.append(Message(node.number, to, node.term, kind, body))
        said = {
            "votereq": "last {} {}", "vote": "{} floor {}", "append": "prev {} {} commit {} entries {}",
            "reply": "{} {}", "seek": "index {} floor {}", "stored": "index {} floor {}", "seal": "index {} floor {}",
        }[kind]
        said = said.format(*map(shown, body))
        self.printed.append(f"sent {len(self.messages)} {node.number}->{to} {kind} term {node.term} {said}")

    def send_all(self, node, kind, *body):
        for to in node.others():
            self.send(node, to, kind, *body)

    def append(self, node, to):
        before = node.next[to] - 1
        entries = node.log[before:before + SENT_AT_ONCE]
        self.send(node, to, "append", before, node.term_at(before), node.commit, entries)

    def append_all(self, node):
        for to in node.others():
            self.append(node, to)

    def refuse(self, number, words):
        self.printed.append(f"node {number} refused {words}")

    def apply(self, node, index):
        """The commit index rises to this one: what the node tells, after the messages of the step."""
        told = []
        for at in range(node.commit + 1, index + 1):
            entry = node.log[at - 1]
            if entry.request:
                outcome = self.outcome(node, entry)
                told.append(f"node {node.number} entry {at} request {entry.request[0]} {entry.request[1]} {outcome}")
        node.commit = max(node.commit, index)
        if node.waiting and self.is_settled(node, node.waiting):
            node.sealed, node.waiting = greatest(node.sealed, node.waiting.floor), None
        return told

    # Inputs.

    def input(self, number, kind, request=None):
        node = self.nodes[number]
        if not node.is_up:
            self.refuse(number, "41 node down")
        elif kind == "timeout" and node.role != "leader":
            node.follow()
            node.term, node.vote, node.role = node.term + 1, number, "candidate"
            node.votes, node.told_floor = {number}, node.floor
            self.send_all(node, "votereq", len(node.log), node.last_term())
        elif kind == "beat" and node.role == "leader":
            self.append_all(node)
        elif kind in ("close", "submit") and node.role != "leader":
            self.refuse(number, "32 not leader" + (f", try {node.leader}" if node.leader else ""))
        elif kind in ("close", "submit"):
            if self.add(node, request):
                self.append_all(node)
            else:
                self.refuse(number, "35 time is full")
        elif kind == "floor" and node.role == "leader" and node.last_term() == node.term:
            node.floor = greatest(self.reading(number), node.last_stamp(), node.floor)
            node.asked, node.stored = (len(node.log), node.floor), {number}
            self.send_all(node, "seek", *node.asked)

    def reading(self, number):
        return self.clocks[number] if 0 <= self.clocks[number] <= LAST else None

    def add(self, node, request):
        """An entry of the node's term, where a stamp is left."""
        last = greatest(node.last_stamp(), node.floor)
        least = 0 if last is None else last + 1
        if least <= LAST:
            node.log.append(Entry(node.term, greatest(least, self.reading(node.number)), request))
        return least <= LAST

    # Messages.

    def take(self, message):
        node = self.nodes[message.to]
        if message.term > node.term:
            node.term, node.vote, node.leader = message.term, None, None
            node.follow()
        getattr(self, f"take_{message.kind}")(node, message, *message.body)

    def take_votereq(self, node, message, index, term):
        is_ahead = (term, index) >= (node.last_term(), len(node.log))
        is_given = message.term == node.term and node.vote in (None, message.sender) and is_ahead
        if is_given:
            node.vote = message.sender
        self.send(node, message.sender, "vote", is_given, node.floor)

    def take_vote(self, node, message, is_given, floor):
        if node.role != "candidate" or message.term != node.term or not is_given:
            return
        node.votes.add(message.sender)
        node.told_floor = greatest(node.told_floor, floor)
        if node.is_majority(len(node.votes)):
            node.role, node.leader, node.floor = "leader", node.number, greatest(node.floor, node.told_floor)
            node.next = dict.fromkeys(node.others(), len(node.log) + 1)
            node.match = dict.fromkeys(node.others(), 0)
            self.add(node, None)
            self.append_all(node)

    def take_append(self, node, message, before, term, commit, entries):
        if message.term < node.term:
            self.send(node, message.sender, "reply", False, 0)
            return
        node.follow()
        node.leader = message.sender
        if before and node.term_at(before) != term:
            self.send(node, message.sender, "reply", False, 0)
            return
        for at, entry in enumerate(entries, before + 1):
            if node.term_at(at) != entry.term:
                assert at > node.commit
                node.log[at - 1:] = entries[at - before - 1:]
                break
        last = before + len(entries)
        told = self.apply(node, max(node.commit, min(commit, last)))
        self.send(node, message.sender, "reply", True, last)
        self.printed += told

    def take_reply(self, node, message, is_taken, index):
        if node.role != "leader" or message.term != node.term:
            return
        sender = message.sender
        if not is_taken:
            node.next[sender] = max(1, node.next[sender] - 1)
            self.append(node, sender)
            return
        node.match[sender] = max(node.match[sender], index)
        node.next[sender] = node.match[sender] + 1
        have = [at for at in range(node.commit + 1, len(node.log) + 1)
                if node.term_at(at) == node.term and node.is_majority(1 + sum(it >= at for it in node.match.values()))]
        if have:
            told = self.apply(node, have[-1])
            self.append_all(node)
            self.printed += told
        elif node.next[sender] <= len(node.log):
            self.append(node, sender)

    def take_seek(self, node, message, index, floor):
        if message.term == node.term:
            node.follow()
            node.leader, node.floor = message.sender, greatest(node.floor, floor)
            self.send(node, message.sender, "stored", index, floor)

    def take_stored(self, node, message, index, floor):
        if node.role != "leader" or message.term != node.term or node.asked != (index, floor):
            return
        was = node.is_majority(len(node.stored))
        node.stored.add(message.sender)
        if node.is_majority(len(node.stored)) and not was:
            self.learn(node, Seal(node.term, index, floor))
            self.send_all(node, "seal", index, floor)

    def take_seal(self, node, message, index, floor):
        self.learn(node, Seal(message.term, index, floor))

    def is_settled(self, node, seal):
        return seal.index <= node.commit and node.term_at(seal.index) == seal.term

    def learn(self, node, seal):
        if self.is_settled(node, seal):
            node.sealed = greatest(node.sealed, seal.floor)
        elif node.waiting is None or node.waiting.floor < seal.floor:
            node.waiting = seal

    # The other lines of a script.

    def deliver(self, number, is_told=True):
        self.passed.add(number)
        message = self.messages[number - 1]
        if self.nodes[message.to].is_up:
            self.take(message)
        elif is_told:
            self.refuse(message.to, "41 node down")

    def settle(self, rounds):
        for _ in range(rounds):
            for number in [it for it in range(1, len(self.messages) + 1) if it not in self.passed]:
                self.deliver(number, False)

    def stop(self, number):
        self.nodes[number].is_up = False

    def start(self, number):
        if not self.nodes[number].is_up:
            self.nodes[number].is_up = True
            self.nodes[number].forget()
