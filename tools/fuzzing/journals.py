"""What the journals of a store say: docs/FORMATS.md ("Journal", "A store's folder"), and no code."""
import hashlib
import os
import re
import sqlite3

import audits
import network
import scripts
import tables as tabled

BASIS, PRIME = 14695981039346656037, 1099511628211
BLOCK = re.compile(rb"(0|[1-9][0-9]*) (0|[1-9][0-9]*)\n")
OUTCOME = re.compile("node [0-9]+ entry ([0-9]+) request ([0-9]+) ([0-9]+) (.*)")


class Wrong(Exception):
    pass


def check(is_so, words):
    if not is_so:
        raise Wrong(words)


def sum_of(text, before=BASIS):
    for byte in text:
        before = ((before ^ byte) * PRIME) % 2**64
    return before


def blocks_of(text, before):
    """The lines of all whole blocks, and the last sum."""
    at, lines = 0, b""
    while True:
        head = BLOCK.match(text, at)
        part = text[head.end() : head.end() + int(head[1])] if head else b""
        if not part or len(part) < int(head[1]) or sum_of(part, before) != int(head[2]):
            return lines, before
        lines, before, at = lines + part, int(head[2]), head.end() + len(part)


def digest_of(log):
    digest = bytes(32)
    for entry in log:
        digest = hashlib.sha256(digest + network.entry_text(entry).encode()).digest()
    return digest.hex()


def summary_of(kept):
    term, vote, floor, log = kept
    return [str(term), str(vote or 0), str(network.floor_text(floor)), str(len(log)), digest_of(log)]


class Journals:
    """The journals of a folder, played by a group."""

    def __init__(self, place):
        self.place = place
        with open(os.path.join(place, "form"), "rb") as file:
            form = file.read()
        lines = form.split(b"\n", 2)
        check(lines[0] == b"bitable store 1" and re.fullmatch(rb"members [3-7]", lines[1]), f"the form is {form[:60]!r}")
        self.members = int(lines[1][8:])
        reader = audits.Reader(lines[2])
        self.schema = reader.block("schema")
        check(reader.line() == ["end"] and reader.at == len(lines[2]), "the form has more than a form")
        tables = audits.schema_of(self.schema)
        self.group = scripts.Group(self.members, tables, tabled.Axis([]))
        self.marks, self.torn, self.printed, self.told = 0, {}, [], {}
        before = sum_of(form)
        for number in range(1, 1 + sum(name.startswith("journal") for name in os.listdir(place))):
            with open(os.path.join(place, f"journal{number}"), "rb") as file:
                text, last = blocks_of(file.read(), before)
            check(text, f"journal {number} has no whole block")
            self.play(number, before, text)
            before = last

    def play(self, number, before, text):
        group = self.group
        for node in group.nodes.values():
            axis = tabled.Axis({*re_days(text), *(day for entry in node.log if entry.request for day in re_days(entry.request[2].encode()))})
            node.make_tables = lambda axis=axis: tabled.Tables(group.schema, axis)
            node.is_up = False
        group.messages.clear()
        self.had = {(at, entry) for node in group.nodes.values() for at, entry in enumerate(node.log, 1)}
        self.written, self.reader = set(), audits.Reader(text)
        self.reader.version = 3
        words = self.reader.line()
        check(words == ["opens", str(number), str(before), str(self.marks)], f"journal {number} begins with {words}")
        while self.reader.at < len(text):
            words = self.reader.line()
            getattr(self, f"take_{words[0]}")(*words[1:])

    def settled(self, number, summary):
        """What a member has stored, which has to be this: of a step that was cut short what was before it or what is after."""
        node = self.group.nodes[number]
        if number in self.torn:
            kept = self.torn.pop(number)
            if summary == summary_of(kept):
                node.term, node.vote, node.floor, node.log = kept
        check(summary == summary_of(node.kept()), f"of node {number} it says {summary}, and not {summary_of(node.kept())}")

    def take_rests(self, number, *summary):
        self.settled(int(number), list(summary))

    def take_life(self, number, *summary):
        self.settled(int(number), list(summary))
        self.group.start(int(number))
        self.marks += 1

    def take_clock(self, reading):
        self.group.clocks = dict.fromkeys(self.group.clocks, int(reading))

    def take_takes(self, number, kind, *rest):
        group, number = self.group, int(number)
        node, before = group.nodes[number], group.nodes[number].kept()
        check(node.is_up, f"node {number} is down and takes {kind}")
        messages, printed = len(group.messages), len(group.printed)
        if kind == "message":
            message = group.messages[int(rest[0]) - 1]
            check(message.to == number, f"node {number} takes the message {message}")
            group.take(message)
        else:
            request = self.reader.request(list(rest)) if rest else None
            group.input(number, kind, request)
            if request and group.printed[printed:] and not group.printed[-1].startswith("sent "):
                self.told.setdefault(request[:2], set()).add(group.printed[-1].partition(f"node {number} ")[2])
        self.marks += 1
        told = [OUTCOME.fullmatch(line) for line in group.printed[printed:]]
        self.finish(number, before, messages, [(int(it[1]), int(it[2]), int(it[3]), it[4]) for it in told if it])

    def finish(self, number, before, messages, told):
        """What stands behind a step: what it is about to store, and what it told first of all; or it is cut short."""
        group, node = self.group, self.group.nodes[number]
        saves = self.next_words("saves")
        if saves:
            check(saves[1:] == [str(number), *summary_of(node.kept())], f"node {number} saves {saves}")
        made = self.next_words("made")
        if not made:
            del group.messages[messages:]
            self.torn[number], node.is_up = before, False
            return
        check(made[1:] == [str(number)] and bool(saves) == (node.kept() != before), f"behind a step of node {number} stands {saves} and {made}")
        wanted = []
        for outcome in told:
            entry = outcome[0], node.log[outcome[0] - 1]
            if entry not in self.had and entry not in self.written:
                self.written.add(entry)
                wanted.append(outcome)
            self.told.setdefault(outcome[1:3], set()).add(outcome[3])
        found = self.reader.told()
        check(found == wanted, f"node {number} tells {found}, and not {wanted}")

    def next_words(self, word):
        """The next line, if it begins so."""
        is_next = self.reader.at < len(self.reader.text) and self.reader.peek().startswith(f"{word} ")
        return self.reader.line() if is_next else None

    def take_ends(self, number):
        self.group.stop(int(number))

    def take_answer(self, number):
        query, text = self.reader.block("query"), self.reader.block("text")
        printed = len(self.group.printed)
        self.group.ask(int(number), query)
        first, *lines = self.group.printed[printed:]
        refused = re.fullmatch("node [0-9]+ refused (33 .*)", first)
        wanted = refused[1] if refused else "".join(f"{line}\n" for line in lines)
        check(text == wanted, f"node {number} answers {text!r}, and not {wanted!r}")

    def take_printed(self, client, number):
        text = self.reader.block("text")
        self.printed.append(f"request {client} {number} {text}")
        check(text == "unanswered" or text in self.told.get((int(client), int(number)), ()), f"{self.printed[-1]!r} is printed, and was not told")

    def look_at_databases(self):
        for number, node in self.group.nodes.items():
            stored, can_be = stored_in(os.path.join(self.place, f"node{number}.db")), [wanted_in(*node.kept())]
            if number in self.torn:
                can_be.append(wanted_in(*self.torn[number]))
            check(stored in can_be, f"node{number}.db has {str(stored)[:300]}, and not {str(can_be)[:300]}")


def stored_in(path):
    """The term, the vote, the floor and the log in a database."""
    connection = sqlite3.connect(f"file:{path}?mode=ro", uri=True)
    try:
        return [connection.execute(words).fetchall() for words in (
            "SELECT id, term, vote FROM meta", "SELECT id, t FROM floor", "SELECT idx, term, stamp, client, number, body FROM log ORDER BY idx")]
    finally:
        connection.close()


def wanted_in(term, vote, floor, log):
    rows = [(at, it.term, it.stamp, *(it.request or (0, 0, ""))) for at, it in enumerate(log, 1)]
    return [[(1, term, vote or 0)], [(1, network.floor_text(floor))], rows]


def re_days(text):
    """All days that stand anywhere in a text."""
    for found in re.findall(rb"'([0-9]{4}-[0-9]{2}-[0-9]{2})'", text):
        try:
            yield tabled.datetime.date.fromisoformat(found.decode())
        except ValueError:
            pass
